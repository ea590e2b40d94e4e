"""Text for HTML and for the page's data. Names, comments and prefixes come from files of strangers: all of it goes
through here."""
from __future__ import annotations

import base64
import html
import json
import zlib

from toolbox.commands import printable


def shown(text: object) -> str:
    """The text as HTML, also between double quotes; what isn't printable is spelled out."""
    return html.escape(printable(str(text)), quote=True)


def number(value: int) -> str:
    """12,345"""
    return f"{value:,}"


def plural(value: int, word: str, words: str | None = None) -> str:
    """1 packet, 12,345 packets"""
    return f"{number(value)} {word if value == 1 else words or word + 's'}"


def clean(value: object) -> object:
    """The value for JSON, with what isn't printable in its strings spelled out."""
    if isinstance(value, str):
        return printable(value)
    if isinstance(value, (list, tuple)):
        return [one if isinstance(one, int) else clean(one) for one in value]
    if isinstance(value, dict):
        return {name: clean(one) for name, one in value.items()}
    return value


def packed(value: object) -> str:
    """The value as JSON, deflated, in base64: letters, digits, + / = alone."""
    data = json.dumps(clean(value), separators=(",", ":")).encode("ascii")
    return base64.b64encode(zlib.compress(data, 6)).decode("ascii")


def seconds_text(nanoseconds: float) -> str:
    """1.6 s, 3 min 20 s, 2 h 5 min"""
    seconds = nanoseconds / 1e9
    if seconds < 60:
        return f"{seconds:.3g} s" if seconds < 10 else f"{seconds:.0f} s"
    minutes, rest = divmod(round(seconds), 60)
    if minutes < 60:
        return f"{minutes} min {rest} s" if rest else f"{minutes} min"
    hours, minutes = divmod(minutes, 60)
    return f"{hours:,} h {minutes} min" if minutes else f"{hours:,} h"
