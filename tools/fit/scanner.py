"""The tokens of a ruleset as fit reads them: refused where nft(8) knows none, and as text again."""
from __future__ import annotations

import re
from dataclasses import replace
from typing import Sequence

from toolbox.lexer import Kind, Source, Token, tokens_in

NOWHERE = Source("", "")
END = Token(Kind.END, "", NOWHERE, 0, 0, 0)
COMMENT = re.compile(r"[ \t]*;?[ \t]*(#(?! handle [0-9]+\s*$)[^\n]*)", re.MULTILINE)


class Refused(Exception):
    """A ruleset that can't be used; the text is one line and says why and where."""


def place(token: Token) -> str:
    return f"{token.source.name}:{token.line}"


def refuse(token: Token, why: str) -> Refused:
    return Refused(f"{place(token)}: {why}" if token.source.name else why)


def scan(source: Source) -> list[Token]:
    """All tokens of a text but blanks; Refused where nft(8) knows none."""
    tokens = list(tokens_in(source))
    for token in tokens:
        if token.kind is Kind.UNKNOWN:
            shown_text = source.text[token.start : token.start + 20].split("\n")[0]
            raise Refused(f"{place(token)}: {shown_text!r} begins nothing that nft(8) knows")
    return tokens


def spelled(tokens: Sequence[Token]) -> str:
    """Tokens as text on one line, with blanks where they are usual."""
    text = ""
    for token in tokens:
        if token.kind is Kind.NEWLINE:
            continue
        tight = not text or token.text in (",", ";", "]", ")") or text[-1] in "@([" or is_tight(text, token.text)
        text += ("" if tight else " ") + token.text
    return text


def is_tight(text: str, mark: str) -> bool:
    """Ranges, prefixes and ports are written without blanks: `80-90`, `10.0.0.0/8`, `to :80`."""
    if mark in ("-", "/"):
        return not text.endswith(("priority", "filter", "srcnat", "dstnat", "raw", "mangle", "security"))
    return text[-1] in "-/" or text.endswith(" to :")


def slice_of(tokens: Sequence[Token]) -> str | None:
    """The text of the tokens just as it stands in its file, or None where it isn't all from there."""
    if not tokens or any(it.start < 0 or it.source is not tokens[0].source for it in tokens):
        return None
    return tokens[0].source.text[tokens[0].start : tokens[-1].end]


def comment_behind(tokens: Sequence[Token]) -> str:
    """The comment that stands behind tokens on their last line, with a blank before it, or nothing."""
    last = tokens[-1]
    found = COMMENT.match(last.source.text, last.end) if last.end >= 0 else None
    return f" {found[1].rstrip()}" if found else ""


def shown(tokens: Sequence[Token]) -> str:
    """Tokens on one line, as they stand in their file where that is possible."""
    text = slice_of(tokens)
    if text is None or "#" in text or "\\" in text:
        return spelled(tokens)
    return " ".join(text.split())


def moved(token: Token, to: Token) -> Token:
    """The token of a definition, as if it stood where the definition is used."""
    return replace(token, source=to.source, line=to.line, start=-1, end=-1)
