"""Decisions of rules and policies, as text and as HTML."""
from __future__ import annotations

from typing import TYPE_CHECKING

from pages.texts import shown

if TYPE_CHECKING:
    from toolbox.differences import Told


def told_text(told: Told) -> str:
    if told.chain is None:
        return f"{told.verdict}: {told.text}"
    if told.number is None:
        return f"policy {told.verdict} of {told.chain}"
    return f"{told.text}  ({told.chain} {told.number})"


def told_html(told: Told) -> str:
    """A decision and its rule's text."""
    verdict_html = f'<span class="verdict {"drop" if told.verdict == "drop" else "go"}">{shown(told.verdict)}</span>'
    if told.chain is None:
        return f'<span class="verdict">{shown(told.verdict)}</span> {shown(told.text)}'
    if told.number is None:
        return f'{verdict_html} policy of <span class="chain">{shown(told.chain)}</span>'
    return (f'{verdict_html} <code>{shown(told.text)}</code> '
            f'<span class="chain">{shown(told.chain)} {told.number}</span>')
