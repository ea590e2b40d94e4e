"""What another ruleset changes of all packets, captured or not, as `nftrun diff` finds it."""
from __future__ import annotations

from typing import TYPE_CHECKING

from pages.texts import number, shown
from pages.told import told_html

if TYPE_CHECKING:
    from toolbox.differences import Told
    from toolbox.every_packet import EveryPacket, ToldClass

MOST_CLASSES, MOST_SETS = 20, 5
MEANS = ("with which packets, captured or not, the rulesets do something different in a stage of the hooks, as "
         "<code>nftrun diff</code> finds them")


def classes_html(known: EveryPacket | None) -> str:
    """The part of the page that tells it; nothing where it wasn't asked for a fault that a run would have told."""
    if known is None:
        return ""
    if not known.classes:
        kind = "same" if known.is_same else "bound"
        text = known.text()
        return f'<p class="{kind}" id="every">{shown(text[0].upper() + text[1:])}.</p>'
    text = known.text().removeprefix("of all packets ")
    head = (f'<h3><span class="mark"></span>Of all packets <span class="many">{shown(text)}</span></h3>'
            f'<p class="means">{MEANS}</p>')
    rows = "".join(map(class_html, known.classes[:MOST_CLASSES]))
    if len(known.classes) > MOST_CLASSES or known.more:
        rows += (f'<p class="bound">The first {number(min(MOST_CLASSES, len(known.classes)))} classes are listed; '
                 "<code>nftrun diff</code> lists more.</p>")
    return f'<section class="kind classes" id="every">{head}{rows}</section>'


def class_html(one: ToldClass) -> str:
    sets = "".join(f"<li><code>{shown(line)}</code></li>" for line in one.packets(MOST_SETS))
    return (f'<article class="group"><dl class="rules"><dt>at</dt><dd>{shown(one.it.stage)}</dd>'
            f"<dt>old</dt><dd>{side_html(one.old, one.it.old.written, 'O')}</dd>"
            f"<dt>new</dt><dd>{side_html(one.new, one.it.new.written, 'N')}</dd></dl>"
            f'<ul class="sets">{sets}</ul></article>')


def side_html(told: Told, written: tuple[str, ...], letter: str) -> str:
    """What one ruleset does, with a link to the line of its text."""
    marks = "".join(f" with {shown(one)}" for one in written)
    line = f' <a href="#{letter}{told.line}">line {told.line}</a>' if told.line else ""
    return f"{told_html(told)}{marks}{line}"
