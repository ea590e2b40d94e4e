"""What was dropped: over the time of the capture, and by sender. Colours are the style sheet's, by classes; places in a
drawing are shares of its width, so that texts keep their size."""
from __future__ import annotations

from collections import Counter
from typing import TYPE_CHECKING, Iterator, Sequence

from pages.model import AFTER_ALL
from pages.texts import number, plural, seconds_text, shown

if TYPE_CHECKING:
    from pages.model import Model
    from pages.tables import Sender

CAUSE_CLASSES = 6  # colours of causes; further ones share the last
BINS = 80
HEIGHT = 150
MOST_SENDERS, SHARE_WIDTH = 12, 160
SECOND, MINUTE, HOUR = 10**9, 60 * 10**9, 3600 * 10**9
ROUND_TIMES = (
    *(digit * 10**power for power in range(11) for digit in (1, 2, 5) if digit * 10**power < 20 * SECOND),
    *(many * SECOND for many in (20, 30)), *(many * MINUTE for many in (1, 2, 5, 10, 20, 30)),
    *(many * HOUR for many in (1, 2, 3, 6, 12)))
MOST_STEPS = 4
NEAR = 0.2  # of the axis: an end so near to the last round time isn't named


def cause_order(model: Model) -> list[str]:
    """The causes that occur, most drops first; their places are their colours."""
    return [cause for cause, _ in model.causes.most_common() if cause not in AFTER_ALL]


def cause_class(causes: Sequence[str], cause: str) -> str:
    return f"c{min(causes.index(cause), CAUSE_CLASSES - 1)}"


def drops_html(model: Model) -> str:
    """The chart, and the senders of what was dropped."""
    causes = cause_order(model)
    if not causes:
        return '<p class="none">Nothing was dropped.</p>'
    legend = "".join(
        f'<a href="#outcome={shown(cause)}"><i class="swatch {cause_class(causes, cause)}"></i>{shown(cause)} '
        f"<b>{number(model.causes[cause])}</b></a>" for cause in causes)
    return (f'<figure>{chart_html(model, causes)}<figcaption class="legend">{legend}</figcaption></figure>'
            f"<h3>Senders of what was dropped</h3>{senders_html(model, causes)}")


# Over time


def ticks(span: int) -> Iterator[tuple[float, str]]:
    """The round times of an axis that is `span` nanoseconds long, each with its share of it; one where all times are
    equal."""
    if not span:
        yield 0.0, "0 s"
        return
    step = next((one for one in ROUND_TIMES if span <= MOST_STEPS * one), 0)
    if not step:
        day = 24 * HOUR
        step = day * -(-span // (MOST_STEPS * day))
    last = span // step * step
    for moment in range(0, last + 1, step):
        yield moment / span, seconds_text(moment) if moment else "0 s"
    if 1 - last / span > NEAR:
        yield 1.0, seconds_text(span)


def chart_html(model: Model, causes: Sequence[str]) -> str:
    """Stacked bars; where all records have one time there is one bar, and one time at the axis."""
    bins: list[Counter[str]] = [Counter() for _ in range(BINS if model.span else 1)]
    for moment, cause in zip(model.drop_moments, model.drop_causes):
        place = (moment - model.first) * BINS // model.span if model.span else 0
        bins[min(len(bins) - 1, place)][model.cause_numbers.all[cause]] += 1
    highest = max(sum(one.values()) for one in bins)
    levels = sorted({0, round(highest / 2), highest}, reverse=True)
    scale = "".join(f"<span>{number(level)}</span>" for level in levels)
    grid = "".join(f'<rect class="grid" x="0" y="{HEIGHT * (1 - level / highest):.1f}" width="100%" height="1"/>'
                   for level in levels)
    bars = "".join(bar_svg(place, one, causes, highest, model.span) for place, one in enumerate(bins))
    return (f'<div class="chart"><div class="scale">{scale}</div>'
            f'<svg class="bars" width="100%" height="{HEIGHT + 1}" role="img" aria-labelledby="drops-title">'
            f'<title id="drops-title">Dropped packets over time, by cause</title>{grid}{bars}</svg>'
            f'<svg class="axis" width="100%" height="20">{axis_svg(model.span)}</svg></div>'
            + ("" if model.span else '<p class="none">All records have one time.</p>'))


def axis_svg(span: int) -> str:
    found = list(ticks(span))
    return "".join(
        f'<text x="{100 * share:.2f}%" y="14"{anchor_of(share)}>{text}</text>' for share, text in found)


def anchor_of(share: float) -> str:
    """A text at an end of the axis stays within it."""
    return ' class="start"' if share < 0.05 else ' class="end"' if share > 0.93 else ""


def bar_svg(place: int, counts: Counter[str], causes: Sequence[str], highest: int, span: int) -> str:
    parts, y, width = [], float(HEIGHT), 100 / BINS
    when = f"{seconds_text(span * place // BINS)} to {seconds_text(span * (place + 1) // BINS)}" if span else "at 0 s"
    for cause in causes:
        if counts[cause]:
            height = counts[cause] / highest * HEIGHT
            y -= height
            parts.append(
                f'<rect class="{cause_class(causes, cause)}" x="{place * width + 0.07:.2f}%" y="{y:.2f}" '
                f'width="{width - 0.14:.2f}%" height="{max(height, 0.6):.2f}"><title>'
                f'{plural(counts[cause], "packet")} for {shown(cause)}, {when}</title></rect>')
    return "".join(parts)


# By sender


def senders_html(model: Model, causes: Sequence[str]) -> str:
    senders = model.top_senders(MOST_SENDERS)
    if not senders:
        return '<p class="none">None of it carries an IPv4 packet.</p>'
    most = senders[0][1].packets
    rows = "".join(sender_html(address, sender, causes, most) for address, sender in senders)
    many = len(model.senders)
    bound = (f'<p class="bound">{MOST_SENDERS} of {number(many)} senders are listed.</p>'
             if many > MOST_SENDERS else "")
    return ('<table class="senders"><thead><tr><th scope="col">sender</th><th scope="col" class="num">packets</th>'
            '<th scope="col" class="share"></th><th scope="col">cause</th><th scope="col">first</th></tr></thead>'
            f"<tbody>{rows}</tbody></table>{bound}")


def sender_html(address: str, sender: Sender, causes: Sequence[str], most: int) -> str:
    told = ", ".join(f"{shown(cause)} {number(many)}" for cause, many in sender.causes.most_common())
    return (f'<tr><th scope="row"><a href="#sender={address}">{address}</a></th>'
            f'<td class="num">{number(sender.packets)}</td>'
            f'<td class="share">{shares_svg(sender, causes, most)}</td><td>{told}</td>'
            f'<td><a href="#record={sender.first}">record {number(sender.first)}</a></td></tr>')


def shares_svg(sender: Sender, causes: Sequence[str], most: int) -> str:
    """One bar of a sender's drops, by cause."""
    parts, x = [], 0.0
    for cause, many in sender.causes.most_common():
        width = SHARE_WIDTH * many / most
        parts.append(f'<rect class="{cause_class(causes, cause)}" x="{x:.1f}" y="1" width="{max(width, 1):.1f}" '
                     'height="10"/>')
        x += width
    return (f'<svg viewBox="0 0 {SHARE_WIDTH} 12" width="{SHARE_WIDTH}" height="12" aria-hidden="true">'
            f'{"".join(parts)}</svg>')
