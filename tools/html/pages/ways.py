"""The hooks from prerouting to postrouting, with the packets that came to each and what was dropped there."""
from __future__ import annotations

from collections import Counter
from dataclasses import dataclass
from typing import TYPE_CHECKING, Sequence

from pages.model import AFTER_ALL, BEFORE
from pages.texts import number, plural, shown

if TYPE_CHECKING:
    from pages.model import Model
    from toolbox.rulesets import Ruleset


@dataclass(frozen=True)
class Station:
    """A place on the way, as it is called and what is done there."""

    name: str
    label: str
    note: str


TRUNK = (
    Station("headers", "headers", "link header, IPv4 and transport headers"),
    Station("prerouting", "prerouting", "look-up of connections, destinations translated"),
    Station("routing", "routing", "for the box itself, or by which interface"),
)
TO_BOX = (Station("input", "input", "for the box itself"),)
ONWARD = (
    Station("ttl", "TTL", "lowered by one"),
    Station("forward", "forward", "forward"),
    Station("postrouting", "postrouting", "sources translated, connections begun"),
)
FILTERED = ("prerouting", "input", "forward", "postrouting")


class Ways:
    """How many packets came to each place, and what was dropped there by which cause."""

    def __init__(self, model: Model) -> None:
        stations = (*TRUNK, *TO_BOX, *ONWARD)
        self.drops: dict[str, Counter[str]] = {station.name: Counter() for station in stations}
        self.passed, self.local = model.causes["passed"], model.causes["local"]
        for (stage, outcome), many in model.dropped_in.items():
            place = place_of(model.ruleset, stage, outcome)
            if place:
                self.drops[place][outcome] += many
        total = model.count - sum(model.causes[outcome] for outcome in AFTER_ALL[2:])
        lost = {place: sum(causes.values()) for place, causes in self.drops.items()}
        self.come = {"headers": total, "prerouting": total - lost["headers"]}
        self.come["routing"] = self.come["prerouting"] - lost["prerouting"]
        self.come["input"] = self.local + lost["input"]
        self.come["postrouting"] = self.passed + lost["postrouting"]
        self.come["forward"] = self.come["postrouting"] + lost["forward"]
        self.come["ttl"] = self.come["forward"] + lost["ttl"]


def place_of(ruleset: Ruleset, stage: str, outcome: str) -> str | None:
    """The station where packets of an outcome ended, or None where they weren't dropped."""
    if outcome in AFTER_ALL:
        return None
    if outcome in BEFORE:
        return "headers"
    if outcome in ("route", "ttl"):
        return "routing" if outcome == "route" else "ttl"
    chain = ruleset.by_name.get(stage)
    hook = chain.hook if chain else None
    if outcome == "rule":
        return hook if hook in FILTERED else "forward"
    return "input" if hook == "input" else "postrouting"


def ways_html(model: Model) -> str:
    """Prerouting to postrouting; each drop leads to its records."""
    ways = Ways(model)
    to_box = stations_html(ways, TO_BOX) + end_html("to the box", ways.local, "local")
    onward = stations_html(ways, ONWARD) + end_html("left", ways.passed, "passed")
    return (f'<div class="ways"><ol class="trunk">{stations_html(ways, TRUNK)}</ol>'
            f'<div class="branches"><ol>{to_box}</ol><ol>{onward}</ol></div></div>')


def stations_html(ways: Ways, stations: Sequence[Station]) -> str:
    return "".join(station_html(ways, station) for station in stations)


def station_html(ways: Ways, station: Station) -> str:
    many = ways.come[station.name]
    drops = "".join(
        f'<a href="#outcome={shown(cause)}&amp;at={station.name}" class="drop" '
        f'title="{plural(dropped, "packet")} dropped: {shown(cause)}"><span>{shown(cause)}</span> '
        f"<b>{number(dropped)}</b></a>" for cause, dropped in ways.drops[station.name].most_common())
    return (f'<li{"" if many else " class=unmet"}><div class="place" title="{shown(station.note)}">'
            f'<span>{shown(station.label)}</span> <b>{number(many)}</b></div>{drops}</li>')


def end_html(label: str, many: int, outcome: str) -> str:
    return (f'<li{"" if many else " class=unmet"}><a href="#outcome={outcome}" class="place end"><span>{shown(label)}'
            f"</span> <b>{number(many)}</b></a></li>")
