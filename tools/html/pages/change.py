"""What another ruleset changes, as compare finds it, for the page's beginning."""
from __future__ import annotations

from typing import TYPE_CHECKING, Iterable, Sequence

from pages.both import Both, Text
from pages.classes import classes_html
from pages.model import hits_of
from pages.texts import number, plural, shown
from pages.told import told_html, told_text
from pages.verdict import uncompared, verdict
from toolbox.could_meet import could_meet
from toolbox.differences import BLOCKED, OPENED, OTHERWISE, REWRITTEN, Groups, Sight, differing
from toolbox.every_packet import Version, every_packet
from toolbox.evidence import Evidence
from toolbox.flows import Flows
from toolbox.guard import USUAL, AllowList, Guard, Seen, unmet_of
from toolbox.packets import TCP, address_text
from toolbox.program import find_program
from toolbox.replay import Cut, Files, Replay
from toolbox.router import Router

if TYPE_CHECKING:
    from pages.both import Noted
    from pages.model import RuleHits
    from toolbox.boxes import Box
    from toolbox.could_meet import CouldMeet
    from toolbox.differences import Group

KINDS = (OPENED, BLOCKED, REWRITTEN, OTHERWISE)
MOST_GROUPS, MOST_HOSTS, MOST_PORTS, MOST_RECORDS, MOST_NOTED = 60, 6, 8, 200, 20
TITLES = {OPENED: "Opened", BLOCKED: "Blocked", REWRITTEN: "Rewritten only", OTHERWISE: "Dropped for another cause"}
MEANS = {
    OPENED: "dropped by the old ruleset, and goes through now",
    BLOCKED: "went through by the old ruleset, and is dropped now",
    REWRITTEN: "goes through by both, and leaves with other bytes or by another interface",
    OTHERWISE: "dropped by both, for another cause",
}


class Change:
    """What differs between two rulesets over a capture: `groups`, `records` with the first records of each, `seen`
    with what compare keeps, and the `verdict`; `every` is what is known of all packets, for which so many seconds are
    left. `before` and `after` are the replays, whose files are in the folder."""

    def __init__(self, old: str, new: str, box: Box, capture: str, folder: str, seconds: int) -> None:
        flows = Flows(capture, box)
        self.box, self.program = box, find_program()
        self.before, self.after = replays(self.program, old, new, box.path, flows, folder)
        what = differing(self.before, self.after)
        self.groups = Groups(flows, Sight(self.before), Sight(self.after), what)
        self.records: dict[int, list[int]] = {}
        for record, _, group in self.groups.each():
            kept = self.records.setdefault(group.number, [])
            if len(kept) < MOST_RECORDS:
                kept.append(record)
        self.evidence, self.router = Evidence(*self.groups.sights), Router(flows, box, self.before)
        self.seen = self.as_seen(flows, sum(map(bool, what)))
        unsettled = [replay.rules for replay in (self.before, self.after) if not replay.settled]
        self.every = every_packet(Version(old, old), Version(new, new), box.path, seconds)
        self.verdict = verdict(self.seen, self.groups.flow_counts, unsettled, self.every)

    def as_seen(self, flows: Flows, differ: int) -> Seen:
        """What compare keeps of it."""
        nothing = None if self.groups.all else self.evidence.nothing_compared()
        is_blind = nothing is not None and not any(side.reached for side in self.evidence.sides)
        return Seen(flows.path, Guard(USUAL, AllowList()).judged(self.groups.all), unmet_of(self.evidence),
                    tuple(self.evidence.untold), nothing, is_blind, flows.torn, flows.count, differ,
                    tuple(line.strip() for line in self.router.lines()), self.router.not_compared())

    @property
    def doubts(self) -> list[str]:
        """What a reader has to know before all else."""
        return [*self.seen.router, *filter(None, [uncompared(self.seen)])]

    @property
    def is_clean(self) -> bool:
        """Whether something differs, or all was compared, or the rulesets do the same with every packet."""
        is_same = self.every is not None and self.every.is_same
        return bool(self.groups.all) or is_same or not self.seen.nothing and not self.seen.router

    def of_kind(self, kind: str) -> list[Group]:
        chosen = [group for group in self.groups.all if group.kind == kind]
        return sorted(chosen, key=lambda group: (-group.flows, group.number))

    def data(self) -> list[list[object]]:
        """Of each group, for records: its number, kind, what the old and the new ruleset say, and its records."""
        return [[group.number, group.kind, told_text(group.old), told_text(group.new), self.records[group.number]]
                for group in self.groups.all]

    def texts(self, hits: RuleHits, known: CouldMeet, seconds: int, folder: str) -> tuple[Text, Text]:
        """Both rulesets with the hits of each in its own run; `hits` are those of the new one, and `known` what is
        known of its rules. So many seconds are left for what is asked of the old one."""
        old, new = self.evidence.sides
        before = hits_of(self.program, self.before, folder)
        old_known = could_meet(old.ruleset, self.before.rules, self.box, seconds)
        return Text(old, old_known, before, "O"), Text(new, known, hits, "N")


def html_of(change: Change, texts: tuple[Text, Text], old_name: str, new_name: str) -> str:
    """The part of the page that tells what changes."""
    seen = change.seen
    parts = [f'<p class="lead">From <code>{shown(old_name)}</code> to <code>{shown(new_name)}</code>, each replayed as '
             "its hosts would have sent: what follows on a dropped first packet isn't sent, and answers go to the "
             "ports that the ruleset chose.</p>"]
    parts.append(classes_html(change.every))
    parts += [f'<p class="warning">{shown(line)}</p>' for line in change.doubts]
    if seen.nothing:
        parts.append(f'<p class="warning">Nothing was compared: {shown(seen.nothing)}.</p>')
    elif not change.groups.all:
        rest = "the rest of this capture" if change.doubts else "this capture"
        parts.append(f'<p class="same">Nothing changes for {rest}.</p>')
    for kind in KINDS if change.groups.all else ():
        groups = change.of_kind(kind)
        if groups or kind in (OPENED, BLOCKED):
            parts.append(kind_html(change, kind, groups))
    for met, title in ((False, "These changes were met by no packet, and the run tells nothing of them:"),
                       (None, "Whether a packet met these changes a run doesn't tell:")):
        noted = [one for text in texts for one in text.noted(met)]
        unknown = dict.fromkeys(filter(None, (text.known.unknown_text() for text in texts)))
        parts.append(noted_html(title, noted, list(unknown)))
    return "".join(parts)


def both_html(texts: tuple[Text, Text], old_name: str, new_name: str) -> str:
    return Both(*texts, old_name, new_name).html()


def noted_html(title: str, noted: Sequence[Noted], unknown: Sequence[str]) -> str:
    """Changes of which a run tells nothing, each with a link to its line and whether a packet could meet it; below why
    that is unknown, if it is."""
    if not noted:
        return ""
    rows = "".join(noted_row(one) for one in noted[:MOST_NOTED])
    rest = f"<li>and {number(len(noted) - MOST_NOTED)} more, marked below</li>" if len(noted) > MOST_NOTED else ""
    lines = "".join(f"<p>{shown(line[0].upper() + line[1:])}.</p>" for line in unknown)
    return f'<div class="bound noted"><p>{shown(title)}</p><ul>{rows}{rest}</ul>{lines}</div>'


def noted_row(one: Noted) -> str:
    remark = f" ({shown(one.remark)})" if one.remark else ""
    return f'<li><a href="#{one.line}"><code>{shown(one.text)}</code></a>{remark}</li>'


def kind_html(change: Change, kind: str, groups: Sequence[Group]) -> str:
    flows, packets = change.groups.flow_counts[kind], sum(group.packets for group in groups)
    head = (f'<h3><span class="mark"></span>{TITLES[kind]} <span class="many">{plural(flows, "connection")}, '
            f'{plural(packets, "packet")}</span></h3><p class="means">{MEANS[kind]}</p>')
    rows = "".join(map(group_html, groups[:MOST_GROUPS]))
    if len(groups) > MOST_GROUPS:
        rows += f'<p class="bound">The first {MOST_GROUPS} of {number(len(groups))} groups are listed.</p>'
    return f'<section class="kind {kind.split()[0]}">{head}{rows if groups else "<p class=none>None.</p>"}</section>'


def group_html(group: Group) -> str:
    hosts = sorted(group.hosts)
    ports = [f"{name} ({number(many)})" if many > 1 else name for name, many in group.ports_text()]
    unsent = f", {number(group.not_sent)} of them not sent" if group.not_sent else ""
    return (
        f'<article class="group"><dl class="rules"><dt>old</dt><dd>{told_html(group.old)}</dd>'
        f"<dt>new</dt><dd>{told_html(group.new)}</dd></dl>"
        f'<p><a href="#group={group.number}"><b>{plural(group.flows, "connection")}</b></a>, '
        f'{plural(group.packets, "packet")}{unsent}, from {plural(len(hosts), "host")}: '
        + listed(map(address_text, hosts), MOST_HOSTS, len(hosts))
        + (f"; to {listed(ports, MOST_PORTS, len(ports))}" if ports else "") +
        f'</p><p class="first">first: <a href="#record={group.first[0]}">record {number(group.first[0])}</a>, '
        f"{shown(group.first[1])}</p></article>")


def listed(texts: Iterable[str], most: int, many: int) -> str:
    shown_ones = [shown(text) for text, _ in zip(texts, range(most))]
    return ", ".join(shown_ones) + (f" and {number(many - most)} more" if many > most else "")


def replays(program: str, old: str, new: str, box: str, flows: Flows, folder: str) -> tuple[Replay, Replay]:
    """Both replays, as compare makes them: what the old one stops though the capture shows that it was sent on began
    before the capture, and is replayed whole."""
    before = Replay(program, old, box, flows, Files(folder, "old"), cuts=True)
    spared = bytearray(len(flows.all))
    for flow, cut in enumerate(before.cut):
        if cut == Cut.STOPPED and flows.all[flow].kind != TCP and flows.all[flow].is_learned:
            spared[flow] = 1
    if any(spared):
        before = Replay(program, old, box, flows, Files(folder, "old"), cuts=True, spared=spared, like=before)
    return before, Replay(program, new, box, flows, Files(folder, "new"), cuts=True, spared=spared, like=before)
