"""A comparison as reviewers' tools read it: annotations of GitHub Actions, and SARIF 2.1.0."""
from __future__ import annotations

import json
from dataclasses import dataclass
from typing import TYPE_CHECKING, Iterator
from urllib.parse import quote

from toolbox.commands import REFUSED, plural, printable
from toolbox.guard import Kind

if TYPE_CHECKING:
    from toolbox.differences import Group, Told
    from toolbox.every_packet import EveryPacket
    from toolbox.guard import Guard, Judged, Seen

MOST_PORTS, MOST_CLASSES, MOST_SETS = 5, 10, 5
SCHEMA = "https://json.schemastore.org/sarif-2.1.0.json"
MEANS = {
    Kind.OPENED: "OLD drops it, and NEW lets it through",
    Kind.BLOCKED: "OLD lets it through, and NEW drops it",
    Kind.REWRITTEN: "both let it through, and it leaves with other bytes or by another interface",
    Kind.OTHERWISE: "both drop it, for another cause",
    Kind.PORTS: "it leaves by the same rules with other ports",
    Kind.UNMET: "a change that no packet met",
    Kind.CLASS: "packets with which the rulesets differ, whatever is captured",
}


@dataclass(frozen=True)
class Finding:
    """What is to be told at a place of a ruleset; without a file it is of the whole. `level` is GitHub's word."""

    kind: Kind | None
    level: str
    text: str
    file: str | None
    line: int | None
    accepted: str | None = None


def told_text(told: Told) -> str:
    if told.chain is None:
        return f"{told.verdict}  ({told.text})"
    number = "policy" if told.number is None else told.number
    return f"{told.chain} {number} {told.verdict}" + ("" if told.number is None else f"  # {told.text}")


def text_of(seen: Seen, group: Group) -> str:
    ports = [port for port, _ in group.ports_text()]
    shown = ", ".join(ports[:MOST_PORTS]) + (", .." if len(ports) > MOST_PORTS else "")
    return (f"{plural(group.flows, 'flow')}, {plural(group.packets, 'packet')}, "
            f"from {plural(len(group.hosts), 'host')}" + (f", to {shown}" if shown else "")
            + f"; first: record {group.first[0]} of {seen.capture}, {group.first[1]}"
            + f"; old: {told_text(group.old)}; new: {told_text(group.new)}")


def finding_of(seen: Seen, one: Judged, rules: str) -> Finding:
    """A group at the rule of NEW that decides, or where none does, at that of OLD, if this stands in a file that is
    there; else it is of NEW as a whole."""
    group = one.group
    file, line = place_of(group.old, group.new, rules)
    level = "error" if one.fails else "notice" if one.accepted else "warning"
    return Finding(one.kind, level, text_of(seen, group), file, line, one.accepted.place if one.accepted else None)


def place_of(old: Told, new: Told, rules: str) -> tuple[str | None, int | None]:
    """The file and the line of a change."""
    place = next((told for told in (new, old) if told.line and ":" not in (told.file or "")), None)
    return (place.file, place.line) if place else (rules, None)


def class_findings(known: EveryPacket, fails: bool, rules: str) -> Iterator[Finding]:
    """What is known of all packets: the first classes, each at its rule, or in a line."""
    level = "error" if fails else "notice"
    if not known.classes:
        yield Finding(None, "error" if fails and not known.is_same else "notice", known.text(), None, None)
    for one in known.classes[:MOST_CLASSES]:
        text = f"{one.text}: {'; '.join(one.packets(MOST_SETS))}"
        yield Finding(Kind.CLASS, level, text, *place_of(one.old, one.new, rules))
    if len(known.classes) > MOST_CLASSES:
        yield Finding(None, "notice", f"{known.text()}; nftrun diff lists them", None, None)


def findings(guard: Guard, rules: str) -> Iterator[Finding]:
    """All that is to be told, what is of the whole first. `rules` is NEW."""
    if guard.every:
        yield from class_findings(guard.every, Kind.CLASS in guard.kinds, rules)
    level = "notice" if guard.is_same else "error"
    for line in guard.nothing():
        yield Finding(None, level, f"nothing was compared: {line}", None, None)
    for seen in guard.seen:
        for line in (*seen.router, *([seen.not_compared.text()] if seen.not_compared else [])):
            yield Finding(None, level, f"{seen.capture}: {line}", None, None)
        if seen.is_torn:
            text = f"{seen.capture}: torn: it ends within record {seen.records + 1}"
            yield Finding(None, "warning", text, None, None)
        for one in seen.judged:
            yield finding_of(seen, one, rules)
    level = "error" if Kind.UNMET in guard.kinds else "warning"
    for unmet in guard.unmet():
        is_there = ":" not in unmet.file
        yield Finding(Kind.UNMET, level, f"no packet met {unmet.text}", unmet.file if is_there else rules,
                      unmet.line if is_there else None)
    for entry in guard.allowed.unused():
        yield Finding(None, "notice", "this entry accepts nothing", entry.file, entry.line)


# GitHub


def escaped(text: str, is_property: bool = False) -> str:
    """A text as workflow commands want it."""
    for mark in "%\r\n" + (":," if is_property else ""):
        text = text.replace(mark, f"%{ord(mark):02X}")
    return text


def github_lines(guard: Guard, rules: str) -> Iterator[str]:
    """A workflow command for each finding."""
    for one in findings(guard, rules):
        title = one.kind.value if one.kind else "nftrun compare"
        properties = [f"file={escaped(printable(one.file), True)}"] if one.file else []
        properties += [f"line={one.line}"] if one.file and one.line else []
        properties.append(f"title={escaped(title + (' (accepted)' if one.accepted else ''), True)}")
        yield f"::{one.level} {','.join(properties)}::{escaped(printable(one.text))}"


# SARIF

LEVELS = {"error": "error", "warning": "warning", "notice": "note"}


def location_of(one: Finding) -> dict[str, object]:
    uri = quote(printable(one.file or "").encode("utf-8", "replace"))
    place: dict[str, object] = {"artifactLocation": {"uri": uri}}
    if one.line:
        place["region"] = {"startLine": one.line}
    return {"physicalLocation": place}


def result_of(one: Finding, kind: Kind) -> dict[str, object]:
    result: dict[str, object] = {
        "ruleId": kind.value, "level": LEVELS[one.level], "message": {"text": printable(one.text)}}
    if one.file:
        result["locations"] = [location_of(one)]
    if one.accepted:
        result["suppressions"] = [{"kind": "external", "justification": f"accepted by {printable(one.accepted)}"}]
    return result


def remark_of(one: Finding) -> dict[str, object]:
    remark: dict[str, object] = {"level": LEVELS[one.level], "message": {"text": printable(one.text)}}
    if one.file:
        remark["locations"] = [location_of(one)]
    return remark


def sarif(guard: Guard, rules: str, status: int) -> str:
    """One document: a result for each group and each change that no packet met, and remarks on the whole."""
    told = list(findings(guard, rules))
    remarks = [remark_of(one) for one in told if one.kind is None]
    rules_of = [{"id": kind.value, "shortDescription": {"text": MEANS[kind]}} for kind in Kind]
    driver: dict[str, object] = {"name": "nftrun compare", "rules": rules_of}
    invocation = {"executionSuccessful": status != REFUSED, "exitCode": status, "toolExecutionNotifications": remarks}
    results = [result_of(one, one.kind) for one in told if one.kind]
    run: dict[str, object] = {"tool": {"driver": driver}, "results": results, "invocations": [invocation]}
    return json.dumps({"$schema": SCHEMA, "version": "2.1.0", "runs": [run]}, indent=1)
