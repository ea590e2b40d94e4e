"""beside-linux: one capture through nftrun and through the kernel, and what differs."""
from __future__ import annotations

import os
import platform
import shutil
import time
from collections import Counter
from dataclasses import replace
from typing import Iterator, Sequence, Sized

from linux.differences import CounterDifference, Difference, Kind, counter_differences, kinds_of
from linux.explain import Explanation, Surroundings, explain
from linux.history import History
from linux.hits import counted_copy, hit_lines, hits_of
from linux.kernel import Replay, set_limits
from linux.namespaces import Lab, command
from linux.question import Heard, Options, Question, question_of
from linux.sections import title
from linux.seen import Fate, Packet, Said, Told
from toolbox import program
from toolbox.captures import IPV4, IPV6, LINK_LENGTHS, PROTOCOL_AT, header_of, records
from toolbox.commands import Refused, check_files, plural, say
from toolbox.converted import classic
from toolbox.packets import describe
from toolbox.reach import ask
from toolbox.reports import Decision, RuleCounter
from toolbox.rulesets import read_ruleset

SAME, DIFFERS, UNEXPLAINED = 0, 1, 3
NEEDS = {"ip": "iproute2", "nft": "nftables"}
LIMITS = "/proc/sys/net/netfilter"


def check_needs() -> None:
    """Refuses in a line what is lacking."""
    if os.geteuid():
        raise Refused("it makes network namespaces, and so wants to be run by root")
    lacking = [package for word, package in NEEDS.items() if shutil.which(word) is None]
    if lacking:
        raise Refused(f"on Debian: apt install {' '.join(lacking)}")
    if not os.path.exists("/proc/self/ns/net"):
        raise Refused("this kernel has no network namespaces")


def carries_ipv6(path: str) -> bool:
    at = PROTOCOL_AT[header_of(path).link_type]
    return at is not None and any(data[at:at + 2] == IPV6 for *_, data in records(path, LINK_LENGTHS[1] + 8))


def linux_limits() -> dict[str, int]:
    """Linux's own limits, by the names of its settings."""
    limits = {}
    for name in os.listdir(LIMITS) if os.path.isdir(LIMITS) else ():
        if "_timeout" not in name:
            continue
        with open(f"{LIMITS}/{name}", encoding="ascii", errors="replace") as file:
            text = file.read().strip()
        if text.isdigit():
            limits[name.removeprefix("nf_conntrack_")] = int(text)
    return limits


def heard_from_kernel(question: Question) -> Heard:
    """What the kernel of this machine says."""
    options = question.options
    with_ipv6 = carries_ipv6(options.capture) and "inet" in question.ruleset.text
    lab = Lab(question.box, with_ipv6)
    try:
        replay = Replay(lab, options.rules, options.wait / 1000)
        if options.alike:
            set_limits(question.box)
        lab.settings(options.set)
        limits = linux_limits()
        told = replayed(question, replay)
        counters = replay.rules.counters()
        replay.close()
        return Heard(told, counters, replay.rules.own_packets, replay.traces.lost, limits, with_ipv6)
    finally:
        lab.close()


def replayed(question: Question, replay: Replay) -> list[Told]:
    """What becomes of each record; refused where that takes too long."""
    told, most = [], question.options.seconds
    end = time.monotonic() + most
    for record in question.records:
        if time.monotonic() > end:
            raise Refused(f"over {most} s at record {record.number}; cut the capture, or say --seconds")
        told.append(replay.send(record.moment, record.data, question.link_type))
    return told


class Beside:
    """What nftrun said and what a kernel did, and what differs: `explained` has what explains each record that does, by
    its number, `of_counters` the sections of each counter."""

    def __init__(self, question: Question, heard: Heard) -> None:
        self.question, self.heard = question, heard
        self.box, self.ruleset = question.box, question.ruleset
        self.differences: list[Difference] = []
        self.explained: dict[int, Explanation | None] = {}
        history, around = History(), Surroundings(self.ruleset, self.box, heard.limits)
        for record, said, told in zip(question.records, question.run.said, heard.told):
            history.take(record.number, record.moment, said, told)
            kinds = kinds_of(said, told)
            if kinds:
                difference = Difference(record.number, record.moment, kinds, said, told)
                self.differences.append(difference)
                self.explained[record.number] = explain(difference, around, history)
        self.counters = list(counter_differences(question.run.counters, heard.counters))
        self.of_counters = [self.sections_of_counter(one) for one in self.counters]

    def sections_of_counter(self, one: CounterDifference) -> list[str]:
        """The sections of the records at which the counter's rule or its chain was met otherwise."""
        chain = self.ruleset.by_name.get(one.counter.chain)
        if chain and chain.hook == "output":
            return ["output-chains"]
        found: Counter[str] = Counter()
        rest = one.other.packets - one.counter.packets if one.other else 0
        for difference in self.differences:
            explanation = self.explained[difference.number]
            more = met(difference.told, one.counter) - met(difference.said, one.counter)
            rest -= more
            if explanation and more:
                found[explanation.section] += 1
        # what is left is of packets that the box sent
        if chain and chain.hook in ("postrouting", None) and 0 < rest <= self.heard.own_packets:
            found["box-sends"] += 1
        return [section for section, _ in found.most_common()]

    def unexplained_records(self) -> int:
        return sum(explanation is None for explanation in self.explained.values())

    def unexplained_counters(self) -> int:
        return sum(not sections for sections in self.of_counters)

    def status(self) -> int:
        if self.unexplained_records() or self.unexplained_counters():
            return UNEXPLAINED
        return DIFFERS if self.differences or self.counters else SAME


def met(said: Said | Told, counter: RuleCounter) -> int:
    """How often a record met the counter's rule, as far as is told."""
    return sum((decision.chain, decision.rule) == (counter.chain, counter.rule) for decision in said.decisions)


# What is printed


def in_words(beside: Beside, leaves: Packet) -> str:
    return f"{describe(leaves.data, 0)}, {beside.box.interface_name(leaves.interface)}"


def said_text(beside: Beside, said: Said) -> str:
    return f"passed as {in_words(beside, said.leaves)}" if said.leaves else said.outcome


def told_text(beside: Beside, told: Told) -> str:
    if told.leaves:
        text = "passed as " + " and as ".join(in_words(beside, leaves) for leaves in told.leaves)
    elif told.fate is Fate.UNSENT:
        text = f"not sent: {told.sending.why}"
    elif told.fate is Fate.DROPPED:
        text = f"dropped by no rule, last seen {told.where.in_words}"
    else:
        text = told.fate.value
    if told.made:
        text += "; the box sent " + ", ".join(in_words(beside, made) for made in told.made)
    return text


def rules_lines(beside: Beside, decisions: Sequence[Decision]) -> Iterator[str]:
    for decision in decisions:
        text = beside.ruleset.text_of(decision.chain, decision.rule)
        number, shown = ("policy", "") if decision.rule is None else (str(decision.rule), f"  # {text}")
        yield f"       {decision.chain} {number} {decision.verdict}{shown}"


def record_lines(beside: Beside, difference: Difference) -> Iterator[str]:
    number, said, told = difference.number, difference.said, difference.told
    data, link_type = beside.question.records[number - 1].data, beside.question.link_type
    at, protocol = LINK_LENGTHS[link_type], PROTOCOL_AT[link_type]
    is_ipv4 = protocol is None or data[protocol:protocol + 2] == IPV4
    yield f"record {number}: {describe(data, at if is_ipv4 else None)}"
    for who, text, state, decisions in (("nftrun", said_text(beside, said), said.state, said.decisions),
                                        ("Linux", told_text(beside, told), told.state, told.decisions)):
        yield f"  {who + ':':<8}{text}" + (f" (ct state {state})" if state and said.state != told.state else "")
        if Kind.RULES in difference.kinds:
            yield from rules_lines(beside, decisions)
    kinds = " and ".join(kind.value for kind in difference.kinds)
    yield f"  differ in {kinds}: {explanation_text(beside.explained[number])}"


def explanation_text(explanation: Explanation | None) -> str:
    if explanation is None:
        return "no section of docs/LINUX.md explains it"
    follows = "" if explanation.follows is None else f", by record {explanation.follows}"
    return f'docs/LINUX.md, "{title(explanation.section)}"{follows}'


def counter_lines(one: CounterDifference, sections: Sequence[str]) -> Iterator[str]:
    counter, other = one.counter, one.other
    yield f"counter {counter.chain} {counter.rule} {counter.which}"
    yield f"  nftrun: packets {counter.packets} bytes {counter.bytes}"
    yield f"  Linux:  packets {other.packets} bytes {other.bytes}" if other else "  Linux:  has none"
    titles = ", ".join(f'"{title(section)}"' for section in sections)
    yield f"  docs/LINUX.md, {titles}" if sections else "  no section of docs/LINUX.md explains it"


def versions() -> str:
    return f"Linux {platform.release()}, {command('nft', '--version').strip()}"


def lines_of(beside: Beside) -> Iterator[str]:
    for difference in beside.differences:
        yield from record_lines(beside, difference)
    for one, sections in zip(beside.counters, beside.of_counters):
        yield from counter_lines(one, sections)
    question = beside.question
    yield (f"{differing(beside.differences, question.records, 'record')}, "
           f"{differing(beside.counters, question.run.counters, 'counter')}")
    used = Counter(explanation.section for explanation in beside.explained.values() if explanation)
    for section, number in used.most_common():
        yield f'  {plural(number, "record")}: docs/LINUX.md, "{title(section)}"'
    numbers, counters = beside.unexplained_records(), beside.unexplained_counters()
    if numbers or counters:
        yield f"  {plural(numbers, 'record')} and {plural(counters, 'counter')}: no section explains it"
    if beside.heard.lost:
        yield "the kernel told more than could be read: rules may be missing above"
    yield versions()


def differing(some: Sized, of_all: Sized, word: str) -> str:
    return f"{len(some)} of {plural(len(of_all), word)} {'differs' if len(some) == 1 else 'differ'}"


def beside_linux(options: Options) -> int:
    """Compares, and tells; answers the status."""
    check_files((options.rules, options.box, options.capture))
    check_needs()
    with classic(options.capture, options.box) as read, program.workspace() as folder:
        asked = replace(options, capture=read)
        if options.hits:
            asked = replace(asked, rules=counted_copy(options.rules, folder))
        question = question_of(asked)
        beside = Beside(question, heard_from_kernel(question))
        for line in lines_of(beside):
            say(line)
        if options.hits:
            hits = hits_of(question, beside.heard, read_ruleset(options.rules))
            for line in hit_lines(hits, ask(program.find_program(), options.rules, options.box)):
                say(line)
    return beside.status()
