"""Which section of docs/LINUX.md explains a difference, by what is seen of it; where nothing fits, none is named."""
from __future__ import annotations

import re
from dataclasses import dataclass
from typing import Iterator, Mapping

from linux.box import LabBox
from linux.differences import Difference, Kind
from linux.frames import BY_LOOPBACK
from linux.history import History, Inside, Passage, is_lone_syn
from linux.seen import Fate
from toolbox.crafted import pseudo_header
from toolbox.packets import (
    ACK, ANSWER, ASK, FIN, ICMP, ICMP_ERRORS, NO_PORT, RST, SYN, TCP, UDP, checksum, destination_end, kind_of,
    source_end, source_of, source_port, tuple_at)
from toolbox.rulesets import Chain, Rule, Ruleset

SCTP, GRE, REDIRECT = 132, 47, 5
QUERIES = (13, 14, 15, 16, 17, 18)
MULTICAST_FROM = 224
# what gives a connection other ends: its later packets differ by it, whatever else is seen of them
ENDS = ("port-taken", "port-for-two", "several-ports", "port-zero", "masquerade-address", "clash", "no-ports",
        "invalid-untranslated")
# what rules do otherwise by their words alone
WORDS = {"untracked": re.compile("untracked|notrack"),
         "tcp-flags-set": re.compile(r"tcp flags\s*(?:[!=]=\s*)?[{@]|tcp flags vmap|tcp flags \.|\. tcp flags"),
         "state-not-several": re.compile(r"ct state\s*!=\s*[a-z]+\s*,"),
         "status-bits": re.compile(r"ct status\s*(?:[!=]=|[{@]|vmap|\.)|\. ct status")}
PORTS, EXIT = re.compile(r"\bth (?:sport|dport)\b"), re.compile(r"\boif(?:name)?\b")


@dataclass(frozen=True)
class Explanation:
    """A section of docs/LINUX.md, and the record that it follows from, or None."""

    section: str
    follows: int | None


@dataclass(frozen=True)
class Surroundings:
    """What a run was asked of, with Linux's idle limits in seconds by their names."""

    ruleset: Ruleset
    box: LabBox
    limits: Mapping[str, int]


class Case:
    """One record that differs, with what the rules below look at."""

    def __init__(self, difference: Difference, around: Surroundings, history: History) -> None:
        self.difference = difference
        self.said, self.told = difference.said, difference.told
        self.number, self.moment, self.kinds = difference.number, difference.moment, difference.kinds
        self.ruleset, self.box, self.limits, self.history = around.ruleset, around.box, around.limits, history
        self.packet = self.told.sending.packet
        self.is_ipv4 = len(self.packet) >= 20 and self.packet[0] >> 4 == 4
        self.behind = 4 * (self.packet[0] & 15) if self.is_ipv4 else 0
        self.protocol = self.packet[9] if self.is_ipv4 else None
        self.key = tuple_at(self.packet, 0) if self.is_ipv4 else None
        self.flags = self.packet[self.behind + 13] if self.key and self.protocol == TCP else 0
        self.conversation = history.known.get(self.number)
        self.ours, self.theirs = self.said.state, self.told.state
        self.first = difference.parting

    def rules(self) -> Iterator[Rule]:
        """The rules at which the two part."""
        for decision in filter(None, self.first):
            rule = self.ruleset.rule(decision.chain, decision.rule)
            if rule:
                yield rule

    def chains(self) -> list[Chain | None]:
        """The chains in which the two part, nftrun's and Linux's."""
        return [self.ruleset.by_name.get(decision.chain) if decision else None for decision in self.first]

    def hooks(self) -> list[str | None]:
        return [chain.hook if chain else None for chain in self.chains()]

    def earlier(self) -> list[Passage]:
        """The packets of the same conversation before."""
        return self.conversation.before(self.number) if self.conversation else []

    def is_icmp(self, *types: int) -> bool:
        return self.protocol == ICMP and len(self.packet) > self.behind and self.packet[self.behind] in types

    def is_answered_by_box(self) -> bool:
        return self.conversation is not None and self.conversation.answered_by_box

    def has_wrong_checksum(self) -> bool:
        """Of TCP, UDP and ICMP."""
        body = self.packet[self.behind:int.from_bytes(self.packet[2:4], "big")]
        if self.protocol == ICMP:
            return checksum(body) != 0
        if self.protocol is None or self.protocol not in (TCP, UDP):
            return False
        if self.protocol == UDP and body[6:8] == NO_PORT:
            return False
        pseudo = pseudo_header(self.packet[12:16], self.packet[16:20], self.protocol, len(body))
        return checksum(pseudo + body) != 0


def section_of(case: Case) -> Explanation | None:
    """The first of the rules below that fits, as an Explanation, or None."""
    for rule in (by_packet, by_addresses, by_ports):
        section = rule(case)
        if section:
            return Explanation(section, None)
    earlier = case.conversation.sections if case.conversation else {}
    for number, section in earlier.items():
        if section in ENDS and not case.has_wrong_checksum():
            return Explanation(section, number)
    for rule in (by_state, by_rules):
        section = rule(case)
        if section:
            return Explanation(section, None)
    for number, section in earlier.items():
        return Explanation(section, number)
    return None


def by_packet(case: Case) -> str | None:
    """What nftrun drops before any rule, or for what no rule says."""
    outcome = case.said.outcome
    if case.told.sending.why == BY_LOOPBACK:
        return "box-sends"
    if outcome in ("fragment", "transport"):
        return {"fragment": "fragments"}.get(outcome, outcome)
    if outcome in ("notip", "version") and case.packet[0] >> 4 == 6:
        return "inet-ipv6"
    if outcome == "link":
        return "group-frames"
    if case.is_icmp(REDIRECT) and outcome == "passed" and case.told.fate is Fate.DROPPED:
        return "icmp-errors"
    return {"clash": "clash", "full": "full-table"}.get(outcome)


def by_addresses(case: Case) -> str | None:
    """Addresses that Linux has something to say of, beside its routes."""
    if not case.is_ipv4:
        return None
    source, target = case.packet[12:16], case.packet[16:20]
    if target in broadcasts_of(case.box):
        return "broadcast-address"
    odd_source = source in case.box.addresses or source[0] in (0, 127) or source[0] >= MULTICAST_FROM
    odd_target = target[0] in (0, 127) or target[0] >= MULTICAST_FROM
    if (odd_source or odd_target) and Kind.OUTCOME in case.kinds:
        return "sources"
    return None


def broadcasts_of(box: LabBox) -> Iterator[bytes]:
    for line in box.lines:
        address, _, length = line.prefix.partition("/")
        if line.is_interface and int(length) < 31:
            number = int.from_bytes(bytes(map(int, address.split("."))), "big")
            yield (number | (1 << 32 - int(length)) - 1).to_bytes(4, "big")


# Translation


def by_ports(case: Case) -> str | None:
    """What differs by the ends that a packet got."""
    if case.said.outcome == "noport":
        return "port-for-two" if case.protocol in (TCP, UDP) else "no-ports"
    if led_inside(case):
        frame = case.told.sending.frame
        entered = frame.interface if frame else None
        return "outside-to-end" if case.box.addresses.get(case.packet[16:20]) == entered else "inside-to-end"
    if Kind.BYTES not in case.kinds or case.said.leaves is None or len(case.told.leaves) != 1:
        return None
    ours, theirs = case.said.leaves.data, case.told.leaves[0].data
    if case.is_icmp(*ICMP_ERRORS):
        return "error-source" if ours[12:16] != theirs[12:16] else None
    mine, other = tuple_at(ours, 0), tuple_at(theirs, 0)
    if case.key is None or mine is None or other is None:
        return None
    return by_source(case, case.key, mine, other)


def led_inside(case: Case) -> bool:
    """Whether nftrun led a first packet to a host by its mapping, where Linux took it for the box itself."""
    if case.ours != "new" or case.packet[16:20] not in case.box.addresses or case.theirs in ("established", "invalid"):
        return False
    ours, theirs = case.hooks()
    went_on = case.said.outcome == "passed" or ours in ("forward", "postrouting")
    return went_on and (case.told.where.is_input or theirs == "input")


def by_source(case: Case, key: bytes, mine: bytes, other: bytes) -> str | None:
    """Of two tuples with which a packet left that came with `key`: why their sources differ."""
    if destination_end(mine) != destination_end(other) or source_end(mine) == source_end(other):
        return None
    if case.theirs == "invalid" and source_end(other) == source_end(key):
        return "invalid-untranslated"
    if source_of(mine) != source_of(other):
        own = case.box.addresses.get(source_of(mine))
        return "masquerade-address" if own is not None and own == case.box.addresses.get(source_of(other)) else None
    if kind_of(key) == ASK or not source_port(key):
        return "port-zero"
    return by_port(case, key, mine, other)


def by_port(case: Case, key: bytes, mine: bytes, other: bytes) -> str | None:
    kept_by_linux, kept_by_us = (source_port(one) == source_port(key) for one in (other, mine))
    if case.conversation and case.earlier() and case.conversation.sections:
        return None  # the connection's first packet tells
    if kept_by_linux:
        return "port-for-two"
    # nftrun keeps to the end that a host has already
    host = source_end(key)
    ends = case.history.ends.get(Inside(kind_of(key), host), ())
    if source_end(mine) in ends and case.history.was_used(case.number, host):
        return "several-ports"
    return None if kept_by_us else "port-taken"


# Connections


def by_state(case: Case) -> str | None:
    """What differs by the ct state."""
    ours, theirs = case.ours, case.theirs
    if ours == theirs or ours is None or theirs is None:
        return None
    if "untracked" in (ours, theirs):
        return "untracked"
    if case.is_icmp(*QUERIES):
        return "icmp-queries"
    if theirs == "invalid":
        return why_invalid(case)
    if case.protocol == SCTP:
        return "sctp"
    if case.conversation is None:
        return None
    if case.conversation.answered_by_box and theirs == "established":
        return "box-sends"
    return why_other_connection(case)


def why_invalid(case: Case) -> str | None:
    """Why Linux takes a packet for invalid that nftrun doesn't."""
    if case.protocol == SCTP:
        return "sctp"
    wrong = case.has_wrong_checksum()
    if case.is_icmp(*ICMP_ERRORS):
        return "icmp-errors" if wrong else None
    if wrong:
        return "sequence-checksum"
    if case.key and kind_of(case.key) == ANSWER:
        return "idle-limits" if case.earlier() and is_idle(case) else None
    if case.protocol != TCP:
        return None
    if any(packet.by_nftrun for packet in case.earlier()):
        return "sequence-checksum"
    plain_start = is_lone_syn(case.flags) or case.flags & (SYN | FIN | RST | ACK) == ACK
    return None if plain_start else "first-without-syn"


def is_idle(case: Case) -> bool:
    gap = case.history.gap(case.number, case.moment)
    return gap is not None and gap >= shortest_limit(case)


def why_other_connection(case: Case) -> str | None:
    """Why a packet belongs to a connection here that it doesn't belong to there, or was answered in."""
    earlier = case.earlier()
    if not earlier:
        return None
    if is_lone_syn(case.flags) and any(packet.flags & (FIN | RST) for packet in earlier):
        return "syn-when-over"
    if is_idle(case):
        return "idle-limits"
    if case.theirs == "established" and any(not packet.by_nftrun for packet in earlier):
        return "dropped-packets"
    return None


def shortest_limit(case: Case) -> int:
    """The least of Linux's own limits that a connection of this kind may have had; told.limits when changed."""
    if case.protocol == TCP:
        limits = (seconds for name, seconds in case.limits.items() if name.startswith("tcp_timeout_"))
        return min(limits, default=0)
    names = {UDP: "udp_timeout", ICMP: "icmp_timeout", GRE: "gre_timeout"}
    return case.limits.get(names.get(case.protocol or 0, "generic_timeout"), 0)


# Rules


def by_rules(case: Case) -> str | None:
    """What differs by the words of the rules at which the two part."""
    for chain in filter(None, case.chains()):
        if chain.hook == "output":
            return "output-chains"
        if chain.type == "nat" and case.is_answered_by_box():
            return "box-sends"
    for rule in case.rules():
        section = by_words(case, rule)
        if section:
            return section
    return by_order(case)


def by_words(case: Case, rule: Rule) -> str | None:
    """What differs by the words of one rule."""
    text = rule.text
    for section, words in WORDS.items():
        if words.search(text):
            return section
    if PORTS.search(text) and case.protocol not in (TCP, UDP):
        return "other-ports"
    if EXIT.search(text) and without_exit(case, rule.chain):
        return "no-exit"
    if "ct " in text and early(case, rule.chain):
        return "early-chains"
    if case.theirs and ("ct mark" in text or "ct state" in text) and dropped_before(case):
        return "dropped-packets"
    return None


def early(case: Case, name: str) -> bool:
    """Whether a chain is early, or one that an early one may lead to."""
    chain = case.ruleset.by_name.get(name)
    return chain is not None and (chain.is_early or chain.hook is None
                                  and any(other.is_early for other in case.ruleset.chains))


def without_exit(case: Case, name: str) -> bool:
    """Whether packets of a chain may have no output interface: on prerouting and input, or where these may lead."""
    chain = case.ruleset.by_name.get(name)
    return chain is not None and (chain.hook in ("prerouting", "input") or chain.hook is None
                                  and any(other.hook in ("prerouting", "input") for other in case.ruleset.chains))


def dropped_before(case: Case) -> bool:
    return any(not packet.by_nftrun for packet in case.earlier())


def by_order(case: Case) -> str | None:
    """Chains that have one hook and one priority, in two orders."""
    for chain in filter(None, case.chains()):
        alike = [other for other in case.ruleset.chains if other is not chain and chain.hook
                 and other.hook == chain.hook and other.priority == chain.priority]
        if any(other.type == "nat" or chain.type == "nat" for other in alike):
            return "step-priority"
        if alike:
            return "same-priority"
    return None


def explain(difference: Difference, around: Surroundings, history: History) -> Explanation | None:
    """What explains a difference is remembered for later records of the same connection."""
    case = Case(difference, around, history)
    explanation = section_of(case)
    if explanation and case.conversation:
        case.conversation.sections.setdefault(difference.number, explanation.section)
    return explanation
