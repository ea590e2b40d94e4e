"""What to do next about a record, by how it ended."""
from __future__ import annotations

import contextlib
import re
from ipaddress import IPv4Address
from typing import TYPE_CHECKING

from toolbox.captures import BROADCAST, LINUX_SLL2, MULTICAST, OTHER_STATION, SENT_BY_US, interface_of
from toolbox.commands import plural
from toolbox.packets import (
    PORTED, PROTOCOL_NAMES, TCP, address_of, address_text, destination_end, destination_of, destination_port, kind_of,
    port_of, source_of)

if TYPE_CHECKING:
    from toolbox.rulesets import Chain
    from toolbox.why_record import Why

LINK_KINDS = {
    SENT_BY_US: "it is the outgoing copy of a packet, as Linux sent it: look at the record that came before it, unless "
                "the box made it itself",
    OTHER_STATION: "the frame is for another station: seen in promiscuous mode (tcpdump -p leaves it out), or at the "
                   "port of a bridge: then look for the same packet at the bridge",
    BROADCAST: "broadcast isn't forwarded", MULTICAST: "multicast isn't forwarded"}
ADVICE = {
    "passed": "nothing to do: OUT has the packet as it left",
    "local": "nothing to do: it is addressed to this box, and no rule of input dropped it",
    "ttl": "it came with a TTL of 0 or 1: traceroute, or a routing loop if many do. A router answers its sender, which "
           "a run doesn't show",
    "noport": "no external port is left for its source: name a larger range, a second address, or none in the rule "
              "that translates",
    "full": "1,048,576 connections live: take a shorter capture, or shorter idle limits in the box file",
    "clash": "its answers would belong to another connection: docs/SPEC.md, 7.8",
    "notip": "it isn't IPv4 (ARP, IPv6, a VLAN tag): no rule sees it",
    "truncated": "it was cut by the snap length: capture with tcpdump -s 0",
    "fragment": "fragments are dropped in a run; Linux puts them together where connections are tracked",
    "checksum": "the checksum of its IP header is wrong: it was damaged, or captured before the card filled it in",
    "transport": "its TCP, UDP or ICMP header doesn't fit into the packet",
}
DAMAGED = "its headers are damaged, or the capture has no IPv4 packet there"


def advice(why: Why) -> list[str]:
    """Lines that tell what to do next about the record of a `Why`."""
    outcome = why.outcome
    if outcome == "rule":
        return about_rule(why)
    if outcome == "route":
        target = address_text(destination_of(why.key)) if why.key else "its destination"
        return [f"the box file has no route to {target}: add `route PREFIX NAME` if the box has one (ip -4 route)"]
    if outcome == "interface":
        index = interface_of(why.data, why.link_type)
        return [f"the box file has no interface of index {index}: add it (ip -o -4 addr), if its packets matter; at "
                "the port of a bridge, or below a VLAN, they don't: look for the same packet at the bridge, or the "
                "VLAN's interface"]
    if outcome == "link" and why.link_type == LINUX_SLL2 and len(why.data) > 10:
        return [LINK_KINDS.get(why.data[10], "it wasn't sent to this box")]
    if outcome == "link":
        return ["the frame is for a group of stations, which isn't forwarded"]
    return [ADVICE.get(outcome, DAMAGED)]


def about_rule(why: Why) -> list[str]:
    """What to do about a packet that a rule or policy dropped."""
    lines = about_flow(why)
    last = why.decisions[-1] if why.decisions else None
    if last is None:
        return lines
    if last.rule is not None:
        rule = why.ruleset.rule(last.chain, last.rule)
        where = f"line {rule.line}" if rule else f"{last.chain} {last.rule}"
        lines.append(f"{where} dropped it: change that rule, or accept before it")
    else:
        lines.append(f"no rule of {last.chain} took it, so its policy dropped it")
    chain = why.ruleset.by_name.get(last.chain)
    if chain is not None and why.key is not None and not why.is_reply:
        lines.append(f"a rule for it alone: {rule_for(why, why.key, chain)}")
    return lines


def about_flow(why: Why) -> list[str]:
    """What the flow of a dropped packet tells of the drop."""
    flows, flow, record = why.flows, why.flow, why.record
    if not flow:
        return []
    of = flows.all[flow]
    first = flows.first[of.number]
    if why.wanted is not None and why.is_reply:
        return ["Linux gave this flow another external port than a run does, so the answer finds no connection: "
                "nftrun align makes such a capture fit"]
    if of.is_own or first and not flows.of[first]:
        return ["it answers a packet of the box itself, which a run doesn't have: on Linux it is established"]
    if of.kind == TCP and not of.has_begun:
        return ["its flow has no SYN in the capture, so it began before: on Linux it may be established, here it is "
                "new"]
    answered = why.answered_flow() if why.key is not None else None
    if answered:
        return [f"it would answer flow {answered[0]}, whose last packet came {plural(answered[1], 'second')} before: "
                "longer than its idle limit (docs/BOX.md), if that one was let through"]
    if why.first_outcome not in ("passed", "local") and first != record:
        what = "it answers" if why.is_reply or why.is_error else "its flow began with"
        return [f"{what} record {first}, which was dropped: look there first (why {first})"]
    return []


def rule_for(why: Why, key: bytes, chain: Chain) -> str:
    """A rule that would take this packet, as it is in the chain that dropped it."""
    target = destination_end(key)
    if chain.hook in ("forward", "postrouting"):
        # behind the destination's step rules read the inner end
        target = why.behind_mapping() or translated_target(why, key) or target
    parts = [f'iifname "{why.came_by}"', f"ip saddr {address_text(source_of(key))}",
             f"ip daddr {address_text(address_of(target))}"]
    if kind_of(key) in PORTED:
        parts.append(f"{PROTOCOL_NAMES[kind_of(key)]} dport {port_of(target)}")
    return " ".join(parts) + f" accept, in {chain.name}"


def translated_target(why: Why, key: bytes) -> bytes | None:
    """The end that a dnat rule on the way names, where it names an address; else None."""
    for decision in why.decisions:
        rule = why.ruleset.rule(decision.chain, decision.rule)
        if decision.verdict == "dnat" and rule:
            named = re.search(r"\bto ([0-9.]+)(?: ?: ?([0-9]+))?$", rule.text.partition(" comment ")[0])
            if named and len(named[2] or "") <= 5:
                port = destination_port(key) if named[2] is None else int(named[2])
                with contextlib.suppress(ValueError, OverflowError):
                    return IPv4Address(named[1]).packed + port.to_bytes(2, "big")
    return None
