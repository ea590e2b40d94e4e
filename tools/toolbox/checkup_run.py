"""What in a capture and a box file misleads a run, as a run itself shows, and the router's outgoing copies."""
from __future__ import annotations

from collections import Counter
from typing import TYPE_CHECKING, Iterator, Mapping

from toolbox.checkup import MOST_LISTED, Finding
from toolbox.commands import plural
from toolbox.flows import ERROR
from toolbox.packets import TCP, address_text
from toolbox.replay import LOCAL, Through
from toolbox.reports import Summary
from toolbox.table import NANOSECONDS, Table, fullest, without_room

if TYPE_CHECKING:
    from toolbox.boxes import Box
    from toolbox.flows import Flows
    from toolbox.replay import Replay
    from toolbox.router import Router

NEARLY_FULL = 90  # percent of nf_conntrack_max: the box's own connections, which a run hasn't, come on top
NO_ROOM_ADVICE = {
    "noport": "no external port is left for them: name a larger range, or a second address",
    "full": "1,048,576 connections live: take a shorter capture, or shorter idle limits in the box file",
    "clash": "their answers would belong to another connection: docs/SPEC.md, 7.8"}


def of_router(router: Router) -> Iterator[Finding]:
    """What the router did otherwise than a run, or the box file's routes: each way with its packets."""
    for way, astray in router.told():
        yield Finding("routes" if way.is_routed_otherwise else "sent on", True,
                      f"{astray.count_text()} {way.text()}: {astray.records_text()}", f"the run isn't the router: "
                      f"{way.reason}", {"packets": astray.packets, "flows": len(astray.flows), "first": astray.first})
    earlier = sum(router.of.all[flow].kind != TCP for flow, is_earlier in router.earlier.items() if is_earlier)
    if earlier:
        yield Finding("began before", True, f"{plural(earlier, 'flow')} of UDP or ping with an answer first",
                      "as it seems they began before the capture: new at their first packet here, established on "
                      "Linux", {"flows": earlier})


def of_run(replay: Replay) -> Iterator[Finding]:
    """What a run of the rules shows: answers that go to ports that Linux chose."""
    flows = replay.flows
    to = replay.decide(False).to
    elsewhere = [record for record, place in enumerate(to) if place]
    if elsewhere:
        count = len({flows.of[record] for record in elsewhere})
        answers = f"{plural(len(elsewhere), 'answer')} of {plural(count, 'flow')}"
        yield Finding("ports", True, f"{answers} to ports that Linux chose and a run doesn't",
                      "they are dropped, or led to another host: replay what nftrun align makes of the capture",
                      {"records": len(elsewhere), "flows": count})
    yield from of_new(kept_new(flows, replay))


def of_new(delivered: Mapping[int, int]) -> Iterator[Finding]:
    """The connections to the box itself that stay new in a run, of how many packets each has."""
    new = {flow: packets for flow, packets in delivered.items() if packets > 1}
    if new:
        stay = "stays" if len(new) == 1 else "stay"
        yield Finding("new", True, f"{plural(len(new), 'connection')} to the box itself, with "
                      f"{plural(sum(new.values()), 'packet')}, that {stay} new in a run",
                      "the box's answers aren't in it, so their later packets meet the rules for new connections, and "
                      "none for established ones: hits on input aren't those of the router",
                      {"flows": len(new), "packets": sum(new.values())})


def answered_by_box(flows: Flows) -> Counter[int]:
    """By flow how many packets came for the box itself, where the first answer is a copy of what it sent."""
    answers = ((flow.number, flows.answered[flow.number]) for flow in flows.some())
    answered = {number for number, answer in answers if answer and not flows.of[answer]}
    return Counter(flow for flow, is_reply, part in zip(flows.of, flows.is_reply, flows.part)
                   if flow in answered and not is_reply and part != ERROR)


def kept_new(flows: Flows, replay: Replay) -> Counter[int]:
    """By flow how many packets a run delivers to the box itself, where it has no answer to them."""
    delivered: Counter[int] = Counter()
    answered: set[int] = set()
    through = frozenset(map(int, Through))
    for record, (flow, is_reply, part) in enumerate(zip(flows.of, flows.is_reply, flows.part)):
        if not flow or part == ERROR or flows.all[flow].is_own:
            continue
        if is_reply and replay.outcomes[record] in through:
            answered.add(flow)
        elif replay.outcomes[record] == LOCAL:
            delivered[flow] += 1
    return Counter({flow: packets for flow, packets in delivered.items() if flow not in answered})


def of_table(replay: Replay, box: Box, largest: int | None) -> Iterator[Finding]:
    """How full the table of connections got, beside `nf_conntrack_max`, and for whom it had no room."""
    for cause, senders in without_room(replay):
        yield Finding(cause, True, f"{plural(sum(senders.values()), 'packet')} dropped for `{cause}`, "
                      f"from {hosts_text(senders)}", NO_ROOM_ADVICE[cause], {"by_host": by_host(senders)})
    table, hosts = fullest(replay, box)
    most = table.most
    if most.record:
        yield table_finding(table, hosts, largest, Summary(replay.files.report).totals)


def table_finding(table: Table, hosts: Counter[bytes], largest: int | None, totals: Mapping[str, int]) -> Finding:
    most = table.most
    seconds, rest = divmod(most.moment, NANOSECONDS)
    # rules with notrack keep packets out of the table, which isn't seen here
    about = "" if table.begun == totals.get("begun") else "about "
    text = (f"{about}{plural(most.most, 'connection')} at once at most, at record {most.record} ({seconds}.{rest:09}), "
            f"of {hosts_text(hosts)}")
    numbers: dict[str, object] = {"most": most.most, "record": most.record, "begun": table.begun, "live": table.live,
                                  "by_host": by_host(hosts)}
    if largest is None:
        return Finding("connections", False, text, "beside nf_conntrack_max, if you give it (--conntrack-max)", numbers)
    share = 100 * most.most / largest
    return Finding("connections", share >= NEARLY_FULL, f"{text}; {share:.1f} % of nf_conntrack_max",
                   "a full table drops what is new (`nf_conntrack: table full`): Linux has those of the box itself, "
                   "too, and other idle limits", {**numbers, "max": largest})


def by_host(hosts: Counter[bytes]) -> dict[str, int]:
    """Those that have most, the lowest address first of several with as many."""
    told = sorted(hosts.items(), key=lambda one: (-one[1], one[0]))[:MOST_LISTED]
    return {address_text(host): number for host, number in told if number}


def hosts_text(hosts: Counter[bytes]) -> str:
    """192.168.1.10 (12), 192.168.1.11 (3) and 4 more hosts"""
    told = by_host(hosts)
    rest = sum(number > 0 for number in hosts.values()) - len(told)
    listed = ", ".join(f"{host} ({number})" for host, number in told.items())
    return listed + (f" and {plural(rest, 'more host', 'more hosts')}" if rest else "")
