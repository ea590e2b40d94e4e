"""A long random history without NAT: what becomes of each record is told by a search through all earlier records, by
docs/SPEC.md, section 6. The ruleset is tests/rows/tracked.nft, which `outcome_of` and `counted` tell in Python."""
from __future__ import annotations

from typing import Callable, Iterator

from history_packets import (
    ACK, BYTES, FIN, RST, SECOND, SYN, USUAL_TTL, Dice, End, Ends, History, Kind, Left, Load, Packet, address,
    is_closing, limit_of,
)

MARKING, DROPPED = 21, 11  # the TTLs by which the rules mark a connection, and drop


class Tracked:
    """A record of a history without NAT, and its outcome."""

    def __init__(self, packet: Packet) -> None:
        self.packet = packet
        self.outcome = outcome_of(packet)
        # Its connection, by the place of the record that began it, which may be its own.
        self.connection: int | None = None
        self.is_reply = False
        self.state = "invalid"
        self.had_mark = False
        # The connection that it ended.
        self.ended: int | None = None


def outcome_of(packet: Packet) -> str:
    return "ttl" if packet.ttl < 2 else "rule" if packet.ttl == DROPPED else "passed"


def packets_of(past: list[Tracked], connection: int) -> list[Tracked]:
    return [one for one in past[connection:] if one.connection == connection]


def is_closed(past: list[Tracked], connection: int) -> bool:
    return is_closing(*flags_of(past, connection))


def flags_of(past: list[Tracked], connection: int) -> list[int]:
    """The control bits of its packets in direction original, and in direction reply."""
    seen = [0, 0]
    for one in packets_of(past, connection):
        seen[one.is_reply] |= one.packet.flags
    return seen


def lives(past: list[Tracked], place: int, now: int) -> bool:
    """Whether the record at this place began a connection that is live."""
    first = past[place]
    if first.connection != place or any(one.ended == place for one in past[place:]):
        return False
    last = packets_of(past, place)[-1].packet.at
    return now - last < limit_of(first.packet.protocol, *flags_of(past, place))


def begun_with(past: list[Tracked], packet: Packet, ends: Ends) -> int | None:
    """The place of the live connection of a packet's protocol that began between these ends."""
    for place, one in enumerate(past):
        is_alike = one.packet.ends == ends and one.packet.protocol == packet.protocol
        if is_alike and one.packet.kind is not Kind.ECHO_REPLY and lives(past, place, packet.at):
            return place
    return None


def track(past: list[Tracked], packet: Packet) -> Tracked:
    """What becomes of a packet behind those."""
    one = Tracked(packet)
    place = None if packet.kind is Kind.ECHO_REPLY else begun_with(past, packet, packet.ends)
    if place is None and packet.kind is not Kind.ECHO_REQUEST:
        place = begun_with(past, packet, packet.ends.back)
        one.is_reply = place is not None
    if place is not None and not one.is_reply and packet.is_lone_syn and is_closed(past, place):
        one.ended, place = place, None
    if place is not None:
        earlier = packets_of(past, place)
        is_answered = one.is_reply or any(other.is_reply for other in earlier)
        one.state = "established" if is_answered else "new"
        one.had_mark = any(other.packet.ttl == MARKING for other in earlier)
    elif packet.kind is not Kind.ECHO_REPLY:
        place, one.state = len(past), "new"
    if one.outcome == "passed":
        one.connection = place
    return one


def draw_load(dice: Dice) -> Load:
    drawn = dice.roll(14)
    others = {3: Load(Kind.ECHO_REQUEST), 4: Load(Kind.ECHO_REPLY), 5: Load(Kind.GRE), 8: Load(Kind.TCP, SYN | ACK),
              9: Load(Kind.TCP, FIN | ACK), 10: Load(Kind.TCP, RST)}
    if drawn in others:
        return others[drawn]
    return Load(Kind.UDP) if drawn < 3 else Load(Kind.TCP, ACK if drawn < 8 else SYN)


def draw_packet(dice: Dice, at: int) -> Packet:
    """A packet one way or the other between two of thirty ends; the less their number the more it says."""
    host = dice.roll(2**16)
    host %= 1 + dice.roll(30)
    inside = End(address("192.168.1.10") + host % 6, 5000 + host % 30 // 6)
    other = host + dice.roll(4) // 3
    outside = End(address("198.51.100.1") + other % 6, 53 + other % 30 // 6)
    outward = Ends(inside, outside)
    is_outward = dice.roll(2) == 0
    ttl = {0: 1, 1: DROPPED, 2: MARKING}.get(dice.roll(16), USUAL_TTL)
    return Packet(at, "lan" if is_outward else "wan", draw_load(dice), outward if is_outward else outward.back, ttl)


def counted(past: list[Tracked]) -> Iterator[str]:
    """The lines of the counters; a packet at its last hop doesn't come to the chain."""
    tests: list[Callable[[Tracked], bool]] = [
        lambda one: one.state == "new",
        lambda one: one.state == "established",
        lambda one: one.state == "invalid",
        lambda one: one.is_reply,
        lambda one: one.had_mark,
        lambda one: False,
    ]
    for rule, test in enumerate(tests, 1):
        lengths = [BYTES[one.packet.kind] for one in past if one.outcome != "ttl" and test(one)]
        assert lengths or rule == 6
        yield f"counter ip t fwd {rule} 1 packets {len(lengths)} bytes {sum(lengths)}"


def tracked_history(seed: int, count: int) -> History:
    """A history of so many records."""
    dice, second = Dice(seed), 0
    past: list[Tracked] = []
    for _ in range(count):
        waited = dice.wait()
        second += waited
        nanoseconds = 1 if waited == 0 else dice.roll(2)
        past.append(track(past, draw_packet(dice, second * SECOND + nanoseconds)))
    now = past[-1].packet.at
    assert any(one.ended is not None for one in past)
    totals = {
        "drop rule": sum(one.outcome == "rule" for one in past),
        "drop ttl": sum(one.outcome == "ttl" for one in past),
        "begun": sum(one.connection == place for place, one in enumerate(past)),
        "live": sum(lives(past, place, now) for place in range(count)),
    }
    left = [Left(place, one.packet.ends) for place, one in enumerate(past) if one.outcome == "passed"]
    packets = [one.packet for one in past]
    return History("tracked by a search", "tracked.nft", "box.txt", packets, left, list(counted(past)), totals)
