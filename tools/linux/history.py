"""What came before a record: of each connection its packets, as far as a capture tells, and the ends of
translations."""
from __future__ import annotations

from dataclasses import dataclass

from linux.seen import Fate, Said, Told
from toolbox.packets import ACK, FIN, RST, SYN, TCP, error_tuple_at, inverse, kind_of, source_end, tuple_at
from toolbox.reports import THROUGH


@dataclass(frozen=True)
class Passage:
    """One packet of a connection; whether it went through by nftrun and by Linux."""

    number: int
    moment: int
    key: bytes
    flags: int
    by_nftrun: bool
    by_linux: bool


class Conversation:
    """The packets of two ends, translated or not, in order; `sections` are those that explained differences, by the
    record's number."""

    def __init__(self) -> None:
        self.packets: list[Passage] = []
        self.answered_by_box = False
        self.sections: dict[int, str] = {}

    def before(self, number: int) -> list[Passage]:
        return [packet for packet in self.packets if packet.number < number]


@dataclass(frozen=True)
class Inside:
    """An end inside, of a kind of connections."""

    kind: int
    end: bytes


class History:
    """Conversations by the tuples that packets of them come with; `ends` are the external ones of internal ones, by
    nftrun, and `known` the conversation of each record."""

    def __init__(self) -> None:
        self.by_tuple: dict[bytes, Conversation] = {}
        self.ends: dict[Inside, set[bytes]] = {}
        self.known: dict[int, Conversation] = {}

    def conversation(self, key: bytes) -> Conversation:
        """The one that a tuple belongs to; it is made where there is none."""
        for one in (key, inverse(key)):
            if one in self.by_tuple:
                return self.by_tuple[one]
        made = self.by_tuple[key] = Conversation()
        return made

    def take(self, number: int, moment: int, said: Said, told: Told) -> None:
        """Has a record be known."""
        packet = told.sending.packet
        found = tuple_at(packet, 0)
        key = found or error_tuple_at(packet, 0)
        if key is None:
            return
        conversation = self.known[number] = self.conversation(key)
        if not found:
            return
        flags = packet[4 * (packet[0] & 15) + 13] if kind_of(key) == TCP else 0
        conversation.packets.append(
            Passage(number, moment, key, flags, said.outcome in THROUGH, told.fate in (Fate.PASSED, Fate.LOCAL)))
        for left in ([said.leaves] if said.leaves else []) + list(told.leaves):
            out = tuple_at(left.data, 0)
            if out:
                self.by_tuple.setdefault(inverse(out), conversation)
        for made in told.made:
            answer = tuple_at(made.data, 0)
            if answer:
                self.conversation(answer).answered_by_box = True
        if said.leaves:
            self.take_mapping(key, tuple_at(said.leaves.data, 0))

    def take_mapping(self, key: bytes, left: bytes | None) -> None:
        if left and source_end(left) != source_end(key):
            self.ends.setdefault(Inside(kind_of(key), source_end(key)), set()).add(source_end(left))

    def was_used(self, number: int, end: bytes) -> bool:
        """Whether a packet before a record came from an end."""
        return any(source_end(packet.key) == end for conversation in set(self.known.values())
                   for packet in conversation.before(number))

    def gap(self, number: int, moment: int) -> float | None:
        """Seconds since the packet before of its conversation, or None."""
        earlier = self.known[number].before(number)
        return (moment - earlier[-1].moment) / 1e9 if earlier else None


def is_lone_syn(flags: int) -> bool:
    return flags & (SYN | FIN | RST | ACK) == SYN
