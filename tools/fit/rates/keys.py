"""Keys of sets that rules add to: what of a packet they read, as numbers."""
from __future__ import annotations

from dataclasses import dataclass
from typing import Mapping

from toolbox.lexer import Kind
from toolbox.packets import PORTED, TCP, UDP

from ..facts import TYPES
from ..numbers import number_of
from ..tree import Calculation, Element, Expression, Joined, NotFitted, One, Selector
from .elements import Key

PORTS = {
    f"{header} {field}": (header, at) for header in ("tcp", "udp", "th") for field, at in (("sport", 0), ("dport", 2))}
PROTOCOLS = {"tcp": (TCP,), "udp": (UDP,), "th": PORTED}
# what translation changes on its way, and what it changes last
DESTINATIONS = ("ip daddr", "tcp dport", "udp dport", "th dport")
SOURCES = ("ip saddr", "tcp sport", "udp sport", "th sport")
READ = {"ip saddr", "ip daddr", "ip protocol", "meta l4proto", "meta iifname", "meta iif", *PORTS}
NAME_BYTES = 16


@dataclass(frozen=True)
class KeyPart:
    """A selector of a key, with the bits of it that are asked, or None for all."""

    name: str
    mask: int | None


@dataclass(frozen=True)
class Packet:
    """An IPv4 packet as it came, and the interface by which it came."""

    data: bytes
    index: int
    interface: str

    @property
    def behind(self) -> int:
        """Where its header ends."""
        return 4 * (self.data[0] & 15)

    @property
    def size(self) -> int:
        return int.from_bytes(self.data[2:4], "big")


def key_parts(it: Expression) -> tuple[KeyPart, ...]:
    """The parts of a key; NotFitted where one isn't read here."""
    return tuple(part_of(one) for one in (it.parts if isinstance(it, Joined) else (it,)))


def part_of(it: Expression) -> KeyPart:
    mask = None
    if isinstance(it, Calculation) and it.operator == "&" and isinstance(it.right, One):
        name = it.left.name if isinstance(it.left, Selector) else ""
        mask, it = number_of(it.right.value, TYPES.get(name, "32")), it.left
        if mask is None:
            raise NotFitted("a mask that isn't known")
    if not isinstance(it, Selector) or it.name not in READ:
        raise NotFitted("a key that isn't replayed")
    return KeyPart(it.name, mask)


def name_number(name: str) -> int:
    """The number of an interface's name, padded with zeros."""
    return int.from_bytes(name.encode("utf-8", "surrogateescape").ljust(NAME_BYTES, b"\0"), "big")


def value_of(part: KeyPart, packet: Packet) -> int:
    """What a part reads of the packet, which has it: the rule asks for its protocol before."""
    data, name = packet.data, part.name
    if name in PORTS:
        at = packet.behind + PORTS[name][1]
        value = int.from_bytes(data[at:at + 2], "big")
    elif name in ("ip saddr", "ip daddr"):
        at = 12 if name == "ip saddr" else 16
        value = int.from_bytes(data[at:at + 4], "big")
    elif name == "meta iifname":
        value = name_number(packet.interface)
    else:
        value = packet.index if name == "meta iif" else data[9]
    return value if part.mask is None else value & part.mask


def has_ports(parts: tuple[KeyPart, ...], packet: Packet) -> bool:
    """Whether the packet has all that the key reads."""
    return all(packet.data[9] in PROTOCOLS[PORTS[it.name][0]] for it in parts if it.name in PORTS)


def key_of(parts: tuple[KeyPart, ...], packet: Packet) -> Key | None:
    """The packet's key, or None where it lacks a part."""
    return tuple(value_of(it, packet) for it in parts) if has_ports(parts, packet) else None


def listed_key(parts: tuple[KeyPart, ...], element: Element, indices: Mapping[str, int]) -> Key:
    """The key of an element that a set lists."""
    if len(element.key) != len(parts):
        raise NotFitted("keys of another number of parts")
    found = []
    for part, listed in zip(parts, element.key):
        if not isinstance(listed, One):
            raise NotFitted("ranges in a set that rules add to")
        text, kind = listed.value.text.strip('"'), TYPES[part.name]
        if kind == "ifname":
            number: int | None = name_number(text)
        elif kind == "iface_index" and listed.value.kind is not Kind.NUMBER:
            number = indices.get(text)
        else:
            number = number_of(listed.value, kind)
        if number is None:
            raise NotFitted("a value that isn't known")
        found.append(number)
    return tuple(found)
