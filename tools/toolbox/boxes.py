"""Box files (docs/BOX.md): interfaces, addresses, routes, idle limits."""
from __future__ import annotations

from ipaddress import AddressValueError, IPv4Address

from toolbox.commands import Refused, read_bytes
from toolbox.packets import ANSWER, ASK, TCP, UDP

# seconds without a packet after which a connection expires, where the box file doesn't say
IDLE = {"udp": 300, "established": 7440, "transitory": 240, "ask": 60, "other": 600}
NO_ROUTE_FROM = 224 << 24


class Box:
    """What a box file says; nftrun has the last word on what is wrong with it."""

    def __init__(self, path: str) -> None:
        self.path = path
        self.indices: dict[str, int] = {}  # by name
        self.names: dict[int, str] = {}  # by index
        self.addresses: dict[bytes, int] = {}  # packed address: index
        self.routes: list[tuple[int, int, str]] = []  # (prefix, length, name) in the text's order
        self.idle = dict(IDLE)
        self.default: str | None = None
        for number, line in enumerate(read_bytes(path).decode("utf-8", "replace").split("\n"), 1):
            words = line.partition("#")[0].split()
            try:
                self.take(words)
            except (ValueError, AddressValueError):
                raise Refused(f"{path}: line {number} is none of a box file (docs/BOX.md)") from None

    def take(self, words: list[str]) -> None:
        if not words:
            return
        if words[0] == "interface" and len(words) == 4:
            address, _, length = words[3].partition("/")
            packed, index = IPv4Address(address), int(words[1])
            if not 0 < index < 1 << 31:
                raise ValueError
            self.indices[words[2]], self.names[index] = index, words[2]
            self.addresses[packed.packed] = index
            self.add_route(int(packed), length, words[2])
        elif words[0] == "route" and len(words) == 3:
            address, _, length = words[1].partition("/")
            self.add_route(int(IPv4Address(address)), length, words[2])
        elif words[0] == "default" and len(words) == 2:
            self.default = words[1]
        elif words[0] == "idle" and len(words) == 3 and words[1] in IDLE:
            self.idle[words[1]] = int(words[2])
        else:
            raise ValueError

    def add_route(self, address: int, length: str, name: str) -> None:
        bits = int(length)
        if not 0 <= bits <= 32:
            raise ValueError
        self.routes.append((address >> 32 - bits, bits, name))

    def index_bytes(self) -> set[bytes]:
        """The indices as LINUX_SLL2 has them."""
        return {index.to_bytes(4, "big") for index in self.names}

    def entering(self) -> int | None:
        """The index of the interface that packets enter by where a capture tells none."""
        return None if self.default is None else self.indices.get(self.default)

    def interface_name(self, index: int | None) -> str:
        return f"index {index}" if index is None or index not in self.names else self.names[index]

    def route(self, address: bytes) -> str | None:
        """The name of the interface that packets to the address (4 bytes) leave by, or None."""
        number = int.from_bytes(address, "big")
        covering = [(bits, name) for prefix, bits, name in self.routes if number >> 32 - bits == prefix]
        if number >= NO_ROUTE_FROM or not covering:
            return None
        return max(covering, key=lambda one: one[0])[1]

    def limits(self) -> list[int]:
        """The idle limit in seconds by a tuple's kind; of TCP the longer one."""
        limits = [self.idle["other"]] * 256
        limits[TCP], limits[UDP] = self.idle["established"], self.idle["udp"]
        limits[ASK] = limits[ANSWER] = self.idle["ask"]
        return limits
