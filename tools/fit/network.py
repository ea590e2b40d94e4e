"""The box file, for what rules ask of routing: the box's addresses, and by which interface an address is reached."""
from __future__ import annotations

from ipaddress import IPv4Address, IPv4Interface, IPv4Network

from .commands import read_text
from .scanner import Refused
from .tree import NotFitted

LOOPBACK = IPv4Network("127.0.0.0/8")
# what the kernel takes for broadcast beside the addresses of networks
BROADCAST = (IPv4Network("255.255.255.255/32"), IPv4Network("0.0.0.0/8"))
MULTICAST = IPv4Network("224.0.0.0/4")
EMPTY_TYPES = ("blackhole", "unreachable", "prohibit", "throw", "nat", "anycast")


class Network:
    """`interfaces` are (name, IPv4Interface), `routes` (IPv4Network, name) in the order of the text."""

    def __init__(self, path: str | None = None) -> None:
        self.interfaces: list[tuple[str, IPv4Interface]] = []
        self.routes: list[tuple[IPv4Network, str]] = []
        if path is not None:
            self.read(path)

    def read(self, path: str) -> None:
        for number, line in enumerate(read_text(path).split("\n"), 1):
            words = line.split("#")[0].split()
            try:
                if words[:1] == ["interface"] and len(words) == 4:
                    interface = IPv4Interface(words[3])
                    self.interfaces.append((words[2], interface))
                    self.routes.append((interface.network, words[2]))
                elif words[:1] == ["route"] and len(words) == 3:
                    self.routes.append((IPv4Network(words[1]), words[2]))
            except ValueError:
                raise Refused(f"{path}:{number}: it is no line of a box file") from None

    def names(self) -> list[str]:
        return list(dict.fromkeys(name for name, _ in self.interfaces))

    def own(self, name: str | None = None) -> list[IPv4Network]:
        """The box's addresses, of one interface or of all."""
        found = [IPv4Network(it.ip) for by, it in self.interfaces if name in (None, by)]
        return [LOOPBACK, *found] if name in (None, "lo") else found

    def broadcast(self, name: str | None = None) -> list[IPv4Network]:
        """What the kernel takes for broadcast, of one interface's networks or of all."""
        nets = [it.network for by, it in self.interfaces if it.network.prefixlen < 31 and name in (None, by)]
        return [*BROADCAST, *(IPv4Network(it.broadcast_address) for it in nets)]

    def of_type(self, word: str, name: str | None = None) -> list[IPv4Network]:
        """The networks of which `fib daddr type WORD` holds; of one interface, `fib daddr . iif type`."""
        if word == "local":
            return self.own(name)
        if word == "broadcast":
            return self.broadcast(name)
        if word == "multicast":
            return [MULTICAST]
        if word in EMPTY_TYPES:
            return []
        raise NotFitted(f"`fib .. type {word}`")

    def reached_by(self, name: str) -> list[str]:
        """The addresses whose best route leads to the interface, as ranges of text. The box's own addresses have
        none, as in the kernel; those of broadcast have that of their network."""
        routes: list[tuple[IPv4Network, str | None]] = [(net, None) for net in self.own()]
        routes += self.routes
        bounds = sorted({0, 1 << 32} | {int(net[0]) for net, _ in routes} | {int(net[-1]) + 1 for net, _ in routes})
        ranges: list[tuple[int, int]] = []
        for low, after in zip(bounds, bounds[1:]):
            if self.best(routes, low) != name:
                continue
            if ranges and ranges[-1][1] == low - 1:
                low = ranges.pop()[0]
            ranges.append((low, after - 1))
        return [span(low, high) for low, high in ranges]

    @staticmethod
    def best(routes: list[tuple[IPv4Network, str | None]], address: int) -> str | None:
        """The interface of the first of the most specific routes that cover an address."""
        covering = [(net, by) for net, by in routes if int(net[0]) <= address <= int(net[-1])]
        return max(covering, key=lambda it: it[0].prefixlen)[1] if covering else None


def span(low: int, high: int) -> str:
    return str(IPv4Address(low)) if low == high else f"{IPv4Address(low)}-{IPv4Address(high)}"


def spelled_networks(networks: list[IPv4Network]) -> str:
    """Networks as elements of a set, each once."""
    return ", ".join(dict.fromkeys(str(it[0]) if it.prefixlen == 32 else str(it) for it in networks))
