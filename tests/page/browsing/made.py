"""Captures and rulesets whose answers are known by how they are made: each sort of packet has its number here, and what
a page has to show is reckoned from these by hand, in browsing.answers."""
from __future__ import annotations

import os
from dataclasses import dataclass
from typing import Iterator

from toolbox.boxes import Box
from toolbox.captures import LINUX_SLL2, write_header, write_record
from toolbox.crafted import crafted_records

BOX = """interface 2 lan 192.168.1.1/24
interface 3 wan 203.0.113.1/24
interface 4 guest 192.168.9.1/24
route 0.0.0.0/0 wan
default lan
"""
HEAD = """table ip nat {
	chain prerouting {
		type nat hook prerouting priority dstnat; policy accept;
	}

	chain postrouting {
		type nat hook postrouting priority srcnat; policy accept;
		oifname "wan" masquerade
	}
}

table inet filter {
	chain input {
		type filter hook input priority filter; policy drop;
		iifname "lan" tcp dport 22 accept
	}

	chain forward {
		type filter hook forward priority filter; policy drop;
		ct state established,related accept
"""
FOOT = """		iifname "vpn" accept
	}
}
"""
# what each ruleset has in its chain forward: the mail is taken out, ping moved up, 8443 added, a comment changed
OLD = HEAD + """		iifname "lan" tcp dport 443 counter accept # the web
		iifname "lan" udp dport 53 accept
		iifname "lan" udp dport 123 accept
		iifname "lan" ip daddr 198.51.100.25 tcp dport 25 accept
		iifname "lan" icmp type echo-request accept
""" + FOOT
NEW = HEAD + """		iifname "lan" icmp type echo-request accept
		iifname "lan" tcp dport 443 counter accept # the web, by TLS
		iifname "lan" tcp dport 8443 accept
		iifname "lan" udp dport 53 accept
		iifname "lan" udp dport 123 accept
""" + FOOT


@dataclass(frozen=True)
class Sort:
    """Packets of one sort: how many, and the words of the packet in place `{}` of which a number rises from `first`."""

    many: int
    words: str
    first: int = 0

    def lines(self) -> Iterator[str]:
        for place in range(self.many):
            yield self.words.format(self.first + place)


SORTS = (
    Sort(3464, "udp 192.168.1.100:{} > 198.51.100.53:53 in lan", 1024),
    Sort(145, "tcp 192.168.1.6:{} > 198.51.100.7:443 syn in lan", 20000),
    Sort(133, "tcp 192.168.1.60:{} > 198.51.100.7:443 syn in lan", 30000),
    Sort(17, "tcp 192.168.1.25:{} > 198.51.100.25:25 syn in lan", 40000),
    Sort(5, "tcp 192.168.1.70:{} > 198.51.100.200:2525 syn in lan", 41000),
    Sort(9, "tcp 198.51.100.99:{} > 203.0.113.1:3389 syn in wan", 50000),
    Sort(4, "ping 192.168.1.80 > 198.51.100.7 id {} in lan", 25),
    Sort(3, "tcp 192.168.1.90:{} > 192.168.1.1:22 syn in lan", 42000),
)
IPV6 = 2  # records that aren't IPv4, at the end
STEP = 10_000_000  # nanoseconds between two records


@dataclass(frozen=True)
class Made:
    """The paths of what was made. `equal` has all records at one time, `blind` nothing that a rule sees."""

    old: str
    new: str
    box: str
    capture: str
    equal: str
    blind: str


def ipv6_frame() -> bytes:
    """A frame of LINUX_SLL2 that came by lan, with the EtherType of IPv6."""
    return b"\x86\xdd\0\0\0\0\0\2\0\1\0\6" + bytes(8) + b"\x60" + bytes(39)


def frames(box: Box) -> list[bytes]:
    """Those of all sorts, in their order."""
    lines = [line for sort in SORTS for line in sort.lines()]
    return [frame for _, frame in crafted_records(lines, box)] + [ipv6_frame()] * IPV6


def make(folder: str) -> Made:
    """Writes all of it into a folder."""
    names = ("old.nft", "new.nft", "box.txt", "in.pcap", "equal.pcap", "blind.pcap")
    made = Made(*(os.path.join(folder, name) for name in names))
    for path, text in ((made.old, OLD), (made.new, NEW), (made.box, BOX)):
        with open(path, "w", encoding="ascii") as file:
            file.write(text)
    every = frames(Box(made.box))
    for path, some, step in ((made.capture, every, STEP), (made.equal, every, 0), (made.blind, every[-IPV6:], STEP)):
        with open(path, "wb") as target:
            write_header(target, LINUX_SLL2)
            for place, frame in enumerate(some):
                write_record(target, place * step, frame)
    return made
