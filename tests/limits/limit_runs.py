"""Runs at limits of captures, rulesets and box files; what they have to give was worked out by hand."""
from __future__ import annotations

import struct
from typing import Iterator

from limit_checks import BOX, chain, routes
from plain import NANOSECONDS, OUT_HEADER, RAW_IP, file_header, record
from sizes import FORWARD, HEADER, UDP, End, Trial, Wanted, came, left, packet, totals

# Its default is named by no line.
NO_BOX = "default lan\n"
# UDP from 192.168.1.10:5000 to 198.51.100.7:53 at 1.5 s, and as it leaves by interface 3 with TTL 63.
PLAIN = record(bytes.fromhex("4500001c0001000040118ee3c0a8010ac63364071388003500080000"), 1, 500_000)
# The same from 192.168.1.11.
OTHER = record(bytes.fromhex("4500001c0001000040118ee2c0a8010bc63364071388003500080000"), 1, 500_000)
# The link's header of what leaves by interface 3.
TO_WAN = bytes.fromhex("0800000000000003000104000000000000000000")
PLAIN_OUT, OTHER_OUT = (record(TO_WAN + bytes.fromhex(packet), 1, 500_000_000) for packet in (
    "4500001c000100003f118fe3c0a8010ac63364071388003500080000",
    "4500001c000100003f118fe2c0a8010bc63364071388003500080000"))


def longest(ttl: int) -> bytes:
    """UDP from 192.168.1.10:5000 to 198.51.100.7:53 of 65,535 bytes, without a checksum."""
    words = [0x4500, 65_535, 1, 0, ttl << 8 | 17, 0, 0xC0A8, 0x010A, 0xC633, 0x6407]
    total = sum(words)
    words[5] = 0xFFFF - (total % 0x10000 + total // 0x10000)
    return struct.pack(">14H", *words, 5_000, 53, 65_515, 0) + b"\7" * 65_507


def refused() -> Iterator[Trial]:
    """Of several faults the first of all inputs is told, and nothing is written. A capture without a header is last."""
    for count, box, line, status in (
        (16_384, BOX, "capture P5", 4),
        (16_385, NO_BOX, "box B3", 3),
        (16_385, BOX, "rules N15", 1),
        (65_535, BOX, "rules N15", 1),
        (65_536, BOX, "rules N06", 1),
    ):
        yield Trial(chain("drop\n" * count), box, b"", Wanted(status, f"nftrun: {line}\n", "", b""))


def of_many_packets() -> Iterator[Trial]:
    """5,000 packets, all of which leave; or each second one is dropped by the last of 2,000 rules; or more is told of
    them than waits until the last one is read."""
    capture = HEADER + 2_500 * (PLAIN + OTHER)
    told = totals(records=5_000, passed=5_000, begun=2, live=2)
    yield Trial("", BOX, capture, Wanted(0, "", told, OUT_HEADER + 2_500 * (PLAIN_OUT + OTHER_OUT)))
    rules = 1_999 * "ip daddr 198.51.100.7 ip saddr 10.0.0.1 drop\n" + "ip saddr 192.168.1.10 drop\n"
    told = totals(records=5_000, passed=2_500, rule=2_500, begun=1, live=1)
    yield Trial(chain(rules), BOX, capture, Wanted(0, "", told, OUT_HEADER + 2_500 * OTHER_OUT))
    told = "".join(f"log {n} ip t c 1\ntrace {n} ip t c 1 accept\ntrace {n} outcome passed\n" for n in range(1, 5_001))
    told += totals(records=5_000, passed=5_000, begun=1, live=1)
    wanted = Wanted(0, "", told, OUT_HEADER + 5_000 * PLAIN_OUT)
    yield Trial(chain("log accept; "), BOX, HEADER + 5_000 * PLAIN, wanted, ["--trace"])


def of_longest_packets() -> Trial:
    """The longest packets, a nanosecond apart, of which what waits to be written holds one beside the end of
    another."""
    header = file_header(NANOSECONDS, 0xFFFF, RAW_IP)
    come = b"".join(record(longest(64), 0, moment) for moment in range(3))
    leave = b"".join(record(TO_WAN + longest(63), 0, moment) for moment in range(3))
    told = totals(records=3, passed=3, begun=1, live=1)
    return Trial("", BOX, header + come, Wanted(0, "", told, OUT_HEADER + leave))


def through_all_rules() -> Trial:
    """A packet goes through all the rules that a ruleset may have, each in a chain of its own."""
    rules = f"table t {{ chain c0 {{ {FORWARD} counter goto c1; }}\n"
    rules += "".join(f"chain c{n} {{ counter goto c{n + 1}; }}\n" for n in range(1, 16_383))
    rules += "chain c16383 { counter accept; } }\n"
    told = "".join(f"counter ip t c{n} 1 1 packets 1 bytes 28\n" for n in range(16_384))
    told += totals(records=1, passed=1, begun=1, live=1)
    return Trial(rules, BOX, HEADER + PLAIN, Wanted(0, "", told, OUT_HEADER + PLAIN_OUT))


def routed() -> Trial:
    """A box with the most routes: what goes to the last of them leaves by it, and the address behind has none."""
    host, last, none = End(0xC0A8010A, 5_000), End(0x0A0003FF, 53), End(0x0A000400, 53)
    come = b"".join(came(packet(UDP, host, to)) for to in (last, none))
    sent = left(packet(UDP, host, last, ttl=63), interface=1)
    told = totals(records=2, passed=1, route=1, begun=1, live=1)
    return Trial("", routes(1_024), HEADER + come, Wanted(0, "", told, OUT_HEADER + sent))


def runs() -> Iterator[Trial]:
    yield from refused()
    yield from of_many_packets()
    yield of_longest_packets()
    yield through_all_rules()
    yield routed()
