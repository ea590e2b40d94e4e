"""pcapng, by blocks that were made by hand and by Wireshark: sections, interfaces, times, packets; what is refused; and
what is written, read by the figures of the draft."""
from __future__ import annotations

import base64
import io
import struct
import unittest

from blocks import INBOUND, OUTBOUND, Writer
from made_elsewhere import MERGED, ROUTER, STATION
from support import FilesCase
from toolbox import captures, pcapng
from toolbox.commands import Refused

UNKNOWN, STATISTICS = 0x0BAD, 5


class Reading(FilesCase):
    def read(self, data: bytes) -> tuple[list[pcapng.Packet], bool]:
        reader = pcapng.Reader(self.file("a.pcapng", data), "a.pcapng")
        return list(reader.packets()), reader.torn

    def test_both_orders(self) -> None:
        for order in "<>":
            made = Writer(order)
            packets, torn = self.read(
                made.section() + made.interface(1, made.name("eth0"), made.resolution(9))
                + made.packet(0, 5 << 32 | 7, b"abcde", made.flags(OUTBOUND)) + made.old_packet(0, 3, b"xy")
                + made.simple_packet(3, b"efg"))
            self.assertFalse(torn)
            self.assertEqual([one.data for one in packets], [b"abcde", b"xy", b"efg"])
            self.assertEqual([one.nanoseconds() for one in packets], [5 * 2**32 + 7, 3, None])
            self.assertEqual([one.original for one in packets], [5, 2000, 3])
            self.assertEqual([one.flags for one in packets], [OUTBOUND, 0, 0])
            self.assertEqual({(one.interface.name, one.interface.link_type) for one in packets}, {("eth0", 1)})

    def test_sections(self) -> None:
        low, high = Writer("<"), Writer(">")
        packets, _ = self.read(low.section() + low.interface(1) + low.packet(0, 1, b"a") + high.section()
                               + high.interface(101) + high.interface(276) + high.packet(1, 2, b"b"))
        self.assertEqual([(one.interface.section, one.interface.link_type) for one in packets], [(1, 1), (2, 276)])

    def test_resolutions(self) -> None:
        made = Writer()
        # by the draft: 6 is a microsecond, 0x83 an eighth of a second; 12 a picosecond; without one a microsecond
        told = ((6, 1_500_000, 1_500_000_000), (0, 2, 2 * 10**9), (0x83, 9, 1_125_000_000), (0x80, 1, 10**9),
                (9, 77, 77), (12, 1_999, 1), (0x8A, 1, 976_562))
        for value, ticks, nanoseconds in told:
            packets, _ = self.read(made.section() + made.interface(1, made.resolution(value))
                                   + made.packet(0, ticks, b""))
            self.assertEqual(packets[0].nanoseconds(), nanoseconds, value)
            self.assertEqual(packets[0].is_cut(), value in (12, 0x8A), value)
        packets, _ = self.read(made.section() + made.interface(1, made.offset(100)) + made.packet(0, 3, b""))
        self.assertEqual(packets[0].nanoseconds(), 100_000_003_000)
        packets, _ = self.read(made.section() + made.interface(1, made.offset(-1)) + made.packet(0, 3, b""))
        self.assertEqual(packets[0].nanoseconds(), -999_997_000)

    def test_other_blocks_and_options(self) -> None:
        made = Writer()
        other = made.block(UNKNOWN, b"\1" * 100) + made.block(STATISTICS, bytes(12))
        packets, torn = self.read(
            other.join([made.section(), made.interface(1, (1, b"a remark"), made.name("a"), (2988, b"\0" * 9)),
                        made.packet(0, 1, b"abc", (1, "ä".encode()), made.flags(INBOUND), (2989, b"x")), b""]))
        self.assertEqual([(one.interface.name, one.flags, one.data) for one in packets], [("a", INBOUND, b"abc")])
        self.assertFalse(torn)

    def test_a_snap_length_cuts_simple_packets(self) -> None:
        made = Writer(">")
        packets, _ = self.read(made.section() + made.interface(1, snaplen=4) + made.simple_packet(90, b"abcd"))
        self.assertEqual([(one.data, one.original) for one in packets], [(b"abcd", 90)])

    def test_a_torn_end(self) -> None:
        made = Writer()
        whole = made.section() + made.interface(1) + made.packet(0, 1, b"abc")
        last = made.packet(0, 2, b"defgh")
        for length in range(1, len(last)):
            packets, torn = self.read(whole + last[:length])
            self.assertEqual((len(packets), torn), (1, True), length)
        for length in range(1, 28):
            self.assertEqual(self.read(whole[:length]), ([], True), length)

    def test_refused(self) -> None:
        made, interface = Writer(), Writer().interface(1)
        begin = made.section() + interface
        damaged = {
            "a block of 8 bytes": begin + struct.pack("<II", 6, 8) + bytes(16),
            "a block of 34 bytes": begin + struct.pack("<II", 6, 34) + bytes(40),
            "two lengths": begin + made.packet(0, 1, b"abcd")[:-4] + struct.pack("<I", 40),
            "without a byte order": begin + made.section()[:8] + bytes(20),
            "of version 2": made.section(major=2),
            "interface 1, of which nothing": begin + made.packet(1, 1, b"abc"),
            "claims 300000 bytes": begin + made.block(6, struct.pack("<5I", 0, 0, 0, 300_000, 0) + bytes(300_000)),
            "claims 90 bytes": begin + made.block(6, struct.pack("<5I", 0, 0, 0, 90, 90)),
            "a packet that is too short": begin + made.block(3, b""),
            "too short at": made.section() + made.block(1, bytes(4)),
            "goes beyond its block": begin + made.packet(0, 1, b"", (1, b"abcd"))[:-12].replace(
                b"\1\0\4\0", b"\1\0\x40\0") + made.packet(0, 1, b"", (1, b"abcd"))[-12:],
            "whose times can't be read": made.section() + made.interface(1, (9, b"ab")),
            "whose flags can't be read": begin + made.packet(0, 1, b"abcd", (2, b"\1")),
        }
        for text, data in damaged.items():
            with self.assertRaisesRegex(Refused, text):
                self.read(data)

    def test_made_by_wireshark(self) -> None:
        packets, torn = self.read(base64.b64decode(MERGED))
        self.assertFalse(torn)
        wanted: list[tuple[int, int, bytes]] = []
        for text, link_type in ((STATION, 1), (ROUTER, 276)):
            path = self.capture("one.pcap", text)
            unit = 10**9 // captures.header_of(path).fractions
            for _, seconds, fraction, _, _, _, data in captures.records(path):
                wanted.append((link_type, seconds * 10**9 + fraction * unit, data))
        self.assertEqual([(one.interface.link_type, one.nanoseconds(), one.data) for one in packets], wanted)


class Writing(unittest.TestCase):
    def test_blocks(self) -> None:
        file = io.BytesIO()
        pcapng.write_beginning(file, "nftrun", 276)
        pcapng.write_packet(file, 5 << 32 | 9, 1500, b"abcde", "outcome rule\nä")
        made, text = Writer(), "outcome rule\nä".encode()
        head = struct.pack("<5I", 0, 5, 9, 5, 1500)
        self.assertEqual(file.getvalue(), (
            made.block(0x0A0D0D0A, struct.pack("<IHHq", 0x1A2B3C4D, 1, 0, -1) + made.options((4, b"nftrun")))
            + made.interface(276, made.resolution(9), snaplen=262144)
            + made.block(6, head + b"abcde\0\0\0" + made.options((1, text)))))

    def test_a_long_comment(self) -> None:
        file = io.BytesIO()
        pcapng.write_packet(file, 0, 0, b"", "a" + "ä" * 40_000)
        self.assertEqual(struct.unpack_from("<HH", file.getvalue(), 28), (1, 65_535))
        self.assertEqual(file.getvalue()[32:32 + 65_535].decode(), "a" + "ä" * 32_767)


if __name__ == "__main__":
    unittest.main()
