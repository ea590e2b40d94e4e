"""Captures in other formats, and the classic files that are made of them: which link type, which interface and
direction, which times; gzip, whole and cut; what is refused."""
from __future__ import annotations

import base64
import contextlib
import gzip
import io
import os
import struct

from blocks import INBOUND, OUTBOUND, PROMISCUOUS, Writer
from made_elsewhere import MERGED, PACKETS, ROUTER, STATION
from support import BOX, LAN, WAN, FilesCase
from toolbox import captures
from toolbox.captures import ETHERNET, LINUX_SLL2, RAW_IP, called
from toolbox.commands import Refused
from toolbox.converted import classic

SYN = bytes.fromhex(PACKETS["TCP_SYN"])
TO_BOX, FROM_HOST = bytes.fromhex("020000000001"), bytes.fromhex("020000000002")
FRAME = TO_BOX + FROM_HOST + b"\x08\0" + SYN
GROUP, ALL = bytes.fromhex("01005e000001") + FRAME[6:], b"\xff" * 6 + FRAME[6:]


class Converting(FilesCase):
    def setUp(self) -> None:
        super().setUp()
        self.box = self.file("box.txt", BOX)

    def made(self, data: bytes, with_box: bool = True) -> bytes:
        """The classic file that is made of a capture."""
        path = self.file("in.pcapng", data)
        with classic(path, self.box if with_box else None) as made:
            self.assertEqual(called(made), path)
            self.folder_made = os.path.dirname(made)
            with open(made, "rb") as file:
                return file.read()

    def records(self, data: bytes) -> tuple[captures.Header, list[captures.Record]]:
        path = self.file("made.pcap", data)
        return captures.header_of(path), list(captures.records(path))

    def sll2(self, interface: int, kind: int, sender: bytes = FROM_HOST) -> bytes:
        """A header of LINUX_SLL2 by LINKTYPE_LINUX_SLL2 of tcpdump.org."""
        hardware = 1 if sender else 0xFFFE
        return struct.pack(">HHIHBB8s", 0x0800, 0, interface, hardware, kind, len(sender), sender)

    def test_a_classic_file_is_read_itself(self) -> None:
        path = self.capture("a.pcap", ROUTER)
        with classic(path, self.box) as read:
            self.assertEqual(read, path)
        path = self.file("b", b"no capture")
        with classic(path, None) as read:
            self.assertEqual(read, path)
        with self.assertRaises(Refused), classic(str(self.folder / "none"), None):
            pass

    def test_gzip(self) -> None:
        data = base64.b64decode(ROUTER)
        for packed in (gzip.compress(data), gzip.compress(data[:100]) + gzip.compress(data[100:]),
                       gzip.compress(data) + bytes(9)):
            self.assertEqual(self.made(packed), data)
        self.assertFalse(os.path.exists(self.folder_made))

    def test_gzip_that_is_cut(self) -> None:
        """Torn, also where what is left ends with a record; a byte that isn't there makes no record whole."""
        data = base64.b64decode(ROUTER)
        first = 24 + 16 + 60
        for cut in (first, first + 16 + 59, first + 7):
            packed = gzip.compress(data[:cut], 0)[:-8]  # stored, without the length and the checksum at the end
            made = self.made(packed)
            header, records = self.records(made)
            self.assertEqual([one[6] for one in records], [data[40:100]])
            self.assertTrue(captures.is_torn(str(self.folder / "made.pcap"), first))
            self.assertEqual(header.link_type, LINUX_SLL2)

    def test_damaged_gzip(self) -> None:
        packed = bytearray(gzip.compress(base64.b64decode(ROUTER)))
        packed[-6] ^= 1  # of the checksum
        for data in (bytes(packed), b"\x1f\x8b" + b"\xff" * 40, gzip.compress(b"") + b"more"):
            with self.assertRaisesRegex(Refused, "in.pcapng: no gzip that can be read"):
                self.made(data)
        with self.assertRaisesRegex(Refused, "in.pcapng: record 1 claims"):
            header = base64.b64decode(ROUTER)[:24]
            self.made(gzip.compress(header + struct.pack("<4I", 0, 0, 1 << 30, 9))[:-4])

    def test_one_interface_stays(self) -> None:
        """As it is, in gzip too, with microseconds where that is all that there is."""
        for link_type, fractions, value in ((ETHERNET, 10**6, 6), (RAW_IP, 10**9, 9), (LINUX_SLL2, 10**9, 0x87)):
            made = Writer(">")
            data = (made.section() + made.interface(link_type, made.name("lan"), made.resolution(value))
                    + made.interface(113) + made.packet(0, 3, FRAME, made.flags(INBOUND)) + made.packet(0, 4, b""))
            for given in (data, gzip.compress(data)):
                header, records = self.records(self.made(given))
                self.assertEqual((header.link_type, header.fractions), (link_type, fractions))
                self.assertEqual([one[6] for one in records], [FRAME, b""])
            self.assertEqual(records[0][1:3], {6: (0, 3), 9: (0, 3), 0x87: (0, 23_437_500)}[value])

    def test_the_box_files_interface(self) -> None:
        """An interface that isn't the default is told by the header, and what is left of an Ethernet one is kept."""
        made = Writer()
        data = (made.section() + made.interface(ETHERNET, made.name("wan"))
                + b"".join(made.packet(0, number, frame) for number, frame in enumerate(
                    (FRAME, GROUP, ALL, FRAME[:12] + b"\x81\0" + SYN, FRAME[:13]))))
        header, records = self.records(self.made(data))
        self.assertEqual(header.link_type, LINUX_SLL2)
        self.assertEqual([one[6] for one in records], [
            self.sll2(WAN, 0) + SYN, self.sll2(WAN, 2) + SYN, self.sll2(WAN, 1) + SYN,
            b"\x81\0" + self.sll2(WAN, 0)[2:] + SYN, FRAME[:13]])
        self.assertEqual(self.records(self.made(data, with_box=False))[0].link_type, ETHERNET)

    def test_what_the_box_sent(self) -> None:
        made = Writer()
        data = (made.section() + made.interface(ETHERNET, made.name("eth7"))
                + made.packet(0, 1, FRAME, made.flags(INBOUND)) + made.packet(0, 2, FRAME, made.flags(OUTBOUND))
                + made.packet(0, 3, FRAME, made.flags(PROMISCUOUS)))
        _, records = self.records(self.made(data))
        self.assertEqual([one[6] for one in records], [self.sll2(LAN, kind) + SYN for kind in (0, 4, 3)])
        with self.assertRaisesRegex(Refused, r"2 records of interface 0 \(eth7, Ethernet\) that the box sent"):
            self.made(data, with_box=False)

    def test_several_interfaces(self) -> None:
        made = Writer()
        begin = made.section() + made.interface(ETHERNET, made.name("lan")) + made.interface(RAW_IP, made.name("wan"))
        data = begin + made.packet(0, 1, FRAME, made.flags(INBOUND)) + made.packet(1, 2, SYN, made.flags(OUTBOUND))
        _, records = self.records(self.made(data))
        self.assertEqual([one[6] for one in records], [self.sll2(LAN, 0) + SYN, self.sll2(WAN, 4, b"") + SYN])
        with self.assertRaisesRegex(Refused, r"several interfaces, .*\(lan, Ethernet\) is none of a box file"):
            self.made(data, with_box=False)
        with self.assertRaisesRegex(Refused, r"\(wan, raw IP\) has 1 record without a direction"):
            self.made(begin + made.packet(0, 1, FRAME, made.flags(INBOUND)) + made.packet(1, 2, SYN))

    def test_files_of_one_interface_behind_each_other(self) -> None:
        part = [made.section() + made.interface(ETHERNET, made.name("wan")) + made.packet(0, 1, FRAME)
                for made in (Writer("<"), Writer(">"))]
        _, records = self.records(self.made(b"".join(part)))
        self.assertEqual([one[6] for one in records], 2 * [self.sll2(WAN, 0) + SYN])
        with self.assertRaisesRegex(Refused, "several interfaces"):
            self.made(b"".join(part).replace(b"wan", b"eno"))

    def test_made_by_wireshark(self) -> None:
        with self.assertRaisesRegex(Refused, r"several interfaces, .*interface 0 \(without a name, Ethernet\)"):
            self.made(base64.b64decode(MERGED))
        only = base64.b64decode(MERGED)
        header, records = self.records(self.made(only[:only.index(struct.pack("<II", 6, 92))]))
        self.assertEqual(header.link_type, ETHERNET)
        wanted = list(captures.records(self.capture("station.pcap", STATION)))
        self.assertEqual([one[1:3] + one[4:] for one in records], [one[1:3] + one[4:] for one in wanted])

    def test_times(self) -> None:
        made = Writer()
        begin = made.section() + made.interface(RAW_IP, made.resolution(12))
        told = io.StringIO()
        with contextlib.redirect_stderr(told):
            _, records = self.records(self.made(
                begin + made.simple_packet(2, b"ab") + made.packet(0, 7 * 10**12 + 1_000, b"")
                + made.simple_packet(2, b"cd") + made.packet(0, 7 * 10**12 + 1_001, b"")))
        self.assertEqual([one[1:3] for one in records], [(0, 0), (7, 1), (7, 1), (7, 1)])
        path = self.folder / "in.pcapng"
        self.assertEqual(told.getvalue(), f"{path}: 2 records without a time: they get that of the one before\n"
                                          f"{path}: 1 time cut to nanoseconds\n")
        for offset in (-8, 1 << 32):
            with self.assertRaisesRegex(Refused, "record 1 isn't of the years 1970 to 2105"):
                self.made(made.section() + made.interface(RAW_IP, made.offset(offset)) + made.packet(0, 1, b""))

    def test_what_isnt_read(self) -> None:
        made = Writer()
        begin = made.section() + made.interface(113) + made.interface(RAW_IP) + made.packet(0, 1, b"")
        with self.assertRaisesRegex(Refused, "link type 113, which nftrun doesn't read"):
            self.made(begin)
        with self.assertRaisesRegex(Refused, "link type 113, of 1 record, which"):
            self.made(begin + made.packet(1, 1, b""))

    def test_torn(self) -> None:
        made = Writer()
        data = made.section() + made.interface(RAW_IP) + made.packet(0, 1, SYN)
        for torn in (data + b"\6", gzip.compress(data, 0)[:-8], gzip.compress(data + b"\6\0")):
            whole = self.made(torn)
            self.assertEqual(whole, self.made(data) + b"\0")


if __name__ == "__main__":
    import unittest
    unittest.main()
