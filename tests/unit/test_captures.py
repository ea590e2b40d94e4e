"""Captures that scapy wrote, in both orders and both precisions, and what is refused of them."""
from __future__ import annotations

import base64
import io
import unittest

from made_elsewhere import PACKETS, ROUTER, STATION
from support import FilesCase
from toolbox import captures
from toolbox.commands import Refused


class Reading(FilesCase):
    def test_headers(self) -> None:
        router = captures.header_of(self.capture("a", ROUTER))
        self.assertEqual((router.order, router.fractions, router.link_type, router.aligned), ("<", 10**9, 276, False))
        station = captures.header_of(self.capture("b", STATION))
        self.assertEqual((station.order, station.fractions, station.link_type), (">", 10**6, 1))

    def test_records(self) -> None:
        found = list(captures.records(self.capture("a", ROUTER)))
        self.assertEqual([one[0] for one in found], list(range(1, 15)))
        self.assertEqual(found[0][1:3], (100, 0))
        self.assertEqual(found[2][1:3], (100, 10_000_000))
        data = base64.b64decode(ROUTER)
        for _, _, _, offset, length, original, record in found:
            self.assertEqual(record, data[offset:offset + length])
            self.assertEqual(length, original)
        self.assertEqual(len(list(captures.records(self.capture("b", STATION), most=14))[0][6]), 14)

    def test_places_in_a_file_of_several_pieces(self) -> None:
        path = self.file("in.pcap", "")
        with open(path, "wb") as file:
            captures.write_header(file)
            for number in range(200):
                captures.write_record(file, number, bytes([number]) * 1000)
        with open(path, "rb") as file:
            whole = file.read()
        self.assertGreater(len(whole), 2 * captures.CHUNK)
        places = [(offset, data) for _, _, _, offset, _, _, data in captures.records(path)]
        self.assertEqual([whole[offset:offset + 1000] for offset, _ in places], [data for _, data in places])
        self.assertEqual(list(captures.frames(path)), [data for _, data in places])
        self.assertEqual(list(captures.frames(path, 3)), [data[:3] for _, data in places])

    def test_link_headers(self) -> None:
        first = list(captures.records(self.capture("a", ROUTER)))
        self.assertEqual(captures.packet_at(first[0][6], 276), 20)
        self.assertEqual(captures.interface_of(first[0][6], 276), 2)
        self.assertIsNone(captures.packet_at(first[12][6], 276))
        station = list(captures.records(self.capture("b", STATION)))
        self.assertEqual([captures.packet_at(one[6], 1) for one in station], [14, 14, None, 14])
        self.assertIsNone(captures.interface_of(station[0][6], 1))
        self.assertEqual(captures.packet_at(bytes.fromhex(PACKETS["UDP"]), captures.RAW_IP), 0)
        self.assertIsNone(captures.packet_at(b"", captures.RAW_IP))

    def test_a_torn_end(self) -> None:
        data = base64.b64decode(ROUTER)
        self.assertEqual(len(list(captures.records(self.file("torn", data[:-1])))), 13)
        self.assertEqual(len(list(captures.records(self.file("head", data[:24])))), 0)

    def test_the_upper_half_of_the_link_type_says_something_else(self) -> None:
        # of the FCS of frames (draft-ietf-opsawg-pcap, "File Header")
        data = base64.b64decode(STATION)
        marked = captures.header_of(self.file("a", data[:20] + bytes((0x14, 0, 0, 1)) + data[24:]))
        self.assertEqual(marked.link_type, captures.ETHERNET)

    def test_a_damaged_record_is_told_by_its_number(self) -> None:
        # 200 records of 1,000 bytes, so that the last one stands in another piece of the file than the first
        file = io.BytesIO()
        captures.write_header(file)
        for _ in range(200):
            captures.write_record(file, 0, bytes(1000))
        data = bytearray(file.getvalue())
        last = 24 + 199 * 1016 + 8
        data[last:last + 4] = b"\xff\xff\xff\x7f"
        with self.assertRaisesRegex(Refused, "record 200 claims"):
            list(captures.records(self.file("a", bytes(data))))

    def test_refused(self) -> None:
        data = base64.b64decode(ROUTER)
        with self.assertRaisesRegex(Refused, "no capture of libpcap or pcapng"):
            captures.header_of(self.file("a", b"\x0a\x0d\x0d\x0a" + data[4:]))
        with self.assertRaisesRegex(Refused, "link type 113"):
            captures.header_of(self.file("b", data[:20] + b"\x71\0\0\0" + data[24:]))
        with self.assertRaisesRegex(Refused, "record 2 claims"):
            second = 24 + 16 + int.from_bytes(data[32:36], "little") + 8
            list(captures.records(self.file("c", data[:second] + b"\xff\xff\xff\x7f" + data[second + 4:])))
        with self.assertRaises(Refused):
            captures.header_of(str(self.folder / "none"))


class Writing(FilesCase):
    def test_what_is_written_is_read(self) -> None:
        file = io.BytesIO()
        captures.write_header(file)
        captures.write_record(file, 12_000_000_034, captures.sll2_header(7, captures.SENT_BY_US) + b"abc")
        path = self.file("a", file.getvalue())
        record = list(captures.records(path))[0]
        self.assertEqual((record[1], record[2], record[6][20:]), (12, 34, b"abc"))
        self.assertEqual((captures.interface_of(record[6], 276), record[6][10]), (7, 4))
        self.assertFalse(captures.header_of(path).aligned)
        captures.mark_aligned(path)
        self.assertTrue(captures.header_of(path).aligned)


if __name__ == "__main__":
    unittest.main()
