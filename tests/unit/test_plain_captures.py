"""Plain packets and captures: bytes worked out by hand, and what reads captures."""
from __future__ import annotations

import struct

from support import FilesCase
from toolbox.captures import RAW_IP, header_of, records
from toolbox.plain_captures import file_header, ip_header, record


class Plain(FilesCase):
    """Headers and records by numbers."""

    def test_header(self) -> None:
        """A header whose words add up to 0xFFFF, as RFC 791 wants it, with each field in its place."""
        header = ip_header(28, 17, 0xC0A8010A, 0xC6336407, ttl=63, identification=1)
        total = sum(struct.unpack(">10H", header))
        self.assertEqual(0xFFFF, (total & 0xFFFF) + (total >> 16))
        # written by hand, with the checksum that tcpdump takes for right
        self.assertEqual("4500001c000100003f118fe3c0a8010ac6336407", header.hex())

    def test_capture(self) -> None:
        path = self.file("in.pcap", file_header() + record(b"\1\2", 7, 500_000) + record(b"\3"))
        self.assertEqual(RAW_IP, header_of(path).link_type)
        self.assertEqual([b"\1\2", b"\3"], [one[-1] for one in records(path)])
