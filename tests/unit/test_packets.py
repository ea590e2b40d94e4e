"""Tuples, checksums and other ends of packets, against packets that scapy made."""
from __future__ import annotations

import unittest

import support  # noqa: F401
from made_elsewhere import PACKETS
from toolbox import packets

HOST, SERVER, ROUTER = bytes((192, 168, 1, 10)), bytes((198, 51, 100, 7)), bytes((203, 0, 113, 1))


def packet(name: str) -> bytes:
    return bytes.fromhex(PACKETS[name])


def ends(source: bytes, source_port: int, target: bytes, target_port: int, kind: int) -> bytes:
    return source + target + source_port.to_bytes(2, "big") + target_port.to_bytes(2, "big") + bytes([kind])


TUPLES = {
    "TCP_SYN": ends(HOST, 40000, SERVER, 443, 6),
    "TCP_SYN_ACK": ends(SERVER, 443, ROUTER, 50000, 6),
    "TCP_WITH_OPTIONS": ends(HOST, 1, SERVER, 2, 6),
    "UDP": ends(HOST, 5000, SERVER, 53, 17),
    "ECHO_REQUEST": ends(HOST, 0x77, SERVER, 0, 1),
    "ECHO_REPLY": ends(SERVER, 0, HOST, 0x77, 255),
    "GRE": ends(HOST, 0, SERVER, 0, 47),
    "UNREACHABLE": None,
    "FRAGMENT": None,
}


class Tuples(unittest.TestCase):
    def test_each_kind(self) -> None:
        for name, key in TUPLES.items():
            self.assertEqual(packets.tuple_at(packet(name), 0), key, name)
            self.assertEqual(packets.tuple_at(bytes(20) + packet(name), 20), key, name)

    def test_parts(self) -> None:
        key, ping, pong = TUPLES["TCP_SYN"], TUPLES["ECHO_REQUEST"], TUPLES["ECHO_REPLY"]
        assert key and ping and pong
        self.assertEqual([packets.kind_of(one) for one in (key, ping, pong)], [6, 1, 255])
        self.assertEqual((packets.source_of(key), packets.destination_of(key)), (HOST, SERVER))
        self.assertEqual((packets.source_port(key), packets.destination_port(key)), (40000, 443))
        self.assertEqual([packets.identifier_of(one) for one in (ping, pong)], [0x77, 0x77])
        end, service = packets.source_end(key), packets.service_of(key)
        self.assertEqual((packets.address_of(end), packets.port_of(end)), (HOST, 40000))
        self.assertEqual((packets.service_port(service), packets.service_kind(service)), (443, 6))

    def test_what_a_run_sent(self) -> None:
        names = [name for name in TUPLES if name != "FRAGMENT"]  # a run sends none
        piece, starts = b"", []
        for name in names:
            starts.append(len(piece))
            piece += bytes(20) + packet(name)
        self.assertEqual(packets.sent_tuples(piece, starts, 20, 128), [TUPLES[name] for name in names])

    def test_headers_that_do_not_fit(self) -> None:
        for name in ("TCP_SYN", "UDP", "ECHO_REQUEST", "TCP_WITH_OPTIONS"):
            header = 4 * (packet(name)[0] & 15)
            least = header + (14 if "TCP" in name else 8)
            self.assertIsNone(packets.tuple_at(packet(name)[:least - 1], 0), name)
            self.assertEqual(packets.tuple_at(packet(name)[:least], 0), TUPLES[name], name)
        self.assertEqual(packets.tuple_at(packet("TCP_SYN")[:28], 0, cut=True), TUPLES["TCP_SYN"])
        self.assertIsNone(packets.tuple_at(packet("TCP_SYN")[:27], 0, cut=True))
        self.assertIsNone(packets.tuple_at(b"\x60" + packet("UDP")[1:], 0))

    def test_errors_have_the_tuple_of_the_answer(self) -> None:
        self.assertEqual(packets.error_tuple_at(packet("UNREACHABLE"), 0), ends(SERVER, 53, HOST, 5000, 17))
        self.assertIsNone(packets.error_tuple_at(packet("ECHO_REPLY"), 0))
        self.assertIsNone(packets.error_tuple_at(packet("UDP"), 0))
        self.assertIsNone(packets.error_tuple_at(packet("UNREACHABLE")[:50], 0))

    def test_inverses(self) -> None:
        for name, key in TUPLES.items():
            if key is not None:
                self.assertEqual(packets.inverse(packets.inverse(key)), key, name)
        self.assertEqual(packets.inverse(ends(HOST, 0x77, SERVER, 0, 1)), TUPLES["ECHO_REPLY"])
        self.assertEqual(packets.inverse(TUPLES["UDP"] or b""), ends(SERVER, 53, HOST, 5000, 17))

    def test_ends(self) -> None:
        key = TUPLES["UDP"] or b""
        self.assertEqual(packets.end_text(packets.source_end(key)), "192.168.1.10:5000")
        self.assertEqual(packets.end_text(packets.destination_end(key)), "198.51.100.7:53")


class Checksums(unittest.TestCase):
    def test_what_scapy_computed(self) -> None:
        for name in PACKETS:
            header = packet(name)[:4 * (packet(name)[0] & 15)]
            blank = header[:10] + bytes(2) + header[12:]
            self.assertEqual(packets.checksum(blank).to_bytes(2, "big"), header[10:12])
            self.assertEqual(packets.checksum(header), 0, name)

    def test_examples_of_the_rfc(self) -> None:
        # RFC 1071, section 3: the sum of these is ddf2
        self.assertEqual(packets.checksum(bytes.fromhex("0001f203f4f5f6f7")), 0xFFFF ^ 0xDDF2)
        self.assertEqual(packets.checksum(b"\x12"), 0xFFFF ^ 0x1200)
        # RFC 1624, section 4: HC dd2f, m 5555 becomes 3285, then it is 0000
        self.assertEqual(packets.corrected(b"\xdd\x2f", b"\x55\x55", b"\x32\x85"), b"\0\0")


class OtherEnds(unittest.TestCase):
    HOST_END = HOST + (5000).to_bytes(2, "big")

    def test_what_scapy_makes_for_the_other_end(self) -> None:
        changed = packets.with_destination(packet("UDP_TO_ROUTER"), self.HOST_END)
        self.assertEqual(changed, packet("UDP_TO_HOST"))

    def test_an_error_and_the_datagram_in_it(self) -> None:
        changed = packets.with_destination(packet("UNREACHABLE_TO_ROUTER"), self.HOST_END)
        wanted = packet("UNREACHABLE_TO_HOST")
        self.assertEqual(changed[:20], wanted[:20])
        self.assertEqual(changed, wanted)

    def test_an_echo(self) -> None:
        changed = packets.with_destination(packet("ECHO_REPLY"), ROUTER + (9).to_bytes(2, "big"))
        self.assertEqual(packets.tuple_at(changed, 0), ends(SERVER, 0, ROUTER, 9, 255))
        self.assertEqual(packets.checksum(changed[20:]), 0)

    def test_what_translation_leaves(self) -> None:
        one, other = packet("UDP_TO_ROUTER"), packet("UDP_TO_HOST")
        self.assertEqual(packets.identity(one, 0), packets.identity(other, 0))
        self.assertNotEqual(packets.identity(one, 0), packets.identity(packet("UDP"), 0))
        one, other = packet("UNREACHABLE_TO_ROUTER"), packet("UNREACHABLE_TO_HOST")
        self.assertEqual(packets.identity(one, 0), packets.identity(other, 0))
        same = packets.without_ports(one[:16] + HOST + one[20:])
        self.assertEqual(len(same), len(one))
        self.assertEqual(same[10:12], bytes(2))


class Words(unittest.TestCase):
    def test_descriptions(self) -> None:
        told = {
            "UDP": "udp 192.168.1.10:5000 > 198.51.100.7:53",
            "ECHO_REQUEST": "icmp 192.168.1.10 > 198.51.100.7 echo-request id 119",
            "ECHO_REPLY": "icmp 198.51.100.7 > 192.168.1.10 echo-reply id 119",
            "GRE": "protocol 47 192.168.1.10 > 198.51.100.7",
            "FRAGMENT": "fragment 192.168.1.10 > 198.51.100.7",
            "UNREACHABLE": "icmp 198.51.100.7 > 192.168.1.10 destination-unreachable code 3 about "
                           "udp 192.168.1.10:5000 > 198.51.100.7:53",
        }
        for name, text in told.items():
            self.assertEqual(packets.describe(packet(name), 0), text)
        self.assertEqual(packets.describe(b"", 0), "no IPv4 packet")
        self.assertEqual(packets.describe(packet("TCP_SYN")[:22], 0), "tcp 192.168.1.10 > 198.51.100.7")

    def test_flags(self) -> None:
        self.assertEqual(packets.flags_text(packet("TCP_SYN_ACK")[33]), "syn ack")
        self.assertEqual(packets.flags_text(0), "no flags")


if __name__ == "__main__":
    unittest.main()
