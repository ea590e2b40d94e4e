"""Flows and replays of captures whose answers are known by construction; their packets are made by struct alone
(tests/tools/made), apart from what is tested."""
from __future__ import annotations

import pathlib
import sys
import unittest
from dataclasses import dataclass
from typing import Sequence
from unittest import mock

from support import BOX, LAN, LINK, TOP, WAN, FilesCase, capture_of
from toolbox.boxes import Box
from toolbox.captures import (
    ETHERNET, LINUX_SLL2, OTHER_STATION, RAW_IP, SENT_BY_US, TO_US, records, sll2_header, write_header, write_record)
from toolbox.flows import OPENER, SYN_ACK, Flows
from toolbox.replay import Files, Replay, silence

sys.path[:0] = [str(TOP / "tests/tools/made")]

from capture import HOSTS, ROUTER, SERVER, End, udp  # noqa: E402
from misleading import ACK, SYN, tcp  # noqa: E402
from misleading import SYN_ACK as SYN_AND_ACK  # noqa: E402

RST = 4
HOST, OTHER_HOST = HOSTS
WEB = End(SERVER.address, 443)
GREATEST = 0xFFFFFFFF


def syn(host: End, sequence: int = 1) -> bytes:
    return tcp(host, WEB, 64, SYN, sequence, 1)


def answered(port: int, acknowledged: int) -> bytes:
    """The server's SYN and ACK to a port of the router."""
    return tcp(WEB, End(ROUTER, port), 60, SYN_AND_ACK, 7, 1, acknowledged)


class Learned(FilesCase):
    """What is learned of flows."""

    def flows(self, *frames: tuple[float, int, int, bytes], use_copies: bool = True) -> Flows:
        return Flows(self.file("in.pcap", capture_of(frames)), Box(self.file("box.txt", BOX)), use_copies)

    def test_a_handshake_whose_number_goes_round(self) -> None:
        flows = self.flows((1, LAN, TO_US, syn(HOST, GREATEST)), (2, WAN, TO_US, answered(50000, 0)))
        self.assertEqual(list(flows.of), [0, 1, 1])
        self.assertEqual((flows.is_reply[2], flows.part[2]), (True, SYN_ACK))

    def test_a_handshake_among_many(self) -> None:
        frames = [(number, LAN, TO_US, syn(End(HOST.address, 4000 + number), 100 * number)) for number in range(1, 5)]
        with mock.patch("toolbox.flows.WINDOW", 2):
            flows = self.flows(*frames, (5, WAN, TO_US, answered(50000, 101)))
        self.assertEqual(list(flows.of), [0, 1, 2, 3, 4, 1])

    def test_a_syn_of_another_number_begins_anew(self) -> None:
        frames = [(number, LAN, TO_US, syn(HOST, sequence)) for number, sequence in enumerate((1, 1, 1000), 1)]
        self.assertEqual(list(self.flows(*frames).of), [0, 1, 1, 2])

    def test_of_packets_alike_the_copy_is_of_the_one_that_changed_least(self) -> None:
        # both have one identification and one content; Linux keeps their ports
        one, two, router = End(HOST.address, 5000), End(OTHER_HOST.address, 6000), End(ROUTER, 6000)
        flows = self.flows(
            (1, LAN, TO_US, udp(one, SERVER, 64)), (1, LAN, TO_US, udp(two, SERVER, 64)),
            (1, WAN, SENT_BY_US, udp(router, SERVER, 63)), (2, WAN, TO_US, udp(SERVER, router, 64)))
        self.assertEqual(list(flows.of), [0, 1, 2, 0, 2])

    def test_a_scan_that_is_reset_began_here(self) -> None:
        scan = (1, LAN, TO_US, tcp(HOST, WEB, 64, ACK, 1, 1))
        for flags, begins in ((RST, True), (ACK, False)):
            flows = self.flows(scan, (2, WAN, TO_US, tcp(WEB, HOST, 60, flags, 1, 1)))
            self.assertEqual((flows.part[1], flows.all[1].has_begun), (OPENER, begins))
            self.assertEqual(flows.without_beginning(), 0 if begins else 1)


@dataclass(frozen=True)
class Ending:
    """Stands in for a run: each record ends so, and those that pass leave as they came."""

    outcomes: Sequence[str]

    def __call__(self, _program: str, _rules: str, _box: str, capture: str, leaving: str, report: str,
                 trace: bool = True) -> bool:
        lines = []
        with open(leaving, "wb") as out:
            write_header(out)
            for (number, *_, data), outcome in zip(records(capture), self.outcomes):
                lines.append(f"trace {number} outcome {outcome if data[10] == TO_US else 'link'}\n")
                if outcome == "passed" and data[10] == TO_US:
                    write_record(out, 0, sll2_header(WAN, SENT_BY_US) + data[LINK:])
        pathlib.Path(report).write_text("".join(lines), encoding="ascii")
        return False


class Cut(FilesCase):
    """What isn't sent, since what it follows on didn't go through."""

    def replay(self, outcomes: Sequence[str], *frames: tuple[float, int, int, bytes],
               spared: bytearray | None = None) -> list[str]:
        box = self.file("box.txt", BOX)
        flows = Flows(self.file("in.pcap", capture_of(frames)), Box(box))
        with mock.patch("toolbox.program.run", Ending(outcomes)):
            replay = Replay("nftrun", "rules.nft", box, flows, Files(str(self.folder), "run"), True, spared)
        return [replay.outcome(number) for number in range(1, flows.count + 1)]

    def handshake(self) -> list[tuple[float, int, int, bytes]]:
        return [(1, LAN, TO_US, syn(HOST, 9)), (2, WAN, TO_US, tcp(WEB, HOST, 60, SYN_AND_ACK, 5, 1, 10)),
                (3, LAN, TO_US, tcp(HOST, WEB, 64, ACK, 10, 2, 6))]

    def test_nothing_is_cut_where_all_passes(self) -> None:
        self.assertEqual(self.replay(["passed"] * 3, *self.handshake()), ["passed"] * 3)

    def test_behind_a_syn_that_is_dropped_nothing_is_sent(self) -> None:
        self.assertEqual(self.replay(["rule", "passed", "passed"], *self.handshake()), ["rule", "not sent", "not sent"])

    def test_behind_an_answer_that_is_dropped_the_client_sends_nothing(self) -> None:
        given = self.replay(["passed", "rule", "passed"], *self.handshake())
        self.assertEqual(given, ["passed", "rule", "not sent"])

    def test_flows_that_are_spared_are_sent(self) -> None:
        given = self.replay(["rule", "passed", "passed"], *self.handshake(), spared=bytearray((0, 1)))
        self.assertEqual(given, ["rule", "passed", "passed"])

    def test_a_connection_to_the_box_itself_goes_on(self) -> None:
        client, box = End("198.51.100.9", 45000), End(ROUTER, 22)
        frames = [(1, WAN, TO_US, tcp(client, box, 60, SYN, 1, 1)),
                  (2, WAN, SENT_BY_US, tcp(box, client, 64, SYN_AND_ACK, 9, 1, 2)),
                  (3, WAN, TO_US, tcp(client, box, 60, ACK, 2, 2, 10))]
        self.assertEqual(self.replay(["local", "link", "local"], *frames), ["local", "link", "local"])


class Silenced(FilesCase):
    """What of a record keeps rules from seeing it, by its link type (docs/SPEC.md, 4)."""

    def silenced(self, link_type: int) -> bytes:
        data = bytes(range(1, 41))
        path = self.file("in.pcap", bytes(40) + data)
        with open(path, "r+b") as file:
            silence(file.fileno(), 40, link_type)
        return pathlib.Path(path).read_bytes()[40:]

    def test_each_link_type(self) -> None:
        data = bytes(range(1, 41))
        self.assertEqual(self.silenced(LINUX_SLL2), data[:10] + bytes([OTHER_STATION]) + data[11:])
        self.assertEqual(self.silenced(RAW_IP), bytes(1) + data[1:])
        self.assertEqual(self.silenced(ETHERNET), data[:12] + bytes(2) + data[14:])


if __name__ == "__main__":
    unittest.main()
