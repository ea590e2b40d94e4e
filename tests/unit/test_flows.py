"""Flows of captures whose packets scapy made: translation, errors, the box's own packets, handshakes and idle
limits."""
from __future__ import annotations

import unittest
from array import array
from unittest import mock

from made_elsewhere import PACKETS, ROUTER, STATION
from support import BOX, LAN, WAN, FilesCase, capture_of, masquerade
from toolbox import packets
from toolbox.boxes import Box
from toolbox.captures import OTHER_STATION, SENT_BY_US, TO_US, frames
from toolbox.flows import ERROR, OPENER, OTHER, SYN_ACK, Flows
from toolbox.replay import AS_CAPTURED, NOT_SENT, Ends, Files, Plan, Replay


class OfRouter(FilesCase):
    """Records 1 to 6 are a handshake through masquerading and its copies, 7 and 8 a query of the box itself, 9 to 12 a
    query of the host and the error about it, 13 is IPv6, 14 comes long after 9."""

    def setUp(self) -> None:
        super().setUp()
        self.path = self.capture("in.pcap", ROUTER)
        self.box = Box(self.file("box.txt", BOX))
        self.flows = Flows(self.path, self.box)

    def test_which_records_are_one_flow(self) -> None:
        of = list(self.flows.of)
        self.assertEqual(self.flows.count, 14)
        self.assertEqual((of[1], of[3], of[5]), (1, 1, 1))
        self.assertEqual(of[9], of[11])
        self.assertEqual([of[number] for number in (2, 4, 6, 7, 10, 12, 13)], [0] * 7)
        self.assertEqual(len({of[1], of[8], of[9], of[14]}), 4)

    def test_sides_and_parts(self) -> None:
        known = list(zip(self.flows.is_reply, self.flows.part))
        self.assertEqual(known[1], (False, OPENER))
        self.assertEqual(known[3], (True, SYN_ACK))
        self.assertEqual(known[5], (False, OTHER))
        self.assertEqual(known[11], (True, ERROR))
        self.assertEqual(known[9], (False, OPENER))

    def test_what_is_known_of_flows(self) -> None:
        flows = self.flows
        first = flows.all[1]
        self.assertEqual((first.has_begun, first.is_translated, first.is_learned), (True, True, True))
        self.assertEqual([flow.number for flow in flows.all if flow.is_own], [flows.of[8]])
        self.assertEqual(flows.answers_to_box(), [8])
        self.assertEqual((flows.copies, flows.own), (6, 1))
        self.assertEqual((flows.answered[first.number], flows.acked[first.number]), (3, 5))
        self.assertEqual(flows.answered[flows.of[9]], 11)
        self.assertEqual(flows.without_beginning(), 0)
        self.assertEqual([flow.number for flow in flows.some()], [1, 2, 3, 4])

    def test_the_first_answer_is_the_earliest_record(self) -> None:
        flows = self.flows
        first = flows.all[1]
        flows.answer(first, 5)
        self.assertEqual(flows.answered[1], 3)
        flows.answer(first, 2)
        self.assertEqual(flows.answered[1], 2)

    def test_a_torn_end(self) -> None:
        self.assertFalse(self.flows.torn)
        with open(self.path, "rb") as file:
            whole = file.read()
        torn = Flows(self.file("torn.pcap", whole[:-1]), self.box)
        self.assertEqual((torn.torn, torn.count), (True, 13))

    def test_tuples(self) -> None:
        self.assertEqual(packets.tuple_text(self.flows.tuple_of(3)), "tcp 198.51.100.7:443 > 203.0.113.1:50000")
        self.assertEqual(packets.tuple_text(self.flows.tuple_of(11)), "udp 198.51.100.7:53 > 203.0.113.1:61000")

    def test_what_is_written_to_be_replayed(self) -> None:
        # a query that isn't sent is for another station then, an answer goes to another end, and all else stays
        before, ends = list(frames(self.path)), Ends()
        to = array("I", bytes(4 * 15))
        to[9], to[11] = NOT_SENT, ends.number(bytes((203, 0, 113, 1)) + (40_000).to_bytes(2, "big"))
        plan = Plan(self.flows, Files(str(self.folder), "run"))
        after = list(frames(plan.write(to, ends)))
        changed = [record for record, (old, new) in enumerate(zip(before, after), 1) if old != new]
        self.assertEqual((changed, after[8][10], before[8][10]), ([9, 11], OTHER_STATION, TO_US))
        self.assertEqual(after[8][:10] + after[8][11:], before[8][:10] + before[8][11:])
        self.assertEqual(list(frames(plan.write(array("I", bytes(4 * 15)), ends))), before)

    def test_without_copies_the_answer_is_found_by_its_handshake(self) -> None:
        flows = Flows(self.path, self.box, use_copies=False)
        self.assertEqual(flows.of[3], 1)
        self.assertTrue(flows.is_reply[3])
        self.assertNotEqual(flows.of[11], flows.of[9])

    def test_idle_limits(self) -> None:
        kept = Flows(self.path, Box(self.file("longer.txt", BOX + "idle udp 2000\n")))
        self.assertEqual(kept.of[14], kept.of[9])


class OfStation(FilesCase):
    def test_ethernet(self) -> None:
        flows = Flows(self.capture("in.pcap", STATION), Box(self.file("box.txt", BOX)))
        self.assertEqual(list(flows.of), [0, 1, 1, 0, 1])
        self.assertTrue(flows.all[1].is_translated)
        self.assertEqual((flows.is_reply[2], flows.part[2]), (True, SYN_ACK))


class OfPlainRouting(FilesCase):
    """A router that translates nothing, without outgoing copies: a query, and the server's answer by the other
    interface."""

    def flows(self, *moments: float) -> Flows:
        query = bytes.fromhex(PACKETS["UDP"])
        answer = query[:12] + query[16:20] + query[12:16] + query[22:24] + query[20:22] + query[24:]
        frames = [(moment, LAN if number % 2 == 0 else WAN, TO_US, query if number % 2 == 0 else answer)
                  for number, moment in enumerate(moments)]
        return Flows(self.file("in.pcap", capture_of(frames)), Box(self.file("box.txt", BOX)))

    def test_the_inverse_is_the_other_side(self) -> None:
        flows = self.flows(1, 2, 3)
        self.assertEqual(list(flows.of), [0, 1, 1, 1])
        self.assertEqual(list(zip(flows.is_reply, flows.part))[1:], [(False, OPENER), (True, OTHER), (False, OTHER)])
        self.assertEqual(flows.answered[1], 2)

    def test_a_flow_ends_when_its_idle_limit_passes(self) -> None:
        self.assertEqual(list(self.flows(1, 300).of), [0, 1, 1])
        self.assertEqual(list(self.flows(1, 301).of), [0, 1, 2])


class Replays(FilesCase):
    """A run that keeps the host's port, where Linux chose another."""

    def replay(self, path: str, cuts: bool = False, as_captured: bool = False) -> Replay:
        flows = Flows(path, Box(self.file("box.txt", BOX)))
        self.addCleanup(mock.patch.stopall)
        mock.patch("toolbox.program.run", masquerade).start()
        files = Files(str(self.folder), "run")
        return Replay("nftrun", "rules.nft", str(self.folder / "box.txt"), flows, files, cuts,
                      as_captured=as_captured)

    def test_answers_go_to_the_port_that_the_run_chose(self) -> None:
        replay = self.replay(self.capture("in.pcap", ROUTER), cuts=False)
        self.assertTrue(replay.settled)
        self.assertEqual(replay.redirected(), [3, 11])
        self.assertEqual(packets.end_text(replay.ends[replay.to[3]]), "203.0.113.1:40000")
        self.assertEqual(packets.end_text(replay.ends[replay.to[11]]), "203.0.113.1:5000")
        self.assertEqual(replay.to[8], NOT_SENT)  # an answer to the box itself
        ended = [replay.outcome(number) for number in (1, 3, 5, 8)]
        self.assertEqual(ended, ["passed", "passed", "passed", "not sent"])
        self.assertEqual(replay.rounds, 2)

    def test_as_captured_nothing_is_moved(self) -> None:
        replay = self.replay(self.capture("in.pcap", ROUTER), cuts=False, as_captured=True)
        self.assertEqual(set(replay.to), {AS_CAPTURED})
        self.assertEqual([replay.outcome(number) for number in (1, 3, 8)], ["passed", "rule", "rule"])
        self.assertEqual(replay.decide(False).to[3], 1)

    def test_a_flow_whose_beginning_is_dropped_is_cut(self) -> None:
        syn, answer = bytes.fromhex(PACKETS["TCP_SYN"]), bytes.fromhex(PACKETS["TCP_SYN_ACK"])
        # the SYN comes from outside, where the run lets nothing in
        frames = [(1, WAN, TO_US, syn), (1.1, LAN, TO_US, packets.with_destination(
            answer[:12] + syn[16:20] + answer[16:20] + syn[22:24] + answer[22:], syn[12:16] + syn[20:22]))]
        replay = self.replay(self.file("cut.pcap", capture_of(frames)), cuts=True)
        self.assertEqual(replay.flows.of[2], 1)
        self.assertEqual([replay.outcome(number) for number in (1, 2)], ["rule", "not sent"])

    def test_copies_alone_are_no_flow_of_a_run(self) -> None:
        frames = [(1, WAN, SENT_BY_US, bytes.fromhex(PACKETS["UDP"]))]
        replay = self.replay(self.file("own.pcap", capture_of(frames)), cuts=False)
        self.assertEqual(replay.flows.answers_to_box(), [])
        self.assertEqual(replay.outcome(1), "link")


if __name__ == "__main__":
    unittest.main()
