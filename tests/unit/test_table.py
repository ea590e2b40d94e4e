"""How full the table of connections got: packets of which scapy made the first, through a stand-in for a run."""
from __future__ import annotations

from unittest import mock

from made_elsewhere import PACKETS
from support import BOX, LAN, LINK, FilesCase, capture_of
from toolbox.boxes import Box
from toolbox.captures import SENT_BY_US, TO_US, records, write_header, write_record
from toolbox.checkup_run import answered_by_box, of_new, of_run, of_table
from toolbox.flows import Flows
from toolbox.packets import ACK, FIN, RST, SYN
from toolbox.replay import Files, Replay
from toolbox.table import fullest, without_room

QUERY, FIRST = bytes.fromhex(PACKETS["UDP"]), bytes.fromhex(PACKETS["TCP_SYN"])
PING, PONG = bytes.fromhex(PACKETS["ECHO_REQUEST"]), bytes.fromhex(PACKETS["ECHO_REPLY"])


def asks(port: int, host: int = 10) -> bytes:
    return QUERY[:15] + bytes([host]) + QUERY[16:20] + port.to_bytes(2, "big") + QUERY[22:]


def tcp(flags: int, is_reply: bool = False) -> bytes:
    packet = FIRST[:33] + bytes([flags]) + FIRST[34:]
    if not is_reply:
        return packet
    return packet[:12] + packet[16:20] + packet[12:16] + packet[22:24] + packet[20:22] + packet[24:]


class OfRuns(FilesCase):
    def replay(self, *packets: tuple[float, bytes], outcomes: tuple[str, ...] = (), box: str = BOX) -> Replay:
        """A run that sends each packet on as it came, or has these outcomes."""
        told = outcomes or ("passed",) * len(packets)

        def run(_program: str, _rules: str, _box: str, capture: str, leaving: str, report: str) -> bool:
            with open(leaving, "wb") as out, open(report, "w", encoding="ascii") as file:
                write_header(out)
                for (number, _, _, _, _, _, data), outcome in zip(records(capture), told):
                    file.write(f"trace {number} outcome {outcome}\n")
                    if outcome == "passed":
                        write_record(out, 0, data[:LINK] + data[LINK:])
                file.write(f"records {len(told)}\nbegun {self.begun}\nlive 0\ntorn 0\n")
            return False

        self.box = Box(self.file("box.txt", box))
        frames = [(moment, LAN, TO_US, packet) for moment, packet in packets]
        flows = Flows(self.file("in.pcap", capture_of(frames)), self.box)
        with mock.patch("toolbox.program.run", run):
            return Replay("nftrun", "rules.nft", self.box.path, flows, Files(str(self.folder), "run"), cuts=False,
                          as_captured=True)

    begun = 0

    def table(self, *packets: tuple[float, bytes], outcomes: tuple[str, ...] = (), box: str = BOX) -> tuple[int, ...]:
        """The most at once, at which record, how many began, how many live in the end."""
        replay = self.replay(*packets, outcomes=outcomes, box=box)
        table, _ = fullest(replay, self.box)
        return table.most.most, table.most.record, table.begun, table.live

    def test_idle_limits(self) -> None:
        self.assertEqual(self.table((1, asks(1)), (2, asks(2)), (300, asks(1)), (302, asks(3))), (2, 2, 3, 2))
        # at the limit it has expired, and a packet of another connection keeps none
        self.assertEqual(self.table((1, asks(1)), (301, asks(1))), (1, 1, 2, 1))
        self.assertEqual(self.table((1, asks(1)), (300, asks(1)), (599, asks(1))), (1, 1, 1, 1))

    def test_what_is_dropped_begins_nothing(self) -> None:
        self.assertEqual(self.table((1, asks(1)), (2, asks(2)), outcomes=("rule", "local")), (1, 2, 1, 1))

    def test_an_echo_reply_begins_nothing(self) -> None:
        self.assertEqual(self.table((1, PONG), (2, PING), (3, PONG)), (1, 2, 1, 1))

    def test_phases_of_tcp(self) -> None:
        handshake = ((1.0, tcp(SYN)), (1.1, tcp(SYN | ACK, True)), (1.2, tcp(ACK)))
        self.assertEqual(self.table(*handshake, (1000, asks(1))), (2, 4, 2, 2))
        opening = handshake[:2]
        self.assertEqual(self.table(*opening, (1000, asks(1))), (1, 1, 2, 1))
        closed = (*handshake, (2.0, tcp(FIN | ACK)), (2.1, tcp(FIN | ACK, True)))
        self.assertEqual(self.table(*closed, (242, asks(1))), (2, 6, 2, 2))
        self.assertEqual(self.table(*closed, (242.1, asks(1))), (1, 1, 2, 1))
        self.assertEqual(self.table(*handshake, (2, tcp(RST)), (242, asks(1))), (1, 1, 2, 1))
        # a lone SYN ends it and begins another, also if that is dropped
        self.assertEqual(self.table(*closed, (3, tcp(SYN))), (1, 1, 2, 1))
        self.assertEqual(self.table(*closed, (3, tcp(SYN)), outcomes=(*["passed"] * 5, "rule")), (1, 1, 1, 0))

    def test_hosts_when_they_were_most(self) -> None:
        packets = [(1.0, asks(1)), (2.0, asks(2)), (3.0, asks(3, 11)), (400.0, asks(4, 12))]
        replay = self.replay(*packets)
        table, hosts = fullest(replay, self.box)
        self.assertEqual((table.most.most, table.most.record), (3, 3))
        self.assertEqual(sorted(hosts.values()), [1, 2])

    def test_findings(self) -> None:
        self.begun = 3
        packets = [(1.0, asks(1)), (2.0, asks(2)), (3.0, asks(3, 11)), (4.0, asks(4, 12)), (5.0, asks(5, 12))]
        outcomes = ("passed", "passed", "passed", "noport", "clash")
        for largest, misleads, share in ((None, False, ""), (4, False, "; 75.0 % of"), (3, True, "; 100.0 % of")):
            found = list(of_table(self.replay(*packets, outcomes=outcomes), self.box, largest))
            self.assertEqual([one.name for one in found], ["noport", "clash", "connections"])
            self.assertEqual(found[0].numbers, {"by_host": {"192.168.1.12": 1}})
            self.assertEqual(found[-1].misleads, misleads)
            self.assertTrue(found[-1].text.startswith("3 connections at once at most, at record 3 (3.000000000), of "
                                                      "192.168.1.10 (2), 192.168.1.11 (1)" + share))
        self.begun = 2  # the run has another number: something wasn't tracked
        found = list(of_table(self.replay(*packets, outcomes=outcomes), self.box, None))
        self.assertTrue(found[-1].text.startswith("about 3 connections"))

    def test_none(self) -> None:
        replay = self.replay((1, asks(1)), outcomes=("rule",))
        self.assertEqual((list(of_table(replay, self.box, None)), list(without_room(replay))), ([], []))

    def test_what_stays_new_at_the_box(self) -> None:
        packets = ((1.0, tcp(SYN)), (2.0, tcp(ACK)), (3.0, asks(1)))
        found = list(of_run(self.replay(*packets, outcomes=("local", "local", "local"))))
        self.assertEqual([(one.name, one.numbers) for one in found], [("new", {"flows": 1, "packets": 2})])
        answered = ((1.0, tcp(SYN)), (1.1, tcp(SYN | ACK, True)), (2.0, tcp(ACK)))
        self.assertEqual(list(of_run(self.replay(*answered, outcomes=("local", "passed", "local")))), [])

    def test_what_the_box_answers_by_its_copies(self) -> None:
        self.box = Box(self.file("box.txt", BOX))
        to_box = asks(1)[:16] + bytes((192, 168, 1, 1)) + asks(1)[20:]
        ends = to_box[16:20] + to_box[12:16] + to_box[22:24] + to_box[20:22]
        answer = to_box[:4] + b"\x77\x77" + to_box[6:12] + ends + to_box[24:]
        frames = [(1, LAN, TO_US, to_box), (1, LAN, SENT_BY_US, answer), (2, LAN, TO_US, to_box),
                  (3, LAN, TO_US, asks(2))]
        flows = Flows(self.file("in.pcap", capture_of(frames)), self.box)
        self.assertEqual(answered_by_box(flows), {1: 2})
        self.assertEqual([one.numbers for one in of_new(answered_by_box(flows))], [{"flows": 1, "packets": 2}])
        self.assertEqual(list(of_new({1: 1})), [])
