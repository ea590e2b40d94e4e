"""Where a run isn't the router, by the outgoing copies of captures whose packets scapy made."""
from __future__ import annotations

from unittest import mock

from made_elsewhere import PACKETS, ROUTER
from support import BOX, LAN, LINK, WAN, FilesCase, capture_of, masquerade
from toolbox.boxes import Box
from toolbox.captures import SENT_BY_US, TO_US, records, write_header
from toolbox.checkup_run import of_router
from toolbox.flows import Flows
from toolbox.replay import Files, Replay
from toolbox.router import Copies, Router, Uncompared, Way

UPLINK, UNKNOWN = 4, 9
QUERY, ANSWER, SYN = (bytes.fromhex(PACKETS[name]) for name in ("UDP", "UDP_TO_HOST", "TCP_SYN"))
BOX_WITH_UPLINK = BOX.replace("route", f"interface {UPLINK} wan2 192.0.2.1/24\nroute")


def sent_on(packet: bytes) -> bytes:
    """A packet one hop further; of its checksums nothing here asks."""
    return packet[:8] + bytes([packet[8] - 1]) + packet[9:]


def drop_all(_program: str, _rules: str, _box: str, capture: str, leaving: str, report: str,
             trace: bool = True) -> bool:
    """Stands in for a run that drops what enters, by a rule, and what else there is for `link`."""
    with open(leaving, "wb") as out:
        write_header(out)
    with open(report, "w", encoding="ascii") as file:
        for number, _, _, _, _, _, data in records(capture):
            file.write(f"trace {number} outcome {'rule' if data[10] == TO_US else 'link'}\n")
    return False


class OfCapture(FilesCase):
    def flows(self, *frames: tuple[float, int, int, bytes], box: str = BOX_WITH_UPLINK) -> Flows:
        self.box = Box(self.file("box.txt", box))
        return Flows(self.file("in.pcap", capture_of(frames)), self.box)

    def forwarded(self, left_by: int = WAN, came_by: int = LAN, packet: bytes = QUERY, at: float = 1) -> tuple[
            tuple[float, int, int, bytes], tuple[float, int, int, bytes]]:
        return (at, came_by, TO_US, packet), (at, left_by, SENT_BY_US, sent_on(packet))

    def replay(self, flows: Flows, run: object = drop_all, as_captured: bool = True) -> Replay:
        with mock.patch("toolbox.program.run", run):
            return Replay("nftrun", "rules.nft", self.box.path, flows, Files(str(self.folder), "run"), cuts=True,
                          as_captured=as_captured)


class WithoutARun(OfCapture):
    def test_the_routes_of_the_box_file(self) -> None:
        self.assertFalse(Router(self.flows(*self.forwarded()), self.box))
        flows = self.flows(*self.forwarded(UPLINK), *self.forwarded(UPLINK, packet=SYN, at=2))
        router = Router(flows, self.box)
        way, astray = router.told()[0]
        self.assertEqual(way, Way("lan", "wan2", "wan", None, False))
        self.assertEqual((astray.packets, astray.first, router.flows), (2, [1, 3], {1, 2}))
        self.assertEqual(router.lines()[0], "the run isn't the router: 2 packets of 2 flows came by lan and left by "
                                            "wan2; the box file's routes lead to wan: records 1, 3")
        self.assertEqual(router.not_compared().text(), "not compared: 2 flows, 2 records: what the rulesets change "
                                                       "for these isn't known")

    def test_no_route_and_an_interface_that_the_box_file_lacks(self) -> None:
        router = Router(self.flows(*self.forwarded(UNKNOWN), box=BOX.replace("route 0.0.0.0/0 wan\n", "")), self.box)
        self.assertIn("came by lan and left by index 9; the box file's routes lead nowhere", router.lines()[0])

    def test_packets_alike_leave_one_after_the_other(self) -> None:
        query = sent_on(QUERY)
        flows = self.flows((1, LAN, TO_US, QUERY), (1.1, LAN, TO_US, QUERY), (1.2, WAN, SENT_BY_US, query),
                           (1.3, WAN, SENT_BY_US, query), (1.4, UPLINK, SENT_BY_US, query))
        copies = Copies(flows, self.box)
        self.assertEqual(list(copies.of), [0, 3, 4, 0, 0, 0])
        self.assertEqual((copies.record_of(4), copies.record_of(5)), (2, None))
        hop = copies.hop(2)
        self.assertEqual(hop and (hop.came_by, hop.left_by, hop.routed), (LAN, WAN, WAN))

    def test_each_leaves_by_two_devices_one_above_the_other(self) -> None:
        query = sent_on(QUERY)
        frames = [(1, LAN, TO_US, QUERY), (1, LAN, TO_US, QUERY)]
        frames += [(1, index, SENT_BY_US, query) for index in (WAN, UNKNOWN, WAN, UNKNOWN)]
        flows = self.flows(*frames)
        self.assertEqual(list(Copies(flows, self.box).of), [0, 3, 5, 0, 0, 0, 0])
        self.assertFalse(Router(flows, self.box))

    def test_what_came_by_an_unknown_interface(self) -> None:
        copies = Copies(self.flows(*self.forwarded(came_by=UNKNOWN)), self.box)
        self.assertEqual((copies.unknown, copies.hops), ({UNKNOWN: 1}, []))
        # the port of a bridge, and then the bridge
        copies = Copies(self.flows((1, UNKNOWN, TO_US, QUERY), *self.forwarded()), self.box)
        self.assertEqual((copies.unknown, list(copies.of)), ({}, [0, 0, 3, 0]))
        # a bridge sends a packet on as it is
        copies = Copies(self.flows((1, UNKNOWN, TO_US, QUERY), (1, WAN, SENT_BY_US, QUERY)), self.box)
        self.assertEqual(copies.unknown, {})

    def test_of_a_router_that_does_as_the_box_file_says(self) -> None:
        flows = Flows(self.capture("in.pcap", ROUTER), Box(self.file("box.txt", BOX)))
        router = Router(flows, Box(self.file("box.txt", BOX)))
        self.assertEqual((bool(router), router.lines(), router.not_compared()), (False, [], Uncompared(0, 0)))
        self.assertEqual([number for number, copy in enumerate(router.copies.of) if copy], [1, 3, 5, 9, 11])


class BesideARun(OfCapture):
    def test_what_the_run_drops(self) -> None:
        flows = self.flows(*self.forwarded(packet=SYN), *self.forwarded(UPLINK, at=2))
        router = Router(flows, self.box, self.replay(flows))
        self.assertEqual({way: astray.first for way, astray in router.told()}, {
            Way("lan", "wan", "wan", "rule", True): [1], Way("lan", "wan2", "wan", "rule", True): [3]})
        texts = [line.partition("; ")[2] for line in router.lines()[::2]]
        self.assertEqual(texts, ["the run drops them (rule): record 1",
                                 "the run drops them (rule), and its routes lead to wan: record 3"])
        self.assertEqual([one.name for one in of_router(router)], ["sent on", "routes"])

    def test_what_the_run_sends_by_another_interface(self) -> None:
        flows = self.flows(*self.forwarded(UPLINK))
        router = Router(flows, self.box, self.replay(flows, masquerade))
        self.assertIn("left by wan2; the run sends them by wan: record 1", router.lines()[0])
        flows = self.flows(*self.forwarded())
        self.assertFalse(Router(flows, self.box, self.replay(flows, masquerade)))

    def test_some_records_alone(self) -> None:
        flows = self.flows(*self.forwarded(packet=SYN), *self.forwarded(at=2))
        router = Router(flows, self.box, self.replay(flows), [3])
        self.assertEqual([astray.first for astray in router.ways.values()], [[3]])

    def test_what_has_another_reason(self) -> None:
        # an answer that goes to a port that Linux chose, of a capture as it is; the ACK alone of a TCP flow
        router = Box(self.file("box.txt", BOX))
        flows = Flows(self.capture("router.pcap", ROUTER), router)
        self.box = router
        self.assertFalse(Router(flows, router, self.replay(flows, masquerade)))
        midway = SYN[:33] + b"\x10" + SYN[34:]
        flows = self.flows(*self.forwarded(packet=midway))
        self.assertFalse(Router(flows, self.box, self.replay(flows)))

    def test_an_answer_from_before_the_capture(self) -> None:
        answer = bytes.fromhex(PACKETS["UDP_TO_ROUTER"])
        to_host = answer[:16] + ANSWER[16:20] + answer[20:]
        for moment, is_astray in ((1, False), (299, False), (301, True)):
            frames = ((moment, WAN, TO_US, answer), (moment, LAN, SENT_BY_US, sent_on(to_host)))
            flows = self.flows((0, LAN, TO_US, SYN), *frames)
            router = Router(flows, self.box, self.replay(flows))
            self.assertEqual(bool(router), is_astray, moment)
            self.assertEqual("began before" in [one.name for one in of_router(router)], not is_astray)

    def test_what_comes_of_it_isnt_told_again(self) -> None:
        host = QUERY[:12] + QUERY[16:20] + QUERY[12:16] + QUERY[22:24] + QUERY[20:22] + QUERY[24:]
        flows = self.flows(*self.forwarded(UPLINK), (2, UPLINK, TO_US, host), (2, LAN, SENT_BY_US, sent_on(host)))
        router = Router(flows, self.box, self.replay(flows))
        self.assertEqual((len(router.ways), router.flows), (1, {1}))
        self.assertEqual(router.not_compared(), Uncompared(1, 2))
        self.assertEqual([(way["left_by"], way["first"]) for way in router.ways_json()], [("wan2", [1])])

    def test_no_copies_at_all(self) -> None:
        flows = self.flows((1, LAN, TO_US, QUERY))
        self.assertFalse(Router(flows, self.box, self.replay(flows)))
        self.assertEqual(LINK, 20)
