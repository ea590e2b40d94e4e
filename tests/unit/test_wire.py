"""Clocks that are set, packets that are mirrored, wrong header checksums, in captures whose packets scapy made."""
from __future__ import annotations

from made_elsewhere import PACKETS
from support import BOX, LAN, WAN, FilesCase, capture_of
from toolbox.boxes import Box
from toolbox.captures import SENT_BY_US, TO_US
from toolbox.checkup import Checkup, Finding

QUERY, SYN = bytes.fromhex(PACKETS["UDP"]), bytes.fromhex(PACKETS["TCP_SYN"])
OTHER = QUERY[:20] + b"\x20" + QUERY[21:]  # from another port


class Found(FilesCase):
    def found(self, *frames: tuple[float, int, int, bytes], box: str = BOX) -> dict[str, Finding]:
        path = self.file("in.pcap", capture_of(frames))
        return {one.name: one for one in Checkup(path, Box(self.file("box.txt", box))).findings()}

    def at(self, *moments: float, packet: bytes = QUERY) -> list[tuple[float, int, int, bytes]]:
        return [(moment, LAN, TO_US, packet) for moment in moments]


class Clocks(Found):
    def test_forward(self) -> None:
        found = self.found(*self.at(100, 101, 1500, 1501))["clock forward"]
        self.assertTrue(found.misleads)
        self.assertEqual(found.numbers, {"record": 3, "seconds": 1399, "flows": 1})

    def test_not_forward(self) -> None:
        for moments in ((100, 101, 399, 400), (1, 1500, 1501), (100, 1500, 1501), (100, 101, 1500),
                        (100, 101, 1500, 1511), (100, 101, 120, 1500, 1501)):
            # at 120 another one asks, alone
            frames = [frame for moment in moments
                      for frame in self.at(moment, packet=OTHER if moment == 120 else QUERY)]
            self.assertNotIn("clock forward", self.found(*frames), moments)
        self.assertNotIn("clock forward", self.found(*self.at(100, 101, 1500, 1501), box=BOX + "idle udp 2000\n"))

    def test_two_jumps(self) -> None:
        path = self.file("in.pcap", capture_of(self.at(1, 2, 1000, 1001, 3000, 3001)))
        found = Checkup(path, Box(self.file("box.txt", BOX))).findings()
        self.assertEqual([one.numbers["record"] for one in found if one.name == "clock forward"], [3, 5])

    def test_back(self) -> None:
        found = self.found(*self.at(1000, 999.5, 1001, 901, 950))
        self.assertEqual(found["clock back"].numbers, {"record": 4, "seconds": 100, "records": 3})
        self.assertTrue(found["clock back"].misleads)
        found = self.found(*self.at(1000, 999.5))
        self.assertEqual((found["time"].misleads, found["time"].numbers), (False, {"records": 1}))


class Packets(Found):
    def test_twice_on_one_interface(self) -> None:
        frames = [frame for moment in (1, 2, 3) for frame in self.at(moment, moment + 0.001)]
        self.assertEqual(self.found(*frames)["mirrored"].numbers, {"packets": 3})
        # one alone, a second later, at another interface, and too few of all
        self.assertNotIn("mirrored", self.found(*self.at(1, 1.001)))
        self.assertNotIn("mirrored", self.found(*self.at(1, 2, 3, 4)))
        at_both = [frame for moment in (1, 2, 3) for frame in (*self.at(moment), (moment, WAN, TO_US, QUERY))]
        self.assertNotIn("mirrored", self.found(*at_both))
        few = [*self.at(1, 1.001, 2, 2.001), *self.at(*range(3, 20))]
        self.assertNotIn("mirrored", self.found(*few))

    def test_wrong_checksums(self) -> None:
        wrong = SYN[:10] + b"\0\0" + SYN[12:]
        found = self.found(*self.at(1), *self.at(2, packet=wrong), (3, WAN, SENT_BY_US, wrong))
        self.assertEqual(found["checksums"].numbers, {"packets": 1})

    def test_no_record(self) -> None:
        found = self.found()
        self.assertTrue(found["empty"].misleads)

    def test_what_the_box_file_cant_say(self) -> None:
        left_out = "# left out: 7: wg0:a    inet 10.9.0.1/24\n# left out: blackhole 10.0.0.0/8\n"
        found = self.found(*self.at(1), box=BOX + left_out)
        self.assertIn("7: wg0:a inet 10.9.0.1/24", found["interfaces left out"].text)
        self.assertTrue(found["interfaces left out"].misleads)
        self.assertFalse(found["routes left out"].misleads)
