"""Which record is asked about, and commands that run one after the other."""
from __future__ import annotations

import os
import signal
import subprocess
import sys
import time
import unittest
from unittest import mock

from made_elsewhere import ROUTER
from support import FilesCase
from toolbox.asked import Asked, Found, Moment, asked_of, chosen_of
from toolbox.captures import header_of
from toolbox.commands import Ended, Refused
from toolbox.steps import Steps, end, ended, new_folder


class Asking(FilesCase):
    """See test_flows for what the records of ROUTER are."""

    def found(self, text: str) -> list[int]:
        path, asked = self.capture("in.pcap", ROUTER), asked_of(text)
        assert isinstance(asked, Asked)
        return [one.record for one in asked.found(path, header_of(path))]

    def test_numbers(self) -> None:
        self.assertEqual((asked_of("12"), asked_of(" -1 ")), (12, -1))
        self.assertRaises(Refused, asked_of, "9" * 5000)

    def test_ends(self) -> None:
        self.assertEqual(self.found("tcp 192.168.1.10 > any:443"), [1, 5])
        self.assertEqual(self.found("198.51.100.7:443"), [1, 3, 5])
        self.assertEqual(self.found("198.51.100.0/24:53 > 203.0.113.1"), [8])
        self.assertEqual(self.found("icmp 198.51.100.7"), [11])
        # the copies of what the box sent where nothing else fits
        self.assertEqual(self.found("udp 203.0.113.1 > any"), [7, 10])
        self.assertEqual(self.found("10.0.0.0/8"), [])

    def test_what_is_no_question(self) -> None:
        for text in ("", "tcp", "> ", "1.2.3.4 > ", "1.2.3:4", "1.2.3.4:x", "1.2.3.4:70000", "1.2.3.4:", "at 12:00",
                     "any at", "any at 25:00:61:1", "any at 2026-13-01", "any at \x1b[31m", "a > b > c"):
            self.assertRaises(Refused, asked_of, text)

    def test_time(self) -> None:
        with mock.patch.dict(os.environ, {"TZ": "UTC"}):
            time.tzset()
            day, clock = Moment(1769868187.5, False), asked_of("any at 14:03:07")
            self.assertEqual(asked_of("any at 2026-01-31T14:03:07.500Z"), Asked(
                "any at 2026-01-31T14:03:07.500Z", None, asked_of("any").source, None, day))  # type: ignore[union-attr]
            assert isinstance(clock, Asked) and clock.moment is not None
            self.assertEqual(clock.moment.distance(1769868188.5), 1.5)
            self.assertEqual(Moment(10, True).distance(1769903999), 11)  # a second before midnight
        time.tzset()
        found = [Found(3, 100.0, False), Found(5, 101.0, False), Found(7, 102.0, False)]
        asked = asked_of("any")
        assert isinstance(asked, Asked)
        self.assertEqual(chosen_of(asked, found, {5}).record, 5)
        self.assertEqual(chosen_of(asked, found, set()).record, 3)
        near = asked_of("any at 101.9")
        assert isinstance(near, Asked)
        self.assertEqual(chosen_of(near, found, {5}).record, 7)


class Stepping(FilesCase):
    def steps(self) -> Steps:
        return Steps("/nowhere/nftrun", str(self.folder), str(self.folder))

    def test_a_step(self) -> None:
        code = "import os, sys; print(os.environ['NFTRUN']); print('one\\n\\ntwo', file=sys.stderr); sys.exit(3)"
        done = self.steps().run("it", [sys.executable, "-c", code], "told")
        self.assertEqual((done.status, done.remarks, done.reason), (3, ("one", "two"), "two"))
        self.assertEqual((self.folder / "told").read_text(), "/nowhere/nftrun\n")
        self.assertEqual(self.steps().run("it", ["true"]).reason, "status 0")
        self.assertRaises(Refused, self.steps().run, "it", ["/nowhere/command"])

    def test_signals(self) -> None:
        began, wait, came = time.monotonic(), subprocess.Popen.wait, list[int]()

        def waiting(child: subprocess.Popen[bytes], timeout: float | None = None) -> int:
            if not came:
                came.append(signal.SIGTERM)
                raise Ended(signal.SIGTERM)
            return wait(child, timeout)

        with open(self.folder / "errors", "wb") as err, mock.patch("subprocess.Popen.wait", waiting):
            self.assertRaises(Ended, ended, ["sleep", "60"], err, err, dict(os.environ))
        self.assertLess(time.monotonic() - began, 50)

    def test_what_goes_on(self) -> None:
        code = "import signal, time; signal.signal(15, signal.SIG_IGN); print(flush=True); time.sleep(60)"
        with subprocess.Popen([sys.executable, "-c", code], stdout=subprocess.PIPE) as child, \
                mock.patch("toolbox.steps.SECONDS_TO_END", 0.1):
            assert child.stdout is not None
            child.stdout.read(1)
            end(child)
            self.assertEqual(child.wait(30), -signal.SIGKILL)

    def test_folders(self) -> None:
        path = str(self.folder / "a/b")
        with new_folder(path) as made:
            self.assertTrue(os.path.isdir(made))
        for taken in (str(self.folder), self.file("file", ""), os.path.join(self.file("file", ""), "below")):
            with self.assertRaises(Refused), new_folder(taken):
                pass


if __name__ == "__main__":
    unittest.main()
