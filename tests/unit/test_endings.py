"""How commands end: by signals, with outputs that are inputs, and with inputs that no one would write."""
from __future__ import annotations

import os
import pathlib
import re
import signal
import subprocess
import time
import unittest

from made_elsewhere import ROUTER
from support import BOX, TOP, FilesCase
from toolbox.commands import Refused
from toolbox.outputs import check_output, output

RULES = "table inet f { chain in { type filter hook input priority 0; accept; } }\n"
# stands in for nftrun: says who it is, and doesn't end
SLEEPER = "#!/bin/sh\necho $$ >\"$PIDS\"\nexec sleep 60\n"
FILES = "rules.nft box.txt in.pcap"
LONG = 100_000_000  # bytes of a line


class Outputs(FilesCase):
    def test_an_input_under_any_name(self) -> None:
        path = self.file("in.pcap", "kept")
        os.symlink(path, self.folder / "link")
        os.link(path, self.folder / "other")
        for one in ("in.pcap", "link", "other", "../" + self.folder.name + "/in.pcap"):
            with self.assertRaisesRegex(Refused, "it is an input, too"):
                check_output(str(self.folder / one), (None, path))
        check_output(str(self.folder / "new"), (path,))
        with self.assertRaisesRegex(Refused, "a folder"):
            check_output(str(self.folder), ())

    def test_what_breaks_off(self) -> None:
        path = self.file("out", "before")
        with self.assertRaises(KeyboardInterrupt), output(path) as part:
            pathlib.Path(part).write_text("half")
            raise KeyboardInterrupt
        self.assertEqual([(one.name, one.read_text()) for one in self.folder.iterdir()], [("out", "before")])

    def test_what_is_written(self) -> None:
        path, link = self.file("out", "before"), self.folder / "link"
        os.chmod(path, 0o640)
        link.symlink_to(path)
        with output(str(link)) as part:
            pathlib.Path(part).write_text("whole")
            self.assertEqual(pathlib.Path(path).read_text(), "before")
        self.assertEqual((pathlib.Path(path).read_text(), os.stat(path).st_mode & 0o777), ("whole", 0o640))
        self.assertTrue(link.is_symlink())
        with output("/dev/null") as part:
            self.assertEqual(part, "/dev/null")


def hear_signals() -> None:
    """What nohup starts, or a shell in the background, passes over some signals, and so would what the tests start."""
    for number in signal.SIGHUP, signal.SIGINT, signal.SIGTERM:
        signal.signal(number, signal.SIG_DFL)


class Ending(FilesCase):
    def setUp(self) -> None:
        super().setUp()
        self.rules, self.box = self.file("rules.nft", RULES), self.file("box.txt", BOX)
        self.input = self.capture("in.pcap", ROUTER)
        self.made = self.folder / "made"
        self.made.mkdir()
        self.known = {**os.environ, "TMPDIR": str(self.made), "PIDS": str(self.folder / "pids")}

    def start(self, *words: str) -> subprocess.Popen[bytes]:
        program = self.file("sleeper", SLEEPER)
        os.chmod(program, 0o755)
        child = subprocess.Popen([str(TOP / "tools" / words[0]), *words[1:]], env={**self.known, "NFTRUN": program},
                                 stdout=subprocess.PIPE, stderr=subprocess.PIPE, start_new_session=True,
                                 preexec_fn=hear_signals)
        self.addCleanup(child.kill)
        return child

    def pid(self) -> int:
        path, end = self.folder / "pids", time.monotonic() + 60
        while not (path.exists() and path.read_text().endswith("\n")):
            self.assertLess(time.monotonic(), end)
            time.sleep(0.05)
        return int(path.read_text())

    def test_signals(self) -> None:
        for number in (signal.SIGINT, signal.SIGTERM, signal.SIGHUP):
            (self.folder / "pids").unlink(missing_ok=True)
            with self.start("why", "1", self.rules, self.box, self.input) as child:
                pid = self.pid()
                self.assertNotEqual(list(self.made.iterdir()), [])
                child.send_signal(number)
                self.assertEqual((child.wait(60), child.communicate()), (128 + number, (b"", b"")))
            self.assertEqual(list(self.made.iterdir()), [])
            with self.assertRaises(ProcessLookupError):
                os.kill(pid, 0)

    def test_a_signal_while_a_step_runs(self) -> None:
        first = self.folder / "first"
        with self.start("start", self.rules, self.box, self.input, str(first)) as child:
            pid = self.pid()
            child.send_signal(signal.SIGTERM)
            self.assertEqual((child.wait(60), child.communicate()), (128 + signal.SIGTERM, (b"", b"")))
        self.assertEqual((list(self.made.iterdir()), list(first.iterdir())), ([], []))
        with self.assertRaises(ProcessLookupError):
            os.kill(pid, 0)

    def refused(self, command: str) -> str:
        """The one line on standard error with which a command of a shell ends, with status 2."""
        words = ["bash", "-c", f"PATH={TOP}/tools:$PATH; {command}"]
        done = subprocess.run(words, cwd=self.folder, env=self.known, stdin=subprocess.DEVNULL, capture_output=True,
                              check=False)
        told = done.stderr.decode("utf-8", "replace")
        self.assertEqual((done.returncode, told.count("\n"), "Traceback" in told), (2, 1, False), told[:2000])
        self.assertLess(len(told), 2000)
        self.assertIsNone(re.search("[\x00-\x08\x0b-\x1f\x7f]", told))
        return told

    def test_numbers_of_many_digits(self) -> None:
        digits = "9" * 5000
        self.file("report.txt", f"trace {digits} outcome local\ncounter inet f in {digits} 1 packets 3 bytes 1\n")
        self.file("many.nft", RULES.replace("accept", f"counter packets {digits} bytes 1"))
        self.file("many.txt", BOX + f"idle udp {digits}\n")
        for command in ("report-to-json report.txt >/dev/null", "annotate rules.nft report.txt",
                        "annotate many.nft report.txt", "doctor many.txt in.pcap", f"why {digits} {FILES}",
                        f"why 'udp any > any:{digits}' {FILES}", f"page --records {digits} {FILES}",
                        f"doctor --conntrack-max {digits} box.txt in.pcap rules.nft",
                        f"packet 'udp 192.0.2.1:{digits} > 192.0.2.2:2'", "beside-copies rules.nft many.txt in.pcap",
                        "compare-rulesets rules.nft rules.nft many.txt in.pcap",
                        "align rules.nft many.txt in.pcap a.pcap",
                        "start rules.nft many.txt in.pcap first"):
            self.refused(command)

    def test_long_lines(self) -> None:
        for name, begin in (("long.nft", b"table "), ("long.txt", b"trace "), ("long.pcap", b"")):
            with open(self.folder / name, "wb") as file:
                file.write(begin + b"a" * LONG + b"\n")
        for command in ("annotate long.nft long.txt", "annotate rules.nft long.txt", "doctor long.txt in.pcap",
                        "report-to-json long.txt", "fit-ruleset long.nft", "packet <long.txt",
                        "box-from-ip long.txt", "box-from-ip <long.txt", "box-from-ip /dev/zero",
                        "why 1 long.nft box.txt in.pcap", "page long.nft box.txt in.pcap", "doctor box.txt long.pcap",
                        "compare-rulesets --allow long.txt rules.nft rules.nft box.txt in.pcap",
                        "report-to-json rules.nft long.txt in.pcap", "align rules.nft long.txt in.pcap out.pcap",
                        "beside-copies rules.nft long.txt in.pcap", "beside-linux long.nft box.txt in.pcap",
                        "start rules.nft long.txt in.pcap first", "annotate --map long.txt rules.nft box.txt in.pcap"):
            self.refused(command)

    def test_outputs_that_fail(self) -> None:
        self.file("ip.txt", "2: lan    inet 192.168.1.1/24 scope global lan\n192.168.1.0/24 dev lan scope link\n")
        for command in ("doctor box.txt in.pcap", "packet 'udp 192.0.2.1:1 > 192.0.2.2:2'", "fit-ruleset rules.nft",
                        "box-from-ip ip.txt"):
            self.refused(f"{command} >&-")
            self.refused(f"{command} 2>told >/dev/full; status=$?; tail -n 1 told >&2; exit $status")
        for command in ("why 1", "annotate", "report-to-json", "page", "beside-copies", "compare-rulesets rules.nft"):
            self.refused(f"{command} {FILES} >&-")
        self.refused(f"align {FILES} out.pcap >&-")
        self.refused(f"start {FILES} first >&-")

    def test_what_steers_a_terminal(self) -> None:
        self.file("\x1b[31m.nft", "x")
        told = self.refused("annotate $'\\e[31m.nft' $'\\e[2J'")
        self.assertIn("\\x1b[2J", told)


class Printing(unittest.TestCase):
    def test_one_call(self) -> None:
        """What is printed in words goes through commands.say, warn and remark."""
        tools = TOP / "tools"
        names = ("align", "annotate", "beside-copies", "compare-rulesets", "doctor", "report-to-json", "why")
        paths = [*(tools / name for name in names), *(tools / "toolbox").glob("*.py"), *(tools / "fit").glob("*.py")]
        for path in paths:
            lines = path.read_text(encoding="utf-8").splitlines()
            prints = [line for line in lines if re.search(r"\bprint\(", line) and "file=file" not in line]
            self.assertEqual(prints, [] if path != tools / "toolbox" / "commands.py" else [
                "    print(printable(text))", "        print(printable(line), file=sys.stderr)"], path)


if __name__ == "__main__":
    unittest.main()
