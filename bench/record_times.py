"""Runs the program on what record_inputs.py made, and prints time and peak memory.

bench/record_times.py PROGRAM FOLDER

GNU time (Debian's package `time`) reads the peak memory. OUT is removed before each run, so that no run pays for the
file of an earlier one.
"""
from __future__ import annotations

import os
import pathlib
import subprocess
import sys
import time
from dataclasses import dataclass
from typing import Sequence

from timing import peak

RUNS = 5
CONVERSATIONS = ((1, 10**5), (10, 10**5), (1000, 10**5), (10_000, 3 * 10**4))
WALKS = ((10, 10**6, "small"), (1000, 10**5, "small-5"), (1000, 10**4, "small-4"), (16000, 10**4, "small-4"))
HARD = ("gotos", "jumps", "doubling", "ranges", "names")


@dataclass(frozen=True)
class Lab:
    """A program and the folder of inputs."""

    program: str
    folder: pathlib.Path

    @property
    def out(self) -> pathlib.Path:
        return self.folder / "out.pcap"

    def path(self, name: str) -> str:
        return str(self.folder / name)

    def size(self, name: str) -> int:
        return os.path.getsize(self.path(name))

    def least(self, words: Sequence[str], status: int = 0) -> float:
        """The least time of some runs that end with this status, in seconds."""
        times = []
        for _ in range(RUNS):
            self.out.unlink(missing_ok=True)
            begin = time.perf_counter()
            done = subprocess.run(words, stdout=subprocess.DEVNULL, stderr=subprocess.DEVNULL, check=False)
            times.append(time.perf_counter() - begin)
            if done.returncode != status:
                sys.exit(f"{words} ended with {done.returncode}")
        return min(times)

    def run_words(self, rules: str, box: str, capture: str, *flags: str) -> list[str]:
        return [self.program, "run", *flags, *map(self.path, (rules, box, capture)), str(self.out)]

    def check_words(self, rules: str, box: str) -> list[str]:
        return [self.program, "check", self.path(rules), self.path(box)]

    def run(self, rules: str, capture: str, box: str = "box.txt", status: int = 0) -> float:
        return self.least(self.run_words(rules, box, f"{capture}.pcap"), status)

    def parsing(self, rules: str) -> float:
        """The box file is refused once the ruleset is parsed, and before it is judged."""
        return self.least(self.check_words(rules, "no-box.txt"), 3)


def tell_frames(lab: Lab) -> None:
    """Frames of Ethernet, 100 rules, a trace; and beside tcpdump."""
    for power in (3, 5, 7):
        name = f"frames-{power}"
        each = lab.run("rules.nft", name) * 1e9 / 10**power
        memory = peak(lab.run_words("rules.nft", "box.txt", f"{name}.pcap")) / 2**20
        size = lab.size(f"{name}.pcap")
        print(f"10^{power} frames, {size} bytes, 100 rules: {each:.0f} ns a record; peak {memory:.2f} MiB")
    plain = lab.run("rules.nft", "frames-6")
    traced = lab.least(lab.run_words("rules.nft", "box.txt", "frames-6.pcap", "--trace"))
    print(f"10^6 frames, 100 rules: {plain:.3f} s; with --trace: {traced:.3f} s; {traced / plain:.2f} times")
    for name, text in (("frames-6", "frames of 74 bytes"), ("small", "raw packets of 60 bytes")):
        spent = lab.run("empty.nft", name)
        other = lab.least(["tcpdump", "-r", lab.path(f"{name}.pcap"), "-w", str(lab.out)])
        print(f"10^6 {text}, empty ruleset: {spent:.3f} s; tcpdump -r -w: {other:.3f} s; {spent / other:.2f} times")


def tell_connections_and_boxes(lab: Lab) -> None:
    for conversations, packets in CONVERSATIONS:
        each = lab.run("stateful.nft", f"conversations-{conversations}") * 1e9 / packets
        print(f"{packets} packets of {conversations} conversations: {each:.0f} ns a packet")
    few = lab.run("empty.nft", "small", "two-routes.txt")
    many = lab.run("empty.nft", "small", "many-routes.txt")
    print(f"a box of 2 routes: {few:.3f} s; of 1,021: {many:.3f} s; {many / few:.2f} times")
    for power, status in ((4, 0), (5, 3), (6, 3)):
        each = lab.run("empty.nft", "3", f"lines-{power}.txt", status) * 1e9 / 10**power
        print(f"a box file of 10^{power} lines, status {status}: {each:.0f} ns a line")


def tell_rules(lab: Lab) -> None:
    """Statements that are met, and sets."""
    for rules, packets, name in WALKS:
        met, made = lab.run(f"line-{rules}.nft", name), lab.run(f"line-{rules}.nft", "small-0")
        # A chain without rules, so that meeting one isn't counted as a statement.
        empty, none = lab.run("chain.nft", name), lab.run("chain.nft", "small-0")
        each = (met - empty - made + none) * 1e9 / packets / rules
        print(f"{packets} packets over {rules} rules: {each:.2f} ns a statement that is met")
    one = lab.run("one.nft", "small")
    for name, text in (("set", "a set of 50,000 addresses"), ("verdicts", "a verdict map of 1,000 addresses")):
        more = lab.run(f"{name}.nft", "small") - lab.run(f"{name}.nft", "small-0") - one
        print(f"{text}: {more * 1e9 / 10**6:.0f} ns a packet more than one address")


def tell_texts(lab: Lab) -> None:
    """Compiling, a byte of text, and rulesets that are hard to judge."""
    check, run = lab.check_words("largest.nft", "box.txt"), lab.run_words("largest.nft", "box.txt", "small-0.pcap")
    compiling, memory = lab.least(run) - lab.least(check), (peak(run) - peak(check)) / 76_384
    print(f"compiling 16,384 rules and 60,000 elements: {compiling:.3f} s, {memory:.0f} bytes a rule or element more "
          "than the check")
    for rules in (1000, 4000, 16000):
        name = f"{rules}.nft"
        size, each = lab.size(name), lab.run(name, "3") * 1e9
        memory, parsed = peak(lab.run_words(name, "box.txt", "3.pcap")), lab.parsing(name) * 1e9
        print(f"{rules} rules, {rules * 15 // 4} elements, {size} bytes: {each / size:.1f} ns and {memory / size:.1f} "
              f"bytes a byte of text; parsing alone {parsed / size:.1f} ns")
    for hard in HARD:
        name = f"hard-{hard}.nft"
        words, size, parsed = lab.check_words(name, "box.txt"), lab.size(name), lab.parsing(name)
        judged, memory = lab.least(words), peak(words)
        print(f"check of {hard}, {size} bytes: {judged * 1e9 / size:.1f} ns and {memory / size:.1f} bytes a byte of "
              f"text; {judged / parsed:.2f} times parsing alone, which takes {parsed * 1e9 / size:.1f} ns")


def main() -> int:
    if len(sys.argv) != 3:
        print(__doc__, file=sys.stderr)
        return 2
    lab = Lab(os.path.abspath(sys.argv[1]), pathlib.Path(sys.argv[2]))
    for tell in (tell_frames, tell_connections_and_boxes, tell_rules, tell_texts):
        tell(lab)
    return 0


if __name__ == "__main__":
    sys.exit(main())
