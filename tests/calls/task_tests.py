"""Command lines, statuses, and how many calls a run makes."""
from __future__ import annotations

import os
from dataclasses import dataclass
from typing import Sequence

from calls import Answer
from files import LONG, OLD, ROWS, contents
from judge import Judge
from plain import IN_HEADER
from rows import came

# 2,000 rules of which only the last matches: it drops the first host's packets.
DROPPING = "table ip t {{ chain c {{ type filter hook forward priority 0; {}ip saddr 192.168.1.10 drop\n}} }}".format(
    "ip daddr 198.51.100.7 ip saddr 10.0.0.1 drop\n" * 1_999
)


@dataclass(frozen=True)
class Count:
    """A ruleset of a run over 5,000 packets, with the writes of OUT and of the report."""

    name: str
    rules: str
    sends: int
    reports: int


# A read asks for 65,536 bytes, and the capture has between four and five times as many. Before each read all output is
# written, the header before the first: so there is a write of OUT for each of five reads, and one of the rest.
COUNTS = (Count("every packet leaves", "", 6, 1), Count("every other packet is dropped", DROPPING, 6, 1))


@dataclass(frozen=True)
class Printed:
    """What a call has to give: its status, and both outputs."""

    status: int
    printed: str
    errors: str


class TaskTests(Judge):
    """Command lines, statuses, and how many calls a run makes."""

    def try_words(self, line: Answer) -> None:
        """Compares what the words are answered: a task, which is done, or clap's text."""
        self.name = f"nftrun {line.question}".strip()
        kind, _, rest = line.answer.partition(" ")
        tasks = {"error:": self.try_refused, "prints": self.try_printed, "explain": self.try_code,
                 "check": self.try_check, "reach": self.try_reach, "diff": self.try_diff, "run": self.try_run}
        tasks[kind](line.question.split(), rest)

    def try_refused(self, words: Sequence[str], text: str) -> None:
        self.sandbox.fill({})
        given = self.sandbox.call(words)
        self.equal("status and standard output", (2, ""), (given.status, given.printed))
        self.compare_message(text, given.errors)
        self.compare_notes(["words", f"explain usage: {text}"], given)

    def try_printed(self, words: Sequence[str], line: str) -> None:
        self.sandbox.fill({})
        given = self.sandbox.call(words)
        self.equal("status and standard error", (0, ""), (given.status, given.errors))
        self.equal(f"the line {line}", True, line in given.printed.splitlines())
        self.compare_notes(["words", "explain help"], given)

    def try_code(self, words: Sequence[str], code: str) -> None:
        self.sandbox.fill({})
        given = self.sandbox.call(words)
        answer = Printed(0, self.data.text_of_code(code), "")
        self.equal("the answer", answer, Printed(given.status, given.printed, given.errors))
        self.compare_notes(["words", f"show {code}"], given)

    def try_check(self, words: Sequence[str], task: str) -> None:
        """Checks a ruleset that is accepted, and one that is refused, of which `all` tells the faults."""
        rules, box, *is_all = task.split()
        paths = {"rules": rules, "box": box}
        begin = [*self.data.lists["run"][:3], "judge rules box"]
        accepted = Printed(0, "accepted tables 1 chains 2 rules 3\n", "")
        self.check(words, paths, self.data.accepted, accepted, [*begin, "announce 1 2 3"])
        faults = self.data.texts["list faults"].replace("rules:", f"{rules}:", 1) if is_all else ""
        end = ["tell nftrun: rules N06", *(["list faults"] if is_all else [])]
        refused = Printed(1, "", f"nftrun: rules N06\n{faults}")
        self.check(words, paths, self.data.refused, refused, begin + end)

    def try_reach(self, words: Sequence[str], task: str) -> None:
        """Tells which rules of a ruleset can be met, and refuses another."""
        rules, box, *has_sets = task.split()
        paths = {"rules": rules, "box": box}
        begin = self.data.lists["run"][:3]
        name, call = ("packets that meet rules", "reach rules box with sets") if has_sets else (
            "rules that can be met", "reach rules box")
        self.check(words, paths, self.data.accepted, Printed(0, self.data.texts[name], ""), [*begin, call])
        refused = Printed(1, "", "nftrun: rules N06\n")
        end = ["reach rules box in vain", "tell nftrun: rules N06"]
        self.check(words, paths, self.data.refused, refused, [*begin, *end])

    def try_diff(self, words: Sequence[str], task: str) -> None:
        """Refuses each of the rulesets that are compared, as its file is named in the usage."""
        listed, _, file = task.partition(" assuming ")
        paths = dict(zip(("old", "new", "box", "filter"), [*listed.split(), *([file] if file else [])]))
        begin = ["words", *(f"read {name}" for name in paths)]
        for name in (it for it in paths if it != "box"):
            texts = {path: self.data.refused if it == name else self.data.accepted for it, path in paths.items()}
            self.sandbox.fill({**texts, paths["box"]: self.data.box})
            given = self.sandbox.call(words)
            line = f"nftrun: rules N06 in {name.upper()}"
            self.equal("the answer", Printed(1, "", f"{line}\n"), Printed(given.status, given.printed, given.errors))
            self.compare_notes([*begin, "diff old new box in vain", f"tell {line}"], given, paths)

    def check(self, words: Sequence[str], paths: dict[str, str], text: bytes, answer: Printed,
              wanted: Sequence[str]) -> None:
        self.sandbox.fill({paths["rules"]: text, paths["box"]: self.data.box})
        given = self.sandbox.call(words)
        self.equal("the answer", answer, Printed(given.status, given.printed, given.errors))
        self.compare_notes(wanted, given, paths)

    def try_run(self, words: Sequence[str], task: str) -> None:
        """Runs a ruleset over a capture, by files of the task's names."""
        listed, _, file = task.partition(" to ")
        names = listed.split()
        run = self.data.runs["traced" if names[4:] else "whole"]
        paths = dict(zip(("rules", "box", "in", "out", "file"), [*names[:4], file]))
        texts = (self.data.accepted, self.data.box, run.capture(), OLD, OLD)
        self.sandbox.fill({path: text for path, text in zip(paths.values(), texts) if path})
        given = self.sandbox.call(words)
        report = contents(self.sandbox.path(file)).decode() if file else given.printed
        self.equal("status and standard error", (0, ""), (given.status, given.errors))
        self.equal("the report", run.report(), report)
        self.equal("standard output", "" if file else report, given.printed)
        self.equal("OUT", run.sent(), contents(self.sandbox.path(names[3])))
        self.compare_notes(self.data.lists["report" if file else "run"], given, paths)

    def try_status(self, line: Answer) -> None:
        """Compares the line and the exit status of an input."""
        self.name = f"status: {line.question}"
        status, *words = line.answer.split()
        self.sandbox.fill({"OUT": OLD, "long.nft": LONG})
        stored = (f"{ROWS}/{word}" for word in words)
        given = self.sandbox.call([path if os.path.isfile(path) else word for path, word in zip(stored, words)])
        wanted = (int(status), f"nftrun: {line.question}\n")
        self.equal("status and line", wanted, (given.status, given.errors))

    def try_count(self, count: Count) -> None:
        """Counts the writes of OUT and of the report in a run over 5,000 packets, from two hosts in turn."""
        self.name = count.name
        hosts = ("192.168.1.10", "192.168.1.11")
        pair = b"".join(came(f"1.500000000 lan udp {host}:5000 > 198.51.100.7:53") for host in hosts)
        capture = IN_HEADER + pair * 2_500
        self.sandbox.fill({"rules": count.rules.encode(), "box": self.data.box, "in": capture, "out": OLD})
        given = self.sandbox.call(["run", "rules", "box", "in", "out"])
        notes = given.notes.splitlines()
        self.equal("status and standard error", (0, ""), (given.status, given.errors))
        written = (notes.count("write out"), notes.count("write 1"))
        self.equal("writes of OUT and of the report", (count.sends, count.reports), written)
