"""Rows of calls, and calls that fail one after the other."""
from __future__ import annotations

import errno
import os
from dataclasses import dataclass
from typing import Callable, Mapping, Sequence

import calls
from files import OLD, contents
from judge import Judge
from sandbox import Given

Link = Callable[[str, str], None]


@dataclass(frozen=True)
class Failure:
    """How a call fails, the call by which the program tells of it, and its exit status."""

    error: int
    line: str
    status: int


FAILURES = (Failure(errno.EACCES, "tell nftrun: device", 5), Failure(errno.ENOMEM, "tell nftrun: memory", 6))
# The runs whose calls fail one after the other, by the lists of their calls.
FAILING = {"run": "run rules box in out", "report": "run --report file rules box in out"}


class CallTests(Judge):
    """Rows of calls, and calls that fail one after the other."""

    def try_row(self, row: calls.Row) -> None:
        """Runs a row; where two paths are one file, by a link of either kind."""
        self.name = row.name
        if not row.same:
            self.try_calls(row, row.failing())
            return
        links: tuple[Link, Link] = (os.link, os.symlink)
        for link in links:
            self.try_calls(row, row.failing(), link)

    def try_failures(self, name: str) -> int:
        """Each call of the system in the calls of this list fails in turn, in each way, and no other follows. Returns
        how many did."""
        count = 0
        made = self.data.lists[name]
        for number, call in enumerate(made):
            for failure in FAILURES:
                for note in calls.ways(call, failure.error):
                    self.name = f"{FAILING[name]}: {call}: {note or 'memory'}: {errno.errorcode[failure.error]}"
                    told = [*made[:number + 1], failure.line]
                    row = calls.Row(self.name, FAILING[name].split(), told, failure.status)
                    self.try_calls(row, calls.Failing(number, note, failure.error))
                    count += 1
        return count

    def try_calls(self, row: calls.Row, failing: calls.Failing | None, link: Link | None = None) -> None:
        """Runs a row, of whose calls on the host one may fail by a call of the system."""
        before = self.prepare(row, link)
        setting = calls.refusal(row.calls, failing) if failing else None
        given = self.sandbox.call(row.words, setting, row.is_on_terminal)
        done = [call for number, call in enumerate(row.calls) if not failing or number != failing.number]
        self.equal("the status", row.status, given.status)
        self.compare_notes(row.calls, given, failing=failing)
        self.compare_errors(done, given.errors)
        self.compare_outputs(row, done, given)
        self.compare_others(row, done, before)

    def prepare(self, row: calls.Row, link: Link | None) -> dict[str, bytes]:
        """Lays out the files of a row, and returns what they hold."""
        rules = self.data.refused if row.is_refused else self.data.accepted
        capture = self.data.runs[row.capture].capture() if row.capture != "folder" else b""
        self.sandbox.fill({"rules": rules, "--explain": rules, "box": self.data.box, "in": capture, "out": OLD,
                           "file": OLD})
        if row.absent:
            os.unlink(self.sandbox.path(row.absent))
        if row.capture == "folder":
            os.unlink(self.sandbox.path("in"))
            os.mkdir(self.sandbox.path("in"))
        if row.same and link:
            self.sandbox.join(*row.same.paths, link)
        if row.terminal:
            self.sandbox.join_to_terminal(row.terminal.paths)
        return self.sandbox.held()

    def compare_errors(self, done: Sequence[str], errors: str) -> None:
        """Compares standard error with what these calls print."""
        wanted = ""
        for call in done:
            kind, _, rest = call.partition(" ")
            if call.startswith("explain usage: "):
                self.compare_message(call.removeprefix("explain usage: "), errors)
                return
            wanted += f"{rest}\n" if kind == "tell" else self.data.texts.get(call, "")
        self.equal("standard error", wanted, errors)

    def compare_outputs(self, row: calls.Row, done: Sequence[str], given: Given) -> None:
        """Compares OUT, FILE and standard output: whole, or with beginnings where the run failed. Without a run nothing
        is written."""
        run = next((call for call in row.calls if call.startswith("run ")), None)
        report, sent = self.run_of(row, run) if run else (b"", b"")
        is_whole = run is None or run in done
        is_out, is_file = "create out" in done, "create file" in done
        if row.terminal:
            wanted = sent + (report if is_file else b"")
            self.equal("the terminal", wanted, self.sandbox.taken(len(wanted)))
        elif is_out:
            self.same("OUT", sent, contents(self.sandbox.path("out")), is_whole)
        if is_file and not row.terminal:
            self.same("FILE", report, contents(self.sandbox.path("file")), is_whole)
        if is_out and row.same and row.same.paths == ("out", "/dev/stdout"):
            return
        if run and not is_file:
            self.same("standard output", report, given.printed.encode(), is_whole)
        else:
            self.compare_printed(done, given.printed)

    def run_of(self, row: calls.Row, run: str) -> tuple[bytes, bytes]:
        """The report and the packets of a run of the row."""
        if row.capture == "folder":
            return b"", b""
        wanted = self.data.runs["traced" if run.endswith(" traced") else row.capture]
        return wanted.report().encode(), wanted.sent()

    def compare_printed(self, done: Sequence[str], printed: str) -> None:
        """Compares standard output with what these calls print, none of which is a run."""
        wanted = ""
        for call in done:
            kind, _, rest = call.partition(" ")
            if call == "explain help":
                self.equal("help", True, "\nUsage: nftrun <COMMAND>\n" in printed)
                return
            if kind == "announce":
                wanted += "accepted tables {} chains {} rules {}\n".format(*rest.split())
            elif kind == "reach" and not call.endswith(" in vain"):
                has_sets = call.endswith(" with sets")
                wanted += self.data.texts["packets that meet rules" if has_sets else "rules that can be met"]
            elif kind == "show":
                wanted += self.data.text_of_code(rest)
        self.equal("standard output", wanted, printed)

    def compare_others(self, row: calls.Row, done: Sequence[str], before: Mapping[str, bytes]) -> None:
        """Each file that wasn't created holds what it held."""
        created = {call.split()[1] for call in done if call.startswith("create ")}
        if row.same and created & set(row.same.paths):
            created |= set(row.same.paths)
        after = self.sandbox.held()
        for name in sorted((before.keys() | after.keys()) - created):
            self.equal(name, before.get(name), after.get(name))
