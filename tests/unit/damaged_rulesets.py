"""Damaged rulesets for `fit-ruleset` and `nftrun check --explain --all --nft`, and what must hold of both: they end
with a status of theirs, by a line where they refuse, without a traceback, within a second of processor time; and
nftrun takes what fit-ruleset writes."""
from __future__ import annotations

import pathlib
import random
import re
import resource
import subprocess
import time
from dataclasses import dataclass, field
from typing import Iterator

from damaged import Commands, Ended, contents, damaged, found, has_escape
from toolbox.commands import DIFFERS, DONE, REFUSED

MOST_SECONDS = 1.0
WORD = re.compile(rb"[A-Za-z0-9_.@$\"*/-]+|[^\sA-Za-z0-9]+")
RULES_REFUSED, BOX_REFUSED, TOO_LONG = 1, 3, 300  # statuses of check, and seconds after which a call is stopped
REFUSAL = re.compile(rb"nftrun: (?:rules [EN]|box B)\d+\n")
OF_THE_BOX = re.compile(rb"nftrun: (?:box B|rules N13)")


@dataclass(frozen=True)
class Tried:
    """What a call took of the processor, and what is wrong with it."""

    seconds: float
    faults: list[str]


def children_seconds() -> float:
    used = resource.getrusage(resource.RUSAGE_CHILDREN)
    return used.ru_utime + used.ru_stime


def words_changed(data: bytes, other: bytes, chance: random.Random) -> bytes:
    """Some words of a ruleset become words of another one, of its own, or go."""
    changed = bytearray(data)
    for _ in range(chance.choice((1, 1, 2, 4))):
        places = list(WORD.finditer(changed))
        others = WORD.findall(chance.choice((other, data)))
        if places and others:
            begin, end = chance.choice(places).span()
            changed[begin:end] = chance.choice((b"", chance.choice(others), chance.choice(others) + b" "))
    return bytes(changed)


@dataclass
class Rulesets:
    """Tries damaged rulesets; `program` is nftrun, None where there is none, and then fit-ruleset alone is tried."""

    folder: pathlib.Path
    seed: int
    program: str | None
    others: list[bytes] = field(default_factory=list)
    slowest: dict[str, float] = field(default_factory=dict)
    statuses: dict[tuple[str, int], int] = field(default_factory=dict)

    def __post_init__(self) -> None:
        self.chance = random.Random(self.seed)
        self.rulesets = contents(found("examples/*/rules.nft", "tests/tools/**/*.nft", "examples/check/*.nft"))
        self.rulesets += [it for it in self.others if it]
        self.boxes = found("tests/tools/fit-ruleset/kernel/box.txt", "examples/check/box.txt")
        self.commands = Commands(self.folder)
        self.rules = self.folder / "rules.nft"

    def mutant(self) -> bytes:
        """A ruleset with damage: to its words mostly, so that it is read far, or to its bytes."""
        chance = self.chance
        data = chance.choice(self.rulesets)
        if chance.random() < 0.7:
            data = words_changed(data, chance.choice(self.rulesets), chance)
        return damaged(data, False, chance) if chance.random() < 0.4 else data

    def one(self) -> list[str]:
        """What is wrong with a mutant, in lines; none where nothing is."""
        self.rules.write_bytes(self.mutant())
        box = str(self.chance.choice(self.boxes))
        faults = self.noted("fit-ruleset", self.fitted(box if self.chance.random() < 0.7 else None))
        if self.program:
            faults += self.noted("check", self.checked(self.program, box))
        return faults

    def noted(self, name: str, tried: Tried) -> list[str]:
        self.slowest[name] = max(tried.seconds, self.slowest.get(name, 0.0))
        if tried.seconds > MOST_SECONDS:
            tried.faults.append(f"{tried.seconds:.2f} s of processor time")
        return [f"{name}: {it}" for it in tried.faults]

    def count(self, name: str, status: int) -> None:
        self.statuses[name, status] = self.statuses.get((name, status), 0) + 1

    def fitted(self, box: str | None) -> Tried:
        words = [*(["--box", box] if box else []), str(self.rules)]
        began, before = time.process_time(), children_seconds()
        ended = self.commands.run("fit-ruleset", words, b"")
        seconds = time.process_time() - began + children_seconds() - before
        self.count("fit-ruleset", ended.status)
        return Tried(seconds, list(self.faults_of_fit(ended, box)))

    def faults_of_fit(self, ended: Ended, box: str | None) -> Iterator[str]:
        if ended.fault:
            yield f"not foreseen: {ended.fault}"
        if ended.status not in (DONE, DIFFERS, REFUSED):
            yield f"status {ended.status}"
        if ended.status != DONE and (ended.out or not ended.err):
            yield "refused without a line, or with a ruleset"
        if has_escape(ended.err):
            yield "an escape is printed"
        if ended.status == DONE and self.program:
            written = self.folder / "fitted.nft"
            written.write_bytes(ended.out)
            status, told = self.check(self.program, str(written), box or str(self.boxes[0]))
            if status and (box or not OF_THE_BOX.match(told)):
                yield f"nftrun refuses what is written: {told[:200]!r}"

    def check(self, program: str, rules: str, box: str) -> tuple[int, bytes]:
        words = [program, "check", "--explain", "--all", "--nft", rules, box]
        done = subprocess.run(words, capture_output=True, check=False, timeout=TOO_LONG)
        return done.returncode, done.stderr

    def checked(self, program: str, box: str) -> Tried:
        before = children_seconds()
        status, told = self.check(program, str(self.rules), box)
        seconds = children_seconds() - before
        self.count("check", status)
        faults = []
        if status not in (DONE, RULES_REFUSED, BOX_REFUSED):
            faults.append(f"status {status}")
        if bool(status) != bool(REFUSAL.match(told)):
            faults.append(f"refused without a code, or the reverse: {told[:100]!r}")
        return Tried(seconds, faults)
