"""Each guess tried both ways over a capture: which of them change no record."""
from __future__ import annotations

import hashlib
import os
from argparse import Namespace
from dataclasses import dataclass
from typing import TYPE_CHECKING, Callable, Optional, Sequence

from toolbox import captures, program, reports

from .assumptions import ASSUMPTIONS, REFUSE, Guess, other_way
from .grades import Grade

if TYPE_CHECKING:
    from .command import Fitted

SHOWN = 8  # of the records that a guess changes


@dataclass(frozen=True)
class Run:
    """What became of each record: its outcome, and of one that passed a digest of what left."""

    outcomes: Sequence[bytes]
    leaving: Sequence[bytes]


Fitting = Callable[[Optional[Guess]], "Fitted"]


def try_both(fit: Fitting, names: Namespace, write: Callable[[str], None]) -> bool | None:
    """Prints a line for each guess of the ruleset; `fit(only)` fits it, with one guess turned. Answers whether no guess
    changes a record, or None where the ruleset can't be fitted."""
    path = program.find_program()
    first = fit(None)
    if first.changes.worst() == Grade.REFUSED:
        return None
    guesses = list(dict.fromkeys(first.assumptions.asked))
    kept = 0
    with program.workspace() as folder:
        usual = run(path, first, names, folder, "usual")
        for guess, way in guesses:
            changed, text = tried(path, fit, guess, way, usual, names, folder)
            kept += not changed
            write(f"{guess.place}: {guess.what}: {text}")
    write(f"{kept} of {len(guesses)} guesses change no record of {len(usual.outcomes)}")
    return kept == len(guesses)


def tried(
    path: str, fit: Fitting, guess: Guess, way: str, usual: Run, names: Namespace, folder: str
) -> tuple[bool, str]:
    """Whether a guess may change a record, and what is told of it."""
    name, other = guess.name, other_way(guess.name, way)
    if other == REFUSE:
        return True, f"{name}={way}: there is no other way to try ({ASSUMPTIONS[name].why})"
    turned = fit(guess)
    refused = [it.why for it in turned.changes.list if it.grade == Grade.REFUSED]
    if refused:
        return True, f"{name}={way}: {name}={other} can't be fitted: {refused[0]}"
    found = differing(usual, run(path, turned, names, folder, "turned"))
    if not found:
        return False, f"{name}={way} or {name}={other}: no record changes"
    number = "1 record changes" if len(found) == 1 else f"{len(found)} records change"
    shown = " ".join(map(str, found[:SHOWN])) + (" .." if len(found) > SHOWN else "")
    return True, f"{name}={way} or {name}={other}: {number}: {shown}"


def run(path: str, fitted: Fitted, names: Namespace, folder: str, name: str) -> Run:
    files = {it: os.path.join(folder, f"{name}.{it}") for it in ("nft", "pcap", "txt")}
    with open(files["nft"], "wb") as file:
        file.write(fitted.text.encode("utf-8", "surrogateescape"))
    program.run(path, files["nft"], names.box, names.both, files["pcap"], files["txt"])
    outcomes: dict[bytes, int] = {}
    numbers = reports.outcomes_of(files["txt"], outcomes)
    by_number = {number: text for text, number in outcomes.items()}
    leaving = [hashlib.blake2b(data, digest_size=8).digest() for *_, data in captures.records(files["pcap"])]
    return Run([by_number[it] for it in numbers[1:]], leaving)


def differing(one: Run, other: Run) -> list[int]:
    """The numbers of the records that end otherwise, or leave as other bytes."""
    found, left, right = [], iter(one.leaving), iter(other.leaving)
    for number, (a, b) in enumerate(zip(one.outcomes, other.outcomes), 1):
        frames = next(left, None) if a == b"passed" else None, next(right, None) if b == b"passed" else None
        if a != b or frames[0] != frames[1]:
            found.append(number)
    return found
