"""The command line of fit-ruleset."""
from __future__ import annotations

import argparse
import os
import re
import sys
import tempfile
from dataclasses import dataclass
from typing import Mapping, Sequence, Tuple

from toolbox import commands, rulemap
from toolbox.outputs import check_output
from toolbox.boxes import Box
from toolbox.program import find_program, run_child, workspace

from .assumptions import ASSUMPTIONS, Assumptions, Guess, listed
from .both import try_both
from .changes import Changes
from .commands import Commands
from .fitter import Fitter
from .grades import WRITTEN, Grade
from .network import Network
from .profile import SIZE, takes
from .rates import run as rates
from .rates.subjects import Again, Subject, Subjects
from .scanner import Refused
from .tree import Counter

NAME = "fit-ruleset"
DONE, WORSE = 0, 1
# stands for a box where none is given; an interface that it hasn't (N13) is no fault of the ruleset then
SOME_BOX = b"interface 1 lo 127.0.0.1/8\ndefault lo\n"
OF_THE_BOX = "N13"
REFUSED_RULE = re.compile(r"(?m)^table (\S+) (\S+), chain (\S+), rule ([0-9]+)$")
Row = Tuple[str, int, rulemap.Origin]  # chain and number of a fitted rule, and the rule that it comes from


@dataclass(frozen=True)
class Fitted:
    """`text` is what is written, `rows` the map, `stays` whether RULES is taken as it is."""

    text: str
    rows: list[Row]
    changes: Changes
    assumptions: Assumptions
    stays: bool


def fit(
    path: str,
    network: Network | None,
    chosen: Mapping[str, str] | None = None,
    only: Guess | None = None,
    subjects: Subjects | None = None,
) -> Fitted:
    """Fits the ruleset of a file. Refused where it can't be read; what can't be fitted is among the changes. With
    `subjects` what asks rates is found, and becomes a match of marks."""
    changes, assumptions = Changes(), Assumptions(chosen, only)
    read = Commands(changes)
    source = read.read(path)
    fitter = Fitter(read, assumptions, network, subjects)
    body = fitter.run()
    if not changes.list and takes(source.text, "ruleset"):
        return Fitted(source.text, plain_rows(fitter), changes, assumptions, True)
    head = f"# by fit-ruleset from {commands.printable(os.path.basename(path))}: {changes.worst().value}\n"
    return Fitted(head + body, rows_of(fitter), changes, assumptions, False)


def rows_of(fitter: Fitter) -> list[Row]:
    """The map's rows, for rulemap.write."""
    rows = []
    for it in fitter.rows:
        token = it.rule.token
        origin = rulemap.Origin(it.old_chain, it.old_number, token.source.name, token.line, it.rule.text, it.counters)
        rows.append((it.chain, it.number, origin))
    return rows


def plain_rows(fitter: Fitter) -> list[Row]:
    """The map of a ruleset that stays: each rule comes from itself."""
    rows = []
    numbers: dict[str, int] = {}
    for table, chain, rule in fitter.rules():
        place = f"{table.family} {table.name} {chain.name}"
        number = numbers[place] = numbers.get(place, 0) + 1
        counters = tuple(range(1, sum(isinstance(it.what, Counter) for it in rule.statements) + 1))
        rows.append(
            (
                place,
                number,
                rulemap.Origin(place, number, rule.token.source.name, rule.token.line, rule.text, counters),
            )
        )
    return rows


def tell(changes: Changes) -> None:
    for line in changes.lines():
        commands.warn(line)


def chosen_of(words: Sequence[str]) -> dict[str, str]:
    chosen: dict[str, str] = {}
    for word in words:
        name, _, way = word.partition("=")
        if name not in ASSUMPTIONS or way not in ASSUMPTIONS[name].ways:
            raise Refused(f"--assume {word}: there is {listed()}")
        chosen[name] = way
    return chosen


def parsed_arguments() -> argparse.Namespace:
    parser = commands.Parser(
        prog="nftrun fit",
        formatter_class=argparse.RawDescriptionHelpFormatter,
        description="Rewrites a ruleset that nft(8) takes into the language of nftrun, and tells on standard error "
        "what\nit changed.",
        epilog="Status: 0 FITTED is written, 1 a change is worse than --at-most, 2 refused; with --rates also where\n"
        "nothing is replayed, or marks of records can't say what is.\n"
        "docs/FIT.md has the constructs.\n"
        f"--assume: {listed()}",
    )
    parser.add_argument("rules", metavar="RULES", help="what `nft -f` takes or `nft list ruleset` prints")
    parser.add_argument(
        "--box", metavar="BOX", help="the box file: its addresses, routes and interfaces answer `fib` and `iif`"
    )
    parser.add_argument("--map", metavar="FILE", help="writes the map from fitted rules to the old ones")
    parser.add_argument(
        "--assume", metavar="WHAT=HOW", action="append", default=[], help="decides a kind of guess in the other way"
    )
    parser.add_argument(
        "--at-most",
        metavar="GRADE",
        choices=[grade.value for grade in WRITTEN],
        default=Grade.GUESS.value,
        help="same, outcome or guess: the worst grade that is written (guess)",
    )
    parser.add_argument(
        "--both",
        metavar="IN",
        help="tries each guess both ways over the capture IN, which wants --box; writes no ruleset",
    )
    add_rates(parser)
    return parser.parse_args()


def add_rates(parser: argparse.ArgumentParser) -> None:
    parser.add_argument(
        "--rates",
        metavar="IN",
        help="replays limits, quotas, `ct count` and sets that rules add to by the times of the capture IN, and writes "
        "what each record meets there as marks of records; wants --box and --marks",
    )
    parser.add_argument(
        "--marks", metavar="FOLDER", help="takes the marked box.txt and in.pcap, with which alone FITTED is to be run"
    )


def main() -> None:
    commands.run_command(NAME, command)


def command() -> int:
    try:
        return run(parsed_arguments())
    except Refused as refusal:
        raise commands.Refused(str(refusal)) from None


def run(names: argparse.Namespace) -> int:
    inputs = (names.rules, names.box, names.both, names.rates)
    if names.map:
        check_output(names.map, inputs)
    network = Network(names.box) if names.box else None
    chosen = chosen_of(names.assume)
    if names.both:
        return run_both(names, network, chosen)
    if not names.rates:
        return write(fit(names.rules, network, chosen), names)
    if network is None or not names.marks:
        raise Refused("--rates wants --box and --marks")
    rates.check_outputs(names.marks, inputs)
    fitted, subjects = fit_rates(names, network, chosen)
    return write(fitted, names, subjects)


def fit_rates(names: argparse.Namespace, network: Network, chosen: Mapping[str, str]) -> tuple[Fitted, Subjects]:
    """Fits with what asks rates as matches of marks, as far as that can be replayed."""
    indices = Box(names.box).indices
    without: frozenset[Subject] = frozenset()
    while True:
        subjects = Subjects(indices, without)
        try:
            return fit(names.rules, network, chosen, None, subjects), subjects
        except Again as found:
            without |= {found.subject}


def write(fitted: Fitted, names: argparse.Namespace, subjects: Subjects | None = None) -> int:
    """Tells what was changed, and writes the ruleset if it is good enough."""
    tell(fitted.changes)
    worst = fitted.changes.worst()
    count = len(fitted.changes.list)
    changes = "1 change" if count == 1 else f"{count} changes"
    summary = "nothing changed" if fitted.stays else f"{changes}, the worst: {worst.value}"
    if worst == Grade.REFUSED:
        number = sum(it.grade == Grade.REFUSED for it in fitted.changes.list)
        raise Refused(f"{names.rules}: {number} of {count} changes can't be made, as told above")
    if worst.rank > Grade(names.at_most).rank:
        commands.warn(f"{NAME}: {summary}, which is worse than {names.at_most}: nothing is written")
        return WORSE
    text = fitted.text
    with workspace() as folder:
        if subjects is not None:
            rated = rates.rated(subjects, text, names.rates, names.box, folder)
            text = rated.text
            for line in rated.lines:
                commands.warn(line)
        data = text.encode("utf-8", "surrogateescape")
        check(fitted, data, names.rules, names.box if subjects is None else rated.files.box)
        if subjects is not None:
            rates.keep(rated.files, names.marks)
    if names.map:
        rulemap.write(names.map, data, names.rules, fitted.rows)
    commands.warn(f"{NAME}: {summary}")
    sys.stdout.buffer.write(data)
    return DONE


def run_both(names: argparse.Namespace, network: Network | None, chosen: Mapping[str, str]) -> int:
    if network is None:
        raise Refused("--both wants --box")

    def fit_with(only: Guess | None) -> Fitted:
        fitted = fit(names.rules, network, chosen, only)
        if only is None:
            tell(fitted.changes)
        return fitted

    kept = try_both(fit_with, names, commands.say)
    if kept is None:
        raise Refused(f"{names.rules}: refused, as told above")
    return DONE if kept else WORSE


def program_at_hand() -> str | None:
    try:
        return find_program()
    except commands.Refused:
        return None


def check(fitted: Fitted, data: bytes, rules: str, given: str | None) -> None:
    """What is written is of nftrun's grammar, and `nftrun check` takes it, where the program is at hand. `given` is the
    box file, if there is one."""
    if len(data) > SIZE:
        raise Refused(f"{rules}: what it becomes has {len(data)} bytes, and nftrun takes {SIZE}")
    if not takes(data.decode("utf-8", "surrogateescape"), "ruleset"):
        raise Refused(f"{rules}: what it becomes isn't in the language of nftrun; this is a fault of {NAME}")
    program = program_at_hand()
    if program is None:
        return
    with tempfile.NamedTemporaryFile(suffix=".nft") as file, tempfile.NamedTemporaryFile(suffix=".txt") as box:
        file.write(data)
        file.flush()
        box.write(SOME_BOX)
        box.flush()
        status, errors = run_child([program, "check", "--explain", file.name, given or box.name])
    if status and (given or OF_THE_BOX not in errors.split("\n")[0]):
        raise Refused(refusal(fitted, rules, errors.replace(file.name, "the fitted ruleset")))


def refusal(fitted: Fitted, rules: str, errors: str) -> str:
    """What nftrun says of the fitted ruleset, at the operator's rule where it names one."""
    lines = errors.split("\n")
    what = f"{lines[0]} ({lines[1].rstrip('.')})" if len(lines) > 2 else lines[0]
    found = REFUSED_RULE.search(errors)
    if found:
        for chain, number, origin in fitted.rows:
            if (chain, str(number)) == (" ".join(found.group(1, 2, 3)), found[4]):
                return f"{origin.file}:{origin.line}: {origin.text}: nftrun refuses what it becomes: {what}"
    return f"{rules}: nftrun refuses what it becomes: {what}"
