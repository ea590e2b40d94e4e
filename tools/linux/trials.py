"""Rulesets with packets as files, run through both, with what came of them stored beside them.

A folder has rules.nft, and packets.txt (or a capture in.pcap) and box.txt, which else are those of the folder
above; from.txt names another folder of the repository that has the rest; options.txt has options of beside-linux. A
folder without packets only tells who takes its ruleset. What came of it is expected.txt, and some have told.json, what
the kernel said, for tests without one.
"""
from __future__ import annotations

import os
import subprocess
from dataclasses import dataclass, replace
from typing import Callable, Iterator, Sequence

from linux import stored
from linux.beside import Beside, differing, heard_from_kernel, versions
from linux.box import LabBox
from linux.crafting import capture_of
from linux.differences import Difference
from linux.namespaces import command
from linux.question import Heard, Options, Question, question_of
from linux.sections import SECTIONS, title
from toolbox import program
from toolbox.commands import Refused, printable, read_text
from toolbox.packets import describe

SAME, DIFFERS = 0, 1
TOP = os.path.join(os.path.dirname(os.path.realpath(__file__)), "..", "..")

Kernel = Callable[[Question], Heard]


@dataclass(frozen=True)
class Task:
    """The folders to run: which of a root's (all if `only` is empty), whether they are those of sections, and whether
    what comes of them is stored."""

    root: str
    only: Sequence[str]
    of_sections: bool
    store: bool


def beside_or_above(folder: str, name: str) -> str:
    """The path of a file of the folder; or of the one that its from.txt names, in the repository; or of the one
    above."""
    places = [folder]
    if os.path.exists(os.path.join(folder, "from.txt")):
        places.append(os.path.join(TOP, read_text(os.path.join(folder, "from.txt")).strip()))
    paths = [os.path.join(place, name) for place in places]
    return next((path for path in paths if os.path.exists(path)), os.path.join(folder, "..", name))


def options_of(folder: str) -> Options:
    """The options of beside-linux that a folder wants."""
    extra = os.path.join(folder, "options.txt")
    words = read_text(extra).split() if os.path.exists(extra) else []
    settings = [word.removeprefix("--set=") for word in words if word != "--alike"]
    return Options(beside_or_above(folder, "rules.nft"), beside_or_above(folder, "box.txt"),
                   beside_or_above(folder, "in.pcap"), alike="--alike" in words, set=settings)


def outcome_lines(folder: str, kernel: Kernel = heard_from_kernel) -> list[str]:
    """What came of a folder, in lines that don't tell what Linux chose by chance."""
    options = options_of(folder)
    packets = beside_or_above(folder, "packets.txt")
    if os.path.exists(options.capture):
        return judged(options, kernel)
    if not os.path.exists(packets):
        return loading_lines(options)
    with program.workspace() as space:
        capture = os.path.join(space, "in.pcap")
        with open(capture, "wb") as file:
            file.write(capture_of(read_text(packets).split("\n"), LabBox(options.box)))
        return judged(replace(options, capture=capture), kernel)


def judged(options: Options, kernel: Kernel) -> list[str]:
    question = question_of(options)
    return list(lines_of(Beside(question, kernel(question))))


def loading_lines(options: Options) -> list[str]:
    checked = subprocess.run([program.find_program(), "check", options.rules, options.box], capture_output=True,
                             text=True, check=False)
    words = "takes the ruleset" if checked.returncode == 0 else f"refuses: {checked.stderr.strip()}"
    try:
        command("nft", "--check", "-f", options.rules)
        theirs = "takes the ruleset"
    except Refused as refusal:
        theirs = f"refuses: {str(refusal).rpartition('Error: ')[2]}"
    return [f"nftrun {words}", f"nft {theirs}"]


def lines_of(beside: Beside) -> Iterator[str]:
    yield differing(beside.differences, beside.question.records, "record")
    by_number = {difference.number: difference for difference in beside.differences}
    for number, told in enumerate(beside.heard.told, 1):
        if number in by_number:
            yield record_line(beside, by_number[number])
        for made in told.made:
            yield f"record {number}: the box sent {sent_text(made.data)} by {beside.box.interface_name(made.interface)}"
    for one, sections in zip(beside.counters, beside.of_counters):
        counter, other = one.counter, one.other
        theirs = f"Linux {other.packets} packets {other.bytes} bytes" if other else "Linux has none"
        yield (f"counter {counter.chain} {counter.rule} {counter.which}: nftrun {counter.packets} packets "
               f"{counter.bytes} bytes, {theirs}: {', '.join(sections) or 'none'}")


def sent_text(packet: bytes) -> str:
    """Without what is chosen by chance."""
    return describe(packet, 0).partition(" about ")[0]


def record_line(beside: Beside, difference: Difference) -> str:
    explanation = beside.explained[difference.number]
    section = explanation.section if explanation else "none"
    follows = f" (by record {explanation.follows})" if explanation and explanation.follows else ""
    ours, theirs = difference.said, difference.told
    states = f", {ours.state} and {theirs.state}" if ours.state != theirs.state and ours.state and theirs.state else ""
    kinds = "+".join(kind.value for kind in difference.kinds)
    return (f"record {difference.number}: {ours.outcome} and {theirs.fate.value}{states}, "
            f"{kinds} differ: {section}{follows}")


def folders_in(root: str) -> list[str]:
    return sorted(name for name in os.listdir(root) if os.path.isdir(os.path.join(root, name)))


def names_its_section(name: str, lines: Sequence[str]) -> bool:
    """Whether the folder's own section explains something of it; of loading, and of packets of the box's own, none."""
    section = name.partition(".")[0]
    if section not in SECTIONS or section == "own-packets":
        return True
    return any(line.endswith(f": {section}") for line in lines)


def storing(path: str) -> Kernel:
    """The machine's own kernel, of which is stored what it said."""
    def ask(question: Question) -> Heard:
        heard = heard_from_kernel(question)
        stored.write(path, heard)
        return heard
    return ask


def run_folders(task: Task) -> int:
    """Runs the folders; tells of each that isn't as stored. Answers the status."""
    changed = 0
    for name in folders_in(task.root):
        if task.only and name not in task.only:
            continue
        folder = os.path.join(task.root, name)
        kernel = storing(os.path.join(folder, "told.json")) if task.store and task.of_sections else heard_from_kernel
        try:
            lines = outcome_lines(folder, kernel)
        except Refused as refusal:
            lines = [f"refused: {refusal}"]
        changed += not tell(task, name, lines)
    print(f"{changed or 'none'} changed" if not task.store else "stored")
    print(versions())
    return DIFFERS if changed else SAME


def tell(task: Task, name: str, lines: Sequence[str]) -> bool:
    """Prints what came of a folder; answers whether it is as stored."""
    path = os.path.join(task.root, name, "expected.txt")
    before: Sequence[str] | None = read_text(path).split("\n")[:-1] if os.path.exists(path) else None
    if task.store:
        with open(path, "w", encoding="utf-8", errors="surrogateescape") as file:
            file.write("".join(f"{line}\n" for line in lines))
        before = lines
    section = name.partition(".")[0]
    heading = f'{name}: "{title(section)}"' if section in SECTIONS and task.of_sections else name
    is_same = lines == before
    print(heading if is_same else f"CHANGED {heading}")
    for line in lines:
        print(printable(f"  {line}" if before is None or line in before else f"  new:  {line}"))
    for line in before or ():
        if line not in lines:
            print(printable(f"  gone: {line}"))
    if task.of_sections and not names_its_section(name, lines):
        print("  (its section explains nothing of it)")
    return is_same
