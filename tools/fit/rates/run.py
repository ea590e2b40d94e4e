"""What `fit --rates IN --marks FOLDER` does beside fitting: it replays, tells of each statement, and writes FOLDER."""
from __future__ import annotations

import os
import re
import shutil
from dataclasses import dataclass
from typing import Iterator, Sequence

from toolbox.captures import FILE_HEADER, RECORD_HEADER, is_torn, records
from toolbox.outputs import check_output, output

from ..scanner import Refused
from .marked import Files, Marked, Source
from .replay import Replay, Settled
from .subjects import Probe, Subjects

BOX, CAPTURE = "box.txt", "in.pcap"
SHOWN = 8  # of the records that a statement marks


@dataclass(frozen=True)
class Rated:
    """The fitted ruleset with its marks, what is told, and whether what is written may be used: `files` are in a folder
    that is gone behind the command."""

    text: str
    lines: Sequence[str]
    files: Files


def check_outputs(folder: str, inputs: Sequence[str | None]) -> None:
    """Refuses a folder whose files are inputs."""
    if os.path.exists(folder) and not os.path.isdir(folder):
        raise Refused(f"{folder}: a file, where a folder is to be written")
    for name in (BOX, CAPTURE):
        check_output(os.path.join(folder, name), inputs)


def with_logs(text: str, probes: Sequence[Probe], prefix: str) -> str:
    """The fitted ruleset with a log before each match of marks, which tells who comes there."""
    for it in probes:
        log = f'log prefix "{prefix} {it.number}" '
        text = re.sub(rf"{re.escape(it.match)}(?![0-9])", lambda found: log + found[0], text)
    return text


def rated(subjects: Subjects, text: str, capture: str, box: str, folder: str) -> Rated:
    """Replays what the subjects ask; `text` is the fitted ruleset, and `folder` takes what is written on the way."""
    if not subjects.probes:
        raise Refused(f"{capture}: no rule asks a rate, or a set that rules add to, that can be replayed: fit without "
                      "--rates")
    source, prefix = Source(capture, box), "rates"
    while prefix in text:
        prefix += "_"
    replay = Replay(subjects.probes, subjects.sets, source, prefix)
    settled = replay.settle(folder, with_logs(text, subjects.probes, prefix))
    if not any(it.came for it in settled.told.values()):
        raise Refused(f"{capture}: no record comes to a rule that asks a rate: fit without --rates")
    marked = Marked(source, settled.marks, subjects.probes)
    files = marked.write(folder, text)
    with open(files.rules, encoding="utf-8", errors="surrogateescape") as file:
        return Rated(file.read(), list(told(subjects.probes, settled, capture)), files)


def told(probes: Sequence[Probe], settled: Settled, capture: str) -> Iterator[str]:
    """A line for each statement, and what isn't exact."""
    for it in probes:
        found = settled.told[it.number]
        shown = "".join(f" {number}" for number in found.odd[:SHOWN]) + (" .." if len(found.odd) > SHOWN else "")
        what = "stops" if it.usual else "goes on"
        came = "1 record comes" if found.came == 1 else f"{found.came} records come"
        yield (f"{it.place}: {it.text}: {it.set_name}: {came}, and the rule {what} for {len(found.odd)}"
               f"{':' if shown else ''}{shown}")
    yield from (f"{capture}: warning: {it}" for it in settled.notes)
    if is_torn(capture, end_of(capture)):
        yield f"{capture}: warning: it ends within a record: its whole records are marked"


def end_of(capture: str) -> int:
    """Where the last whole record ends."""
    end = FILE_HEADER
    for _, _, _, offset, length, _, _ in records(capture, RECORD_HEADER):
        end = offset + length
    return end


def keep(files: Files, folder: str) -> None:
    """Puts the marked box file and capture into the operator's folder."""
    os.makedirs(folder, exist_ok=True)
    for path, name in ((files.box, BOX), (files.capture, CAPTURE)):
        with output(os.path.join(folder, name)) as part:
            shutil.copyfile(path, part)
