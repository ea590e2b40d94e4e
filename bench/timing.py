"""Processor times and memory of runs, as measurements of bench/ take them."""
from __future__ import annotations

import os
import pathlib
import resource
import subprocess
import time
from dataclasses import dataclass
from typing import Sequence

GNU_TIME = "/usr/bin/time"


@dataclass(frozen=True)
class Spent:
    """What a run took: seconds of processors, seconds by the clock, and what it printed."""

    processor: float
    clock: float
    printed: bytes


def spent(words: Sequence[str], folder: str | pathlib.Path | None = None, most: int = 0) -> Spent:
    """Runs a program that has to end with status 0, or with one of at most `most`."""
    before, begin = resource.getrusage(resource.RUSAGE_CHILDREN), time.perf_counter()
    done = subprocess.run(words, cwd=folder, stdout=subprocess.PIPE, check=False)
    clock, after = time.perf_counter() - begin, resource.getrusage(resource.RUSAGE_CHILDREN)
    if not 0 <= done.returncode <= most:
        raise subprocess.CalledProcessError(done.returncode, list(words))
    return Spent(after.ru_utime - before.ru_utime + after.ru_stime - before.ru_stime, clock, done.stdout)


def peak(words: Sequence[str], folder: str | pathlib.Path | None = None) -> int:
    """The most bytes that a run has in memory, by GNU time: what python tells of a child counts its own memory too."""
    done = subprocess.run([GNU_TIME, "-f", "%M", *words], cwd=folder, stdout=subprocess.DEVNULL,
                          stderr=subprocess.PIPE, text=True, check=True, env={**os.environ, "LC_ALL": "C"})
    return int(done.stderr.split()[-1]) * 1024
