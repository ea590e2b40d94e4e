"""Finding and running nftrun."""
from __future__ import annotations

import contextlib
import os
import shutil
import subprocess
import tempfile
from typing import Iterator, Sequence

from toolbox.captures import called
from toolbox.commands import DONE, TORN, Refused, signals

BUILT = os.path.join(os.path.dirname(os.path.abspath(__file__)), "..", "..", "crates", "nftrun", "out", "nftrun")
# In this repository, what starts the commands, and the program where that is built.
FRONT = os.path.join(os.path.dirname(os.path.dirname(os.path.realpath(__file__))), "nftrun")


def find_program() -> str:
    """The path of nftrun: what NFTRUN names, else the one in PATH, else the one built in this repository."""
    named = os.environ.get("NFTRUN")
    if named:
        return named
    found = shutil.which("nftrun")
    if found and os.path.realpath(found) != FRONT:
        return found
    if os.access(BUILT, os.X_OK):
        return os.path.normpath(BUILT)
    raise Refused("nftrun isn't in PATH: set NFTRUN to its path")


def run(
        program: str, rules: str, box: str, capture: str, leaving: str, report: str, trace: bool = True) -> bool:
    """Runs a ruleset over a capture; the packets that leave and the report go to the paths `leaving` and `report`.
    Answers whether the capture is torn at its end."""
    options = ["--trace"] if trace else []
    command = [program, "run", *options, "--report", report, "--", rules, box, capture, leaving]
    status, errors = run_child(command)
    if status not in (DONE, TORN):
        ended = f"{program} ended with status {status}"
        raise Refused(f"the run of {rules} over {called(capture)}: {errors or ended}")
    return status == TORN


def run_child(
        words: Sequence[str], output: int = subprocess.DEVNULL, seconds: float | None = None) -> tuple[int, str]:
    """The status of a program, and what it said on standard error; `output` is the file that its own output goes to.
    A signal that ends this command ends it, too; so do so many seconds, with subprocess.TimeoutExpired."""
    with signals.held():
        try:
            child = subprocess.Popen(words, stdin=subprocess.DEVNULL, stdout=output, stderr=subprocess.PIPE)
        except OSError as error:
            raise Refused(f"{words[0]}: {error.strerror}") from None
        with child:
            try:
                with signals.allowed():
                    _, errors = child.communicate(timeout=seconds)
            except BaseException:
                child.kill()
                raise
    return child.returncode, errors.decode("utf-8", "surrogateescape").strip()


@contextlib.contextmanager
def workspace(prefix: str = "nftrun-tools-") -> Iterator[str]:
    """A folder for what a command writes on its way; TMPDIR says on which disk."""
    with signals.held():
        folder = tempfile.TemporaryDirectory(prefix=prefix)
    try:
        yield folder.name
    finally:
        with signals.held():
            folder.cleanup()
