"""Commands run one after the other, each with its files in one folder."""
from __future__ import annotations

import contextlib
import os
import subprocess
from dataclasses import dataclass
from typing import IO, Iterator, Sequence

from toolbox.commands import Refused, signals
from toolbox.outputs import output

TOOLS = os.path.dirname(os.path.dirname(os.path.realpath(__file__)))
SECONDS_TO_END = 10
MOST_LINES = 100_000  # of a step's remarks


@dataclass(frozen=True)
class Done:
    """A step that ended: its status, and the lines that it said on standard error."""

    name: str
    status: int
    remarks: tuple[str, ...]

    @property
    def reason(self) -> str:
        return self.remarks[-1] if self.remarks else f"status {self.status}"


class Steps:
    """Runs commands; their files are in `folder`, what they write on their way below `space`."""

    def __init__(self, program: str, folder: str, space: str) -> None:
        self.program, self.folder, self.space = program, folder, space

    def path(self, name: str) -> str:
        return os.path.join(self.folder, name)

    def tool(self, name: str, words: Sequence[str], told: str | None = None) -> Done:
        """A command of tools/, with what it prints in the file `told` of the folder."""
        return self.run(name, [os.path.join(TOOLS, name), *words], told)

    def run(self, name: str, words: Sequence[str], told: str | None = None) -> Done:
        errors = os.path.join(self.space, "errors")
        with contextlib.ExitStack() as files:
            err = files.enter_context(open(errors, "w+b"))
            out: int | IO[bytes] = subprocess.DEVNULL
            if told is not None:
                out = files.enter_context(open(files.enter_context(output(self.path(told))), "wb"))
            status = ended(words, out, err, {**os.environ, "NFTRUN": self.program, "TMPDIR": self.space})
            err.seek(0)
            lines = err.read().decode("utf-8", "surrogateescape").splitlines()
        return Done(name, status, tuple(line for line in lines[:MOST_LINES] if line.strip()))


def ended(words: Sequence[str], out: int | IO[bytes], err: IO[bytes], known: dict[str, str]) -> int:
    """The status of a command. A signal that ends this one ends it, too, in its own way: it clears away what it
    made."""
    with signals.held():
        try:
            child = subprocess.Popen(words, stdin=subprocess.DEVNULL, stdout=out, stderr=err, env=known)
        except OSError as error:
            raise Refused(f"{words[0]}: {error.strerror}") from None
        with child:
            try:
                with signals.allowed():
                    child.wait()
            except BaseException:
                end(child)
                raise
    return child.returncode


def end(child: subprocess.Popen[bytes]) -> None:
    child.terminate()
    try:
        child.wait(SECONDS_TO_END)
    except subprocess.TimeoutExpired:
        child.kill()


@contextlib.contextmanager
def new_folder(path: str) -> Iterator[str]:
    """A folder for outputs, made if there is none; one that has files is refused, since they would be mixed up with
    those of another time."""
    if os.path.exists(path) and not os.path.isdir(path):
        raise Refused(f"{path}: a folder is wanted")
    try:
        os.makedirs(path, exist_ok=True)
        if os.listdir(path):
            raise Refused(f"{path}: the folder has files already: name a new one")
    except OSError as error:
        raise Refused(f"{path}: {error.strerror}") from None
    yield path
