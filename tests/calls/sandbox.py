"""A folder in which a program runs, with files, links and terminals, and tests/shared/shim.c before the C library."""
from __future__ import annotations

import array
import fcntl
import os
import select
import shutil
import subprocess
import termios
import time
from dataclasses import dataclass
from typing import Callable, Mapping, Sequence

from files import contents, store
from terminals import Ends, all_of, pipe, terminal


@dataclass(frozen=True)
class Given:
    """What a run of the program gave: its status, its outputs, and the lines of its calls."""

    status: int
    printed: str
    errors: str
    notes: str


def yielding() -> Ends:
    """A terminal that ends for its reader where nothing waits."""
    ends = terminal()
    setting = termios.tcgetattr(ends.far)
    setting[6][termios.VMIN] = setting[6][termios.VTIME] = 0
    termios.tcsetattr(ends.far, termios.TCSANOW, setting)
    return ends


def waiting(far: int) -> int:
    """How many bytes a terminal has for its reader."""
    count = array.array("i", [0])
    fcntl.ioctl(far, termios.FIONREAD, count)
    return count[0]


class Sandbox:
    """A program and the folder in which it runs."""

    def __init__(self, program: str, shim: str, top: str) -> None:
        self.program, self.shim = program, shim
        self.folder, self.beside = f"{top}/files", f"{top}/beside"
        self.terminal: Ends | None = None

    def path(self, name: str) -> str:
        return f"{self.beside}/printed" if name == "/dev/stdout" else f"{self.folder}/{name}"

    def fill(self, files: Mapping[str, bytes]) -> None:
        """Has these files, by their names, and no others."""
        for folder in (self.folder, self.beside):
            shutil.rmtree(folder, ignore_errors=True)
            os.mkdir(folder)
        for name, data in {"/dev/stdout": b"", **files}.items():
            store(self.path(name), data)

    def held(self) -> dict[str, bytes]:
        """What the regular files hold, by their names."""
        paths = {name: self.path(name) for name in os.listdir(self.folder)}
        return {name: contents(path) for name, path in paths.items() if os.path.isfile(path)}

    def join(self, one: str, other: str, link: Callable[[str, str], None]) -> None:
        """Makes two paths one file."""
        os.unlink(self.path(one))
        link(self.path(other), self.path(one))

    def join_to_terminal(self, names: Sequence[str]) -> None:
        """Makes these paths one terminal, which has for its reader what IN had, if that is among them."""
        self.terminal = yielding()
        data = contents(self.path("in")) if "in" in names else b""
        os.write(self.terminal.near, data)
        end = time.monotonic() + 10
        while waiting(self.terminal.far) < len(data) and time.monotonic() < end:
            time.sleep(0.001)
        for name in names:
            os.unlink(self.path(name))
            os.symlink(os.ttyname(self.terminal.far), self.path(name))

    def taken(self, count: int) -> bytes:
        """What was written to that terminal, which is closed; so many bytes are waited for."""
        if self.terminal is None:
            return b""
        data = b""
        while select.select([self.terminal.near], [], [], 10 if len(data) < count else 0.05)[0]:
            data += os.read(self.terminal.near, 65_536)
        os.close(self.terminal.near)
        os.close(self.terminal.far)
        return data

    def call(self, words: Sequence[str], setting: Mapping[str, str] | None = None,
             is_on_terminal: bool = False) -> Given:
        """Runs the program with these words; standard output is a file, and standard error a terminal or a pipe."""
        notes = f"{self.beside}/notes"
        store(notes, b"")
        environment = {"LD_PRELOAD": self.shim, "NOTE_CALLS": notes, **(setting or {})}
        ends = yielding() if is_on_terminal else pipe()
        with open(self.path("/dev/stdout"), "r+b") as output:
            # The program calls itself what it is called by.
            child = subprocess.Popen(
                [b"nftrun", *(os.fsencode(word).replace(b"<FF>", b"\xff") for word in words)], executable=self.program,
                cwd=self.folder, env=environment, stdin=subprocess.DEVNULL, stdout=output, stderr=ends.far)
        os.close(ends.far)
        errors = all_of(ends.near).decode("utf-8", "replace")
        status = child.wait()
        printed = contents(self.path("/dev/stdout")).decode("utf-8", "replace")
        return Given(status, printed, errors, contents(notes).decode())
