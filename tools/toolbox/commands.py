"""How every command ends, and how text of unknown origin is printed."""
from __future__ import annotations

import argparse
import contextlib
import gc
import io
import os
import re
import signal
import sys
from typing import Callable, Iterable, Iterator, NoReturn

# TORN is nftrun's own status of a capture that ends within a record
DONE, DIFFERS, REFUSED, TORN = 0, 1, 2, 7
BY_SIGNAL = 128  # and the number of the signal that ended a command: 130 is Ctrl-C
# objects behind which unused cycles are looked for: flows live to the end, so a search among them is in vain
MOST_MADE = 100_000
MOST_READ = 16 << 20  # bytes of a ruleset, a box file, a map of rules
LONGEST_LINE = 1000  # of a remark, in characters
ENDED_BY_SIGNALS = """A signal ends it with a status of 128 and the signal's number: 129 (a closed terminal), 130
(Ctrl-C) or 143 (kill). No folder stays then, and no program runs on."""

# Control characters, bytes that aren't UTF-8, and marks that turn the direction of text: a name or a log's prefix
# mustn't steer the terminal that shows it.
UNPRINTABLE = re.compile("[\x00-\x08\x0a-\x1f\x7f-\x9f\u061c\u200e\u200f\u2028-\u202e\u2066-\u2069\ud800-\udfff]")


class Refused(Exception):
    """An input that can't be used; the text says why, in one line."""


def printable(text: str) -> str:
    """The text with what isn't printable as \\xNN or \\uNNNN; tabs stay."""
    return UNPRINTABLE.sub(in_hexadecimal, text)


def in_hexadecimal(match: re.Match[str]) -> str:
    number = ord(match.group())
    if 0xDC80 <= number <= 0xDCFF:  # a byte that wasn't UTF-8
        number -= 0xDC00
    return f"\\x{number:02x}" if number < 256 else f"\\u{number:04x}"


def say(text: str = "") -> None:
    """Prints a line: all that a command says in words goes through here."""
    print(printable(text))


def remark(name: str, text: str) -> None:
    """A line on standard error, of a command called so; what is too long for one is cut."""
    warn(shortened(printable(f"{name}: {text}")))


def is_closed(stream: str) -> bool:
    """Whether the caller closed a standard stream: there is none then."""
    return getattr(sys, stream) is None


def warn(line: str) -> None:
    """A line on standard error, if there is one, behind what was said on standard output before."""
    if not is_closed("__stderr__"):
        if not is_closed("__stdout__"):
            with contextlib.suppress(OSError):
                sys.stdout.flush()
        print(printable(line), file=sys.stderr)


def shortened(line: str) -> str:
    return line if len(line) <= LONGEST_LINE else f"{line[:LONGEST_LINE]} .. ({len(line)} characters)"


class Parser(argparse.ArgumentParser):
    """A parser whose refusals are a line, like all others."""

    def error(self, message: str) -> NoReturn:
        self.exit(REFUSED, shortened(printable(f"{self.prog}: {message}")) + f" (see {self.prog} --help)\n")


def command_line(name: str, description: str) -> argparse.ArgumentParser:
    """A parser of the word `name` behind nftrun that shows `description` as it is written."""
    return Parser(prog=f"nftrun {name}", description=description, epilog=ENDED_BY_SIGNALS,
                  formatter_class=argparse.RawDescriptionHelpFormatter)


# Ending by a signal


class Ended(KeyboardInterrupt):
    """A signal that ends a command, as it clears away what it made."""

    def __init__(self, number: int) -> None:
        super().__init__()
        self.number = number


class Signals:
    """What becomes of signals that end a command: the first one raises Ended, where nothing holds it."""

    def __init__(self) -> None:
        self.holders = 0
        self.came: int | None = None
        self.is_ending = False

    def take(self, number: int, _frame: object) -> None:
        if not self.is_ending:
            self.came = self.came or number
            self.release()

    def release(self) -> None:
        """Raises Ended if a signal came, unless others hold it."""
        if self.came is not None and not self.holders and not self.is_ending:
            self.is_ending = True
            raise Ended(self.came)

    @contextlib.contextmanager
    def held(self) -> Iterator[None]:
        """What has to be done whole or not at all: a signal that comes within is taken behind it."""
        self.holders += 1
        try:
            yield
        finally:
            self.holders -= 1
        self.release()

    @contextlib.contextmanager
    def allowed(self) -> Iterator[None]:
        """A part of what is held that a signal may end."""
        before, self.holders = self.holders, 0
        try:
            self.release()
            yield
        finally:
            self.holders = before


signals = Signals()


def take_signals() -> None:
    """Has the signals that end a command take away what it made; what the caller ignores stays ignored."""
    for number in (signal.SIGINT, signal.SIGTERM, signal.SIGHUP):
        if signal.getsignal(number) != signal.SIG_IGN:
            signal.signal(number, signals.take)


# Ending


def run_command(name: str, command: Callable[[], int]) -> None:
    """Exits with the status that `command` gives, or with one line on standard error and 2 where it refuses."""
    if is_closed("__stdout__"):
        remark(name, "standard output is closed")
        sys.exit(REFUSED)
    for stream in (sys.stdout, sys.stderr):
        if isinstance(stream, io.TextIOWrapper):
            stream.reconfigure(encoding="utf-8", errors="surrogateescape", newline="\n")
    gc.set_threshold(MOST_MADE)
    try:
        take_signals()
        status = command()
        sys.stdout.flush()
    except BrokenPipeError:
        # who reads has seen enough
        status = REFUSED
    except Ended as ended:
        status = BY_SIGNAL + ended.number
    except Exception as error:  # whatever an input leads to, it ends in a line
        remark(name, reason_of(error))
        status = REFUSED
    leave_output()
    sys.exit(status)


def reason_of(error: Exception) -> str:
    """Why a command can't go on, in a line."""
    if isinstance(error, Refused):
        return str(error)
    if isinstance(error, OSError) and error.strerror:
        return ": ".join(filter(None, (error.filename and str(error.filename), error.strerror)))
    if isinstance(error, MemoryError):
        return "out of memory"
    if isinstance(error, RecursionError):
        return "an input is nested too deeply"
    return f"an input can't be used: {type(error).__name__}: {' '.join(str(error).split())}"


def leave_output() -> None:
    """What couldn't be written isn't tried again at the exit."""
    try:
        sys.stdout.flush()
    except OSError:
        os.dup2(os.open(os.devnull, os.O_WRONLY), sys.stdout.fileno())


def read_bytes(path: str, most: int = MOST_READ) -> bytes:
    """A file of text in whole; refused where it is larger than any that a command has a use for."""
    try:
        with open(path, "rb") as file:
            data = file.read(most + 1)
    except OSError as error:
        raise Refused(f"{path}: {error.strerror}") from None
    if len(data) > most:
        raise Refused(f"{path}: over {most} bytes")
    return data


def read_text(path: str) -> str:
    """Strings of a ruleset may hold any bytes, and these come out again as they went in."""
    return read_bytes(path).decode("utf-8", "surrogateescape")


def check_files(paths: Iterable[str]) -> None:
    """Refuses what isn't a regular file: a command reads its files several times, which a pipe can't be."""
    for path in paths:
        if not os.path.exists(path):
            raise Refused(f"{path}: there is no such file")
        if not os.path.isfile(path):
            raise Refused(f"{path}: a regular file is wanted")


def plural(number: int, word: str, words: str | None = None) -> str:
    """1 flow, 2 flows; 1 reply, 2 replies"""
    return f"{number} {word if number == 1 else words or word + 's'}"
