"""The one way in which a command writes a file that it was given: beside its place, and there when it is whole."""
from __future__ import annotations

import contextlib
import os
import stat
from typing import Iterable, Iterator

from toolbox.commands import Refused, signals


def check_output(path: str, inputs: Iterable[str | None]) -> None:
    """Refuses an output that is an input, under whichever name or by a link, or a folder; before anything is done."""
    if os.path.isdir(path):
        raise Refused(f"{path}: a folder, where a file is to be written")
    for one in inputs:
        if one is not None and os.path.exists(path) and os.path.exists(one) and os.path.samefile(path, one):
            raise Refused(f"{path}: it is an input, too ({one}), and would be lost")


@contextlib.contextmanager
def output(path: str) -> Iterator[str]:
    """The path of a file to be written instead of `path`, which takes its place if nothing is raised; else it is gone,
    and what stood at `path` is as it was. What is no regular file, as /dev/null, is written as it is."""
    place = os.path.realpath(path)
    mode = os.stat(place).st_mode if os.path.exists(place) else None
    if mode is not None and not stat.S_ISREG(mode):
        yield path
        return
    part = os.path.join(os.path.dirname(place), f".{os.path.basename(place)[:200]}.{os.getpid()}.part")
    try:
        os.close(os.open(part, os.O_WRONLY | os.O_CREAT | os.O_EXCL, 0o666))
        if mode is not None:
            os.chmod(part, stat.S_IMODE(mode))
        yield part
        with signals.held():
            os.replace(part, place)
    finally:
        with signals.held(), contextlib.suppress(FileNotFoundError):
            os.unlink(part)
