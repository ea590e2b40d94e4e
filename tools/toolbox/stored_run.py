"""Whether a stored report is of the run that it is taken for: as a digest beside it says, or as a run once more shows.

The digest of FILE is FILE.run, a line of JSON with the SHA-256 of the report and of what ran, in hexadecimal:

  {"run": 1, "report": "..", "rules": "..", "box": "..", "in": ".."}
"""
from __future__ import annotations

import hashlib
import json
import os
from itertools import zip_longest

from toolbox.commands import Refused, read_text, shortened
from toolbox.outputs import output

VERSION = 1
CHUNK = 1 << 20


def digest_path(report: str) -> str:
    return report + ".run"


def digest_of(path: str) -> str:
    digest = hashlib.sha256()
    try:
        with open(path, "rb") as file:
            while chunk := file.read(CHUNK):
                digest.update(chunk)
    except OSError as error:
        raise Refused(f"{path}: {error.strerror}") from None
    return digest.hexdigest()


def write_digest(report: str, rules: str, box: str, capture: str) -> None:
    """Writes beside a report what it is of."""
    files = {"report": report, "rules": rules, "box": box, "in": capture}
    told: dict[str, int | str] = {"run": VERSION}
    told.update((name, digest_of(path)) for name, path in files.items())
    with output(digest_path(report)) as written, open(written, "w", encoding="ascii") as file:
        print(json.dumps(told), file=file)


def has_digest(report: str, rules: str, box: str | None, capture: str | None) -> bool:
    """Whether a digest stands beside a report; refused where it is of another one, or of a run of other files."""
    path = digest_path(report)
    if not os.path.exists(path):
        return False
    try:
        told = json.loads(read_text(path))
    except (ValueError, RecursionError):
        told = None
    if not isinstance(told, dict) or told.get("run") != VERSION:
        raise Refused(f"{path}: it is no digest of a run, or one of another version")
    for name, given in (("report", report), ("rules", rules), ("box", box), ("in", capture)):
        if given is not None and told.get(name) != digest_of(given):
            raise Refused(f"{given}: it isn't {'the report' if name == 'report' else 'what ran'}, by {path}")
    return True


def check_same(report: str, again: str, rules: str) -> None:
    """Refuses a report that isn't the one of a run made again, line by line."""
    with open(report, "rb") as old, open(again, "rb") as new:
        for number, (line, other) in enumerate(zip_longest(old, new), 1):
            if line != other:
                told = "nothing more" if line is None else f"`{line.decode('utf-8', 'surrogateescape').rstrip()}`"
                wanted = "nothing more" if other is None else f"`{other.decode('utf-8', 'surrogateescape').rstrip()}`"
                raise Refused(f"{report}: it isn't of a run of {rules} over these files: its line {number} is "
                              f"{shortened(told)}, and a run gives {shortened(wanted)}")
