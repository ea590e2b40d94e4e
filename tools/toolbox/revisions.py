"""A file as git has it at a revision."""
from __future__ import annotations

import os

from toolbox.commands import MOST_READ, Refused
from toolbox.program import run_child


def name_at(revision: str, path: str) -> str:
    """What a file of a revision is called: `main:rules.nft`."""
    return f"{revision}:{path}"


def write_revision(revision: str, path: str, target: str) -> None:
    """Writes the file at `path`, as it is at the revision, to `target`; refused where git has none there."""
    folder, name = os.path.split(path)
    if not revision or revision.startswith("-") or ":" in revision:
        raise Refused(f"{revision}: a revision of git is wanted, as main or HEAD~1")
    words = ["git", "-C", folder or ".", "cat-file", "blob", f"{revision}:./{name}"]
    with open(target, "wb") as file:
        status, errors = run_child(words, file.fileno())
    if status:
        reason = errors.replace("\n", " ") or f"git ended with status {status}"
        raise Refused(f"{name_at(revision, path)}: {reason}")
    if os.path.getsize(target) > MOST_READ:
        raise Refused(f"{name_at(revision, path)}: over {MOST_READ} bytes")
