"""A tarball of a release: the same bytes from the same files, whoever packs them."""
from __future__ import annotations

import gzip
import io
import tarfile

from release.layout import Entry


def folders_of(entries: list[Entry]) -> list[str]:
    """The folders above the files, each once, outer ones first."""
    found: dict[str, None] = {}
    for entry in entries:
        parts = entry.path.split("/")[:-1]
        for n in range(1, len(parts) + 1):
            found["/".join(parts[:n])] = None
    return sorted(found)


def header(name: str, mode: int, time: int) -> tarfile.TarInfo:
    it = tarfile.TarInfo(name)
    it.mode, it.mtime, it.uname, it.gname = mode, time, "root", "root"
    return it


def tarball(entries: list[Entry], top: str, time: int) -> bytes:
    """The files below a folder named `top`, compressed by gzip."""
    written = io.BytesIO()
    with tarfile.open(fileobj=written, mode="w", format=tarfile.USTAR_FORMAT) as tar:
        for name in ("", *folders_of(entries)):
            folder = header(f"{top}/{name}".rstrip("/"), 0o755, time)
            folder.type = tarfile.DIRTYPE
            tar.addfile(folder)
        for entry in entries:
            file = header(f"{top}/{entry.path}", entry.mode, time)
            file.size = len(entry.content)
            tar.addfile(file, io.BytesIO(entry.content))
    return gzip.compress(written.getvalue(), 9, mtime=0)
