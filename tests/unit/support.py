"""What the unit tests share: the path to the tools, files of their own, and a stand-in for nftrun."""
from __future__ import annotations

import base64
import io
import pathlib
import sys
import tempfile
import unittest
from typing import Sequence

TOP = pathlib.Path(__file__).resolve().parent.parent.parent
sys.path[:0] = [str(TOP / "tools"), str(TOP / "tests/shared")]

from toolbox.captures import LINK_LENGTHS, LINUX_SLL2, SENT_BY_US, TO_US, records, sll2_header  # noqa: E402
from toolbox.captures import write_header, write_record  # noqa: E402
from toolbox.packets import tuple_at  # noqa: E402

BOX = """interface 2 lan 192.168.1.1/24
interface 3 wan 203.0.113.1/24
route 0.0.0.0/0 wan
default lan
"""
LAN, WAN = 2, 3
LINK = LINK_LENGTHS[LINUX_SLL2]


class FilesCase(unittest.TestCase):
    """A test with a folder of its own."""

    def setUp(self) -> None:
        folder = tempfile.TemporaryDirectory()
        self.addCleanup(folder.cleanup)
        self.folder = pathlib.Path(folder.name)

    def file(self, name: str, content: str | bytes) -> str:
        """Writes a file, and gives its path."""
        path = self.folder / name
        path.write_bytes(content if isinstance(content, bytes) else content.encode("utf-8", "surrogateescape"))
        return str(path)

    def capture(self, name: str, text: str) -> str:
        """A capture of made_elsewhere as a file."""
        return self.file(name, base64.b64decode(text))


def capture_of(frames: Sequence[tuple[float, int, int, bytes]]) -> bytes:
    """A capture of LINUX_SLL2 of (second, interface, packet type, packet)."""
    file = io.BytesIO()
    write_header(file)
    for moment, interface, kind, packet in frames:
        write_record(file, int(moment * 10**9), sll2_header(interface, kind) + packet)
    return file.getvalue()


def masquerade(_program: str, rules: str, _box: str, capture: str, leaving: str, report: str,
               trace: bool = True) -> bool:
    """Stands in for a run: a router that masquerades hosts of lan, lets answers of their flows in, and keeps ports. It
    drops all where the ruleset is called so."""
    inside: dict[bytes, bytes] = {}  # by what answers a tuple outside the end inside
    lines: list[str] = []
    with open(leaving, "wb") as out:
        write_header(out)
        for number, _, _, _, _, _, data in records(capture):
            outcome = "link"
            key = tuple_at(data, LINK) if data[10] == TO_US and data[:2] == b"\x08\x00" else None
            if key is not None and data[7] == LAN and not rules.endswith("drops-all.nft"):
                inside[key[4:8] + bytes((203, 0, 113, 1)) + key[10:12] + key[8:10] + key[12:]] = key[:4]
                outcome = "passed"
                write_record(out, 0, sll2_header(WAN, SENT_BY_US) + data[LINK:LINK + 12] + bytes((203, 0, 113, 1))
                             + data[LINK + 16:])
            elif key is not None and key in inside:
                outcome = "passed"
                write_record(out, 0, sll2_header(LAN, SENT_BY_US) + data[LINK:LINK + 16] + inside[key]
                             + data[LINK + 20:])
            elif key is not None:
                outcome = "rule"
                lines.append(f"trace {number} inet filter input policy drop")
            lines.append(f"trace {number} outcome {outcome}")
    with open(report, "w", encoding="ascii") as file:
        file.write("\n".join(lines) + "\n")
    return False
