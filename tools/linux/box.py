"""A box file with its lines in order, as the kernel's routes want them."""
from __future__ import annotations

from dataclasses import dataclass

from toolbox.boxes import Box


@dataclass(frozen=True)
class Line:
    """A line that routes come from: of an interface its address, of a route its prefix, both with their length."""

    is_interface: bool
    prefix: str
    name: str


class LabBox(Box):
    """`lines` has what routes come from, in the order of the text; `linux_limits` Linux's own idle limits, when a run
    asked for them."""

    def __init__(self, path: str) -> None:
        self.lines: list[Line] = []
        super().__init__(path)

    def take(self, words: list[str]) -> None:
        super().take(words)
        if words and words[0] == "interface":
            self.lines.append(Line(True, words[3], words[2]))
        elif words and words[0] == "route":
            self.lines.append(Line(False, words[1], words[2]))
