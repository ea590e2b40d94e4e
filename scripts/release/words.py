"""The words behind `nftrun`: those of the program, and those of the commands in tools/ with the files they need."""
from __future__ import annotations

import ast
from dataclasses import dataclass
from pathlib import Path

PROGRAM_WORDS = ("check", "diff", "explain", "reach", "run")
# What a command reads of the folders of its modules, beside these.
DATA = (".css", ".html", ".js", ".awk", ".json")


@dataclass(frozen=True)
class Tool:
    """A command: its word, and its file in tools/."""

    word: str
    file: str


TOOLS = (
    Tool("align", "align"),
    Tool("annotate", "annotate"),
    Tool("beside-copies", "beside-copies"),
    Tool("beside-linux", "beside-linux"),
    Tool("box-from-ip", "box-from-ip"),
    Tool("compare", "compare-rulesets"),
    Tool("convert", "convert"),
    Tool("diff-packets", "diff-packets"),
    Tool("doctor", "doctor"),
    Tool("fit", "fit-ruleset"),
    Tool("packet", "packet"),
    Tool("page", "page"),
    Tool("reach-packets", "reach-packets"),
    Tool("report-to-json", "report-to-json"),
    Tool("start", "start"),
    Tool("why", "why"),
)


def imported(path: Path, folder: Path) -> set[Path]:
    """The files of tools/ that a file of Python imports. A name may be a module's, or one of what stands in it."""
    found: set[Path] = set()
    for node in ast.walk(ast.parse(path.read_text(encoding="utf-8"))):
        if isinstance(node, ast.Import):
            for alias in node.names:
                found.update(files_of(alias.name, (folder, folder / "html")))
        elif isinstance(node, ast.ImportFrom):
            roots = (path.parents[node.level - 1],) if node.level else (folder, folder / "html")
            for name in (node.module or "", *(f"{node.module or ''}.{alias.name}" for alias in node.names)):
                found.update(files_of(name.strip("."), roots))
    return found


def files_of(name: str, roots: tuple[Path, ...]) -> list[Path]:
    """The files of a dotted name below the first of the roots that has its package: the packages, and the module."""
    parts = name.split(".")
    for root in roots:
        if (root / parts[0]).is_dir() or (root / f"{parts[0]}.py").is_file():
            packages = [root.joinpath(*parts[:n], "__init__.py") for n in range(len(parts) + 1)]
            return [path for path in (*packages, root.joinpath(*parts).with_suffix(".py")) if path.is_file()]
    return []


def is_python(path: Path) -> bool:
    with path.open("rb") as file:
        return path.suffix == ".py" or b"python" in file.readline()


def needed(folder: Path) -> list[Path]:
    """The files of tools/ that the commands need: their own, the modules that these import, and what stands beside them
    to be read. Tests and what only this repository's developers run aren't among them."""
    found: set[Path] = set()
    waiting = [folder / tool.file for tool in TOOLS]
    while waiting:
        path = waiting.pop()
        if path in found:
            continue
        found.add(path)
        if is_python(path):
            waiting.extend(imported(path, folder))
    beside = {it for path in found if path.parent != folder for it in path.parent.iterdir() if it.suffix in DATA}
    return sorted(found | beside)
