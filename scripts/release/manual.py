"""Man pages of the commands, from what their --help says; the program's own is docs/nftrun.1."""
from __future__ import annotations

import re

from release.helps import Help, Named

QUOTED = re.compile(r"`([^`]+)`")


def escaped(text: str) -> str:
    """A text as roff prints it: hyphens as they are typed, and nothing taken for a request."""
    text = text.replace("\\", "\\e").replace("-", "\\-")
    return "\\&" + text if text[:1] in (".", "'") else text


def prose(text: str) -> str:
    """A paragraph, each of its sentences on a line, with what stands between backquotes in bold."""
    joined = " ".join(text.split())
    sentences = re.split(r"(?<=[a-z)`][.:;]) (?=[A-Z`0-9-])", joined)
    return "\n".join(QUOTED.sub(r"\\fB\1\\fR", escaped(it)) for it in sentences) + "\n"


def shown(text: str) -> str:
    """Lines that stand as they are written."""
    lines = text.splitlines()
    margin = min(len(line) - len(line.lstrip()) for line in lines if line.strip())
    return ".nf\n" + "".join(f"{escaped(line[margin:])}\n" for line in lines) + ".fi\n"


def is_shown(text: str) -> bool:
    return all(line.startswith("  ") for line in text.splitlines() if line)


def blocks_of(paragraph: str) -> list[str]:
    """A paragraph's runs of indented lines and of others."""
    runs: list[list[str]] = []
    for line in paragraph.splitlines():
        if not runs or line.startswith("  ") != runs[-1][0].startswith("  "):
            runs.append([])
        runs[-1].append(line)
    return ["\n".join(run) for run in runs]


def synopsis(of: Help) -> tuple[str, list[str]]:
    """How it is called, and the paragraphs that are left: the first that shows calls is the synopsis."""
    calls, left = "", list[str]()
    for paragraph in of.paragraphs[1:]:
        if not calls and is_shown(paragraph) and f"nftrun {of.word}" in paragraph:
            calls = paragraph
        else:
            left.append(paragraph)
    return calls or "  " + of.usage.replace("[-h] ", ""), left


def entry(it: Named) -> str:
    takes = f" \\fI{escaped(it.takes)}\\fR" if it.takes else ""
    return f".TP\n\\fB{escaped(it.name)}\\fR{takes}\n{prose(it.text)}"


def sections(of: Help) -> list[tuple[str, str]]:
    calls, left = synopsis(of)
    first = of.paragraphs[0] if of.paragraphs else of.summary
    described = [first, *left, *of.ending]
    body = ".PP\n".join(
        "".join(shown(it) if is_shown(it) else prose(it) for it in blocks_of(paragraph)) for paragraph in described)
    named = [it for it in of.arguments if it.text]
    return [
        ("NAME", f"nftrun\\-{escaped(of.word)} \\- {escaped(of.summary.rstrip(':'))}\n"),
        ("SYNOPSIS", shown(calls)),
        ("DESCRIPTION", body),
        ("ARGUMENTS", "".join(entry(it) for it in named)),
        ("OPTIONS", "".join(entry(it) for it in of.options)),
        ("ENVIRONMENT", ".TP\n.B NFTRUN\nThe program that is run, instead of the installed one.\n"),
        ("SEE ALSO", ".BR nftrun (1)\n"),
    ]


def page(of: Help, version: str, date: str) -> str:
    """The man page of a word, as nftrun-WORD.1."""
    head = f'.TH NFTRUN\\-{escaped(of.word.upper())} 1 {date} "nftrun {version}" "User Commands"\n'
    return head + "".join(f".SH {title}\n{text}" for title, text in sections(of) if text)
