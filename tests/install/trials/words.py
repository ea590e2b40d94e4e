"""What each word behind nftrun takes, found by trying, against its help, its man page and its completion."""
from __future__ import annotations

import gzip
import re
from dataclasses import dataclass
from pathlib import Path

from release import helps
from trials.trial import Trial, run
from release.words import PROGRAM_WORDS, TOOLS

WORDS = (*PROGRAM_WORDS, *(tool.word for tool in TOOLS))
# Options of a word of the program with which a command takes its place.
OF_COMMANDS = {"diff": {"--packets"}, "reach": {"--packets"}}
NEVER = "--no-such-option"
# More arguments than any word wants: no file has this name, and nothing is run, since NEVER is refused.
FILES = ("1", "1", "1", "1")
# What argparse, clap and awk say of an option that they don't know.
UNKNOWN = re.compile(
    r"unrecognized arguments:(.*)|unexpected argument '([^']*)'|not an option: (\S+)|unrecognized option '([^']*)'")
NO_VALUE = re.compile(r"ignored explicit argument|unexpected value|unexpected argument|unrecognized")
OPTION = re.compile(r"(?<![\w-])--[a-z][a-z-]*")


@dataclass(frozen=True)
class Installed:
    """What was installed, by its folders."""

    prefix: Path

    @property
    def front(self) -> str:
        return str(self.prefix / "bin/nftrun")

    def manual(self, name: str) -> str:
        """A man page, with its hyphens as they are typed."""
        text = gzip.decompress((self.prefix / f"share/man/man1/{name}.1.gz").read_bytes()).decode()
        return text.replace("\\-", "-").replace("\\fB", "").replace("\\fR", "").replace("\\fI", "")


def refused(front: str, word: str, options: set[str]) -> set[str]:
    """Those of the options that a call with all of them calls unknown: argparse names all, clap and awk the first."""
    told = run([front, word, *sorted(options), *FILES, NEVER]).err
    named = " ".join(" ".join(filter(None, it)) for it in UNKNOWN.findall(told))
    return options & set(OPTION.findall(named))


def takes_value(front: str, word: str, option: str) -> bool:
    """Whether OPTION=1 is understood: the line of the fault then tells of something else."""
    told = run([front, word, f"{option}=1", *FILES, NEVER]).err.splitlines()
    # clap's line, or that of a command
    faults = " ".join(line.replace(NEVER, "") for line in told if line.startswith(("error:", f"nftrun {word}:")))
    return not NO_VALUE.search(faults) or option not in faults


def taken(front: str, word: str, candidates: set[str], listed: set[str]) -> set[str]:
    """Those that a word takes. What its help doesn't list is tried in one call first, since most of that is refused."""
    doubtful = candidates - refused(front, word, candidates - listed)
    return {option for option in doubtful if not refused(front, word, {option})}


def helped(it: Installed, word: str) -> helps.Help:
    return helps.parsed(word, run([it.front, word, "--help"]).out)


def test_options(trial: Trial, it: Installed) -> dict[str, set[str]]:
    """Help against what is taken, for the options of all words; answers what each takes, without --help."""
    told = {word: helped(it, word) for word in WORDS}
    candidates = {option.name for one in told.values() for option in one.options} - {"--help"}
    found: dict[str, set[str]] = {}
    for word, one in told.items():
        trial.expect(run([it.front, "help", word]).status == 0, f"nftrun help {word} fails")
        named = {option.name: option for option in one.options if option.name != "--help"}
        found[word] = taken(it.front, word, candidates - OF_COMMANDS.get(word, set()), set(named))
        trial.same(f"nftrun {word} --help", found[word], set(named))
        for name in sorted(found[word] & set(named)):
            right = takes_value(it.front, word, name) == bool(named[name].takes)
            trial.expect(right, f"nftrun {word} --help says otherwise what {name} takes")
    for word, options in OF_COMMANDS.items():
        for call in ([word, "--help"], ["help", word]):
            told_of = set(OPTION.findall(run([it.front, *call]).out))
            trial.expect(options <= told_of, f"nftrun {' '.join(call)} doesn't tell of {', '.join(sorted(options))}")
    return found


def options_section(page: str) -> str:
    return page.split(".SH OPTIONS", 1)[-1].split(".SH", 1)[0]


def test_manuals(trial: Trial, it: Installed, found: dict[str, set[str]]) -> None:
    for tool in TOOLS:
        page = it.manual(f"nftrun-{tool.word}")
        named = set(re.findall(r"(?m)^\.TP\n(--[a-z-]+)", options_section(page))) - {"--help"}
        trial.same(f"the man page of {tool.word}", found[tool.word], named)
        calls = page.split(".SH SYNOPSIS", 1)[1].split(".SH", 1)[0]
        trial.expect(f"nftrun {tool.word}" in calls, f"the man page of {tool.word} shows no call")
    page = it.manual("nftrun")
    by_word = re.split(r"(?m)^\.br$", page.split(".SH SYNOPSIS", 1)[1].split(".SH", 1)[0])
    for word in PROGRAM_WORDS:
        own = next((call for call in by_word if f"nftrun {word}" in call), "")
        trial.same(f"nftrun {word} in the man page", found[word], set(OPTION.findall(own)))
    described = set(OPTION.findall(options_section(page)))
    trial.expect(set().union(*(found[word] for word in PROGRAM_WORDS)) <= described, "the man page lacks an option")
    for tool in TOOLS:
        trial.expect(f"nftrun {tool.word}\n" in page, f"the man page of nftrun lacks {tool.word}")


def test_layout(trial: Trial, it: Installed) -> None:
    """Whether man and mandoc understand the pages."""
    pages = sorted((it.prefix / "share/man/man1").iterdir())
    if trial.has("man", "the layout of the man pages"):
        for page in pages:
            said = run(["man", "--warnings", "-E", "UTF-8", "-l", "-Tutf8", "-Z", str(page)])
            trial.expect(said.status == 0 and not said.err, f"{page.name}: {said.err.strip()}")
    if trial.has("mandoc", "what mandoc says of the man pages"):
        for page in pages:
            said = run(["mandoc", "-T", "lint", "-W", "warning", str(page)])
            trial.expect(said.status == 0, f"{page.name}: {said.out.strip()}")


def completed_by_bash(it: Installed, words: list[str]) -> set[str]:
    script = '. "$1"; shift; COMP_WORDS=("$@"); COMP_CWORD=$(($# - 1)); _nftrun; printf "%s\\n" "${COMPREPLY[@]}"'
    file = it.prefix / "share/bash-completion/completions/nftrun"
    return set(run(["bash", "-uc", script, "bash", str(file), "nftrun", *words]).out.split())


def completed_by_zsh(it: Installed, words: list[str]) -> set[str]:
    """What its completion gives to zsh's own functions, which want a terminal."""
    script = """fpath=("${1:h}"); shift; words=("$@"); CURRENT=$#
        _arguments() { for it; do case $it in
            \\**:*\\(*) print -l ${=${it#*\\(}%\\)*} ;; \\*:*) ;; *) it=${it#\\*}; print -- ${it%%\\[*} ;; esac; done }
        _describe() { print -l -- ${${(P)2}%%:*} }
        autoload -Uz _nftrun; _nftrun"""
    file = it.prefix / "share/zsh/site-functions/_nftrun"
    return set(run(["zsh", "-fc", script, "zsh", str(file), "nftrun", *words]).out.split())


def completed_by_fish(it: Installed, words: list[str]) -> set[str]:
    file = it.prefix / "share/fish/vendor_completions.d/nftrun.fish"
    line = " ".join(["nftrun", *words])
    said = run(["fish", "--no-config", "-c", f"source {file}; complete -C '{line}'"]).out
    return {row.split("\t")[0] for row in said.splitlines()}


SHELLS = {"bash": completed_by_bash, "zsh": completed_by_zsh, "fish": completed_by_fish}


def test_completion(trial: Trial, it: Installed, found: dict[str, set[str]]) -> None:
    codes = {f"{group}{number}" for group in "EBNP" for number in (*range(1, 20), *(f"{n:02}" for n in range(1, 20)))}
    explained = {code for code in codes if run([it.front, "explain", code]).status == 0}
    for shell, completed in SHELLS.items():
        if not trial.has(shell, "its completion"):
            continue
        first = {word for word in completed(it, [""]) if not word.startswith("-")}
        trial.same(f"completion of words by {shell}", {*WORDS, "help"}, first)
        for word in WORDS:
            given = {name for name in completed(it, [word, "--"]) if name.startswith("--")}
            trial.same(f"completion of {word} by {shell}", found[word] | {"--help"}, given)
        given = {name for name in completed(it, ["explain", ""]) if re.fullmatch(r"[A-Z]\d+", name)}
        trial.same(f"completion of codes by {shell}", explained, given)


def test_words(trial: Trial, it: Installed) -> None:
    listed = set(re.findall(r"(?m)^  ([a-z][a-z-]*)  ?", run([it.front, "--help"]).out))
    trial.same("nftrun --help", {*WORDS, "help"}, {word for word in listed if word != "nftrun"})
    found = test_options(trial, it)
    test_manuals(trial, it, found)
    test_layout(trial, it)
    test_completion(trial, it, found)
    for words in (NEVER, "no-such-word", "", "why", "run"):
        status = run([it.front, *words.split()]).status
        trial.expect(status == 2, f"nftrun {words} ends with {status}")
