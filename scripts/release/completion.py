"""Completion for bash, zsh and fish, from what --help of each word says."""
from __future__ import annotations

import re
from pathlib import Path

from release.helps import Help, Named

ROW = re.compile(r'^\s*code: "([A-Z]\d+)",$', re.M)
GRADES = ("same", "outcome", "guess")
FIRST = ("--help", "--version")


def codes_of(top: Path) -> tuple[str, ...]:
    """The codes that `nftrun explain` knows."""
    return tuple(ROW.findall((top / "crates/explanations/src/table.rt").read_text(encoding="utf-8")))


def values_of(option: Named) -> tuple[str, ...] | None:
    """The words that an option takes; none where it is a file, None where it takes nothing."""
    if not option.takes:
        return None
    if option.takes.startswith("{"):
        return tuple(option.takes.strip("{}").split(","))
    return GRADES if option.name == "--at-most" else ()


def valued_rows(helps: tuple[Help, ...]) -> str:
    """For bash, the words behind each option that takes some."""
    known = {option.name: values for it in helps for option in it.options for values in [values_of(option)] if values}
    return "".join(f"\t{name}) options='{' '.join(values)}' ;;\n" for name, values in sorted(known.items()))


def for_bash(helps: tuple[Help, ...], codes: tuple[str, ...]) -> str:
    words = " ".join((*(it.word for it in helps), "help", *FIRST))
    rows = "".join(f"\t{it.word}) options='{' '.join(o.name for o in it.options)}' ;;\n" for it in helps)
    return f"""# Completion of nftrun for bash: words, options, codes and files. scripts/install wrote it.
_nftrun() {{
	local word=${{COMP_WORDS[COMP_CWORD]}} before=${{COMP_WORDS[COMP_CWORD - 1]}} subcommand=${{COMP_WORDS[1]-}} options=
	if [ "$COMP_CWORD" -eq 1 ]; then
		mapfile -t COMPREPLY < <(compgen -W '{words}' -- "$word")
		return
	fi
	case $subcommand in
{rows}\thelp) options='{' '.join(it.word for it in helps)}' ;;
	esac
	case $before in
{valued_rows(helps)}	*) before= ;;
	esac
	if [ -n "$before" ]; then
		:
	elif [ "$subcommand" = explain ] && [[ $word != -* ]]; then
		options='{' '.join(codes)}'
	elif [ "$subcommand" != help ] && [[ $word != -* ]]; then
		mapfile -t COMPREPLY < <(compgen -f -- "$word")
		return
	fi
	mapfile -t COMPREPLY < <(compgen -W "$options" -- "$word")
}}
complete -o filenames -F _nftrun nftrun
"""


def zsh_text(text: str) -> str:
    return re.sub(r"([\[\]:\\])", r"\\\1", text).replace("'", "'\\''")


def zsh_option(option: Named) -> str:
    values = values_of(option)
    again = "*" if "may be repeated" in option.text or option.name in ("--assume", "--set") else ""
    head = f"{again}{option.name}[{zsh_text(option.text)}]"
    if values is None:
        return f"'{head}'"
    return f"'{head}:{option.takes.split('=')[0].lower()}:{'(' + ' '.join(values) + ')' if values else '_files'}'"


def for_zsh(helps: tuple[Help, ...], codes: tuple[str, ...]) -> str:
    words = "".join(f"\t\t'{it.word}:{zsh_text(it.summary)}'\n" for it in helps)
    rows = ""
    for it in helps:
        rest = f"'*:code:({' '.join(codes)})'" if it.word == "explain" else "'*:file:_files'"
        rows += f"\t{it.word}) _arguments {' '.join(map(zsh_option, it.options))} {rest} ;;\n"
    names = " ".join(it.word for it in helps)
    return f"""#compdef nftrun
# Completion of nftrun for zsh: words, options, codes and files. scripts/install wrote it.
_nftrun() {{
	local -a commands
	commands=(
{words}\t\t'help:tells what a word does' '--help:tells all words' '--version:tells what the program is'
	)
	if (( CURRENT == 2 )); then
		_describe command commands
		return
	fi
	shift words
	(( CURRENT -= 1 ))
	case $words[1] in
{rows}\thelp) _arguments '*:word:({names})' ;;
	esac
}}
_nftrun "$@"
"""


def fish_text(text: str) -> str:
    return "'" + text.replace("\\", "\\\\").replace("'", "\\'") + "'"


def for_fish(helps: tuple[Help, ...], codes: tuple[str, ...]) -> str:
    lines = ["# Completion of nftrun for fish: words, options, codes and files. scripts/install wrote it."]
    lines += [f"complete -c nftrun -f -n __fish_use_subcommand -a {it.word} -d {fish_text(it.summary)}" for it in helps]
    lines.append("complete -c nftrun -f -n __fish_use_subcommand -a help -d 'tells what a word does'")
    lines.append("complete -c nftrun -n __fish_use_subcommand -l version -d 'tells what the program is'")
    lines.append("complete -c nftrun -l help -d 'show this help'")
    names = " ".join(it.word for it in helps)
    lines.append(f"complete -c nftrun -f -n '__fish_seen_subcommand_from help' -a '{names}'")
    for it in helps:
        at = f"complete -c nftrun -n '__fish_seen_subcommand_from {it.word}'"
        if it.word == "explain":
            lines.append(f"{at} -f -a '{' '.join(codes)}'")
        for option in it.options[:-1]:
            values = values_of(option)
            takes = "" if values is None else f" -x -a '{' '.join(values)}'" if values else " -r"
            lines.append(f"{at} -l {option.name[2:]} -d {fish_text(option.text)}{takes}")
    return "\n".join(lines) + "\n"
