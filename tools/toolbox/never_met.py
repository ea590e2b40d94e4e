"""Rules that no packet of a run can meet, and why: so that `0 hits` isn't taken for `not needed`."""
from __future__ import annotations

from typing import TYPE_CHECKING, Iterator

from toolbox.lexer import Kind
from toolbox.rulesets import ENDS, OPERATORS, TRANSLATIONS

if TYPE_CHECKING:
    from toolbox.boxes import Box
    from toolbox.rulesets import Chain, Rule, Ruleset

ENTERING, LEAVING, CONNECTION = ("iif", "iifname"), ("oif", "oifname"), "ct"
OWN_PACKETS = "packets of the box itself aren't in a run"


def never_met(ruleset: Ruleset, box: Box | None = None) -> dict[tuple[str, int], str]:
    """By a rule's place the reason why no packet of a run can meet it, as far as its text tells."""
    reasons: dict[tuple[str, int], str] = {}
    ways: dict[str, set[tuple[str | None, bool]]] = {}
    work = [(chain, chain) for chain in ruleset.chains if chain.hook and chain.hook != "output"]
    while work:
        base, chain = work.pop()
        way = base.hook, base.is_early
        if way not in ways.setdefault(chain.name, set()):
            ways[chain.name].add(way)
            is_first = len(ways[chain.name]) == 1
            work += [(base, target) for target in judged(ruleset, base, chain, box, reasons, is_first)]
    for chain in ruleset.chains:
        if chain.name not in ways:
            is_own = chain.hook == "output" or leads_from_output(ruleset, chain)
            reason = f"a chain on output: {OWN_PACKETS}" if is_own else "no chain that is run leads here"
            reasons.update({rule.place: reason for rule in chain.rules})
    return reasons


def judged(ruleset: Ruleset, base: Chain, chain: Chain, box: Box | None, reasons: dict[tuple[str, int], str],
           is_first: bool) -> list[Chain]:
    """Judges the rules of a chain that a base chain leads to, and gives the chains behind. What any way reaches has no
    reason in the end."""
    end: Rule | None = None
    behind: list[Chain] = []
    for rule in chain.rules:
        reason = cannot_hold(rule, base, box)
        if end:
            reason = f"behind line {end.line}, which ends the chain for every packet"
        if reason is None:
            reasons.pop(rule.place, None)
            behind += ruleset.targets(rule)
        elif is_first:
            reasons[rule.place] = reason
        if end is None and ends_for_all(rule):
            end = rule
    return behind


def ends_for_all(rule: Rule) -> bool:
    """Whether the rule is a verdict alone, with counters and logs at most."""
    texts = [token.text for token in rule.tokens]
    while texts[:1] in (["counter"], ["log"]):
        width = {"counter packets": 5, "log prefix": 3}.get(" ".join(texts[:2]), 1)
        texts = texts[width:]
    if texts[-2:-1] == ["comment"]:
        texts = texts[:-2]
    return bool(texts) and (texts[0] in ENDS and len(texts) <= 2 or texts[0] in TRANSLATIONS and "map" not in texts)


def cannot_hold(rule: Rule, base: Chain, box: Box | None) -> str | None:
    """Why a rule can't hold in chains that this base chain leads to, or None."""
    for selector, name in interface_matches(rule):
        if name == "lo" and selector in ENTERING:
            return f"loopback: {OWN_PACKETS}"
        if selector in LEAVING and base.hook in ("prerouting", "input"):
            return f"`{selector}` has no value in {base.hook}"
        if box is not None and selector in ("iifname", "oifname") and name not in box.indices:
            return f"the box file has no interface {name}"
    if base.is_early and reads_connection(rule):
        return "`ct` has no value before connections are looked for"
    return None


def interface_matches(rule: Rule) -> Iterator[tuple[str, str]]:
    """Each selector of an interface that is compared with one name, and that name."""
    tokens = rule.tokens
    for place, token in enumerate(tokens[:-1]):
        if token.kind is not Kind.WORD or token.text not in ENTERING + LEAVING:
            continue
        value = tokens[place + 1]
        if value.text == "==" and place + 2 < len(tokens):
            value = tokens[place + 2]
        name = value.text.strip('"')
        is_one = value.kind in (Kind.WORD, Kind.STRING) and not name.endswith("*")
        if is_one and value.text not in (*OPERATORS, "map", "vmap"):
            yield token.text, name


def reads_connection(rule: Rule) -> bool:
    """Whether a match of the rule asks of the connection; `ct mark set` doesn't."""
    texts = [token.text for token in rule.tokens]
    return any(word == CONNECTION and texts[place + 2:place + 3] != ["set"] for place, word in enumerate(texts))


def leads_from_output(ruleset: Ruleset, wanted: Chain) -> bool:
    """Whether a chain on output leads to this one."""
    return any(wanted.name in ruleset.behind(chain) for chain in ruleset.chains if chain.hook == "output")
