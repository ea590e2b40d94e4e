"""Pairs of rulesets drawn by chance, the same for the same seed: one drawn as drawn.py does, smaller, and one made of
it by one change or two, or by none that does anything."""
from __future__ import annotations

import random
from dataclasses import replace
from typing import Sequence

from drawn import TableDrawing, WrittenChain, WrittenTable
from judging import judging
from mutating import Changed, Mutating
from near import StageDrawing
from reading import Chain, Head, Rule, Verdict, Word
from refactoring import Refactoring
from rewriting import RulesetPair, Written
from told_diff import Differences

# How many consecutive rules are drawn alike.
MOST_RULES = (3, 4, 5, 8)
MOST_TRIES, FACTS = 4, 3
KINDS = ("change", "change", "change", "changes", "changes", "planted", "planted", "nothing", "respelled")


def table_of(dice: random.Random, name: str, is_translating: bool) -> WrittenTable:
    drawing = TableDrawing(dice, name, is_translating)
    drawing.most_rules = drawing.one(*MOST_RULES)
    return drawing.drawn()


def assumption(dice: random.Random) -> WrittenTable:
    """A ruleset of one filter chain."""
    drawing = TableDrawing(dice, "assumed", False)
    drawing.is_sparse = drawing.chance(30)
    rules = [Rule([drawing.first(drawing.selector()), Verdict(drawing.one(Word.ACCEPT, Word.DROP))])
             for _ in range(1 + drawing.below(3))]
    policy = drawing.one(Word.ACCEPT, Word.DROP)
    chain = Chain("only", rules, Head("forward", "filter", 0, policy))
    head = f"type filter hook forward priority 0; policy {policy.value};"
    return WrittenTable("inet", "assumed", [WrittenChain(chain, head)], drawing.declared)


def paired(seed: int) -> RulesetPair:
    """The pair of a seed; of each fifth with an assumption."""
    dice = random.Random(f"pair {seed}")
    found = pair_by(dice, is_translating=seed % 3 == 0)
    return replace(found, assumed=assumption(dice)) if seed % 5 == 0 else found


def pair_by(dice: random.Random, is_translating: bool) -> RulesetPair:
    """A pair."""
    names = dice.choice((("t",), ("t",), ("t", "u")))
    old: Written = tuple(table_of(dice, name, is_translating) for name in names)
    mutating, refactoring = Mutating(dice, is_translating), Refactoring(dice, is_translating)
    kind = mutating.one(*KINDS)
    if kind == "planted":
        old, made = refactoring.planted(old)
        changes = [made]
    elif kind == "respelled":
        changes = [refactoring.respelled(old)]
    elif kind == "nothing":
        changes = [mutating.nothing(old)]
    else:
        return changed_pair(mutating, old, 2 if kind == "changes" else 1)
    return pair_of(old, changes)


def pair_of(old: Written, changes: Sequence[Changed]) -> RulesetPair:
    return RulesetPair(old, changes[-1].written, [one.what for one in changes], all(one.is_same for one in changes))


def changed_pair(mutating: Mutating, old: Written, count: int) -> RulesetPair:
    """A pair by so many changes: mostly the first of some by which one of few facts differs, if there is one."""
    for _ in range(MOST_TRIES if mutating.chance(67) else 0):
        pair = pair_of(old, changed_by(mutating, old, count))
        drawing = StageDrawing(mutating.dice, mutating.has_few)
        if not pair.is_same and judging(pair, Differences(), drawing).judged(FACTS).differ:
            return pair
    return pair_of(old, changed_by(mutating, old, count))


def changed_by(mutating: Mutating, written: Written, count: int) -> list[Changed]:
    """So many changes, one after another."""
    changes: list[Changed] = []
    for _ in range(count):
        changes.append(mutating.mutated(changes[-1].written if changes else written))
    return changes
