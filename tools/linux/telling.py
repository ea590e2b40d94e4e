"""A ruleset that tells more: which rules held that decide nothing, and what the ct state was.

A report tells of rules that decide. The ruleset made here has a `log` statement at the end of the others, and a chain
that logs the state as soon as connections are looked for; it decides as before.
"""
from __future__ import annotations

from dataclasses import dataclass
from typing import Iterable, Iterator, Union

from toolbox.lexer import Kind, Token, tokens_of
from toolbox.reports import Decision, Log, event_of, records_of
from toolbox.rulesets import TRANSLATIONS, VERDICTS, statement_words

HELD = "beside-linux: held"
PROBE = "beside_linux_probe"
STATES = ("invalid", "new", "established", "related", "untracked")


@dataclass(frozen=True)
class State:
    """The ct state of a record, as it was logged."""

    word: str


@dataclass(frozen=True)
class Seen:
    """What a report tells of a record: its ct state, where that is logged, and its decisions with the rules that
    held."""

    state: str | None
    decisions: list[Decision]


Event = Union[State, Decision, None]


class RuleEnds:
    """Goes through the tokens of a ruleset; `take` answers the place where a rule that decides nothing ends, before a
    comment of its own."""

    def __init__(self) -> None:
        self.depth, self.in_chain = 0, False
        self.piece: list[Token] = []

    def take(self, token: Token) -> int | None:
        word, place = token.text, None
        is_newline = token.kind is Kind.NEWLINE
        if self.in_chain and self.depth == 2 and (is_newline or word in (";", "}")):
            place, self.piece = end_of_rule(self.piece), []
        elif self.in_chain and self.depth >= 2 and not is_newline:
            self.piece.append(token)
        self.go(word)
        return place

    def go(self, word: str) -> None:
        """Into a block, out of one, or past the word that says what the next one is."""
        if word == "{":
            self.depth += 1
            self.piece = self.piece if self.depth > 2 else []
        elif word == "}":
            self.depth -= 1
            self.in_chain = self.in_chain and self.depth >= 2
        elif self.depth == 1 and word in ("chain", "set", "map"):
            self.in_chain = word == "chain"


def rule_ends(text: str) -> Iterator[int]:
    """Where in a ruleset's text the rules that decide nothing end, before a comment of theirs."""
    ends = RuleEnds()
    for token in tokens_of(text):
        place = ends.take(token)
        if place is not None:
            yield place


def end_of_rule(tokens: list[Token]) -> int | None:
    """The place behind a rule's last statement, or None where it decides, or is no rule."""
    if not tokens or tokens[0].text in ("type", "policy", "comment"):
        return None
    if any(word in VERDICTS + TRANSLATIONS for word in statement_words(tokens)):
        return None
    return end_of_statements(tokens)


def end_of_statements(tokens: list[Token]) -> int:
    """The place behind a rule's last statement, before a comment of its own."""
    if len(tokens) > 2 and tokens[-2].text == "comment" and tokens[-1].kind is Kind.STRING:
        tokens = tokens[:-2]
    return tokens[-1].end


def telling(text: str) -> str:
    """The ruleset with logs that tell which rules held, and of the ct state."""
    pieces, last = [], 0
    for place in rule_ends(text):
        pieces += [text[last:place], f' log prefix "{HELD}"']
        last = place
    states = "\n".join(f'  ct state {state} log prefix "{state}"' for state in STATES)
    return "".join(pieces) + text[last:] + f"""
table inet {PROBE} {{
 chain states {{ type filter hook prerouting priority -199;
{states}
 }}
}}
"""


class Reader:
    """Reads what a report of such a ruleset tells of a record; each line is read once."""

    def __init__(self) -> None:
        self.known: dict[bytes, Event] = {}

    def seen(self, events: Iterable[bytes]) -> Seen:
        state, decisions = None, []
        for event in events:
            if event not in self.known:
                self.known[event] = self.read(event)
            one = self.known[event]
            if isinstance(one, State):
                state = one.word
            elif one is not None:
                decisions.append(one)
        return Seen(state, decisions)

    @staticmethod
    def read(event: bytes) -> Event:
        one = event_of(event)
        if one.chain == f"inet {PROBE} states":
            return State(one.prefix) if isinstance(one, Log) else None
        if isinstance(one, Decision):
            return one
        return Decision(one.chain, one.rule, "continue") if one.prefix == HELD else None


def told_records(report: str) -> Iterator[Seen]:
    """What a report tells of each record."""
    reader = Reader()
    for _, events, _ in records_of(report):
        yield reader.seen(events)
