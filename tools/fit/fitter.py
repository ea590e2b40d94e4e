"""The whole ruleset: what of it is left out, what leads where, and the text that it becomes."""
from __future__ import annotations

from dataclasses import dataclass, replace
from typing import TYPE_CHECKING, Callable, Container, Iterable, Iterator

from .facts import CHAIN_HOOKS, LEFT_OUT, MARKS
from .grades import Grade
from .marks import Marks
from .order import Order
from .protocols import Protocols
from .rules import RuleFitter, marks_read
from .scanner import shown
from .sets import Sets
from .statements import RuleReader
from .tree import (
    Chain,
    ChangeOfSet,
    Match,
    NotFitted,
    Rule,
    Selector,
    Setting,
    Table,
    Untracked,
    Verdict,
    VerdictMap,
    What,
    counters_in,
    names_in,
    selectors_in,
)

if TYPE_CHECKING:
    from toolbox.lexer import Token

    from .assumptions import Assumptions
    from .commands import Commands
    from .network import Network
    from .rates.subjects import Subjects


@dataclass(frozen=True)
class FittedRule:
    """Where a rule stands in the fitted text, and the operator's rule that it comes from, with the counters that it has
    of that one."""

    chain: str
    number: int
    old_chain: str
    old_number: int
    rule: Rule
    counters: tuple[int, ...]


def selectors_written(it: What) -> list[str]:
    """What a statement sets."""
    return [it.left.name] if isinstance(it, Setting) else []


def selectors_asked(it: What, unasked: Container[str] = ()) -> list[str]:
    """What a statement reads, but where it writes that into what nothing asks for."""
    parts = (it.operand,) if isinstance(it, Setting) else (it,)
    if isinstance(it, Setting) and it.left.name in unasked and isinstance(it.operand, Selector):
        return []
    return [selector.name for selector in selectors_in(parts)]


class Fitter:
    """Fits all that commands left; `rows` is the map from fitted rules to the operator's."""

    def __init__(
        self, commands: Commands, assumptions: Assumptions, network: Network | None, rates: Subjects | None = None
    ) -> None:
        self.tables, self.changes = commands.tables, commands.changes
        self.assumptions, self.network, self.rates = assumptions, network, rates
        self.order = Order(self, commands.order)
        self.sets = Sets(self)
        self.rows: list[FittedRule] = []

    def run(self) -> str:
        self.leave_out_tables()
        for table in self.tables.values():
            for chain in list(table.chains.values()):
                for number, rule in enumerate(chain.rules, 1):
                    self.read_rule(table, chain, number, rule)
        self.find_hooks()
        self.marks = Marks(self)
        self.warn_of_marks()
        self.added_to = {
            (table.family, table.name, it.what.name)
            for table, _, rule in self.rules()
            for it in rule.statements
            if isinstance(it.what, ChangeOfSet)
        }
        self.sets_zones = any(
            isinstance(it.what, Setting) and it.what.left.name == "ct zone"
            for _, _, rule in self.rules()
            for it in rule.statements
        )
        self.has_untracked = any(
            isinstance(it.what, Untracked) for _, _, rule in self.rules() for it in rule.statements
        )
        self.protocols = Protocols(self)
        self.written = self.places(selectors_written)
        self.asked = self.places_asked()
        self.order.settle()
        if self.rates is not None:
            self.rates.begin(self)
        return "\n".join(self.table_text(table) for table in self.tables.values())

    def rules(self) -> Iterator[tuple[Table, Chain, Rule]]:
        for table in self.tables.values():
            for chain in table.chains.values():
                for rule in chain.rules:
                    yield table, chain, rule

    def places(self, find: Callable[[What], Iterable[str]]) -> dict[str, list[str]]:
        """Of selectors that are found in statements the places of these, each once."""
        found: dict[str, list[str]] = {}
        for _, _, rule in self.rules():
            for it in rule.statements:
                for name in find(it.what):
                    where = self.changes_place(rule.token)
                    found.setdefault(name, [])
                    found[name] += [where] if where not in found[name] else []
        return found

    def places_asked(self) -> dict[str, list[str]]:
        """Of selectors the places where what they read decides something, or is written into what does."""
        unasked, asked = set(self.written) & set(LEFT_OUT), dict[str, list[str]]()
        while True:
            asked = self.places(lambda it: selectors_asked(it, unasked))
            if unasked.isdisjoint(asked):
                return asked
            unasked -= set(asked)

    def leave_out_tables(self) -> None:
        for key, table in list(self.tables.items()):
            what = f"table {table.family} {table.name}"
            bases = [it for it in table.chains.values() if it.head]
            if table.is_dormant:
                self.changes.tell(table.token, Grade.SAME, what, "left out", "it is dormant")
            elif table.family in ("ip6", "arp"):
                self.changes.tell(table.token, Grade.SAME, what, "left out", "it meets no IPv4 packet")
            elif table.family in ("bridge", "netdev") and not any(it.rules or it.policy == "drop" for it in bases):
                self.changes.tell(table.token, Grade.SAME, what, "left out", "it lets everything pass")
            elif table.family in ("bridge", "netdev"):
                self.guess(table.token, what, "left out", "layer2")
            else:
                continue
            del self.tables[key]

    def read_rule(self, table: Table, chain: Chain, number: int, rule: Rule) -> None:
        try:
            rule.statements, rule.comment = RuleReader(rule.tokens).rule()
        except (NotFitted, RecursionError) as fault:
            rule.statements, rule.fault = (
                [],
                str(fault) if isinstance(fault, NotFitted) else "expressions nested too deeply",
            )
        counters = rule.counters_before
        for index, it in enumerate(rule.statements):
            if isinstance(it.what, Verdict) and isinstance(it.what.target, tuple):
                inner = self.named_chain(table, chain, number, rule, it.what, counters)
                rule.statements[index] = replace(it, what=Verdict(it.what.word, inner.name))
            counters += counters_in(it.tokens)

    def named_chain(
        self, table: Table, chain: Chain, number: int, rule: Rule, verdict: Verdict, counters: int
    ) -> Chain:
        """A chain of its own for the rules in braces behind `jump` or `goto`."""
        count = 1
        while f"fitted_{count}" in table.chains:
            count += 1
        inner = Chain(f"fitted_{count}", rule.token)
        inner.made_for = chain.made_for or (chain, number)
        braced = verdict.target if isinstance(verdict.target, tuple) else ()
        inner.rules = [Rule(tokens, shown(tokens), rule.moment) for tokens in braced]
        table.chains[inner.name] = inner
        self.changes.tell(
            rule.token, Grade.SAME, f"{verdict.word} {{ .. }}", f"{verdict.word} {inner.name}", "a chain of its own"
        )
        for index, one in enumerate(inner.rules, 1):
            one.counters_before = counters
            self.read_rule(table, inner, index, one)
            counters += counters_in(one.tokens)
        return inner

    # what leads where

    def targets(self, table: Table, rule: Rule) -> Iterator[str]:
        for it in rule.statements:
            if isinstance(it.what, Verdict) and isinstance(it.what.target, str):
                yield it.what.target
            elif isinstance(it.what, VerdictMap):
                for element in self.sets.elements_of(table, it.what.map):
                    if isinstance(element.data, Verdict) and isinstance(element.data.target, str):
                        yield element.data.target

    def find_hooks(self) -> None:
        """From which hooks packets come to a chain."""
        for table in self.tables.values():
            for base in table.chains.values():
                todo, seen = [base.name] if base.head else [], set()
                while todo:
                    chain = table.chains.get(todo.pop())
                    if chain and chain.name not in seen:
                        seen.add(chain.name)
                        chain.hooks.add(base.base.hook)
                        is_early = self.order.is_early(base)
                        chain.is_early |= is_early
                        chain.is_late |= not is_early
                        for rule in chain.rules:
                            todo += self.targets(table, rule)

    def warn_of_marks(self) -> None:
        if any(self.marks.may_change(name) for name in MARKS):
            return
        for _, _, rule in self.rules():
            if any(isinstance(it.what, (Match, VerdictMap)) and marks_read(it.what.left) for it in rule.statements):
                self.changes.warn(
                    rule.token, "a mark is asked for that no rule writes: in nftrun each mark begins at 0"
                )
                return

    def is_read(self, table: Table, name: str) -> bool:
        """Whether some rule looks into the set."""
        return any(
            not isinstance(it.what, ChangeOfSet) and name in names_in(it.what)
            for other, _, rule in self.rules()
            if other is table
            for it in rule.statements
        )

    def guess(self, token: Token, what: str, to: str, name: str) -> str:
        """A guess about what isn't a rule; NotFitted never: where it is refused, that is told."""
        way = self.assumptions.way(name, self.changes_place(token), what)
        if way == "refuse":
            self.changes.refuse(token, what, f"as asked: {name}=refuse")
        else:
            self.changes.tell(token, Grade.GUESS, what, to, self.assumptions.why(name, way))
        return way

    @staticmethod
    def changes_place(token: Token) -> str:
        return f"{token.source.name}:{token.line}"

    # the text

    def table_text(self, table: Table) -> str:
        for name, it in table.objects.items():
            why = "rules count for themselves" if it.what == "counter" else "what it does is told where rules name it"
            self.changes.tell(it.token, Grade.SAME, f"{it.what} {name}", "left out", why)
        # sets first: what is guessed of their elements decides for the rules that have them
        sets = [line for found in table.sets.values() for line in self.sets.lines(table, found)]
        chains = [line for chain in table.chains.values() for line in self.chain_lines(table, chain)]
        sets += self.rates.lines(table) if self.rates is not None else []
        notes = [f"\tcomment {note}" for note in table.notes]
        body = notes + sets + chains
        while body and not body[-1]:
            body.pop()
        return "\n".join([f"table {table.family} {table.name} {{", *body, "}", ""])

    def chain_lines(self, table: Table, chain: Chain) -> list[str]:
        lines = [f"comment {note}" for note in chain.notes]
        if chain.head:
            try:
                lines += self.head_lines(chain)
            except NotFitted as fault:
                self.changes.refuse(chain.token, f"chain {chain.name}", str(fault))
        place = f"{table.family} {table.name} {chain.name}"
        number = 0
        for old, rule in enumerate(chain.rules, 1):
            made_for = chain.made_for or (chain, old)
            fitted = RuleFitter(self, table, chain, rule).fitted()
            if self.rates is not None:
                self.rates.check_once([text for text, _ in fitted])
            for text, counters in fitted:
                number += 1
                old_chain = f"{table.family} {table.name} {made_for[0].name}"
                self.rows.append(FittedRule(place, number, old_chain, made_for[1], rule, counters))
                lines.append(text)
        return [f"\tchain {chain.name} {{", *("\t\t" + it for it in lines), "\t}", ""]

    def head_lines(self, chain: Chain) -> list[str]:
        head = chain.base
        what = f"chain {chain.name}, type {head.type} hook {head.hook}"
        is_idle = not chain.rules and chain.policy != "drop"
        if head.hook not in CHAIN_HOOKS:
            if is_idle:
                self.changes.tell(chain.token, Grade.SAME, what, "no hook", "it lets everything pass")
            else:
                self.guess(chain.token, what, "no hook", "layer2")
            return []
        if head.type == "nat" and head.hook == "input":
            if is_idle:
                self.changes.tell(chain.token, Grade.SAME, what, "no hook", "it has no rules")
            else:
                self.changes.tell(
                    chain.token,
                    Grade.OUTCOME,
                    what,
                    "no hook",
                    "packets to the box keep their source, and its counters stay; what is forwarded doesn't meet it",
                )
            return []
        kind = head.type
        if kind == "route":
            self.changes.tell(
                chain.token, Grade.SAME, what, f"type filter hook {head.hook}", "nftrun runs no chain of output"
            )
            kind = "filter"
        if kind not in ("filter", "nat"):
            raise NotFitted(f"a chain of type {kind}")
        return [
            f"type {kind} hook {head.hook} priority {self.order.priority_text(chain)};"
            f" policy {chain.policy or 'accept'};"
        ]
