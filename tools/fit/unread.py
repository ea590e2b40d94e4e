"""Matches of selectors that nftrun doesn't read: what every packet has, or what is assumed of it."""
from __future__ import annotations

from typing import Callable

from toolbox.lexer import Kind

from .assumptions import ASSUMPTIONS
from .connections import IN_ANY_DIRECTION
from .draft import Draft
from .exits import OF_EXITS, WITHOUT
from .facts import BY_ROUTE, FIELD_WIDTHS, KNOWN, MAY_LACK, OPTIONS, OWNERS, Fact, assumption_of, first_word
from .grades import Grade
from .numbers import holds, share
from .tree import Elements, Expression, Mapping, Missing, Named, NotFitted, One, Selector, Value, selectors_in

WITHOUT_OWNER = {"prerouting", "forward", "postrouting", "output"}
MISSING, EXISTS = One(Value(Kind.WORD, "missing")), One(Value(Kind.WORD, "exists"))
YES_NO = (MISSING, EXISTS)


class Unread:
    """Decides matches of what nftrun doesn't read."""

    def __init__(self, draft: Draft) -> None:
        self.draft = draft

    def match(self, name: str, operator: str, right: Expression) -> None:
        fact = self.fact_of(name)
        if isinstance(right, Named):
            right = self.elements_named(right)
        if not is_absence(name, operator, right):
            self.keep_header(name)
        if self.is_certain(name, operator, right):
            return
        if fact is None:
            self.match_unknown(name, operator, right)
            return
        answer = holds(fact.value, operator, right, "32", fact.words)
        assumption = fact.assumption or ("meta" if self.writers(name) else None)
        if answer is None and assumption:
            self.guess_match(assumption, self.usual_answer(assumption, operator), self.known(name, fact.why))
        elif answer is None:
            raise NotFitted("a value that isn't known")
        elif assumption:
            other = None if fact.other is None else holds(fact.other, operator, right, "32", fact.words)
            self.guess_match(assumption, answer, self.known(name, fact.why), other)
        else:
            self.tell_fact(fact, answer)

    def why_never(self, name: str) -> str | None:
        """Why no packet that comes here has what a selector reads, so that no match holds, whatever its operator."""
        hooks = self.draft.chain.hooks
        if name in OWNERS and hooks and hooks <= WITHOUT_OWNER:
            return "a packet that is forwarded is of no process"
        if name in OF_EXITS and hooks - {"output"} and hooks - {"output"} <= WITHOUT:
            return "on prerouting and input no packet has an output interface"
        if (name in BY_ROUTE or first_word(name) in BY_ROUTE) and hooks == {"prerouting"}:
            return "on prerouting no route is known yet"
        return None

    def fact_of(self, name: str) -> Fact | None:
        """What is known of a selector in this ruleset."""
        return None if name == "ct zone" and self.draft.fitter.sets_zones else KNOWN.get(name)

    def tell_fact(self, fact: Fact, answer: bool) -> None:
        to = (fact.needs or "left out, as it always holds") if answer else self.draft.never()
        self.draft.tell(Grade.SAME, to, fact.why)
        if fact.needs:
            self.draft.put(fact.needs)
        if not answer:
            self.draft.die()

    def is_certain(self, name: str, operator: str, right: Expression) -> bool:
        """Whether a match of a field of known width holds for all of its values, or for none, and is decided so."""
        if name not in FIELD_WIDTHS or isinstance(right, Named):
            return False
        part = share(operator, right, str(FIELD_WIDTHS[name]))
        if part == 1:
            self.draft.tell(Grade.SAME, "left out, as it always holds", "for each value of the field")
        elif part == 0:
            self.draft.tell(Grade.SAME, self.draft.never(), "for no value of the field")
            self.draft.die()
        return part in (0, 1)

    def match_unknown(self, name: str, operator: str, right: Expression) -> None:
        """Of a field of known width the numbers for which the match holds tell which answer is the usual one."""
        assumption = assumption_of(name)
        usual = self.usual_answer(assumption, operator)
        if name in FIELD_WIDTHS and not isinstance(right, Named):
            usual = share(operator, right, str(FIELD_WIDTHS[name])) > 0.5
        elif name.startswith(OPTIONS):
            usual = right in YES_NO and (right == MISSING) != (operator in ("!=", "!"))
        self.guess_match(assumption, usual, self.known(name, None))

    def elements_named(self, named: Named) -> Mapping:
        """What a named set has, where no rule adds to it."""
        found = self.draft.table.sets.get(named.name)
        if found is None:
            raise Missing(f"there is no set {named.name}")
        if (self.draft.table.family, self.draft.table.name, named.name) in self.draft.fitter.added_to:
            return named
        return Elements(tuple(self.draft.fitter.sets.kept(found)))

    def keep_header(self, name: str) -> None:
        """The protocol that the match asks for first, or the connection that it reads."""
        if name not in KNOWN or not KNOWN[name].needs:
            self.draft.keep_tests(Selector(name))

    def keep_key(self, *operands: Expression | None) -> None:
        """A key that is read without a match: the rule ends where the packet hasn't what it reads."""
        self.draft.keep_tests(*operands)
        for name in dict.fromkeys(it.name for it in selectors_in(operands)):
            why_never = self.why_never(name)
            if why_never:
                self.draft.tell(Grade.SAME, self.draft.never(), why_never)
                self.draft.die()
                return
            if name.startswith(MAY_LACK):
                self.guess_match(assumption_of(name), False, f"packets have no {name}")

    # what other rules write

    def writers(self, name: str) -> str:
        """The places of the rules that set what a selector reads."""
        return ", ".join(self.draft.fitter.written.get(name, ()))

    def known(self, name: str, why: str | None) -> str | None:
        """What is assumed of a selector, and which rules may make it untrue."""
        writers = self.writers(name)
        if not writers:
            return why
        return f"{why or ASSUMPTIONS[assumption_of(name)].why}, also behind the rules that set it ({writers})"

    # guesses

    @staticmethod
    def usual_answer(assumption: str, operator: str) -> bool:
        """`miss`: the value isn't the one that is named, and below it; `hit`: it is."""
        if assumption == "ct" and operator in ("<", "<="):
            return True
        return (ASSUMPTIONS[assumption].ways[0] == "hit") != (operator in ("!=", "!"))

    def guess_match(self, assumption: str, usual: bool, fact: str | None = None, other: bool | None = None) -> None:
        """A match that nobody can decide: `usual` is its answer by the usual way, `other` that by the other one."""
        way = self.draft.way(assumption)
        is_usual = way == ASSUMPTIONS[assumption].ways[0]
        answer = usual if is_usual else not usual if other is None else other
        to = "always" if answer else self.draft.never()
        self.draft.guess(assumption, way, to, why=reason(assumption, way, fact))
        if not answer:
            self.draft.put(self.draft.never())  # what follows is told all the same

    def match_protocol(self, operator: str, fit: Callable[[], None]) -> None:
        """`ct protocol`: that of the packet, which `fit` asks for, but of an ICMP error that of its connection."""
        way, is_not = self.draft.way("ct"), operator in ("!=", "!")
        why = "assumed: no ICMP error about a connection of another protocol is asked; --assume ct=hit takes the other"
        self.draft.guess("ct", way, "by the packet's own protocol", why=why if way == "miss" else None)
        self.draft.put(IN_ANY_DIRECTION)
        if way == "miss":
            fit()
            return
        self.draft.do_once()
        before = self.draft.lines
        self.draft.put("ct state != related")
        fit()
        if not is_not:
            self.draft.lines += [[*line, self.draft.piece("ct state related")] for line in before]


def reason(assumption: str, way: str, fact: str | None) -> str | None:
    """What is told of a guess where more is known than its assumption alone."""
    usual, other = ASSUMPTIONS[assumption].ways
    return f"assumed: {fact}; --assume {assumption}={other} takes the other" if fact and way == usual else None


def is_absence(name: str, operator: str, right: Expression) -> bool:
    """`tcp option .. missing` holds of other protocols too."""
    return name.startswith("tcp option") and right == (EXISTS if operator in ("!=", "!") else MISSING)
