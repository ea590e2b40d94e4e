"""Statements that count, tell or bound, verdicts, and what ends a rule."""
from __future__ import annotations

from dataclasses import replace
from typing import Sequence

from toolbox.lexer import Kind

from .draft import Draft
from .dynamic import Dynamic
from .facts import NEVER_IN_IPV4, first_word
from .grades import Grade
from .maps import Maps
from .matches import Matches
from .profile import takes
from .sets import verdict_text
from .tree import (
    ChangeOfSet,
    Counter,
    Element,
    Elements,
    Expression,
    Joined,
    LeftOut,
    Log,
    Lookup,
    Match,
    Missing,
    NotFitted,
    Reject,
    Selector,
    Verdict,
    selectors_in,
)


class Effects:
    """Fits statements that count, tell or bound, and those that end a rule."""

    def __init__(self, draft: Draft, matches: Matches, maps: Maps) -> None:
        self.draft, self.matches, self.maps = draft, matches, maps
        self.dynamic = Dynamic(draft)

    # verdicts

    def fit_verdict(self, verdict: Verdict) -> None:
        if verdict.target is not None and verdict.target not in self.draft.table.chains:
            raise Missing(f"there is no chain {verdict.target}")
        if verdict.word == "continue" and not self.draft.is_last():
            self.draft.tell(Grade.SAME, "left out", "a packet goes on in the rule")
            return
        self.draft.put(verdict_text(verdict), "end")

    def test_of_reject(self) -> None:
        """What `reject` asks of the packet is asked first, before any counter: so nft(8) orders it."""
        for it in self.draft.rule.statements:
            if not isinstance(it.what, Reject):
                continue
            self.draft.found = it
            if it.what.words[:1] == ("icmpv6",):
                self.draft.tell(Grade.SAME, self.draft.never() + " in front", "it is for IPv6 packets alone")
                self.draft.die()
            elif it.what.words == ("tcp", "reset") and not self.asks_for_tcp():
                self.draft.tell(Grade.SAME, "meta l4proto tcp in front", "nft(8) tests for TCP first")
                self.draft.put("meta l4proto tcp")

    def asks_for_tcp(self) -> bool:
        """Whether the matches before all else ask for TCP anyway."""
        return any(
            isinstance(it, Match) and any(first_word(one.name) == "tcp" for one in selectors_in(it.left))
            for it in self.draft.leading_matches()
        )

    def fit_reject(self, *_: str) -> None:
        why = "the packet is dropped as well; the answer isn't shown, nor what it counts in postrouting"
        self.draft.tell(Grade.OUTCOME, "drop", why)
        self.draft.put("drop", "end")

    def fit_queue(self) -> None:
        way = self.draft.way("queue")
        self.draft.guess("queue", way, way)
        self.draft.put(way, "end")

    # what counts and tells

    def fit_counter(self, counter: Counter) -> None:
        packets, size = counter.packets, counter.size
        stands = self.draft.statement_text() if isinstance(self.draft.statement.what, Counter) else ""
        anew = f"counter packets {packets} bytes {size}" if packets or size else "counter"
        self.count(stands if takes(stands, "statement") else anew)

    def count(self, text: str) -> None:
        self.draft.counters += 1
        self.draft.put(text, "effect", (), self.draft.counters)

    def fit_object(self, what: str, named: str | Expression) -> None:
        if isinstance(named, Lookup):
            self.object_by_map(what, named)
        elif what != "counter" or not isinstance(named, str):
            raise NotFitted(f"`{self.draft.statement_line()}` isn't understood")
        else:
            start = self.start_of(named)
            self.draft.tell(Grade.SAME, "counter", f"the counter {named} is the sum of the counters of its rules")
            self.fit_counter(start)

    def object_by_map(self, what: str, lookup: Lookup) -> None:
        """An object that a map gives: the rule goes on where the map has the key."""
        if what != "counter":
            raise NotFitted(f"{what} by a map")
        self.draft.tell(
            Grade.OUTCOME,
            "left out",
            "which counter of the map it is isn't shown; keys that it hasn't end the rule as before",
        )
        elements, _ = self.maps.mapping(lookup.map, verdicts=False)
        self.find_key(lookup.key, elements)

    def start_of(self, name: str) -> Counter:
        """Where a named counter starts; the first rule that names it starts there."""
        found = self.draft.table.objects.get(name)
        if found is None or found.what != "counter":
            raise Missing(f"there is no counter {name}")
        numbers = [int(it.text) for it in found.body if it.kind is Kind.NUMBER]
        self.draft.table.objects[name] = replace(found, body=())
        return Counter(*numbers[:2]) if len(numbers) >= 2 else Counter(0, 0)

    def fit_log(self, log: Log) -> None:
        """Of the options of `log` nftrun has the prefix."""
        options = dict(log.options)
        others = [name for name in options if name != "prefix"]
        prefix = options["prefix"][0] if "prefix" in options else None
        if prefix is not None and not prefix.startswith('"'):
            prefix = f'"{prefix}"'
        text = "log" + (f" prefix {prefix}" if prefix is not None else "")
        if others:
            self.draft.tell(Grade.SAME, text, f"{', '.join(others)}: where and how it is told is no matter of packets")
            self.draft.put(text, "effect")
        else:
            self.draft.put_spelled(text, kind="effect")

    def fit_notrack(self) -> None:
        self.draft.put("notrack", "effect")

    def fit_left_out(self, it: LeftOut) -> None:
        self.draft.tell(it.grade, "left out", it.why)
        self.matches.unread.keep_key(*it.operands)

    def fit_offload(self) -> None:
        way = self.draft.way("offload")
        self.draft.guess("offload", way, "left out")

    # what bounds

    def fit_dynamic(self, change: ChangeOfSet) -> None:
        """A rule that changes a set: it goes on where the key has a value, and where its bounds hold."""
        name = change.name
        if any(first_word(it.name) in NEVER_IN_IPV4 for it in selectors_in(change.key)):
            self.draft.tell(Grade.SAME, self.draft.never(), "it reads a header that no IPv4 packet has")
            self.draft.die()
            return
        if name in self.draft.table.sets and self.draft.fitter.is_read(self.draft.table, name):
            self.draft.tell(
                Grade.OUTCOME,
                "left out",
                f"nothing is kept in {name}; what is guessed of it is told where rules read it",
            )
        else:
            self.draft.tell(Grade.OUTCOME, "left out", f"what is in {name} isn't shown")
        self.matches.unread.keep_key(change.key, change.data)
        if change.word != "delete" and not self.draft.is_dead:
            self.dynamic.fit_bounds(change, lambda listed: self.ask_for(change.key, listed))
            self.dynamic.fit_room(change, lambda listed: self.ask_for(change.key, listed))

    def ask_for(self, key: Expression, listed: Sequence[Element]) -> None:
        """A match for the keys of some elements."""
        if isinstance(key, Selector):
            self.matches.fit_match(key, "", Elements(tuple(listed)))
        elif isinstance(key, Joined):
            self.maps.joined.match_joined(key, "", Elements(tuple(listed)))
        else:
            raise NotFitted("bounds of what is listed, by what nftrun doesn't read")

    def find_key(self, key: Expression, elements: Sequence[Element]) -> None:
        """The rule goes on where one of the elements has the key."""
        if not isinstance(key, Selector):
            raise NotFitted("a map of objects over joined keys")
        self.matches.match_elements(key, "", elements)
