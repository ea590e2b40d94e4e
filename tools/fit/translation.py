"""Translation: snat, dnat, masquerade, redirect."""
from __future__ import annotations

from dataclasses import replace
from typing import Sequence

from toolbox.lexer import Kind

from .draft import Draft
from .facts import TYPES
from .grades import Grade
from .joined import JoinedKeys, Then
from .maps import Maps
from .matches import Matches, rules_text, shown
from .numbers import range_of, spell_number, spell_part
from .tree import (
    Anything,
    Drawn,
    Element,
    Expression,
    Joined,
    Lookup,
    Match,
    NotFitted,
    One,
    Part,
    Piece,
    Prefix,
    Range,
    Selector,
    Translation,
    Value,
)
from .writes import Writes

MOST_ADDRESSES = 1024  # that translation of prefixes may become
ADDRESSES = ("ip saddr", "ip daddr")
PARTS = (One, Range, Prefix, Lookup)


class Translations:
    """Fits snat, dnat, masquerade and redirect."""

    def __init__(self, draft: Draft, matches: Matches, joined: JoinedKeys, maps: Maps, writes: Writes) -> None:
        self.draft, self.matches, self.joined, self.maps, self.writes = draft, matches, joined, maps, writes

    def fit_nat(self, it: Translation) -> None:
        if it.family == "ip6" or isinstance(it.address, One) and it.address.value.kind is Kind.SIX:
            self.draft.tell(Grade.SAME, self.draft.never(), "it translates IPv6 packets")
            self.draft.die()
            return
        if any(one is not None and not isinstance(one, PARTS) for one in (it.address, it.ports)):
            raise NotFitted("translation to what isn't an address or a port")
        if it.prefix:
            self.translate_prefixes(it)
            return
        if it.flags:
            self.draft.tell(Grade.OUTCOME, "left out", "nftrun chooses ports in its own way", what=" ".join(it.flags))
        if it.kind in ("snat", "dnat") and it.address is None:
            it = replace(it, address=self.address_of_rule(it.kind))
        lookup = it.address if isinstance(it.address, Lookup) else it.ports
        if isinstance(lookup, Lookup):
            found = lookup
            self.matches.ports.fit_map(found.key, (), lambda: self.translate_by_lookup(it, found))
        else:
            before = len(self.draft.told.list)
            text = self.nat_text(it.kind, it.address, it.ports)
            if it.flags or len(self.draft.told.list) > before:
                self.draft.put(text, "end")
            else:
                self.draft.put_spelled(text, kind="end")

    def translate_by_lookup(self, it: Translation, lookup: Lookup) -> None:
        if it.address == lookup:
            self.translate_by_map(it, lookup)
        else:
            self.translate_ports_by_map(it, lookup)

    def translate_prefixes(self, it: Translation) -> None:
        """`snat ip prefix to ip saddr map { 10.1.0.0/24 : 10.2.0.0/24 }`: each address to its own."""
        key = it.address.key if isinstance(it.address, Lookup) else None
        if not isinstance(it.address, Lookup) or not isinstance(key, Selector) or key.name not in ADDRESSES:
            raise NotFitted("translation of prefixes but by a map of addresses")
        pairs: list[tuple[int, int]] = []
        for one in self.maps.mapping(it.address.map, verdicts=False)[0]:
            old, new = one.key[0], one.values[0]
            if not isinstance(old, Prefix) or not isinstance(new, Prefix) or old.length != new.length:
                raise NotFitted("translation of prefixes that aren't of one length")
            (low, high), (new_low, new_high) = addresses_of(old), addresses_of(new)
            if high - low + len(pairs) >= MOST_ADDRESSES:
                raise NotFitted(f"translation of prefixes with more than {MOST_ADDRESSES} addresses")
            pairs += zip(range(low, high + 1), range(new_low, new_high + 1))
        listed = ", ".join(
            f"{spell_number(before, 'ipv4_addr')} : {spell_number(after, 'ipv4_addr')}" for before, after in pairs
        )
        self.draft.tell(Grade.SAME, f"a map of {len(pairs)} addresses", "each address has its own")
        self.draft.put(f"{it.kind}{self.to()}{key.name} map {{ {listed} }}", "end")

    def address_of_rule(self, kind: str) -> One:
        """`dnat to :80` keeps the address; nftrun wants it said, which the rule may do."""
        name = "ip saddr" if kind == "snat" else "ip daddr"
        for it in self.draft.rule.statements:
            what = it.what
            if not isinstance(what, Match) or what.left != Selector(name) or what.operator not in ("", "=="):
                continue
            if isinstance(what.right, One) and what.right.value.kind is Kind.ADDRESS:
                self.draft.tell(Grade.SAME, f"to {what.right.value.text}", f"the rule asks for this {name}")
                return what.right
        raise NotFitted("translation of the port alone, where the rule doesn't ask for one address")

    def nat_text(self, kind: str, address: Expression | None, ports: Expression | None) -> str:
        text = kind
        if isinstance(address, (Range, Prefix)):
            address = self.one_of(address, "ipv4_addr")
        if isinstance(ports, Range) and kind in ("dnat", "redirect"):
            ports = self.one_of(ports, "inet_service")
        if isinstance(address, (One, Anything)):
            text += self.to() + spell_part(address, "ipv4_addr")
        if ports is not None:
            text += (" to " if address is None else "") + ":" + ports_text(ports)
        return text

    def to(self) -> str:
        """nft(8) wants the family in tables of inet."""
        return " ip to " if self.draft.table.family == "inet" else " to "

    def one_of(self, part: Range | Prefix, kind: str) -> One:
        """The first or the last of a range."""
        way = self.draft.way("nat")
        if isinstance(part, Range):
            one = One(part.low if way == "first" else part.high)
        else:
            low, high = addresses_of(part)
            one = One(Value(Kind.ADDRESS, spell_number(low if way == "first" else high, "ipv4_addr")))
        self.draft.guess("nat", way, spell_part(one, kind))
        return one

    def translate_by_map(self, it: Translation, lookup: Lookup) -> None:
        key = lookup.key
        if isinstance(key, Selector) and not self.matches.is_in_ipv4(key):
            return
        elements, plain = self.maps.mapping(lookup.map, verdicts=False)
        if not elements:
            self.maps.tell_empty(lookup.map)
            return
        if isinstance(it.ports, Lookup):
            if it.ports.key != key:
                raise NotFitted("two maps of two keys")
            elements = joined_maps(elements, self.maps.mapping(it.ports.map, verdicts=False)[0])
        elif isinstance(key, Selector) and self.is_plain_lookup(key, it, elements):
            text, words = self.writes.lookup_text(key, lookup.map, elements, plain, "ipv4_addr")
            self.draft.put_spelled(it.kind + self.to() + text, [key.name], "end", plain=words)
            return

        def translating(one: Element) -> list[Piece]:
            ports = one.values[1] if len(one.values) > 1 else it.ports
            return [self.draft.piece(self.nat_text(it.kind, one.values[0], ports), "end")]

        self.choose_translation(key, elements, translating)

    @staticmethod
    def is_plain_lookup(key: Selector, it: Translation, elements: Sequence[Element]) -> bool:
        if key.name not in TYPES or it.ports is not None or not elements:
            return False
        return all(len(one.values) == 1 and isinstance(one.values[0], One) for one in elements)

    def translate_ports_by_map(self, it: Translation, lookup: Lookup) -> None:
        def translating(one: Element) -> list[Piece]:
            return [self.draft.piece(self.nat_text(it.kind, it.address, one.values[0]), "end")]

        elements, _ = self.maps.mapping(lookup.map, verdicts=False)
        if elements:
            self.choose_translation(lookup.key, elements, translating)
        else:
            self.maps.tell_empty(lookup.map)

    def choose_translation(self, key: Expression, elements: Sequence[Element], translating: Then) -> None:
        if isinstance(key, Joined):
            self.joined.choose(key, elements, translating)
        elif isinstance(key, Drawn):
            self.maps.draw(key, elements, translating)
        elif isinstance(key, Selector) and key.name in TYPES:
            name, kind = self.matches.by_name(key.name, [one.key[0] for one in elements])
            ways = [
                [self.draft.piece(f"{shown(name)} {spell_part(one.key[0], kind)}"), *translating(one)]
                for one in elements
            ]
            self.draft.tell(
                Grade.SAME,
                rules_text(len(ways)) if ways else self.draft.never(),
                "nftrun has no maps of ports, and none of both",
            )
            self.draft.split(ways)
        else:
            raise NotFitted("translation by what nftrun doesn't read")


def addresses_of(part: Part) -> tuple[int, int]:
    """The first and the last address of a part, which is known."""
    found = range_of(part, "ipv4_addr")
    if found is None:
        raise NotFitted("an address that isn't known")
    return found


def ports_text(part: Expression) -> str:
    """Ports of a translation are numbers."""
    found = range_of(part, "inet_service") if isinstance(part, (One, Range)) else None
    if found is None:
        raise NotFitted("a port that isn't known")
    if not 0 < found[0] <= found[1] <= 65535:
        raise NotFitted(f"`{found[0]}-{found[1]}` isn't a range of ports from 1 to 65535")
    return "-".join(map(str, dict.fromkeys(found)))


def joined_maps(one: Sequence[Element], other: Sequence[Element]) -> list[Element]:
    """Elements of two maps of one key, with the data of both; nothing else has both."""
    second = {it.key: it.values for it in other}
    if any(not isinstance(it.key[0], One) for it in (*one, *other)):
        raise NotFitted("two maps with ranges")
    return [replace(it, data=it.values + second[it.key]) for it in one if it.key in second]
