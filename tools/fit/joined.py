"""Matches and maps over joined keys (`ip saddr . tcp dport`), with ranges or of more bits than nftrun takes."""
from __future__ import annotations

from typing import Callable, Iterable, List, Sequence, Tuple

from toolbox.lexer import Kind

from .assumptions import ASSUMPTIONS
from .draft import Draft
from .exits import EXITS, WITHOUT, keys_without
from .facts import LONGEST_KEY, TYPES, assumption_of
from .grades import Grade
from .matches import Matches, rules_text, shown
from .numbers import holds, name_of, range_of, spell_number, spell_part, width_of
from .ports import OTHERS, PORTS, most_hold
from .profile import takes
from .sets import parts_are_plain
from .tree import (
    Anything,
    Element,
    Elements,
    Expression,
    Joined,
    Missing,
    Named,
    NotFitted,
    One,
    Part,
    Piece,
    Selector,
    Value,
)
from .unread import reason

Key = Tuple[Part, ...]
Then = Callable[[Element], List[Piece]]  # the pieces for what an element of a map gives
MOST_KEYS = 512  # that ranges in joined keys may become
FEW_KEYS = 32  # as which ranges are written out, where they needn't be


class JoinedKeys:
    """Fits matches and maps over joined keys."""

    def __init__(self, draft: Draft, matches: Matches) -> None:
        self.draft, self.matches = draft, matches

    def match_joined(self, left: Joined, operator: str, right: Expression) -> None:
        if operator not in ("", "==", "!=", "!"):
            raise NotFitted(f"`{operator}` with joined keys")
        is_not = operator in ("!=", "!")
        listed = self.listed(right)
        if self.decided_otherwise(left, listed, is_not):
            return
        if listed is not None and any(it.name in PORTS for it in selectors_of(left)):
            self.match_ports(left, listed, is_not, lambda: self.match_read(left, operator, right))
        else:
            self.match_read(left, operator, right)

    def listed(self, right: Expression) -> Sequence[Element] | None:
        """The elements with which a match compares, or None where rules add to them, or there are none."""
        compared = self.matches.unread.elements_named(right) if isinstance(right, Named) else right
        return compared.items if isinstance(compared, Elements) else None

    def decided_otherwise(self, left: Joined, listed: Sequence[Element] | None, is_not: bool) -> bool:
        """Whether what Linux reads otherwise decided the match: an output interface where there is none."""
        if self.draft.chain.is_early and any(it.name == "ct state" for it in selectors_of(left)):
            raise NotFitted("ct state in joined keys, before connections are looked for")
        if any(it.name == "ct status" for it in selectors_of(left)):
            raise NotFitted("ct status in joined keys, where Linux compares with bits that nftrun hasn't")
        places = [index for index, it in enumerate(selectors_of(left)) if it.name in EXITS]
        if not places or listed is None or any(len(it.key) != len(left.parts) for it in listed):
            return False
        without = keys_without(listed, places)
        if without and not is_not and self.matches.exits.hooks & WITHOUT:
            raise NotFitted("joined keys with any output interface, on prerouting and input, where there is none")
        return is_not and not without and self.matches.exits.match(True)

    def match_ports(
        self, left: Joined, listed: Sequence[Element], is_not: bool, fit: Callable[[], None]
    ) -> None:
        """`th dport` in joined keys: of other protocols too Linux reads bytes."""
        ports = self.matches.ports
        if not ports.may_come():
            fit()
            return
        names = [it.name for it in selectors_of(left)]
        places = [index for index, it in enumerate(names) if it in PORTS]
        if any(len(it.key) != len(names) for it in listed) or any(it not in TYPES for it in names):
            raise NotFitted("keys of another number of parts, or of what nftrun doesn't read, beside th")
        wide = [it.key for it in listed if all(most_hold("", it.key[index]) for index in places)]
        usual = bool(wide) != is_not
        others = [tuple(part for index, part in enumerate(key) if index not in places) for key in wide]
        if not wide:
            others = [tuple(part for index, part in enumerate(it.key) if index not in places) for it in listed]
        rest = [it for it in names if it not in PORTS]
        ways = self.ways(rest, list(dict.fromkeys(others))) if not is_not else [[]]
        ports.decide(usual, fit, [[self.draft.piece(OTHERS), *way] for way in ways])

    def match_read(self, left: Joined, operator: str, right: Expression) -> None:
        """A match of what nftrun reads as Linux does."""
        is_not = operator in ("!=", "!")
        if isinstance(right, Named):
            found = self.draft.table.sets.get(right.name)
            if found is None:
                raise Missing(f"there is no set {right.name}")
            if self.matches.is_hit(right.name, operator):
                return
            self.matches.dynamic.fit_found(found, is_not)
            names = self.joined_names(left, [it.key for it in self.draft.fitter.sets.kept(found)])
            if names is not None and self.draft.fitter.sets.is_plain(found) and len(names[0]) == len(left.parts):
                self.draft.put_spelled(
                    f"{' . '.join(map(shown, names[0]))} {'!= ' if is_not else ''}@{right.name}", names[0]
                )
                return
            self.look_up(names, is_not)
        elif isinstance(right, Elements) and self.are_taken(left, right):
            self.draft.put(self.draft.statement_text(), "match", [it.name for it in selectors_of(left)])
        elif isinstance(right, Elements):
            self.look_up(self.joined_names(left, [it.key for it in right.items]), is_not)
        else:
            raise NotFitted("joined keys without a list")

    def are_taken(self, left: Joined, right: Elements) -> bool:
        """Whether nftrun has the joined keys as they stand."""
        names = [it.name if isinstance(it, Selector) else "" for it in left.parts]
        if not takes(self.draft.statement_text(), "statement") or any(it not in TYPES for it in names):
            return False
        kinds, keys = [TYPES[it] for it in names], [it.key for it in right.items]
        plain = all(len(key) == len(kinds) and parts_are_plain(key, kinds) for key in keys)
        return plain and sum(map(width_of, kinds)) <= LONGEST_KEY and self.names_of_interfaces(names, keys) == names

    def look_up(self, names_and_keys: tuple[list[str], list[Key]] | None, is_not: bool) -> None:
        if names_and_keys is None:
            return
        names, keys = names_and_keys
        ways = self.ways(names, keys, is_not)
        if len(ways) == 1 and len(ways[0]) == 1:
            kinds = [TYPES[it] for it in names]
            self.draft.put_spelled(ways[0][0].text, names, plain=all(parts_are_plain(key, kinds) for key in keys))
            return
        self.draft.tell(
            Grade.SAME,
            "a rule for each way" if ways else self.draft.never(),
            "nftrun has no joined keys with ranges, or of more than 128 bits",
        )
        self.draft.split(ways, names)

    def joined_names(self, left: Joined, keys: Sequence[Key]) -> tuple[list[str], list[Key]] | None:
        """The selectors that nftrun reads with their parts of the keys; None where no IPv4 packet has one of them. Of
        another selector its part is decided: keys in which it isn't what packets have are gone."""
        names = []
        for it in left.parts:
            if not isinstance(it, Selector):
                raise NotFitted("arithmetic within joined keys")
            if not self.matches.is_in_ipv4(it):
                return None
            if it.name == "ct protocol":
                self.matches.unread.match_protocol("!=", lambda: None)
            names.append("meta l4proto" if it.name == "ct protocol" else it.name)
        if any(len(key) != len(names) for key in keys):
            raise NotFitted("keys of another number of parts")
        for name in [it for it in names if it not in TYPES]:
            keys = self.without(names.index(name), name, keys)
            names = [it for it in names if it != name]
        return names, list(dict.fromkeys(keys))

    def without(self, index: int, name: str, keys: Sequence[Key]) -> list[Key]:
        why_never = self.matches.unread.why_never(name)
        if why_never:
            self.draft.tell(Grade.SAME, self.draft.never(), why_never)
            self.draft.put(self.draft.never())
            return [key[:index] + key[index + 1 :] for key in keys]
        fact, assumption = self.matches.unread.fact_of(name), assumption_of(name)
        self.matches.unread.keep_header(name)
        if fact is not None and fact.needs:
            self.draft.put(fact.needs)
        if fact is not None and not fact.assumption:
            kept = [key for key in keys if holds(fact.value, "", key[index], "32", fact.words)]
            self.draft.tell(Grade.SAME, f"without {name}", fact.why)
        else:
            assumption = fact.assumption or assumption if fact else assumption
            way = self.draft.way(assumption)
            is_usual = way == ASSUMPTIONS[assumption].ways[0]
            kept = (
                list(keys)
                if not is_usual
                else [key for key in keys if fact and holds(fact.value, "", key[index], "32", fact.words)]
            )
            known = self.matches.unread.known(name, fact.why if fact else None)
            self.draft.guess(assumption, way, f"without {name}", why=reason(assumption, way, known))
        return [key[:index] + key[index + 1 :] for key in kept]

    # ways to say that joined values are one of some keys

    def ways(self, names: Sequence[str], keys: Sequence[Key], is_not: bool = False) -> list[list[Piece]]:
        """Lists of pieces that exclude each other: one set where nftrun has it."""
        if not keys:
            return [[self.draft.piece(self.draft.always())]] if is_not else []
        if not names:
            return [] if is_not else [[self.draft.piece(self.draft.always())]]
        names = self.names_of_interfaces(names, keys)
        kinds = [TYPES[name] for name in names]
        if len(names) == 1 and not any(isinstance(key[0], Anything) for key in keys):
            listed = ", ".join(spell_part(key[0], kinds[0]) for key in keys)
            return [[self.draft.piece(f"{shown(names[0])} {'!= ' if is_not else ''}{{ {listed} }}", reads=names)]]
        overlaps = overlap(keys, kinds)
        if sum(map(width_of, kinds)) <= LONGEST_KEY:
            exact = expanded(keys, kinds)
            if exact is not None and (is_not or overlaps or len(exact) <= max(FEW_KEYS, 2 * len(keys))):
                listed = ", ".join(
                    " . ".join(spell_part(part, kind) for part, kind in zip(key, kinds)) for key in exact
                )
                return [
                    [
                        self.draft.piece(
                            f"{' . '.join(map(shown, names))} {'!= ' if is_not else ''}{{ {listed} }}", reads=names
                        )
                    ]
                ]
        if is_not:
            raise NotFitted("`!=` with joined keys that have wide ranges, or more than 128 bits")
        if overlaps:
            raise NotFitted("joined keys that overlap, with wide ranges or more than 128 bits")
        return [self.way_of(names, kinds, group) for group in grouped(keys, kinds)]

    def names_of_interfaces(self, names: Sequence[str], keys: Sequence[Key]) -> list[str]:
        """Indices of interfaces become names where the box isn't known to have them."""
        out = []
        for index, name in enumerate(names):
            stays = TYPES[name] != "iface_index" or self.draft.fitter.sets.are_indices(
                [name_of(key[index]) for key in keys], "in joined keys"
            )
            out.append(name if stays else name + "name")
        return out

    def way_of(self, names: Sequence[str], kinds: Sequence[str], group: Sequence[Key]) -> list[Piece]:
        """The keys of a group differ in one part at most: a match for each part."""
        pieces = []
        for index, (name, kind) in enumerate(zip(names, kinds)):
            parts = list(dict.fromkeys(key[index] for key in group))
            if any(isinstance(it, Anything) for it in parts):
                if kind == "ifname":
                    raise NotFitted("any interface in joined keys")
                low, high = 0, 2 ** width_of(kind) - 1
                whole = f"{spell_number(low, kind)}-{spell_number(high, kind)}"
                pieces.append(self.draft.piece(f"{shown(name)} {whole}", reads=[name]))
                continue
            listed = ", ".join(spell_part(it, kind) for it in parts)
            pieces.append(
                self.draft.piece(f"{shown(name)} {'{ ' + listed + ' }' if len(parts) > 1 else listed}", reads=[name])
            )
        return pieces

    def choose(self, left: Joined, elements: Sequence[Element], then: Then) -> None:
        """A map over joined keys: rules for each thing that it gives."""
        keys = [it.key for it in elements]
        self.matches.ports.fit_map(left, keys, lambda: self.choose_read(left, elements, then))

    def choose_read(self, left: Joined, elements: Sequence[Element], then: Then) -> None:
        found = self.joined_names(left, [it.key for it in elements])
        if found is None:
            return
        names = found[0]
        ways: list[list[Piece]] = []
        whole = [it.name for it in selectors_of(left)]
        kept_places = [index for index, name in enumerate(whole) if name in names]
        by_data: dict[object, list[Element]] = {}
        keys_of: dict[object, list[Key]] = {}
        for it in elements:
            key = tuple(it.key[index] for index in kept_places)
            if key in found[1]:
                by_data.setdefault(it.data, []).append(it)
                keys_of.setdefault(it.data, []).append(key)
        for data, keys in keys_of.items():
            ways += [way + then(by_data[data][0]) for way in self.ways(names, list(dict.fromkeys(keys)))]
        all_keys = [key for keys in keys_of.values() for key in keys]
        if len(keys_of) > 1 and overlap(all_keys, [TYPES[it] for it in names]):
            raise NotFitted("a map with joined keys that overlap")
        self.draft.tell(
            Grade.SAME,
            rules_text(len(ways)) if ways else self.draft.never(),
            "nftrun has no maps over joined keys"
            if ways
            else "it has no element that packets meet" if elements else "the map is empty",
        )
        self.draft.split(ways, names)


def grouped(keys: Sequence[Key], kinds: Sequence[str]) -> Iterable[list[Key]]:
    """Groups of keys that differ in one part alone."""
    several = 0 if kinds[-1] == "ifname" else len(kinds) - 1
    groups: dict[Key, list[Key]] = {}
    for key in keys:
        groups.setdefault(key[:several] + key[several + 1 :], []).append(key)
    return groups.values()


def expanded(keys: Sequence[Key], kinds: Sequence[str]) -> list[Key] | None:
    """The keys with each range as its numbers, or None where these are too many."""
    out: list[Key] = []
    for key in keys:
        rows: list[Key] = [()]
        for part, kind in zip(key, kinds):
            choices = numbers_of(part, kind)
            if choices is None or len(rows) * len(choices) + len(out) > MOST_KEYS:
                return None
            rows = [row + (choice,) for row in rows for choice in choices]
        out += rows
    return list(dict.fromkeys(out))


def numbers_of(part: Part, kind: str) -> list[One] | None:
    if isinstance(part, One) and not part.value.text.rstrip('"').endswith("*"):
        return [part]
    found = range_of(part, kind) if kind != "ifname" else None
    if found is None or found[1] - found[0] >= MOST_KEYS:
        return None
    if kind == "ipv4_addr":
        return [One(Value(Kind.ADDRESS, spell_number(it, kind))) for it in range(found[0], found[1] + 1)]
    return [One(Value(Kind.NUMBER, str(it))) for it in range(found[0], found[1] + 1)]


def overlap(keys: Sequence[Key], kinds: Sequence[str]) -> bool:
    """Whether a value may be in two of the keys."""
    exact = [exact_key(key, kinds) for key in keys]
    if None not in exact:
        return len(set(exact)) < len(exact)
    if len(keys) > MOST_KEYS:
        raise NotFitted(f"more than {MOST_KEYS} joined keys with ranges or names that end in `*`")
    return any(
        all(meet(*parts) for parts in zip(one, other, kinds))
        for index, one in enumerate(keys)
        for other in keys[index + 1 :]
    )


def exact_key(key: Key, kinds: Sequence[str]) -> tuple[int | str, ...] | None:
    """The key as numbers and names, or None where a part of it stands for several."""
    found: list[int | str] = []
    for part, kind in zip(key, kinds):
        if kind in ("ifname", "iface_index"):
            name = name_of(part)
            if name is None or name.endswith("*"):
                return None
            found.append(name)
            continue
        ends = range_of(part, kind)
        if ends is None or ends[0] != ends[1]:
            return None
        found.append(ends[0])
    return tuple(found)


def meet(one: Part, other: Part, kind: str) -> bool:
    """Whether a value may be in both parts."""
    if isinstance(one, Anything) or isinstance(other, Anything):
        return True
    if kind in ("ifname", "iface_index"):
        return names_meet(name_of(one) or "", name_of(other) or "")
    first, second = range_of(one, kind), range_of(other, kind)
    return first is None or second is None or first[0] <= second[1] and second[0] <= first[1]


def names_meet(one: str, other: str) -> bool:
    """Whether two names of interfaces, of which a `*` at the end stands for any letters, may be of one."""
    return (
        one == other
        or one.endswith("*")
        and other.startswith(one[:-1])
        or other.endswith("*")
        and one.startswith(other[:-1])
    )


def selectors_of(left: Joined) -> list[Selector]:
    """The parts, which are selectors and nothing else."""
    found = [it for it in left.parts if isinstance(it, Selector)]
    if len(found) != len(left.parts):
        raise NotFitted("arithmetic within joined keys")
    return found
