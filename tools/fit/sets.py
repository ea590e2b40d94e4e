"""Named sets and maps: which of them nftrun has, and their text."""
from __future__ import annotations

import re
from typing import TYPE_CHECKING, Sequence

from toolbox.lexer import Kind, Token

from .expressions import ExpressionReader
from .facts import LONGEST_KEY, TYPES, WIDTHS, WORDS
from .grades import Grade
from .numbers import name_of, spell_part, width_of
from .profile import takes
from .scanner import spelled
from .tree import (
    Anything,
    Element,
    Elements,
    Joined,
    Mapping,
    Named,
    NotFitted,
    One,
    Part,
    Set,
    Table,
    Value,
    Verdict,
    inner_parts,
)

if TYPE_CHECKING:
    from .fitter import Fitter

ENDING = {"timeout", "expires"}
OWN_FLAGS = ("constant", "interval")
NEITHER = "names and numbers of interfaces {}; --box BOX tells the names"


class Sets:
    """What is known of the sets and maps of all tables."""

    def __init__(self, fitter: Fitter) -> None:
        self.fitter = fitter

    def elements_of(self, table: Table, mapping: Mapping) -> list[Element]:
        if isinstance(mapping, Elements):
            return list(mapping.items)
        found = table.sets.get(mapping.name) if isinstance(mapping, Named) else None
        return found.elements if found else []

    # types

    def key_types(self, found: Set) -> list[str]:
        """The types of the key's parts; `?` for one that nftrun hasn't."""
        if found.typeof is None:
            return ["?" if it.isdigit() else it for it in found.types]
        return selector_types(found.typeof[: colon(found.typeof)])

    def data_types(self, found: Set) -> list[str] | None:
        if found.typeof is None:
            return found.data
        at = colon(found.typeof)
        rest = found.typeof[at + 1 :]
        if not rest:
            return None
        return ["verdict"] if rest[0].text == "verdict" else selector_types(rest)

    def is_foreign(self, found: Set) -> bool:
        return any(it not in WIDTHS and not it.isdigit() for it in self.key_types(found))

    def is_plain(self, found: Set) -> bool:
        """Whether nftrun has such a set."""
        types, data = self.key_types(found), self.data_types(found)
        if not types or any(it not in WIDTHS and not it.isdigit() for it in types):
            return False
        if sum(map(width_of, types)) > LONGEST_KEY and len(types) > 1:
            return False
        if len(types) > 1 and any(not isinstance(part, One) for it in found.elements for part in it.key):
            return False
        if any(isinstance(it.key[0], Anything) and types[0] in ("ifname", "iface_index") for it in found.elements):
            return False
        return not found.is_map or self.is_plain_map(found, types, data)

    @staticmethod
    def is_plain_map(found: Set, types: Sequence[str], data: Sequence[str] | None) -> bool:
        if len(types) > 1 or not data or len(data) > 1 or data[0] not in (*WIDTHS, "verdict"):
            return False
        if any(isinstance(it.data, Verdict) != (data[0] == "verdict") for it in found.elements):
            return False
        return not any(
            isinstance(it.key[0], Anything) or isinstance(it.data, tuple) and not isinstance(it.data[0], One)
            for it in found.elements
        )

    def by_name(self, found: Set) -> bool:
        """Whether a set of interfaces holds names that the box hasn't, so that it becomes one of names."""
        if self.key_types(found) != ["iface_index"]:
            return False
        names = [name_of(it.key[0]) for it in found.elements]
        where = f"in the set {found.name}"
        if None in names and not all(map(self.is_index, names)):
            raise NotFitted(NEITHER.format(where))
        return not self.are_indices(names, where)

    def are_indices(self, names: Sequence[str | None], where: str) -> bool:
        """Whether `iif` can stay with all of these. Numbers beside names that the box hasn't can't be said: no name is
        known for them."""
        if all(map(self.is_index, names)):
            return True
        if any(it is not None and is_number(it) for it in names):
            raise NotFitted(NEITHER.format(where))
        return False

    def is_index(self, name: str | None) -> bool:
        """Whether `iif NAME` can stay: it asks for an interface of the box."""
        network = self.fitter.network
        return name is not None and (is_number(name) or network is not None and name in network.names())

    # text

    def lines(self, table: Table, found: Set) -> list[str]:
        rates = self.fitter.rates
        if rates is not None and rates.replays(table, found.name):
            what = f"set {found.name}"
            self.fitter.changes.tell(found.token, Grade.OUTCOME, what, "left out", "what it has is replayed")
            return []
        try:
            return self.lines_of(table, found)
        except NotFitted as fault:
            self.fitter.changes.refuse(found.token, f"{found.word} {found.name}", str(fault))
            return []

    def lines_of(self, table: Table, found: Set) -> list[str]:
        changes = self.fitter.changes
        if found.fault is not None:
            changes.refuse(found.fault[0], f"elements of {found.name}", found.fault[1])
        if not self.is_foreign(found):
            self.tell_of_time(table, found)
        if not self.is_plain(found):
            what = f"{found.word} {found.name}"
            changes.tell(found.token, Grade.SAME, what, "left out", self.why_left_out(table, found))
            return []
        if found.counts or any("counter" in it.extras for it in found.elements):
            changes.tell(found.token, Grade.OUTCOME, f"counters of {found.name}", "none", "they aren't shown")
        by_name = self.by_name(found)
        if by_name:
            changes.tell(
                found.token,
                Grade.SAME,
                f"{found.word} {found.name} of indices",
                "of names",
                "names compare alike, and ask for no interface of the box",
            )
        anew = self.anew(found, "ifname" if by_name else None)  # refuses values that aren't of the type
        stands = found.slices is not None and not by_name and self.stands(found)
        body = found.slices if stands and found.slices is not None else anew
        return [f"\t{found.word} {found.name} {{", *("\t\t" + it for it in body), "\t}", ""]

    def why_left_out(self, table: Table, found: Set) -> str:
        if not self.fitter.is_read(table, found.name):
            return "no rule reads it"
        if self.is_foreign(found):
            return "nftrun has none of its type; the rules that use it are told for themselves"
        if not self.kept(found):
            return "it lists nothing; the rules that use it are told for themselves"
        return "its elements stand in the rules that use it"

    def stands(self, found: Set) -> bool:
        """Whether nftrun takes the fields of the set as they are."""
        return self.is_taken(found) and self.has_known_words(found)

    @staticmethod
    def is_taken(found: Set) -> bool:
        text = f"{found.word} x {{\n" + "\n".join(found.slices or []) + "\n}"
        return takes(f"table x {{\n{text}\n}}", "ruleset")

    def has_known_words(self, found: Set) -> bool:
        types, data = self.key_types(found), self.data_types(found)
        keys = all(parts_are_plain(it.key, types) for it in found.elements)
        return keys and all(
            not isinstance(it.data, tuple) or parts_are_plain(it.data, data or ()) for it in found.elements
        )

    def tell_of_time(self, table: Table, found: Set) -> None:
        changes, foreign = self.fitter.changes, [it for it in found.flags if it not in OWN_FLAGS]
        if any(set(it.extras) & ENDING for it in found.elements) or found.timeout and found.elements:
            self.fitter.guess(found.token, f"timeouts of {found.name}", "none", "timeout")
        elif (table.family, table.name, found.name) not in self.fitter.added_to and (foreign or found.timeout):
            changes.tell(
                found.token,
                Grade.SAME,
                f"flags {','.join(foreign)} of {found.name}" if foreign else f"timeout of {found.name}",
                "none",
                "no rule adds to it, and no element runs out",
            )

    def kept(self, found: Set) -> list[Element]:
        """The elements, but for those that are assumed to have run out."""
        if (
            self.fitter.assumptions.chosen_way(
                "timeout", self.fitter.changes_place(found.token), f"timeouts of {found.name}"
            )
            != "gone"
        ):
            return found.elements
        return [it for it in found.elements if not (set(it.extras) & ENDING or found.timeout)]

    def anew(self, found: Set, other_type: str | None) -> list[str]:
        types = [other_type] if other_type else self.key_types(found)
        data = self.data_types(found)
        if found.typeof is not None and not other_type:
            lines = ["typeof " + spelled(found.typeof)]
        else:
            lines = ["type " + " . ".join(types) + (f" : {data[0]}" if found.is_map and data else "")]
        flags = [it for it in found.flags if it in OWN_FLAGS]
        lines += [f"flags {', '.join(flags)}"] if flags else []
        lines += [f"size {found.size}"] if found.size is not None else []
        lines += ["auto-merge"] if found.merges else []
        lines += [f"comment {found.comment}"] if found.comment else []
        kept = self.kept(found)
        if len(types) == 1 and not found.is_map:  # `*` has all others
            kept = [it for it in kept if isinstance(it.key[0], Anything)] or kept
        elements = [element_text(it, types, data if found.is_map else None) for it in kept]
        if elements:
            lines.append("elements = { " + ",\n\t\t\t     ".join(elements) + " }")
        return lines


def element_text(it: Element, types: Sequence[str], data: Sequence[str] | None) -> str:
    """An element of a set, or of a map whose `data` has these types."""
    if len(it.key) != len(types):
        raise NotFitted("keys of another number of parts")
    text = " . ".join(spell_part(part, kind) for part, kind in zip(it.key, types))
    if data is None:
        return text
    if list(data) == ["verdict"]:
        return f"{text} : {verdict_text(it.verdict)}"
    return f"{text} : {spell_part(it.values[0], data[0])}"


def is_number(text: str) -> bool:
    return re.fullmatch("0x[0-9A-Fa-f]+|[0-9]+", text) is not None


def verdict_text(verdict: Verdict) -> str:
    return verdict.word if verdict.target is None else f"{verdict.word} {verdict.target}"


def colon(tokens: list[Token]) -> int:
    """Where the `:` of a map's type stands, or the end."""
    return next((index for index, it in enumerate(tokens) if it.text == ":"), len(tokens))


def selector_types(tokens: list[Token]) -> list[str]:
    operand = ExpressionReader(list(tokens)).operand()
    parts = operand.parts if isinstance(operand, Joined) else [operand]
    return [TYPES.get(getattr(it, "name", ""), "?") for it in parts]


def parts_are_plain(parts: Sequence[Part], kinds: Sequence[str]) -> bool:
    """Whether nftrun takes the parts as they are spelled in a list: with words of their types, and nothing else."""
    for part, kind in zip(parts, kinds):
        if isinstance(part, Anything):
            return False
        if not all(is_plain_value(value, kind) for value in inner_parts(part)):
            return False
    return True


def is_plain_value(value: object, kind: str) -> bool:
    """Whether nftrun takes a value of a type as it is spelled; the length of a prefix is one too."""
    if not isinstance(value, Value):
        return True
    is_name = kind in ("ifname", "iface_index")
    if value.kind is Kind.WORD:
        return is_name or value.text in WORDS.get(kind, {})
    if value.kind is Kind.STRING:
        return is_name and not value.text.endswith("*")
    if value.kind is Kind.ADDRESS:
        return kind == "ipv4_addr"
    return value.kind is Kind.NUMBER and kind not in ("ipv4_addr", "ifname", "ct_state", "ct_status")
