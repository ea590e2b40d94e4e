"""Matches of one selector: of those that nftrun reads, and of those of which something is known or assumed."""
from __future__ import annotations

from ipaddress import IPv4Address
from typing import Sequence

from toolbox.lexer import Kind

from .connections import IN_ANY_DIRECTION, Connections, are_known, bits_of
from .draft import Draft
from .dynamic import Dynamic
from .exits import EXITS, Exits, holds_without
from .facts import BITS, KNOWN, MARKS, NEVER_IN_IPV4, SHORT, TCP_FLAGS, TYPES, WORDS, assumption_of, first_word
from .grades import Grade
from .network import Network, spelled_networks
from .numbers import (
    bits_named,
    constant,
    constant_number,
    holds,
    is_ordered,
    name_of,
    number_of,
    range_for,
    spell_part,
)
from .ports import PORTS, OtherPorts
from .sets import parts_are_plain
from .tree import (
    Anything,
    Calculation,
    Drawn,
    Element,
    Elements,
    Expression,
    Listed,
    Masked,
    Match,
    Missing,
    Named,
    NotFitted,
    One,
    Part,
    Prefix,
    Range,
    Selector,
    Setting,
    Value,
    VerdictMap,
)
from .unread import Unread

ORDERS = ("<", ">", "<=", ">=")
YES_NO = (One(Value(Kind.WORD, "missing")), One(Value(Kind.WORD, "exists")))


class Matches:
    """Fits matches of one selector."""

    def __init__(self, draft: Draft) -> None:
        self.draft, self.connections = draft, Connections(draft)
        self.ports, self.exits, self.unread = OtherPorts(draft), Exits(draft), Unread(draft)
        self.dynamic = Dynamic(draft)

    def fit_match(self, left: Expression, operator: str, right: Expression) -> None:
        if isinstance(left, Drawn):
            self.match_drawn(left, operator, right)
        elif isinstance(left, Calculation):
            self.match_masked(left, operator, right)
        elif not isinstance(left, Selector):
            raise NotFitted("a statement that isn't known here")
        elif self.is_in_ipv4(left):
            if left.name in TYPES:
                self.match_plain(left.name, operator, right)
            else:
                self.match_known(left.name, operator, right)

    def is_in_ipv4(self, selector: Selector) -> bool:
        if first_word(selector.name) not in NEVER_IN_IPV4:
            return True
        self.draft.tell(Grade.SAME, self.draft.never(), "no IPv4 packet has that header")
        self.draft.die()
        return False

    # what nftrun doesn't read

    def match_known(self, name: str, operator: str, right: Expression) -> None:
        if name.startswith("fib "):
            self.match_fib(name, operator, right)
            return
        why_never = self.unread.why_never(name)
        if why_never:
            self.draft.tell(Grade.SAME, self.draft.never(), why_never)
            self.draft.die()
            return
        if name == "ct protocol":
            self.unread.match_protocol(operator, lambda: self.match_plain("meta l4proto", operator, right))
        else:
            self.unread.match(name, operator, right)

    def match_drawn(self, drawn: Drawn, operator: str, right: Expression) -> None:
        number, way = self.number_drawn(drawn)
        answer = holds(number, operator, right, "32", {})
        if answer is None:
            raise NotFitted("a value that isn't known")
        self.unread.keep_key(drawn.over)
        self.tell_drawn(way, "always" if answer else self.draft.never())
        if not answer:
            self.draft.put(self.draft.never())

    def number_drawn(self, drawn: Drawn) -> tuple[int, str | None]:
        """The number that is drawn, and how that was guessed: None where there is one number alone."""
        way = self.draft.way("random") if drawn.modulus > 1 else None
        return drawn.offset + (drawn.modulus - 1 if way == "last" else 0), way

    def tell_drawn(self, way: str | None, to: str) -> None:
        if way is None:
            self.draft.tell(Grade.SAME, to, "there is one number alone")
        else:
            self.draft.guess("random", way, to)

    # routing

    def match_fib(self, name: str, operator: str, right: Expression) -> None:
        if name.endswith(" oif") and right == One(Value(Kind.NUMBER, "0")):
            right = YES_NO[0]  # no interface: there is no such route
        keys, result = name[4:].rsplit(" ", 1)
        parts = keys.split(" . ")
        network = self.draft.fitter.network
        fields = [it for it in parts if it in ("saddr", "daddr")]
        if (
            result == "type"
            and len(fields) == 1
            and set(parts) <= {*fields, "iif"}
            and (network or self.type_words(right) == ["multicast"])
        ):
            self.match_fib_type(fields[0], "iif" in parts, operator, right)
        elif result in ("oif", "oifname") and network and set(parts) == {"saddr", "iif"} and right in YES_NO:
            self.match_reverse_path(self.guess_of_route(operator, right))
        else:
            is_route = right in YES_NO
            usual = self.guess_of_route(operator, right) if is_route else self.unread.usual_answer("fib", operator)
            self.unread.guess_match("fib", usual)

    @staticmethod
    def guess_of_route(operator: str, right: Expression) -> bool:
        """Usually a route to the sender exists."""
        return (right == YES_NO[1]) != (operator == "!=")

    @staticmethod
    def type_words(right: Expression) -> list[str]:
        items: Sequence[Expression] = [right]
        if isinstance(right, Elements):
            items = [it.key[0] for it in right.items]
        elif isinstance(right, Listed):
            items = right.items
        return [it.value.text if isinstance(it, One) else "" for it in items]

    def match_fib_type(self, field: str, by_interface: bool, operator: str, right: Expression) -> None:
        """`fib daddr type local`, by the addresses of the box file."""
        network = self.draft.fitter.network or Network()
        words = self.type_words(right)
        if not by_interface:
            text = self.type_text(field, words, operator, None)
            self.draft.tell(Grade.SAME, text, "the addresses of the box file")
            self.draft.put(text)
            return
        ways = [
            [self.draft.piece(f'iifname "{name}"'), self.draft.piece(self.type_text(field, words, operator, name))]
            for name in network.names()
        ]
        self.draft.tell(Grade.SAME, f"{rules_text(len(ways))}, one for each interface", "the addresses of the box file")
        self.draft.split(ways)

    def type_text(self, field: str, words: Sequence[str], operator: str, name: str | None) -> str:
        network = self.draft.fitter.network or Network()
        is_not = operator in ("!=", "!")
        if "unicast" in words:  # all that is of no other type
            words = [it for it in ("local", "broadcast", "multicast") if it not in words]
            is_not = not is_not
        networks = [net for word in words for net in network.of_type(word, name)]
        if not networks:
            return self.draft.always() if is_not else self.draft.never()
        return f"ip {field} {'!= ' if is_not else ''}{{ {spelled_networks(networks)} }}"

    def match_reverse_path(self, wants: bool) -> None:
        """`fib saddr . iif oif exists`: the best route to the sender leads to where the packet came from."""
        ways = []
        network = self.draft.fitter.network or Network()
        for name in network.names():
            reached = ", ".join(network.reached_by(name))
            if reached:
                sign = "" if wants else "!= "
                ways.append(
                    [self.draft.piece(f'iifname "{name}"'), self.draft.piece(f"ip saddr {sign}{{ {reached} }}")]
                )
            elif not wants:
                ways.append([self.draft.piece(f'iifname "{name}"')])
        self.draft.tell(
            Grade.SAME,
            f"{rules_text(len(ways))}, one for each interface" if ways else self.draft.never(),
            "by the best route of each address, as the box file has them",
        )
        self.draft.split(ways)

    # what nftrun reads

    def match_plain(self, name: str, operator: str, right: Expression) -> None:
        compared = self.unread.elements_named(right) if isinstance(right, Named) else right
        known = None if isinstance(compared, Named) else compared
        if name in EXITS and known is not None and self.exits.match(holds_without(operator, known)):
            return
        if name in PORTS:
            self.ports.fit_match(operator, known, lambda: self.match_read(name, operator, right))
        else:
            self.match_read(name, operator, right)

    def match_read(self, name: str, operator: str, right: Expression) -> None:
        """A match of what nftrun reads as Linux does."""
        kind, reading = TYPES[name], ""
        if name == "ct state" and self.draft.chain.is_early:
            compared = self.unread.elements_named(right) if isinstance(right, Named) else right
            if not isinstance(compared, Named) and self.connections.match_early_state(operator, compared):
                return
        if kind in ("tcp_flag", "ct_status") and isinstance(right, Elements) and len(right.items) == 1:
            right = right.items[0].key[0]
            operator = "!=" if operator == "!=" else ""
            reading = "nft(8) reads a list of one as the bit alone, nftrun would compare the whole value"
        if isinstance(right, Named):
            self.match_set(name, operator, right)
        elif isinstance(right, Elements):
            self.match_elements(Selector(name), operator, right.items)
        elif kind in BITS:
            self.match_bits(name, kind, operator, right, reading)
        else:
            self.match_value(name, operator, right)

    def match_value(self, name: str, operator: str, right: Expression) -> None:
        if isinstance(right, Calculation):
            right = constant(right, WORDS.get(TYPES[name], {}))
        if isinstance(right, Masked) and name in MARKS:
            self.match_mark(name, constant_number(right.mask, {}), operator, right.value)
            return
        if not isinstance(right, (One, Range, Prefix, Anything)):
            raise NotFitted("a value that isn't known")
        name, kind = self.by_name(name, [right])
        operator = "!=" if operator == "!" else operator
        plain = self.stays(name) and parts_are_plain([right], [kind])
        if operator in ORDERS and not is_ordered(kind):
            operator, right, plain = "", range_for(operator, right, kind), False
        elif operator in ORDERS and not isinstance(right, One):
            raise NotFitted(f"`{operator}` with a range")
        sign = "" if operator in ("", "==") else operator + " "
        self.draft.put_spelled(f"{shown(name)} {sign}{spell_part(right, kind)}", [name], plain=plain)

    def match_elements(self, selector: Selector, operator: str, elements: Sequence[Element]) -> None:
        name = selector.name
        if operator not in ("", "==", "!=", "!"):
            raise NotFitted(f"`{operator}` with a list")
        parts = [it.key[0] for it in elements]
        if any(len(it.key) != 1 for it in elements):
            raise NotFitted("keys of another number of parts")
        if TYPES[name] == "ct_status":
            self.match_status_list(operator, elements)
            return
        name, kind = self.by_name(name, parts)
        listed = ", ".join(spell_part(it, kind) for it in parts)
        if not listed:
            self.draft.die()
            return
        plain = parts_are_plain(parts, [kind] * len(parts)) and self.stays(name)
        self.draft.put_spelled(
            f"{shown(name)} {'!= ' if operator in ('!=', '!') else ''}{{ {listed} }}", [name], plain=plain
        )

    def match_set(self, name: str, operator: str, named: Named) -> None:
        found = self.draft.table.sets.get(named.name)
        if found is None:
            raise Missing(f"there is no set {named.name}")
        if not self.draft.fitter.sets.is_plain(found):
            raise NotFitted(f"the set {named.name} has no place in nftrun's language")
        if self.is_hit(named.name, operator):
            return
        self.dynamic.fit_found(found, operator in ("!=", "!"))
        if TYPES[name] == "ct_status":
            self.match_status_list(operator, self.draft.fitter.sets.kept(found))
            return
        new = (
            "meta " + name.split()[1] + "name"
            if TYPES[name] == "iface_index" and self.draft.fitter.sets.by_name(found)
            else name
        )
        sign = "!= " if operator == "!=" else ""
        self.draft.put_spelled(f"{shown(new)} {sign}@{named.name}", [name], plain=new == name)

    def is_hit(self, name: str, operator: str) -> bool:
        """A set to which packets add: what it has beside what is listed is guessed. Whether that decided it."""
        if (self.draft.table.family, self.draft.table.name, name) not in self.draft.fitter.added_to:
            return False
        way = self.draft.way("dynamic")
        if way == "listed":
            self.draft.guess("dynamic", way, "by what is listed")
            return False
        answer = operator not in ("!=", "!")
        self.draft.keep_tests(self.left())
        self.draft.guess("dynamic", way, "always" if answer else self.draft.never())
        if not answer:
            self.draft.put(self.draft.never())
        return True

    # interfaces by index

    def by_name(self, name: str, parts: Sequence[Part]) -> tuple[str, str]:
        """`iif NAME` asks for an interface of the box; where it isn't known to be one, `iifname` asks for none."""
        kind = TYPES[name]
        names = [name_of(it) for it in parts]
        if kind != "iface_index" or self.draft.fitter.sets.are_indices(names, "in a list"):
            return name, kind
        return name + "name", "ifname"

    def stays(self, name: str) -> bool:
        """Whether a match of an index stays one."""
        left = self.left()
        return left.name == name if isinstance(left, Selector) else True

    def left(self) -> Expression | None:
        """What the statement at hand reads first, where it is a match or the like."""
        what = self.draft.statement.what
        return what.left if isinstance(what, (Match, VerdictMap, Setting)) else None

    # bits

    def match_bits(self, name: str, kind: str, operator: str, right: Expression, reading: str) -> None:
        if kind == "tcp_flag" and operator in ("<", ">", "<=", ">="):
            self.match_order_of_flags(0xFF, operator, right)
            return
        if kind == "tcp_flag":
            self.draft.put_spelled(self.flags_text(operator, right), reading=reading)
            return
        words = bits_of(right)
        if kind == "ct_status" and any(it not in WORDS[kind] for it in words):
            self.match_unknown_status(operator, words)
            return
        if any(it not in WORDS[kind] for it in words):
            raise NotFitted("a state that isn't known")
        if operator == "!":
            text = " ".join(f"{name} != {word}" for word in words)
            why = "none of them"
            if kind == "ct_status":
                why += "; so nftrun reads it, nft(8) would compare the whole value"
            self.draft.tell(Grade.SAME, text, why)
            self.draft.put(text)
        elif operator == "!=" and (kind == "ct_status" or len(words) > 1):
            self.match_unequal(name, words)
        elif operator in ("", "==", "!="):
            if kind == "ct_status" and operator == "==":
                self.connections.compare_status(operator)
                return
            sign = operator + " " if operator else ""
            self.draft.put_spelled(f"{name} {sign}{','.join(words)}", reading=reading)
        else:
            raise NotFitted(f"`{name} {operator}`")

    def match_unequal(self, name: str, words: Sequence[str]) -> None:
        """nft(8) compares with all the bits at once, which no packet's value equals: `!=` always holds."""
        to = self.draft.always() if name == "ct state" else IN_ANY_DIRECTION
        meant = f"{name} != {{ {', '.join(words)} }}" if name == "ct state" else f"{name} ! {','.join(words)}"
        why = "nft(8) compares with the whole value, so it always holds; nftrun would read `none of them`,"
        why += f" which nft(8) spells `{meant}`"
        self.draft.tell(Grade.SAME, to, why)
        self.draft.put(to)

    def match_unknown_status(self, operator: str, words: Sequence[str]) -> None:
        known = [it for it in words if it in WORDS["ct_status"]]
        if operator == "" and known:
            way = self.draft.way("ct")
            to = f"ct status {','.join(known)}" if way == "miss" else "always"
            self.draft.guess("ct", way, to)
            self.draft.put(to if way == "miss" else IN_ANY_DIRECTION)
            return
        self.draft.put(IN_ANY_DIRECTION)
        self.unread.guess_match("ct", self.unread.usual_answer("ct", operator))

    def match_status_list(self, operator: str, elements: Sequence[Element]) -> None:
        """A list of several values of `ct status`, or a named one."""
        if are_known(elements):
            self.connections.compare_status(operator)
            return
        self.draft.put(IN_ANY_DIRECTION)
        self.unread.guess_match("ct", self.unread.usual_answer("ct", operator))

    @staticmethod
    def flags_text(operator: str, right: Expression) -> str:
        if isinstance(right, Masked):
            if operator not in ("", "==", "!="):
                raise NotFitted(f"`tcp flags {operator}` with a mask")
            sign = "!= " if operator == "!=" else ""
            return f"tcp flags {sign}{flag_words(right.value, ',')} / {flag_words(right.mask, ',')}"
        if operator == "!":
            return f"tcp flags & ({flag_words(right, ' | ')}) == 0"
        if operator == "!=":
            return f"tcp flags & 0xff != {flag_words(right, ' | ')}"
        if operator not in ("", "=="):
            raise NotFitted(f"`tcp flags {operator}`")
        return f"tcp flags {'== ' if operator else ''}{flag_words(right, ',')}"

    # masks

    def match_masked(self, left: Calculation, operator: str, right: Expression) -> None:
        """`SELECTOR & MASK OPERATOR VALUE`."""
        if left.operator != "&" or not isinstance(left.left, Selector):
            raise NotFitted("arithmetic in a match")
        name = left.left.name
        if not self.is_in_ipv4(left.left):
            return
        if isinstance(right, Elements) and len(right.items) == 1:
            right = right.items[0].key[0]
        if name == "tcp flags":
            self.match_masked_flags(constant_number(left.right), operator, right)
        elif name in MARKS:
            self.match_mark(name, constant_number(left.right, {}), operator, right)
        elif name in ("ip saddr", "ip daddr"):
            self.match_masked_address(name, left.right, operator, right)
        elif name in ("ct state", "ct status"):
            self.match_masked_state(name, left.right, operator, right)
        else:
            self.match_masked_other(name, constant_number(left.right, {}), operator, right)

    def match_masked_flags(self, mask: int, operator: str, right: Expression) -> None:
        if operator not in ("", "==", "!="):
            self.match_order_of_flags(mask, operator, right)
            return
        if not isinstance(right, Elements):
            sign = "!=" if operator == "!=" else "=="
            self.draft.put_spelled(f"tcp flags & ({flag_names(mask)}) {sign} {flag_words(right, ' | ')}")
            return
        values = [constant_number(it.key[0]) for it in right.items]
        texts = [
            f"tcp flags & ({flag_names(mask)}) {'!=' if operator == '!=' else '=='} {flag_names(it)}"
            for it in dict.fromkeys(values)
        ]
        if operator == "!=":
            self.draft.tell(Grade.SAME, " ".join(texts), "one after the other")
            for text in texts:
                self.draft.put(text)
        else:
            self.draft.tell(Grade.SAME, "a rule for each value", "a mask before a list")
            self.draft.split([[self.draft.piece(it)] for it in texts])

    def match_order_of_flags(self, mask: int, operator: str, right: Expression) -> None:
        """The values of the flags for which an order holds, in a list."""
        answers = [holds(it & mask, operator, constant(right), "8", {}) for it in range(256)]
        if None in answers:
            raise NotFitted("a value that isn't known")
        found = [hex(it) for it in range(256) if answers[it]]
        text = (
            f"tcp flags {{ {', '.join(found)} }}"
            if len(found) > 1
            else f"tcp flags == {found[0]}"
            if found
            else self.draft.never()
        )
        self.draft.tell(Grade.SAME, text, "all values for which it holds")
        self.draft.put(text)

    def match_mark(self, name: str, mask: int, operator: str, right: Expression) -> None:
        """The marks that rules write are known, so those for which the match holds can be listed."""
        values = self.draft.fitter.marks.values[name]
        if values is None:
            raise NotFitted("a mask of marks that are too many, or not known")
        answers = {it: holds(it & mask, operator, right, "mark", {}) for it in values}
        if None in answers.values():
            raise NotFitted("a value that isn't known")
        found = [it for it in sorted(values) if answers[it]]
        why = f"of the marks that rules write ({', '.join(map(hex, sorted(values)))}) these; each mark begins at 0"
        if not found:
            self.draft.tell(Grade.SAME, self.draft.never(), why)
            self.draft.die()
            return
        text = f"{name} {{ {', '.join(map(hex, found))} }}"
        self.draft.tell(Grade.SAME, text, why)
        self.draft.put(text, "match", [name])

    def match_masked_address(self, name: str, mask: Expression, operator: str, right: Expression) -> None:
        number = number_of(mask.value, "ipv4_addr") if isinstance(mask, One) else None
        length = bin(number or 0).count("1")
        if (
            number != (0xFFFFFFFF << 32 - length) & 0xFFFFFFFF
            or not isinstance(right, One)
            or operator not in ("", "==", "!=")
        ):
            raise NotFitted("a mask of addresses that isn't a prefix")
        base = number_of(right.value, "ipv4_addr")
        if base is None:
            raise NotFitted("a value that isn't known")
        is_not = operator == "!="
        if base & ~number & 0xFFFFFFFF:
            to = "always" if is_not else self.draft.never()
            self.draft.tell(Grade.SAME, to, "the value has bits outside of the mask")
            if not is_not:
                self.draft.die()
            return
        text = f"{name} {'!= ' if is_not else ''}{IPv4Address(base)}/{length}"
        self.draft.tell(Grade.SAME, text, "a prefix")
        self.draft.put(text)

    def match_masked_state(self, name: str, mask: Expression, operator: str, right: Expression) -> None:
        """`ct state & (established | related) != 0`."""
        words = bits_of(mask)
        if (
            any(it not in WORDS[TYPES[name]] for it in words)
            or holds(0, "", right, "32", {}) is not True
            or operator not in ("", "==", "!=")
        ):
            raise NotFitted(f"a mask of {name}")
        if name == "ct state" and self.draft.chain.is_early:
            if self.connections.match_early_state("" if operator == "!=" else "!", mask):
                return
        text = f"{name} {','.join(words)}" if operator == "!=" else " ".join(f"{name} != {word}" for word in words)
        self.draft.tell(Grade.SAME, text, "one of them" if operator == "!=" else "none of them")
        self.draft.put(text)

    def match_masked_other(self, name: str, mask: int, operator: str, right: Expression) -> None:
        if name in TYPES:
            raise NotFitted(f"a mask of {name}")
        if name == "ip frag-off" and not mask & 0x4000:
            answer = holds(0, operator, right, "16", {})
            if answer is None:
                raise NotFitted("a value that isn't known")
            to = "left out, as it always holds" if answer else self.draft.never()
            self.draft.tell(Grade.SAME, to, "nftrun takes no fragments")
            if not answer:
                self.draft.die()
            return
        self.unread.keep_header(name)
        fact = KNOWN.get(name)
        answer = holds(fact.value & mask, operator, right, "32", fact.words) if fact else None
        assumption = assumption_of(name)
        if fact is not None and answer is not None:
            self.unread.guess_match(fact.assumption or "header", answer, self.unread.known(name, fact.why))
        else:
            usual = self.unread.usual_answer(assumption, operator)
            self.unread.guess_match(assumption, usual, self.unread.known(name, None))


def shown(name: str) -> str:
    """A selector as nft(8) lists it."""
    short = name.removeprefix("meta ")
    return short if short in SHORT else name


def rules_text(number: int) -> str:
    return "a rule" if number == 1 else f"{number} rules"


def flag_words(it: Expression, between: str) -> str:
    """Flags of TCP, joined; calculated ones as a number."""
    if isinstance(it, Listed):
        return between.join(flag_words(one, between) for one in it.items)
    if isinstance(it, Calculation) and it.operator == "|":
        return flag_words(it.left, between) + between + flag_words(it.right, between)
    if isinstance(it, Calculation):
        return hex(constant_number(it))
    if isinstance(it, One) and (it.value.kind is Kind.NUMBER or it.value.text in TCP_FLAGS):
        return it.value.text
    raise NotFitted("flags that aren't known")


def flag_names(number: int) -> str:
    return " | ".join(bits_named(number, TCP_FLAGS))
