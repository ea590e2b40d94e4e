"""Reads rules, statement by statement."""
from __future__ import annotations

from dataclasses import replace
from typing import Callable, NoReturn

from toolbox.lexer import Kind

from .expressions import ExpressionReader
from .facts import VERDICTS
from .grades import Grade
from .tree import (
    Bound,
    Calculation,
    ChangeOfSet,
    Counter,
    Drawn,
    Expression,
    Joined,
    LeftOut,
    Listed,
    Log,
    Match,
    NotFitted,
    ObjectUse,
    Offload,
    Queue,
    Reject,
    Selector,
    Setting,
    Statement,
    Translation,
    Untracked,
    VerdictMap,
    What,
)

LOG_OPTIONS = ("prefix", "level", "group", "flags", "snaplen", "queue-threshold")
LOG_FLAGS = set("tcp sequence options ip skuid ether all".split())
NAT_FLAGS = ("random", "fully-random", "persistent")
UNITS = ("packets", "bytes", "kbytes", "mbytes", "packet")


class RuleReader(ExpressionReader):
    """Reads one rule from its tokens."""

    def rule(self) -> tuple[list[Statement], str | None]:
        """The statements and the comment of the rule."""
        statements: list[Statement] = []
        comment = None
        while self.peek().kind is not Kind.END:
            start = self.at
            if self.skip("comment"):
                comment = self.take(Kind.STRING).text
                continue
            what = self.statement()
            statements.append(Statement(tuple(self.tokens[start : self.at]), what))
        return statements, comment

    def statement(self) -> What:
        token, after = self.peek(), self.peek(1)
        word = token.text if token.kind is Kind.WORD else ""
        if word in VERDICTS:
            return self.verdict()
        if word in READERS:
            self.take()
            return READERS[word](self)
        if word == "ct" and after.text == "count":
            return self.connections()
        if word == "ct" and after.text in ("helper", "timeout", "expectation") and self.has("set", ahead=2):
            self.at += 3
            return Setting(Selector(f"ct {after.text}"), self.operand())
        if word in ("add", "update", "delete") and after.text == "@":
            self.at += 2
            return self.change_of_set(word)
        if word == "set" and after.text in ("add", "update", "delete"):
            return self.old_change_of_set()
        return self.match_or_set()

    def match_or_set(self) -> What:
        left = self.operand()
        if not begins_with_selector(left):
            raise NotFitted("a statement that isn't known here")
        if self.skip("set"):
            if not isinstance(left, Selector):
                raise NotFitted("`set` behind what can't be set")
            operand = self.operand()
            if left == Selector("meta priority") and self.skip(":"):
                self.take()
            while self.skip(","):  # `ct event set new,destroy`
                operand = Listed((operand, self.operand()))
            return Setting(left, operand)
        if self.skip("vmap"):
            return VerdictMap(left, self.mapping())
        return Match(left, *self.compared(left))

    # what counts, tells and bounds

    def read_counter(self) -> Counter | ObjectUse:
        if self.skip("packets"):
            packets = self.number()
            self.take(Kind.WORD, "bytes")
            return Counter(packets, self.number())
        if self.skip("name"):
            return ObjectUse("counter", self.object())
        return Counter(0, 0)

    def object(self) -> str | Expression:
        """A named object, or a map that gives one: its name or the map."""
        if self.peek().kind is Kind.STRING or (self.peek().kind is Kind.WORD and not self.has("map", ahead=2)):
            return self.name()
        return self.operand()

    def read_log(self) -> Log:
        options: dict[str, tuple[str, ...]] = {}
        while self.has(*LOG_OPTIONS):
            name = self.take().text
            value = [self.take()]
            while (
                name == "flags"
                and (self.has(",") or value[-1].text in ("tcp", "ip", ","))
                and self.has(",", *LOG_FLAGS)
            ):
                value.append(self.take())
            options[name] = tuple(it.text for it in value)
        return Log(tuple(options.items()))

    def over(self) -> bool:
        if self.skip("until"):
            return False
        return self.skip("over")

    def connections(self) -> Bound:
        """`ct count over 10`"""
        self.at += 2
        over = self.over()
        self.number()
        return Bound("connections", over, None)

    def read_limit(self) -> Bound | ObjectUse:
        if self.skip("name"):
            return self.named_bound("limit")
        self.take(Kind.WORD, "rate")
        over = self.over()
        self.number()
        if self.peek().kind is Kind.WORD:  # mbytes/second is one word
            if "/" not in self.take().text:
                self.take(Kind.MARK, "/")
                self.take(Kind.WORD)
        else:
            self.take(Kind.MARK, "/")
            self.take(Kind.WORD)
        if self.skip("burst"):
            self.number()
            self.take(Kind.WORD, *UNITS)
        return Bound("limit", over, None)

    def read_quota(self) -> Bound | ObjectUse:
        if self.skip("name"):
            return self.named_bound("quota")
        over = self.over()
        self.number()
        self.take(Kind.WORD, *UNITS)
        if self.skip("used"):
            self.number()
            self.take(Kind.WORD, *UNITS)
        return Bound("quota", over, None)

    def named_bound(self, kind: str) -> Bound | ObjectUse:
        named = self.object()
        return Bound(kind, None, named) if isinstance(named, str) else ObjectUse(kind, named)

    def read_last(self) -> LeftOut:
        while self.has("used", "never") or self.peek().kind is Kind.TIME:
            self.take()
        return LeftOut(Grade.OUTCOME, "when the last packet came isn't shown")

    # what ends a rule

    def read_reject(self) -> Reject:
        if not self.skip("with"):
            return Reject(())
        words = [self.take(Kind.WORD, "tcp", "icmp", "icmpv6", "icmpx").text]
        if words[0] == "tcp":
            words.append(self.take(Kind.WORD, "reset").text)
        else:
            self.skip("type")
            words.append(self.take().text)
        return Reject(tuple(words))

    def read_queue(self) -> Queue:
        while self.peek().kind is not Kind.END and not self.has("comment"):
            self.take()
        return Queue()

    def read_notrack(self) -> Untracked:
        return Untracked()

    def read_dup(self) -> LeftOut:
        self.skip("to")
        operands = [self.operand()]
        if self.skip("device"):
            operands.append(self.operand())
        return LeftOut(Grade.OUTCOME, "the copy isn't shown, nor what it counts in postrouting", tuple(operands))

    def read_flow(self) -> Offload:
        self.take(Kind.WORD, "add", "offload")
        self.take(Kind.MARK, "@")
        self.name()
        return Offload()

    # translation

    def translation(self, kind: str) -> Translation:
        family = self.family()
        prefix = self.skip("prefix")
        self.skip("interval")
        if self.has("addr") and self.has(".", ahead=1):  # addr . port
            self.at += 3
        has_to = self.skip("to")
        address = ports = None
        if self.skip(":"):
            ports = self.operand()
        elif has_to or (kind in ("snat", "dnat") and self.peek().kind is not Kind.END):
            address = self.operand()
            if kind in ("masquerade", "redirect"):  # `redirect to tcp dport map { .. }`
                address, ports = None, address
            elif self.skip(":"):
                ports = self.operand()
        flags = []
        while self.has(*NAT_FLAGS):
            flags.append(self.take().text)
            self.skip(",")
        return Translation(kind, family, address, ports, tuple(flags), prefix)

    def family(self) -> str:
        """`ip` or `ip6` before `to`; `ip` also begins a selector, as in `snat ip saddr map ..`."""
        after = self.peek(1)
        if self.has("ip", "ip6") and (
            after.text in ("to", "prefix", "interval", ":", "addr") or after.kind in (Kind.ADDRESS, Kind.SIX)
        ):
            return self.take().text
        return ""

    # sets that packets change

    def change_of_set(self, word: str) -> ChangeOfSet:
        name = self.name()
        self.take(Kind.MARK, "{")
        key = self.operand()
        bounds: list[Bound | None] = []
        while not self.has("}", ":"):
            if self.has("timeout", "expires"):
                self.at += 2
            elif self.skip("comment"):
                self.take(Kind.STRING)
            else:
                bounds.append(self.bound_of_element())
        data = self.operand() if self.skip(":") else None
        self.take(Kind.MARK, "}")
        return ChangeOfSet(word, name, key, data, tuple(it for it in bounds if it))

    def bound_of_element(self) -> Bound | None:
        if self.skip("counter"):
            self.read_counter()
            return None
        if self.has("ct") and self.has("count", ahead=1):
            return self.connections()
        if self.has("limit", "quota"):
            found = self.read_limit() if self.take().text == "limit" else self.read_quota()
            if isinstance(found, Bound):
                return found
        raise NotFitted(f"`{self.peek().text}` isn't understood in what is added to a set")

    def old_change_of_set(self) -> ChangeOfSet:
        """`set add KEY @NAME`, the older spelling."""
        self.take()
        word = self.take().text
        key = self.operand()
        if self.has("timeout"):
            self.at += 2
        self.take(Kind.MARK, "@")
        return ChangeOfSet(word, self.name(), key, None, ())

    def read_meter(self) -> ChangeOfSet:
        """`meter NAME { KEY limit rate .. }`: a set of its own."""
        name = self.peek()
        self.name()
        size = self.number() if self.skip("size") else None
        self.tokens = [*self.tokens[: self.at], replace(name, kind=Kind.WORD), *self.tokens[self.at :]]
        return replace(self.change_of_set("add"), size=size)


def begins_with_selector(it: Expression) -> bool:
    if isinstance(it, (Selector, Drawn)):
        return True
    if isinstance(it, Joined):
        return all(map(begins_with_selector, it.parts))
    return isinstance(it, Calculation) and begins_with_selector(it.left)


def translating(kind: str) -> Callable[[RuleReader], Translation]:
    return lambda reader: reader.translation(kind)


def unreadable(why: str) -> Callable[[RuleReader], NoReturn]:
    def refuse(_: RuleReader) -> NoReturn:
        raise NotFitted(why)

    return refuse


# by the first word of a statement what reads the rest of it
READERS: dict[str, Callable[[RuleReader], What]] = {
    "counter": RuleReader.read_counter,
    "log": RuleReader.read_log,
    "limit": RuleReader.read_limit,
    "quota": RuleReader.read_quota,
    "reject": RuleReader.read_reject,
    "notrack": RuleReader.read_notrack,
    "last": RuleReader.read_last,
    "queue": RuleReader.read_queue,
    "dup": RuleReader.read_dup,
    "flow": RuleReader.read_flow,
    "meter": RuleReader.read_meter,
    **{kind: translating(kind) for kind in ("snat", "dnat", "masquerade", "redirect")},
    "synproxy": unreadable("`synproxy` answers for the host behind it, with packets of the box's own"),
    "tproxy": unreadable("`tproxy` gives packets to a program of the box"),
    "fwd": unreadable("`fwd` sends packets past routing"),
    "xt": unreadable("`xt` is a part of iptables that nft(8) can't spell"),
}
