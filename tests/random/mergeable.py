"""Rulesets drawn by chance, the same for the same seed, with runs of rules that nft(8) may merge: of the same selectors
with other values."""
from __future__ import annotations

import random
from typing import Sequence

from drawn import BITS, WORDS, Drawing, dotted
from words import KINDS, ORDERED, want_each

FREE = ("ip saddr", "ip daddr", "ip ttl", "ip length", "ct state", "ct mark", "ct direction", "meta mark", "iifname",
        "iif", "ct status")
# Of these a rule has one at most.
TRANSPORT = ("tcp dport", "tcp sport", "tcp flags", "udp dport", "udp sport", "icmp type", "ip protocol",
             "meta l4proto", "th dport")
# These have no value on some hooks, the same of all packets, or that of another.
UNDRAWN = ("oifname", "oif", "meta nfproto", "meta length", "th sport")
want_each("FREE, TRANSPORT and UNDRAWN of tests/random/mergeable.py", (*FREE, *TRANSPORT, *UNDRAWN))
BASES = (
    ("filter", "prerouting", "-150"), ("filter", "input", "0"), ("filter", "forward", "0"),
    ("filter", "forward", "10"), ("nat", "prerouting", "-100"), ("nat", "postrouting", "100"))
VERDICTS = ("accept", "accept", "drop", "return", "jump called", "goto called", "continue")


class MergeableDrawing(Drawing):
    """Draws a ruleset."""

    def ruleset(self) -> str:
        chains = [self.chain("called", "", ("accept", "drop", "return"), "")]
        for number, (kind, hook, priority) in enumerate(self.dice.sample(BASES, 3)):
            head = f"type {kind} hook {hook} priority {priority}; policy {self.one('accept', 'drop')};"
            chains.append(self.chain(f"b{number}", head, VERDICTS, hook if kind == "nat" else ""))
        return "\n".join([f"table {self.one('ip', 'inet')} t {{", *chains, "}", ""])

    def chain(self, name: str, head: str, verdicts: Sequence[str], nat: str) -> str:
        rules = [rule for _ in range(2 + self.below(4)) for rule in self.run(verdicts, nat)]
        return "\n".join([f" chain {name} {{", *(f"  {line}" for line in [head, *rules] if line), " }"])

    def run(self, verdicts: Sequence[str], nat: str) -> list[str]:
        """Rules of the same selectors, of which mostly all have one verdict."""
        selectors = self.dice.sample(FREE, self.one(0, 1, 1, 1, 2, 2)) if self.chance(90) else []
        selectors += [self.one(*TRANSPORT)] if not selectors or self.chance(50) else []
        self.dice.shuffle(selectors)
        middle = self.one("", "", "", "counter ", 'log prefix "a" ', "meta mark set 7 ")
        end = self.end(verdicts, nat)
        is_like = self.chance(60)
        rules = []
        for _ in range(2 + self.below(4)):
            matches = " ".join(f"{selector} {self.operand(selector)}" for selector in selectors)
            rules.append(f"{matches} {middle}{end if is_like else self.end(verdicts, nat)}")
        return rules

    def end(self, verdicts: Sequence[str], nat: str) -> str:
        if not nat or self.chance(20):
            return self.one(*verdicts)
        port = f":{1 + self.below(48)}" if self.chance(20) else ""
        return f"{'dnat' if nat == 'prerouting' else 'snat'} to {dotted(self.address())}{port}"

    def operand(self, selector: str) -> str:
        """A value, a range, a set or bits, with an operator where it has one."""
        kind = KINDS[selector]
        if kind in BITS:
            operators = ("", "", "== ") if kind == "tcp_flag" else ("", "", "== ", "!= ")
            return self.one(*operators) + ",".join(self.bit_words(kind))
        if kind == "ct_dir":
            return self.one("original", "reply")
        operator = "!= " if self.chance(4) else "< " if kind in ORDERED and self.chance(3) else ""
        if operator != "< " and self.chance(15):
            return operator + "{ " + ", ".join(self.value(kind).text for _ in range(1 + self.below(3))) + " }"
        return operator + (self.value(kind) if operator == "< " else self.part(kind)).text

    def bit_words(self, kind: str) -> list[str]:
        words = {"ct_state": ("new", "established", "related", "invalid", "untracked"),
                 "tcp_flag": ("syn", "ack", "fin", "rst")}.get(kind, tuple(WORDS[kind]))
        return self.dice.sample(words, 1 if self.chance(80) else 2)


def mergeable(seed: int) -> str:
    """The ruleset of a seed."""
    return MergeableDrawing(random.Random(f"merges {seed}"), False).ruleset()
