"""Stands in for `nftrun diff`, slowly: it tells of some facts by which two rulesets differ, each on a line of its own,
and that there are more."""
from __future__ import annotations

import sys

from support import TOP

sys.path.insert(0, str(TOP / "tests/random"))

from drawn import dotted  # noqa: E402
from facts import KNOWN, Facts  # noqa: E402
from judging import Judging  # noqa: E402
from stages import BY_NAME, Pair, Result  # noqa: E402
from tracking import ICMP, TCP, UDP  # noqa: E402

MORE = "at least 1 more"


def line_of(facts: Facts) -> str:
    """A line of one packet."""
    numbers = {
        "ip saddr": dotted(facts.source), "ip daddr": dotted(facts.destination), "ip protocol": facts.protocol,
        "ip ttl": facts.ttl, "ip length": facts.length, "meta mark": facts.mark}
    if facts.protocol in (TCP, UDP):
        numbers.update({"th sport": facts.source_port, "th dport": facts.destination_port})
    if facts.protocol == ICMP:
        numbers["icmp type"] = facts.icmp_type
    words = [f'iifname "{facts.input.name}"', *(f"{selector} {number}" for selector, number in numbers.items())]
    if facts.protocol == TCP:
        flags = [word for bit, word in enumerate("fin syn rst psh ack urg ecn cwr".split()) if facts.flags >> bit & 1]
        all_flags = "fin | syn | rst | psh | ack | urg | ecn | cwr"
        words.append(f"tcp flags & ({all_flags}) == {'(' + ' | '.join(flags) + ')' if flags else '0'}")
    words += [f'oifname "{facts.output.name}"'] if facts.output else []
    words += [f"ct state {facts.state.word}"] if facts.state else []
    if facts.state in KNOWN:
        words += [f"ct direction {'reply' if facts.is_reply else 'original'}", f"ct mark {facts.ct_mark}"]
        words += [f"ct status {'' if facts.status & bit else '!= '}{word}"
                  for word, bit in (("seen-reply", 2), ("snat", 16), ("dnat", 32))]
    return " ".join(words)


def outcome(here: Result, there: Result) -> str:
    """What one ruleset does."""
    text = f"{here.verdict} {here.by}"
    if here.mark != there.mark:
        text += f" with meta mark {here.mark}"
    if here.ct_mark != there.ct_mark:
        text += f" with ct mark {here.ct_mark}"
    return text + (" with notrack" if here.is_untracked and not there.is_untracked else "")


def rank(pair: Pair) -> int:
    verdicts = pair.old.verdict, pair.new.verdict
    return 2 if verdicts[0] == verdicts[1] else 1 if "drop" not in verdicts else 0


def answer(one: Judging, count: int) -> str:
    """What it prints of two rulesets."""
    classes: dict[tuple[int, str], list[str]] = {}
    for stage in BY_NAME:
        for facts in one.facts_at(stage, count):
            pair = one.pair_at(stage, facts)
            if one.comes(facts) and not pair.old.is_like(pair.new):
                head = f"{stage}: {outcome(pair.old, pair.new)}, now {outcome(pair.new, pair.old)}"
                classes.setdefault((rank(pair), head), []).append(line_of(facts))
    lines: list[str] = []
    for (_, head), packets in sorted(classes.items()):
        told = list(dict.fromkeys(packets))[:19]
        lines += [head, *(f"  {line}" for line in told), f"  {MORE}"]
    return "\n".join([*lines, MORE, ""]) if lines else "the same for every packet\n"
