"""What a comparison comes to, in one sentence; it is never better than what compare says of it."""
from __future__ import annotations

from dataclasses import dataclass
from typing import TYPE_CHECKING, Iterator, Mapping, Sequence

from pages.texts import number, plural
from toolbox.differences import BLOCKED, OPENED, OTHERWISE, REWRITTEN

if TYPE_CHECKING:
    from toolbox.every_packet import EveryPacket
    from toolbox.guard import Seen

DOES = {OPENED: "opens {}", BLOCKED: "blocks {}", REWRITTEN: "rewrites {}",
        OTHERWISE: "drops {} for another cause"}


@dataclass(frozen=True)
class Verdict:
    """The sentence, and which class of the style sheet it has."""

    text: str
    tone: str


def verdict(seen: Seen, connections: Mapping[str, int], unsettled: Sequence[str],
            every: EveryPacket | None = None) -> Verdict:
    """Of a comparison, by kind the connections that differ, the rulesets whose replay didn't settle, and what is known
    of all packets."""
    if every is not None and every.is_same and not any(connections.values()):
        return Verdict("The new ruleset does the same as the old one with every packet.", "same")
    parts = [part for part in (
        seen.nothing and f"nothing was compared: {seen.nothing}", uncompared(seen), differences(seen, connections),
        *remainders(seen, unsettled, every)) if part]
    text = "; ".join(parts)
    tone = "unknown" if unsettled else tone_of(seen, connections, every)
    return Verdict(f"{text[0].upper()}{text[1:]}.", tone)


def uncompared(seen: Seen) -> str | None:
    """How much it is of which the rulesets weren't compared."""
    return seen.not_compared.text() if seen.not_compared else None


def differences(seen: Seen, connections: Mapping[str, int]) -> str | None:
    """What the new ruleset does otherwise; None where nothing does and nothing was compared."""
    told = [DOES[kind].format(plural(connections[kind], "connection")) for kind in DOES if connections.get(kind)]
    if told:
        return f"the new ruleset {' and '.join(filter(None, (', '.join(told[:-1]), told[-1])))}"
    if seen.nothing:
        return None
    return "nothing differs in the rest of this capture" if uncompared(seen) else "nothing differs in this capture"


def remainders(seen: Seen, unsettled: Sequence[str], every: EveryPacket | None) -> Iterator[str]:
    """What the sentence doesn't hold for; nothing is known of what no packet met, but by the classes of all packets."""
    classes = every.text() if every is not None and every.classes else None
    if seen.unmet:
        many = len(seen.unmet)
        known = "" if classes else ": nothing is known of that"
        yield f"{plural(many, 'change')} {'was' if many == 1 else 'were'} met by no packet{known}"
    if seen.untold:
        changes = plural(len(seen.untold), "more change" if seen.unmet else "change")
        yield f"whether a packet met {changes} a run doesn't tell"
    if classes:
        yield classes
    if seen.is_torn:
        yield f"the capture is torn, and this is of its {number(seen.records)} whole records"
    for name in unsettled:
        yield f"the replay of {name} didn't settle"


def tone_of(seen: Seen, connections: Mapping[str, int], every: EveryPacket | None) -> str:
    if seen.nothing or uncompared(seen) or seen.is_torn:
        return "unknown"
    if not any(connections.values()):
        return "unknown" if seen.unmet or seen.untold or every is not None and every.classes else "same"
    return "opened" if connections.get(OPENED) else "blocked" if connections.get(BLOCKED) else "rewritten"
