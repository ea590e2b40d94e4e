"""The guesses: what is assumed where nobody knows, and what may be assumed instead."""
from __future__ import annotations

from dataclasses import dataclass
from typing import Mapping

REFUSE = "refuse"


@dataclass(frozen=True)
class Assumption:
    """`ways` in order, the usual one first; `refuse` in place of a second one: there is none, but the guess may be
    refused."""

    ways: tuple[str, str]
    why: str


@dataclass(frozen=True)
class Guess:
    """What is guessed: its place in the text, what stands there, and the name of the assumption."""

    place: str
    what: str
    name: str


ASSUMPTIONS = {
    "limit": Assumption(("under", "over"), "packets stay below the rate"),
    "quota": Assumption(("under", "over"), "bytes stay below the quota"),
    "connections": Assumption(("under", "over"), "connections stay below the number"),
    "random": Assumption(("first", "last"), "the number or hash that is drawn is the first one"),
    "queue": Assumption(("accept", "drop"), "the program behind the queue accepts"),
    "dynamic": Assumption(("listed", "hit"), "no packet adds to the set: it has what is listed"),
    "room": Assumption(("free", "full"), "sets have room for what rules add; where one is full, Linux ends the rule"),
    "timeout": Assumption(("keep", "gone"), "no element runs out"),
    "helper": Assumption(("miss", "hit"), "no connection has a helper"),
    "fib": Assumption(("miss", "hit"), "the routing table says otherwise; --box BOX knows more"),
    "link": Assumption(("miss", "hit"), "packets have other link addresses"),
    "owner": Assumption(("miss", "hit"), "packets are of another process of the box, or none"),
    "time": Assumption(("hit", "miss"), "it is the time"),
    "ct": Assumption(("miss", "hit"), "connections aren't so"),
    "header": Assumption(("miss", "hit"), "headers aren't so"),
    "route": Assumption(("miss", "hit"), "routes aren't so"),
    "meta": Assumption(("miss", "hit"), "packets aren't so"),
    "setting": Assumption(
        ("ignored", REFUSE),
        "no helper expects a connection, and no idle limit or zone that is set makes a difference",
    ),
    "layer2": Assumption(("accept", REFUSE), "what bridge and netdev tables judge passes unchanged"),
    "nat": Assumption(("first", "last"), "the first address or port of the range is taken"),
    "offload": Assumption(("slow", REFUSE), "every packet meets the forward chains"),
}


class Assumptions:
    """What is assumed; `only` is the one guess that is turned, for `--both`."""

    def __init__(self, chosen: Mapping[str, str] | None = None, only: Guess | None = None) -> None:
        self.chosen = dict(chosen or {})
        self.only = only
        self.asked: list[tuple[Guess, str]] = []  # each guess with the way it was decided

    def way(self, name: str, place: str, what: str) -> str:
        """How a guess is decided; it is remembered."""
        ways = ASSUMPTIONS[name].ways
        way = self.chosen.get(name, ways[0])
        guess = Guess(place, what, name)
        if self.only == guess:
            way = other_way(name, way)
        self.asked.append((guess, way))
        return way

    def chosen_way(self, name: str, place: str, what: str) -> str:
        """How a guess that was made already was decided; the usual way where it wasn't made."""
        made = [way for guess, way in self.asked if guess == Guess(place, what, name)]
        return made[-1] if made else ASSUMPTIONS[name].ways[0]

    def why(self, name: str, way: str) -> str:
        usual = ASSUMPTIONS[name]
        if way == usual.ways[0]:
            return f"assumed: {usual.why}; --assume {name}={usual.ways[1]} takes the other"
        return f"assumed as asked: {name}={way}"


def other_way(name: str, way: str) -> str:
    first, second = ASSUMPTIONS[name].ways
    return second if way == first else first


def listed() -> str:
    """All that may be assumed, for the usage."""
    return "; ".join(f"{name}={'|'.join(it.ways)}" for name, it in ASSUMPTIONS.items())
