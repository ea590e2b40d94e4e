"""Rulesets as text (docs/SPEC.md, 1): chains and rules with their numbers, lines and texts.

What nftrun refuses may be read here as anything.
"""
from __future__ import annotations

from dataclasses import dataclass
from typing import Iterator, Sequence

from toolbox.commands import Refused, read_text
from toolbox.language import NFT
from toolbox.lexer import Kind, Token, tokens_of

# Selectors whose values may be spelled like statements: an interface may be called `log`,
# `redirect` is a type of ICMP, and `snat` a status.
WORDY_SELECTORS = (*NFT.without_meta,
                   *(name for name in NFT.selectors if not NFT.words_of(name).keys().isdisjoint(NFT.statements)))
OPERATORS = ("==", "!=", "<", ">", "<=", ">=")
ENDS = ("accept", "drop", "return", "goto")
VERDICTS = (*NFT.verdicts, "vmap")
TRANSLATIONS = ("snat", "dnat", "masquerade", "redirect")
MOST_DIGITS = 20  # of a number that any ruleset has
EARLY = -200  # filter chains of prerouting up to here run before connections are looked for


class Rule:
    """One rule: its chain as reports name it, its number there, its first line and its text."""

    def __init__(self, chain: str, number: int, tokens: list[Token]) -> None:
        self.chain = chain
        self.number = number
        self.line = tokens[0].line
        self.tokens = tokens
        self.text = "".join((" " if token.is_parted else "") + token.text for token in tokens).strip()
        self.words = list(statement_words(tokens))
        self.decides = any(word in VERDICTS + TRANSLATIONS for word in self.words)
        self.logs = "log" in self.words
        self.counter_starts = list(counter_starts(self.words))

    @property
    def place(self) -> tuple[str, int]:
        return self.chain, self.number


class Chain:
    """One chain: `name` is "FAMILY TABLE CHAIN". A chain without a hook is led to by others alone."""

    def __init__(self, name: str, line: int) -> None:
        self.name = name
        self.line = line
        self.type: str | None = None
        self.hook: str | None = None
        self.priority, self.policy = 0, "accept"
        self.policy_line = line
        self.rules: list[Rule] = []

    @property
    def is_early(self) -> bool:
        return self.type == "filter" and self.hook == "prerouting" and self.priority <= EARLY

    def take_head(self, texts: list[str]) -> None:
        """Reads `type filter hook forward priority filter + 5` or `policy drop`."""
        if texts[0] == "policy":
            self.policy = "".join(texts[1:2])
        elif texts[0] == "type" and "hook" in texts and "priority" in texts:
            self.type = texts[1]
            self.hook = "".join(texts[texts.index("hook") + 1:][:1])
            self.priority = priority_of(texts[texts.index("priority") + 1:])


@dataclass(frozen=True)
class NamedSet:
    """A named set or map: `name` is "FAMILY TABLE NAME", `tokens` what stands between its braces."""

    name: str
    tokens: list[Token]

    @property
    def text(self) -> str:
        return " ".join(token.text for token in self.tokens if token.text not in ("\n", ";"))


class Ruleset:
    """The chains and rules of a text, in its order; named sets and maps by their names."""

    def __init__(self, text: str) -> None:
        self.text = text
        blocks = list(blocks_of(text))
        self.chains = [block for block in blocks if isinstance(block, Chain)]
        self.sets = {block.name: block for block in blocks if isinstance(block, NamedSet)}
        self.rules = [rule for chain in self.chains for rule in chain.rules]
        self.by_place = {rule.place: rule for rule in self.rules}
        self.by_name = {chain.name: chain for chain in self.chains}

    def rule(self, chain: str, number: int | None) -> Rule | None:
        """The rule that a report names, or None where there is none, as of a policy."""
        return None if number is None else self.by_place.get((chain, number))

    def sets_of(self, rule: Rule) -> list[NamedSet]:
        """The named sets and maps that a rule asks."""
        table, texts = rule.chain.rsplit(" ", 1)[0], [token.text for token in rule.tokens]
        names = (f"{table} {name}" for mark, name in zip(texts, texts[1:]) if mark == "@")
        return [self.sets[name] for name in names if name in self.sets]

    def targets(self, rule: Rule) -> list[Chain]:
        """The chains of the table that a rule leads to, also by a verdict map, written there or named."""
        table = rule.chain.rsplit(" ", 1)[0]
        led = [name for tokens in (rule.tokens, *(one.tokens for one in self.sets_of(rule)))
               for word, name in zip(tokens, tokens[1:]) if word.kind is Kind.WORD and word.text in ("jump", "goto")]
        names = dict.fromkeys(f"{table} {token.text}" for token in led)
        return [self.by_name[name] for name in names if name in self.by_name]

    def behind(self, base: Chain) -> dict[str, Chain]:
        """The chain, and all that it leads to, by name."""
        found: dict[str, Chain] = {}
        work = [base]
        while work:
            chain = work.pop()
            if chain.name not in found:
                found[chain.name] = chain
                work += [target for rule in chain.rules for target in self.targets(rule)]
        return found

    def text_of(self, chain: str, number: int | None) -> str:
        """The text of a rule as a report names it, or of the policy where `number` is None."""
        if number is None:
            return "policy"
        rule = self.rule(chain, number)
        return rule.text if rule else f"rule {number}"

    def line_of(self, chain: str, number: int | None) -> int | None:
        """The line of a rule as a report names it, or of the chain's head where `number` is None."""
        if number is None:
            there = self.by_name.get(chain)
            return there.policy_line if there else None
        rule = self.rule(chain, number)
        return rule.line if rule else None


def read_ruleset(path: str) -> Ruleset:
    return Ruleset(read_text(path))


def rules_of(text: str) -> list[Rule]:
    """The rules of a ruleset, in the order of its text."""
    return Ruleset(text).rules


def blocks_of(text: str) -> Iterator[Chain | NamedSet]:
    """The chains, sets and maps of all tables, in the order of the text."""
    tokens = tokens_of(text)
    table = None
    position = 0
    while position < len(tokens):
        word = tokens[position].text
        if word == "table" and table is None:
            names, position = head_of_block(tokens, position + 1)
            family, name = names if len(names) == 2 else ("ip", "".join(names[-1:]))
            table = f"{family} {name}"
        elif word in ("chain", "set", "map") and table is not None:
            line = tokens[position].line
            names, position = head_of_block(tokens, position + 1)
            end = end_of_block(tokens, position)
            if word == "chain":
                yield chain_of(f"{table} {' '.join(names)}", line, tokens[position:end])
            else:
                yield NamedSet(f"{table} {' '.join(names)}", tokens[position:end])
            position = end + 1
        else:
            if word == "}":
                table = None
            position += 1


def head_of_block(tokens: list[Token], position: int) -> tuple[list[str], int]:
    """The names before a brace that opens, and the position behind it."""
    names = []
    while position < len(tokens) and tokens[position].text != "{":
        names.append(tokens[position].text)
        position += 1
    return names, position + 1


def end_of_block(tokens: list[Token], position: int) -> int:
    """The position of the brace that closes the block whose first token stands at `position`."""
    depth = 1
    while position < len(tokens):
        depth += {"{": 1, "}": -1}.get(tokens[position].text, 0)
        if depth == 0:
            break
        position += 1
    return position


def chain_of(name: str, line: int, tokens: list[Token]) -> Chain:
    """The chain of the tokens between its braces."""
    chain = Chain(name, line)
    for piece in lines_of_chain(tokens):
        if piece[0].text in ("type", "policy"):
            chain.take_head([token.text for token in piece])
            chain.policy_line = piece[0].line
        elif piece[0].text != "comment":
            chain.rules.append(Rule(name, len(chain.rules) + 1, piece))
    return chain


def lines_of_chain(tokens: list[Token]) -> Iterator[list[Token]]:
    """What stands between the ends (newlines and semicolons) that are in no braces."""
    line: list[Token] = []
    depth = 0
    for token in tokens:
        depth += {"{": 1, "}": -1}.get(token.text, 0)
        if depth == 0 and token.text in ("\n", ";"):
            if line:
                yield line
            line = []
        elif token.kind is not Kind.NEWLINE:
            line.append(token)
    if line:
        yield line


def priority_of(texts: Sequence[str]) -> int:
    """The number of `filter`, `-5`, `dstnat + 10`."""
    total, sign = 0, 1
    for text in texts:
        if text in "+-":
            sign = -1 if text == "-" else 1
        elif text in NFT.priorities:
            total += NFT.priorities[text]
        elif text.isdecimal() and len(text) <= MOST_DIGITS:
            total += sign * int(text)
    return total


def statement_words(tokens: list[Token]) -> Iterator[str]:
    """The words and numbers of a rule without names, elements, and words that are values."""
    return (token.text for token in statement_tokens(tokens))


def statement_tokens(tokens: list[Token]) -> Iterator[Token]:
    """The tokens of these words."""
    texts = [token.text for token in tokens]
    position = 0
    while position < len(texts):
        text, kind = texts[position], tokens[position].kind
        pair = " ".join(texts[position:position + 2])
        if text == "{":
            position = end_of_block(tokens, position + 1) + 1
        elif text == "@":
            position += 2
        elif pair in WORDY_SELECTORS:
            position = behind_value(tokens, position + 2)
        elif text in WORDY_SELECTORS:
            position = behind_value(tokens, position + 1)
        else:
            if kind in (Kind.WORD, Kind.NUMBER):
                yield tokens[position]
            position += 2 if text in ("jump", "goto") else 1


def behind_value(tokens: list[Token], position: int) -> int:
    """The position behind the words with which a selector is compared, or where it was if none."""
    texts = [token.text for token in tokens] + ["", ""]
    if texts[position] in OPERATORS:
        position += 1
    if texts[position] in ("map", "vmap") and texts[position + 1] in ("@", "{"):
        return position
    while position < len(tokens) and tokens[position].kind in (Kind.WORD, Kind.WILD):
        position += 1
        if texts[position] not in (",", "-"):
            break
        position += 1
    return position


def counter_starts(words: list[str]) -> Iterator[int]:
    """For each counter statement the number of packets from which it counts."""
    for position, word in enumerate(words):
        if word == "counter":
            starts_elsewhere = words[position + 1:position + 2] == ["packets"]
            yield number_of("".join(words[position + 2:position + 3])) if starts_elsewhere else 0


def number_of(text: str) -> int:
    try:
        return int(text, 16 if text.startswith("0x") else 10)
    except ValueError:
        raise Refused(f"`counter packets {text}` in the ruleset: a number is wanted") from None
