"""Rulesets, box files and captures that are altered by chance, the same for the same seed."""
from __future__ import annotations

import glob
import random
import re
import struct
from collections import defaultdict
from dataclasses import dataclass
from typing import Callable, Sequence

from captures import placed
from files import ROWS, TOP, contents
from plain import ETHERNET, LINUX_SLL2, MICROSECONDS, NANOSECONDS, RAW_IP, checksum
from rows import rows
from words import SPOKEN

MOST = 1_048_576
NUMBERS = [0, 1, 2, 3, 15, 16, 17, 31, 32, 33, 63, 64, 127, 128, 255, 256, 1023, 1024, 16384, 16385, 32767, 32768]
NUMBERS += [65535, 65536, 65537, 262144, 262145, 604800, 604801, 2**31 - 1, 2**31, 2**32 - 1, 2**32, 2**62, 2**62 + 1]
NUMBERS += [2**63 - 1, 2**63, 2**64 - 1, 2**64, 10**30]
WORDS = re.compile(rb"[A-Za-z_][A-Za-z0-9_.-]*|[0-9][0-9a-fx./]*|\"[^\"\n]*\"|\n|[ \t]+|.", re.S)
EXTRA = [*(
    b"{ } ; , \" # \\ \n != == < > <= >= - / * @ 0x 07 1.2.3.256 255.255.255.255 0.0.0.0/0 $ ! . : vmap map set chain"
    b" table inet nat hook priority policy conntrack to prefix packets bytes code tos elements interval constant"
    b" verdict interface route default idle transitory ask other"
).split(b" "), *(word.encode() for word in SPOKEN)]
FIELDS = (MICROSECONDS, NANOSECONDS, RAW_IP, ETHERNET, LINUX_SLL2, 999_999, 1_000_000, 999_999_999, 10**9)
# Where a packet is altered, and to what.
PLACES = (0, 1, 2, 3, 6, 7, 8, 9, 9, 12, 15, 16, 19, 20, 21, 22, 23, 24, 25, 28, 29, 37, 41, 48, 49)
OCTETS = (0, 1, 4, 5, 6, 8, 11, 17, 64, 127, 128, 255)
LINKS = {b"\x01\0": 14, b"\x14\x01": 20}  # the lengths of link headers

Alter = Callable[[bytes, Sequence[bytes]], bytes]  # takes what is damaged, and others of its kind


@dataclass(frozen=True)
class Case:
    """A ruleset, a box file and a capture."""

    rules: bytes
    box: bytes
    capture: bytes

    @property
    def files(self) -> dict[str, bytes]:
        return {"rules": self.rules, "box": self.box, "in.pcap": self.capture}

    @property
    def size(self) -> int:
        return len(self.rules) + len(self.box) + len(self.capture)


@dataclass(frozen=True)
class Corpus:
    """What there is to damage."""

    rulesets: Sequence[bytes]
    boxes: Sequence[bytes]
    captures: Sequence[bytes]


def corpus() -> Corpus:
    """That of the examples and of the tests of rows and calls."""
    folders = (f"{TOP}/examples/*", ROWS, f"{TOP}/tests/calls")
    rulesets = {contents(path) for folder in folders for path in glob.glob(f"{folder}/*.nft")}
    texts = [contents(path) for folder in folders for path in glob.glob(f"{folder}/*.txt")]
    boxes = {text for text in texts if b"default " in text or b"interface " in text}
    captures = {contents(path) for folder in folders for path in glob.glob(f"{folder}/*.pcap")}
    for path in glob.glob(f"{ROWS}/*.rows"):
        for row in rows(path):
            rulesets.update(text.encode() for text in row.rulesets)
            captures.add(row.capture(400))
    return Corpus(sorted(rulesets), sorted(boxes), sorted(captures))


class Bytes:
    """Damage to any bytes."""

    def __init__(self, seed: int) -> None:
        self.dice = random.Random(seed)

    def some(self, most: int) -> int:
        """A small number, seldom a great one."""
        return min(most, int(self.dice.expovariate(0.7)) + 1)

    def span(self, data: bytes) -> tuple[int, int]:
        """A place and another behind it, mostly near."""
        start = self.dice.randrange(len(data) + 1)
        length = self.some(40) if self.dice.random() < 0.7 else self.dice.randrange(len(data) + 1)
        return start, min(len(data), start + length)

    def bits(self, data: bytes, _: Sequence[bytes]) -> bytes:
        altered = bytearray(data)
        for _each in range(self.some(8)):
            if altered:
                altered[self.dice.randrange(len(altered))] ^= 1 << self.dice.randrange(8)
        return bytes(altered)

    def a_byte(self, data: bytes, _: Sequence[bytes]) -> bytes:
        at = self.dice.randrange(len(data) + 1)
        return data[:at] + self.dice.choice(
            (b"\0", b"\xff", b"\x7f", b"\x80", b"\n", b'"', b"\\", b"\r")) + data[at + 1:]

    def cut(self, data: bytes, _: Sequence[bytes]) -> bytes:
        start, stop = self.span(data)
        return data[:start] + data[stop:]

    def end(self, data: bytes, _: Sequence[bytes]) -> bytes:
        return data[:self.dice.randrange(len(data) + 1)]

    def splice(self, data: bytes, others: Sequence[bytes]) -> bytes:
        other = self.dice.choice(others)
        return data[:self.dice.randrange(len(data) + 1)] + other[self.dice.randrange(len(other) + 1):]

    def insert(self, data: bytes, others: Sequence[bytes]) -> bytes:
        other = self.dice.choice(others)
        start, stop = self.span(other)
        at = self.dice.randrange(len(data) + 1)
        return data[:at] + other[start:stop] + data[at:]

    def swap(self, data: bytes, _: Sequence[bytes]) -> bytes:
        a, b = self.span(data)
        c, d = self.span(data)
        return data if b > c else data[:a] + data[c:d] + data[b:c] + data[a:b] + data[d:]

    def repeat(self, data: bytes, _: Sequence[bytes]) -> bytes:
        start, stop = self.span(data)
        piece = data[start:stop]
        if not piece:
            return data
        most = max(1, (MOST - len(data)) // len(piece))
        is_usual = self.dice.random() < 0.99
        count = self.dice.choice((1, 2, 3, 16, 17, 64, 65)) if is_usual else self.dice.randrange(most + 3)
        return data[:stop] + piece * count + data[stop:]


class Texts(Bytes):
    """Damage to texts: words swapped, left out, doubled, taken from elsewhere, and numbers put at a limit; and the same
    to lines."""

    def __init__(self, seed: int, known: Corpus) -> None:
        super().__init__(seed)
        words = set(EXTRA)
        for text in [*known.rulesets, *known.boxes]:
            words.update(word for word in WORDS.findall(text) if len(word) < 40)
        self.words: list[bytes] = sorted(words)
        self.alike: dict[int, list[bytes]] = defaultdict(list)
        for word in self.words:
            self.alike[len(word)].append(word)

    def tokens(self, data: bytes, _: Sequence[bytes]) -> bytes:
        words: list[bytes] = WORDS.findall(data)
        if not words:
            return data
        for _each in range(self.some(6)):
            at, kind = self.dice.randrange(len(words)), self.dice.randrange(7)
            if kind == 0:
                other = self.dice.randrange(len(words))
                words[at], words[other] = words[other], words[at]
            elif kind < 6:
                words[at] = self.other_word(words[at], kind)
            else:
                self.put_number(words, at)
        return b"".join(words)

    def other_word(self, word: bytes, kind: int) -> bytes:
        """What stands in place of a word."""
        if kind == 1:
            return b""
        if kind == 2:
            return word + b" " + word
        if kind == 3:
            return self.dice.choice(self.words)
        if kind == 4:
            return word + b" " + self.dice.choice(self.words) + b" "
        # A word in place of another of its length, which may well be of its kind.
        return self.dice.choice(self.alike.get(len(word), self.words))

    def put_number(self, words: list[bytes], at: int) -> None:
        """Puts the next number behind a place at a limit."""
        for place in range(at, min(at + 200, len(words))):
            if words[place][:1].isdigit():
                words[place] = self.number(words[place])
                return

    def number(self, word: bytes) -> bytes:
        """A number at a limit, in place of the whole word or of a group of it."""
        fresh = str(self.dice.choice(NUMBERS)).encode()
        if self.dice.random() < 0.2:
            fresh = hex(self.dice.choice(NUMBERS)).encode()
        groups: list[bytes] = re.split(rb"([./])", word)
        groups[self.dice.randrange(0, len(groups), 2)] = fresh
        return b"".join(groups)

    def lines(self, data: bytes, others: Sequence[bytes]) -> bytes:
        """A line doubled, moved, left out or taken from elsewhere, or one of them many times."""
        lines = data.split(b"\n")
        at, kind = self.dice.randrange(len(lines)), self.dice.randrange(5)
        if kind == 0:
            del lines[at]
        elif kind == 1:
            lines.insert(self.dice.randrange(len(lines)), lines[at])
        elif kind == 2:
            other = self.dice.choice(others).split(b"\n")
            lines.insert(at, self.dice.choice(other))
        elif kind == 3:
            self.dice.shuffle(lines)
        else:
            most = (MOST - len(data)) // (len(lines[at]) + 1)
            count = self.some(70) if self.dice.random() < 0.99 else self.dice.randrange(1, most + 3)
            lines[at:at + 1] = [lines[at]] * max(1, count)
        return b"\n".join(lines)

    def text(self, text: bytes, others: Sequence[bytes]) -> bytes:
        """A text with one or a few faults."""
        ways: tuple[Alter, ...] = (self.tokens, self.tokens, self.tokens, self.lines, self.lines, self.lines, self.bits)
        ways += (self.a_byte, self.cut, self.end, self.splice, self.insert, self.swap, self.repeat)
        for _each in range(self.some(4)):
            text = self.dice.choice(ways)(text, others)
        return text[:MOST + 2]


class Damage(Texts):
    """Damage to texts and captures."""

    def __init__(self, seed: int, known: Corpus, usual: bytes, sound: Sequence[bytes]) -> None:
        super().__init__(seed, known)
        self.known = known
        # The box file whose interfaces rulesets and captures name, and rulesets that are accepted with it.
        self.usual, self.sound = usual, sound

    def capture(self, data: bytes) -> bytes:
        """A capture with one or a few faults."""
        ways: tuple[Alter, ...] = (self.fields, self.fields, self.records, self.records, self.packets, self.packets)
        ways += (self.packets, self.bits, self.cut, self.end, self.splice, self.insert, self.repeat, self.a_byte)
        for _each in range(self.some(4)):
            data = self.dice.choice(ways)(data, self.known.captures)
        return data[:MOST + 2]

    def fields(self, data: bytes, _: Sequence[bytes]) -> bytes:
        """A field of a header of the capture or of a record at a limit."""
        starts = [place.start for place in placed(data)]
        altered = bytearray(data)
        at = self.dice.choice([0, 4, 8, 12, 16, 20] if not starts or self.dice.random() < 0.2 else starts)
        if at >= 24:
            at += self.dice.choice((0, 4, 8, 8, 12))
        order = self.dice.choice("<>")
        number = self.dice.choice(NUMBERS) if self.dice.random() < 0.8 else self.dice.randrange(2**20)
        if self.dice.random() < 0.3:
            number = self.dice.choice(FIELDS)
        altered[at:at + 4] = struct.pack(order + "I", number % 2**32)
        return bytes(altered)

    def records(self, data: bytes, others: Sequence[bytes]) -> bytes:
        """Records left out, doubled, moved, or taken from elsewhere."""
        pieces = [data[place.start:place.stop] for place in placed(data)]
        if not pieces:
            return data
        kind, at = self.dice.randrange(5), self.dice.randrange(len(pieces))
        if kind == 0:
            del pieces[at]
        elif kind == 1:
            most = max(1, (MOST - len(data)) // max(1, len(pieces[at])))
            count = self.some(40) if self.dice.random() < 0.99 else self.dice.randrange(most + 1)
            pieces[at:at] = [pieces[at]] * count
        elif kind == 2:
            self.dice.shuffle(pieces)
        elif kind == 3:
            other = self.dice.choice(others)
            found = [other[place.start:place.stop] for place in placed(other)]
            pieces[at:at] = found[:self.some(100)]
        else:
            pieces = pieces * self.some(9)
        return (data[:24] + b"".join(pieces))[:MOST + 2]

    def packets(self, data: bytes, _: Sequence[bytes]) -> bytes:
        """A field of a packet altered, mostly with a right header checksum afterwards."""
        places = placed(data)
        if not places:
            return data
        altered = bytearray(data)
        skip = LINKS.get(data[20:22], 0)
        for _each in range(self.some(5)):
            place = self.dice.choice(places)
            start = place.start + 16 + skip
            packet = self.packet(bytes(altered[start:place.stop]))
            if packet is not None:
                altered[start:start + len(packet)] = packet
        return bytes(altered)

    def packet(self, data: bytes) -> bytes | None:
        """The packet with a field altered, or nothing where it is too short for one."""
        if len(data) < 20:
            return None
        packet = bytearray(data)
        at = self.dice.choice(PLACES)
        if at < len(packet):
            packet[at] = self.dice.choice((*OCTETS, self.dice.randrange(256)))
        if self.dice.random() < 0.1:
            packet = packet[:self.dice.randrange(len(packet) + 1)]
            if len(packet) < 20:
                return None
        if self.dice.random() < 0.85:
            size = min(len(packet), max(20, packet[0] % 16 * 4))
            packet[10:12] = b"\0\0"
            packet[10:12] = struct.pack(">H", checksum(bytes(packet[:size])))
        return bytes(packet)

    def drawn(self) -> Case:
        """Three texts, of which one or more are damaged."""
        dice, known = self.dice, self.known
        kinds = dice.choice(((0,), (0,), (0,), (2,), (2,), (2,), (2,), (1,), (0, 2), (0, 1, 2)))
        # What isn't damaged is mostly accepted, and the box one whose interfaces rulesets and captures name.
        sources = known.rulesets if 0 in kinds or dice.random() < 0.1 else self.sound
        rules, box, capture = dice.choice(sources), self.usual, dice.choice(known.captures)
        if 1 in kinds or dice.random() < 0.1:
            box = dice.choice(known.boxes)
        if 0 in kinds:
            rules = self.text(rules, known.rulesets)
        if 1 in kinds:
            box = self.text(box, known.boxes)
        if 2 in kinds:
            capture = self.capture(capture)
        return Case(rules, box, capture)


def damage_of(seed: int) -> Damage:
    """Damage to what the repository has."""
    names = ("nat", "connections", "errors", "rules", "trace")
    sound = [contents(path) for path in sorted(glob.glob(f"{ROWS}/*.nft"))]
    sound += [contents(f"{TOP}/examples/{name}/rules.nft") for name in names]
    return Damage(seed, corpus(), contents(f"{ROWS}/box.txt"), sound)
