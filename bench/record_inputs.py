"""Makes the captures, the rulesets and the box files that bench/records measures.

bench/record_inputs.py FOLDER
"""
from __future__ import annotations

import pathlib
import random
import struct
import sys
from typing import Iterable, Sequence

import small_lab  # noqa: F401 (the path to the toolbox)
from toolbox.plain_captures import file_header, ip_header, record


def packet(number: int, length: int, conversations: int = 1) -> bytes:
    """A UDP packet of that length, of one of so many conversations in turn."""
    turn = number % conversations
    source = 0xC0A80100 + turn % 200 + 10
    destination = 0xC6336407
    ports_and_length = struct.pack(">HHHH", 5000 + turn // 200, 53, length - 20, 0)
    header = ip_header(length, 17, source, destination, identification=number % 65536)
    return header + ports_and_length + bytes(length - 28)


ETHERNET = bytes.fromhex("0200000000020200000000010800")


def records(count: int, length: int, link: bytes = b"", conversations: int = 1) -> bytes:
    """So many records, each of a packet of that length behind a link header."""
    return b"".join(
        record(link + packet(n, length, conversations), n // 1000, n % 1000) for n in range(count))


def capture(count: int, length: int, conversations: int = 1) -> bytes:
    return file_header() + records(count, length, conversations=conversations)


def frames(power: int) -> Sequence[bytes]:
    """10^power frames of Ethernet of 74 bytes; from 10^5 on the same 10^5 again and again."""
    piece = records(10 ** min(power, 5), 60, ETHERNET)
    return [file_header(1)] + [piece] * 10 ** max(power - 5, 0)


def ruleset() -> str:
    rules = [f"\t\tip saddr 10.0.{n}.1 ip daddr 198.51.100.{n} drop" for n in range(100)]
    head = "\t\ttype filter hook forward priority filter; policy accept;"
    return "\n".join(["table ip bench {", "\tchain forward {", head, *rules, "\t}", "}", ""])


def forward(rules: Iterable[str], before: str = "") -> str:
    head = "type filter hook forward priority filter; policy accept;"
    return "\n".join(["table ip bench {", before, "chain forward {", head, *rules, "}", "}", ""])


def rules_in_line(count: int) -> str:
    """So many rules, none of which a packet of ours meets."""
    return forward(f"ip saddr 10.{n // 65536}.{n // 256 % 256}.{n % 256} drop" for n in range(count))


def addresses(count: int) -> list[str]:
    """Addresses of no packet of ours, spread over all that there are."""
    numbers = random.Random(1).sample(range(1 << 24, 190 << 24), count)
    return [".".join(str(n >> shift & 255) for shift in (24, 16, 8, 0)) for n in numbers]


def set_of(count: int) -> str:
    return forward(["ip saddr @s drop"], f"set s {{ type ipv4_addr; elements = {{ {','.join(addresses(count))} }} }}")


def verdicts_of(count: int) -> str:
    pairs = ",".join(f"{address}:drop" for address in addresses(count))
    return forward([f"ip saddr vmap {{ {pairs} }}"])


def large_ruleset(rules: int, elements: int) -> str:
    """Many rules, and a set of many elements that none of them uses."""
    listed = ",".join(f"1.0.{n // 250}.{n % 250}" for n in range(elements))
    named = f"set s {{ type ipv4_addr; elements = {{ {listed} }} }}"
    lines = [f"tcp dport {n % 100} accept" for n in range(rules)]
    return "\n".join(["table t {", named, "chain c {", *lines, "}", "}", ""])


def table_of(lines: Iterable[str]) -> str:
    return "\n".join(["table t {", *lines, "}", ""])


def hard_to_judge() -> dict[str, list[str]]:
    """Rulesets within the limit of a text that are hard to judge, by name."""
    begins = "a-name-with-the-same-beginning-as-all-of-them-"
    pairs = ",".join(f"{n}:jump c{n % 1000}" for n in range(30_000))
    ranges = ",".join(f"{3 * n}-{3 * n + 1}:{n % 2}" for n in range(65_000))
    return {
        "gotos": [f"chain c{n} {{ goto c{n + 1}\n}}" for n in range(16_384)] + ["chain c16384 { }"],
        "jumps": [f"map m {{ type mark : verdict; elements = {{ {pairs} }} }}", *(
            f"chain c{n} {{ }}" for n in range(1_000)), "chain all {", *["meta mark vmap @m"] * 8_000, "}"],
        "doubling": [f"chain c{n} {{ jump c{n + 1}\njump c{n + 1}\n}}" for n in range(16)] + ["chain c16 { accept\n}"],
        "ranges": [f"map m {{ type mark : mark; elements = {{ {ranges} }} }}"],
        "names": [f"chain {begins}{n} {{ }}" for n in range(16_384)],
    }


BOX = """interface 2 lan 192.168.1.1/24
interface 3 wan 203.0.113.1/24
route 0.0.0.0/0 wan
default lan
"""


def box_of_routes(routes: int) -> str:
    """A box of so many routes, those of its two interfaces and the one to all addresses among them."""
    return BOX + "".join(f"route 10.{n // 256}.{n % 256}.0/24 wan\n" for n in range(routes - 3))


def box_of_lines(lines: int) -> str:
    """A box file of so many lines: route lines, up to 1,000 of them where it is to be accepted, and then comments."""
    routes = min(lines - 4, 1000) if lines <= 10_000 else lines - 4
    named = "".join(f"route {n // 65536 + 16}.{n // 256 % 256}.{n % 256}.0/24 wan\n" for n in range(routes))
    return BOX + named + "# a line of a comment, as long as a route\n" * (lines - 4 - routes)


class Folder:
    """The folder in which all is put."""

    def __init__(self, path: str) -> None:
        self.path = pathlib.Path(path)

    def text(self, name: str, text: str) -> None:
        (self.path / name).write_text(text, encoding="ascii")

    def capture(self, name: str, *pieces: bytes) -> None:
        with open(self.path / name, "wb") as file:
            file.writelines(pieces)

    def put_captures(self) -> None:
        self.capture("3.pcap", capture(10**3, 1000))
        for power in (3, 5, 6, 7):
            self.capture(f"frames-{power}.pcap", *frames(power))
        self.capture("small.pcap", capture(10**6, 60))
        for power in (0, 4, 5):
            self.capture(f"small-{power}.pcap", capture(10**power if power else 0, 60))
        for conversations, count in ((1, 10**5), (10, 10**5), (1000, 10**5), (10_000, 3 * 10**4)):
            self.capture(f"conversations-{conversations}.pcap", capture(count, 60, conversations))

    def put_rulesets(self) -> None:
        self.text("empty.nft", "")
        self.text("chain.nft", forward([]))
        self.text("rules.nft", ruleset())
        for rules in (10, 1000, 16000):
            self.text(f"line-{rules}.nft", rules_in_line(rules))
        self.text("stateful.nft", forward(["ct state established,related accept", 'iifname "lan" accept', "drop"]))
        self.text("one.nft", forward(["ip saddr 10.0.0.1 drop"]))
        self.text("set.nft", set_of(50_000))
        self.text("verdicts.nft", verdicts_of(1_000))
        self.text("largest.nft", large_ruleset(16_384, 60_000))
        for rules in (1000, 4000, 16000):
            self.text(f"{rules}.nft", large_ruleset(rules, rules * 15 // 4))
        for name, lines in hard_to_judge().items():
            self.text(f"hard-{name}.nft", table_of(lines))

    def put_boxes(self) -> None:
        self.text("box.txt", BOX)
        self.text("no-box.txt", "default lan\n")
        self.text("two-routes.txt", BOX.replace("interface 3 wan 203.0.113.1/24\n", "").replace("wan", "lan"))
        self.text("many-routes.txt", box_of_routes(1021))
        for power in (4, 5, 6):
            self.text(f"lines-{power}.txt", box_of_lines(10**power))


def main() -> int:
    if len(sys.argv) != 2:
        print(__doc__, file=sys.stderr)
        return 2
    folder = Folder(sys.argv[1])
    folder.put_captures()
    folder.put_rulesets()
    folder.put_boxes()
    return 0


if __name__ == "__main__":
    sys.exit(main())
