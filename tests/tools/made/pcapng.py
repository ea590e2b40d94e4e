"""A connection through a router as pcapng, as dumpcap -i lan -i wan would have it with the directions of packets.

  python3 tests/tools/made/pcapng.py KIND >in.pcapng

KIND is `two`, two interfaces of Ethernet; `silent`, these without directions; `other`, a second one of 802.11;
`merged`, without names; `wan`, one interface. A SYN enters by lan and leaves by wan, its answer comes back, and a
neighbour's packet goes by.
"""
import pathlib
import sys

sys.path[:0] = [str(pathlib.Path(__file__).resolve().parents[2] / "unit")]

from blocks import INBOUND, OUTBOUND, PROMISCUOUS, Writer  # noqa: E402
from made_elsewhere import PACKETS  # noqa: E402

ETHERNET, WIRELESS = 1, 105
LINK = bytes.fromhex("0200000000010200000000020800")
OUTSIDE, INSIDE = bytes((203, 0, 113, 1)), bytes((192, 168, 1, 10))


def checked(packet: bytes) -> bytes:
    """The packet with the checksum of its IPv4 header, by RFC 1071."""
    head = packet[:10] + b"\0\0" + packet[12:20]
    total = sum(int.from_bytes(head[at:at + 2], "big") for at in range(0, 20, 2))
    total = (total & 0xFFFF) + (total >> 16)
    return head[:10] + (0xFFFF - (total & 0xFFFF) - (total >> 16)).to_bytes(2, "big") + packet[12:]


def packets() -> list[tuple[int, int, bytes]]:
    """Interface, direction and bytes of each."""
    syn, answer = (bytes.fromhex(PACKETS[name]) for name in ("TCP_SYN", "TCP_SYN_ACK"))
    answer = answer[:16] + OUTSIDE + syn[22:24] + syn[20:22] + answer[24:]
    sent = checked(syn[:8] + b"\x3f" + syn[9:12] + OUTSIDE + syn[16:])
    left = checked(answer[:8] + b"\x3f" + answer[9:16] + INSIDE + answer[20:])
    return [(0, INBOUND, syn), (1, OUTBOUND, sent), (1, INBOUND, checked(answer)), (0, OUTBOUND, left),
            (0, PROMISCUOUS, syn)]


def main(kind: str) -> bytes:
    made = Writer(">" if kind == "two" else "<")
    names = ("lan", "wan") if kind != "merged" else ("eth0", "eth1")
    links = (ETHERNET, WIRELESS if kind == "other" else ETHERNET)
    parts = [made.section()]
    parts += [made.interface(link, made.name(name), made.resolution(6)) for link, name in zip(links, names)]
    for number, (interface, direction, packet) in enumerate(packets()):
        options = [] if kind == "silent" else [made.flags(direction)]
        if kind != "wan" or interface == 1:
            parts.append(made.packet(interface, 1_700_000_000_000_000 + number, LINK + packet, *options))
    return b"".join(parts)


if __name__ == "__main__":
    sys.stdout.buffer.write(main(sys.argv[1]))
