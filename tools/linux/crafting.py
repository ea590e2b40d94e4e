"""Captures of the sections' packets: a line is one of nftrun packet, or

  protocol N ADDRESS > ADDRESS         a packet of another protocol; `hex ..` gives what it carries
  icmp TYPE ADDRESS > ADDRESS          a message of ICMP, 12 bytes of zero behind its checksum
  error TYPE ADDRESS > ADDRESS .. about PACKET
                                       any error of ICMP
  ipv6                                 a packet of IPv6, UDP from 2001:db8::10 to 2001:db8:1::7

and behind the addresses, of every line

  badsum             its transport checksum is wrong
  group              its frame is for a group of stations
  fragment OFFSET    it is a fragment, OFFSET times 8 bytes behind the first; `more` says that others follow
  cut N              with N bytes fewer behind its IP header
  udplength N        the length field of UDP
"""
from __future__ import annotations

import io
from typing import Dict, Iterable, Sequence

from toolbox import crafted
from toolbox.boxes import Box
from toolbox.captures import BROADCAST, IPV6, TO_US, sll2_header, write_header, write_record
from toolbox.commands import Refused
from toolbox.packets import ICMP, TCP, UDP, checksum

# modifiers, with how many words follow
MODIFIERS = {"badsum": 0, "group": 0, "fragment": 1, "more": 0, "cut": 1, "udplength": 1, "hex": 1}
SUM_AT = {TCP: 16, UDP: 6, ICMP: 2}
PLAIN_IPV6 = bytes.fromhex(
    "600000000008114020010db800000000000000000000001020010db800010000000000000000000713880035000870e9")


Modifiers = Dict[str, str]  # of each its word, and the one behind it


def taken_apart(words: Iterable[str]) -> tuple[Modifiers, list[str]]:
    """The modifiers among a line's words, and the rest."""
    modifiers: Modifiers = {}
    rest = []
    left = iter(words)
    for word in left:
        if word in MODIFIERS:
            modifiers[word] = next(left, "") if MODIFIERS[word] else ""
        else:
            rest.append(word)
    return modifiers, rest


def packet_of(words: Sequence[str], modifiers: Modifiers) -> tuple[bytes, crafted.Options]:
    """The packet of a line without modifiers, and its options."""
    kind = words[0]
    if kind == "ipv6":
        return PLAIN_IPV6, crafted.read_options("ping", words[1:])
    if kind not in ("protocol", "icmp", "error"):
        return crafted.read_packet(words)
    number, source, target = int(words[1]), crafted.read_address(words[2]), crafted.read_address(words[4])
    end = words.index("about") if "about" in words else len(words)
    options = crafted.read_options("ping", words[5:end])
    if kind == "protocol":
        payload = bytes.fromhex(modifiers.get("hex", ""))
        return crafted.ip_packet(source, target, number, payload, options), options
    if kind == "icmp":
        return crafted.ip_packet(source, target, ICMP, crafted.icmp_message(number, 0, bytes(12)), options), options
    about, _ = crafted.read_packet(words[end + 1:])
    message = crafted.icmp_message(number, 0, bytes(4) + about[:28])
    return crafted.ip_packet(source, target, ICMP, message, options), options


def with_header(packet: bytes, place: int, value: int) -> bytes:
    """The packet with two bytes of its header written, and the header's checksum with it."""
    packet = crafted.with_word(crafted.with_word(packet, place, value), 10, 0)
    return crafted.with_word(packet, 10, checksum(packet[:20]))


def modified(packet: bytes, modifiers: Modifiers) -> bytes:
    if "badsum" in modifiers:
        at = 20 + SUM_AT[packet[9]]
        packet = packet[:at] + bytes((packet[at] ^ 0x55, packet[at + 1])) + packet[at + 2:]
    if "udplength" in modifiers:
        packet = crafted.with_word(packet, 24, int(modifiers["udplength"]))
    if "cut" in modifiers:
        packet = packet[:len(packet) - int(modifiers["cut"])]
        packet = with_header(packet, 2, len(packet))
    if "fragment" in modifiers:
        offset = int(modifiers["fragment"])
        if offset:
            packet = packet[:20] + packet[20 + 8 * offset:]
            packet = with_header(packet, 2, len(packet))
        packet = with_header(packet, 6, offset | (0x2000 if "more" in modifiers else 0))
    return packet


def capture_of(lines: Iterable[str], box: Box) -> bytes:
    """A capture of LINUX_SLL2, as bytes."""
    file, moment = io.BytesIO(), 0
    write_header(file)
    for line in lines:
        words = line.partition("#")[0].split()
        if not words:
            continue
        modifiers, words = taken_apart(words)
        try:
            packet, options = packet_of(words, modifiers)
        except (Refused, ValueError, IndexError) as refusal:
            raise Refused(f"{line.strip()}: {refusal}") from None
        moment = moment if options.moment is None else options.moment
        interface = box.indices[options.comes_by or box.default or ""]
        header = sll2_header(interface, BROADCAST if "group" in modifiers else TO_US)
        if words[0] == "ipv6":
            header = IPV6 + header[2:]
        write_record(file, moment, header + modified(packet, modifiers))
    return file.getvalue()
