"""The sections of docs/LINUX.md by short names, which are also those of the folders in tests/linux/sections."""
from __future__ import annotations

SECTIONS = {
    "same-priority": "Two base chains of one hook and one priority.",
    "tcp-flags-set": "`tcp flags` in a set.",
    "output-chains": "Chains on output.",
    "other-ports": "`th` of other protocols.",
    "no-exit": "The output interface where there is none.",
    "inet-ipv6": "IPv6 in a table of family inet.",
    "fragments": "Fragments",
    "transport": "Transport headers that don't fit",
    "own-packets": "Packets of the box's own.",
    "sources": "Broadcast, multicast, sources.",
    "group-frames": "Frames to groups.",
    "broadcast-address": "The broadcast address of a network.",
    "idle-limits": "Idle limits.",
    "first-without-syn": "A first packet of TCP without SYN alone.",
    "sequence-checksum": "Sequence numbers and checksums.",
    "dropped-packets": "Dropped packets of a connection.",
    "icmp-errors": "ICMP errors.",
    "icmp-queries": "Other queries by ICMP.",
    "sctp": "SCTP.",
    "syn-when-over": "A SYN on a connection that is over.",
    "early-chains": "Early chains.",
    "box-sends": "What the box itself sends",
    "status-bits": "Bits of status.",
    "state-not-several": "`ct state !=` with several words.",
    "full-table": "A full table.",
    "untracked": "Packets that pass untracked.",
    "port-taken": "The port where the own one is taken.",
    "port-for-two": "One port for two hosts.",
    "several-ports": "Several ports for one host's end.",
    "clash": "Two connections with the same answers.",
    "outside-to-end": "From outside to a host's end outside.",
    "inside-to-end": "From inside to a host's end outside.",
    "masquerade-address": "Which address `masquerade` takes.",
    "port-zero": "Port 0, and the identifier of an echo.",
    "no-ports": "Protocols without ports.",
    "invalid-untranslated": "What Linux takes for invalid isn't translated.",
    "error-source": "The source of an ICMP error from inside.",
    "step-priority": "A filter chain of just the step's priority.",
}


def title(name: str) -> str:
    return SECTIONS[name].rstrip(".")
