"""Speaks nfnetlink by itself: rule traces, and the table of connections.

The trace messages are read from the kernel, not from the text of `nft monitor trace`, so that no name, comment or
prefix of a ruleset can be taken for something else. Numbers: include/uapi/linux/netfilter of Linux.
"""
from __future__ import annotations

import enum
import errno
import socket
import struct
from dataclasses import dataclass
from typing import Iterator

NETLINK_NETFILTER = 12
GROUP_TRACE = 9
SUBSYSTEM_CONNTRACK, SUBSYSTEM_NFTABLES = 1, 10
MESSAGE_TRACE = 17
REQUEST, ACKNOWLEDGE, DUMP = 1, 4, 0x300
ERROR, DONE = 2, 3
NESTED = 0x8000

TRACE_TABLE, TRACE_CHAIN, TRACE_RULE, TRACE_TYPE, TRACE_VERDICT = 1, 2, 3, 4, 5
TRACE_NETWORK_HEADER, TRACE_POLICY = 8, 16
FAMILIES = {1: "inet", 2: "ip", 10: "ip6"}
VERDICTS = {0: "drop", 1: "accept", -1: "continue", -2: "break", -3: "jump", -4: "goto", -5: "return"}

CT_NEW, CT_GET, CT_DELETE = 0, 1, 2
CT_ORIGINAL, CT_TIMEOUT = 1, 7


class TraceType(enum.IntEnum):
    """What a trace message tells of: a policy, a chain's end, a rule."""

    POLICY = 1
    RETURN = 2
    RULE = 3


@dataclass(frozen=True)
class Event:
    """What a trace message says: `rule` is the rule's handle, None where a policy (or the end of a chain) decides, and
    `header` the packet's header where that is told."""

    kind: TraceType
    family: str
    table: str
    chain: str
    rule: int | None
    verdict: str
    header: bytes | None


@dataclass(frozen=True)
class Message:
    """A message without the four bytes of nfgenmsg; the family stands before."""

    kind: int
    body: bytes


@dataclass(frozen=True)
class Connection:
    """A connection's original tuple, as the kernel wrote it, and the seconds that it has left."""

    original: bytes
    left: int


def attributes(data: bytes) -> dict[int, bytes]:
    """The attributes of a message by number; of a repeated one the last."""
    found = {}
    while len(data) >= 4:
        length, kind = struct.unpack_from("=HH", data)
        if length < 4:
            break
        found[kind & 0x3FFF] = data[4:length]
        data = data[(length + 3) & ~3:]
    return found


def attribute(kind: int, data: bytes) -> bytes:
    return struct.pack("=HH", 4 + len(data), kind) + data + bytes(-len(data) % 4)


def messages(data: bytes) -> Iterator[Message]:
    while len(data) >= 16:
        length, kind = struct.unpack_from("=IH", data)
        if length < 16:
            break
        yield Message(kind, data[16:length])
        data = data[(length + 3) & ~3:]


def name_of(data: bytes) -> str:
    return data.rstrip(b"\0").decode("utf-8", "surrogateescape")


def verdict_of(data: bytes) -> str:
    parts = attributes(data)
    code = struct.unpack(">i", parts[1])[0]
    word = VERDICTS.get(code, VERDICTS.get(code & 0xFF, str(code)))
    return f"{word} {name_of(parts[2])}" if word in ("jump", "goto") and 2 in parts else word


def event_of(body: bytes) -> Event:
    parts = attributes(body[4:])
    kind, rule, verdict = TraceType(struct.unpack(">I", parts[TRACE_TYPE])[0]), None, "return"
    if kind is TraceType.POLICY:
        verdict = VERDICTS.get(struct.unpack(">I", parts[TRACE_POLICY])[0], "accept")
    elif kind is TraceType.RULE and TRACE_RULE in parts:
        rule = struct.unpack(">Q", parts[TRACE_RULE])[0]
        verdict = verdict_of(parts[TRACE_VERDICT])
    else:
        kind = TraceType.RETURN  # newer kernels tell of a chain's end as of a rule without a handle
    return Event(kind, FAMILIES.get(body[0], str(body[0])), name_of(parts[TRACE_TABLE]),
                 name_of(parts.get(TRACE_CHAIN, b"")), rule, verdict, parts.get(TRACE_NETWORK_HEADER))


class Traces:
    """What rules of the namespace in which it was made decide on packets that are traced."""

    def __init__(self) -> None:
        self.socket = socket.socket(socket.AF_NETLINK, socket.SOCK_RAW, NETLINK_NETFILTER)
        self.socket.setsockopt(socket.SOL_SOCKET, socket.SO_RCVBUF, 1 << 23)
        self.socket.bind((0, 1 << (GROUP_TRACE - 1)))
        self.socket.setblocking(False)
        self.lost = False

    def fileno(self) -> int:
        return self.socket.fileno()

    def close(self) -> None:
        self.socket.close()

    def read(self) -> list[Event]:
        """The events that are there by now. A chain that was called and ended by its end isn't told."""
        events: list[Event] = []
        while True:
            try:
                data = self.socket.recv(1 << 16)
            except BlockingIOError:
                return events
            except OSError as error:
                if error.errno != errno.ENOBUFS:
                    raise
                self.lost = True
                continue
            for message in messages(data):
                if message.kind == SUBSYSTEM_NFTABLES << 8 | MESSAGE_TRACE:
                    event = event_of(message.body)
                    if event.kind is not TraceType.RETURN:
                        events.append(event)


class Connections:
    """The connections of the namespace in which it was made; their time can be moved on."""

    def __init__(self) -> None:
        self.socket = socket.socket(socket.AF_NETLINK, socket.SOCK_RAW, NETLINK_NETFILTER)
        self.socket.bind((0, 0))
        self.socket.settimeout(5)

    def close(self) -> None:
        self.socket.close()

    def ask(self, kind: int, flags: int, body: bytes) -> Iterator[bytes]:
        general = struct.pack("=BBH", socket.AF_INET, 0, 0)
        data = general + body
        header = struct.pack("=IHHII", 16 + len(data), SUBSYSTEM_CONNTRACK << 8 | kind, REQUEST | flags, 1, 0)
        self.socket.send(header + data)
        while True:
            for answer in messages(self.socket.recv(1 << 16)):
                if answer.kind in (ERROR, DONE):
                    return
                yield answer.body[4:]

    def all(self) -> Iterator[Connection]:
        for body in list(self.ask(CT_GET, DUMP, b"")):
            parts = attributes(body)
            if CT_ORIGINAL in parts:
                left = struct.unpack(">I", parts[CT_TIMEOUT])[0] if CT_TIMEOUT in parts else 0
                yield Connection(parts[CT_ORIGINAL], left)

    def pass_time(self, seconds: int) -> None:
        """Has each connection be older by so many seconds, or younger by a number below 0."""
        for connection in list(self.all()):
            original = attribute(CT_ORIGINAL | NESTED, connection.original)
            # the kernel tells whole seconds, rounded down
            new = connection.left + 1 - seconds
            if new > 0:
                timeout = attribute(CT_TIMEOUT, struct.pack(">I", new))
                list(self.ask(CT_NEW, ACKNOWLEDGE, original + timeout))
            else:
                list(self.ask(CT_DELETE, ACKNOWLEDGE, original))
