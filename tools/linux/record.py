"""Records captures of real traffic: hosts of Linux at both sides of a router, all in namespaces, with a ruleset on it.

The hosts speak TCP, UDP and ICMP by the kernel; the capture is what `tcpdump -i any -y LINUX_SLL2` sees on the router,
or what enters it by one interface as Ethernet.
"""
from __future__ import annotations

import array
import contextlib
import ctypes
import fcntl
import os
import select
import signal
import socket
import struct
import time
from dataclasses import dataclass
from typing import Callable, Iterable, Iterator, Sequence, Tuple

from linux.namespaces import Lab, command, enter_new, write_setting
from toolbox.captures import ETHERNET, LINUX_SLL2, write_header, write_record
from toolbox.crafted import icmp_message
from toolbox.packets import ECHO_REQUEST

SIOCETHTOOL, OFFLOADS = 0x8946, (0x17, 0x1F, 0x24, 0x2C)  # ETHTOOL_STXCSUM, _STSO, _SGSO, _SGRO
DISCOVER, PROBE_ALWAYS = 10, 2  # IP_MTU_DISCOVER, IP_PMTUDISC_DO
SEEN_TOO = 4  # PACKET_OUTGOING
OTHER_ADDRESSES = ("198.51.100.7", "198.51.100.9", "198.51.100.50")

Address = Tuple[str, int]  # as sockets take it
Traffic = Callable[[], None]


def offloads_off(name: str) -> None:
    """Has an interface send packets as they are on a wire: whole segments, with their checksums."""
    with socket.socket(socket.AF_INET, socket.SOCK_DGRAM) as control:
        for what in OFFLOADS:
            value = array.array("B", struct.pack("=II", what, 0))
            request = struct.pack("=16sQ", name.encode(), value.buffer_info()[0])
            with contextlib.suppress(OSError):
                fcntl.ioctl(control, SIOCETHTOOL, request)


def set_up_next_hop(addresses: Iterable[str]) -> None:
    """What stands behind a router, in this namespace: addresses of others, and a link with an MTU of 1000."""
    for address in addresses:
        command("ip", "addr", "add", f"{address}/32", "dev", "lo")
    command("ip", "link", "add", "narrow", "mtu", "1000", "type", "veth", "peer", "name", "end")
    for name in ("narrow", "end"):
        command("ip", "link", "set", name, "arp", "off", "up")
    command("ip", "route", "add", "198.51.101.0/24", "dev", "narrow")
    write_setting("ipv4/ip_forward", 1)
    write_setting("ipv4/icmp_ratelimit", 0)


class World:
    """A router with `lan` and `wan`, two hosts of lan, and behind wan a next hop with three servers and a narrow
    link."""

    def __init__(self, rules: str, offloads: bool) -> None:
        self.files = contextlib.ExitStack()
        home = os.open("/proc/self/ns/net", os.O_RDONLY)
        self.files.callback(os.close, home)
        self.files.callback(Lab.enter, home)
        self.spaces: dict[str, int] = {}
        for name in ("lan", "wan", "router"):
            self.spaces[name] = enter_new()
            self.files.callback(os.close, self.spaces[name])
        for side, index in (("lan", 2), ("wan", 3)):
            path = f"/proc/{os.getpid()}/fd/{self.spaces[side]}"
            command("ip", "link", "add", side, "index", str(index), "type", "veth", "peer", "name", "uplink",
                    "netns", path)
        self.set_up_router(rules, offloads)
        self.set_up_lan(offloads)
        self.set_up_wan(offloads)
        self.enter("router")

    def enter(self, name: str) -> None:
        Lab.enter(self.spaces[name])

    def set_up_router(self, rules: str, offloads: bool) -> None:
        for name, address in (("lan", "192.168.1.1/24"), ("wan", "203.0.113.1/24")):
            self.bring_up(name, offloads, address)
        command("ip", "route", "add", "default", "via", "203.0.113.254")
        write_setting("ipv4/ip_forward", 1)
        command("nft", "-f", rules)

    def set_up_lan(self, offloads: bool) -> None:
        self.enter("lan")
        self.bring_up("uplink", offloads, "192.168.1.10/24", "192.168.1.11/24", "192.168.1.20/24")
        command("ip", "route", "add", "default", "via", "192.168.1.1")

    def set_up_wan(self, offloads: bool) -> None:
        self.enter("wan")
        self.bring_up("uplink", offloads, "203.0.113.254/24")
        set_up_next_hop(OTHER_ADDRESSES)

    @staticmethod
    def bring_up(name: str, offloads: bool, *addresses: str) -> None:
        write_setting(f"ipv6/conf/{name}/disable_ipv6", 1)
        for address in addresses:
            command("ip", "addr", "add", address, "dev", name)
        if not offloads:
            offloads_off(name)
        command("ip", "link", "set", "lo", "up")
        command("ip", "link", "set", name, "up")


@contextlib.contextmanager
def child(world: World, side: str, what: Traffic) -> Iterator[int]:
    """Runs a function in another process, at a side of the world, and ends it."""
    process = os.fork()
    if process == 0:
        try:
            ctypes.CDLL(None).prctl(1, signal.SIGKILL)  # it ends with its parent
            world.enter(side)
            what()
        finally:
            os._exit(0)
    try:
        yield process
    finally:
        with contextlib.suppress(ProcessLookupError):
            os.kill(process, signal.SIGKILL)
        os.waitpid(process, 0)


@dataclass(frozen=True)
class Ear:
    """A socket that hears what the router sees: alone what enters by one interface, if it is named."""

    listening: socket.socket
    by_ethernet: str | None

    def hear(self) -> bytes | None:
        """A record's bytes, or None of what isn't recorded."""
        data, (name, protocol, packet_type, hardware, address) = self.listening.recvfrom(1 << 17)
        if name == "lo" or self.by_ethernet and packet_type == SEEN_TOO:
            return None
        header = b"" if self.by_ethernet else struct.pack(
            ">HHIHBB8s", protocol, 0, socket.if_nametoindex(name), hardware, packet_type, len(address), address)
        return header + bytes(data)

    def is_ready(self) -> bool:
        return bool(select.select([self.listening], [], [], 0.1)[0])


def capture(world: World, path: str, side: str, traffic: Traffic, by_ethernet: str | None = None) -> None:
    """Writes what the router sees while `traffic` runs at a side; alone what enters by one interface, if it is
    named."""
    kind, link = (socket.SOCK_RAW, ETHERNET) if by_ethernet else (socket.SOCK_DGRAM, LINUX_SLL2)
    with socket.socket(socket.AF_PACKET, kind, socket.htons(3)) as listening, open(path, "wb") as file:
        listening.setsockopt(socket.SOL_SOCKET, socket.SO_RCVBUF, 1 << 23)
        if by_ethernet:
            listening.bind((by_ethernet, 3))
        ear = Ear(listening, by_ethernet)
        write_header(file, link)
        with child(world, side, traffic) as process:
            begun, idle = time.time_ns(), 0
            while idle < 8:
                if not ear.is_ready():
                    has_ended = os.waitid(os.P_PID, process, os.WEXITED | os.WNOHANG | os.WNOWAIT)
                    idle = idle + 1 if has_ended else 0
                    continue
                idle, data = 0, ear.hear()
                if data is not None:
                    write_record(file, time.time_ns() - begun + 10**9, data)


# What hosts do


def serve(addresses: Sequence[str], port: int, size: int, closes_first: bool = True) -> None:
    """A server of TCP: reads once, answers with so many bytes, and closes."""
    listeners = []
    for address in addresses:
        listener = socket.socket()
        listener.setsockopt(socket.SOL_SOCKET, socket.SO_REUSEADDR, 1)
        listener.bind((address, port))
        listener.listen(16)
        listeners.append(listener)
    while True:
        for listener in select.select(listeners, [], [])[0]:
            connection, _ = listener.accept()
            connection.recv(4096)
            connection.sendall(bytes(size))
            if not closes_first:
                connection.recv(4096)
            connection.close()


def answer(addresses: Sequence[str], port: int) -> None:
    """A server of UDP."""
    sockets = []
    for address in addresses:
        one = socket.socket(socket.AF_INET, socket.SOCK_DGRAM)
        one.bind((address, port))
        sockets.append(one)
    while True:
        for one in select.select(sockets, [], [])[0]:
            data, peer = one.recvfrom(4096)
            one.sendto(data * 2, peer)


def fetch(source: str, port: int, target: Address, words: bytes = b"GET / HTTP/1.0\r\n\r\n",
          closes_first: bool = False) -> None:
    """A connection of TCP from an address; what comes is read to its end, or of it what comes at once."""
    with socket.socket() as one:
        one.settimeout(3)
        one.setsockopt(socket.SOL_SOCKET, socket.SO_REUSEADDR, 1)
        one.bind((source, port))
        with contextlib.suppress(OSError):
            one.connect(target)
            one.sendall(words)
            while one.recv(65536) and not closes_first:
                pass


def ask(source: str, port: int, target: Address, size: int = 20, ttl: int = 64, whole: bool = False) -> None:
    """A question by UDP, and whatever comes back."""
    with socket.socket(socket.AF_INET, socket.SOCK_DGRAM) as one:
        one.settimeout(0.2)
        one.setsockopt(socket.IPPROTO_IP, socket.IP_TTL, ttl)
        if whole:
            one.setsockopt(socket.IPPROTO_IP, DISCOVER, PROBE_ALWAYS)
        one.bind((source, port))
        with contextlib.suppress(OSError):
            one.connect(target)
            one.send(bytes(size))
            one.recv(65536)


def ping(source: str, target: str, identifier: int) -> None:
    """An echo request, and its answer."""
    with socket.socket(socket.AF_INET, socket.SOCK_RAW, socket.IPPROTO_ICMP) as one:
        one.bind((source, 0))
        one.settimeout(0.2)
        one.sendto(icmp_message(ECHO_REQUEST, 0, struct.pack(">HH", identifier, 1) + bytes(32)), (target, 0))
        with contextlib.suppress(OSError):
            one.recv(4096)
