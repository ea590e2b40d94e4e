"""Two network namespaces of this process alone: the router, with the interfaces of a box file, and its peer, which has
the other ends of their cables. Nothing leads out of them, and both are gone when the process ends."""
from __future__ import annotations

import contextlib
import ctypes
import os
import re
import socket
import subprocess
from typing import Iterable

from linux.box import LabBox
from toolbox.commands import Refused

NEW_NET = 0x40000000
LARGEST_MTU = 65535
LOOPBACK, LOOPBACK_INDEX = "lo", 1
ALL_PROTOCOLS = 3
SETTING = re.compile(r"net\.(?:ipv4|ipv6|netfilter|core)(?:\.[A-Za-z0-9_-]+)+")
libc = ctypes.CDLL(None, use_errno=True)


def command(*words: str, text: str | None = None) -> str:
    """Runs a command; answers what it printed, or refuses with the first line of its complaint."""
    try:
        done = subprocess.run(words, input=text, capture_output=True, text=True, errors="surrogateescape", check=False)
    except OSError as error:
        raise Refused(f"{words[0]}: {error.strerror}") from None
    if done.returncode:
        complaint = (done.stderr.strip() or f"status {done.returncode}").splitlines()[0]
        raise Refused(f"{' '.join(words[:6])}: {complaint}")
    return done.stdout


def write_setting(path: str, value: int | str) -> bool:
    """Whether a file below /proc/sys/net was written."""
    try:
        with open(f"/proc/sys/net/{path}", "w", encoding="ascii") as file:
            file.write(str(value))
    except OSError:
        return False
    return True


def station(side: int, number: int) -> bytes:
    """A station's address on a cable."""
    return bytes((2, side, 0, 0, number >> 8 & 255, number & 255))


def colons(address: bytes) -> str:
    return ":".join(f"{byte:02x}" for byte in address)


def enter_new() -> int:
    if libc.unshare(NEW_NET):
        raise Refused(f"a network namespace can't be made: {os.strerror(ctypes.get_errno())}")
    return os.open("/proc/self/ns/net", os.O_RDONLY | os.O_CLOEXEC)


class Lab:
    """The namespaces with a cable for each interface of the box but lo, which each has of its own; `cables` are the
    sockets of the peer's ends, by the interface's index. The process stays in the router's."""

    def __init__(self, box: LabBox, with_ipv6: bool) -> None:
        self.box, self.with_ipv6 = box, with_ipv6
        self.files = contextlib.ExitStack()
        self.cables: dict[int, socket.socket] = {}
        self.numbers: dict[int, int] = {}
        home = os.open("/proc/self/ns/net", os.O_RDONLY | os.O_CLOEXEC)
        self.files.callback(os.close, home)
        self.files.callback(self.enter, home)
        self.router = self.made()
        self.peer = self.made()
        try:
            self.check_names()
            self.lay_cables()
        except BaseException:
            self.close()
            raise

    def made(self) -> int:
        namespace = enter_new()
        self.files.callback(os.close, namespace)
        self.quiet()
        return namespace

    @staticmethod
    def enter(namespace: int) -> None:
        if libc.setns(namespace, NEW_NET):
            raise Refused(f"a network namespace can't be entered: {os.strerror(ctypes.get_errno())}")

    def close(self) -> None:
        self.files.close()

    def check_names(self) -> None:
        for index, name in self.box.names.items():
            if (index == LOOPBACK_INDEX) != (name == LOOPBACK):
                raise Refused(f"the box file's interface {name} has the index or the name of a namespace's own lo, "
                              f"which is {LOOPBACK_INDEX}")

    def lay_cables(self) -> None:
        # the process is in the peer's namespace
        write_setting("ipv4/ip_forward", 0)
        router = f"/proc/{os.getpid()}/fd/{self.router}"
        for number, (index, name) in enumerate(self.box.names.items(), 1):
            if name == LOOPBACK:
                continue
            self.numbers[index] = number
            far = f"far{number}"
            command("ip", "link", "add", far, "address", colons(station(1, number)), "mtu", str(LARGEST_MTU),
                    "type", "veth", "peer", "name", name, "index", str(index), "address", colons(station(0, number)),
                    "mtu", str(LARGEST_MTU), "netns", router)
            command("ip", "link", "set", far, "arp", "off", "up")
        self.enter(self.router)
        self.set_up_router()
        self.enter(self.peer)
        for index, number in self.numbers.items():
            self.cables[index] = self.socket_at(f"far{number}")
        self.enter(self.router)

    def socket_at(self, name: str) -> socket.socket:
        cable = socket.socket(socket.AF_PACKET, socket.SOCK_RAW, socket.htons(ALL_PROTOCOLS))
        self.files.callback(cable.close)
        cable.setsockopt(socket.SOL_SOCKET, socket.SO_RCVBUF, 1 << 22)
        cable.bind((name, ALL_PROTOCOLS))
        cable.setblocking(False)
        return cable

    def quiet(self) -> None:
        """Nothing of IPv6 is sent that no record asked for."""
        for which in ("all", "default"):
            write_setting(f"ipv6/conf/{which}/disable_ipv6", 0 if self.with_ipv6 else 1)
            write_setting(f"ipv6/conf/{which}/addr_gen_mode", 1)
            write_setting(f"ipv6/conf/{which}/accept_ra", 0)

    def set_up_router(self) -> None:
        command("ip", "link", "set", "lo", "up")
        write_setting("ipv4/ip_forward", 1)
        for which in ("all", "default"):
            write_setting(f"ipv4/conf/{which}/send_redirects", 0)
            write_setting(f"ipv4/conf/{which}/rp_filter", 0)
        # the answers of the box to one record mustn't depend on how fast records come
        write_setting("ipv4/icmp_ratelimit", 0)
        write_setting("ipv4/icmp_msgs_per_sec", 1000000)
        write_setting("ipv4/icmp_msgs_burst", 1000000)
        for name in self.box.indices:
            if name == LOOPBACK:
                continue
            command("ip", "link", "set", name, "arp", "off", "up")
            write_setting(f"ipv4/conf/{name}/send_redirects", 0)
            write_setting(f"ipv4/conf/{name}/rp_filter", 0)
        self.add_addresses_and_routes()

    def add_addresses_and_routes(self) -> None:
        """The routes of the box file, of equal prefixes the first one first. There are no gateways."""
        for metric, line in enumerate(self.box.lines, 1):
            prefix = line.prefix
            if line.is_interface and line.name == LOOPBACK:
                # its own is there already, and what it has is routed by the table of local addresses
                command("ip", "addr", "replace", prefix, "dev", line.name)
                continue
            if line.is_interface:
                command("ip", "addr", "add", prefix, "dev", line.name, "noprefixroute")
                prefix = network_of(prefix)
            command("ip", "route", "add", prefix, "dev", line.name, "metric", str(metric))
        if self.with_ipv6:
            write_setting("ipv6/conf/all/forwarding", 1)
            leaving = self.box.route(bytes((192, 0, 2, 1))) or self.box.default
            if leaving is not None:
                command("ip", "-6", "route", "add", "default", "dev", leaving)

    def settings(self, settings: Iterable[str]) -> None:
        """Writes what was asked for by `--set`, in the router's namespace."""
        for setting in settings:
            name, equals, value = setting.partition("=")
            if not equals or not SETTING.fullmatch(name):
                raise Refused(f"--set {setting}: net.ipv4.., net.ipv6.. or net.netfilter.. and a value are wanted")
            if not write_setting(name[4:].replace(".", "/"), value):
                raise Refused(f"--set {setting}: the kernel doesn't take it in a namespace")


def network_of(text: str) -> str:
    """192.168.1.0/24 of 192.168.1.1/24"""
    address, _, length = text.partition("/")
    number = int.from_bytes(socket.inet_aton(address), "big")
    mask = (1 << 32) - (1 << 32 - int(length))
    return f"{socket.inet_ntoa((number & mask).to_bytes(4, 'big'))}/{length}"
