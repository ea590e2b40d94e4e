"""A router with a bridge of hosts inside and servers outside, all in namespaces, and what tcpdump sees on it while all
of them speak at once, by Linux's own TCP, UDP and ICMP, from source ports that several hosts use."""
from __future__ import annotations

import contextlib
import os
import random
import shutil
import signal
import subprocess
import time
from dataclasses import dataclass
from typing import Any, Callable, Iterator

from linux.namespaces import Lab, command, enter_new, write_setting
from linux.record import answer, ask, fetch, offloads_off, ping, serve, set_up_next_hop
from toolbox.commands import Refused

BRIDGE, UPLINK, FIRST_PORT = 2, 3, 10  # indices of interfaces
SERVERS = tuple(f"198.51.100.{number}" for number in range(1, 5))
CLIENTS = tuple(f"198.51.100.{number}" for number in range(50, 60))
NARROW = "198.51.101.5"  # behind a link with an MTU of 1000
ROUTER, NEXT_HOP = "203.0.113.1", "203.0.113.254"
WEB, ECHO, QUESTIONS, CLOSED, PUBLISHED = 80, 7, 53, 99, 8080
HIGH_PORT, IDENTIFIERS = 40000, 16
CONNECTIONS_OF_PORT = 8  # so many connections of all hosts have one source port
LISTENING, LAST_ANSWERS, WRITTEN = 0.3, 0.5, 30  # seconds
RULES = """table inet filter {
	chain input {
		type filter hook input priority filter; policy drop;
		ct state established,related counter accept
		ct state invalid counter drop
		iifname "lan" icmp type echo-request counter accept
		counter
	}

	chain forward {
		type filter hook forward priority filter; policy drop;
		ct state established,related counter accept
		ct state invalid counter drop
		ct status dnat counter accept
		iifname "lan" oifname "wan" counter accept
		counter
	}
}

table ip nat {
	chain prerouting {
		type nat hook prerouting priority dstnat; policy accept;
		ip daddr 203.0.113.1 tcp dport 8080 counter dnat to 192.168.1.10:80
	}

	chain postrouting {
		type nat hook postrouting priority srcnat; policy accept;
		oifname "wan" counter masquerade
		iifname "lan" oifname "lan" counter masquerade
	}
}
"""


@dataclass(frozen=True)
class Plan:
    """How many hosts begin how many connections each, how many questions the router asks itself, the seed by which all
    is drawn, and the folder that gets what is recorded."""

    folder: str
    hosts: int
    connections: int
    asks: int
    seed: int

    @property
    def ports(self) -> int:
        """How many source ports all hosts use."""
        return max(1, self.hosts * self.connections // CONNECTIONS_OF_PORT)

    def chance(self, who: object) -> random.Random:
        return random.Random(f"{self.seed} {who}")


def address_of(host: int) -> str:
    return f"192.168.1.{10 + host}"


class Router:
    """The namespaces: the router, its hosts at the ports of the bridge `lan`, and behind `wan` a next hop, which also
    has the addresses of the servers and of clients outside. The process stays in the router's."""

    def __init__(self, hosts: int) -> None:
        self.files = contextlib.ExitStack()
        home = os.open("/proc/self/ns/net", os.O_RDONLY | os.O_CLOEXEC)
        self.files.callback(os.close, home)
        self.files.callback(Lab.enter, home)
        self.hosts = [self.made() for _ in range(hosts)]
        self.outside, self.inside = self.made(), self.made()
        try:
            self.set_up_router()
            for host in range(hosts):
                self.set_up_host(host)
            self.set_up_outside()
            Lab.enter(self.inside)
        except BaseException:
            self.files.close()
            raise

    def made(self) -> int:
        namespace = enter_new()
        self.files.callback(os.close, namespace)
        for which in ("all", "default"):
            write_setting(f"ipv6/conf/{which}/disable_ipv6", 1)
        command("ip", "link", "set", "lo", "up")
        return namespace

    @staticmethod
    def bring_up(name: str, *addresses: str) -> None:
        offloads_off(name)
        for address in addresses:
            command("ip", "addr", "add", address, "dev", name)
        command("ip", "link", "set", name, "up")

    @staticmethod
    def lay_cable(name: str, index: int, namespace: int) -> None:
        """From the router's interface to `uplink` in another namespace."""
        command("ip", "link", "add", name, "index", str(index), "type", "veth", "peer", "name", "uplink",
                "netns", f"/proc/{os.getpid()}/fd/{namespace}")

    def set_up_router(self) -> None:
        command("ip", "link", "add", "lan", "index", str(BRIDGE), "type", "bridge", "forward_delay", "0",
                "mcast_snooping", "0")
        self.lay_cable("wan", UPLINK, self.outside)
        self.bring_up("lan", "192.168.1.1/24")
        self.bring_up("wan", f"{ROUTER}/24")
        for host, namespace in enumerate(self.hosts):
            self.lay_cable(f"port{host}", FIRST_PORT + host, namespace)
            self.bring_up(f"port{host}")
            command("ip", "link", "set", f"port{host}", "master", "lan")
        command("ip", "route", "add", "default", "via", NEXT_HOP)
        write_setting("ipv4/ip_forward", 1)
        write_setting("bridge/bridge-nf-call-iptables", 0)

    def set_up_host(self, host: int) -> None:
        Lab.enter(self.hosts[host])
        self.bring_up("uplink", f"{address_of(host)}/24")
        command("ip", "route", "add", "default", "via", "192.168.1.1")

    def set_up_outside(self) -> None:
        Lab.enter(self.outside)
        self.bring_up("uplink", f"{NEXT_HOP}/24")
        set_up_next_hop(SERVERS + CLIENTS)


class Children:
    """Processes that do something in a namespace each; all of them end with this one."""

    def __init__(self) -> None:
        self.running: list[int] = []

    def start(self, namespace: int, what: Callable[..., None], *words: Any) -> None:
        process = os.fork()
        if process == 0:
            status = 1
            try:
                Lab.enter(namespace)
                what(*words)
                status = 0
            finally:
                os._exit(status)
        self.running.append(process)

    def wait(self) -> None:
        """Waits until all have ended."""
        failed = sum(bool(os.waitpid(process, 0)[1]) for process in self.running)
        self.running.clear()
        if failed:
            raise Refused(f"{failed} of the hosts' processes failed")

    def close(self) -> None:
        for process in self.running:
            with contextlib.suppress(ProcessLookupError, ChildProcessError):
                os.kill(process, signal.SIGKILL)
                os.waitpid(process, 0)


# What hosts do


@dataclass(frozen=True)
class Speaking:
    """A host that begins its connection of a number: from which end, to which server, and what decides the rest."""

    chance: random.Random
    source: str
    port: int
    server: str
    number: int


What = Callable[[Speaking], None]


def to_web(one: Speaking) -> None:
    fetch(one.source, one.port, (one.server, WEB), bytes(20 + one.chance.randrange(100)))


def to_echo(one: Speaking) -> None:
    fetch(one.source, one.port, (one.server, ECHO), bytes(1 + one.chance.randrange(60)), closes_first=True)


def question(one: Speaking) -> None:
    ask(one.source, one.port, (one.server, QUESTIONS), size=20 + one.chance.randrange(40))


# further than that: each a kind of packets that a router meets now and then
RARE: tuple[What, ...] = (
    lambda one: ping(one.source, one.server, 700 + one.chance.randrange(IDENTIFIERS)),
    lambda one: fetch(one.source, one.port, (one.server, CLOSED)),
    lambda one: ask(one.source, one.port, (one.server, CLOSED)),
    # by the router's outer address, back to a host inside
    lambda one: fetch(one.source, one.port, (ROUTER, PUBLISHED)),
    # what is too large for a link further on, and what reaches its last hop behind the router, and at it
    lambda one: ask(one.source, one.port, (NARROW, CLOSED), size=1300, whole=True),
    lambda one: ask(one.source, one.port, (NARROW, 33434), ttl=2),
    lambda one: ask(one.source, one.port, (NARROW, 33435), ttl=1),
    # the router answers itself: a second question with the same identifier would be one of an answered connection
    lambda one: ping(one.source, "192.168.1.1", one.number),
)
USUAL: tuple[What, ...] = (to_web, to_web, to_web, to_echo, to_echo, question, question)


def inside(host: int, plan: Plan) -> None:
    """A host's short connections from inside, one after the other, each eighth of a rare kind."""
    chance, numbers = plan.chance(host), list(range(plan.connections))
    chance.shuffle(numbers)
    for number in numbers:
        group, place = divmod(number, len(USUAL) + 1)
        what = USUAL[place] if place < len(USUAL) else RARE[(host + len(RARE) // 2 * group) % len(RARE)]
        port = HIGH_PORT + chance.randrange(plan.ports)
        what(Speaking(chance, address_of(host), port, chance.choice(SERVERS), number))


def outside(plan: Plan) -> None:
    """Clients from outside, half as many as each host has connections: of a forwarded port mostly, of one that is
    closed else."""
    chance = plan.chance("outside")
    for number in range(plan.connections // 2):
        source, port = chance.choice(CLIENTS), HIGH_PORT + chance.randrange(plan.ports)
        if number % 4:
            fetch(source, port, (ROUTER, PUBLISHED))
        else:
            ask(source, port, (ROUTER, CLOSED))


def own(plan: Plan) -> None:
    """The router asks servers itself, as one does that answers DNS for its hosts."""
    chance = plan.chance("router")
    for _ in range(plan.asks):
        port = HIGH_PORT + chance.randrange(plan.ports)
        question(Speaking(chance, ROUTER, port, chance.choice(SERVERS), 0))


def speak(router: Router, plan: Plan) -> None:
    """Has all of them speak at once, and waits for the last answers."""
    servers, clients = Children(), Children()
    try:
        for port, size, closes_first in ((WEB, 300, True), (ECHO, 80, False)):
            servers.start(router.outside, serve, SERVERS, port, size, closes_first)
        servers.start(router.outside, answer, SERVERS, QUESTIONS)
        servers.start(router.hosts[0], serve, (address_of(0),), WEB, 300)
        time.sleep(LISTENING)
        for host, namespace in enumerate(router.hosts):
            clients.start(namespace, inside, host, plan)
        clients.start(router.outside, outside, plan)
        clients.start(router.inside, own, plan)
        clients.wait()
        time.sleep(LAST_ANSWERS)
    finally:
        clients.close()
        servers.close()


# What is kept of it


@contextlib.contextmanager
def tcpdump(path: str) -> Iterator[None]:
    """Captures as operators do; refused where it lost something."""
    words = ["tcpdump", "-i", "any", "-y", "LINUX_SLL2", "-s", "0", "-B", "65536", "-Z", "root", "-n", "-w", path]
    with subprocess.Popen(words, stderr=subprocess.PIPE, text=True) as dump:
        said = ""
        while "listening on" not in said:
            line = dump.stderr.readline() if dump.stderr else ""
            if not line:
                raise Refused(f"tcpdump: {said.strip().splitlines()[-1] if said.strip() else 'it ended'}")
            said += line
        try:
            yield
        finally:
            time.sleep(0.5)
            dump.send_signal(signal.SIGINT)
            said = dump.communicate(timeout=WRITTEN)[1]
    if "\n0 packets dropped by kernel" not in said:
        raise Refused(f"tcpdump lost something: {' '.join(said.split())}")


def keep(folder: str, name: str, text: str) -> None:
    with open(os.path.join(folder, name), "w", encoding="ascii") as file:
        file.write(text)


def keep_box(folder: str, here: str) -> None:
    """The box file, by what ip tells."""
    keep(folder, "addr.txt", command("ip", "-o", "-4", "addr"))
    keep(folder, "route.txt", command("ip", "-4", "route"))
    texts = (os.path.join(folder, name) for name in ("addr.txt", "route.txt"))
    made = command(os.path.join(here, "box-from-ip"), *texts)
    keep(folder, "box.txt", "".join(line + "\n" for line in made.splitlines() if " lo " not in f"{line} "))


def record(plan: Plan, here: str) -> None:
    """Writes in.pcap, rules.nft (as listed before), counted.nft (as listed behind it), box.txt and conntrack.txt."""
    folder = plan.folder
    os.makedirs(folder, exist_ok=True)
    router = Router(plan.hosts)
    try:
        command("nft", "-f", "-", text=RULES)
        keep(folder, "rules.nft", command("nft", "list", "ruleset"))
        keep_box(folder, here)
        with tcpdump(os.path.join(folder, "in.pcap")):
            speak(router, plan)
        keep(folder, "counted.nft", command("nft", "list", "ruleset"))
        if shutil.which("conntrack"):
            keep(folder, "conntrack.txt", command("conntrack", "-L"))
    finally:
        router.files.close()


def check_tcpdump() -> None:
    if shutil.which("tcpdump") is None:
        raise Refused("on Debian: apt install tcpdump")
