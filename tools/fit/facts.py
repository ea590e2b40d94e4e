"""Words, types and what is known of selectors: of those that nftrun reads, and of those that it doesn't."""
from __future__ import annotations

from dataclasses import dataclass, field
from typing import Mapping

from toolbox.language import NFT

from .grades import Grade

# What nftrun's language has

PROTOCOLS, SERVICES = NFT.types["inet_proto"].words, NFT.types["inet_service"].words
TCP_FLAGS = NFT.types["tcp_flag"].words
# the words of each type, and its width in bits
WORDS = {name: one.words for name, one in NFT.types.items()}
WIDTHS = {name: one.width for name, one in NFT.types.items()}
# the type of each selector that nftrun reads; one without a name is its width
TYPES = {name: one.type_name for name, one in NFT.selectors.items()}
SHORT = NFT.without_meta
PRIORITIES = NFT.priorities
CHAIN_HOOKS = NFT.hooks
VERDICTS = NFT.verdicts
LONGEST_KEY = NFT.longest_key
BITS = ("tcp_flag", "ct_state", "ct_status")  # types whose values are tested bit by bit
MARKS = ("meta mark", "ct mark")

# What nft(8) has: the fields of each header. Of what isn't here nothing may be assumed.

META = set(
    "mark iif iifname iiftype oif oifname oiftype skuid skgid nftrace rtclassid ibrname obrname ibriport "
    "obriport pkttype cpu iifgroup oifgroup cgroup time day hour protocol nfproto l4proto priority secpath "
    "iifkind oifkind random sdif sdifname broute secmark ipsec ibrpvid ibrvproto length".split()
)
FIELDS: dict[str, set[str] | tuple[str, ...] | list[str]] = {
    "meta": META,
    "ip": set("version hdrlength dscp ecn length id frag-off ttl protocol checksum saddr daddr option".split()),
    "ip6": set("version dscp ecn flowlabel length nexthdr hoplimit saddr daddr".split()),
    "tcp": set("sport dport sequence ackseq doff reserved flags window checksum urgptr option".split()),
    "udp": set("sport dport length checksum".split()),
    "th": {"sport", "dport"},
    "udplite": set("sport dport csumcov checksum".split()),
    "dccp": set("sport dport type option".split()),
    "sctp": set("sport dport vtag checksum chunk".split()),
    "icmp": set("type code checksum id sequence gateway mtu".split()),
    "icmpv6": set(
        "type code checksum parameter-problem packet-too-big id sequence max-delay mtu taddr daddr".split()
    ),
    "igmp": set("type mrt checksum group".split()),
    "ether": set("daddr saddr type".split()),
    "vlan": set("id cfi dei pcp type".split()),
    "ah": set("nexthdr hdrlength reserved spi sequence".split()),
    "esp": {"spi", "sequence"},
    "comp": set("nexthdr flags cpi".split()),
    "ct": set(
        "state direction status mark expiration helper label l3proto saddr daddr protocol proto-src proto-dst bytes "
        "packets avgpkt zone id event secmark timeout expectation original reply".split()
    ),
    "arp": set("htype ptype hlen plen operation saddr daddr".split()),
    "gre": {"flags", "version", "protocol"},
    "rt": {"classid", "nexthop", "mtu", "ip", "ip6", "ipsec"},
    "socket": {"transparent", "mark", "wildcard", "cgroupv2"},
    "osf": {"ttl", "name", "version"},
    "ipsec": set(),
    "hbh": {"nexthdr", "hdrlength"},
    "frag": set("nexthdr frag-off more-fragments id reserved reserved2".split()),
    "mh": set("nexthdr hdrlength type reserved checksum".split()),
    "rt0": {"addr"},
    "rt2": {"addr"},
    "rt4": {"last-entry", "flags", "tag", "sid"},
    "srh": {"flags", "tag", "sid", "seg-left"},
    "dst": {"nexthdr", "hdrlength"},
    "exthdr": {"hbh", "frag", "rt", "dst", "mh", "srh"},
}
# headers that no IPv4 packet has, so that a match on them fails under every operator
NEVER_IN_IPV4 = ("ip6", "icmpv6", "arp", "vlan", "rt0", "rt2", "rt4", "srh", "hbh", "frag", "dst", "mh", "exthdr")
# the protocol that a match on a header asks for first
TRANSPORTS = {
    "tcp": 6,
    "udp": 17,
    "icmp": 1,
    "igmp": 2,
    "sctp": 132,
    "dccp": 33,
    "udplite": 136,
    "esp": 50,
    "ah": 51,
    "comp": 108,
    "gre": 47,
}

# the messages that a match on a field of ICMP asks for first
ICMP_FIELDS = {
    "icmp id": ("echo-reply", "echo-request"),
    "icmp sequence": ("echo-reply", "echo-request"),
    "icmp gateway": ("redirect",),
    "icmp mtu": ("destination-unreachable",),
}

# Selectors that nftrun doesn't read. A fact: what every packet of a run has, or is assumed to have. `needs` is what
# must hold of the packet for there to be a value.


@dataclass(frozen=True)
class Fact:
    """What is known of a selector: its value, and why; `assumption` is the guess that it rests on, `needs` the match
    that nft(8) puts before it, `words` those of its values, `other` its value where the guess is turned: where that is
    None, each answer is turned."""

    value: int
    assumption: str | None
    why: str
    needs: str = ""
    words: Mapping[str, int] = field(default_factory=dict)
    other: int | None = None


ETHER_TYPES = {"ip": 0x0800, "arp": 0x0806, "ip6": 0x86DD, "vlan": 0x8100, "8021q": 0x8100}
DSCP = {f"cs{it}": 8 * it for it in range(8)} | {
    "be": 0,
    "lephb": 1,
    "ef": 46,
    "va": 44,
    **{f"af{a}{b}": 8 * a + 2 * b for a in range(1, 5) for b in range(1, 4)},
}
YES_NO = {"exists": 1, "missing": 0}
LINK_TYPES = {"ether": 1, "ppp": 512, "ipip": 768, "ipip6": 769, "loopback": 772, "sit": 776, "ipgre": 778}
PACKET_TYPES = {"host": 0, "unicast": 0, "broadcast": 1, "multicast": 2, "other": 3}
ICMP_CODES = {
    "net-unreachable": 0,
    "host-unreachable": 1,
    "prot-unreachable": 2,
    "port-unreachable": 3,
    "frag-needed": 4,
    "net-prohibited": 9,
    "host-prohibited": 10,
    "admin-prohibited": 13,
}
IN_A_CONNECTION = "ct direction { original, reply }"
KNOWN = {
    "ip version": Fact(4, None, "every packet is IPv4"),
    "meta protocol": Fact(0x0800, None, "every packet is IPv4", "", ETHER_TYPES),
    "ether type": Fact(0x0800, None, "every packet is IPv4 and has no VLAN tag", "", ETHER_TYPES),
    "meta pkttype": Fact(0, None, "nftrun takes packets to the box's own link address alone", "", PACKET_TYPES),
    "meta nftrace": Fact(0, None, "traces are asked for by --trace"),
    "ct l3proto": Fact(2, None, "every packet is IPv4", IN_A_CONNECTION, {"ipv4": 2, "ipv6": 10}),
    "ct zone": Fact(0, None, "no rule sets a zone", IN_A_CONNECTION),
    "meta secpath": Fact(0, "route", "no packet came by IPsec", "", YES_NO),
    "meta ipsec": Fact(0, "route", "no packet came by IPsec", "", YES_NO),
    "rt ipsec": Fact(0, "route", "no packet leaves by IPsec", "", YES_NO),
    "ip dscp": Fact(0, "header", "every packet has DSCP 0", "", DSCP),
    "ip ecn": Fact(0, "header", "every packet has ECN 0", "", {"not-ect": 0, "ect1": 1, "ect0": 2, "ce": 3}),
    "ip hdrlength": Fact(5, "header", "no packet has IP options"),
    "icmp code": Fact(0, "header", "every ICMP packet has code 0", "", ICMP_CODES),
    "meta iifgroup": Fact(0, "meta", "every interface is in group 0", "", {"default": 0}),
    "meta oifgroup": Fact(0, "meta", "every interface is in group 0", "", {"default": 0}),
    "meta iiftype": Fact(1, "meta", "every interface is Ethernet", "", LINK_TYPES),
    "meta oiftype": Fact(1, "meta", "every interface is Ethernet", "", LINK_TYPES),
    "meta rtclassid": Fact(0, "route", "no route has a realm"),
    "rt classid": Fact(0, "route", "no route has a realm"),
    "meta priority": Fact(0, "meta", "every packet has priority 0", "", {"none": 0, "root": 0xFFFFFFFF}),
    "meta sdif": Fact(0, "meta", "no interface is in a VRF"),
    "tcp doff": Fact(5, "header", "no TCP packet has options"),
    "tcp reserved": Fact(0, "header", "no TCP packet has reserved bits"),
    "tcp urgptr": Fact(0, "header", "no TCP packet is urgent"),
    "meta random": Fact(0, "random", "the number that is drawn is the first one", other=(1 << 32) - 1),
    "meta cpu": Fact(0, "random", "the first processor takes every packet"),
    **{
        f"ct {way}{what}": Fact(number if way != "reply " else 0, "ct", "connections are at their first packet")
        for way in ("", "original ", "reply ")
        for what, number in (("packets", 1), ("bytes", 64), ("avgpkt", 64))
    },
}
# how wide fields are of which nothing is known: a match for all of their values always holds
FIELD_WIDTHS = {
    **{f"tcp {it}": 32 for it in ("sequence", "ackseq")},
    **{f"tcp {it}": 16 for it in ("window", "checksum", "urgptr")},
    **{f"{header} {it}": 16 for header in ("sctp", "dccp", "udplite") for it in ("sport", "dport")},
    **{f"icmp {it}": 16 for it in ("checksum", "id", "sequence", "mtu")},
    **{f"{header} {it}": 32 for header in ("ah", "esp") for it in ("spi", "sequence")},
    **{name: 32 for name in ("icmp gateway", "sctp vtag", "sctp checksum", "meta sdif", "ct id")},
    **{name: 16 for name in ("udp length", "udp checksum", "ip id", "ip checksum", "udplite checksum", "gre protocol")},
    **{name: 16 for name in ("udplite csumcov", "igmp checksum", "comp cpi", "ah reserved")},
    **{name: 8 for name in ("igmp type", "igmp mrt", "ah hdrlength", "comp flags")},
    "tcp reserved": 4,
}
BY_ROUTE = ("rt", "meta rtclassid")  # what has no value before routing; of these the selector or its first word
OPTIONS = ("tcp option", "ip option", "sctp chunk", "dccp option")  # of which packets are assumed to have none
OWNERS = ("meta skuid", "meta skgid", "meta cgroup")
# what a packet may lack beside its protocol and connection, by how the selector begins
MAY_LACK = (*OPTIONS, *OWNERS, "meta iifkind", "meta oifkind", "ct helper", "socket", "osf")
# of all other selectors: by the selector or its first word, which assumption is made
UNKNOWN = {
    "fib": "fib",
    "ether": "link",
    "meta skuid": "owner",
    "meta skgid": "owner",
    "meta cgroup": "owner",
    "socket": "owner",
    "meta time": "time",
    "meta hour": "time",
    "meta day": "time",
    "ct helper": "helper",
    "ct": "ct",
    "rt": "route",
    "ipsec": "route",
    "meta random": "random",
    "meta cpu": "random",
    "meta": "meta",
    "osf": "header",
}
# `.. set` of what nftrun doesn't write: how much it matters that it is left out, and why
LEFT_OUT: dict[str, tuple[Grade, str]] = {
    "meta nftrace": (Grade.SAME, "it changes no packet; --trace tells all"),
    "ct event": (Grade.SAME, "it changes no packet"),
    "meta priority": (Grade.OUTCOME, "the queue of a packet isn't shown"),
    "meta secmark": (Grade.OUTCOME, "security marks aren't shown"),
    "ct secmark": (Grade.OUTCOME, "security marks aren't shown"),
    "ct label": (Grade.OUTCOME, "labels aren't shown"),
    "ip dscp": (Grade.OUTCOME, "packets leave with their old DSCP"),
    "ip ecn": (Grade.OUTCOME, "packets leave with their old ECN"),
    "tcp option maxseg size": (Grade.OUTCOME, "packets leave with their old segment size"),
    "ether saddr": (Grade.OUTCOME, "link addresses aren't shown"),
    "ether daddr": (Grade.OUTCOME, "link addresses aren't shown"),
    "ct helper": (Grade.GUESS, "setting"),
    "ct expectation": (Grade.GUESS, "setting"),
    "ct timeout": (Grade.GUESS, "setting"),
    "ct zone": (Grade.GUESS, "setting"),
}

# Words of nft(8) that nftrun hasn't

MORE_SERVICES = {
    "ftp-data": 20,
    "ftp": 21,
    "telnet": 23,
    "time": 37,
    "tftp": 69,
    "bootps": 67,
    "bootpc": 68,
    "kerberos": 88,
    "pop3": 110,
    "sunrpc": 111,
    "imap": 143,
    "imap2": 143,
    "netbios-ns": 137,
    "netbios-dgm": 138,
    "netbios-ssn": 139,
    "snmp": 161,
    "snmp-trap": 162,
    "bgp": 179,
    "ldap": 389,
    "microsoft-ds": 445,
    "submission": 587,
    "submissions": 465,
    "isakmp": 500,
    "syslog": 514,
    "router": 520,
    "route": 520,
    "dhcpv6-client": 546,
    "dhcpv6-server": 547,
    "ldaps": 636,
    "domain-s": 853,
    "rsync": 873,
    "imaps": 993,
    "pop3s": 995,
    "openvpn": 1194,
    "ms-sql-s": 1433,
    "radius": 1812,
    "radius-acct": 1813,
    "nfs": 2049,
    "mysql": 3306,
    "ipsec-nat-t": 4500,
    "sip": 5060,
    "sip-tls": 5061,
    "mdns": 5353,
    "postgresql": 5432,
    "http-alt": 8080,
    "git": 9418,
    "ntske": 4460,
    "xmpp-client": 5222,
    "xmpp-server": 5269,
}
MORE_PROTOCOLS = {
    "udplite": 136,
    "dccp": 33,
    "comp": 108,
    "ipcomp": 108,
    "ipv6": 41,
    "icmpv6": 58,
    "ospf": 89,
    "vrrp": 112,
    "pim": 103,
    "ipip": 4,
    "ipencap": 4,
    "l2tp": 115,
}


def first_word(name: str) -> str:
    return name.split()[0]


def assumption_of(name: str) -> str:
    """Which assumption is made of a selector that nftrun doesn't read and of which nothing is known."""
    return UNKNOWN.get(name) or UNKNOWN.get(first_word(name)) or "header"
