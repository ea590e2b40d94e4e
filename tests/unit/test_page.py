"""Parts of the page: both texts line by line, the verdict on a change, the axis of times."""
from __future__ import annotations

import sys
import unittest

from support import TOP

sys.path[:0] = [str(TOP / "tools/html")]

from pages.aligned import Alignment, Mark, version  # noqa: E402
from pages.classes import classes_html  # noqa: E402
from pages.drops import ticks  # noqa: E402
from pages.texts import seconds_text  # noqa: E402
from pages.verdict import verdict  # noqa: E402
from toolbox.diffed import Outcome, PacketClass  # noqa: E402
from toolbox.differences import BLOCKED, OPENED, OTHERWISE, REWRITTEN, Told  # noqa: E402
from toolbox.every_packet import EveryPacket, ToldClass  # noqa: E402
from toolbox.evidence import changes_of  # noqa: E402
from toolbox.guard import Seen, Unmet  # noqa: E402
from toolbox.router import Uncompared  # noqa: E402
from toolbox.rulesets import Ruleset  # noqa: E402

BASE = """table inet f {
    set web { type inet_service; elements = { 80, 443 } }
    chain in {
        type filter hook input priority 0; policy drop;
        tcp dport 22 accept
        tcp dport @web accept # the web
        udp dport 53 counter accept

        icmp type echo-request accept
    }
    chain out {
        type filter hook forward priority 0; policy drop;
        tcp dport 25 accept
    }
}
"""


def marks(old: str, new: str) -> list[str]:
    """Of lines that differ `mark old|new`, with what stands in each text."""
    before, after = Ruleset(old), Ruleset(new)
    pairs = Alignment(version(before, changes_of(before, after)), version(after, changes_of(after, before))).pairs
    told = []
    for pair in pairs:
        if not pair.is_same:
            sides = [f"{one.mark.value} {one.text.strip()}" if one else "" for one in (pair.old, pair.new)]
            told.append(" | ".join(sides))
    return told


def changed(*replaced: tuple[str, str]) -> list[str]:
    new = BASE
    for before, after in replaced:
        assert before in new
        new = new.replace(before, after)
    return marks(BASE, new)


class BothTexts(unittest.TestCase):
    def test_all_lines_are_there_in_order(self) -> None:
        for new in (BASE, BASE.replace("        tcp dport 22 accept\n", ""), "table inet f {\n}\n", ""):
            before, after = Ruleset(BASE), Ruleset(new)
            pairs = Alignment(
                version(before, changes_of(before, after)), version(after, changes_of(after, before))).pairs
            for text, lines in ((BASE, [pair.old for pair in pairs]), (new, [pair.new for pair in pairs])):
                found = [(one.number, one.text) for one in lines if one]
                self.assertEqual(found, list(enumerate(text.split("\n")[:-1], 1)))

    def test_no_change(self) -> None:
        self.assertEqual(changed(), [])
        self.assertEqual(changed(("        tcp dport 22", "  tcp  dport 22")), [])

    def test_removed_and_added(self) -> None:
        self.assertEqual(changed(("        tcp dport 22 accept\n", "")), ["removed tcp dport 22 accept | "])
        self.assertEqual(changed(("        udp", "        tcp dport 8443 accept\n        udp")),
                         [" | added tcp dport 8443 accept"])
        self.assertEqual(changed(("dport 22", "dport 2222")),
                         ["removed tcp dport 22 accept | added tcp dport 2222 accept"])
        self.assertEqual(changed(("hook forward priority 0; policy drop", "hook forward priority 0; policy accept")),
                         ["removed type filter hook forward priority 0; policy drop; | "
                          "added type filter hook forward priority 0; policy accept;"])

    def test_moved(self) -> None:
        ping = "        icmp type echo-request accept\n"
        within = changed((ping, ""), ("        tcp dport 22", f"{ping}        tcp dport 22"))
        self.assertEqual(within, [" | moved icmp type echo-request accept", "moved icmp type echo-request accept | "])
        beyond = changed((ping, ""), ("        tcp dport 25", f"{ping}        tcp dport 25"))
        self.assertEqual(beyond, ["moved icmp type echo-request accept | ", " | moved icmp type echo-request accept"])

    def test_a_chain_that_moved_is_moved_whole(self) -> None:
        chain = BASE[BASE.index("    chain out"):BASE.index("    }\n}") + 6]
        new = BASE.replace(chain, "").replace("    chain in", f"{chain}    chain in")
        found = marks(BASE, new)
        self.assertEqual(sum(line.startswith("moved ") for line in found), 4)
        self.assertEqual(sum(line.startswith(" | moved ") for line in found), 4)
        self.assertEqual(len(found), 8)

    def test_written_otherwise(self) -> None:
        self.assertEqual(changed(("# the web", "# web")),
                         ["reworded tcp dport @web accept # the web | reworded tcp dport @web accept # web"])
        self.assertEqual(changed(("counter accept", "counter packets 3 bytes 9 accept")),
                         ["reworded udp dport 53 counter accept | "
                          "reworded udp dport 53 counter packets 3 bytes 9 accept"])
        self.assertEqual(changed(("        udp", "        # names\n        udp")), [" | reworded # names"])

    def test_a_set_that_changed_changes_the_rules_that_ask_it(self) -> None:
        self.assertEqual(changed(("80, 443", "443")), [
            "removed set web { type inet_service; elements = { 80, 443 } } | "
            "added set web { type inet_service; elements = { 443 } }",
            "removed tcp dport @web accept # the web | added tcp dport @web accept # the web"])

    def test_each_mark_has_a_meaning(self) -> None:
        from pages.both import MEANS, SIGNS
        self.assertEqual(set(SIGNS), set(Mark))
        self.assertEqual(set(MEANS), set(Mark) - {Mark.SAME})


def seen(nothing: str | None = None, not_compared: Uncompared = Uncompared(), unmet: int = 0, untold: int = 0,
         is_torn: bool = False) -> Seen:
    return Seen("in.pcap", (), tuple(Unmet(f"new: {one}", "new.nft", one) for one in range(unmet)),
                tuple(map(str, range(untold))), nothing, False, is_torn, 1234, 0, (), not_compared)


class Verdicts(unittest.TestCase):
    def test_what_changes(self) -> None:
        self.assertEqual(verdict(seen(), {OPENED: 1, BLOCKED: 2345, REWRITTEN: 3, OTHERWISE: 4}, []).text,
                         "The new ruleset opens 1 connection, blocks 2,345 connections, rewrites 3 connections and "
                         "drops 4 connections for another cause.")
        self.assertEqual(verdict(seen(), {}, []).text, "Nothing differs in this capture.")
        self.assertEqual(verdict(seen(), {}, []).tone, "same")
        self.assertEqual(verdict(seen(), {OPENED: 1, BLOCKED: 2}, []).tone, "opened")

    def test_where_nothing_was_compared_that_comes_first(self) -> None:
        told = verdict(seen(nothing="no record reached a rule (none is in it)", unmet=2), {}, [])
        self.assertEqual(told.text, "Nothing was compared: no record reached a rule (none is in it); 2 changes were "
                                    "met by no packet: nothing is known of that.")
        self.assertEqual(told.tone, "unknown")
        part = verdict(seen(not_compared=Uncompared(3, 14)), {}, [])
        self.assertEqual(part.text, "Not compared: 3 flows, 14 records: what the rulesets change for these isn't "
                                    "known; nothing differs in the rest of this capture.")
        self.assertEqual(part.tone, "unknown")

    def test_it_tells_what_it_does_not_hold_for(self) -> None:
        told = verdict(seen(unmet=1, untold=1, is_torn=True), {}, ["new.nft"])
        self.assertEqual(
            told.text, "Nothing differs in this capture; 1 change was met by no packet: nothing is known of that; "
                       "whether a packet met 1 more change a run doesn't tell; the capture is torn, and this is of its "
                       "1,234 whole records; the replay of new.nft didn't settle.")
        for doubt in (seen(unmet=1), seen(untold=1), seen(is_torn=True)):
            self.assertEqual(verdict(doubt, {}, []).tone, "unknown")
        self.assertEqual(verdict(seen(), {}, ["new.nft"]).tone, "unknown")

    def test_what_is_known_of_all_packets(self) -> None:
        same, differs, unknown = EveryPacket(), EveryPacket((CLASS,)), EveryPacket(unknown="nftrun diff: too large")
        told = verdict(seen(nothing="no record reached a rule", unmet=2), {}, [], same)
        self.assertEqual((told.text, told.tone), (
            "The new ruleset does the same as the old one with every packet.", "same"))
        told = verdict(seen(unmet=2), {}, [], differs)
        self.assertEqual((told.text, told.tone), (
            "Nothing differs in this capture; 2 changes were met by no packet; of all packets 1 class differs.",
            "unknown"))
        self.assertEqual(verdict(seen(), {}, [], differs).tone, "unknown")
        self.assertEqual(verdict(seen(unmet=2), {}, [], unknown), verdict(seen(unmet=2), {}, []))


CLASS = ToldClass(
    PacketClass("forward", Outcome("drop", "ip f <b>"), Outcome("accept", "ip f <b>", 2, ("meta mark 5",)),
                tuple(f'iifname "<i>" tcp dport {port}' for port in range(7)), 3),
    Told("ip f <b>", None, "drop", "policy", "old.nft", 4), Told("ip f <b>", 2, "accept", "a <u> accept", "new.nft", 9))


class Classes(unittest.TestCase):
    def test_each_class(self) -> None:
        html = classes_html(EveryPacket((CLASS,)))
        for part in ("1 class differs", "<dt>at</dt><dd>forward</dd>", '<a href="#O4">line 4</a>',
                     ' with meta mark 5 <a href="#N9">line 9</a>', "<code>a &lt;u&gt; accept</code>",
                     "<li><code>at least 5 more</code></li>"):
            self.assertIn(part, html)
        self.assertEqual((html.count("<li>"), html.count("<b>"), html.count("lists more")), (6, 0, 0))

    def test_many(self) -> None:
        html = classes_html(EveryPacket((CLASS,) * 30, 4))
        self.assertEqual(html.count("<article"), 20)
        self.assertIn("more than 30 classes differ", html)
        self.assertIn("The first 20 classes are listed; <code>nftrun diff</code> lists more.", html)

    def test_without_a_class(self) -> None:
        self.assertEqual(classes_html(None), "")
        self.assertEqual(classes_html(EveryPacket()),
                         '<p class="same" id="every">The same for every packet: no capture is needed to know that.</p>')
        self.assertEqual(classes_html(EveryPacket(unknown="<i>")),
                         '<p class="bound" id="every">Nothing is known of all packets: &lt;i&gt;.</p>')


class Axis(unittest.TestCase):
    def test_round_times(self) -> None:
        self.assertEqual([text for _, text in ticks(0)], ["0 s"])
        self.assertEqual([text for _, text in ticks(5 * 10**9)], ["0 s", "2 s", "4 s"])
        self.assertEqual([text for _, text in ticks(307 * 10**9)], ["0 s", "2 min", "4 min", "5 min 7 s"])
        self.assertEqual([text for _, text in ticks(37_810_000_000)], ["0 s", "10 s", "20 s", "30 s", "38 s"])
        self.assertEqual([text for _, text in ticks(90 * 24 * 3600 * 10**9)],
                         ["0 s", "552 h", "1,104 h", "1,656 h", "2,160 h"])

    def test_any_span_has_few_times_that_rise(self) -> None:
        for power in range(18):
            for digit in (1, 3, 7, 9):
                found = list(ticks(digit * 10**power))
                shares = [share for share, _ in found]
                self.assertTrue(2 <= len(found) <= 6, found)
                self.assertEqual(shares, sorted(set(shares)))
                self.assertTrue(0 <= shares[0] and shares[-1] <= 1)
                self.assertEqual(len({text for _, text in found}), len(found), found)

    def test_seconds(self) -> None:
        self.assertEqual([seconds_text(moment * 10**9) for moment in (1.6, 59.4, 200, 7500)],
                         ["1.6 s", "59 s", "3 min 20 s", "2 h 5 min"])


if __name__ == "__main__":
    unittest.main()
