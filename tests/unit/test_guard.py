"""What a guard of rulesets fails on, what it accepts, and how reviewers' tools are told."""
from __future__ import annotations

import json
import os
import subprocess
import unittest
from unittest import mock

from support import FilesCase
from toolbox.annotations import escaped, github_lines, sarif
from toolbox.commands import Refused
from toolbox.differences import BLOCKED, OPENED, REWRITTEN, SAME_RULES, Group, Told, are_alike_but_ports
from toolbox.guard import USUAL, Accepted, AllowList, Guard, Kind, Seen, Unmet, allow_list, kind_of, kinds_of
from toolbox.revisions import write_revision

ACCEPT = Told("inet filter forward", 3, "accept", "tcp dport 80 accept", "old.nft", 7)
POLICY = Told("inet filter forward", None, "drop", "policy", "new.nft", 4)
PORTS = Told(None, None, "passed", SAME_RULES)
UDP = bytes.fromhex("4500001f006300000311cb7ec0a8010ac633640713880035000b2cc96f6464")
# the same packet from port 5002 in place of 5000, with the checksums that another hand gives it
OTHER_PORT = bytes.fromhex("4500001f006300000311cb7ec0a8010ac6336407138a0035000b2cc76f6464")


def group(kind: str, old: Told, new: Told) -> Group:
    made = Group(1, kind, old, new, (5, "tcp 192.0.2.1:9 > 192.0.2.2:80"))
    made.take(5, True, bytes((192, 0, 2, 1, 192, 0, 2, 2, 0, 9, 0, 80, 6)))
    return made


def seen(guard: Guard, *groups: Group, unmet: tuple[Unmet, ...] = (), untold: tuple[str, ...] = (),
         nothing: str | None = None, is_blind: bool = False, is_torn: bool = False) -> Guard:
    guard.seen.append(Seen("in.pcap", guard.judged(groups), unmet, untold, nothing, is_blind, is_torn, 9, len(groups)))
    return guard


def guard_of(words: str | None = None, *entries: Accepted) -> Guard:
    return Guard(kinds_of(words), AllowList(entries))


class Failing(unittest.TestCase):
    def test_kinds(self) -> None:
        self.assertEqual(kinds_of(None), USUAL)
        self.assertEqual(kinds_of("ports,unmet"), {Kind.PORTS, Kind.UNMET})
        for words in ("", "opened,", "all", "opened blocked"):
            self.assertRaises(Refused, kinds_of, words)
        self.assertEqual([kind_of(group(REWRITTEN, PORTS, PORTS)), kind_of(group(REWRITTEN, ACCEPT, POLICY))],
                         [Kind.PORTS, Kind.REWRITTEN])

    def test_statuses(self) -> None:
        blocked, ports = group(BLOCKED, ACCEPT, POLICY), group(REWRITTEN, PORTS, PORTS)
        self.assertEqual(seen(guard_of(), blocked).status(), 1)
        self.assertEqual(seen(guard_of("opened"), blocked).status(), 0)
        self.assertEqual(seen(guard_of(), ports).status(), 0)
        self.assertEqual(seen(guard_of("ports"), ports).status(), 1)
        self.assertEqual(seen(guard_of(), is_torn=True).status(), 7)
        self.assertEqual(seen(guard_of(), nothing="why").status(), 2)

    def test_several_captures(self) -> None:
        of_stage = seen(seen(guard_of(), nothing="stage"), group(OPENED, POLICY, POLICY))
        self.assertEqual((of_stage.status(), of_stage.nothing()), (1, []))
        self.assertEqual(seen(seen(guard_of(), nothing="stage"), nothing=None).status(), 0)
        self.assertEqual(seen(seen(guard_of(), nothing="stage"), nothing="stage").status(), 2)
        blind = seen(seen(guard_of(), nothing="blind", is_blind=True), nothing=None)
        self.assertEqual((blind.status(), blind.nothing()), (2, ["in.pcap: blind"]))
        self.assertIn("nothing was compared in 1 of 2 captures", blind.verdict())

    def test_unmet_by_any(self) -> None:
        one, other, third = (Unmet(f"new: rule {number}", "new.nft", number) for number in (1, 2, 3))
        guard = seen(seen(guard_of("unmet"), unmet=(one, other), untold=("new: rule 3",)), unmet=(one, third))
        self.assertEqual((guard.unmet(), guard.untold(), guard.status()), ([one], ["new: rule 3"], 1))
        self.assertEqual(guard.verdict(), "fails: 1 unmet")


class Accepting(FilesCase):
    def entries(self, *lines: str) -> AllowList:
        return allow_list(self.file("a.jsonl", "\n".join(lines)))

    def test_entries(self) -> None:
        blocked = group(BLOCKED, ACCEPT, POLICY)
        allowed = self.entries("# why", "", '{"list": "opened", "new": {"verdict": "drop"}}',
                               '{"list": "blocked", "old": {"text": "tcp dport 80 accept"}, "ports": {"tcp 80": 9}}')
        found = allowed.covering(blocked)
        self.assertEqual(found and found.line, 4)
        self.assertEqual([entry.line for entry in allowed.unused()], [3])
        guard = seen(Guard(USUAL, allowed), blocked)
        self.assertEqual((guard.status(), guard.verdict()),
                         (0, "nothing to fail on (opened,blocked,rewritten,otherwise), 1 group accepted"))
        for line in ('{"list": "blocked", "old": {"text": "tcp dport 80 accept"}, "ports": ["tcp 81"]}',
                     '{"list": "blocked", "old": {"verdict": "drop"}}', '{"list": "blocked", "new": {"chain": null}}'):
            self.assertIsNone(self.entries(line).covering(blocked))

    def test_no_list(self) -> None:
        self.assertEqual(allow_list(None).entries, [])


class ToldToReviewers(unittest.TestCase):
    def guard(self) -> Guard:
        accepted = Accepted("a.jsonl", 4, OPENED, {}, {"verdict": "accept"}, None)
        unused = Accepted("a.jsonl", 5, OPENED, {"verdict": "x"}, {}, None)
        of_git = Told("inet filter forward", 1, "accept", "accept", "main:new.nft", 3)
        guard = Guard(USUAL, AllowList((accepted, unused)))
        groups = group(BLOCKED, ACCEPT, POLICY), group(OPENED, POLICY, ACCEPT), group(REWRITTEN, of_git, PORTS)
        return seen(guard, *groups, unmet=(Unmet("new: a\nb", "new.nft", 9), Unmet("old: c", "main:new.nft", 9)),
                    is_torn=True)

    def test_github(self) -> None:
        lines = list(github_lines(self.guard(), "new.nft"))
        self.assertEqual([line.partition("::")[2].partition("::")[0] for line in lines], [
            "warning title=nftrun compare", "error file=new.nft,line=4,title=blocked",
            "notice file=old.nft,line=7,title=opened (accepted)", "error file=new.nft,title=rewritten",
            "warning file=new.nft,line=9,title=unmet", "warning file=new.nft,title=unmet",
            "notice file=a.jsonl,line=5,title=nftrun compare"])
        self.assertIn("a\\x0ab", lines[4])
        self.assertEqual(escaped("a%\n:,b", True), "a%25%0A%3A%2Cb")

    def test_sarif(self) -> None:
        told = json.loads(sarif(self.guard(), "new.nft", 1))
        run, = told["runs"]
        self.assertEqual([result["ruleId"] for result in run["results"]],
                         ["blocked", "opened", "rewritten", "unmet", "unmet"])
        self.assertEqual({rule["id"] for rule in run["tool"]["driver"]["rules"]}, {kind.value for kind in Kind})
        self.assertEqual(run["results"][0]["locations"][0]["physicalLocation"],
                         {"artifactLocation": {"uri": "new.nft"}, "region": {"startLine": 4}})
        self.assertIn("suppressions", run["results"][1])
        self.assertEqual(run["invocations"][0]["exitCode"], 1)
        self.assertEqual(len(run["invocations"][0]["toolExecutionNotifications"]), 2)


class Bytes(unittest.TestCase):
    def test_alike_but_ports(self) -> None:
        link = bytes(4) + bytes((0, 0, 0, 3)) + bytes(12)
        self.assertTrue(are_alike_but_ports(link + UDP, link + OTHER_PORT))
        self.assertFalse(are_alike_but_ports(link + UDP, link[:7] + b"\x04" + link[8:] + UDP))
        self.assertFalse(are_alike_but_ports(link + UDP, link + UDP[:15] + b"\x63" + UDP[16:]))
        self.assertFalse(are_alike_but_ports(None, link + UDP))


class Revisions(FilesCase):
    def git(self, *words: str) -> None:
        known = {**os.environ, "GIT_CONFIG_GLOBAL": os.devnull, "GIT_CONFIG_SYSTEM": os.devnull}
        known.update({f"GIT_{who}_{what}": "a@b" for who in ("AUTHOR", "COMMITTER") for what in ("NAME", "EMAIL")})
        subprocess.run(["git", "-C", str(self.folder), *words], env=known, check=True, stdout=subprocess.DEVNULL)

    def test_files(self) -> None:
        path, target = self.file("rules.nft", "table ip a { }\n"), str(self.folder / "target")
        self.git("init", "-q", "-b", "main", ".")
        self.git("add", "rules.nft")
        self.git("commit", "-q", "-m", "one")
        self.file("rules.nft", "table ip b { }\n")
        write_revision("main", path, target)
        with open(target, encoding="ascii") as file:
            self.assertEqual(file.read(), "table ip a { }\n")
        with mock.patch("toolbox.revisions.MOST_READ", 3):
            self.assertRaisesRegex(Refused, "over 3 bytes", write_revision, "HEAD", path, target)
        for revision in ("", "-x", "main:rules.nft", "other"):
            self.assertRaises(Refused, write_revision, revision, path, target)
        self.assertRaises(Refused, write_revision, "main", str(self.folder / "none.nft"), target)


if __name__ == "__main__":
    unittest.main()
