"""What the page of browsing.made has to answer to clicks and searches. All numbers are reckoned by hand from SORTS:

  3,464 dns, 145 and 133 web, 17 mail, 5 to port 2525, 9 from outside, 4 pings, 3 to the box, 2 of IPv6: 3,782 records.
  NEW passes 3464 + 145 + 133 + 4 = 3,746, lets 3 into the box, and drops 17 + 5 + 9 + 2 = 33; OLD passes the mail, too.
"""
from __future__ import annotations

import json
import re
from typing import TYPE_CHECKING

if TYPE_CHECKING:
    from browsing.browser import Browser
    from browsing.checks import Checks

SEARCHES = {
    # addresses, whole: 133 are of 192.168.1.60, which begins alike
    "192.168.1.6": 145, "192.168.1.60": 133, "192.168.1.7": 0, "src 192.168.1.6": 145, "dst 192.168.1.6": 0,
    # all from lan: 3782 - 9 from outside - 2 of IPv6; all through wan have its address, or are sent to it
    "192.168.1.0/24": 3771, "192.168.1.": 3771, "192.168": 3771, "203.0.113.1": 3755, "0.0.0.0/0": 3780,
    # of the first half of 198.51.100.0/24: all but what goes to .200 and into the box from lan
    "198.51.100.0/25": 3772, "198.51.100.128/25": 5, "198.51.100.7:443": 278,
    # ports, as numbers: 192.168.1.25 and pings with identifier 25 aren't of port 25; dns has source port 2525 once
    "port 25": 17, "port 2525": 6, "dport 2525": 5, "sport 2525": 1, ":53": 3464, "tcp 443": 278, "port 5": 0,
    "tcp": 312, "udp": 3464, "icmp": 4, "ipv6": 2, "syn": 312, "ack": 0, "echo-request": 4, "protocol 17": 3464,
    # interfaces: by wan came 9 and left 3,746; by lan came all others
    "wan": 3755, "in wan": 9, "out wan": 3746, "lan": 3773, 'iifname "lan"': 3773, "guest": 0,
    # outcomes; rules dropped all but the 2 of IPv6
    "drop": 33, "dropped": 33, "passed": 3746, "to the box": 3, "local": 3, "rule": 31, "notip": 2, "not sent": 0,
    "new": 3780, "established": 0,
    # all words have to hold
    "192.168.1.25 drop": 17, "tcp drop in wan": 9, "udp drop": 0, "192.168.1.6 tcp port 443 passed": 145,
    "record 17": 1, "#17": 1, "": 3782,
}
# a number alone is a record; the port of that number is offered: of dns each from 1,024 to 4,487 is one's
NUMBERS = {"17": ("Record 17", "record 17"), "1,234": ("Record 1,234", "record 1,234 · port 1234: 1 record"),
           "25": ("Record 25", "record 25 · port 25: 17 records"),
           "4000": ("Record 25", "record 4,000: there is none · port 4000: 1 record")}
# rules of chain forward by their texts: hits with OLD and with NEW (None: not there)
HITS = {
    "ct state established,related accept": ("0", "0"),
    'iifname "lan" icmp type echo-request accept': ("4", "4"),
    'iifname "lan" tcp dport 443 counter accept': ("278", "278"),
    'iifname "lan" udp dport 53 accept': ("3,464", "3,464"),
    'iifname "lan" udp dport 123 accept': ("0", "0"),
    'iifname "lan" ip daddr 198.51.100.25 tcp dport 25 accept': ("17", None),
    'iifname "lan" tcp dport 8443 accept': (None, "0"),
    'iifname "vpn" accept': ("no run", "no run"),
    'iifname "lan" tcp dport 22 accept': ("3", "3"),
    # dropped in forward: 5, and now the mail; on input what came from outside
    "type filter hook forward priority filter; policy drop;": ("5", "22"),
    "type filter hook input priority filter; policy drop;": ("9", "9"),
    "type nat hook prerouting priority dstnat; policy accept;": ("3,780", "3,780"),
    'oifname "wan" masquerade': ("3,763", "3,746"),
}
VERDICT = "The new ruleset blocks 17 connections; 1 change was met by no packet; of all packets 2 classes differ."
BLIND = ("Nothing was compared: no record reached a rule (2 records notip: not IPv4); 4 changes were met by no packet; "
         "of all packets 2 classes differ.")
# of all packets: at which stage, by which rule of OLD and of NEW, and which packets. Ping that moved up and comments
# are no change; behind `ct state established,related` there are packets of all other states
CLASSES = [
    ["forward", 'accept iifname "lan" ip daddr 198.51.100.25 tcp dport 25 accept inet filter forward 5 line 24',
     "drop policy of inet filter forward line 19",
     'iifname "lan" ct state new,invalid,untracked ip daddr 198.51.100.25 tcp dport 25'],
    ["forward", "drop policy of inet filter forward line 19",
     'accept iifname "lan" tcp dport 8443 accept inet filter forward 4 line 23',
     'iifname "lan" ct state new,invalid,untracked tcp dport 8443']]
MARKS = {"removed": 1, "added": 1, "moved": 2, "reworded": 2}
WAYS = ("headers 3,782, notip 2, prerouting 3,780, routing 3,780, input 12, rule 9, to the box 3, TTL 3,768, "
        "forward 3,768, rule 22, postrouting 3,746, left 3,746")
# links and how many records they choose
LINKS = {"#outcome=rule&at=input": 9, "#outcome=rule&at=forward": 22, "#outcome=notip&at=headers": 2,
         "#outcome=passed": 3746, "#outcome=local": 3, "#sender=192.168.1.25": 17, "#sender=198.51.100.99": 9,
         "#group=1": 17}

SEARCH = """text => {
  const search = document.getElementById('search');
  search.value = text;
  document.getElementById('filter').dispatchEvent(new SubmitEvent('submit', {cancelable: true}));
  const head = document.querySelector('#detail h3 span');
  return [document.getElementById('which').textContent, head ? head.textContent : ''];
}"""
WHICH = "document.getElementById('which').textContent"
# the middle of an element, once it stands still: lines that come into sight take their own heights
PLACE_OF = """async selector => {
  const link = document.querySelector(selector), frame = () => new Promise(requestAnimationFrame);
  let before, box = link.getBoundingClientRect();
  do {
    before = box;
    link.scrollIntoView({block: 'center', behavior: 'instant'});
    await frame();
    await frame();
    box = link.getBoundingClientRect();
  } while (box.top !== before.top);
  return [(box.left + box.right) / 2, (box.top + box.bottom) / 2];
}"""
SIDES = """[...document.querySelectorAll('.pair:not(.head) .half:not(.empty)')].map(half => [
  half.classList.contains('old') ? 0 : 1, half.classList[2],
  half.querySelector('code').textContent, half.querySelector('.count').textContent.trim(),
  [...half.querySelectorAll('.note')].map(note => note.textContent).join('; ')])"""
# where the record stands: its heading, whether that is within the window, its row within the list
LANDED = """new Promise(done => setTimeout(() => requestAnimationFrame(() => {
  const within = (box, top, bottom) => box.top >= top - 1 && box.bottom <= bottom + 1;
  const head = document.querySelector('#detail h3'), list = document.getElementById('list').getBoundingClientRect();
  const row = document.querySelector('.row[aria-selected="true"]');
  done([head ? head.firstChild.textContent : '', !!head && within(head.getBoundingClientRect(), 0, innerHeight),
    row ? row.firstChild.textContent : '', !!row && within(row.getBoundingClientRect(), list.top, list.bottom)]);
}), 120))"""


def records_in(text: str) -> int:
    """How many records a line of the list tells of; -1 where it tells of none."""
    found = re.search(r": ([0-9,]+) records?", text)
    return int(found[1].replace(",", "")) if found else -1


def try_searches(browser: Browser, checks: Checks) -> None:
    """Each search has its number of records, and an unknown word says so."""
    for text, many in SEARCHES.items():
        which, _ = browser.value(f"({SEARCH})({json.dumps(text)})")
        checks.same(f"search for {text!r}", records_in(which), many)
    for text, wanted in NUMBERS.items():
        which, head = browser.value(f"({SEARCH})({json.dumps(text)})")
        checks.same(f"search for {text!r}", (head, which), wanted)
    browser.value(f"({SEARCH})('25')")
    click(browser, "#which button")
    checks.same("the port that is offered", records_in(browser.value(WHICH)), 17)
    which, _ = browser.value(f"({SEARCH})('nosuchword')")
    checks.same("search for a word without meaning", "“nosuchword” isn't known here" in which, True)


def click(browser: Browser, selector: str) -> None:
    """Clicks on the first element of a selector, as a reader would."""
    browser.click(*browser.value(f"({PLACE_OF})({json.dumps(selector)})"))


def try_links(browser: Browser, checks: Checks) -> None:
    """Links choose their records."""
    for link, many in LINKS.items():
        click(browser, f'a[href="{link}"]')
        browser.value("new Promise(done => setTimeout(done, 60))")
        checks.same(f"link {link}", records_in(browser.value(WHICH)), many)
    for text, (_, hits) in HITS.items():
        if hits in (None, "no run") or text.startswith("type "):
            continue
        found = browser.value(
            f"(text => {{ const line = [...document.querySelectorAll('.line')].find(one => "
            f"one.querySelector('code').textContent.startsWith(text)); line.querySelector('a.chip').click(); "
            f"return new Promise(done => setTimeout(() => done([line.querySelector('.chip b').textContent, {WHICH}]), "
            f"60)); }})({json.dumps(text)})")
        checks.same(f"rule {text}", (found[0], f"{records_in(found[1]):,}"), (hits, hits))


def try_records(browser: Browser, checks: Checks, page: str, name: str) -> None:
    """A link to a record lands on it: by a click, by the address that a page is opened with, by a row of the list."""
    for link in browser.value("[...new Set([...document.querySelectorAll('a[href^=\"#record=\"]')].map("
                              "link => link.getAttribute('href')))]"):
        click(browser, f'a[href="{link}"]')
        number = f"{int(link.partition('=')[2]):,}"
        checks.same(f"{name}: link {link}", browser.value(LANDED), [f"Record {number}", True, number, True])
    for record in (1, 17, 3700):
        browser.open(page, f"#record={record}")
        wanted = [f"Record {record:,}", True, f"{record:,}", True]
        checks.same(f"{name}: opened with #record={record}", browser.value(LANDED), wanted)
    browser.open(page, "#record=3783")
    checks.same(f"{name}: opened with a record that isn't there", browser.value(WHICH),
                "record 3783 isn't among the 3,782 that can be looked at")
    browser.open(page)
    click(browser, ".row:nth-child(3)")
    checks.same(f"{name}: a row of the list", browser.value(LANDED)[:2], ["Record 3", True])


def try_change(browser: Browser, checks: Checks) -> None:
    """The sentence at the top, and both texts with their marks and hits."""
    checks.same("verdict", browser.value("document.getElementById('verdict').textContent"), VERDICT)
    sides = browser.value(SIDES)
    marks = {mark: sum(one[1] == mark for one in sides) for mark in MARKS}
    checks.same("marks", marks, MARKS)
    for text, hits in HITS.items():
        found = [next((one[3] for one in sides if one[0] == side and one[2].startswith(text)), None) for side in (0, 1)]
        checks.same(f"both texts: hits of {text}", tuple(found), hits)
    checks.same("the rule that was removed", [one[2] for one in sides if one[1] == "removed"],
                ['iifname "lan" ip daddr 198.51.100.25 tcp dport 25 accept'])
    checks.same("the rule that was added", [(one[2], one[4]) for one in sides if one[1] == "added"],
                [('iifname "lan" tcp dport 8443 accept', "met by no packet; a packet could meet it")])
    checks.same("the rule that was moved", {one[2] for one in sides if one[1] == "moved"},
                {'iifname "lan" icmp type echo-request accept'})
    classes = browser.value("[...document.querySelectorAll('.classes .group')].map("
                            "one => [...one.querySelectorAll('dd, li')].map(part => part.textContent))")
    checks.same("classes of all packets", sorted(classes), sorted(CLASSES))
    noted = browser.value("[...document.querySelectorAll('.noted li')].map(one => one.textContent)")
    checks.same("changes that no packet met", noted,
                ['new: inet filter forward 4  # iifname "lan" tcp dport 8443 accept (a packet could meet it)'])


def try_ways(browser: Browser, checks: Checks) -> None:
    found = browser.value("[...document.querySelectorAll('.ways .place, .ways .drop')].map("
                          "one => one.textContent.trim()).join(', ')")
    checks.same("the way of packets", found, WAYS)
