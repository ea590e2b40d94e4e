"""What a page shows of each record and rule, beside the report and the packets of the run."""
from __future__ import annotations

import json
import os
import re
from collections import Counter
from dataclasses import dataclass
from typing import TYPE_CHECKING, Any, Iterator, Sequence

from pages.model import COPY
from toolbox.captures import LINK_LENGTHS, LINUX_SLL2, PROTOCOL_AT, header_of, records
from toolbox.commands import printable
from toolbox.packets import describe
from toolbox.program import find_program, run
from toolbox.reports import Decision, Summary, event_of, records_of, text_of
from toolbox.rulesets import read_ruleset

if TYPE_CHECKING:
    from browsing.browser import Browser
    from browsing.checks import Checks
    from toolbox.rulesets import Rule, Ruleset

THROUGH = {"passed": "passed", "local": "to the box"}
AT_ONCE, MOST_RECORDS = 200, 100_000
# chooses records by the search field, as a reader would by hand, and reads what is shown of each
READ = """numbers => numbers.map(number => {
  const search = document.getElementById('search');
  search.value = String(number);
  document.getElementById('filter').dispatchEvent(new SubmitEvent('submit', {cancelable: true}));
  const text = one => (document.querySelector('#detail ' + one) || {textContent: null}).textContent;
  return [text('h3 span'), text('h3 .o'), text('.before'), text('.after'), text('.steps .end'),
    [...document.querySelectorAll('#detail .step')].map(step => [step.querySelector('.verdict').textContent,
      step.querySelector('.chain').textContent, (step.querySelector('code') || {textContent: 'policy'}).textContent])];
})"""
CLICK_RULE = """index => {
  location.hash = '';
  const chip = document.querySelector(`.listing a.chip[href="#rule=${index}"]`);
  if (!chip) return null;
  chip.click();
  const told = () => [chip.querySelector('b').textContent, document.getElementById('which').textContent];
  return new Promise(done => setTimeout(() => done(told()), 30));
}"""
HEADING = "(document.querySelector('#detail h3 span') || {textContent: ''}).textContent"
KEYS = (
    ("Escape", "document.getElementById('which').textContent.startsWith('all: ')"),
    ("j", f"{HEADING} !== ''"), ("j", f"/^Record /.test({HEADING})"), ("k", f"/^Record /.test({HEADING})"),
    ("c", "/connection|Records|all/.test(document.getElementById('which').textContent)"),
    ("?", "document.getElementById('help').open"), ("Escape", "!document.getElementById('help').open"),
    ("u", "!document.querySelector('.line.unmet') || !!document.querySelector('.line.unmet.target')"),
    ("n", "!document.querySelector('.pair.differs') || !!document.querySelector('.pair.differs.target')"),
    ("/", "document.activeElement.id === 'search'"))


@dataclass(frozen=True)
class Expected:
    """What the report and the packets say of a record: outcome, decisions, the packet as it came and as it left."""

    outcome: str
    steps: Sequence[Decision]
    before: str | None
    after: str | None


class Run:
    """A run of nftrun, read without the page."""

    def __init__(self, rules: str, box: str, capture: str, folder: str) -> None:
        report, leaving = os.path.join(folder, "report"), os.path.join(folder, "out.pcap")
        run(find_program(), rules, box, capture, leaving, report)
        self.ruleset, self.summary = read_ruleset(rules), Summary(report)
        self.records: dict[int, Expected] = {}
        self.hits: Counter[tuple[str, int | None]] = Counter()
        link = header_of(capture).link_type
        at, protocol = LINK_LENGTHS[link], PROTOCOL_AT[link]
        left = records(leaving)
        for (number, *_, data), (_, events, outcome) in zip(records(capture), records_of(report)):
            steps = [one for one in map(event_of, events) if isinstance(one, Decision)]
            self.hits.update({(step.chain, step.rule) for step in steps})
            is_ipv4 = (len(data) >= at + 20 and data[at] >> 4 == 4
                       and (protocol is None or data[protocol:protocol + 2] == b"\x08\x00"))
            frame = next(left)[-1] if outcome == b"passed" else None
            self.records[number] = Expected(
                text_of(outcome or b""), steps, printable(describe(data, at)) if is_ipv4 else None,
                describe(frame, LINK_LENGTHS[LINUX_SLL2]) if frame else None)


def differences(number: int, shown: list[Any], expected: Expected, ruleset: Ruleset) -> Iterator[str]:
    """What a record's detail shows otherwise than the report says."""
    head, outcome, before, after, end, steps = shown
    if head != f"Record {number:,}":
        yield f"the heading {head}"
    if outcome == COPY and expected.outcome == "link":
        outcome, end = "link", end and end.replace("a packet as the box sent it, seen a second time: ", "")
    if outcome != THROUGH.get(expected.outcome, expected.outcome):
        yield f"outcome {outcome}, not {expected.outcome}"
    if expected.before and before != expected.before:
        yield f"it came as {before}, not {expected.before}"
    if after != expected.after:
        yield f"it left as {after}, not {expected.after}"
    wanted_end = {"passed": "left by", "local": "delivered"}.get(expected.outcome, f"dropped for {expected.outcome}")
    if not end or not end.startswith(wanted_end):
        yield f"it ends with {end}"
    texts = [[step.verdict, step.chain if step.rule is None else f"{step.chain} {step.rule}",
              printable(ruleset.text_of(step.chain, step.rule))] for step in expected.steps]
    # what held without deciding isn't told by a report
    shown_steps = [step for step in steps if step[0] != "continue" or step in texts]
    if shown_steps != texts:
        yield f"steps {shown_steps}, not {texts}"


def try_records(browser: Browser, checks: Checks, made: Run, numbers: Sequence[int]) -> None:
    """Chooses records, and compares what is shown of each."""
    for start in range(0, len(numbers), AT_ONCE):
        some = list(numbers[start:start + AT_ONCE])
        for number, shown in zip(some, browser.value(f"({READ})({json.dumps(some)})")):
            checks.none(f"record {number}", differences(number, shown, made.records[number], made.ruleset))


def rule_differences(found: list[str], rule: Rule, made: Run) -> Iterator[str]:
    """What a rule's number and records are otherwise than the report says."""
    number, which = found
    many = int((re.search(r"([0-9,]+) records?", which) or [", 0"])[1].replace(",", "").strip() or 0)
    if not which.startswith(f"rule {rule.number} of {rule.chain}:"):
        yield which
    hits = made.hits[rule.place]
    if rule.decides and len(made.records) <= MOST_RECORDS and many != hits:
        yield f"{many} records, not {hits}"
    counters = [one.packets for one in made.summary.counters if (one.chain, one.rule) == rule.place]
    ends_with_counter = counters and rule.counter_starts == [0] and rule.words[-1:] == ["counter"]
    if ends_with_counter and int(number.replace(",", "")) != counters[0]:
        yield f"number {number}, counter {counters[0]}"


def try_rules(browser: Browser, checks: Checks, made: Run) -> None:
    """Chooses each rule; compares its number and how many records are behind it with the report."""
    for index, rule in enumerate(made.ruleset.rules):
        found = browser.value(f"({CLICK_RULE})({index})")
        if found is not None:
            checks.none(f"rule {rule.number} of {rule.chain}", rule_differences(found, rule, made))


def try_keys(browser: Browser, checks: Checks) -> None:
    """Walks through records by keys."""
    for key, wanted in KEYS:
        browser.key(key)
        checks.same(f"key {key}", browser.value(wanted), True)


def try_quiet(browser: Browser, checks: Checks) -> None:
    """That the page asked for nothing, ran no script of a stranger's, and had no fault."""
    found = browser.value("[document.scripts.length, document.querySelectorAll('img, iframe, object, embed, link')"
                          ".length, typeof window.pwned]")
    checks.same("scripts, what else is loaded, what a stranger's script left", found, [1, 0, "undefined"])
    checks.none("asked of the network", browser.requests())
    checks.none("faults of scripts", map(str, browser.faults()))
