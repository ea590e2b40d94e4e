"""Puts the page together: one file of HTML that asks nothing of the network and runs no script but its own."""
from __future__ import annotations

import os
from dataclasses import dataclass, replace
from typing import TYPE_CHECKING, TextIO

from pages.change import Change, both_html, html_of
from pages.document import asset, document, filled
from pages.drops import drops_html
from pages.listing import Listing
from pages.model import COPY, UNSENT, Model
from pages.texts import number, packed, plural, seconds_text, shown
from pages.ways import ways_html
from toolbox import rulemap
from toolbox.boxes import Box
from toolbox.captures import called
from toolbox.commands import DONE, REFUSED, TORN, Refused, check_files, read_bytes, remark
from toolbox.converted import classic
from toolbox.could_meet import could_meet
from toolbox.evidence import torn_text
from toolbox.program import workspace
from toolbox.rulesets import read_ruleset

if TYPE_CHECKING:
    from pages.listing import Met

ASIDE = {UNSENT: "not sent", COPY: "outgoing copies"}


@dataclass(frozen=True)
class Options:
    """What a page is made of: paths of a ruleset, a box file and a capture, of the ruleset that is replaced and the map
    of a fitted one, if there are any; how many records can be looked at, and how many seconds nftrun reach and nftrun
    diff may take."""

    rules: str
    box: str
    capture: str
    against: str | None
    map: str | None
    records: int
    reach: int
    diff: int


class Page:
    """All of it, of files that were named."""

    def __init__(self, options: Options, folder: str) -> None:
        self.options = options
        self.box, self.ruleset = Box(options.box), read_ruleset(options.rules)
        origins = read_map(options)
        self.change = (Change(options.against, options.rules, self.box, options.capture, folder, options.diff)
                       if options.against else None)
        self.model = Model(options.rules, self.box, options.capture, self.ruleset, options.records,
                           self.change.after if self.change else None)
        self.known = could_meet(self.ruleset, options.rules, self.box, options.reach)
        self.listing = Listing(self.model, self.known, origins)
        self.texts = (self.change.texts(self.model.rule_hits(), self.known, options.reach, folder)
                      if self.change else None)

    def html(self) -> str:
        rules, capture = (os.path.basename(path) for path in (self.options.rules, called(self.options.capture)))
        parts = [self.header_html(rules, capture)]
        if self.change and self.texts:
            old = os.path.basename(self.options.against or "")
            parts.append(section("changes", "What changes", html_of(self.change, self.texts, old, rules)))
            parts.append(section("texts", "Both texts", both_html(self.texts, old, rules)))
        parts.append(section("ways", "The way of packets", ways_html(self.model)))
        parts.append(section("drops", "Drops", drops_html(self.model)))
        parts.append(self.work_html())
        parts.append(asset("keys.html"))
        return document(f"{rules} over {capture}", "\n".join(parts), packed(self.data()))

    # Parts

    def header_html(self, rules: str, capture: str) -> str:
        links = [("changes", "What changes"), ("texts", "Both texts")] if self.change else []
        links += [("ways", "Ways"), ("drops", "Drops"), ("rules", "Rules"), ("records", "Records")]
        torn = '<p class="warning">The capture ends in the middle of a record.</p>' if self.model.torn else ""
        said = self.change.verdict if self.change else None
        verdict = f'<p class="sentence {said.tone}" id="verdict">{shown(said.text)}</p>' if said else ""
        return (f'<header><p class="eyebrow">nftrun</p><h1>{shown(rules)} <span>over {shown(capture)}</span></h1>'
                f'{verdict}{torn}{self.facts_html()}<nav aria-label="Sections">'
                + "".join(f'<a href="#{name}">{text}</a>' for name, text in links) +
                '<button type="button" id="help-button">Keys</button></nav></header>')

    def facts_html(self) -> str:
        model = self.model
        facts = [("records", number(model.count)), ("passed", number(model.causes["passed"])),
                 ("to the box", number(model.causes["local"])), ("dropped", number(model.dropped)),
                 *[(name, number(model.causes[outcome])) for outcome, name in ASIDE.items() if model.causes[outcome]],
                 ("connections", number(model.summary.totals["begun"])), ("time", seconds_text(model.span))]
        cells = "".join(f"<div><dt>{shown(name)}</dt><dd>{value}</dd></div>" for name, value in facts)
        return f'<dl class="facts">{cells}</dl>'

    def work_html(self) -> str:
        listing = self.listing
        unmet, never = listing.unmet(), listing.never_count()
        words = [f"{plural(len(listing.rules), 'rule')}"]
        if unmet:
            words.append(
                f'<button type="button" class="link" id="next-unmet">{number(len(unmet))} met no packet</button>')
        if never:
            words.append(f"{number(never)} can't be met in any run (hatched)")
        told = "" if self.model.tells else (
            '<p class="bound">The ruleset has no room for a second run that tells which rules held without deciding: '
            "a <code>?</code> stands at some.</p>")
        unknown = self.known.unknown_text() if unmet else None
        if unknown:
            told += f'<p class="bound">Of rules that met no packet: {shown(unknown)}.</p>'
        return (f'<div class="work"><section id="rules"><h2>Rules</h2><p class="lead">{", ".join(words)}. The number '
                "tells for how many packets a rule held; choose it to see them.</p>"
                f'{told}<div class="listing">{listing.html()}</div></section>'
                f'<section id="records" aria-label="Records">{self.records_html()}</section></div>')

    def records_html(self) -> str:
        kept = len(self.model.columns.rows["time"])
        bound = "" if kept == self.model.count else (
            f'<p class="bound">The first {number(kept)} of {plural(self.model.count, "record")} can be looked at one '
            "by one; numbers are of all.</p>")
        return filled("records.html", bound=bound)

    def data(self) -> dict[str, object]:
        """What the script shows of single records."""
        model = self.model
        chains = {chain.name: place for place, chain in enumerate(self.ruleset.chains)}
        return {
            "first": str(model.first),
            "strings": model.strings.all, "paths": model.paths.all,
            "steps": [[chains.get(step.base, -1), chains.get(step.chain, -1), step.rule, step.verdict]
                      for step in model.steps.all],
            "chains": [[chain.name, chain.hook or "", chain.type or "", chain.priority, chain.line, chain.is_early]
                       for chain in self.ruleset.chains],
            "rules": [[chains[met.rule.chain], met.rule.number, met.rule.line, met.rule.text, origin_text(met)]
                      for met in self.listing.rules],
            "outcomes": model.outcomes.all, "states": model.states.all,
            "interfaces": {str(index): name for index, name in self.box.names.items()},
            "columns": model.columns.rows,
            "captured": {str(record): words for record, words in model.captured.items()},
            "groups": self.change.data() if self.change else [],
        }


def read_map(options: Options) -> rulemap.RuleMap | None:
    """The map that was named; refused where it is of another ruleset."""
    if not options.map:
        return None
    try:
        found = rulemap.read(options.map)
    except rulemap.MapFault as fault:
        raise Refused(str(fault)) from None
    if not found.is_of(read_bytes(options.rules)):
        raise Refused(f"{options.map} is the map of another ruleset than {options.rules}")
    return found


def origin_text(met: Met) -> str:
    origin = met.origin
    return f"{origin.file}:{origin.line}, {origin.chain} {origin.rule}: {origin.text}" if origin else ""


def section(name: str, heading: str, content: str) -> str:
    return f'<section id="{name}"><h2>{heading}</h2>{content}</section>'


def page(options: Options, output: TextIO) -> int:
    """Writes the page, and gives the status."""
    paths = [options.rules, options.box, options.capture, *filter(None, (options.against, options.map))]
    check_files(paths)
    with classic(options.capture, options.box) as read, workspace() as folder:
        made = Page(replace(options, capture=read), folder)
        output.write(made.html())
    if made.model.torn:
        remark("page", torn_text(options.capture, made.model.count))
    if made.change:
        nothing = made.change.seen.nothing
        for line in (*made.change.doubts, *([f"nothing was compared: {nothing}"] if nothing else [])):
            remark("page", line)
        if not made.change.is_clean:
            return REFUSED
    return TORN if made.model.torn else DONE
