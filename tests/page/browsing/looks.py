"""How a page looks: nothing is scrolled sideways, no number is cut or covered, and contrast is enough, in windows of
several widths, in light and dark, and on paper."""
from __future__ import annotations

import os
from dataclasses import dataclass
from typing import TYPE_CHECKING, Mapping

if TYPE_CHECKING:
    from browsing.browser import Browser
    from browsing.checks import Checks

HERE = os.path.dirname(os.path.realpath(__file__))
TALLEST = 16_000


@dataclass(frozen=True)
class Look:
    """A window: its name, width, and what for and in which colours it shows a page."""

    name: str
    width: int
    media: str = "screen"
    scheme: str = "light"


# A4 has 210 mm, of which Chromium leaves 10 mm at each side: 718 pixels
LOOKS = (
    Look("light", 1440), Look("dark", 1440, scheme="dark"), Look("1024 px", 1024), Look("768 px", 768, scheme="dark"),
    Look("390 px", 390), Look("390 px, dark", 390, scheme="dark"), Look("320 px", 320), Look("print", 718, "print"))
# what a reader has on the page: a record that was chosen, a search without an answer, the keys
AS_OPENED = "as opened"
STATES = {
    AS_OPENED: "document.getElementById('help').close(); location.hash = ''",
    "with a record": "location.hash = '#record=1'",
    # of browsing.made: the first that the new ruleset drops; elsewhere a record that may not be there
    "with a dropped record": "location.hash = '#record=3743'",
    "with a search": "document.getElementById('search').value = 'nothing known';"
                     "document.getElementById('filter').dispatchEvent(new SubmitEvent('submit', {cancelable: true}))",
    "with keys": "document.getElementById('help').showModal()",
}


def measure() -> str:
    with open(os.path.join(HERE, "measure.js"), encoding="utf-8") as file:
        return file.read()


def try_looks(browser: Browser, checks: Checks, page: str, name: str, states: Mapping[str, str] = STATES) -> None:
    """A page in all windows, and in each of these states."""
    for look in LOOKS:
        browser.window(look.width, 1000, look.media, look.scheme)
        browser.open(page)
        browser.value(measure())
        for state, act in states.items():
            browser.value(act)
            # the whole of it, so that all texts are in the window
            height = browser.value("document.documentElement.scrollHeight")
            browser.window(look.width, min(TALLEST, height + 50), look.media, look.scheme)
            browser.value("scrollTo(0, 0); new Promise(done => setTimeout(() => requestAnimationFrame(done), 60))")
            for part in ("sideways", "numbers", "contrast"):
                checks.none(f"{name}, {look.name}, {state}, {part}", browser.value(f"measured.{part}()"))
        browser.value("document.getElementById('help').close()")
