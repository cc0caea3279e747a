"""Tests what a reload brings back, after a transcript that is larger than the session storage."""

from __future__ import annotations

from browser import Browser
from chromium import Chromium
from page_hands import waited
from page_lab import PLAYGROUND, begin
from page_runs import Pages

# entries of a transcript of more than 6 MB
ENTRIES = 380_000
SECONDS = 60.0
SCRIPT = "link 1 2\nlink 2 3\ndrive 1 9\nleave 3\n"
LINES = SCRIPT.splitlines()
NO_DATABASE = "IDBFactory.prototype.open = () => { throw new Error('no database'); };"
REFUSED = ("text", "#refusal-said")


def by_hand(browser: Browser) -> None:
    browser.ask("openFile", "matching-hh-3.script", SCRIPT)
    waited(browser, LINES, "script")


def opened(browser: Browser) -> object:
    """The number of entries of the transcript that is played."""
    browser.ask("openLong", "long.transcript", ENTRIES)
    return waited(browser, str(ENTRIES), "attribute", "#slider", "max", seconds=SECONDS)


def in_engine(pages: Pages, browser: Browser, name: str) -> None:
    """After a reload a transcript of 6 MB is there, and the network made before it."""
    before = len(browser.complaints)
    browser.open(PLAYGROUND)
    waited(browser, 1, "count", ".graph")
    by_hand(browser)
    pages.expect(f"{name}: 6 MB are played", opened(browser), str(ENTRIES))
    pages.expect(f"{name}: and kept", waited(browser, True, "keeps", "transcript", seconds=SECONDS), True)
    pages.expect(f"{name}: no word of a loss", browser.ask("isHidden", "#refusal"), True)
    browser.reload()
    there = waited(browser, str(ENTRIES), "attribute", "#slider", "max", seconds=SECONDS)
    pages.expect(f"{name}: a reload brings 6 MB back", (there, browser.ask("count", "body.lab")), (str(ENTRIES), 0))
    browser.ask("press", "#to-lab")
    pages.expect(f"{name}: and the network made by hand", waited(browser, LINES, "script"), LINES)
    waited(browser, True, "keeps", "lab")
    browser.reload()
    pages.expect(f"{name}: which another reload keeps", waited(browser, LINES, "script"), LINES)
    complaints = browser.complaints if isinstance(browser, Chromium) else browser.complaints[before:]
    pages.expect(f"{name}: what keeping complains of", complaints, [])


def without_room(pages: Pages, browser: Chromium) -> None:
    """What a browser can't keep is said at once, and takes nothing along."""
    script = browser.before_pages(NO_DATABASE)
    begin(browser)
    by_hand(browser)
    opened(browser)
    waited(browser, False, "isHidden", "#refusal", seconds=SECONDS)
    said = browser.ask(*REFUSED)
    pages.expect("6 MB without room", said.startswith("This browser has no room to keep the transcript: "), True)
    browser.reload()
    pages.expect("the network is there without it", waited(browser, LINES, "script"), LINES)
    browser.forget(script)
    small = "matching hh 2\n1 link 1 2 = ok\n"
    browser.ask("openFile", "small.transcript", small)
    waited(browser, "1", "attribute", "#slider", "max")
    browser.reload()
    pages.expect("a small one is kept", waited(browser, "1", "attribute", "#slider", "max"), "1")
    pages.expect("complaints of no room", browser.complaints, [])


def use(pages: Pages, browser: Chromium) -> None:
    without_room(pages, browser)
