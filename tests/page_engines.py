"""Tests the playground and the JavaScript module in Chromium, Firefox and WebKit, wide and narrow."""

from __future__ import annotations

import contextlib
import functools
import http.server
import os
import re
import shutil
import threading
from typing import Iterator, Optional

from browser import Browser, BrowserFault, PageFault
from chromium import Chromium
from firefox import Firefox
import page_keep
import page_resume
from page_hands import waited
from page_lab import PLAYGROUND
from page_runs import Pages
from webkit import WebKit

WIDE = 1280, 900
MODULE = os.path.join(os.path.dirname(PLAYGROUND), "rudekpi.mjs")
MENDED = re.compile(r"is cut\. Mended in \d+ moves? and \d+ rounds?; at most \d+ and \d+ could have come\.$")
# the module's commands, and equivalent lines of a script
COMMANDS = """\
import {Network, audit, Damaged} from "./rudekpi.mjs";
const net = new Network("manne", ["ann", "bob", "cleo", "dan"]);
net.link("ann", "bob");
net.link("bob", "cleo");
net.link("cleo", "dan");
net.drive(7, 100);
net.unlink("cleo", "dan");
net.enabled();
net.drive(8, 100);
const text = net.transcript();
const told = document.documentElement.dataset;
told.text = text;
told.partner = net.partner("ann");
told.entries = audit(text).entries;
try {
  audit(text.replace("= ok", "= no"));
} catch (wrong) {
  told.damage = wrong instanceof Damaged ? wrong.message : `${wrong}`;
}
told.done = "yes";
"""
SCRIPT = b"""\
link 1 2
link 2 3
link 3 4
drive 7 100
status
unlink 3 4
enabled
drive 8 100
status
"""
HTML = """\
<!DOCTYPE html>
<html lang="en">
<meta charset="utf-8">
<link rel="icon" href="data:,">
<title>a module</title>
<script type="module" src="commands.mjs"></script>
"""


class Quiet(http.server.SimpleHTTPRequestHandler):
    extensions_map = {**http.server.SimpleHTTPRequestHandler.extensions_map, ".mjs": "text/javascript"}

    def log_message(self, format: str, *words: object) -> None:
        return


@contextlib.contextmanager
def served(folder: str) -> Iterator[str]:
    with http.server.ThreadingHTTPServer(("127.0.0.1", 0), functools.partial(Quiet, directory=folder)) as server:
        thread = threading.Thread(target=server.serve_forever, daemon=True)
        thread.start()
        try:
            yield f"http://127.0.0.1:{server.server_address[1]}"
        finally:
            server.shutdown()
            thread.join()


def plays(pages: Pages, browser: Browser, name: str, width: Optional[int]) -> None:
    """The page settles, a link is cut and the network recovers: no error, no request, nothing too wide."""
    browser.open(PLAYGROUND)
    pages.expect(f"{name}: it opens", waited(browser, 1, "count", ".graph"), 1)
    pages.expect(f"{name}: it settles", waited(browser, True, "isStable", seconds=30), True)
    ends = browser.ask("attribute", ".graph .edge.mutual", "data-ends")
    browser.ask("show", f"[data-ends='{ends}']")
    browser.click(*browser.ask("place", f"[data-ends='{ends}']"))
    line = f"unlink {ends.replace('-', ' ')}"
    pages.expect(f"{name}: a link is cut", waited(browser, line, "lastAct"), line)
    pages.expect(f"{name}: it mends", waited(browser, True, "isStable", seconds=30), True)
    story = browser.ask("text", "#story")
    pages.expect(f"{name}: and says so", (story, bool(MENDED.search(story))), (story, True))
    if width is not None:
        pages.expect(f"{name}: what is wider than {width}", browser.ask("widest"), width)
    pages.expect(f"{name}: what the page complains of", browser.complaints, [])
    pages.expect(f"{name}: what the page fetches", browser.ask("fetched"), [])
    if isinstance(browser, (Chromium, WebKit)):
        pages.expect(f"{name}: all requests", browser.fetched, [f"file://{PLAYGROUND}"])
    page_resume.in_engine(pages, browser, name, width)
    pages.expect(f"{name}: what going on complains of", browser.complaints, [])
    pages.expect(f"{name}: what going on fetches", browser.ask("fetched"), [])
    page_keep.in_engine(pages, browser, name)


def imports(pages: Pages, browser: Browser, name: str, address: str) -> None:
    before = len(browser.complaints)
    browser.open(f"{address}/index.html")
    pages.expect(f"{name}: the module runs", waited(browser, "yes", "told", "done"), "yes")
    wanted = pages.run([pages.program, "run", "--rules", "manne", "--nodes", "4"], SCRIPT)[1].decode()
    pages.expect(f"{name}: the module's transcript", browser.ask("told", "text"), wanted)
    entries = str(wanted.count("\n") - 1)
    told = [browser.ask("told", key) for key in ("entries", "damage", "partner")]
    pages.expect(f"{name}: its audit", told, [entries, "line 2: not a transcript line", "bob"])
    # Chromium counts anew with each page
    complaints = browser.complaints if isinstance(browser, Chromium) else browser.complaints[before:]
    pages.expect(f"{name}: what it complains of", complaints, [])


def visit(pages: Pages, name: str, kind: type[Browser], address: str, size: tuple[int, int]) -> None:
    if lacks := kind.missing():
        return pages.skip(f"the playground in {name}", lacks)
    width = None if kind is Firefox else size[0]
    try:
        with kind(pages.wait, *size) as browser:
            if isinstance(browser, Chromium):
                browser.window(*size)
            plays(pages, browser, name, width)
            if os.path.exists(MODULE):
                imports(pages, browser, name, address)
            else:
                pages.skip(f"{name}: the module", "no release/rudekpi.mjs")
    except (BrowserFault, PageFault, OSError) as wrong:
        pages.expect(name, f"{type(wrong).__name__}: {wrong}", "an end")


def use(pages: Pages) -> None:
    folder = os.path.join(pages.folder, "module")
    os.makedirs(folder, exist_ok=True)
    for file, text in (("index.html", HTML), ("commands.mjs", COMMANDS)):
        with open(os.path.join(folder, file), "w", encoding="utf-8") as out:
            out.write(text)
    if os.path.exists(MODULE):
        shutil.copy(MODULE, folder)
    with served(folder) as address:
        visit(pages, "Chromium", Chromium, address, WIDE)
        visit(pages, "Firefox", Firefox, address, WIDE)
        visit(pages, "WebKit", WebKit, address, WIDE)
        visit(pages, "WebKit on a phone", WebKit, address, (390, 844))
