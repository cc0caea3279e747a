"""Tests gestures on a page that plays a transcript, each in a browser."""

from __future__ import annotations

import os
import re
import shutil
import stat
import struct
import time
import xml.etree.ElementTree as ElementTree
import zlib
from typing import Any, Callable, Protocol

from browser import PageFault
from chromium import Chromium
from page_runs import Pages

RING = b"""matching hh 5
1 link 1 2 = ok
2 link 2 3 = ok
3 link 3 4 = ok
4 link 4 5 = ok
5 link 1 5 = ok
6 step 1>2 = 1:seduce>2
7 step 2 = 2:marry>1
8 point 3 2 = ok
"""
PAIR = b"matching manne 3\n1 link 1 2 = ok\n2 link 2 3 = ok\n3 step 1 = 1:seduce>2\n4 flag 3 1 = ok\n"
BASE = b"""matching2 hh 3
base 822 spent=1 nodes=3 edges=1
node 1 2 0
node 2 - 0
node 3 - 0
edge 1 2
823 step 2 = 2:marry>1
"""
# the script elements of each page: four of data, and its code
OWN_SCRIPTS = 6
SVG = "{http://www.w3.org/2000/svg}"


def place(browser: Chromium, selector: str) -> Any:
    return browser.ask("place", selector)


def edge_place(browser: Chromium, low: int, high: int) -> Any:
    return place(browser, f"[data-ends='{low}-{high}']")


class Asks(Protocol):
    def ask(self, probe: str, *words: Any) -> Any:
        """What a probe of page_probes.js returns."""


def waited(browser: Asks, wanted: Any, probe: str, *words: Any, seconds: float = 30) -> Any:
    """What a probe returns, once it is the expected value or these seconds have passed."""
    until = time.monotonic() + seconds
    while (came := browser.ask(probe, *words)) != wanted and time.monotonic() < until:
        time.sleep(0.05)
    return came


def comes_true(is_so: Callable[[], bool], seconds: float = 30) -> bool:
    """Whether it becomes so before these seconds have passed."""
    until = time.monotonic() + seconds
    while not (came := is_so()) and time.monotonic() < until:
        time.sleep(0.05)
    return came


def changes(browser: Asks, before: Any, probe: str, *words: Any) -> bool:
    """Whether a probe soon returns another value."""
    return comes_true(lambda: bool(browser.ask(probe, *words) != before))


def fills(pages: Pages, browser: Chromium) -> None:
    """A small network fills the drawing; a too large one leaves no empty box."""
    browser.open(pages.write(RING))
    wide, high = browser.ask("shares")
    pages.expect("a ring of five fills the drawing", (high > 0.75, wide > 0.4), (True, True))
    links = "".join(f"{v} link {v} {v + 1} = ok\n" for v in range(1, 30))
    browser.open(pages.write(f"matching hh 2500\n{links}".encode()))
    network, plots, window = browser.ask("heights", "#network", "#plots", "body")
    pages.expect("plots in place of a drawing", (network < 0.15 * window, plots > 0.6 * window), (True, True))
    said = browser.ask("text", "#undrawn")
    pages.expect(
        "what is said there",
        said.startswith("2,500 nodes: up to 2,000 are drawn. The plots of the whole transcript"),
        True,
    )
    browser.press("Home")
    type_number(browser, "3")
    pages.expect("a node that is not drawn", browser.ask("card")[2]["neighbours"], "none")
    browser.press("End")
    browser.ask("press", "#last")
    pages.expect("a node that is not drawn, at the end", browser.ask("card")[2]["neighbours"], "2 and 4")
    pages.expect("complaints of a page without a drawing", browser.complaints, [])


def titles(pages: Pages, browser: Chromium) -> None:
    """The title names what is played, a base with its number."""
    for text, title, entry in [
        (RING, "hh: 5 nodes, 8 entries", ["step 1>2", "1:seduce>2", "6"]),
        (b"matching manne 1\n1 show 1 = -\n", "manne: 1 node, 1 entry", ["the opening state", "no entry yet", "0"]),
        (
            BASE,
            "hh: 3 nodes, 1 entry, from the base at entry 822",
            ["base 822 spent=1 nodes=3 edges=1", "the state that 822 entries led to", "822"],
        ),
    ]:
        browser.open(pages.write(text))
        pages.expect(f"the title {title}", browser.ask("title"), f"{title} – Rudekpi")
        shown = browser.ask("texts", "#event", "#reply", "#number")
        pages.expect(f"where it opens: {title}", shown, entry)


def long_one(pages: Pages, browser: Chromium) -> None:
    """With many entries the plots are mean lines with a band; digits are grouped in one way."""
    script = "".join(f"link {v} {v % 60 + 1}\n" for v in range(1, 61)) + "".join(
        f"scramble {k} 7\ndrive {k} 900\n" for k in range(1, 1500)
    )
    text = pages.run([pages.program, "run", "--rules", "hh", "--nodes", "60"], script.encode())[1]
    browser.open(pages.write(text))
    entries = text.count(b"\n") - 1
    pages.expect("there are many entries", entries > 20_000, True)
    shapes = browser.ask("pathLengths")
    pages.expect(
        "lines and bands are short", [max(counts) <= 1_300 and len(counts) == 3 for counts in shapes], [True, True]
    )
    bands = [browser.ask("count", "#budget .epoch"), browser.ask("style", ".key.epoch", "display")]
    pages.expect("no bands of epochs that can't be told apart", bands, [0, "none"])
    said = browser.ask("text", ".shared")
    pages.expect("what a line is", bool(re.fullmatch(r"mean and range of [\d,]+ entries", said)), True)
    browser.ask("press", "#last")
    pages.expect("digits that are grouped otherwise", browser.ask("ungrouped"), [])
    pages.expect("the number of the last entry", browser.ask("text", "#number"), f"{entries:,}")


def phone(pages: Pages, browser: Chromium) -> None:
    """The bar covers nothing of the entry and the figures, and all can be scrolled to."""
    path = pages.write(RING)
    for width, height in [(320, 568), (360, 640), (390, 844), (640, 360)]:
        browser.window(width, height, width == 390)
        browser.open(path)
        browser.ask("press", "#last")
        if height >= 640:
            pages.expect(f"what the bar covers, {width} by {height}", browser.ask("covered"), [])
        for part in ["#figures", "#judged", "#counts"]:
            browser.ask("show", part, "end")
            lowest = browser.ask("isAbove", part, "nav")
            pages.expect(f"{part} above the bar, {width} by {height}", lowest, True)
        pages.expect(
            f"the tools in one row, {width} by {height}",
            max(found := browser.ask("tops", ".tools input, .tools button")) - min(found) < 6,
            True,
        )
        pages.expect(f"nothing is wider, {width} by {height}", browser.ask("widest"), width)
    browser.window(1280, 900)


def addresses(pages: Pages, browser: Chromium) -> None:
    """Each step is soon in the address, and leads back; a hundred at once are one."""
    path = pages.write(RING)
    browser.open(path)
    pages.expect("no number before a step", browser.ask("address"), "")
    length = browser.ask("historyLength")
    browser.press("ArrowRight")
    for _ in range(4):
        browser.press("ArrowLeft")
    pages.expect("the third entry's address", waited(browser, "#3", "address"), "#3")
    for _ in range(60):
        browser.press("ArrowLeft")
        browser.press("ArrowRight")
    browser.press("End")
    pages.expect("the last entry's address", waited(browser, "#8", "address"), "#8")
    pages.expect("steps that are no history", browser.ask("historyLength"), length)
    pages.expect("complaints of stepping", browser.complaints, [])
    again = os.path.join(pages.folder, "again.html")
    shutil.copyfile(path, again)
    browser.open(f"{again}#7")
    pages.expect("an address leads back", browser.ask("entry"), "7")
    browser.ask("goTo", "#2")
    pages.expect("an address that is typed", waited(browser, "2", "entry"), "2")


def pinches(pages: Pages, browser: Chromium) -> None:
    """Two fingers zoom and move the drawing at their place; one finger moves it then."""
    browser.window(390, 844)
    browser.fingers(True)
    browser.open(pages.write(RING))
    x, y = place(browser, "#graph")
    whole = browser.ask("viewBox")
    browser.touch("Start", (x - 30, y))
    browser.touch("Start", (x - 30, y), (x + 30, y))
    for step in range(1, 7):
        browser.touch("Move", (x - 30 - 5 * step, y), (x + 30 + 5 * step, y))
    near = browser.ask("viewBox")
    pages.expect("two fingers apart: twice as near", round(whole[2] / near[2], 2), 2.0)
    middle = [round(box[0] + box[2] / 2, 1) for box in (whole, near)]
    pages.expect("the middle stays between them", abs(middle[0] - middle[1]) < 1, True)
    for step in range(1, 5):
        browser.touch("Move", (x - 60 + 10 * step, y), (x + 60 + 10 * step, y))
    moved = browser.ask("viewBox")
    unit = near[2] / browser.ask("width", "#graph")
    pages.expect(
        "two fingers to the right: moved along",
        (round(moved[2], 1), moved[0] < near[0] - 30 * unit),
        (round(near[2], 1), True),
    )
    browser.touch("End")
    browser.touch("Start", (x, y))
    for step in range(1, 5):
        browser.touch("Move", (x - 10 * step, y))
    browser.touch("End")
    dragged = browser.ask("viewBox")
    pages.expect("one finger to the left", (round(dragged[2], 1), dragged[0] > moved[0]), (round(moved[2], 1), True))
    pages.expect("nothing is picked by that", browser.ask("card"), None)
    browser.ask("press", "#zoom-fit")
    browser.touch("Start", place(browser, "[data-node='3'] .body"))
    browser.touch("End")
    pages.expect("a tap tells of a node", browser.ask("card")[0], "Node 3")
    browser.touch("Start", place(browser, "[data-node='3'] .body"))
    browser.touch("End")
    pages.expect("a second tap lets go", browser.ask("card"), None)
    browser.fingers(False)
    browser.window(1280, 900)
    pages.expect("complaints of fingers", browser.complaints, [])


def type_number(browser: Chromium, digits: str) -> None:
    browser.ask("blur")
    browser.press("f")
    for digit in digits:
        browser.press(digit)


WAITING = {
    "pointer": "at 2, which does not point back",
    "pointed at by": "nobody",
    "neighbours": "2 and 4",
    "may abandon": "since it points at 2, which points at 1",
    "charge": "1 here, for its pointer, which is not answered; 2 for its open edge, to 4",
}
MARRIED = {
    "pointer": "at 2, which points back: they are married",
    "pointed at by": "2",
    "neighbours": "2 and 5",
    "not enabled": "since it and 2 point at each other",
    "charge": "0 here",
}
SUITED = {
    "pointer": "null: it points nowhere",
    "flag": "0",
    "pointed at by": "1",
    "neighbours": "1 and 3",
    "may marry": "since its flag is right, it points nowhere, and 1 points at it",
    "charge": "1 here, for its flag, which is 0; 2 for its open edge, to 3",
}


def tells(pages: Pages, browser: Chromium) -> None:
    """A node or edge under the mouse, clicked, or picked by keys or number, shows its content."""
    browser.open(pages.write(RING))
    browser.press("End")
    browser.move(*place(browser, "[data-node='3'] .body"))
    pages.expect("a node under the mouse", browser.ask("card"), ["Node 3", "abandon", WAITING])
    browser.move(*edge_place(browser, 4, 5))
    pages.expect(
        "an edge under the mouse",
        browser.ask("card")[:1] + [browser.ask("card")[2]["charge"]],
        [
            "Edge 4 – 5",
            "2: it is open, since neither end is married or waits for the other, and they are not both courted",
        ],
    )
    browser.move(*place(browser, "#judged"))
    pages.expect("nothing under the mouse", browser.ask("card"), None)
    browser.click(*place(browser, "[data-node='1'] .body"))
    browser.move(*place(browser, "#judged"))
    pages.expect("a node that was clicked", browser.ask("card"), ["Node 1", "", MARRIED])
    browser.press("Home")
    pages.expect("a picked node at another entry", browser.ask("card")[2]["not enabled"], "since it has no neighbour")
    browser.press("Escape")
    pages.expect("what is let go", browser.ask("card"), None)
    browser.press("End")
    browser.ask("focus", "#graph")
    walked = []
    for key in ["ArrowDown", "ArrowDown", "e", "e", "e", "ArrowUp"]:
        browser.press(key)
        walked.append(browser.ask("card")[0])
    pages.expect(
        "from node to node and to its edges by keys",
        walked,
        ["Node 1", "Node 2", "Edge 1 – 2", "Edge 2 – 3", "Edge 1 – 2", "Node 1"],
    )
    browser.click(*edge_place(browser, 4, 5))
    browser.press("e")
    pages.expect("the next edge of a clicked edge's lower end", browser.ask("card")[0], "Edge 3 – 4")
    browser.open(pages.write(PAIR))
    browser.press("End")
    type_number(browser, "2")
    pages.expect("a node by its number, under manne", browser.ask("card"), ["Node 2", "marry", SUITED])
    type_number(browser, "9")
    pages.expect(
        "no such node",
        (browser.ask("card"), browser.ask("validity", "#find")),
        (None, "names are 1 to 3"),
    )
    pages.expect("complaints of telling", browser.complaints, [])


def colours_of(png: bytes) -> tuple[int, int, int]:
    width, height = struct.unpack(">II", png[16:24])
    at, data = 8, b""
    while at < len(png):
        size, kind = struct.unpack(">I4s", png[at : at + 8])
        data += png[at + 8 : at + 8 + size] if kind == b"IDAT" else b""
        at += size + 12
    return width, height, len(set(zlib.decompress(data)))


def saved(folder: str, name: str, seconds: float = 60) -> bytes:
    path = os.path.join(folder, name)
    comes_true(lambda: os.path.exists(path), seconds)
    with open(path, "rb") as file:
        return file.read()


def saves(pages: Pages, browser: Chromium) -> None:
    """As an SVG file that needs no page, with all names, and as a PNG finer than the page."""
    browser.save_into(pages.folder)
    browser.open(pages.write(RING))
    browser.press("End")
    browser.click(*place(browser, "#save-svg"))
    browser.click(*place(browser, "#save-png"))
    picture = ElementTree.fromstring(saved(pages.folder, "matching-hh-5-entry-8.svg"))
    names = sorted(text.text or "" for text in picture.iter(f"{SVG}text"))
    pages.expect(
        "the names in the SVG, and the marks of the enabled nodes",
        names,
        sorted(["1", "2", "3", "4", "5", "A", "S", "S"]),
    )
    fills_of = {circle.get("fill") for circle in picture.iter(f"{SVG}circle")}
    pages.expect(
        "filled nodes, and no style sheet",
        ({"rgb(0, 102, 166)", "rgb(255, 255, 255)"} <= fills_of, b"class" in ElementTree.tostring(picture)),
        (True, False),
    )
    pages.expect("the title of the SVG", picture.findtext(f"{SVG}title"), "hh: 5 nodes, 8 entries: after entry 8")
    width, height, colours = colours_of(saved(pages.folder, "matching-hh-5-entry-8.png"))
    wide, high = (float(number) for number in picture.get("viewBox", "").split(" ")[2:])
    pages.expect(
        "the PNG", (width >= 1600, round(width / height, 1), colours > 20), (True, round(wide / high, 1), True)
    )
    links = "".join(f"{v} link {v} {v + 1} = ok\n" for v in range(1, 900))
    browser.open(pages.write(f"matching hh 900\n{links}".encode()))
    browser.press("Home")
    pages.expect(
        "names that are too small to be read",
        browser.ask("style", ".name", "display"),
        "none",
    )
    browser.click(*place(browser, "#save-svg"))
    picture = ElementTree.fromstring(saved(pages.folder, "matching-hh-900-entry-0.svg"))
    pages.expect("stand in the SVG", len(list(picture.iter(f"{SVG}text"))), 900)
    pages.expect("complaints of saving", browser.complaints, [])


YES = """#!/usr/bin/env bash
cat > /dev/null
printf 'accepted: 1 entries, 1 epochs, 0 moves\\n'
"""
# Texts that would run as scripts or ask for much, each with its first wrong line.
HOSTILE = [
    (b"</script><script>document.title = 'ran'</script>\n", 1),
    (b"matching hh 2\n1 show 1 = <img src=x onerror=\"document.title = 'ran'\">\n", 2),
    (b"matching hh 2\n1 link 1 2 = ok\n<!--<script>\n", 3),
    (b"matching hh 65535\n1 link 1 65535 = ok\n2 step 1 = 1:marry>65535\n", 3),
    (b"matching2 hh 3\nbase 99999999 spent=0 nodes=3 edges=9999999999\nnode 1 - 0\n", 4),
    (b"{{policy}}{{script}}\n", 1),
]


def judges(pages: Pages, browser: Chromium) -> None:
    """The foot of a page names its judge. What a false judge lets in runs nothing, and is reported as no
    transcript."""
    named = os.path.join(pages.folder, "judge")
    with open(named, "w", encoding="ascii") as file:
        file.write(f'#!/bin/sh\nexec "{pages.program}" "$@"\n')
    os.chmod(named, stat.S_IRWXU)
    browser.open(pages.write(RING, named))
    foot = browser.ask("text", "#judged")
    pages.expect(
        "the judge that was named",
        (
            foot.startswith(f"Judged by {named} audit, which whoever made this page named"),
            "counts otherwise" in foot,
        ),
        (True, False),
    )
    verdict = pages.run([pages.program, "audit"], RING)[1].decode().strip()
    pages.expect("its verdict", verdict in foot, True)
    folder = os.path.join(pages.folder, "<script>document.title = 'ran'<")
    os.makedirs(os.path.join(folder, "script>"), exist_ok=True)
    false = os.path.join(folder, "script>", "yes")
    with open(false, "w", encoding="ascii") as file:
        file.write(YES)
    os.chmod(false, stat.S_IRWXU)
    for text, line in HOSTILE:
        browser.open(pages.write(text, false))
        said = [browser.ask("title"), browser.ask("text", "#title"), browser.ask("count", "img, script")]
        pages.expect(
            f"what is said of {text[:40]!r}",
            (said[0], said[1].startswith(f"This is no transcript: line {line} "), said[2]),
            ("no transcript – Rudekpi", True, OWN_SCRIPTS),
        )
        pages.expect(
            f"what {text[:40]!r} fetches", [url for url in browser.fetched if not url.startswith("file:///")], []
        )
    browser.open(pages.write(RING, false))
    foot = browser.ask("text", "#judged")
    pages.expect(
        "a judge that counts otherwise",
        (false in foot, "This page counts otherwise: accepted: 8 entries" in foot),
        (True, True),
    )
    for name, answer in [
        ("says nothing", "exit 0"),
        ("says more", "printf 'accepted: 1 entries, 1 epochs, 0 moves\\n\\n'"),
    ]:
        with open(false, "w", encoding="ascii") as file:
            file.write(f"#!/usr/bin/env bash\ncat > /dev/null\n{answer}\n")
        pages.expect(
            f"a judge that {name}", pages.play(RING, false), (3, b"", f"! {false} gives no verdict\n".encode())
        )


def use(pages: Pages, browser: Chromium) -> None:
    for part in [fills, titles, long_one, phone, addresses, pinches, tells, saves, judges]:
        try:
            part(pages, browser)
        except PageFault as wrong:
            pages.expect(f"hands: {part.__name__}", [str(wrong), *browser.complaints], "an end")
