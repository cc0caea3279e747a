"""Tests what the playground opens, keeps, shows and refuses."""

from __future__ import annotations

import os
import time
import xml.etree.ElementTree as ElementTree

from browser import PageFault
from chromium import Chromium
from page_hands import SVG, colours_of, saved, waited
from page_runs import Pages
from page_lab import (
    PLAYGROUND,
    TITLE,
    TOP,
    agrees,
    begin,
    dropped,
    edge,
    fresh,
    node,
    place,
    settles,
    tool,
    typed,
)

REFUSED = ("text", "#refusal-said")
EDGES = "# three racks\na b 2.5\nb c\n\nc d\nlonely\n"
DIMACS = "c a square\np edge 4 4\ne 1 2\ne 2 3\ne 3 4\ne 4 1\n"
METIS = "% a path\n3 2\n2\n1 3\n2\n"
NODE_LINK = """{"directed": false, "multigraph": false, "graph": {}, "nodes": [{"id": "x"}, {"id": 7}, {"id": 9}],
"links": [{"source": "x", "target": 7}, {"source": 9, "target": 7}]}"""
GRAPHS = [
    ("racks.txt", EDGES, 5, [[1, 2], [2, 3], [3, 4]]),
    ("square.col", DIMACS, 4, [[1, 2], [1, 4], [2, 3], [3, 4]]),
    ("path.metis", METIS, 3, [[1, 2], [2, 3]]),
    ("small.json", NODE_LINK, 3, [[1, 2], [2, 3]]),
]
# what playground and player draw, in the same words
SAME_SIGNS = ["a married pair", "a pointer", "enabled: Seduce, Marry, Abandon", "this edge went", "this edge came"]
# lines that are no commands, and the Python client's words for why
WHYS = [
    ("link\t2 3", "there is a tab: words are separated by one space"),
    ("link 2 99999", "99999 is not a node, which is 1 to 65535"),
    ("lnk 2 3", "`lnk` is no command: `link` may be meant"),
]
NO_GRAPHS = [
    ("pairs.csv", "1,2\n2,3\n", "line 1 has a comma or semicolon", "1,2"),
    ("adjacency.txt", "1 2\n2 3 4 5\n", "line 2 is no edge", "2 3 4 5"),
    ("loop.txt", "1 2\n3 3\n", "line 2 links a node with itself", "3 3"),
    ("below.col", "p edge -5 0\n", "line 1 has to name the number of nodes, a number from 0 to 500", "p edge -5 0"),
    ("beyond.col", "p edge 2 1\ne 1 3\n", "line 2 has to name two nodes, a number from 1 to 2", "e 1 3"),
    ("short.metis", "3 2\n2\n1\n\n", "line 1 tells of 2 edges, and there are 1", "3 2"),
    ("arrows.json", '{"directed": true, "nodes": [], "links": []}', "it is told to be a directed graph", ""),
    ("cut.json", '{"nodes": [', "it is no JSON", ""),
    (
        "ghost.json",
        '{"nodes": [{"id": 1}], "links": [{"source": 1, "target": 2}]}',
        "names a node that is not there",
        "",
    ),
    ("big.txt", "".join(f"{v} {v + 1}\n" for v in range(1, 700)), "it has 700 nodes and 699 edges", ""),
]


def write(pages: Pages, name: str, text: str) -> str:
    path = os.path.join(pages.folder, name)
    with open(path, "w", encoding="utf-8") as file:
        file.write(text)
    return path


def addresses(pages: Pages, browser: Chromium) -> None:
    """A link that names an absent node opens, and sets the selectors; the page writes such links."""
    begin(browser, "#script=link+1+2;link+2+9;drive+3+9&nodes=4&rules=manne")
    pages.expect(
        "a link beyond the nodes",
        waited(browser, "✓ stable, 1 married pair", "text", ".state"),
        "✓ stable, 1 married pair",
    )
    agrees(pages, browser, "a link beyond the nodes", "manne")
    shown = [browser.ask("value", f"#{name}") for name in ("rules", "size", "preset")]
    pages.expect("what the selectors tell of a link", shown, ["manne", "4", "own"])
    pages.expect("the network's name", browser.ask("text", "#preset option:checked"), "the script of a link")
    browser.ask("choose", "#rules", "hh")
    pages.expect("the same script by other rules", waited(browser, ["graph-hh"], "ids", ".graph"), ["graph-hh"])
    pages.expect("its lines", browser.ask("script"), ["link 1 2", "link 2 9", "drive 3 9"])
    begin(browser, "#script=link+1+2;link+2+2;link+9+9&nodes=0")
    pages.expect("no nodes at all", waited(browser, 3, "scriptLength"), 3)
    agrees(pages, browser, "no nodes at all")
    fresh(browser, "path", 3)
    typed(browser, "link 1 2\nlink 2 99\n")
    browser.click(*place(browser, "#text-use"))
    browser.click(*place(browser, "#text-link"))
    address = browser.ask("address")
    begin(browser, address)
    pages.expect(
        "a link that the page wrote", waited(browser, ["link 1 2", "link 2 99"], "script"), ["link 1 2", "link 2 99"]
    )
    pages.expect("complaints of links", browser.complaints, [])


def full(pages: Pages, browser: Chromium) -> None:
    """A script that would fill the log is refused at once, at its line; the state before stays."""
    lines = "".join(f"scramble {k} 1000000\n" for k in range(1, 18))
    fresh(browser, "path", 4)
    before = browser.ask("scriptNow")
    typed(browser, lines)
    begun = time.monotonic()
    browser.click(*place(browser, "#text-use"))
    said = waited(browser, False, "isHidden", "#text-wrong") or browser.ask("text", "#text-wrong")
    wanted = "The script was not played: line 1 writes more than 100,000 registers"
    pages.expect("a script that fills the log", (said[: len(wanted)], time.monotonic() - begun < 20), (wanted, True))
    pages.expect("the text that was typed stays", browser.ask("value", "#text"), lines)
    browser.ask("press", "#show-transcript")
    browser.ask("press", "#show-script")
    pages.expect("and the network", browser.ask("script"), before)
    begin(browser, "#script=link+1+2;" + "scramble+1+100000;" * 40)
    waited(browser, False, "isHidden", "#refusal")
    said = browser.ask(*REFUSED)
    pages.expect("an address that fills the log", "comes after 16,777,216 characters of transcript" in said, True)
    pages.expect("the network of the start is there", browser.ask("present"), 15)
    pages.expect("complaints of full logs", browser.complaints, [])


def keys(pages: Pages, browser: Chromium) -> None:
    """The key for links causes no error without a chosen node, or after one left."""
    fresh(browser, "ring", 6)
    browser.ask("focus", ".graph")
    browser.press("e")
    pages.expect("nothing was chosen: a first link", browser.ask("text", "#chosen-heading"), "Edge 1 – 2")
    tool(browser, "node")
    browser.click(*node(browser, 1))
    browser.press("e")
    pages.expect("after a node left", browser.ask("text", "#chosen-heading"), "Edge 2 – 3")
    browser.press("z")
    browser.press("e")
    pages.expect("complaints of the key", browser.complaints, [])


def looks(pages: Pages, browser: Chromium) -> None:
    """All fits 200 pixels; pictures have names; the page says its name and leads to the project."""
    browser.window(200, 500)
    begin(browser)
    pages.expect("what is wider than 200", browser.ask("widest"), 200)
    browser.ask("choose", "#rules", "both")
    pages.expect("side by side", browser.ask("widest"), 200)
    browser.open(pages.write(b"matching manne 3\n1 link 1 2 = ok\n2 step 1 = 1:seduce>2\n"))
    pages.expect("a played transcript", browser.ask("widest"), 200)
    pages.expect("pictures without a name there", browser.ask("nameless"), [])
    played = browser.ask("text", "#legend")
    pages.expect("words of the player's legend", [sign for sign in SAME_SIGNS if sign not in played], [])
    browser.window(1280, 900)
    begin(browser)
    pages.expect("pictures without a name", browser.ask("nameless"), [])
    pages.expect("its name", browser.ask("text", "h1 a"), "Rudekpi")
    target = browser.ask("attribute", "h1 a", "href")
    pages.expect("what it leads to", os.path.exists(os.path.join(os.path.dirname(PLAYGROUND), target)), True)
    browser.ask("choose", "#rules", "manne")
    legend = browser.ask("text", "#signs")
    signs = [*SAME_SIGNS, "just moved", "chosen", "its flag is 1", "may still move", "only these may move"]
    lines = ["spent", "to come, at most", "bound"]
    pages.expect("what the legend lacks", [sign for sign in [*signs, *lines] if sign not in legend], [])
    pages.expect(
        "axes",
        [bool(text) for text in browser.ask("texts", ".history .top", ".history .zero", ".history .along")],
        [True] * 3,
    )
    browser.window(360, 740)
    for kind in ("mesh", "grid", "disk", "racks", "ring"):
        browser.ask("choose", "#preset", kind)
        size = browser.ask("nameSize")
        pages.expect(f"numbers of a {kind} on a phone are read", size >= 7, True)
    browser.window(1280, 900)
    pages.expect("complaints of looks", browser.complaints, [])


def room(pages: Pages, browser: Chromium) -> None:
    """The command line covers nothing, also below a script's error; nothing has a scroll bar, also at 500
    nodes with one of them chosen."""
    for height in (900, 760, 640):
        browser.window(1280, height)
        fresh(browser, "path", 4)
        for bad, _ in WHYS:
            typed(browser, f"link 1 2\n{bad}\n")
            browser.click(*place(browser, "#text-use"))
            waited(browser, False, "isHidden", "#text-wrong")
            gap = browser.ask("gap", "#words", "#signs")
            pages.expect(f"{bad!r}: what is drawn lies below, {height} high", gap > 0, True)
    browser.window(1280, 900)
    for rules in ("hh", "manne"):
        fresh(browser, "mesh", 500, rules)
        found = [browser.ask("scrolls", part) for part in ("html", "#bench", "#scene")]
        browser.click(*node(browser, 2))
        found += [browser.ask("scrolls", part) for part in ("html", "#bench", "#scene")]
        pages.expect(f"scroll bars at 500 nodes, {rules}", found, [False] * 6)
        typed(browser, "link 1 2\nlnk 2 3\n")
        browser.click(*place(browser, "#text-use"))
        pages.expect(f"what is drawn lies below, {rules}", browser.ask("gap", "#words", "#signs") > 0, True)
    pages.expect("complaints of room", browser.complaints, [])


def sizes(pages: Pages, browser: Chromium) -> None:
    """Too many nodes to draw are refused, and a star of 500 is visible."""
    begin(browser)
    browser.ask("choose", "#preset", "star")
    browser.ask("choose", "#size", "600")
    told = browser.ask("text", "#choice-said")
    pages.expect("600 nodes", told, "A network to begin with has 2 to 500 nodes: here are 500.")
    pages.expect("it is seen", browser.ask("isSeen", "#choice-said"), True)
    least, greatest = browser.ask("nodeSizes")
    pages.expect("nodes of a star of 500 are seen", least >= 8, True)
    browser.ask("choose", "#size", "20")
    pages.expect("20 nodes are 20", browser.ask("isHidden", "#choice-said"), True)
    pages.expect("complaints of sizes", browser.complaints, [])


def calm(pages: Pages, browser: Chromium) -> None:
    """A reader who prefers little motion sees only what was asked for."""
    reduced = {"name": "prefers-reduced-motion", "value": "reduce"}
    browser.call("Emulation.setEmulatedMedia", features=[reduced])
    begin(browser)
    time.sleep(1.2)
    lines = browser.ask("script")
    pages.expect("no move by itself", [line for line in lines if not line.startswith("link")], [])
    pages.expect("what is said", browser.ask("text", "#story"), "The nodes wait: run lets them look for partners.")
    browser.click(*place(browser, "#run"))
    pages.expect("and it runs", settles(browser), True)
    browser.call("Emulation.setEmulatedMedia", features=[])
    pages.expect("complaints of calm", browser.complaints, [])


def opens(pages: Pages, browser: Chromium) -> None:
    """A saved script comes back to the same transcript; graph files become networks; others are refused."""
    browser.save_into(pages.folder)
    fresh(browser, "ring", 6, "manne")
    tool(browser, "flag")
    browser.click(*node(browser, 3))
    browser.ask("scriptNow")
    browser.click(*place(browser, "#text-save"))
    before = browser.ask("transcript")
    saved(pages.folder, "matching-manne-18-6.script")
    begin(browser)
    dropped(browser, os.path.join(pages.folder, "matching-manne-18-6.script"))
    waited(browser, "own", "value", "#preset")
    pages.expect("a saved script makes its transcript again", browser.ask("transcript") == before, True)
    agrees(pages, browser, "a saved script", "manne")
    for name, text, nodes, links in GRAPHS:
        begin(browser)
        dropped(browser, write(pages, name, text))
        waited(browser, nodes, "present")
        seen = browser.ask("lab", "graph-hh")
        pages.expect(name, (len(seen["nodes"]), [edge[:2] for edge in seen["edges"]]), (nodes, links))
        pages.expect(f"{name} settles", settles(browser), True)
        agrees(pages, browser, name)
    for name, text, said, line in NO_GRAPHS:
        begin(browser)
        dropped(browser, write(pages, name, text))
        waited(browser, False, "isHidden", "#refusal")
        told, shown = browser.ask("texts", "#refusal-said", "#refusal-line")
        pages.expect(f"{name} is refused", (said in told, shown, browser.ask("present")), (True, line, 15))
    dropped(browser, write(pages, "bad.script", "link 1 2\n\nlnk 2 3\n"))
    waited(browser, "lnk 2 3", "text", "#refusal-line")
    pages.expect(
        "a bad script",
        browser.ask(*REFUSED),
        "The script bad.script is refused: line 3: `lnk` is no command: `link` may be meant.",
    )
    browser.ask("blur")
    browser.ask("paste", "link 1 2\nlink 2 3\ndrive 1 9\n")
    pages.expect(
        "a pasted script", waited(browser, "✓ stable, 1 married pair", "text", ".state"), "✓ stable, 1 married pair"
    )
    pages.expect("the refusal is gone", browser.ask("isHidden", "#refusal"), True)
    browser.ask("paste", "matching hh 2\n1 link 1 2 = ok\n")
    title = "hh: 2 nodes, 1 entry – Rudekpi"
    pages.expect("a pasted transcript", waited(browser, title, "title"), title)
    browser.ask("paste", "step 1\nlnk\n")
    waited(browser, False, "isHidden", "#refusal")
    pages.expect(
        "a bad script leaves it there", (browser.ask("title"), browser.ask("text", "#refusal-line")), (title, "lnk")
    )
    browser.ask("paste", EDGES)
    pages.expect("a pasted graph", (waited(browser, TITLE, "title"), waited(browser, 5, "present")), (TITLE, 5))
    pages.expect("complaints of opening", browser.complaints, [])


def reloads(pages: Pages, browser: Chromium) -> None:
    """A reload restores the state; leaving more than a minute of unsaved work asks."""
    fresh(browser, "ring", 8, "both", 5)
    browser.click(*edge(browser, 2, 3))
    browser.click(*place(browser, "#run"))
    settles(browser)
    drag_to = [at + 30 for at in node(browser, 5)]
    browser.drag(node(browser, 5), drag_to)
    pages.expect("unsaved work of less than a minute", browser.ask("asksToLeave", 30_000), False)
    pages.expect("and of more", browser.ask("asksToLeave", 61_000), True)
    before = [
        browser.ask("transcript"),
        browser.ask("lab", "graph-hh"),
        browser.ask("lab", "graph-manne"),
        node(browser, 5),
    ]
    browser.reload()
    waited(browser, 2, "count", ".graph")
    after = [
        browser.ask("transcript"),
        browser.ask("lab", "graph-hh"),
        browser.ask("lab", "graph-manne"),
        node(browser, 5),
    ]
    pages.expect("a reload brings it back", [one == other for one, other in zip(before, after)], [True] * 4)
    shown = [browser.ask("value", f"#{name}") for name in ("preset", "size", "seed", "rules")]
    pages.expect("and its selectors", shown, ["ring", "8", "5", "both"])
    browser.click(*edge(browser, 5, 6))
    browser.click(*place(browser, "#text-copy"))
    waited(browser, "The script is copied.", "text", "#story")
    pages.expect("what is copied is not lost", browser.ask("asksToLeave", 61_000), False)
    begin(browser)
    settles(browser)
    pages.expect("a network that mends itself is no work", browser.ask("asksToLeave", 61_000), False)
    begin(browser, "#script=link+1+2;drive+1+9&nodes=3")
    waited(browser, "own", "value", "#preset")
    tool(browser, "node")
    browser.click(*node(browser, 3))
    waited(browser, "leave 3", "lastAct")
    browser.reload()
    wanted = ["link 1 2", "drive 1 9", "leave 3"]
    pages.expect("acts after a link", waited(browser, wanted, "script"), wanted)
    dropped(browser, f"{TOP}/examples/breaks_and_mends.transcript")
    waited(browser, "382", "attribute", "#slider", "max")
    browser.ask("slide", 200)
    waited(browser, "#200", "address")
    browser.reload()
    waited(browser, "382", "attribute", "#slider", "max")
    pages.expect("a transcript that was opened", (browser.ask("entry"), browser.ask("count", "body.lab")), ("200", 0))
    browser.click(*place(browser, "#to-lab"))
    waited(browser, TITLE, "title")
    pages.expect("and the network before it", waited(browser, wanted, "script"), wanted)
    browser.open(pages.write(b"matching hh 2\n1 link 1 2 = ok\n"))
    browser.click(*place(browser, "#to-lab"))
    waited(browser, 1, "count", ".graph")
    browser.reload()
    pages.expect("a network on a transcript's page", waited(browser, TITLE, "title"), TITLE)
    browser.click(*place(browser, "#to-transcript"))
    title = "hh: 2 nodes, 1 entry – Rudekpi"
    pages.expect("and back to the transcript", waited(browser, title, "title"), title)
    browser.reload()
    pages.expect("which a reload keeps", waited(browser, title, "title"), title)
    pages.expect("complaints of reloads", browser.complaints, [])


def redoes(pages: Pages, browser: Chromium) -> None:
    """Undone acts are redone, until another act comes between."""
    fresh(browser, "grid", 9)
    pages.expect("nothing to do again", browser.ask("isDisabled", "#redo"), True)
    browser.click(*edge(browser, 1, 2))
    browser.click(*place(browser, "#run"))
    settles(browser)
    browser.click(*place(browser, "#run"))
    browser.click(*place(browser, "#scramble"))
    scripts = [browser.ask("scriptNow")]
    while len(scripts) < 4:
        browser.click(*place(browser, "#undo"))
        scripts.append(browser.ask("scriptNow"))
    lengths = [len(script) for script in scripts]
    pages.expect("acts are taken back", sorted(lengths, reverse=True) == lengths and lengths[0] > lengths[-1], True)
    for script in reversed(scripts[:-1]):
        browser.press("y")
        pages.expect("done again", browser.ask("scriptNow"), script)
    agrees(pages, browser, "what was done again")
    browser.click(*place(browser, "#undo"))
    pages.expect("and taken back once more", browser.ask("scriptNow"), scripts[1])
    browser.press("y")
    browser.click(*place(browser, "#undo"))
    browser.click(*edge(browser, 5, 6))
    pages.expect("another act ends it", waited(browser, True, "isDisabled", "#redo"), True)
    before = browser.ask("scriptNow")
    typed(browser, "\n".join(["link 1 3", *before[1:]]))
    browser.click(*place(browser, "#text-use"))
    pages.expect("a script of as many lines", browser.ask("scriptNow")[0], "link 1 3")
    browser.click(*place(browser, "#undo"))
    pages.expect("is taken back", browser.ask("scriptNow"), before)
    agrees(pages, browser, "what a script was before")
    pages.expect("complaints of redo", browser.complaints, [])


def wrongs(pages: Pages, browser: Chromium) -> None:
    """A bad script is reported with its line marked; on a phone too."""
    for width, height in [(1280, 900), (360, 740)]:
        browser.window(width, height)
        fresh(browser, "path", 4)
        for bad, why in WHYS:
            typed(browser, f"link 1 2\n\n{bad}\nlink 3 4\n")
            browser.click(*place(browser, "#text-use"))
            said = browser.ask("text", "#text-wrong")
            pages.expect(f"what is wrong with {bad!r}", said, f"The script was not played: line 3: {why}.")
        pages.expect(f"it is seen, {width} wide", browser.ask("isSeen", "#text-wrong"), True)
        pages.expect("the line is marked", browser.ask("selected", "#text"), "lnk 2 3")
        browser.call("Input.insertText", text="link 2 3")
        pages.expect("it goes once somebody types", browser.ask("isHidden", "#text-wrong"), True)
        browser.click(*place(browser, "#text-use"))
        pages.expect("and the script is played", browser.ask("script"), ["link 1 2", "link 2 3", "link 3 4"])
    browser.window(1280, 900)
    pages.expect("complaints of bad scripts", browser.complaints, [])


def pictures(pages: Pages, browser: Chromium) -> None:
    """Saved as SVG and PNG, with all names and arrowheads."""
    browser.save_into(pages.folder)
    fresh(browser, "path", 5)
    browser.click(*place(browser, "#lab-svg"))
    browser.click(*place(browser, "#lab-png"))
    picture = ElementTree.fromstring(saved(pages.folder, "matching-hh-17-5.svg"))
    pages.expect("its names", sorted(text.text or "" for text in picture.iter(f"{SVG}text")), ["1", "2", "3", "4", "5"])
    pages.expect("heads of arrows", len(list(picture.iter(f"{SVG}marker"))), 1)
    title = f"hh: 5 nodes after {len(browser.ask('scriptNow'))} lines of the script"
    pages.expect("its title", picture.findtext(f"{SVG}title"), title)
    width, _, colours = colours_of(saved(pages.folder, "matching-hh-17-5.png"))
    pages.expect("the PNG", (width >= 1600, colours > 20), (True, True))
    pages.expect("complaints of pictures", browser.complaints, [])


def use(pages: Pages, browser: Chromium) -> None:
    for part in [addresses, full, keys, looks, room, sizes, calm, opens, reloads, redoes, wrongs, pictures]:
        try:
            part(pages, browser)
        except PageFault as wrong:
            pages.expect(f"the playground's work: {part.__name__}", [str(wrong), *browser.complaints], "an end")
