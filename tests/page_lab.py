"""Tests gestures on the playground, by mouse, finger and key, and its text by the program."""

from __future__ import annotations

import os
import re
import time
from typing import Any, Callable, Iterable

from browser import PageFault
from chromium import Chromium
from page_hands import OWN_SCRIPTS, changes, comes_true, saved, waited
from page_runs import Pages

TOP = os.path.dirname(os.path.dirname(os.path.abspath(__file__)))
PLAYGROUND = f"{TOP}/release/playground.html"
TITLE = "Break a network by hand – Rudekpi"
REFUSED = ("text", "#refusal-said")
# what a node adds to the bound by the edges
WEIGHTS = {"hh": 1, "manne": 3}


def begin(browser: Chromium, address: str = "") -> None:
    """As at a first visit."""
    browser.open(f"{TOP}/viewer/page.css")
    browser.ask("forgetAll")
    browser.open(PLAYGROUND + address)
    waited(browser, 1, "count", ".graph")


def place(browser: Chromium, selector: str) -> Any:
    """The middle of a selector's element, once in the window."""
    browser.ask("show", selector)
    return browser.ask("place", selector)


def fresh(browser: Chromium, kind: str = "ring", nodes: int = 6, rules: str = "hh", seed: int = 1) -> None:
    """With a network of a kind that has settled and waits."""
    begin(browser)
    browser.ask("choose", "#pace", "1000")
    for field, value in [("rules", rules), ("preset", kind), ("seed", str(seed)), ("size", str(nodes))]:
        browser.ask("choose", f"#{field}", value)
    settles(browser)
    if browser.ask("isRunning"):
        browser.click(*place(browser, "#run"))
    waited(browser, False, "isRunning")


def settles(browser: Chromium, seconds: float = 30) -> Any:
    return waited(browser, True, "isStable", seconds=seconds)


def edge(browser: Chromium, low: int, high: int, which: int = 0) -> Any:
    return browser.ask("place", f"[data-ends='{low}-{high}']", which)


def node(browser: Chromium, name: int) -> Any:
    return place(browser, f".graph [data-node='{name}'] .body")


def tool(browser: Chromium, name: str) -> None:
    browser.click(*place(browser, f"[data-tool='{name}']"))


def last_act(browser: Chromium, wanted: str) -> Any:
    return waited(browser, wanted, "lastAct", seconds=20)


def daemon_moved(browser: Chromium) -> bool:
    return comes_true(lambda: bool(re.fullmatch(r"drive \d+ 1", browser.ask("lastLine"))))


def transcript(browser: Chromium) -> bytes:
    text: str = browser.ask("transcript")
    return text.encode()


def budget_of(told: dict[str, str], rules: str) -> tuple[int, int]:
    """The moves that can come, and the epoch's bound."""
    nodes, charge = int(told["nodes"]), int(told["charge"])
    by_edges = 2 * int(told["edges"]) + WEIGHTS[rules] * nodes
    by_nodes = max(0, nodes * nodes // 2 + nodes - 2) if rules == "hh" else by_edges
    return 0 if told["enabled"] == "0" else min(charge, by_nodes), min(by_edges, by_nodes)


def agrees(pages: Pages, browser: Chromium, name: str, rules: str = "hh") -> None:
    """The transcript is accepted, the script makes it, and the drawing agrees."""
    written = transcript(browser)
    verdict = pages.run([pages.program, "audit"], written)
    pages.expect(f"{name}: the transcript is accepted", (verdict[0], verdict[1][:9]), (0, b"accepted:"))
    words = browser.ask("text", "#words").split(" < ")[0].split(" ")[1:]
    script = browser.ask("value", "#text").encode()
    pages.expect(f"{name}: the script makes it", pages.run([pages.program, *words], script)[1] == written, True)
    status = pages.run([pages.program, *words], script + b"status\n")[1].decode().splitlines()[-1]
    told = dict(word.split("=") for word in status.split(" = ")[1].split(" "))
    seen = browser.ask("lab", f"graph-{rules}")
    pages.expect(f"{name}: the numbers", seen["numbers"], [int(told["spent"]), *budget_of(told, rules)])
    pages.expect(
        f"{name}: the picture", {key: seen[key] for key in ("nodes", "edges", "arrows")}, pages.drawing(written)
    )


def opens(pages: Pages, browser: Chromium) -> None:
    """By itself the network runs or has settled; a first visitor is told what to do, and sees it recover."""
    begin(browser)
    runs = comes_true(lambda: bool(browser.ask("count", ".graph .pointer, .graph .edge.mutual")))
    said = [browser.ask("text", "#hint"), browser.ask("present") >= 10, runs]
    pages.expect("by itself", said, ["Click an edge to cut it.", True, True])
    pages.expect("it settles", settles(browser), True)
    pair = browser.ask("attribute", ".graph .edge.mutual", "data-ends").split("-")
    browser.click(*edge(browser, *pair))
    pages.expect("the cut is a line", last_act(browser, f"unlink {pair[0]} {pair[1]}"), f"unlink {pair[0]} {pair[1]}")
    pages.expect("it mends by itself", settles(browser), True)
    told = re.search(
        r"is cut\. Mended in \d+ moves? and \d+ rounds?; at most \d+ and \d+ could have come\.$",
        browser.ask("text", "#story"),
    )
    pages.expect("and the page tells of that", bool(told), True)
    pages.expect("the title", browser.ask("title"), TITLE)
    pages.expect("what the page fetches", browser.fetched, [f"file://{PLAYGROUND}"])
    pages.expect("what the page complains of", browser.complaints, [])


def acts(pages: Pages, browser: Chromium) -> None:
    """Each act by the mouse is a line of the script, and agrees with the program."""
    fresh(browser)
    before = browser.ask("attribute", "[data-node='2']", "transform")
    x, y = node(browser, 2)
    browser.drag((x, y), (x - 60, y + 40))
    moved = browser.ask("attribute", "[data-node='2']", "transform") != before
    pages.expect("a node is dragged, and no line comes of it", (moved, len(browser.ask("acts"))), (True, 0))
    tool(browser, "link")
    browser.drag(node(browser, 2), node(browser, 5))
    pages.expect("an edge is drawn from node to node", waited(browser, "link 2 5", "lastLine", seconds=20), "link 2 5")
    browser.click(*node(browser, 1))
    browser.click(*node(browser, 3))
    pages.expect("an edge by two clicks", waited(browser, "link 1 3", "lastLine", seconds=20), "link 1 3")
    tool(browser, "point")
    browser.drag(node(browser, 5), node(browser, 2))
    pages.expect("a pointer is written", last_act(browser, "point 5 2"), "point 5 2")
    browser.click(*node(browser, 5))
    browser.click(*node(browser, 5))
    pages.expect("and erased", last_act(browser, "point 5 -"), "point 5 -")
    tool(browser, "cut")
    browser.click(*edge(browser, 2, 5))
    pages.expect("an edge is cut", last_act(browser, "unlink 2 5"), "unlink 2 5")
    tool(browser, "node")
    x, y, _ = browser.ask("emptyPlace")
    browser.click(x, y)
    pages.expect("a node joins", last_act(browser, "join 7"), "join 7")
    pages.expect("where the click was", [abs(a - b) < 3 for a, b in zip(node(browser, 7), (x, y))], [True, True])
    browser.click(*node(browser, 4))
    pages.expect("a node leaves", last_act(browser, "leave 4"), "leave 4")
    browser.click(*place(browser, "#scramble"))
    pages.expect(
        "registers are scrambled",
        bool(re.fullmatch(r"scramble \d+ 3", (browser.ask("press", "#show-script"), browser.ask("lastAct"))[1])),
        True,
    )
    agrees(pages, browser, "acts")
    pages.expect("complaints of acts", browser.complaints, [])


def moves(pages: Pages, browser: Chromium) -> None:
    """By hand, by a seeded daemon, or all enabled nodes."""
    fresh(browser, rules="manne", nodes=8)
    tool(browser, "flag")
    browser.click(*node(browser, 3))
    pages.expect("a flag is flipped", last_act(browser, "flag 3 0"), "flag 3 0")
    tool(browser, "move")
    browser.click(*node(browser, 3))
    pages.expect("one node moves", last_act(browser, "step 3"), "step 3")
    browser.click(*node(browser, 3))
    pages.expect(
        "a node that may not", browser.ask("text", "#story").startswith("Node 3 may not move, since it and "), True
    )
    browser.ask("setValue", "#faults", "9")
    browser.click(*place(browser, "#scramble"))
    browser.ask("choose", "#daemon", "all")
    enabled = sorted(name for name, mark, _ in browser.ask("lab", "graph-manne")["nodes"] if mark)
    browser.click(*place(browser, "#step"))
    wanted = "step " + " ".join(map(str, enabled))
    pages.expect("all that are enabled move at once", last_act(browser, wanted), wanted)
    browser.ask("choose", "#daemon", "seeded")
    tool(browser, "cut")
    browser.click(*edge(browser, 2, 3))
    browser.click(*place(browser, "#step"))
    pages.expect("a seeded daemon's move", daemon_moved(browser), True)
    browser.click(*place(browser, "#run"))
    pages.expect("and all of them", settles(browser), True)
    agrees(pages, browser, "moves", "manne")
    browser.click(*place(browser, "#run"))
    lines = len(browser.ask("script"))
    presses = 0
    while "unlink 2 3" in browser.ask("acts") and presses < 5:
        before = browser.ask("script")
        browser.click(*place(browser, "#undo"))
        changes(browser, before, "script")
        presses += 1
    pages.expect(
        "acts are taken back one by one",
        (browser.ask("lastAct"), len(browser.ask("script")) < lines),
        (wanted, True),
    )
    agrees(pages, browser, "what is left", "manne")
    pages.expect("complaints of moves", browser.complaints, [])


def networks(pages: Pages, browser: Chromium) -> None:
    """Each begins, settles and agrees with the program; two rule sets run side by side, disturbed alike."""
    for kind in ["ring", "path", "grid", "star", "disk", "random", "racks", "mesh"]:
        for nodes in (2, 23):
            fresh(browser, kind, nodes, "manne" if nodes == 23 else "hh")
            pages.expect(
                f"{kind} of {nodes}",
                (settles(browser), browser.ask("present")),
                (True, nodes),
            )
        agrees(pages, browser, f"a {kind}", "manne")
    fresh(browser, "mesh", 12, "both")
    pages.expect(
        "two pictures",
        browser.ask("classes", ".pane"),
        ["pane hh", "pane manne"],
    )
    low, high = browser.ask("attribute", "#graph-manne .edge.mutual", "data-ends").split("-")
    browser.click(*browser.ask("place", f"#graph-manne [data-ends='{low}-{high}']"))
    browser.click(*place(browser, "#run"))
    pages.expect("both settle", settles(browser), True)
    for rules in ["hh", "manne"]:
        browser.ask("choose", "#which", rules)
        pages.expect(f"{rules}: cut alike", last_act(browser, f"unlink {low} {high}"), f"unlink {low} {high}")
        agrees(pages, browser, f"side by side, {rules}", rules)
    pages.expect("complaints of networks", browser.complaints, [])


def typed(browser: Chromium, text: str) -> None:
    browser.click(*place(browser, "#text"))
    browser.press("Control", "a")
    browser.call("Input.insertText", text=text)


def texts(pages: Pages, browser: Chromium) -> None:
    """The script is edited and played, the transcript edited and judged; saved files are accepted."""
    browser.save_into(pages.folder)
    fresh(browser, "path", 4)
    typed(browser, "link 1 2\nlink 2 3\nstep 1\nlink 1 9\n")
    browser.click(*place(browser, "#text-use"))
    pages.expect("a script that was typed", browser.ask("text", "#story"), "Played: 4 lines.")
    agrees(pages, browser, "a script that was typed")
    typed(browser, "link 1 2\n<img src=x onerror=\"document.title = 'ran'\">\n")
    browser.click(*place(browser, "#text-use"))
    said = [browser.ask("text", "#text-wrong"), browser.ask("title"), browser.ask("count", "img")]
    pages.expect(
        "a line that is none",
        said,
        [
            "The script was not played: line 2: `<img` is no command: they are link, unlink, point, flag, join, leave, "
            "step, show, enabled, matching, status, checkpoint, drive, scramble.",
            TITLE,
            0,
        ],
    )
    browser.click(*place(browser, "#undo"))
    browser.click(*place(browser, "#text-save"))
    browser.click(*place(browser, "#show-transcript"))
    browser.click(*place(browser, "#text-save"))
    script, text = (saved(pages.folder, f"matching-hh-16-4.{kind}") for kind in ("script", "transcript"))
    pages.expect("a saved transcript is accepted", pages.run([pages.program, "audit"], text)[0], 0)
    made = pages.run([pages.program, "run", "--rules", "hh", "--nodes", "16", "--present", "4"], script)
    pages.expect("a saved script makes it", made[1] == text, True)
    typed(browser, "matching hh 2\n1 link 1 2 = ok\n2 step 1 = 1:marry>2\n")
    browser.click(*place(browser, "#text-use"))
    refusal = browser.ask("texts", "#refusal-said", "#refusal-line")
    pages.expect(
        "a transcript that was forged",
        refusal,
        ["The transcript is refused: line 3: not the machine's reply", "2 step 1 = 1:marry>2"],
    )
    typed(browser, "matching hh 2\n1 link 1 2 = ok\n2 step 1 = 1:seduce>2\n")
    browser.click(*place(browser, "#text-use"))
    pages.expect(
        "one that was mended is played",
        waited(browser, "hh: 2 nodes, 2 entries – Rudekpi", "title"),
        "hh: 2 nodes, 2 entries – Rudekpi",
    )
    browser.press("End")
    foot = [browser.ask("entry"), browser.ask("text", "#judged"), *browser.ask("classes", "#judged")]
    pages.expect(
        "and its judge is named",
        (foot[0], "the audit inside this page" in foot[1], "2 entries, 2 epochs, 1 moves" in foot[1], foot[2]),
        ("2", True, True, ""),
    )
    browser.click(*place(browser, "#to-lab"))
    pages.expect("and back", waited(browser, TITLE, "title"), TITLE)
    pages.expect("complaints of texts", browser.complaints, [])


def dropped(browser: Chromium, path: str) -> None:
    data = {"items": [], "files": [path], "dragOperationsMask": 1}
    for kind in ["dragEnter", "dragOver", "drop"]:
        browser.call("Input.dispatchDragEvent", type=kind, x=400, y=300, data=data)


HOSTILE = [
    (b"</script><script>document.title = 'ran'</script>\n", "line 1: bad header"),
    (b"matching hh 2\n1 show 1 = <img src=x onerror=\"document.title = 'ran'\">\n", "line 2: not a transcript line"),
    (b"matching hh 2\n1 link 1 2 = ok\n" + b"\xff\x00\xe2\x80\xae" * 50 + b"\n", "line 3: not a transcript line"),
    (b"", "line 1: bad header"),
]


def drops(pages: Pages, browser: Chromium) -> None:
    """A dropped transcript is judged and played; a refused one shows its first wrong line, and runs
    nothing."""
    fresh(browser)
    path = os.path.join(pages.folder, "dropped.transcript")
    for at, (text, said) in enumerate(HOSTILE):
        with open(path, "wb") as file:
            file.write(text)
        dropped(browser, path)
        wanted = f"The transcript is refused: {said}"
        came = waited(browser, wanted, "text", "#refusal-said")
        seen = [
            browser.ask("title"),
            browser.ask("count", "img"),
            browser.ask("count", "script"),
            browser.ask("isHidden", "#refusal"),
        ]
        pages.expect(f"a hostile transcript, {at}", (came, seen), (wanted, [TITLE, 0, OWN_SCRIPTS, False]))
    example = f"{TOP}/examples/breaks_and_mends.transcript"
    dropped(browser, example)
    verdict = pages.run([pages.program, "audit"], open(example, "rb").read())[1].decode().strip()
    pages.expect(
        "one that is accepted is played",
        (waited(browser, "382", "attribute", "#slider", "max"), verdict in browser.ask("text", "#judged")),
        ("382", True),
    )
    pages.expect(
        "heads of arrows are drawn",
        browser.ask("isLaidOut", "#arrow"),
        True,
    )
    pages.expect("the refusal is gone", browser.ask("isHidden", "#refusal"), True)
    browser.press("End")
    entries = verdict.split(" ")[1]
    pages.expect("to its end", browser.ask("entry"), entries)
    with open(path, "wb") as file:
        file.write(b"matching hh 2\n1 link 1 2 = ok\n")
    dropped(browser, path)
    pages.expect(
        "another one in its place",
        waited(browser, "hh: 2 nodes, 1 entry – Rudekpi", "title"),
        "hh: 2 nodes, 1 entry – Rudekpi",
    )
    browser.press("ArrowRight")
    pages.expect("is alone played by keys", browser.ask("entry"), "1")
    pages.expect(
        "what dropping fetches", [url for url in browser.fetched if not url.startswith(("file:", "blob:"))], []
    )
    pages.expect("complaints of dropping", browser.complaints, [])


def addresses(pages: Pages, browser: Chromium) -> None:
    """A script in the address is played; a hostile one is reported, and runs nothing."""
    begin(browser, "#script=link+1+2;link+2+3;drive+7+100&rules=manne&nodes=4&present=3")
    waited(browser, "✓ stable, 1 married pair", "text", ".state")
    pages.expect("a script in the address", browser.ask("script"), ["link 1 2", "link 2 3", "drive 7 100"])
    agrees(pages, browser, "a script in the address", "manne")
    browser.click(*place(browser, "#text-link"))
    pages.expect(
        "and written there",
        browser.ask("address"),
        "#script=link+1+2;link+2+3;drive+7+100&rules=manne&nodes=4&present=3",
    )
    for at, (words, said) in enumerate(
        [
            ("script=%3Cimg+src=x+onerror=document.title='ran'%3E", "line 1: `<img` is no command: they are"),
            ("script=link+1+2&nodes=99999", "nodes has to be a number from 0 to 600"),
            ("script=link+1+2&rules=<script>", "rules are hh or manne"),
            ("script=" + "link+1+2;" * 900, "is longer than 4000"),
            ("script=link+1+2&nodes=2&present=3", "present has to be"),
            ("script=javascript:alert(1)", "line 1: `javascript:alert(1)` is no command: they are"),
            ("script=%ff%00", "line 1: there is the byte 0xef: a script is printable ASCII"),
            ("script=link+1+2;lnk&nodes=4", "line 2: `lnk` is no command: `link` may be meant"),
        ]
    ):
        begin(browser, "#" + words)
        waited(browser, False, "isHidden", "#refusal", seconds=20)
        told = [
            browser.ask("text", "#refusal-said"),
            browser.ask("title"),
            browser.ask("count", "img"),
            browser.ask("count", "script"),
        ]
        pages.expect(f"a hostile address, {at}", (said in told[0], told[1:]), (True, [TITLE, 0, OWN_SCRIPTS]))
    pages.expect("what addresses fetch", [url for url in browser.fetched if not url.startswith("file:")], [])
    pages.expect("complaints of addresses", browser.complaints, [])


def fingers(pages: Pages, browser: Chromium) -> None:
    """On a phone, in dark mode, a finger cuts, drags and draws; nothing is too wide."""
    browser.window(390, 844, True)
    browser.fingers(True)
    fresh(browser, "ring", 6)
    pages.expect("what is wider than a phone", browser.ask("widest"), 390)
    pages.expect("dark paper", browser.ask("style", "body", "background-color"), "rgb(20, 24, 29)")
    browser.ask("show", ".graph", "center")
    browser.touch("Start", edge(browser, 2, 3))
    browser.touch("End")
    pages.expect("a tap cuts", last_act(browser, "unlink 2 3"), "unlink 2 3")
    before = node(browser, 5)
    browser.touch("Start", before)
    for step in range(1, 6):
        browser.touch("Move", (before[0] + 6 * step, before[1] + 5 * step))
    browser.touch("End")
    after = node(browser, 5)
    pages.expect(
        "a finger drags a node", [24 < after[0] - before[0] < 36, 19 < after[1] - before[1] < 31], [True, True]
    )
    browser.ask("press", "[data-tool='link']")
    start, end = node(browser, 1), node(browser, 4)
    browser.touch("Start", start)
    for step in range(1, 6):
        browser.touch("Move", (start[0] + (end[0] - start[0]) * step / 5, start[1] + (end[1] - start[1]) * step / 5))
    browser.touch("End")
    pages.expect("a finger draws an edge", waited(browser, "link 1 4", "lastLine", seconds=20), "link 1 4")
    agrees(pages, browser, "by finger")
    browser.fingers(False)
    for width in (320, 360, 640, 1024):
        browser.window(width, 700)
        fresh(browser, "grid", 12, "both")
        pages.expect(f"what is wider than {width}", browser.ask("widest"), width)
    browser.window(1280, 900)
    pages.expect("complaints of fingers", browser.complaints, [])


def keys(pages: Pages, browser: Chromium) -> None:
    fresh(browser, "ring", 6)
    browser.ask("focus", ".graph")
    names = {"down": "ArrowDown", "enter": "Enter"}

    def strike(*keys: str) -> None:
        for key in keys:
            browser.press(names.get(key, key))

    strike("down", "down", "e", "enter")
    pages.expect("a link is cut by keys", last_act(browser, "unlink 1 2"), "unlink 1 2")
    strike("2", "down", "enter", "down", "down", "enter")
    pages.expect("and drawn", waited(browser, "link 1 3", "lastLine", seconds=20), "link 1 3")
    strike("3", "down", "enter", "down", "down", "enter")
    pages.expect("a pointer", last_act(browser, "point 1 3"), "point 1 3")
    strike("a")
    pages.expect("a node joins", last_act(browser, "join 7"), "join 7")
    strike("5", "down", "enter")
    pages.expect("and another leaves", last_act(browser, "leave 1"), "leave 1")
    strike("z")
    pages.expect("and is back", last_act(browser, "join 7"), "join 7")
    before = node(browser, 2)
    strike("1", "down", "down")
    browser.press("Shift", "ArrowRight")
    pages.expect("a node is moved", node(browser, 2)[0] > before[0] + 5, True)
    strike("x", " ")
    pages.expect("it mends", settles(browser), True)
    strike(" ")
    agrees(pages, browser, "by keys")
    pages.expect("complaints of keys", browser.complaints, [])


def many(pages: Pages, browser: Chromium) -> None:
    """500 running nodes are drawn at least 30 times a second, or half as often as the browser repaints the
    still drawing with a few changes: a slow or busy machine paints less. The best of up to six tries counts."""
    best = (0.0, 0.0, 0.0)
    for seed in range(1, 7):
        begin(browser)
        for field, value in [("pace", "100"), ("seed", str(seed)), ("preset", "disk"), ("size", "500")]:
            browser.ask("choose", f"#{field}", value)
        pages.expect("500 nodes", browser.ask("present"), 500)
        # the first pictures lay out and compile
        time.sleep(1)
        frames, moved = browser.ask("frames")
        browser.click(*place(browser, "#run"))
        pages.expect("the run of 500 nodes stops", waited(browser, False, "isRunning"), False)
        wanted = min(30, browser.ask("repaints") / 2)
        best = max(best, (moved / wanted, moved, wanted))
        print(f"500 nodes: {frames:.0f} pictures a second, {moved:.0f} of which show moves; {wanted:.0f} are wanted")
        if best[0] >= 1:
            break
    _, moved, wanted = best
    pages.expect(f"{wanted:.0f} pictures a second with 500 nodes, by {moved:.1f}", moved >= wanted, True)
    pages.expect("complaints of 500 nodes", browser.complaints, [])


def without(pages: Pages, browser: Chromium) -> None:
    """Without WebAssembly, or if it refuses the module, a browser plays recorded and opened transcripts;
    it says why there is no network."""
    with open(f"{TOP}/examples/breaks_and_mends.transcript", "rb") as file:
        verdict = pages.run([pages.program, "audit"], file.read())[1].decode().strip()
    with open(f"{TOP}/examples/broken_ring.transcript", encoding="ascii") as lines:
        other = str(len(lines.readlines()) - 1)
    lacks = ["delete globalThis.WebAssembly;", "WebAssembly.validate = () => false;"]
    for source in [*lacks, "WebAssembly.instantiate = async () => { throw new Error(); };"]:
        script = browser.before_pages(source)
        browser.open(f"{TOP}/viewer/page.css")
        browser.ask("forgetAll")
        browser.open(PLAYGROUND)
        waited(browser, "382", "attribute", "#slider", "max")
        pages.expect(f"{source} one clear sentence", "does not run WebAssembly" in browser.ask(*REFUSED), True)
        judged = browser.ask("text", "#judged").startswith(f"Judged by Rudekpi's console audit: {verdict}. ")
        pages.expect(f"{source} a recorded transcript, as the program judges it", judged, True)
        first = browser.ask("entry")
        pages.expect(f"{source} it plays", changes(browser, first, "entry"), True)
        dropped(browser, f"{TOP}/examples/broken_ring.transcript")
        pages.expect(f"{source} another one", waited(browser, other, "attribute", "#slider", "max"), other)
        foot = browser.ask("text", "#judged").startswith("Nobody has judged this transcript")
        pages.expect(f"{source} nobody judged that", foot, True)
        browser.forget(script)
        pages.expect(f"{source} complaints", browser.complaints, [])


def use(pages: Pages, browser: Chromium) -> None:
    try_parts(pages, browser, [opens, acts, moves, networks, texts, drops, addresses, fingers, keys, without])


def time_it(pages: Pages, browser: Chromium) -> None:
    """What other programs disturb if they keep the processors busy."""
    try_parts(pages, browser, [many])


def try_parts(pages: Pages, browser: Chromium, parts: Iterable[Callable[[Pages, Chromium], None]]) -> None:
    for part in parts:
        try:
            part(pages, browser)
        except PageFault as wrong:
            pages.expect(f"the playground: {part.__name__}", [str(wrong), *browser.complaints], "an end")
