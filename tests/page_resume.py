"""Tests that the playground goes on where a transcript ends, by what `run --from` and `audit` print."""

from __future__ import annotations

import json
import os
import re
import stat

from browser import Browser, PageFault
from chromium import Chromium
from page_hands import BASE, RING, saved, waited
from page_lab import PLAYGROUND, TITLE, TOP, begin, budget_of, edge, fresh, last_act, node, place, settles, typed
from page_runs import Pages

REFUSED = ("text", "#refusal-said")
GO_ON = "#go-on"
MANNE = b"link 1 2\nlink 2 3\nlink 3 4\nlink 1 5\ndrive 4 20\nleave 4\njoin 8\nlink 8 3\nflag 2 0\nstep 2\n"
DISTURBANCE = re.compile(r"^\d+ (?:link|unlink|point|flag|join|leave) .* = ok$", re.MULTILINE)
STEP = re.compile(r"^\d+ step[ \d>]* = (\d+:.*)$", re.MULTILINE)
ENTRY = re.compile(r"^\d+ ", re.MULTILINE)
FALSE_JUDGE = """#!/usr/bin/env bash
cat > /dev/null
printf 'accepted: 2 entries, 2 epochs, 0 moves\\n'
"""
FULL = """matching2 hh 3
base 16777215 spent=0 nodes=3 edges=1
node 1 - 0
node 2 - 0
node 3 - 0
edge 1 2
"""


def verdict_of(text: str) -> str:
    """What audit says of an accepted transcript, counted by its lines."""
    moves = sum(len(reply.split(" ")) for reply in STEP.findall(text))
    counts = (len(ENTRY.findall(text)), 1 + len(DISTURBANCE.findall(text)))
    return f"accepted: {counts[0]} entries, {counts[1]} epochs, {moves} moves\n"


def entries_in(text: str) -> int:
    """The number of the last entry, or that of the base if there is none after it."""
    numbers = re.findall(r"^(?:base )?(\d+) ", text, re.MULTILINE)
    return int(numbers[-1]) if numbers else 0


def write(pages: Pages, name: str, text: str) -> str:
    path = os.path.join(pages.folder, name)
    with open(path, "w", encoding="ascii") as file:
        file.write(text)
    return path


def examples(pages: Pages) -> list[tuple[str, str]]:
    made = [pages.program, "run", "--rules"]
    manne = pages.run([*made, "manne", "--nodes", "9", "--present", "5"], MANNE)[1].decode()
    lines = b"link 1 2\ncheckpoint\nlink 2 3\nlink 5 6\ndrive 3 2\n"
    parts = pages.run([*made, "hh", "--nodes", "6"], lines)[1].decode()
    base = BASE.decode()
    return [
        ("under manne, with absent nodes", manne),
        ("within an epoch", RING.decode()),
        ("with a checkpoint", parts),
        ("a base and an entry", base),
        ("a base alone", base[: base.index("823 ")]),
        ("no entries", "matching hh 4 2\n"),
        ("no nodes", "matching manne 0\n"),
    ]


def opened(browser: Browser, text: str, name: str = "first.transcript") -> None:
    browser.ask("openFile", name, text)
    waited(browser, str(entries_in(text)), "attribute", "#slider", "max")


def goes_on(browser: Browser) -> str:
    """What the page says after the click."""
    browser.ask("show", GO_ON)
    browser.click(*browser.ask("place", GO_ON))
    waited(browser, 1, "count", "body.lab")
    told: str = browser.ask("text", "#story")
    return told


def shape(browser: Chromium, graph: str) -> list[tuple[int, int]]:
    """The places of five nodes in a drawing's units, from the first of them."""
    places = []
    for name in range(1, 6):
        words = browser.ask("attribute", f"{graph} [data-node='{name}']", "transform")
        places.append([float(number) for number in re.findall(r"-?[\d.]+", words)])
    return [(round(x - places[0][0]), round(y - places[0][1])) for x, y in places]


def agrees(pages: Pages, browser: Browser, name: str, first: str) -> None:
    """The first transcript with the page's behind it is accepted, with these sums; the script makes the
    page's; drawing and numbers agree with it."""
    script = "".join(f"{line}\n" for line in browser.ask("scriptNow") if line)
    written = browser.ask("transcript")
    joined = pages.run([pages.program, "audit"], (first + written).encode())
    pages.expect(f"{name}: both are accepted", (joined[0], joined[1].decode()), (0, verdict_of(first + written)))
    words = [pages.program, "run", "--from", write(pages, "first", first)]
    made = pages.run(words, script.encode())
    pages.expect(f"{name}: the script makes it", (made[0], made[1].decode() == written), (0, True))
    status = pages.run(words, script.encode() + b"status\n")[1].decode().splitlines()[-1]
    told = dict(word.split("=") for word in status.split(" = ")[1].split(" "))
    rules = written.split(" ")[1]
    seen = browser.ask("lab", f"graph-{rules}")
    left, bound = budget_of(told, rules)
    if not DISTURBANCE.search(written):
        # the base cuts the epoch
        bound = 2 * int(told["edges"]) + {"hh": 1, "manne": 3}[rules] * int(told["nodes"])
    pages.expect(f"{name}: the numbers", seen["numbers"], [int(told["spent"]), left, bound])
    picture = pages.drawing((first + written).encode())
    pages.expect(f"{name}: the picture", {key: seen[key] for key in ("nodes", "edges", "arrows")}, picture)


def transcripts(pages: Pages, browser: Chromium) -> None:
    """From each kind of transcript: the network at its end, and acts with the next numbers."""
    for name, text in examples(pages):
        begin(browser)
        opened(browser, text)
        entries = entries_in(text)
        wanted = f"Here is the network after entry {entries}. The next entry is {entries + 1}."
        pages.expect(f"{name}: what is said", goes_on(browser), wanted)
        agrees(pages, browser, name, text)
        browser.click(*place(browser, "#scramble"))
        browser.press("a")
        browser.ask("choose", "#pace", "1000")
        browser.click(*place(browser, "#run"))
        pages.expect(f"{name}: it mends", settles(browser), True)
        browser.click(*place(browser, "#run"))
        agrees(pages, browser, f"{name}, and acts", text)
        pages.expect(f"{name}: complaints", browser.complaints, [])


def texts(pages: Pages, browser: Chromium) -> None:
    """Script and transcript are edited, saved and named; undo ends at the base; a reload keeps all."""
    browser.save_into(pages.folder)
    begin(browser)
    text = RING.decode()
    opened(browser, text, "my ring.txt")
    placed = shape(browser, "#graph")
    goes_on(browser)
    pages.expect("nodes keep their places", shape(browser, "#graph-hh"), placed)
    command = "./console run --from 'my ring.txt' < matching-hh-5-after-8.script"
    pages.expect("the command for the script", waited(browser, command, "text", "#words"), command)
    base = browser.ask("transcript")
    pages.expect("it begins with the base", base.startswith("matching2 hh 5\nbase 8 spent=0 nodes=5 edges=5\n"), True)
    browser.click(*edge(browser, 4, 5))
    pages.expect("a link is cut", last_act(browser, "unlink 4 5"), "unlink 4 5")
    pages.expect("the next entry", waited(browser, "9 unlink 4 5 = ok", "lastEntry"), "9 unlink 4 5 = ok")
    browser.click(*place(browser, "#show-transcript"))
    command = "cat 'my ring.txt' matching-hh-5-after-8.transcript | ./console audit"
    pages.expect("the command for the transcript", browser.ask("text", "#words"), command)
    browser.click(*place(browser, "#text-save"))
    file = saved(pages.folder, "matching-hh-5-after-8.transcript").decode()
    pages.expect("the saved transcript", file, f"{base}9 unlink 4 5 = ok\n")
    browser.click(*place(browser, "#show-script"))
    browser.click(*place(browser, "#text-link"))
    said = "An address holds no network to go on from: save the transcript as a file."
    pages.expect("no link to it", (browser.ask("text", "#story"), browser.ask("address")), (said, ""))
    typed(browser, "link 1 3\ndrive 3 99\nlnk\n")
    browser.click(*place(browser, "#text-use"))
    said = "The script was not played: line 3: `lnk` is no command: `link` may be meant."
    pages.expect("a bad line", browser.ask("text", "#text-wrong"), said)
    typed(browser, "link 1 3\ndrive 3 99\n")
    browser.click(*place(browser, "#text-use"))
    agrees(pages, browser, "a script that was typed", text)
    before = browser.ask("transcript")
    browser.click(*place(browser, "#undo"))
    pages.expect("undone", browser.ask("transcript"), file)
    browser.click(*place(browser, "#undo"))
    pages.expect("undone to the base", (browser.ask("transcript"), browser.ask("isDisabled", "#undo")), (base, True))
    browser.press("y")
    browser.press("y")
    pages.expect("redone", browser.ask("transcript") == before, True)
    x, y = node(browser, 3)
    browser.drag((x, y), (x + 20, y + 20))
    shown = [browser.ask("lab", "graph-hh"), node(browser, 3)]
    browser.reload()
    waited(browser, 1, "count", ".graph")
    after = [browser.ask("lab", "graph-hh"), node(browser, 3)]
    pages.expect("a reload brings it back", (browser.ask("transcript") == before, after == shown), (True, True))
    command = "./console run --from 'my ring.txt' < matching-hh-5-after-8.script"
    pages.expect("with the command", browser.ask("text", "#words"), command)
    chosen = [browser.ask("text", "#preset option:checked"), browser.ask("isDisabled", "#rules")]
    chosen.append(browser.ask("text", "#choice-rules"))
    pages.expect("its name", chosen, ["the end of my ring.txt", True, "It goes on by the rules of its transcript."])
    opened(browser, file, "more.transcript")
    goes_on(browser)
    pages.expect("on from what was saved", browser.ask("transcript").split("\n")[1][:7], "base 9 ")
    agrees(pages, browser, "on from what was saved", file)
    browser.ask("choose", "#preset", "path")
    chosen = [browser.ask("isDisabled", "#rules"), browser.ask("text", "#choice-rules")]
    pages.expect("another network after it", [*chosen, browser.ask("transcript")[:12]], [False, "", "matching hh "])
    browser.ask("openFile", "matching-hh-5-after-8.script", "unlink 4 5\n")
    waited(browser, False, "isHidden", "#refusal")
    pages.expect("its script alone", "it goes on after entry 8 of a transcript" in browser.ask(*REFUSED), True)
    pages.expect("complaints of texts", browser.complaints, [])


def refusals(pages: Pages, browser: Chromium) -> None:
    """A damaged, cut or too large transcript is refused, and the network that went on stays."""
    begin(browser)
    text = RING.decode()
    opened(browser, text)
    goes_on(browser)
    browser.click(*edge(browser, 4, 5))
    last_act(browser, "unlink 4 5")
    before = browser.ask("transcript")
    for damaged in (text.replace("2:marry>1", "2:marry>3"), text.replace("4 link", "5 link"), "matching hh x\n"):
        browser.ask("openFile", "damaged.transcript", damaged)
        verdict = pages.run([pages.program, "audit"], damaged.encode())[1].decode().strip()
        wanted = f"The transcript is refused: {verdict}"
        pages.expect(verdict, waited(browser, wanted, *REFUSED), wanted)
        line = damaged.split("\n")[int(re.findall(r"\d+", verdict)[0]) - 1]
        shown = [browser.ask("text", "#refusal-line"), browser.ask("isHidden", "#refusal-rest")]
        pages.expect(f"{verdict}: its line", [*shown, browser.ask("transcript")], [line, True, before])
    large = "matching hh 2001 3\n1 link 1 2 = ok\n"
    opened(browser, large)
    browser.click(*place(browser, GO_ON))
    said = "it has 2,001 names, and the page draws 2,000 at most (console run --from takes it)."
    wanted = f"The page can't go on from this transcript: {said}"
    shown = [waited(browser, wanted, *REFUSED), browser.ask("count", "body.lab"), browser.ask("title")]
    pages.expect("one that is too large", shown, [wanted, 0, "hh: 2,001 nodes, 1 entry – Rudekpi"])
    browser.click(*place(browser, "#to-lab"))
    waited(browser, TITLE, "title")
    pages.expect("the network before it", browser.ask("transcript"), before)
    cut, rest = text[:-4], text[: text.index("8 point")]
    browser.ask("openFile", "cut.transcript", cut)
    wanted = "The transcript is refused: line 9: not a transcript line. Its end is cut."
    pages.expect("a last line that is cut", waited(browser, wanted, *REFUSED), wanted)
    shown = browser.ask("texts", "#refusal-line", "#refusal-rest")
    pages.expect("the line, and what is left", shown, ["8 point 3 2 =", "open the 8 lines before it"])
    pages.expect("the network is still there", browser.ask("transcript"), before)
    browser.click(*place(browser, "#refusal-rest"))
    title = "hh: 5 nodes, 7 entries – Rudekpi"
    pages.expect("what is left is played", waited(browser, title, "title"), title)
    pages.expect("the refusal is gone", browser.ask("isHidden", "#refusal"), True)
    goes_on(browser)
    agrees(pages, browser, "what was left", rest)
    browser.ask("blur")
    browser.ask("paste", FULL)
    waited(browser, "hh: 3 nodes, 0 entries, from the base at entry 16,777,215 – Rudekpi", "title")
    goes_on(browser)
    browser.click(*place(browser, "#scramble"))
    said = waited(browser, "The line scramble 1 3 needs more than", "textStart", "#story", 37)
    pages.expect("a log that is full", said, "The line scramble 1 3 needs more than")
    pages.expect("a pasted one has no file", "--from TRANSCRIPT <" in browser.ask("text", "#words"), True)
    agrees(pages, browser, "a log that is full", FULL)
    pages.expect("complaints of refusals", browser.complaints, [])


def forgotten(browser: Chromium, path: str) -> None:
    """A page as at a first visit."""
    browser.open(f"{TOP}/viewer/page.css")
    browser.ask("forgetAll")
    browser.open(path)


def own_pages(pages: Pages, browser: Chromium) -> None:
    """From the transcript in a page, with its names; what a false judge let in is refused."""
    text = "matching manne 4 3\n1 link 1 2 = ok\n2 step 1 = 1:seduce>2\n"
    path = pages.write(text.encode())
    with open(path, encoding="utf-8") as file:
        page = file.read()
    names = [[name, f"{name} of the hill"] for name in ("ann", "bob", "cleo", "dan")]
    with open(path, "w", encoding="utf-8") as file:
        file.write(page.replace('id="names">null<', f'id="names">{json.dumps(names)}<'))
    forgotten(browser, path)
    for turn in ("at first", "after a reload", "once more"):
        if turn == "after a reload":
            browser.reload()
            waited(browser, 1, "count", ".graph")
        else:
            goes_on(browser)
        own = [browser.ask("text", f".graph [data-node='{v}'] .own") for v in (1, 2, 4)]
        pages.expect(f"own names, {turn}", own, ["ann", "bob", "dan"])
        browser.click(*node(browser, 2))
        heading = waited(browser, "Node 2 (\u2068bob\u2069)", "text", "#chosen-heading")
        pages.expect(f"a node by its name, {turn}", heading, "Node 2 (\u2068bob\u2069)")
        agrees(pages, browser, f"own names, {turn}", text)
        browser.ask("choose", "#preset", "ring") if turn == "after a reload" else None
        named = browser.ask("count", ".graph .own")
        pages.expect(f"names in the picture, {turn}", named, 0 if turn == "after a reload" else 4)
        if turn == "after a reload":
            browser.click(*place(browser, "#to-transcript"))
            waited(browser, 0, "count", "body.lab")
            browser.click(*place(browser, "#to-lab"))
            waited(browser, 1, "count", "body.lab")
            browser.click(*node(browser, 2))
            heading = waited(browser, "Node 2", "text", "#chosen-heading")
            pages.expect("another network has none of them", heading, "Node 2")
            browser.click(*place(browser, "#to-transcript"))
            waited(browser, 0, "count", "body.lab")
    false = os.path.join(pages.folder, "false_judge")
    with open(false, "w", encoding="ascii") as file:
        file.write(FALSE_JUDGE)
    os.chmod(false, stat.S_IRWXU)
    wrong = "matching hh 2\n1 link 1 2 = ok\n2 matching = 1-2\n"
    forgotten(browser, pages.write(wrong.encode(), false))
    browser.click(*place(browser, GO_ON))
    wanted = "The transcript is refused: line 3: not the machine's reply"
    shown = [waited(browser, wanted, *REFUSED), browser.ask("text", "#refusal-line"), browser.ask("count", "body.lab")]
    pages.expect("what a false judge let in", shown, [wanted, "2 matching = 1-2", 0])
    pages.expect("complaints of own pages", browser.complaints, [])


def keys(pages: Pages, browser: Chromium) -> None:
    """By keys alone, on a phone and in the dark: the button is found, and the picture has the keys then."""
    for width, dark in [(1280, False), (390, True), (320, True)]:
        browser.window(width, 844, dark)
        begin(browser)
        opened(browser, RING.decode())
        pages.expect(f"it is seen, {width} wide", browser.ask("isSeen", GO_ON), True)
        pages.expect(f"nothing is wider than {width}", browser.ask("widest"), width)
        browser.ask("blur")
        pressed = 0
        while browser.ask("active") != "go-on" and pressed < 4:
            browser.press("Tab")
            pressed += 1
        pages.expect(f"the second stop of Tab, {width} wide", pressed, 2)
        browser.press("Enter")
        pages.expect(f"Enter goes on, {width} wide", waited(browser, "graph-hh", "active"), "graph-hh")
        pages.expect(f"nothing is wider then than {width}", browser.ask("widest"), width)
        for name in ("ArrowDown", "e", "Enter"):
            browser.press(name)
        pages.expect(f"a link is cut by keys, {width} wide", last_act(browser, "unlink 1 2"), "unlink 1 2")
        pages.expect(f"complaints of keys, {width} wide", browser.complaints, [])
    browser.window(1280, 900)
    fresh(browser, "ring", 4)
    pages.expect("no such button by the network", browser.ask("isPressable", GO_ON), False)


def in_engine(pages: Pages, browser: Browser, name: str, width: int | None) -> None:
    """Any browser goes on from a transcript, and mends a fault with the next numbers."""
    browser.open(PLAYGROUND)
    waited(browser, 1, "count", ".graph")
    text = RING.decode()
    opened(browser, text)
    wanted = "Here is the network after entry 8. The next entry is 9."
    pages.expect(f"{name}: it goes on", goes_on(browser), wanted)
    browser.ask("show", "[data-ends='4-5']")
    browser.click(*browser.ask("place", "[data-ends='4-5']"))
    pages.expect(f"{name}: a link is cut", waited(browser, "unlink 4 5", "lastAct"), "unlink 4 5")
    browser.ask("press", "#run")
    pages.expect(f"{name}: it mends", waited(browser, True, "isStable", seconds=30), True)
    browser.ask("press", "#run")
    agrees(pages, browser, f"{name}: on from a transcript", text)
    browser.ask("openFile", "cut.transcript", text[:-4])
    wanted = "The transcript is refused: line 9: not a transcript line. Its end is cut."
    pages.expect(f"{name}: a cut one", waited(browser, wanted, *REFUSED), wanted)
    if width is not None:
        pages.expect(f"{name}: what is wider than {width}", browser.ask("widest"), width)


def use(pages: Pages, browser: Chromium) -> None:
    for part in [transcripts, texts, refusals, own_pages, keys]:
        try:
            part(pages, browser)
        except PageFault as wrong:
            pages.expect(f"going on: {part.__name__}", [str(wrong), *browser.complaints], "an end")
