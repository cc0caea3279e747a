"""Tests the playground's counts of moves and rounds, and its daemons that let several nodes move at once."""

from __future__ import annotations

import csv
import os
import re
import subprocess
import sys

from chromium import Chromium
from page_hands import waited
from page_lab import TOP, agrees, begin, fresh, place, settles, transcript
from page_runs import Pages

MENDED = re.compile(r"(\d[\d,]*) moves? and (\d[\d,]*) rounds?[;,]")
ROUNDS = re.compile(r"([\d,]+) rounds?, (?:silent|at most ([\d,]+) to come); bound ([\d,]+)$")
STEP = re.compile(r"^\d+ step ([\d ]+) = ", re.MULTILINE)
LINK = re.compile(r"^\d+ link (\d+) (\d+) = ok$", re.MULTILINE)
SCRAMBLED = "20"


def last_burst(pages: Pages, text: bytes) -> tuple[int, int]:
    """The moves and rounds of a transcript's last burst, by `rudekpi bursts`."""
    path = os.path.join(pages.folder, "burst.transcript")
    with open(path, "wb") as file:
        file.write(text)
    words = [sys.executable, "-B", "-m", "rudekpi", "bursts", "--program", pages.program, path]
    env = {**os.environ, "PYTHONPATH": f"{TOP}/python"}
    told = subprocess.run(words, env=env, stdin=subprocess.DEVNULL, capture_output=True, encoding="utf-8", check=True)
    *_, row = csv.DictReader(told.stdout.splitlines())
    return int(row["moves"]), int(row["rounds"])


def scrambled(browser: Chromium, rules: str, daemon: str) -> None:
    """A grid that has mended 20 scrambled registers by a daemon."""
    fresh(browser, "grid", 36, rules)
    browser.ask("choose", "#daemon", daemon)
    browser.ask("setValue", "#faults", SCRAMBLED)
    browser.click(*place(browser, "#scramble"))
    browser.click(*place(browser, "#run"))
    settles(browser)
    waited(browser, True, "says", "#story", "Mended")
    browser.click(*place(browser, "#run"))


def headline(browser: Chromium) -> list[tuple[int, int]]:
    """The moves and rounds of each network."""
    found = MENDED.findall(browser.ask("text", "#story"))
    return [(int(moves.replace(",", "")), int(rounds.replace(",", ""))) for moves, rounds in found]


def told_rounds(browser: Chromium) -> tuple[int, int, int]:
    """The complete rounds of the shown network, those that can come, and their bound."""
    words = ROUNDS.search(browser.ask("text", ".meter .rounds"))
    assert words is not None, browser.ask("text", ".meter .rounds")
    rounds, left, bound = (int((word or "0").replace(",", "")) for word in words.groups())
    return rounds, left, bound


def marks(browser: Chromium) -> int:
    return str(browser.ask("attribute", ".trace .round", "d") or "").count("M")


def counts(pages: Pages, browser: Chromium) -> None:
    """Headline, bar and `bursts` count the same moves and rounds, of each network."""
    for daemon in ("all", "local", "chance", "seeded"):
        scrambled(browser, "manne", daemon)
        moves, rounds = last_burst(pages, transcript(browser))
        numbers = browser.ask("lab", "graph-manne")["numbers"]
        pages.expect(
            f"moves of {daemon}: headline and bar", (headline(browser), numbers[0]), ([(moves, rounds)], moves)
        )
        pages.expect(f"moves of {daemon}: there are some", moves > rounds > 1, True)
        pages.expect(f"rounds of {daemon}", told_rounds(browser), (rounds, 0, 72))
        silent = browser.ask("text", ".numbers")
        pages.expect(f"{daemon}: silent", (f"spent {moves}, silent; bound" in silent, numbers[1]), (True, 0))
    scrambled(browser, "both", "all")
    said, found = headline(browser), []
    for rules in ("hh", "manne"):
        browser.ask("choose", "#which", rules)
        found.append((last_burst(pages, transcript(browser)), browser.ask("lab", f"graph-{rules}")["numbers"][0]))
    pages.expect("moves of both", found, [(counts, counts[0]) for counts in said])
    pages.expect("two networks have two counts", len(said), 2)
    pages.expect("complaints of counting", browser.complaints, [])


def rounds(pages: Pages, browser: Chromium) -> None:
    """If all enabled nodes move at once, each step is a round, with a mark; the longest run reaches the bound."""
    fresh(browser, "grid", 36, "manne")
    browser.ask("choose", "#daemon", "all")
    browser.ask("setValue", "#faults", SCRAMBLED)
    browser.click(*place(browser, "#scramble"))
    before, steps = marks(browser), 0
    pages.expect("no round after a fault", told_rounds(browser)[0], 0)
    while browser.ask("lab", "graph-manne")["numbers"][1] and steps < 72:
        browser.click(*place(browser, "#step"))
        steps += 1
        rounds, left, bound = told_rounds(browser)
        pages.expect(
            f"after step {steps}", (rounds, marks(browser) - before, rounds + left <= bound), (steps, steps, True)
        )
    pages.expect("there are steps", steps > 1, True)
    with open(f"{TOP}/examples/most_rounds.script", encoding="utf-8") as file:
        lines = file.read().split("\n")[:-3]
    script = ";".join(line.replace(" ", "+").replace(">", "%3E") for line in lines)
    begin(browser, f"#script={script}&nodes=6&rules=manne")
    waited(browser, "own", "value", "#preset")
    pages.expect("the longest run", told_rounds(browser), (12, 0, 12))
    pages.expect("complaints of rounds", browser.complaints, [])


def steps_of(text: str) -> list[list[int]]:
    return [[int(node) for node in words.split(" ")] for words in STEP.findall(text)]


def daemons(pages: Pages, browser: Chromium) -> None:
    """Of a locally central daemon no two neighbours move at once; one with probability 1 lets all enabled
    nodes move. The program accepts what they choose."""
    scrambled(browser, "manne", "local")
    text = transcript(browser).decode()
    edges = {frozenset((int(a), int(b))) for a, b in LINK.findall(text)}
    after = text[max(found.end() for found in re.finditer(r"^\d+ (?:point|flag) .*$", text, re.MULTILINE)) :]
    steps = steps_of(after)
    near = [step for step in steps for a in step for b in step if frozenset((a, b)) in edges]
    pages.expect("two neighbours that moved at once", near, [])
    pages.expect("and several nodes that did", max(len(step) for step in steps) > 1, True)
    agrees(pages, browser, "a locally central daemon", "manne")
    pages.expect("no probability beside it", browser.ask("isPressable", "#percent"), False)
    fresh(browser, "grid", 36, "manne")
    browser.ask("choose", "#daemon", "chance")
    pages.expect("a probability beside it", browser.ask("isPressable", "#percent"), True)
    browser.ask("setValue", "#percent", "100")
    browser.ask("setValue", "#faults", SCRAMBLED)
    browser.click(*place(browser, "#scramble"))
    script = "".join(f"{line}\n" for line in browser.ask("scriptNow"))
    browser.click(*place(browser, "#step"))
    words = browser.ask("text", "#words").split(" < ")[0].split(" ")[1:]
    told = pages.run([pages.program, *words], f"{script}enabled\n".encode())[1].decode().splitlines()[-1]
    enabled = [int(node) for node in re.findall(r"(\d+):", told)]
    pages.expect("all enabled nodes at probability 1", steps_of(transcript(browser).decode())[-1], enabled)
    agrees(pages, browser, "a daemon with a probability", "manne")
    browser.ask("choose", "#rules", "hh")
    pages.expect("one node moves under hh", browser.ask("isPressable", "#percent"), False)
    pages.expect("complaints of daemons", browser.complaints, [])


def use(pages: Pages, browser: Chromium) -> None:
    counts(pages, browser)
    rounds(pages, browser)
    daemons(pages, browser)
