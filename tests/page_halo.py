"""Tests what the playground shows of the theorems, by values computed here from pairs and edges."""

from __future__ import annotations

import re
from typing import Any

from browser import PageFault
from chromium import Chromium
from page_lab import agrees, begin, edge, fresh, node, place, settles, tool, transcript
from page_hands import waited

SCHEDULES = 40
GRAPH = "graph-hh"


class Drawn:
    def __init__(self, seen: Any) -> None:
        self.partner: dict[int, int] = {}
        self.beside: dict[int, set[int]] = {name: set() for name, *_ in seen["nodes"]}
        self.points = {source for source, _ in seen["arrows"]}
        for low, high, is_pair in seen["edges"]:
            self.beside[low].add(high)
            self.beside[high].add(low)
            if is_pair:
                self.partner |= {low: high, high: low}

    def single(self, *nodes: int) -> set[int]:
        return {other for one in nodes for other in self.beside[one] if other not in self.partner}

    def parting(self, node: int) -> list[int]:
        """The nodes reached if a node leaves its partner, or their link is cut."""
        pair = (node, self.partner[node])
        return sorted({*pair, *self.single(*pair)})

    def restless(self) -> list[int]:
        """Under hh: unpaired, and pointing somewhere or with an unpaired neighbour."""
        return sorted(
            name for name in self.beside if name not in self.partner and (name in self.points or self.single(name))
        )


def drawn(browser: Chromium, which: str = GRAPH) -> Drawn:
    return Drawn(browser.ask("lab", which))


def haloed(browser: Chromium, wanted: list[int], which: str = GRAPH) -> Any:
    return waited(browser, wanted, "ringed", "reach", which, seconds=20)


def away(browser: Chromium) -> None:
    browser.move(*place(browser, "#title"))


def movers(text: str) -> set[int]:
    tail = text[text.rindex(" = ok\n") :]
    replies = [line.split(" = ")[1] for line in tail.splitlines() if " step " in line]
    return {int(name) for reply in replies for name in re.findall(r"(\d+):", reply)}


def cuts(pages: Any, browser: Chromium) -> None:
    """Over a pair's link both ends and their unpaired neighbours have a halo. If it is cut, only they may
    still move, whatever the schedule. Over any other link no node has one."""
    fresh(browser, "disk", 15)
    seen = drawn(browser)
    pages.expect("a settled network: nobody may still move", browser.ask("ringed", "rest", GRAPH), [])
    pairs = sorted((low, high) for low, high in seen.partner.items() if low < high)
    reached = []
    for low, high in pairs:
        browser.move(*edge(browser, low, high))
        reached.append(haloed(browser, seen.parting(low)))
    pages.expect("the halo of each pair's link", reached, [seen.parting(low) for low, _ in pairs])
    pages.expect("which is more than the pair somewhere", max(map(len, reached)) > 2, True)
    others = [(low, high) for low in seen.beside for high in seen.beside[low] if low < high]
    low, high = next(ends for ends in others if ends not in pairs)
    browser.move(*edge(browser, low, high))
    pages.expect("the halo of a link of no pair", haloed(browser, []), [])
    wide = max(pairs, key=lambda ends: len(seen.parting(ends[0])))
    halo = seen.parting(wide[0])
    browser.move(*edge(browser, *wide))
    haloed(browser, halo)
    away(browser)
    pages.expect("no halo once the hand is away", haloed(browser, []), [])
    browser.click(*edge(browser, *wide))
    after = waited(browser, drawn(browser).restless(), "ringed", "rest", GRAPH, seconds=20)
    pages.expect(
        "who may still move once it is cut", (after, set(after) <= set(halo)), (drawn(browser).restless(), True)
    )
    words = browser.ask("text", "#words").split(" < ")[0].split(" ")[1:]
    script = "".join(f"{line}\n" for line in browser.ask("scriptNow"))
    moved = [
        movers(pages.run([pages.program, *words], f"{script}drive {seed} 500\n".encode())[1].decode())
        for seed in range(1, SCHEDULES + 1)
    ]
    strangers = sorted(set().union(*moved) - set(halo))
    pages.expect("who else moves, in 40 schedules", (strangers, all(moved)), ([], True))
    browser.click(*place(browser, "#run"))
    pages.expect("it settles", settles(browser), True)
    pages.expect("who else moves on the page", movers(transcript(browser).decode()) <= set(halo), True)
    pages.expect("and nobody may still move", waited(browser, [], "ringed", "rest", GRAPH, seconds=20), [])
    agrees(pages, browser, "what was cut under a halo")
    pages.expect("complaints of cuts", browser.complaints, [])


def tools(pages: Any, browser: Chromium) -> None:
    """Over a node, and over the buttons of its card, the halo is that of the tool's act: the node leaves,
    its pointer is written, its flag flipped. So it is while a line is drawn from it."""
    fresh(browser, "path", 7, "manne")
    which = "graph-manne"
    seen = drawn(browser, which)
    one = next(name for name in sorted(seen.partner) if seen.single(seen.partner[name]) and len(seen.beside[name]) > 1)
    other = seen.partner[one]
    single = min(seen.single(other))
    left = sorted({other, *seen.single(other)} - {one})
    over: list[tuple[str, list[int], list[int]]] = [
        ("node", left, []),
        ("point", seen.parting(one), [single]),
        ("flag", [one], [single]),
    ]
    for name, wanted, alone in over:
        tool(browser, name)
        browser.move(*node(browser, one))
        pages.expect(f"the halo under the tool {name}", haloed(browser, wanted, which), wanted)
        browser.move(*node(browser, single))
        pages.expect(f"and over a node in no pair, {name}", haloed(browser, alone, which), alone)
        away(browser)
    tool(browser, "cut")
    browser.move(*node(browser, one))
    pages.expect("the tool cut does nothing to a node", haloed(browser, [], which), [])
    browser.click(*node(browser, one))
    for button, wanted in [("do-leave", left), ("do-free", seen.parting(one)), ("do-flag", [one])]:
        browser.move(*place(browser, f"#{button}"))
        pages.expect(f"the halo of the button {button}", haloed(browser, wanted, which), wanted)
    away(browser)
    pages.expect("no halo beside the buttons", haloed(browser, [], which), [])
    tool(browser, "point")
    start, end = node(browser, single), node(browser, other)
    browser.move(*start)
    with browser.hand() as hand:
        hand.pointer_action.pointer_down()
    on_the_way: list[tuple[float, list[int]]] = [(0.3, []), (0.5, []), (1, [single])]
    for share, wanted in on_the_way:
        browser.move(*(one + share * (two - one) for one, two in zip(start, end)))
        pages.expect(f"the halo of a pointer that is drawn, at {share}", haloed(browser, wanted, which), wanted)
    pages.expect("which is not written yet", browser.ask("lastAct"), None)
    with browser.hand() as hand:
        hand.pointer_action.pointer_up()
    line = f"point {single} {other}"
    pages.expect("and is then", waited(browser, line, "lastAct"), line)
    pages.expect("who may still move then", waited(browser, [single], "ringed", "rest", which, seconds=20), [single])
    pages.expect("complaints of tools", browser.complaints, [])


def keys(pages: Any, browser: Chromium) -> None:
    """A link chosen by keys has its halo; under two rule sets each picture has its own."""
    fresh(browser, "path", 6, "both")
    browser.ask("focus", ".graph")
    for _ in range(2):
        browser.press("e")
    low, high = map(int, re.findall(r"\d+", browser.ask("text", "#chosen-heading")))
    for rules in ("hh", "manne"):
        seen = drawn(browser, f"graph-{rules}")
        wanted = seen.parting(low) if seen.partner.get(low) == high else []
        pages.expect(f"the halo of a chosen link, {rules}", haloed(browser, wanted, f"graph-{rules}"), wanted)
    pages.expect("complaints of halos by keys", browser.complaints, [])


def bars(pages: Any, browser: Chromium) -> None:
    """The bar's length is the epoch's bound: under hh at most n²/2 + n - 2, the half rounded down. The
    moves spent and those that can come fill it, and never exceed it."""
    links = ";".join(f"link+{v}+{w}" for v in range(1, 7) for w in range(v + 1, 7))
    ring = ";".join(f"point+{v}+{v % 6 + 1}" for v in range(1, 7))
    abandons = ";".join(f"step+{v}" for v in range(1, 6))
    # six nodes, all linked: 2m + n is 36, and 36/2 + 6 - 2 is 22. All point round: the charge is 36. Then
    # five abandon: 2 for each edge but the one along which 6 waits for 1, and 1 for that pointer, are 29
    for script, spent in [(f"{links};{ring}", 0), (f"{links};{ring};{abandons}", 5)]:
        begin(browser, f"#script={script}&nodes=6&rules=hh")
        waited(browser, "own", "value", "#preset")
        pages.expect("the numbers beside the bar", browser.ask("lab", GRAPH)["numbers"], [spent, 22, 22])
        bar, *parts = browser.ask("bar")
        shares = [round(part / (bar - 2), 2) for part in parts]
        pages.expect("the shares of the bar", shares, [round(spent / 22, 2), round((22 - spent) / 22, 2)])
        agrees(pages, browser, "a dense network")
    pages.expect("complaints of bars", browser.complaints, [])


def use(pages: Any, browser: Chromium) -> None:
    for part in [cuts, tools, keys, bars]:
        try:
            part(pages, browser)
        except PageFault as wrong:
            pages.expect(f"the playground's halo: {part.__name__}", [str(wrong), *browser.complaints], "an end")
