"""Random acts on the playground: clicks, drags, keys, fields, texts, reloads and addresses, by a seed."""

from __future__ import annotations

import random
import subprocess
from typing import Callable, Protocol

from browser import Browser
from page_hands import comes_true

WINDOW = (1280, 900)
KEYS = [*" .zyxa123456+-0e", "ArrowUp", "ArrowDown", "Enter", "Escape"]
BUTTONS = [
    *("step", "undo", "redo", "scramble", "run", "nearer", "farther", "whole", "show-script", "show-transcript"),
    *(
        "text-use",
        "text-copy",
        "text-link",
        "let-go",
        "do-move",
        "do-free",
        "do-flag",
        "do-leave",
        "do-cut",
        "refusal-close",
        "refusal-rest",
    ),
]
FIELDS: dict[str, list[str]] = {
    "preset": ["mesh", "ring", "path", "grid", "star", "disk", "random", "racks"],
    "size": ["2", "5", "12", "30", "60", "600", "-3", "", "1e9"],
    "seed": ["1", "2", "77777", "", "-1"],
    "rules": ["hh", "manne", "both"],
    "daemon": ["seeded", "all"],
    "pace": ["4", "100", "1000"],
    "faults": ["1", "9", "1000", "", "-5"],
    "which": ["hh", "manne"],
}
TEXTS = [
    "link 1 2\nlink 2 3\nlink 3 1\ndrive 5 9\n",
    "link 1 2\nlink 2 99\njoin 3\nleave 1\nscramble 3 7\ncheckpoint\nlink 1 4\n",
    "lnk\n",
    "scramble 1 1000000\n",
    "flag 1 1\nflag 2 1\nstep 1 2\nstatus\n",
    "a b\nb c\nc a\n",
    "p edge 3 2\ne 1 2\ne 2 3\n",
    '{"nodes": [{"id": 1}, {"id": 2}], "links": [{"source": 1, "target": 2}]}',
    "1,2\n",
    "<graphml>",
    "matching hh 3\n1 link 1 2 = ok\n2 step 1 = 1:seduce>2\n3 step 2 = 2:marry>1\n4 unlink 1 2 = ok\n",
    "matching hh 3\n1 link 1 2 = no\n",
    "matching hh 3\n1 link 1 2 = ok\n2 link 2 3 =",
    "matching2 manne 4\nbase 9 spent=1 nodes=3 edges=1\nnode 1 2 0\nnode 2 1 0\nnode 4 - 0\nedge 1 2\n",
    "matching2 hh 2\nbase 16777214 spent=0 nodes=2 edges=0\nnode 1 - 0\nnode 2 - 0\n",
    "",
]
ADDRESSES = [
    "#script=link+1+2;link+2+9;drive+1+9&nodes=4",
    "#script=lnk",
    "#script=link+1+2;flag+1+1;drive+4+9&rules=manne&nodes=3&present=2",
    "#17",
    "#",
]


class Counts(Protocol):
    program: str

    def expect(self, name: str, came: object, wanted: object) -> object:
        """Counts a check, and prints the value if it is not the expected one."""


class Acts:
    def __init__(self, browser: Browser, program: str, page: str, seed: int) -> None:
        self.browser, self.program, self.page, self.draw = browser, program, page, random.Random(seed)
        self.done: list[str] = []
        ways: list[tuple[int, Callable[[], str]]] = [
            (8, self.click_somewhere),
            (10, self.click_a_thing),
            (8, self.drag),
            (8, self.press_a_key),
            (8, self.push_a_button),
            (3, self.take_a_tool),
            (2, self.change_a_field),
            (2, self.paste),
            (1, self.write),
            (1, self.address),
            (1, self.reload),
        ]
        self.weights, self.ways = [weight for weight, _ in ways], [way for _, way in ways]

    def begin(self) -> None:
        self.browser.open(self.page)
        comes_true(lambda: bool(self.browser.ask("count", ".graph") > 0))
        self.browser.ask("choose", "#pace", "1000")

    def one(self) -> None:
        """From a played transcript it sometimes goes back, or goes on where that ends."""
        if self.browser.ask("count", "body.lab") == 0 and self.draw.random() < 0.3:
            button = self.draw.choice(["#to-lab", "#go-on"])
            self.browser.ask("press", button)
            self.done.append(f"from a transcript by {button}")
            return
        way = self.draw.choices(self.ways, self.weights)[0]
        self.done.append(way())

    def place(self) -> tuple[float, float]:
        return self.draw.uniform(5, WINDOW[0] - 320), self.draw.uniform(60, WINDOW[1] - 160)

    def thing(self) -> tuple[float, float]:
        which = self.draw.choice([".graph .node:not(.absent) .body", ".graph [data-ends]:not(.absent)"])
        count = self.browser.ask("count", which)
        if count == 0:
            return self.place()
        x, y = self.browser.ask("place", which, self.draw.randrange(count))
        return (x, y) if 0 <= x < WINDOW[0] and 0 <= y < WINDOW[1] - 100 else self.place()

    def click_somewhere(self) -> str:
        x, y = self.place()
        # the header leads away from the page, or opens a dialog
        self.browser.click(x, y)
        return f"click {x:.0f} {y:.0f}"

    def click_a_thing(self) -> str:
        x, y = self.thing()
        self.browser.click(x, y)
        return f"click a thing {x:.0f} {y:.0f}"

    def drag(self) -> str:
        start, end = self.thing(), self.thing()
        self.browser.drag(start, end)
        return f"drag {start} {end}"

    def press_a_key(self) -> str:
        if self.draw.random() < 0.5 and self.browser.ask("count", "body.lab"):
            self.browser.ask("focus", ".graph")
        key = self.draw.choice(KEYS)
        self.browser.press(key)
        return f"key {key!r}"

    def push_a_button(self) -> str:
        button = f"#{self.draw.choice(BUTTONS)}"
        if self.browser.ask("isPressable", button):
            self.browser.ask("press", button)
        return f"button {button}"

    def take_a_tool(self) -> str:
        which = self.draw.choice(["cut", "link", "point", "flag", "node", "move"])
        self.browser.ask("press", f"[data-tool='{which}']")
        return f"tool {which}"

    def change_a_field(self) -> str:
        name = self.draw.choice([*FIELDS])
        value = self.draw.choice(FIELDS[name])
        if not self.browser.ask("isPressable", f"#{name}"):
            return f"no field {name}"
        self.browser.ask("choose", f"#{name}", value)
        return f"field {name} {value!r}"

    def paste(self) -> str:
        text = self.draw.choice(TEXTS)
        self.browser.ask("blur")
        self.browser.ask("paste", text)
        return f"paste {text!r}"

    def write(self) -> str:
        text = self.draw.choice(TEXTS)
        self.browser.ask("write", text)
        self.browser.ask("press", "#text-use")
        return f"write {text!r}"

    def address(self) -> str:
        address = self.draw.choice(ADDRESSES)
        self.browser.ask("goTo", address)
        return f"address {address}"

    def reload(self) -> str:
        self.browser.reload()
        comes_true(lambda: bool(self.browser.ask("count", ".graph, #graph .node") > 0))
        return "reload"

    def verdict(self) -> str:
        if self.browser.ask("count", "body.lab") == 0:
            self.browser.ask("press", "#to-lab")
            comes_true(lambda: bool(self.browser.ask("count", "body.lab") == 1))
        if self.browser.ask("isRunning"):
            self.browser.ask("press", "#run")
        text = self.browser.ask("transcript").encode()
        made = subprocess.run([self.program, "audit"], input=text, capture_output=True, timeout=600)
        return str(made.stdout.decode().strip())


def use(pages: Counts, browser: Browser, name: str, page: str, seed: int, count: int) -> None:
    """Of the hundreds that end badly the first is printed with the acts before it."""
    acts = Acts(browser, pages.program, page, seed)
    acts.begin()
    for number in range(1, count + 1):
        acts.one()
        if number % 100 and number != count:
            continue
        verdict, complaints = acts.verdict(), list(browser.complaints)
        is_good = verdict.startswith("accepted: ") and complaints == []
        pages.expect(f"{name}: {number} random acts of seed {seed}", is_good, True)
        if not is_good:
            print(f"{verdict}; {complaints[:3]}; the last acts: {acts.done[-100:]}")
            return
