"""Why `audit` refuses a transcript: the wrong word, the machine's reply, and the registers there.

The verdict is the auditor's. The reply is that of the machine, which plays the transcript up to the wrong
line. The rest comes from the registers followed here.
"""

from __future__ import annotations

import re
from dataclasses import dataclass
from typing import Iterable, Iterator, Optional, Sequence

from . import base_faults, rules
from .audits import audit
from .errors import Damaged, Garbled
from .given import Given, bytes_of
from .labels import label
from .line_faults import Fault, at_word, of_entry, of_header, text_of_line, unprinted
from .names import own_names
from .network import Network
from .program import Program
from .reading import MOVE
from .reasons import Reasons
from .replays import replay
from .replies import Name
from .state import State

HEAD = b"matching2"
# how many characters of a line are shown around the fault
WIDTH = 100
MOST_NODES_SHOWN = 3
WITHOUT_REPLY = re.compile(r"[0-9]+ [^=]* = ")


@dataclass(frozen=True)
class Explanation:
    """Why a transcript is refused.

    `line` and `verdict` are those of `audit`. `text` is the text of that line, `before` that of the line
    before. The wrong characters are those from `start` to before `end`.
    """

    line: int
    verdict: str
    text: str
    before: Optional[str]
    start: int
    end: int
    why: str
    notes: tuple[str, ...] = ()

    def __str__(self) -> str:
        return "\n".join([f"line {self.line}: {self.verdict}", *self.frame(), *(f"  {note}" for note in self.notes)])

    def frame(self) -> Iterator[str]:
        """The line, with a mark below what is wrong."""
        wide = len(str(self.line))
        left = max(0, min(self.start - WIDTH // 2, len(self.text) - WIDTH))
        front, back = ".. " if left else "", " .." if len(self.text) > left + WIDTH else ""
        shown = f"{front}{self.text[left : left + WIDTH]}{back}"
        mark = max(1, min(self.end, left + WIDTH) - self.start)
        if self.before is not None:
            yield f"{self.line - 1:>{wide}} | {self.before[:WIDTH]}{' ..' if len(self.before) > WIDTH else ''}"
        yield f"{self.line:>{wide}} | {shown}"
        yield f"{'':>{wide}} | {' ' * (len(front) + self.start - left)}{'^' * mark} {self.why}"


class Broken:
    """A refused transcript: its lines up to the wrong one, and places to follow its state from."""

    def __init__(self, text: bytes, line: int) -> None:
        self.line, self.start, self.last = line, 0, 0
        for _ in range(line - 1):
            self.last, self.start = self.start, text.find(b"\n", self.start) + 1
        end = text.find(b"\n", self.start)
        self.is_cut = end < 0
        self.raw = text[self.start :] if self.is_cut else text[self.start : end]
        self.text = text

    @property
    def before(self) -> Optional[str]:
        return text_of_line(self.text[self.last : self.start - 1][: 2 * WIDTH]) if self.start else None

    @property
    def after(self) -> bytes:
        """The line after the wrong one."""
        start = self.start + len(self.raw) + 1
        end = self.text.find(b"\n", start)
        return self.text[start:] if end < 0 else self.text[start:end]

    def base_before(self, end: int) -> int:
        """The offset of the last base before a place; 0 if there is none."""
        return self.text.rfind(b"\n" + HEAD, 0, end) + 1

    def accepted(self, end: int) -> str:
        """Accepted text that leads to a place, from the last whole base or the start."""
        return self.text[self.base_before(max(0, end - 1)) : end].decode("ascii")

    def explained(self, damaged: Damaged, fault: Fault, notes: Iterable[str] = ()) -> Explanation:
        line = text_of_line(self.raw)
        end = max(fault.end, fault.start + 1)
        return Explanation(self.line, damaged.why, line, self.before, fault.start, end, fault.why, tuple(notes))


def explain(
    transcript: Given,
    *,
    names: Optional[Iterable[Name]] = None,
    program: Program = None,
    engine: Optional[str] = None,
) -> Optional[Explanation]:
    """Why `audit` refuses a transcript; None if `audit` accepts. The result's `str` is for a terminal.

    With the caller's `names`, in the order of the numbers, a node's number is followed by its name.
    """
    text = bytes_of(transcript)
    own = None if names is None else own_names(names)
    try:
        audit(text, program=program, engine=engine)
        return None
    except Damaged as damaged:
        return explained(Broken(text, damaged.line), damaged, program, engine, Told(own))


class Told:
    """A node in messages: its number, followed by the caller's own name, if any."""

    def __init__(self, own: Optional[Sequence[Name]]) -> None:
        self.own = own or ()

    def __call__(self, number: int) -> str:
        return f"{number} ({label(self.own[number - 1])})" if 0 < number <= len(self.own) else str(number)


def explained(
    broken: Broken, damaged: Damaged, program: Program, engine: Optional[str], told: Told = Told(None)
) -> Explanation:
    if damaged.why == "bad header":
        return broken.explained(damaged, of_header(broken.raw, broken.is_cut))
    if damaged.why == "bad base":
        return of_base(broken, damaged, program, engine)
    prefix = broken.accepted(broken.start)
    state = State()
    state.follow(prefix.splitlines())
    if damaged.why == "not a transcript line":
        return broken.explained(damaged, of_entry(broken.raw, broken.is_cut, state.entry + 1))
    if damaged.why == "out of order":
        return broken.explained(damaged, of_order(broken.raw, state.entry + 1, broken.after))
    with replay(prefix, program=program, engine=engine) as net:
        reply = replied(net, broken.raw.decode("ascii"))
    fault, node = of_replies(broken.raw.decode("ascii"), reply, state, told)
    return broken.explained(damaged, fault, notes_of(state, broken.raw.decode("ascii"), reply, node, told))


def of_order(raw: bytes, expected: int, after: bytes = b"") -> Fault:
    line = text_of_line(raw)
    number = int(line.split(" ")[0])
    if number < expected:
        return at_word(line, 0, f"here stands entry {expected}; an entry {number} stands above")
    if number == expected + 1 and after.startswith(b"%d " % expected):
        return at_word(line, 0, f"swapped with the next line, which is entry {expected}")
    missing = f"entry {expected} is" if number == expected + 1 else f"entries {expected} to {number - 1} are"
    return at_word(line, 0, f"here stands entry {expected}: {missing} missing")


def replied(net: Network, line: str) -> str:
    """The machine's reply to the event of a line, in the state of a network."""
    event = line.partition(" ")[2].partition(" = ")[0]
    before = len(net.transcript())
    net._session.tell(event)
    return net.transcript()[before:].rstrip("\n").partition(" = ")[2]


def of_replies(line: str, reply: str, state: State, name: Told) -> tuple[Fault, Optional[int]]:
    """Where a line's reply differs from the machine's, and the node concerned."""
    event, _, told = line.partition(" ")[2].partition(" = ")
    start = len(line) - len(told)
    word = event.split(" ")[0]
    if word == "step" and not told.startswith("refused") and not reply.startswith("refused"):
        return of_moves(line, start, event, told, reply, state, name)
    if told.startswith("refused") or reply.startswith("refused") or word not in ("enabled", "matching", "status"):
        node = event.split(" ")[1:2]
        return (
            whole_reply(line, start, f"the machine replies `{reply[:WIDTH]}`"),
            int(node[0].split(">")[0]) if node else None,
        )
    ours, theirs = told.split(" "), reply.split(" ")
    place = next((at for at, (a, b) in enumerate(zip(ours, theirs)) if a != b), min(len(ours), len(theirs)))
    if word == "status":
        why, other = f"the machine says `{theirs[place]}`", enabled_beyond(ours[place], theirs[place], state)
        return at_word(line, place, f"{why}: {name(other)} is enabled" if other else why, start), other
    return of_listed(line, start, place, ours, theirs)


def enabled_beyond(ours: str, theirs: str, state: State) -> Optional[int]:
    """A node that is enabled, if these are counts of enabled nodes and the first is too small."""
    told, real = (re.fullmatch(r"enabled=([0-9]+)", text) for text in (ours, theirs))
    if not told or not real or int(told[1]) >= int(real[1]):
        return None
    return next(iter(rules.enabled(state)), None)


def whole_reply(line: str, start: int, why: str) -> Fault:
    return Fault(start, len(line), why)


def of_listed(
    line: str, start: int, place: int, ours: Sequence[str], theirs: Sequence[str]
) -> tuple[Fault, Optional[int]]:
    """The first enabled node or pair that differs between two lists; one list may end before it."""
    mine = ours[place] if place < len(ours) else ""
    other = theirs[place] if place < len(theirs) else ""
    found = [int(number[0]) if (number := re.match(r"\d+", text)) else None for text in (mine, other)]
    if found[0] is not None and (found[1] is None or found[0] < found[1]):
        return at_word(line, place, "the machine's list does not have this", start), found[0]
    if mine and found[0] == found[1]:
        return at_word(line, place, f"the machine says `{other}`", start), found[0]
    return at_word(line, place, f"`{other}` is missing here", start), found[1]


def of_moves(
    line: str, start: int, event: str, told: str, reply: str, state: State, name: Told
) -> tuple[Fault, Optional[int]]:
    """The first move of a step that the rules do not allow."""
    wished = dict(item.split(">") for item in event.split(" ")[1:] if ">" in item)
    chosen = sorted(int(item.split(">")[0]) for item in event.split(" ")[1:])
    for place, text in enumerate(told.split(" ")):
        found = MOVE.fullmatch(text)
        node = int(text.split(":")[0])
        if place >= len(chosen) or node != chosen[place]:
            missing = chosen[place] if place < len(chosen) else None
            if missing is not None and node > missing:
                return at_word(line, place, f"the move of {name(missing)} is missing here", start), missing
            return at_word(line, place, f"{name(node)} is not among the nodes of this step", start), node
        rule, target = (found[2] or found[3], int(found[4] or 0)) if found else ("", 0)
        real = rules.rule_at(state, node) or ""
        if rule != real:
            return at_word(line, place, f"the rule that is enabled at {name(node)} is {real}", start), node
        wish = wished.get(str(node))
        if wish and int(wish) != target:
            return at_word(line, place, f"the step wishes {name(node)} to point at {name(int(wish))}", start), node
        if target and target not in rules.targets(state, node, rule):
            why = Reasons(state, name).why_not_at(node, target) or f"{name(node)} may not {rule} {name(target)}"
            return at_word(line, place, why, start), node
    if len(told.split(" ")) < len(chosen):
        missing = chosen[len(told.split(" "))]
        return at_word(line, len(told.split(" ")), f"the move of {name(missing)} is missing here", start), missing
    return whole_reply(line, start, f"the machine replies `{reply[:WIDTH]}`"), None


def notes_of(state: State, line: str, reply: str, node: Optional[int], name: Told) -> list[str]:
    event = line.partition(" ")[2].partition(" = ")[0]
    words = Reasons(state, name)
    notes = [f"the machine's reply: {reply[:WIDTH]}{' ..' if len(reply) > WIDTH else ''}"]
    if node is None:
        return notes
    if not 0 < node <= state.count:
        return [*notes, f"the names of this network are 1 to {state.count}"]
    if event.split(" ")[0] in ("step", "enabled", "status"):
        notes.append(words.allowed(node))
    nodes = [node]
    if event.split(" ")[0] in ("link", "unlink", "point"):
        nodes += [int(text) for text in event.split(" ")[2:3] if text.isdigit() and int(text) <= state.count]
    for number in nodes[:MOST_NODES_SHOWN]:
        notes += [note for note in words.around(number) if note not in notes]
    return notes


def of_base(broken: Broken, damaged: Damaged, program: Program, engine: Optional[str]) -> Explanation:
    """Explains a wrong line of a base: of an opening base by itself, of any other by the state reached."""
    head = head_of(broken, program, engine)
    if not head:
        return of_first_base(broken, damaged)
    prefix = broken.accepted(head)
    state = State()
    state.follow(prefix.splitlines())
    with replay(prefix, program=program, engine=engine) as net:
        before = len(net.transcript())
        net._session.tell("checkpoint")
        lines = net.transcript()[before:].splitlines()
    lines[1] = base_faults.numbered(lines[1], state.entry, base_faults.spent_in(prefix))
    place = broken.text.count(b"\n", head, broken.start)
    if place >= len(lines):
        raise Garbled(f"the base has {len(lines)} lines, and the auditor refuses line {place + 1} of it")
    fault = unprinted(broken.raw) or base_faults.compared(text_of_line(broken.raw), lines[place], broken.is_cut)
    return broken.explained(damaged, fault, [f"where the run has come to, the line is: {lines[place][:WIDTH]}"])


def head_of(broken: Broken, program: Program, engine: Optional[str]) -> int:
    """The offset of the base that has the wrong line."""
    if broken.raw.startswith(HEAD):
        try:
            # the line is the first of a base, unless the base before it is not whole
            audit(broken.accepted(broken.start), program=program, engine=engine)
            return broken.start
        except Damaged:
            pass
    return broken.base_before(broken.start)


def of_first_base(broken: Broken, damaged: Damaged) -> Explanation:
    lines = [text_of_line(line) for line in broken.text.split(b"\n")]
    fault = base_faults.of_line(broken.raw, broken.line, lines, broken.is_cut)
    notes: list[str] = []
    if fault is None:
        fault, notes = base_faults.of_state(lines)
    return broken.explained(damaged, fault, notes)
