"""Which word of a transcript's line is wrong, and why."""

from __future__ import annotations

import difflib
import re
from typing import NamedTuple, Optional

from .library import MOVES, REFUSALS
from .numbers import MOST_ENTRIES, MOST_NODES
from .script_words import (
    BIT,
    COMMANDS,
    LONGEST_LINE,
    NODE,
    NULLABLE,
    NUMERAL,
    why_no_command,
    why_no_word,
    why_not_plain,
)

NO_EVENTS = {"drive": "steps that it made", "scramble": "faults that it drew", "checkpoint": "lines of a base"}
DISTURBANCES = "link", "unlink", "point", "flag", "join", "leave"
COUNTS = "nodes", "edges", "pairs", "enabled", "charge", "spent"
RULES = "hh", "manne"


class Fault(NamedTuple):
    """What is wrong with a line: the characters from `start` to before `end`, and why."""

    start: int
    end: int
    why: str


def whole(line: str, why: str) -> Fault:
    return Fault(0, len(line), why)


def at_word(line: str, place: int, why: str, start: int = 0) -> Fault:
    """A fault at a word of a line, by its index from the character `start` on; or after the last word."""
    words = line[start:].split(" ")
    if place >= len(words):
        return Fault(len(line), len(line) + 1, why)
    begin = start + sum(len(word) + 1 for word in words[:place])
    return Fault(begin, begin + len(words[place]), why)


def text_of_line(raw: bytes) -> str:
    """A line as it is shown: printable ASCII."""
    return "".join(chr(byte) if 32 <= byte < 127 else f"\\x{byte:02x}" for byte in raw)


def unprinted(raw: bytes) -> Optional[Fault]:
    # a line of a transcript may be longer than one of a script
    why = why_not_plain(raw if len(raw) <= LONGEST_LINE else raw[: LONGEST_LINE - 1] + raw[-1:])
    if not why:
        return None
    why = why.replace("a script is printable ASCII", "a transcript is printable ASCII")
    odd = next((at for at, byte in enumerate(raw) if not 32 <= byte < 127), 0)
    start = len(text_of_line(raw[:odd]))
    return Fault(start, start + len(text_of_line(raw[odd : odd + 1])), why)


def of_header(raw: bytes, is_cut: bool) -> Fault:
    line = text_of_line(raw)
    if not raw and is_cut:
        return Fault(0, 1, "the text is empty: a transcript begins with a header, as `matching hh 5`")
    odd = unprinted(raw)
    if odd:
        return odd
    word, *rest = line.split(" ")
    if word not in ("matching", "matching2"):
        return whole(line, why_no_header(line, word))
    return of_header_words(line, rest, word == "matching2") or whole(
        line, "the line lacks its line feed: the transcript is cut here" if is_cut else "this is no header"
    )


def why_no_header(line: str, word: str) -> str:
    header = "a transcript begins with a header, as `matching hh 5`"
    if not line:
        return f"the first line is empty: {header}"
    if line.startswith(("{", "[")):
        return f"this is JSON: {header}; `conform` judges logs in JSON Lines"
    if NUMERAL.fullmatch(word):
        return f"this is an entry, and the header in front of it is missing: {header}"
    if word in ("base", "node", "edge"):
        return "this is a line of a base, and the first one of that, as `matching2 hh 5`, is missing"
    if not why_no_command(line.encode()):
        return "this is a script, which has no replies: `console run --rules hh --nodes N` makes a transcript of it"
    near = difflib.get_close_matches(word, ("matching", "matching2"), 1)
    return f"{header}: `{near[0]}` may be meant" if near else header


def of_header_words(line: str, rest: list[str], is_base: bool) -> Optional[Fault]:
    """What is wrong after the first word of a header, or of the first line of a base."""
    if "" in rest:
        return at_word(line, rest.index("") + 1, "words are separated by one space")
    if not rest or rest[0] not in RULES:
        return at_word(line, 1, "here stand the rules, `hh` or `manne`")
    if len(rest) < 2:
        return at_word(line, 2, f"here stands how many nodes there are, 0 to {MOST_NODES}")
    most = int(rest[1]) - 1 if NUMERAL.fullmatch(rest[1]) and len(rest[1]) < 9 else MOST_NODES
    if not NUMERAL.fullmatch(rest[1]) or most >= MOST_NODES:
        return at_word(line, 2, f"this is no number of nodes, 0 to {MOST_NODES} without leading zeros")
    if len(rest) > (2 if is_base else 3):
        return at_word(line, 3 if is_base else 4, "the line has a word too many")
    if len(rest) == 3 and not (NUMERAL.fullmatch(rest[2]) and len(rest[2]) < 9 and int(rest[2]) <= most):
        return at_word(
            line,
            3,
            f"here stands how many nodes are present at the start, if that is less than {rest[1]}; else nothing",
        )
    return None


def of_entry(raw: bytes, is_cut: bool, expected: int) -> Fault:
    line = text_of_line(raw)
    odd = unprinted(raw)
    if odd:
        return odd
    found = None if not line else of_number(line, expected) or of_event(line) or of_reply(line)
    if is_cut:
        why = "the transcript ends in the middle of this line" if found or not line else "the line lacks its line feed"
        return Fault(len(line), len(line) + 1, why)
    if found:
        return found
    if expected > MOST_ENTRIES:
        return whole(line, f"a log has at most {MOST_ENTRIES} entries")
    return whole(line, "the line is empty" if not line else "an entry is a number, an event, ` = `, and the reply")


def of_number(line: str, expected: int) -> Optional[Fault]:
    word, _, rest = line.partition(" ")
    if word in ("matching", "node", "edge", "base"):
        what = "a second header: one transcript ends before this line" if word == "matching" else "a line of a base"
        return at_word(line, 0, f"this is {what}, and here stands entry {expected}, or `matching2 ..` of a base")
    if not NUMERAL.fullmatch(word):
        if not why_no_command(line.encode()):
            return whole(line, f"this is a line of a script: an entry is `{expected} {line} = ` and the reply")
        zeros = word.lstrip("0")
        hint = f": `{zeros}` has no leading zeros" if NUMERAL.fullmatch(zeros) else ""
        return at_word(line, 0, f"an entry begins with its number, here {expected}{hint}")
    if not 0 < int(word[:12]) <= MOST_ENTRIES:
        return at_word(line, 0, f"an entry's number is 1 to {MOST_ENTRIES}, and here {expected}")
    return None if rest else at_word(line, 1, "behind the number stands the event")


def of_event(line: str) -> Optional[Fault]:
    """What is wrong with the text between the number and the reply."""
    start = line.index(" ") + 1
    end = line.find(" = ")
    if end < 0:
        near = line.find("=")
        if near >= 0:
            return Fault(near, near + 1, "one space stands on both sides of the sign between the event and the reply")
        return Fault(len(line), len(line) + 1, "here stand ` = ` and the reply")
    event = line[start:end] if end >= start else ""
    word = event.split(" ")[0]
    spaces = f"{event} ".find("  ")
    if event and (spaces >= 0 or event.startswith(" ")):
        return Fault(start + max(0, spaces), start + max(0, spaces) + 2, "words are separated by one space")
    if word in NO_EVENTS:
        return Fault(start, end, f"`{word}` is a line of a script: in a transcript stand the {NO_EVENTS[word]}")
    why = why_no_command(event.encode()) if event else "an event stands in front of ` = `"
    if not why:
        return None
    kinds = COMMANDS.get(word, ())
    for place, text in enumerate(event.split(" ")[1:], 1):
        kind = kinds[min(place, len(kinds)) - 1] if kinds else None
        if kind and why_no_word(text, kind):
            return moved(at_word(event, place, why), start)
    return Fault(start, max(end, start + 1), why)


def moved(fault: Fault, by: int) -> Fault:
    return Fault(fault.start + by, fault.end + by, fault.why)


def of_reply(line: str) -> Optional[Fault]:
    """What is wrong with the reply of a line whose event is right."""
    start = line.index(" = ") + 3
    event, reply = line[line.index(" ") + 1 : start - 3], line[start:]
    word = event.split(" ")[0]
    if reply.startswith("refused"):
        if word in ("enabled", "matching", "status"):
            return Fault(start, len(line), f"`{word}` is never refused")
        return of_refusal(line, start, reply)
    if not reply:
        return Fault(len(line), len(line) + 1, "here stands the reply")
    if word in DISTURBANCES:
        return None if reply == "ok" else Fault(start, len(line), f"the reply to `{word}` is `ok`, or `refused ..`")
    if word == "show":
        why = why_no_word(reply, NULLABLE)
        return Fault(start, len(line), f"the reply is a node or -: {why}") if why else None
    if word == "status":
        return of_counts(line, start, reply)
    return of_list(line, start, reply, word)


def of_refusal(line: str, start: int, reply: str) -> Optional[Fault]:
    words = reply.split(" ")
    if len(words) == 3 and words[1].isdigit() and 0 < int(words[1][:9]) <= len(REFUSALS):
        if words[2] == REFUSALS[int(words[1]) - 1] and NUMERAL.fullmatch(words[1]):
            return None
        return at_word(line, 2, f"refusal {words[1]} is `{REFUSALS[int(words[1][:9]) - 1]}`", start)
    return Fault(start, len(line), f"a refusal is `refused NO TEXT`, as `refused 1 {REFUSALS[0]}`")


def of_counts(line: str, start: int, reply: str) -> Optional[Fault]:
    words = reply.split(" ")
    for place, name in enumerate(COUNTS):
        text = words[place] if place < len(words) else ""
        if not text.startswith(f"{name}=") or not NUMERAL.fullmatch(text[len(name) + 1 :]):
            return at_word(line, place, f"here stands `{name}=` and a number", start)
    return at_word(line, len(COUNTS), "the line has a word too many", start) if len(words) > len(COUNTS) else None


ITEMS = {
    "step": ("a move, as `1:seduce>2` or `1:update`", r"(\d+):(?:update|abandon|(?:marry|seduce)>(\d+))"),
    "enabled": ("an enabled node with its rule, as `1:seduce`", rf"(\d+):(?:{'|'.join(MOVES[1:])})"),
    "matching": ("a pair, as `1-2`", r"(\d+)-(\d+)"),
}


def of_list(line: str, start: int, reply: str, word: str) -> Optional[Fault]:
    """What is wrong with a reply that lists moves, enabled nodes or pairs."""
    if reply == "none" and word != "step":
        return None
    what, pattern = ITEMS[word]
    for place, text in enumerate(reply.split(" ")):
        found = re.fullmatch(pattern, text, re.ASCII)
        if not found:
            return at_word(line, place, f"this is not {what}", start)
        why = next((why for number in found.groups() if number and (why := why_no_word(number, NODE))), None)
        if not why and word == "matching" and int(found[1]) >= int(found[2]):
            why = "the lower node of a pair stands first"
        if why:
            return at_word(line, place, why, start)
    return None


def words_of_base(raw: bytes) -> Optional[Fault]:
    """What is wrong with the form of a line of a base after its first one."""
    line = text_of_line(raw)
    odd = unprinted(raw)
    if odd:
        return odd
    word, *rest = line.split(" ")
    forms = {"node": ((NODE, NULLABLE, BIT), "node A P F"), "edge": ((NODE, NODE), "edge A B")}
    if word == "base":
        found = re.fullmatch(r"base \d+ spent=\d+ nodes=\d+ edges=\d+", line, re.ASCII)
        return None if found else whole(line, "the second line of a base is `base B spent=S nodes=C edges=E`")
    if word not in forms:
        return at_word(line, 0, "a line of a base begins with `node` or `edge`")
    kinds, form = forms[word]
    if len(rest) != len(kinds):
        return whole(line, f"the line is `{form}`")
    for place, (text, kind) in enumerate(zip(rest, kinds), 1):
        why = why_no_word(text, kind)
        if why:
            return at_word(line, place, why)
    return None
