"""Why a line of a script is no command, in words for its writer."""

from __future__ import annotations

import difflib
import re
from typing import Iterator, Optional

from .numbers import MOST_NODES, MOST_SEED, MOST_TURNS

LONGEST_LINE, MOST_ITEMS = 1_048_576, 65_535
NUMERAL = re.compile(r"0|[1-9][0-9]*")
NODE, NULLABLE, BIT, SEED, TURNS, ITEM = (
    "a node",
    "a node or -",
    "0 or 1",
    "a seed",
    "a number of turns",
    "a node, or A>B",
)
COMMANDS: dict[str, tuple[str, ...]] = {
    "link": (NODE, NODE),
    "unlink": (NODE, NODE),
    "point": (NODE, NULLABLE),
    "flag": (NODE, BIT),
    "join": (NODE,),
    "leave": (NODE,),
    "step": (ITEM,),
    "show": (NODE,),
    "enabled": (),
    "matching": (),
    "status": (),
    "checkpoint": (),
    "drive": (SEED, TURNS),
    "scramble": (SEED, TURNS),
}
LIMITS = {NODE: (1, MOST_NODES), SEED: (0, MOST_SEED), TURNS: (0, MOST_TURNS)}
# what people write for a command
MEANT = {
    "add": "link",
    "connect": "link",
    "edge": "link",
    "remove": "unlink",
    "delete": "unlink",
    "cut": "unlink",
    "move": "step",
    "pairs": "matching",
    "match": "matching",
    "fault": "point",
    "run": "drive",
    "base": "checkpoint",
    "save": "checkpoint",
    "random": "scramble",
    "settle": "drive",
    "quit": "",
}


def why_no_command(line: bytes) -> Optional[str]:
    """Why a line, without its line feed, is no command; None if it is one, or is empty and skipped."""
    for look in (why_not_plain, why_not_spaced):
        why = look(line)
        if why:
            return why
    if not line:
        return None
    word, *rest = line.decode("ascii").split(" ")
    if word not in COMMANDS:
        return why_unknown(word)
    wanted = COMMANDS[word]
    if word == "step":
        if len(rest) > MOST_ITEMS:
            return f"a step has at most {MOST_ITEMS} items"
        wanted = (ITEM,) * len(rest)
    if len(rest) != len(wanted):
        if any("," in text for text in (word, *rest)):
            return "there is a comma: words are separated by one space"
        return f"`{word}` takes {' and '.join(wanted) or 'nothing'}, and not {len(rest)} word{'s'[len(rest) == 1 :]}"
    return next((why for text, kind in zip(rest, wanted) if (why := why_no_word(text, kind))), None)


def why_not_plain(line: bytes) -> Optional[str]:
    if len(line) > LONGEST_LINE:
        return f"a line has at most {LONGEST_LINE} bytes"
    if line.startswith(b"\xef\xbb\xbf"):
        return "the line begins with a byte order mark (BOM): save the file as UTF-8 without one, or as ASCII"
    if line.startswith((b"\xff\xfe", b"\xfe\xff")):
        return "the file is UTF-16: save it as UTF-8 or ASCII"
    if line.endswith(b"\r"):
        return "the line ends with a carriage return (CRLF): save the file with LF alone"
    odd = next((byte for byte in line if not 32 <= byte < 127), None)
    if odd == 9:
        return "there is a tab: words are separated by one space"
    return f"there is the byte 0x{odd:02x}: a script is printable ASCII" if odd is not None else None


def why_not_spaced(line: bytes) -> Optional[str]:
    if line.startswith((b"#", b"//")):
        return "a script has no comments"
    if line.strip(b" ") != line:
        return "a space stands at the beginning or the end of the line"
    return "two spaces follow one another: words are separated by one" if b"  " in line else None


def why_unknown(word: str) -> str:
    if word.lower() in COMMANDS:
        return f"commands are written in small letters: `{word.lower()}`"
    near = difflib.get_close_matches(word.lower(), COMMANDS, 1)
    meant = MEANT.get(word.lower()) or (near[0] if near else "")
    if NUMERAL.fullmatch(word):
        return (
            "the line begins with a number, as those of a transcript: "
            "a script has the text between the number and ` = `"
        )
    return f"`{word[:40]}` is no command" + (
        f": `{meant}` may be meant" if meant else f": they are {', '.join(COMMANDS)}"
    )


def why_no_word(text: str, kind: str) -> Optional[str]:
    if kind == NULLABLE:
        return None if text == "-" else why_no_word(text, NODE)
    if kind == ITEM:
        parts = text.split(">")
        if len(parts) > 2:
            return f"`{text[:40]}` is not A>B, a node that moves and its target"
        return next((why for part in parts if (why := why_no_word(part, NODE))), None)
    if text.isdigit() and text.isascii() and not NUMERAL.fullmatch(text):
        return f"`{text[:40]}` has leading zeros: `{text.lstrip('0')[:40] or '0'}`"
    if kind == BIT:
        return None if text in ("0", "1") else f"`{text[:40]}` is not 0 or 1"
    least, most = LIMITS[kind]
    if not NUMERAL.fullmatch(text):
        return f"`{text[:40]}` is not {kind}: a number from {least} to {most}"
    return (
        None
        if len(text) < 25 and least <= int(text) <= most
        else f"{text[:40]} is not {kind}, which is {least} to {most}"
    )


def faults_of(script: bytes) -> Iterator[tuple[int, str]]:
    """The lines of a script that are no commands, each with its number and the reason."""
    lines = script.split(b"\n")
    return ((number, why) for number, line in enumerate(lines, 1) if (why := why_no_command(line)))
