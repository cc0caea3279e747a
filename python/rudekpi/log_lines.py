"""The log of your own implementation: JSON Lines, an object an event, read line by line as it comes."""

from __future__ import annotations

import difflib
import json
import os
import re
from collections import Counter
from typing import IO, Any, Iterable, List, NoReturn, Tuple, Union

from .errors import BadLine

# as `Given`, with lines or objects
Log = Union["os.PathLike[str]", IO[bytes], IO[str], str, bytes, Iterable[Any]]
# lines or objects that came at once, with their numbers
Block = List[Tuple[int, Any]]
# how many bytes are read at once, and how many a line may have
PIECE, LONGEST = 1 << 16, 1 << 24
UTF_16 = (b"\xff\xfe", b"\xfe\xff")
# a line with an edge, and parts of others, in the spelling of most writers; strings without escapes
NAME = rb'"[^"\\\x00-\x1f]*"|[0-9]+'
WHOLE = rb"-?(?:0|[1-9][0-9]*)"
TIME = rb'"time": ?(' + WHOLE + rb"(?:\.[0-9]+)?(?:[eE][-+]?[0-9]+)?)"
START, END = rb'\{(?:"clock": ?' + WHOLE + rb", ?)?(?:" + TIME + rb", ?)?", rb"\}\r?"
VALUE = rb'(?:"pointer": ?(' + NAME + rb'|null)|"flag": ?(true|false))'
EDGE = re.compile(START + rb'"(link|unlink)": ?\[(' + NAME + rb"), ?(" + NAME + rb")\]" + END)
# how many characters of a line or a name a message shows
SHOWN = 200
EVENTS = ("link", "unlink", "join", "leave", "move", "moves", "fault")
# the keys of each event besides its own; any line may have a time, a clock, and what is the writer's
KEYS = {"move": ("pointer", "flag", "saw"), "fault": ("pointer", "flag")}
FREE = ("time", "clock", "extra")


def cut(text: str, most: int = SHOWN) -> str:
    return text if len(text) <= most else f"{text[:most]}.."


def spelled(given: object) -> str:
    """A value as a log has it, in one line of printable ASCII."""
    try:
        return cut(json.dumps(given))
    except (TypeError, ValueError, RecursionError):
        return cut(ascii(given))


def shown(name: object) -> str:
    """A name as messages show it: plain if it fits among words, else as a log spells it."""
    text = str(name)
    is_plain = text.isprintable() and bool(text) and not any(sign in text for sign in ' ",:;')
    return text if is_plain and len(text) <= SHOWN else spelled(name)


def unique(pairs: list[tuple[str, Any]]) -> dict[str, Any]:
    """Raises `ValueError` if the object has a key twice."""
    made = dict(pairs)
    if len(made) != len(pairs):
        counts = Counter(key for key, _ in pairs)
        raise ValueError(f"the key {spelled(next(key for key, _ in pairs if counts[key] > 1))} is there twice")
    return made


def refuse_constant(text: str) -> NoReturn:
    raise ValueError(f"{text} is no JSON")


PLAIN = json.JSONDecoder(parse_constant=refuse_constant)
STRICT = json.JSONDecoder(object_pairs_hook=unique, parse_constant=refuse_constant)


def why_no_json(line: bytes, error: Exception) -> str:
    if isinstance(error, UnicodeDecodeError):
        if line.startswith(UTF_16):
            return "the log is UTF-16: write it as UTF-8"
        return f"there is the byte 0x{line[error.start]:02x}, which is no UTF-8 there"
    if isinstance(error, RecursionError):
        return "the line is nested too deeply"
    if isinstance(error, json.JSONDecodeError):
        return f"this is no JSON: {error.msg[:1].lower()}{error.msg[1:]} at character {error.pos + 1}"
    return str(error)


def keys_of(made: Any) -> int:
    """How many keys an event has, including the keys of what is in it."""
    inner = made.values() if type(made) is dict else made if type(made) is list else ()
    return (len(made) if type(made) is dict else 0) + sum([keys_of(it) for it in inner if type(it) in (dict, list)])


def object_of(number: int, line: bytes) -> Any:
    """The value of a line that is not blank. Raises `BadLine`."""
    try:
        text = line.decode("utf-8-sig" if number == 1 else "utf-8").strip(" \t\r\n")
        made, end = PLAIN.raw_decode(text)
        if end != len(text):
            raise json.JSONDecodeError("a second value", text, end)
        # a repeated key leaves fewer keys than colons
        return made if keys_of(made) == text.count(":") else STRICT.decode(text)
    except (ValueError, RecursionError) as error:
        raise BadLine(number, why_no_json(line, error)) from None


def value_of(number: int, line: Any) -> Any:
    """The value of a line; the line may be a value already. Raises `BadLine`."""
    if isinstance(line, str):
        line = line.encode("utf-8", "surrogatepass")
    return object_of(number, line) if isinstance(line, bytes) else line


def kind_of(number: int, event: Any, ignores_extra: bool = False) -> str:
    """The word of an event, after checking its keys. Raises `BadLine`.

    With `ignores_extra` keys that are none of an event's are the writer's.
    """
    if not isinstance(event, dict):
        raise BadLine(number, f'an event is an object, as {{"move": "a", "pointer": "b"}}, and not {spelled(event)}')
    found: list[str] = [key for key in event if key in EVENTS]
    if len(found) != 1:
        raise BadLine(number, why_no_event(event, found))
    if "clock" in event and type(event["clock"]) is not int:
        raise BadLine(number, f"a clock is a whole number, and not {spelled(event['clock'])}")
    wanted = (found[0], *KEYS.get(found[0], ()), *FREE)
    odd = next((key for key in event if key not in wanted), None)
    if odd is not None and not ignores_extra:
        near = difflib.get_close_matches(str(odd), wanted, 1)
        hint = f"{near[0]!r} may be meant" if near else f"its keys are {', '.join(wanted)}"
        raise BadLine(number, f"{found[0]!r} has no key {spelled(odd)}: {hint}")
    return found[0]


def why_no_event(event: dict[Any, Any], found: list[str]) -> str:
    if found:
        return f"an event is one of {', '.join(EVENTS)}, and this line has {' and '.join(found)}"
    if "nodes" in event:
        return 'nodes are named in the first line; later ones come by {"join": ..}'
    near = [close for key in event for close in difflib.get_close_matches(str(key), EVENTS, 1)]
    hint = f": {near[0]!r} may be meant" if near else ""
    return f"an event has one of the keys {', '.join(EVENTS)}, and this line has none{hint}"
