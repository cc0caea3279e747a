"""Reads case files; the help of tests/run describes their form."""

from __future__ import annotations

import dataclasses
import os
import pathlib
import re
from typing import Iterator, Optional

ESCAPES = {"n": 10, "r": 13, "t": 9, "0": 0, "\\": 92, '"': 34}
STRING = r'"(?:[ !#-\[\]-~]|\\[nrt0\\"]|\\x[0-9a-fA-F]{2})*"'
WORD = re.compile(STRING + r'|[^ "]+')
PARTS = re.compile(
    r"(?P<case>case) (?P<name>.+)"
    r"|(?P<words>words)(?: (?P<said>.+))?"
    r"|(?P<stream>in|out|err)(?: (?P<times>[1-9][0-9]*) times)?"
    r"|(?P<has>out|err) has (?P<part>.+)"
    r"|(?P<ends>out|err) ends"
    r"|(?P<lines>out|err) lines (?P<count>[0-9]+)"
    r"|status (?P<status>[0-9]+)"
    r"|audited (?P<verdict>.+)"
    r"|each (?P<table>line|words)"
    r"|(?P<broken>reader broken|writer broken|writer closed|faults broken)"
)


# How often bytes come, and the bytes.
Block = tuple[int, bytes]


class Malformed(Exception):
    def __init__(self, line: int, why: str) -> None:
        super().__init__(why)
        self.line = line


@dataclasses.dataclass
class Wanted:
    """Expectations of an output stream."""

    blocks: list[Block] = dataclasses.field(default_factory=list)
    parts: list[bytes] = dataclasses.field(default_factory=list)
    ends: bytes = b""
    lines: int = -1

    def is_exact(self) -> bool:
        return not (self.parts or self.ends or self.lines >= 0)

    def text(self) -> bytes:
        return b"".join(block * times for times, block in self.blocks)


@dataclasses.dataclass
class Case:
    """A case of a file, or a run of it with its own words and input."""

    file: str
    line: int
    name: str
    words: Optional[list[bytes]] = None
    blocks: list[Block] = dataclasses.field(default_factory=list)
    out: Wanted = dataclasses.field(default_factory=Wanted)
    err: Wanted = dataclasses.field(default_factory=Wanted)
    status: Optional[int] = None
    verdict: Optional[bytes] = None
    table: Optional[str] = None
    place: int = 0
    entries: list[tuple[int, str]] = dataclasses.field(default_factory=list)
    broken: set[str] = dataclasses.field(default_factory=set)


def unescaped(text: str) -> bytes:
    found = bytearray()
    rest = text[1:-1]
    while rest:
        if rest[0] != "\\":
            found.append(ord(rest[0]))
            rest = rest[1:]
        elif rest[1] == "x":
            found.append(int(rest[2:4], 16))
            rest = rest[4:]
        else:
            found.append(ESCAPES[rest[1]])
            rest = rest[2:]
    return bytes(found)


def text_bytes(number: int, text: str) -> tuple[bytes, bool]:
    if not text.startswith('"'):
        return text.encode(), False
    if not re.fullmatch(STRING, text):
        raise Malformed(number, "no escaped string")
    return unescaped(text), True


def literal_bytes(number: int, text: str) -> bytes:
    found, quoted = text_bytes(number, text)
    return found if quoted else found + b"\n"


def word_list(number: int, text: str) -> list[bytes]:
    words = []
    place = 0
    while text:
        found = WORD.match(text, place)
        if not found:
            raise Malformed(number, "no word at column %d of the words" % (place + 1))
        word, _ = text_bytes(number, found.group())
        if 0 in word:
            raise Malformed(number, "a word holds no byte 0")
        words.append(word)
        place = found.end()
        if place == len(text):
            break
        if text[place] != " ":
            raise Malformed(number, "words are separated by one space")
        place += 1
    return words


def grouped(path: pathlib.Path) -> list[tuple[int, str, list[tuple[int, str]]]]:
    """Each part with its number and the numbered lines below it."""
    parts: list[tuple[int, str, list[tuple[int, str]]]] = []
    for number, raw in enumerate(path.read_bytes().split(b"\n"), 1):
        if not all(32 <= byte < 127 for byte in raw):
            raise Malformed(number, "a byte that is no printable ASCII; write it in an escaped string")
        line = raw.decode()
        if not line or line.startswith("#"):
            continue
        if line.endswith(" "):
            raise Malformed(number, "a space at the end; write it in an escaped string")
        if not line.startswith(" "):
            parts.append((number, line, []))
        elif not line.startswith("  ") or line.startswith("   "):
            raise Malformed(number, "a line below a part begins with two spaces, and with no third")
        elif not parts:
            raise Malformed(number, "a line below no part")
        else:
            parts[-1][2].append((number, line[2:]))
    return parts


def add_part(case: Case, number: int, found: re.Match[str], below: list[tuple[int, str]]) -> bool:
    """Returns whether lines belong below it."""
    if found["words"]:
        if case.words is not None:
            raise Malformed(number, "a second 'words'")
        case.words = word_list(number, found["said"] or "")
    elif found["stream"]:
        block = b"".join(literal_bytes(at, text) for at, text in below)
        if not block:
            raise Malformed(number, "nothing below it; leave it out for an empty stream")
        blocks = {"in": case.blocks, "out": case.out.blocks, "err": case.err.blocks}[found["stream"]]
        blocks.append((int(found["times"] or 1), block))
        return True
    elif found["has"]:
        getattr(case, found["has"]).parts.append(text_bytes(number, found["part"])[0])
    elif found["ends"]:
        wanted = getattr(case, found["ends"])
        if wanted.ends:
            raise Malformed(number, "a second 'ends'")
        wanted.ends = b"".join(literal_bytes(at, text) for at, text in below)
        if not wanted.ends:
            raise Malformed(number, "nothing below it")
        return True
    elif found["lines"]:
        getattr(case, found["lines"]).lines = int(found["count"])
    elif found["status"]:
        if case.status is not None:
            raise Malformed(number, "a second 'status'")
        case.status = int(found["status"])
    elif found["verdict"]:
        case.verdict = text_bytes(number, found["verdict"])[0] + b"\n"
    elif found["broken"]:
        case.broken.add(found["broken"])
    else:
        if case.table:
            raise Malformed(number, "a second table")
        if not below:
            raise Malformed(number, "a table of no line")
        case.table, case.place, case.entries = found["table"], len(case.blocks), below
        return True
    return False


def check_case(case: Case) -> None:
    for there, why in (
        (case.status is None, "no 'status'"),
        (case.words is None and case.table != "words", "no 'words'"),
        (case.words is not None and case.table == "words", "'words' beside 'each words'"),
        (case.verdict and (case.table or not case.out.blocks), "'audited' wants 'out' and no table"),
        ("reader broken" in case.broken and (case.blocks or case.table == "line"), "input for a broken reader"),
        ({"writer broken", "writer closed"} <= case.broken, "a writer both broken and closed"),
        (case.broken & {"writer broken", "writer closed"} and case.out != Wanted(), "'out' of a broken writer"),
        ("faults broken" in case.broken and case.err != Wanted(), "'err' of a broken stream"),
        (case.out.blocks and not case.out.is_exact(), "'out' to the byte beside another"),
        (case.err.blocks and not case.err.is_exact(), "'err' to the byte beside another"),
    ):
        if there:
            raise Malformed(case.line, why + ", in case " + case.name)


def read_cases(path: pathlib.Path) -> list[Case]:
    cases: list[Case] = []
    for number, line, below in grouped(path):
        found = PARTS.fullmatch(line)
        if not found:
            raise Malformed(number, "no part of a case: " + line)
        if found["case"]:
            if any(case.name == found["name"] for case in cases):
                raise Malformed(number, "a second case of this name")
            cases.append(Case(file=os.path.relpath(path), line=number, name=found["name"]))
            takes_lines = False
        elif not cases:
            raise Malformed(number, "a part before the first 'case'")
        else:
            takes_lines = add_part(cases[-1], number, found, below)
        if below and not takes_lines:
            raise Malformed(below[0][0], "a line below a part that takes none")
    for case in cases:
        check_case(case)
    return cases


def runs_of(case: Case) -> Iterator[Case]:
    """The case itself, or a run for each line of its table; and its audit."""
    if not case.table:
        yield case
    for number, text in case.entries:
        run = dataclasses.replace(case, line=number, name=case.name + ": " + text)
        if case.table == "words":
            run.words = word_list(number, text)
        else:
            given = (1, literal_bytes(number, text))
            run.blocks = case.blocks[: case.place] + [given] + case.blocks[case.place :]
        yield run
    if case.verdict:
        yield Case(
            file=case.file,
            line=case.line,
            name=case.name + ", audited",
            words=[b"audit"],
            blocks=case.out.blocks,
            out=Wanted(blocks=[(1, case.verdict)]),
            status=0,
        )
