"""How plain the prose of pages, comments and docstrings is."""

from __future__ import annotations

import io
import pathlib
import re
import tokenize
from typing import Iterable, Iterator

# In words for a sentence, in characters for a line and a cell.
SENTENCE = 35
LINE = 110
CELL = 200
# Words that plain English rarely needs, with the most that all prose may have; `where` is for a place.
MOST = {
    r"where": 99,
    r"(?:of|at|in|by|with|for|from|to|on|above|below) (?:which|whom)": 25,
    r"stands?": 27,
    r"(?:(?:is|are|was|were|be) told|tells?)": 24,
    r"behind": 24,
    r"nobody|nothing is": 13,
    r"wants?": 11,
    r"so many": 11,
    r"beside": 9,
    r"(?:makes?|made) of": 5,
}
PATTERNS = (
    "README.md",
    "*.md",
    "docs/*.md",
    "independent/*.md",
    "crates/*/src/**/*.rt",
    "include/*.h*",
    "viewer/**/*.mjs",
    "viewer/*.ts",
    "rust/**/*.rs",
    "python/**/*.py",
    "tests/**/*.py",
    "scripts/*.py",
    "bench/*.py",
    "examples/**/*.py",
)
# A comment that fills its line, in Rust, C and JavaScript; what opens one of several lines and goes on.
COMMENT = re.compile(r"\s*(?://[/!]?|/\*\*?|\*(?!/))(?: (.*?))?(?:\s*\*/)?$")
CODE = re.compile(r"`[^`]*`")
END = re.compile(r"(?<=[.!?:;])\s+")
Told = tuple[bool, str]
# A line's number, its text without comment marks, and whether it is a table's row.
Line = tuple[int, str, bool]


def of_page(text: str) -> Iterator[Line]:
    """Without fenced code; a blank line ends a paragraph."""
    code = False
    for number, line in enumerate(text.splitlines(), 1):
        fence = line.lstrip().startswith("```")
        code ^= fence
        if fence or code or line.startswith(("    ", "![")):
            yield number, "", False
        elif line.startswith("|"):
            yield number, line, True
        else:
            item = re.match(r"\s*(?:[-*#>]+|\d+\.) ", line)
            if item:
                yield number, "", False
            yield number, line[item.end() :] if item else line, False


def of_comments(text: str) -> Iterator[Line]:
    """Those that fill their lines, without examples of code."""
    code = False
    for number, line in enumerate(text.splitlines(), 1):
        found = COMMENT.match(line)
        said = (found[1] or "") if found else ""
        fence = said.startswith("```")
        code = (code ^ fence) and found is not None
        table = said.startswith("|")
        yield number, "" if fence or code else said, table


def of_python(text: str) -> Iterator[Line]:
    """Docstrings, and comments that fill their lines."""
    for token in tokenize.generate_tokens(io.StringIO(text).readline):
        if token.type == tokenize.STRING and token.line.strip().startswith(('"""', 'r"""')):
            lines = token.string.strip('r"').splitlines()
            for number, line in enumerate(lines, token.start[0]):
                yield number, line.strip(), False
            yield token.end[0], "", False
        elif token.type == tokenize.COMMENT and token.line.strip().startswith("#"):
            yield token.start[0], token.string.lstrip("# "), False
        elif token.type not in (tokenize.NL, tokenize.COMMENT):
            yield token.start[0], "", False


def lines_of(path: pathlib.Path) -> Iterator[Line]:
    text = path.read_text(encoding="utf-8")
    if path.suffix == ".md":
        return of_page(text)
    return of_python(text) if path.suffix == ".py" else of_comments(text)


def sentences(lines: Iterable[Line]) -> Iterator[tuple[int, str]]:
    """Each with the first line of its paragraph; code in backticks is one word."""
    part: list[str] = []
    begun = 0
    for number, line, table in [*lines, (0, "", False)]:
        if line.strip() and not table:
            begun = begun if part else number
            part.append(line.strip())
        elif part:
            yield from ((begun, one) for one in END.split(CODE.sub("x", " ".join(part))))
            part = []


def sources(top: pathlib.Path) -> list[pathlib.Path]:
    found = {path for pattern in PATTERNS for path in top.glob(pattern)}
    return sorted(path for path in found if not {"out", "target", "release"} & {*path.relative_to(top).parts})


def plain_prose(top: pathlib.Path) -> Iterator[Told]:
    """What is said of each file's sentences, lines and cells, and of all words together."""
    counts = dict.fromkeys(MOST, 0)
    for path in sources(top):
        lines = [*lines_of(path)]
        name = path.relative_to(top)
        long = [at for at, one in sentences(lines) if len(one.split()) > SENTENCE]
        yield not long, f"{name}: a sentence of more than {SENTENCE} words in line {long[:3]}"
        wide = [at for at, line, table in lines if len(line) > LINE and not table]
        yield not wide, f"{name}: more than {LINE} characters of prose in line {wide[:3]}"
        cells = [at for at, line, table in lines if table and any(len(cell.strip()) > CELL for cell in line.split("|"))]
        yield not cells, f"{name}: a cell of more than {CELL} characters in line {cells[:3]}"
        text = CODE.sub("x", "\n".join(line for _, line, _ in lines))
        for word in MOST:
            counts[word] += len(re.findall(rf"\b(?:{word})\b", text, re.IGNORECASE))
    for word, most in MOST.items():
        yield counts[word] <= most, f"the prose has {counts[word]} times `{word}`, and not {most} at most"
