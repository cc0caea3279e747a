"""Compares the pages with the repository, apart from examples and links."""

from __future__ import annotations

import itertools
import pathlib
import re
from typing import Iterable, Iterator

PAGES = {
    "README.md": 155,
    "docs/PROMISES.md": 165,
    "docs/DECISIONS.md": 265,
    "docs/ARCHITECTURE.md": 205,
}
FUNCTION = re.compile(r"^\s*(?:pub(?:\(crate\))? )?(?:const )?(?:extern \"C\" )?fn (\w+)", re.M)
CLAUSE = re.compile(r"^\s*ensures (?:(\w+) )?\{", re.M)
GHOST = re.compile(r"^\s*ghost (\w+)[:=, ]", re.M)
TYPE = re.compile(r"^\s*pub (?:trait|struct|enum) (\w+)", re.M)
FIELD = re.compile(r"^  pub (\w+) :", re.M)
QUOTED = re.compile(r"`([^`]+)`")
# A definition or a lemma of specs/.
PUBLIC = re.compile(
    r"^(?: *(?:abbrev|record|data) pub| *(?:unfoldable )?pub (?:abbrev|record|data)|(?:unfoldable )?pub)"
    r" (?!(?:abbrev|record|data|mod|use) )([^\s:({]+)",
    re.M,
)
# Whether something agrees, and what to print if it does not.
Told = tuple[bool, str]


def rows(page: pathlib.Path) -> Iterator[tuple[int, list[str]]]:
    """Each with its line's number and its cells, except the line below the head."""
    for number, line in enumerate(page.read_text(encoding="utf-8").splitlines(), 1):
        if line.startswith("| ") and line.endswith(" |"):
            yield number, [cell.strip() for cell in line[1:-1].replace("\\|", "\0").split("|")]


def lengths(top: pathlib.Path) -> Iterator[Told]:
    for name, most in PAGES.items():
        count = len((top / name).read_text(encoding="utf-8").splitlines())
        yield count <= most, f"{name} has {count} lines, and not {most} at most"


def contracts(top: pathlib.Path) -> tuple[dict[str, set[str]], set[str], set[str]]:
    """Each function's clauses by its name (an empty one is `=`), the laws of traits, and the types."""
    clauses: dict[str, set[str]] = {}
    ghosts: set[str] = set()
    types: set[str] = set()
    for path in top.glob("crates/*/src/**/*.rt"):
        text = path.read_text(encoding="utf-8")
        found = [*FUNCTION.finditer(text)]
        for here, after in zip(found, [*found[1:], None]):
            # a contract ends where the next function begins; nothing between has `ensures`
            part = text[here.end() : after.start() if after else len(text)]
            clauses.setdefault(here[1], set()).update(name or "=" for name in CLAUSE.findall(part))
        ghosts.update(GHOST.findall(text))
        types.update(TYPE.findall(text))
    for path in top.glob("crates/*/specs/RulesLaws.antt"):
        ghosts.update(FIELD.findall(path.read_text(encoding="utf-8")))
        clauses.setdefault("laws", set())
    return clauses, ghosts, types


def calls(top: pathlib.Path) -> Iterator[Told]:
    """The calls of PROMISES.md exist, and each clause is one of a call before it."""
    clauses, ghosts, types = contracts(top)
    page = top / "docs/PROMISES.md"
    for number, cells in rows(page):
        if len(cells) != 4 or cells[2] == "calls and clauses":
            continue
        for group in cells[2].split("; "):
            names, _, told = group.partition(": ")
            last = [name.split("::")[-1] for name in QUOTED.findall(names)]
            known = ghosts.union(*(clauses.get(name, set()) for name in last))
            absent = [name for name in last if name not in clauses and name not in types]
            yield not absent, f"{page.name}:{number}: no function {', '.join(absent)}"
            strange = [clause for clause in QUOTED.findall(told) if clause not in known]
            yield not strange, f"{page.name}:{number}: {', '.join(last)}: no clause {', '.join(strange)}"


def spread(name: str) -> list[str]:
    """What a name with braces means: `a/{b,c}` for a/b and a/c."""
    found = re.fullmatch(r"(.*)\{(.*)\}(.*)", name)
    return [found[1] + part + found[3] for part in found[2].split(",")] if found else [name]


def definitions(top: pathlib.Path) -> Iterator[Told]:
    """The files of definitions named in PROMISES.md, DEFINITIONS.md and WORDS.md exist."""
    for page, column in ((top / "docs/PROMISES.md", 1), (top / "docs/DEFINITIONS.md", 2), (top / "docs/WORDS.md", 2)):
        for number, cells in rows(page):
            if len(cells) <= column or (column == 1 and len(cells) != 4) or cells[column] in ("defined in", "file"):
                continue
            for name in itertools.chain.from_iterable(spread(quoted) for quoted in QUOTED.findall(cells[column])):
                places = [top / "crates" / name.removeprefix("crates/"), top / "crates/rule_machine/specs" / name]
                there = any(
                    place.with_name(place.name + ending).exists() for place in places for ending in ("", ".antt", ".rt")
                )
                # a name in parentheses is in the file before it
                yield there or f"(`{name}`)" in cells[column], f"{page.name}:{number}: no definitions in {name}"


def anchors(top: pathlib.Path, pages: Iterable[pathlib.Path]) -> Iterator[Told]:
    for page in pages:
        for target, anchor in re.findall(r"\]\(([^)#:]*)#([^)]+)\)", page.read_text(encoding="utf-8")):
            there = page.parent / target if target else page
            headings = re.findall(r"^#+ (.+)$", there.read_text(encoding="utf-8") if there.exists() else "", re.M)
            slugs = [re.sub(r"[^\w -]", "", heading).lower().replace(" ", "-") for heading in headings]
            yield anchor in slugs, f"{page.name}: {target} has no heading {anchor}"


def constants(top: pathlib.Path) -> dict[str, int]:
    named = re.compile(r"^pub const (MAX_\w+): \w+ = ([\d_]+);", re.M)
    texts = (path.read_text(encoding="utf-8") for path in top.glob("crates/*/src/*.rt"))
    return {name: int(number) for text in texts for name, number in named.findall(text)}


def lines_in(top: pathlib.Path, folder: str) -> int:
    """Of all crates but those of tests."""
    paths = [path for path in top.glob(f"crates/*/{folder}/**/*") if path.suffix in (".rt", ".antt")]
    return sum(
        len(path.read_bytes().splitlines()) for path in paths if not path.relative_to(top).parts[1].endswith("_tests")
    )


def figures(top: pathlib.Path) -> Iterator[Told]:
    """The kit, the crates, the limits, the refusals, and the numbers of lines."""
    readme, use, tree, costs = (
        (top / name).read_text(encoding="utf-8")
        for name in ("README.md", "docs/USE.md", "docs/ARCHITECTURE.md", "docs/COSTS.md")
    )
    kit = re.search(r"^kit (.+)$", (top / "release/MADE_FROM").read_text(encoding="utf-8"), re.M)
    assert kit is not None, "release/MADE_FROM names no kit"
    yield f"`{kit[1]}`" in readme, f"README.md: the kit is {kit[1]}"
    named = re.findall(r"^(\w+)(?: staticlib)?:(.*)$", (top / "crates.txt").read_text(encoding="utf-8"), re.M)
    ours = {name for name, _ in named}
    shown = set(re.findall(r"^ *(\w+)  ", tree.split("```")[1], re.M))
    yield shown == ours, f"ARCHITECTURE.md: its crates are not those of crates.txt: {sorted(shown ^ ours)}"
    kits = {name for _, below in named for name in below.split()} - ours - {"core", "std_alloc", "std_heap"}
    trusted = readme.split("**Trusted**")[1].split("**Only tested**")[0]
    yield kits == set(QUOTED.findall(trusted)), f"README.md: of the kit's crates {sorted(kits)} are used"
    seconds = set(re.findall(r"\| (\w+) \| \d+(?= \|)", costs.split("| crate | s |")[1].split("\n\n")[0]))
    yield seconds <= ours, f"COSTS.md: no crates: {sorted(seconds - ours)}"
    limits = readme.split("## Limits")[1].split("\n## ")[0]
    for name, number in constants(top).items():
        if name not in ("MAX_NAME",):
            yield f"{number:,}" in limits, f"README.md: the limits do not name {name}, {number:,}"
    refusal = (top / "crates/rule_machine/src/refusal.rt").read_text(encoding="utf-8")
    numbers = dict(re.findall(r"Refusal::(\w+) => (\d+),", refusal))
    for name, text in re.findall(r'Refusal::(\w+) => "([\w-]+)"', refusal):
        yield f"`{numbers[name]} {text}`" in use, f"USE.md: the refusals do not name {numbers[name]} {text}"
    told = re.search(r"`src/` has ([\d,]+) .* \(`specs/`\) have ([\d,]+), proofs \(`proofs/`\) ([\d,]+)", tree)
    assert told is not None, "ARCHITECTURE.md tells no numbers of lines"
    for folder, figure in zip(("src", "specs", "proofs"), told.groups()):
        count, said = lines_in(top, folder), int(figure.replace(",", ""))
        yield abs(count - said) * 20 < count, f"ARCHITECTURE.md: {folder}/ has {count:,} lines, and not some {said:,}"


def help_lines(top: pathlib.Path) -> Iterator[Told]:
    """No line is wider than 80 columns, with clap's own words around it."""
    text = (top / "crates/cli_args/src/help.rt").read_text(encoding="utf-8")
    around = {"RULES": 29, "WORKERS": 13, "ROAM": 13, "TURNS": 16}
    for name, value in re.findall(r'const (\w+): &str =\s+"((?:[^"\\]|\\.)*)";', text):
        short, kind = name.rpartition("_")[::2]
        front = {"HELP": 19 if short == "ENTRY" else 23, "ABOUT": 11 if short else 0, "USAGE": 7}.get(kind, 0)
        widest = (
            max(len(line) for line in value.replace("\\\\", "\\").split("\n"))
            + front
            + around.get(short, 0) * (kind == "HELP")
        )
        yield widest <= 80, f"help.rt: {name} makes a line of {widest} columns"


def quotes(top: pathlib.Path) -> Iterator[Told]:
    """The mistake in README.md and PROMISES.md: its lines are in the linked file, its clause in the
    source."""
    sources = [path.read_text(encoding="utf-8") for path in top.glob("crates/step_log/src/*.rt")]
    for page in (top / "README.md", top / "docs/PROMISES.md"):
        text = page.read_text(encoding="utf-8")
        linked = re.search(r"\]\(([^)]+\.edit)\)", text)
        edit = (page.parent / linked[1]).read_text(encoding="utf-8") if linked else ""
        lines = re.findall(r"^((?:function|old|new): .+|ensures .+)$", text, re.M)
        yield len(lines) >= 3, f"{page.name}: no mistake is quoted"
        for line in lines:
            stands = (
                any(f"    {line}\n" in source for source in sources)
                if line.startswith("ensures")
                else f"{line}\n" in edit
            )
            yield stands, f"{page.name}: this stands nowhere: {line[:60]}"


def points(top: pathlib.Path) -> Iterator[Told]:
    """No point of DECISIONS.md has more than three lines."""
    text = (top / "docs/DECISIONS.md").read_text(encoding="utf-8")
    for point in re.findall(r"^- .*(?:\n  .*)*", text, re.M):
        yield point.count("\n") < 3, f"DECISIONS.md: more than three lines: {point[:60]}"


def one_crate_a_name(top: pathlib.Path) -> Iterator[Told]:
    crates: dict[str, set[str]] = {}
    for path in sorted(top.glob("crates/*/specs/**/*.antt")):
        for name in PUBLIC.findall(path.read_text(encoding="utf-8")):
            crates.setdefault(name, set()).add(path.relative_to(top).parts[1])
    for name, owners in sorted(crates.items()):
        yield len(owners) == 1, f"specs/: {name} is public in {', '.join(sorted(owners))}"


def also_in_coq(top: pathlib.Path) -> Iterator[Told]:
    """The theorems that COMPARED.md names exist, and it has a row for each one of PROMISES.md with a mark."""
    page, promises = top / "independent/COMPARED.md", top / "docs/PROMISES.md"
    proofs = "".join(path.read_text(encoding="utf-8") for path in top.glob("independent/*/*.v"))
    theorems = set(re.findall(r"^Theorem (\w+)", proofs, re.M))
    text = page.read_text(encoding="utf-8").split("## Also in Coq")[1].split("\n## ")[0]
    table = [line for line in text.splitlines() if re.match(r"\| (?!promise \||-)", line)]
    marked = sum(cells[0].startswith("† ") for _, cells in rows(promises))
    yield len(table) == marked > 0, f"{page.name}: {len(table)} rows, and {marked} of {promises.name} have a mark"
    for line in table:
        absent = [name for name in QUOTED.findall(line.split("|")[2]) if name not in theorems]
        yield not absent, f"{page.name}: no theorem {', '.join(absent)}"


OF_PAGES = (also_in_coq, lengths, calls, definitions, figures, help_lines, quotes, points, one_crate_a_name)
