"""The page of viewer/ as one file: script, style, engine, and a transcript or none."""

from __future__ import annotations

import base64
import hashlib
import json
import pathlib
import re
from typing import Mapping, Optional

TOP = pathlib.Path(__file__).resolve().parent.parent
VIEWER = TOP / "viewer"
SOURCES = VIEWER / "src"
RELEASED = TOP / "release" / "playground.html"
IMPORT = re.compile(r'^import (\{[^}]*\}) from "(\.{1,2}/[\w/.]+)\.mjs";$', re.MULTILINE)
EXPORT = re.compile(r"^export ((?:const|class|async function|function) (\w+))", re.MULTILINE)
# played without WebAssembly; examples/check has it judged, and tests/pages compares the verdict
RECORDED = TOP / "examples" / "breaks_and_mends.transcript"
RECORDED_VERDICT = "accepted: 382 entries, 341 epochs, 719 moves"
ENGINE = re.compile(r'<script type="application/json" id="engine">"([A-Za-z0-9+/=]+)"</script>')


def named(path: pathlib.Path) -> str:
    return path.resolve().relative_to(SOURCES).as_posix()


def module_order(path: pathlib.Path, seen: set[str]) -> list[tuple[pathlib.Path, str]]:
    """The module and all its imports, each after those that it imports."""
    if named(path) in seen:
        return []
    seen.add(named(path))
    text = path.with_name(f"{path.name}.mjs").read_text(encoding="utf-8")
    below = [module for _, part in IMPORT.findall(text) for module in module_order(path.parent / part, seen)]
    return [*below, (path, text)]


def renamed_imports(path: pathlib.Path, text: str) -> str:
    """The text, which takes its imports from the joined modules."""
    return IMPORT.sub(lambda found: f'const {found[1]} = modules["{named(path.parent / found[2])}"];', text)


def joined_script(top: str, begin: str = "") -> str:
    """The module `top` and its dependencies in one, each in its own function, so that names do not clash;
    before `top` comes `begin`."""
    parts = ["\nconst modules = {};\n"]
    *below, (last, text) = module_order(SOURCES / top, set())
    for path, module in below:
        told = ", ".join(exported for _, exported in EXPORT.findall(module))
        plain = EXPORT.sub(lambda found: found[1], renamed_imports(path, module))
        parts.append(f'modules["{named(path)}"] = (() => {{\n{plain}\nreturn {{ {told} }};\n}})();\n')
    return "\n".join([*parts, begin, renamed_imports(last, text)])


def embedded(value: object) -> str:
    """A value as data of a page: no text in it can end its element or begin another."""
    return json.dumps(value).replace("<", "\\u003c")


def allowed(text: str) -> str:
    """The digest by which a page's policy allows a script or style."""
    return f"'sha256-{base64.b64encode(hashlib.sha256(text.encode()).digest()).decode()}'"


def page_of(transcript: Optional[str], judge: Optional[Mapping[str, object]], engine: Optional[str]) -> str:
    """The page of a transcript with its judge and verdict, or with None and None the playground; `engine`
    is the module as text, or None."""
    template = (VIEWER / "page.html").read_text(encoding="utf-8")
    style = "\n" + "".join((VIEWER / name).read_text(encoding="utf-8") for name in ["page.css", "playground.css"])
    script = joined_script("page")
    # for WebAssembly in the browsers of 2021 and 2022, which do not know 'wasm-unsafe-eval'
    runs = "" if engine is None else " 'unsafe-eval'"
    recorded = None
    if transcript is None:
        judged = {"program": "console", "own": True, "verdict": RECORDED_VERDICT}
        recorded = {"transcript": RECORDED.read_text(encoding="ascii"), "judge": judged}
    parts = {
        "style": style,
        "script": script,
        "policy": f"default-src 'none'; script-src {allowed(script)}{runs}; style-src {allowed(style)}; img-src data:",
        "transcript": embedded(transcript),
        "judge": embedded(judge),
        "engine": embedded(engine),
        "recorded": embedded(recorded),
        # the playground lies in the repository; a transcript's page may lie anywhere
        "project": ' href="../README.md"' if transcript is None else "",
    }
    return re.sub(r"\{\{(\w+)\}\}", lambda place: parts[place.group(1)], template)


def engine_of_release() -> Optional[str]:
    """As text; None if there is none."""
    try:
        found = ENGINE.search(RELEASED.read_text(encoding="utf-8"))
    except OSError:
        return None
    return found[1] if found else None
