"""Finds a crate's functions, by the layout of rt fmt, and makes the crate without the bodies of most."""

from __future__ import annotations

import os
import re
from typing import Collection, Mapping, Optional

HEAD = re.compile(r'( *)(?:pub(?:\([^)]*\))? )?(?:const )?(?:extern "C" )?fn (\w+)')
CYCLE = re.compile(r" *#\[cycle\((\w+)\)\]$")
TYPE = re.compile(r"(?m)^(?:pub(?:\([^)]*\))? )?(?:struct|enum) (\w+)")
HOLDER = re.compile(r"(?:impl\b|(?:pub(?:\([^)]*\))? )?trait )")
LEFT_OUT = "unreachable!()"


class Function:
    """A function with a body: its path below the crate as the prover names it, its file and line, the
    lines of its body from `first` to before `end`, and its declared cycle of calls, after its module."""

    def __init__(self, path: str, file: str, line: int, first: int, end: int, cycle: Optional[str]) -> None:
        self.path, self.file, self.line, self.first, self.end, self.cycle = path, file, line, first, end, cycle


def sources_of(folder: str) -> dict[str, str]:
    texts = {}
    for at, _, names in os.walk(f"{folder}/src"):
        for name in sorted(names):
            if name.endswith(".rt"):
                with open(f"{at}/{name}", encoding="utf-8") as file:
                    texts[os.path.relpath(f"{at}/{name}", folder)] = file.read()
    return texts


def module_of(file: str) -> str:
    """The module of a file below src/, '' for the crate's root."""
    module = file.removeprefix("src/").removesuffix(".rt").replace("/", "::")
    return "" if module in ("lib", "main") else module


def joined(*parts: str) -> str:
    return "::".join(it for it in parts if it)


def words_in(text: str) -> list[str]:
    return [it[0].upper() + it[1:] for it in re.findall(r"[A-Za-z]\w*", re.sub(r"'\w+", "", text))]


def without_parameters(head: str) -> str:
    text, depth = head.removeprefix("impl"), 0
    for at, sign in enumerate(text):
        depth += (sign == "<") - (sign == ">")
        if not depth:
            return text[at + (sign == ">") :].strip()
    return text


def holder_of(head: str, module: str, modules: Mapping[str, str]) -> str:
    """The path of the members of an `impl` or a trait: a type's own functions have the type's path, a
    trait's for a type the module of the `impl`, under both names; the type's arguments belong to its name if
    the `impl` has no parameters."""
    if not head.startswith("impl"):
        return joined(module, re.findall(r"trait (\w+)", head)[0])
    what = re.split(r" where\b| \{$", without_parameters(head))[0]
    trait, _, owner = what.rpartition(" for ")
    if owner.startswith("("):
        words = words_in(owner)
        name = f"Tuple{len(words)}{''.join(words)}"
    else:
        plain, _, arguments = owner.partition("<")
        name = words_in(plain)[-1]
        if trait and head.startswith("impl "):
            name += "".join(words_in(arguments))
    if not trait:
        return joined(modules.get(name, module), name)
    own, _, parameters = trait.partition("<")
    return joined(module, name + words_in(own)[-1] + "".join(words_in(parameters)))


def body_of(lines: list[str], at: int, indent: str) -> Optional[tuple[int, int]]:
    """The lines of the body of the function whose head begins in a line; None without a body, or for one
    of one line."""
    for first in range(at, len(lines)):
        line = lines[first]
        ends_its_head = first == at or line.startswith(f"{indent})")
        if line == f"{indent}{{" or (ends_its_head and line.endswith("{")):
            return first + 1, lines.index(f"{indent}}}", first + 1)
        if not line.strip() or line.endswith(";") or (ends_its_head and line.endswith("}")):
            return None
    return None


def functions_of_file(text: str, file: str, modules: Mapping[str, str]) -> list[Function]:
    lines, holder, cycle = text.split("\n"), "", None
    found: list[Function] = []
    for at, line in enumerate(lines):
        if found and at <= found[-1].end:
            continue
        head, named = HEAD.match(line), CYCLE.match(line)
        if HOLDER.match(line):
            whole = at + next((k for k, it in enumerate(lines[at:]) if it.endswith("{")), 0)
            holder = holder_of(" ".join(it.strip() for it in lines[at : whole + 1]), module_of(file), modules)
        elif line == "}":
            holder = ""
        elif named:
            cycle = joined(module_of(file), f"+{named[1]}")
        elif head and (holder or not head[1]):
            body = body_of(lines, at, head[1])
            if body:
                place = holder if head[1] else module_of(file)
                found.append(Function(joined(place, head[2]), file, at, *body, cycle))
            cycle = None
    return found


def functions_of(texts: Mapping[str, str]) -> list[Function]:
    """Except those of modules of tests."""
    modules = {name: module_of(file) for file, text in texts.items() for name in TYPE.findall(text)}
    return [it for file, text in texts.items() for it in functions_of_file(text, file, modules)]


def without_bodies(texts: Mapping[str, str], kept: Collection[str]) -> tuple[dict[str, str], list[str]]:
    """The texts with `unreachable!()` as body of each function, except those kept and those in a cycle of
    calls with a kept one; and the paths of the changed functions, and of their cycles. Callers rely only
    on the lines above the body."""
    functions = functions_of(texts)
    cycles = {it.cycle for it in functions if it.path in kept and it.cycle}
    left_out = [it for it in functions if it.path not in kept and it.cycle not in cycles]
    lines = {file: text.split("\n") for file, text in texts.items()}
    for it in sorted(left_out, key=lambda it: -it.first):
        own = lines[it.file]
        own[it.first : it.end] = [" " * (len(own[it.end]) + 3) + LEFT_OUT]
        if it.cycle:
            del own[next(at for at in range(it.line - 1, -1, -1) if CYCLE.match(own[at]))]
    paths = {it.path for it in left_out} | {it.cycle for it in left_out if it.cycle}
    return {file: "\n".join(its) for file, its in lines.items()}, sorted(paths)
