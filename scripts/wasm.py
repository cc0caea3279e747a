"""The engine as a WebAssembly module: the LLVM module of the proved code, compiled and lowered
to a 32-bit memory.

The kit compiles no heap for that target, so this way is the repository's own: its result is tested, and not
proved. The kit's build calls a compiler of its toolchain folder. Given a compiler that keeps its input, it
leaves the LLVM module of the functions just proved. That is converted to the other target and linked with
viewer/wasm/heap.c into the wide module: its memory has 64-bit addresses, like the layouts of the LLVM module.
Debian's binaryen lowers it for browsers without such a memory: each address is cut to 32 bits at reads and
writes, and all calls keep their types.
"""

from __future__ import annotations

import pathlib
import re
import shutil
import subprocess
import tempfile
import types
from typing import Any, Optional

TOP = pathlib.Path(__file__).resolve().parent.parent
CRATE = TOP / "crates" / "rudekpi_c"
BUILT = CRATE / "out" / "librudekpi_c.a"
KEPT = CRATE / "out" / "librudekpi_c.bc"
HEAP = TOP / "viewer" / "wasm" / "heap.c"
HEADER = TOP / "include" / "rudekpi.h"
TARGET = "wasm64-unknown-unknown"
LAYOUT = "e-m:e-p:64:64-p10:8:8-p20:8:8-i64:64-i128:128-n32:64-S128-ni:1:10:20"
# processor attributes that the other target does not know
PROCESSOR = re.compile(r' "(?:probe-stack|stack-probe-size|target-cpu|target-features|tune-cpu)"(?:="[^"]*")?')
CODE = [f"--target={TARGET}", "-mcpu=lime1", "-O3", "-no-canonical-prefixes", "--no-default-config"]
WIDE = ["-mllvm", "-expand-div-rem-bits=64", "-mllvm", "-expand-fp-convert-bits=64", "-mllvm", "-trap-unreachable"]
LINK = [
    "-mwasm64",
    "--no-entry",
    "--gc-sections",
    "--stack-first",
    "-z",
    "stack-size=1048576",
    "--strip-all",
    "--threads=1",
]
# all calls of the header, and two of the heap
CALL = re.compile(r"^(?:uint32_t|size_t|void) (rudekpi_\w+)\(", re.MULTILINE)
OF_THE_HEAP = ["rudekpi_room", "rudekpi_give_back"]
LOWERER, PACKAGE = "wasm-opt", "binaryen"
# those of browsers of the last five years; a module that needs more is refused
FEATURES = ["memory64", "bulk-memory", "mutable-globals", "sign-ext", "nontrapping-float-to-int"]
# keeps the LLVM module that it compiles
COMPILER = """#!/bin/sh
last=
for word in "$@"; do
  if [ "$last" = ir ]; then cp "$word" "{kept}"; fi
  last=$word
done
exec "{clang}" "$@"
"""


def run(*words: object, **how: Any) -> subprocess.CompletedProcess[bytes]:
    return subprocess.run([str(word) for word in words], check=True, stdin=subprocess.DEVNULL, **how)


def keeping_toolchain(kit: str, folder: pathlib.Path, kept: pathlib.Path) -> pathlib.Path:
    """The kit's, with a compiler that keeps its input."""
    theirs = pathlib.Path(kit, "toolchain")
    (folder / "bin").mkdir(parents=True)
    (folder / "lib").symlink_to(theirs / "lib")
    for tool in (theirs / "bin").iterdir():
        (folder / "bin" / tool.name).symlink_to(tool.resolve())
    own = folder / "bin" / "clang"
    own.unlink()
    own.write_text(COMPILER.format(kept=kept, clang=theirs / "bin" / "clang"), encoding="utf-8")
    own.chmod(0o755)
    return folder


def is_wanting() -> bool:
    """Whether the library for C or its LLVM module is missing, or older than a possible source."""
    if not BUILT.exists() or not KEPT.exists():
        return True
    parts = [path for part in ("src", "specs", "proofs") for path in TOP.glob(f"crates/*/{part}")]
    found = run(
        "find", TOP / "HANDLES", TOP / "crates.txt", *parts, "-newer", KEPT, "-print", "-quit", stdout=subprocess.PIPE
    )
    return found.stdout != b""


def build(rtlib: types.ModuleType) -> None:
    """Proves and builds the library for C on the libraries as they are, and keeps its LLVM module, if
    either is missing."""
    if not is_wanting():
        return
    crate = next(it for it in rtlib.crates_below(str(TOP)) if it.name == CRATE.name)
    BUILT.parent.mkdir(exist_ok=True)
    with tempfile.TemporaryDirectory() as made:
        fresh = pathlib.Path(made, "fresh.bc")
        toolchain = keeping_toolchain(rtlib.KIT, pathlib.Path(made, "toolchain"), fresh)
        words = [*crate.words(["--jobs", "1"], keeps=False), "--toolchain", toolchain, "--backend", "llvm"]
        run(rtlib.RATTLE, "build", *words, "-o", BUILT, cwd=CRATE, stdout=subprocess.DEVNULL)
        shutil.copyfile(fresh, KEPT)


def turned(text: str, target: str = TARGET, layout: str = LAYOUT) -> str:
    text = re.sub(r'^target datalayout = ".*"$', f'target datalayout = "{layout}"', text, flags=re.MULTILINE)
    text = re.sub(r'^target triple = ".*"$', f'target triple = "{target}"', text, flags=re.MULTILINE)
    return re.sub(r"^attributes #\d+ = \{.*$", lambda line: PROCESSOR.sub("", line[0]), text, flags=re.MULTILINE)


def text_of(rtlib: types.ModuleType) -> str:
    clang = pathlib.Path(rtlib.KIT, "toolchain", "bin", "clang")
    words = ["-S", "-emit-llvm", "-Xclang", "-disable-llvm-passes", "-o", "engine.ll"]
    with tempfile.TemporaryDirectory() as made:
        shutil.copyfile(KEPT, f"{made}/engine.bc")
        run(clang, "-x", "ir", "engine.bc", *words, cwd=made)
        return pathlib.Path(made, "engine.ll").read_text(encoding="utf-8")


def exports() -> list[str]:
    """Those of the header, and those that hand over memory."""
    return [*CALL.findall(HEADER.read_text(encoding="utf-8")), *OF_THE_HEAP]


def wide_module(rtlib: types.ModuleType) -> bytes:
    """The module with a 64-bit memory, made of the kept LLVM module."""
    tools = pathlib.Path(rtlib.KIT, "toolchain", "bin")
    with tempfile.TemporaryDirectory() as made:
        shutil.copyfile(HEAP, f"{made}/heap.c")
        pathlib.Path(made, "engine.ll").write_text(turned(text_of(rtlib)), encoding="utf-8")
        run(tools / "clang", *CODE, *WIDE, "-x", "ir", "-c", "engine.ll", "-o", "engine.o", cwd=made)
        run(tools / "clang", *CODE, "-ffreestanding", "-fno-builtin", "-c", "heap.c", "-o", "heap.o", cwd=made)
        names = [f"--export={name}" for name in exports()]
        run("wasm-ld", *LINK, *names, "engine.o", "heap.o", "-o", "engine.wasm", cwd=made, executable=tools / "clang")
        return pathlib.Path(made, "engine.wasm").read_bytes()


def lowerer() -> Optional[str]:
    """The tool's version; None if it is missing."""
    if shutil.which(LOWERER) is None:
        return None
    return run(LOWERER, "--version", stdout=subprocess.PIPE).stdout.decode().strip()


def lowered(wide: bytes) -> bytes:
    with tempfile.TemporaryDirectory() as made:
        pathlib.Path(made, "wide.wasm").write_bytes(wide)
        words = [f"--enable-{feature}" for feature in FEATURES]
        run(LOWERER, "wide.wasm", *words, "--memory64-lowering", "-o", "engine.wasm", cwd=made)
        return pathlib.Path(made, "engine.wasm").read_bytes()
