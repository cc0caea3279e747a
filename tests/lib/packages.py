"""Programs and Python libraries that some tests need, and Debian's packages that have them."""

from __future__ import annotations

import glob
import shutil
import sys
from typing import Iterable

# By program, or library of Python.
PACKAGES = {
    "aarch64-linux-gnu-gcc": "gcc-aarch64-linux-gnu libc6-dev-arm64-cross",
    "black": "black",
    "cargo": "cargo",
    "cc": "gcc",
    "chromedriver": "chromium-driver",
    "chromium": "chromium",
    "clang": "clang",
    "clang++": "clang",
    "clang-format": "clang-format",
    "cmake": "cmake",
    "coqc": "coq",
    "distributed": "python3-distributed",
    "dot": "graphviz",
    "gir1.2-webkit2-4.1": "gir1.2-webkit2-4.1",
    "firefox": "firefox-esr",
    "firefox-esr": "firefox-esr",
    "flake8": "flake8",
    "g++": "g++",
    "gcc": "gcc",
    "make": "make",
    "man": "man-db",
    "mandoc": "mandoc",
    "matplotlib": "python3-matplotlib",
    "mypy": "mypy",
    "networkx": "python3-networkx",
    "node": "nodejs",
    "objcopy": "binutils",
    "ocamlopt": "ocaml-nox",
    "pandas": "python3-pandas",
    "pkg-config": "pkg-config",
    "python3-gi": "python3-gi",
    "python3-selenium": "python3-selenium",
    "python3-venv": "python3-venv",
    "qemu-aarch64": "qemu-user",
    "qemu-riscv64": "qemu-user",
    "riscv64-linux-gnu-gcc": "gcc-riscv64-linux-gnu libc6-dev-riscv64-cross",
    "rustc": "rustc",
    "shellcheck": "shellcheck",
    "tqdm": "python3-tqdm",
    "tsc": "node-typescript",
    "wasm-opt": "binaryen",
    "WebKitWebDriver": "webkit2gtk-driver",
    "Xvfb": "xvfb",
}
# Installed by `.ci/tools` for the gate; `tests/client --lacks` prints the libraries.
OF_THE_GATE = (
    *("chromedriver", "chromium", "firefox-esr", "WebKitWebDriver", "Xvfb"),
    *("dot", "gcc", "man", "mandoc", "node", "wasm-opt"),
    *("black", "clang", "clang-format", "flake8", "mypy", "shellcheck", "tsc"),
    *("aarch64-linux-gnu-gcc", "cmake", "g++", "make", "pkg-config", "qemu-aarch64", "riscv64-linux-gnu-gcc"),
    *("coqc", "ocamlopt"),
)
# The gate's needs that are no programs, by package.
FILES = {
    "python3-gi": "/usr/lib/python3/dist-packages/gi/__init__.py",
    "python3-selenium": "/usr/lib/python3/dist-packages/selenium/__init__.py",
    "gir1.2-webkit2-4.1": "/usr/lib/*/girepository-1.0/WebKit2-4.1.typelib",
}


def missing_files(packages: Iterable[str] = FILES) -> list[str]:
    return [package for package in packages if not glob.glob(FILES[package])]


def missing_packages() -> list[str]:
    lacking = [PACKAGES[name] for name in OF_THE_GATE if shutil.which(name) is None]
    return [*(package for it in lacking for package in it.split()), *missing_files()]


if __name__ == "__main__":
    print("".join(f"{name}\n" for name in missing_packages()), end="")
    sys.exit(0)
