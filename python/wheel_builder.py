"""Makes the wheel of the package `rudekpi` beside it, with the program and the library of release/ in it.

pip calls it by pyproject.toml. It needs only the standard library, so `pip install ./python` needs no
index: a fresh environment has no setuptools. The same files make the same wheel to the byte. The program is
for Linux on x86-64 with glibc 2.34 or later; elsewhere pip makes the package without it."""

from __future__ import annotations

import base64
import contextlib
import hashlib
import io
import os
import pathlib
import platform
import re
import sys
import tarfile
import zipfile
from typing import Iterator, Mapping, Optional

HERE = pathlib.Path(__file__).resolve().parent
PACKAGE = HERE / "rudekpi"
PROGRAM, LIBRARY = "rudekpi/bin/console", "rudekpi/bin/librudekpi.so"
GLIBC = (2, 34)
WITH_PROGRAM, WITHOUT = "py3-none-manylinux_2_34_x86_64", "py3-none-any"
# the processors for which release/ has the library alone
PROCESSORS = {name: f"py3-none-manylinux_2_34_{name}" for name in ("aarch64", "riscv64")}
METADATA = """\
Metadata-Version: 2.1
Name: rudekpi
Version: {version}
Summary: Keeps a changing network's nodes in pairs, by self-stabilising rules, in which every function is proved
License: MIT
Requires-Python: >=3.9
Classifier: Typing :: Typed
"""
WHEEL = """\
Wheel-Version: 1.0
Generator: rudekpi
Root-Is-Purelib: {is_pure}
Tag: {tag}
"""
ENTRY_POINTS = """\
[console_scripts]
rudekpi = rudekpi.__main__:main
"""


def version() -> str:
    found: list[str] = re.findall(
        r'^__version__ = "([0-9.]+)"$', (PACKAGE / "__init__.py").read_text(encoding="utf-8"), re.MULTILINE
    )
    return found[0]


def beside(name: str) -> pathlib.Path:
    """A file or folder of the repository: beside the package in a source archive, else one folder above."""
    for folder in (HERE, HERE.parent):
        if (folder / name).exists():
            return folder / name
    raise FileNotFoundError(
        f"{name} lies neither in {HERE} nor above it: build in the repository, by pip 21.3 or later"
    )


def page_maker() -> dict[str, pathlib.Path]:
    """The files that make pages of transcripts, by their names in the repository."""
    viewer = beside("viewer")
    shown = sorted(
        path for path in viewer.rglob("*") if path.suffix in (".html", ".css", ".mjs") and "tests" not in path.parts
    )
    others = ["scripts/play", "scripts/page.py", "release/playground.html", "release/MADE_FROM"]
    return {
        **{name: beside(name) for name in others},
        **{f"viewer/{path.relative_to(viewer).as_posix()}": path for path in shown},
    }


def program() -> bytes:
    """The program of release/, whole."""
    found, told = beside("release/console").read_bytes(), beside("release/MADE_FROM").read_text(encoding="utf-8")
    if f"\nprogram {hashlib.sha256(found).hexdigest()}\n" not in told:
        raise ValueError("release/console is not the program of which release/MADE_FROM tells")
    return found


def recorded_library(name: str, record: str) -> dict[str, bytes]:
    """A shared library of release/ by its name in the package. Raises `ValueError` if a record of release/ has
    other bytes of it."""
    found, lines = beside(f"release/{name}").read_bytes(), beside(f"release/{record}").read_text(encoding="utf-8")
    if not re.search(rf"^{re.escape(name)}\.\d+ {hashlib.sha256(found).hexdigest()}$", lines, re.MULTILINE):
        raise ValueError(f"release/{name} is not the library of which release/{record} tells")
    return {LIBRARY: found}


def library() -> dict[str, bytes]:
    """The shared library for x86-64, whole, by its name in the package; nothing where there is none."""
    try:
        return recorded_library("librudekpi.so", "LIBRARY_MADE_FROM")
    except FileNotFoundError:
        return {}


def runs_here() -> bool:
    libc, number = platform.libc_ver()
    is_new = libc == "glibc" and tuple(map(int, number.split(".")[:2])) >= GLIBC
    return platform.system() == "Linux" and platform.machine() == "x86_64" and is_new


def sources() -> dict[str, bytes]:
    """The files of the package, by their names."""
    names = sorted(path for path in PACKAGE.rglob("*") if path.suffix == ".py" or path.name == "py.typed")
    return {path.relative_to(HERE).as_posix(): path.read_bytes() for path in names}


def contents() -> dict[str, bytes]:
    """The files of a wheel, without the program: the package, and in it what makes pages."""
    return {**sources(), **{f"rudekpi/page/{name}": path.read_bytes() for name, path in page_maker().items()}}


def recorded(files: Mapping[str, bytes], record: str) -> bytes:
    """The list of all files with their digests, as a wheel has it."""
    lines = []
    for name, content in files.items():
        digest = base64.urlsafe_b64encode(hashlib.sha256(content).digest()).rstrip(b"=").decode()
        lines.append(f"{name},sha256={digest},{len(content)}\n")
    return "".join([*lines, f"{record},,\n"]).encode()


def write_wheel(folder: str, tag: str, files: dict[str, bytes]) -> str:
    """Writes a wheel of these files and of what tells of them, and gives its name."""
    number, is_pure = version(), str(tag == WITHOUT).lower()
    info = f"rudekpi-{number}.dist-info"
    files[f"{info}/LICENSE"] = beside("LICENSE").read_bytes()
    files[f"{info}/METADATA"] = METADATA.format(version=number).encode()
    files[f"{info}/WHEEL"] = WHEEL.format(is_pure=is_pure, tag=tag).encode()
    files[f"{info}/entry_points.txt"] = ENTRY_POINTS.encode()
    files[f"{info}/RECORD"] = recorded(files, f"{info}/RECORD")
    name = f"rudekpi-{number}-{tag}.whl"
    with zipfile.ZipFile(os.path.join(folder, name), "w") as wheel:
        for path, content in files.items():
            entry = zipfile.ZipInfo(path)
            entry.compress_type, entry.create_system = zipfile.ZIP_DEFLATED, 3
            entry.external_attr = (0o100755 if path == PROGRAM else 0o100644) << 16
            wheel.writestr(entry, content)
    return name


def make_wheel(folder: str, has_program: bool) -> str:
    """Writes the wheel of the package, and gives its name."""
    if has_program:
        return write_wheel(folder, WITH_PROGRAM, {**contents(), PROGRAM: program(), **library()})
    return write_wheel(folder, WITHOUT, contents())


def make_library_wheel(folder: str, processor: str) -> str:
    """Writes the wheel for another processor, with the library and without the program, and gives its name."""
    files = recorded_library(f"{processor}/librudekpi.so", "PROCESSORS_MADE_FROM")
    return write_wheel(folder, PROCESSORS[processor], {**contents(), **files})


@contextlib.contextmanager
def in_one_line() -> Iterator[None]:
    """What is missing, or is not what it should be, ends pip's call with one line."""
    try:
        yield
    except (OSError, ValueError) as error:
        sys.exit(f"rudekpi: {error}")


@in_one_line()
def build_wheel(
    wheel_directory: str,
    config_settings: Optional[Mapping[str, object]] = None,
    metadata_directory: Optional[str] = None,
) -> str:
    has_program = runs_here()
    if not has_program:
        print("rudekpi: made without its program, which wants Linux on x86-64 with glibc 2.34 or later")
    return make_wheel(wheel_directory, has_program)


@in_one_line()
def build_editable(
    wheel_directory: str,
    config_settings: Optional[Mapping[str, object]] = None,
    metadata_directory: Optional[str] = None,
) -> str:
    """Writes a wheel that has Python read the package where it lies, with the repository's own program."""
    return write_wheel(wheel_directory, WITHOUT, {"rudekpi.pth": f"{HERE}\n".encode()})


@in_one_line()
def build_sdist(sdist_directory: str, config_settings: Optional[Mapping[str, object]] = None) -> str:
    """Writes an archive of the sources with the program, to make a wheel of anywhere."""
    top = f"rudekpi-{version()}"
    files = {**sources(), "PKG-INFO": METADATA.format(version=version()).encode()}
    files.update({name: (HERE / name).read_bytes() for name in ("pyproject.toml", "wheel_builder.py")})
    released = [
        "release/console",
        "release/MADE_FROM",
        *(["release/librudekpi.so", "release/LIBRARY_MADE_FROM"] if library() else []),
    ]
    files.update({name: beside(name).read_bytes() for name in ("LICENSE", *released)})
    files.update({name: path.read_bytes() for name, path in page_maker().items()})
    with tarfile.open(os.path.join(sdist_directory, f"{top}.tar.gz"), "w:gz") as archive:
        for name, content in files.items():
            entry = tarfile.TarInfo(f"{top}/{name}")
            entry.size, entry.mode = len(content), 0o755 if name.endswith("/console") else 0o644
            archive.addfile(entry, io.BytesIO(content))
    return f"{top}.tar.gz"
