"""The files that come with a library for C: its headers, and those that pkg-config and CMake read.

As a script it prints the rudekpi.pc of a library that is installed below the given prefix."""

from __future__ import annotations

import pathlib
import shutil
import sys
from typing import Callable

TOP = pathlib.Path(__file__).resolve().parent.parent
HEADERS = TOP / "include" / "rudekpi.h", TOP / "include" / "rudekpi.hpp"


def version() -> str:
    for line in (TOP / "crates" / "cli_args" / "src" / "command.rt").read_text(encoding="utf-8").splitlines():
        if ".version(" in line:
            return line.split('"')[1]
    return "0"


def shared_name() -> str:
    """The shared library's name and soname: libraries of one major version may replace each other."""
    return f"librudekpi.so.{version().split('.')[0]}"


def text(prefix: str = "${pcfiledir}", include: str = "", libraries: str = "") -> str:
    """The lines of rudekpi.pc, for these folders below the prefix."""
    library = f"${{prefix}}{libraries}"
    lines = [
        f"prefix={prefix}",
        "",
        "Name: rudekpi",
        "Description: a proved engine and auditor for self-stabilising maximal matching",
        f"Version: {version()}",
        f"Cflags: -I${{prefix}}{include}",
        f"Libs: -L{library} -Wl,-rpath,{library} -lrudekpi",
        "",
    ]
    return "\n".join(lines)


def for_cmake() -> str:
    """rudekpi-config.cmake, which finds the files in its own folder or in those of an installation."""
    return f"""# find_package(rudekpi) defines rudekpi::rudekpi, the shared library, and rudekpi::static, the archive.
get_filename_component(_rudekpi_root "${{CMAKE_CURRENT_LIST_DIR}}/../../.." ABSOLUTE)
find_path(_rudekpi_include rudekpi.h NO_DEFAULT_PATH NO_CACHE
  PATHS "${{CMAKE_CURRENT_LIST_DIR}}" "${{_rudekpi_root}}/include")
find_path(_rudekpi_lib librudekpi.a NO_DEFAULT_PATH NO_CACHE
  PATHS "${{CMAKE_CURRENT_LIST_DIR}}" "${{_rudekpi_root}}/lib")
if(NOT _rudekpi_include OR NOT _rudekpi_lib)
  set(rudekpi_FOUND FALSE)
  return()
endif()
if(NOT TARGET rudekpi::rudekpi)
  add_library(rudekpi::rudekpi SHARED IMPORTED)
  set_target_properties(rudekpi::rudekpi PROPERTIES
    IMPORTED_LOCATION "${{_rudekpi_lib}}/{shared_name()}"
    IMPORTED_SONAME {shared_name()}
    INTERFACE_INCLUDE_DIRECTORIES "${{_rudekpi_include}}")
  add_library(rudekpi::static STATIC IMPORTED)
  set_target_properties(rudekpi::static PROPERTIES
    IMPORTED_LOCATION "${{_rudekpi_lib}}/librudekpi.a"
    INTERFACE_INCLUDE_DIRECTORIES "${{_rudekpi_include}}")
endif()
"""


def version_for_cmake() -> str:
    """Another major version is another library."""
    major = version().split(".")[0]
    return f"""set(PACKAGE_VERSION {version()})
if(PACKAGE_FIND_VERSION VERSION_GREATER PACKAGE_VERSION OR
    NOT "${{PACKAGE_FIND_VERSION_MAJOR}}" MATCHES "^({major})?$")
  set(PACKAGE_VERSION_COMPATIBLE FALSE)
else()
  set(PACKAGE_VERSION_COMPATIBLE TRUE)
  if(PACKAGE_FIND_VERSION VERSION_EQUAL PACKAGE_VERSION)
    set(PACKAGE_VERSION_EXACT TRUE)
  endif()
endif()
"""


TEXTS: dict[str, Callable[[], str]] = {
    "rudekpi.pc": text,
    "rudekpi-config.cmake": for_cmake,
    "rudekpi-config-version.cmake": version_for_cmake,
}
# Without the name librudekpi.so of the shared one.
FILES = "librudekpi.a", shared_name(), "rudekpi.h", "rudekpi.hpp", *TEXTS


def link(folder: pathlib.Path) -> None:
    """Copies the shared library to librudekpi.so, for compilers: `rt ci` takes no links."""
    shutil.copyfile(folder / shared_name(), folder / "librudekpi.so")


def put_beside(folder: pathlib.Path) -> None:
    for header in HEADERS:
        shutil.copyfile(header, folder / header.name)
    for name, lines in TEXTS.items():
        (folder / name).write_text(lines(), encoding="utf-8")
    link(folder)


if __name__ == "__main__":
    print(text(sys.argv[1], "/include", "/lib"), end="")
