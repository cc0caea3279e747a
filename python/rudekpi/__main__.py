"""The command line: carries out the bench's commands, and hands the program's own to it."""

from __future__ import annotations

import difflib
import os
import subprocess
import sys
from typing import Iterator, Optional, Sequence

from . import __version__, outputs, streams
from .errors import Ended, RudekpiError
from .program import found_program

COMMANDS = ("sweep", "compare", "worst", "check", "shell", "json", "conform", "explain", "bursts", "again", "page")
OF_PROGRAM = ("run", "audit", "picture", "epochs", "storm")
HELP = """\
usage: rudekpi COMMAND ..

Of the bench:
  sweep, compare, worst, check, shell, json, conform, explain, bursts, again, page
Of the program:
  run, audit, picture, epochs, storm

`rudekpi COMMAND --help` explains a command; `rudekpi --version` prints the
version. To begin: `rudekpi compare --graph ring:20 --seeds 5`.
"""
FAILED, BAD_WORDS, NO_PROGRAM, NO_MEMORY, INTERRUPTED = 1, 2, 3, 4, 130


def handed_on(words: Sequence[str]) -> int:
    """Becomes the program with these words; if impossible, runs it and returns its exit status."""
    program = found_program()
    if os.name == "posix":
        sys.stdout.flush()
        try:
            os.execvp(program, [program, *words])
        except OSError as error:
            raise OSError(error.errno, error.strerror, program) from None
    return subprocess.run([program, *words]).returncode


def files_read(words: Sequence[str]) -> Iterator[str]:
    """The files that the program reads: its words without options, and that of `--from`."""
    rest = iter(words)
    for word in rest:
        if not word.startswith("--"):
            yield word
            continue
        name, has_value, value = word.partition("=")
        if not has_value:
            value = next(rest, "")
        if name == "--from":
            yield value


def told(text: object, status: int) -> int:
    print(f"! {text}", file=sys.stderr)
    return status


def fault_of(error: OSError) -> str:
    return f"{error.filename}: {error.strerror}" if error.filename and error.strerror else error.strerror or str(error)


def done(words: Sequence[str]) -> int:
    """Carries out a command of the bench; returns the exit status."""
    from . import commands

    try:
        status = commands.run(words)
        sys.stdout.flush()
        return status
    except (RudekpiError, ValueError, ImportError) as error:
        if isinstance(error, MemoryError):
            raise
        return told(error, BAD_WORDS if isinstance(error, ValueError) else FAILED)
    except RecursionError:
        return told("what was read is nested too deeply", BAD_WORDS)


def begun(words: Sequence[str]) -> int:
    """Carries out at least one word; returns the exit status."""
    word, rest = words[0], words[1:]
    if word == "--version":
        print(f"rudekpi {__version__}", flush=True)
        return 0
    if word in ("--help", "-h", "help"):
        if word == "help" and rest:
            return begun([*rest, "--help"])
        print(HELP, flush=True)
        return handed_on(words)
    if word in COMMANDS or (word == "picture" and any(it.partition("=")[0] == "--names" for it in rest)):
        return done(words)
    if word in OF_PROGRAM:
        try:
            outputs.refuse_clashes([], ["-", *files_read(rest)])
        except ValueError as error:
            return told(error, BAD_WORDS)
        return handed_on(words)
    near = difflib.get_close_matches(word, [*COMMANDS, *OF_PROGRAM], 1)
    hint = f"{near[0]!r} may be meant" if near else f"they are {', '.join([*COMMANDS, *OF_PROGRAM])}"
    return told(f"rudekpi has no command {word!r}: {hint}", BAD_WORDS)


def main(words: Optional[Sequence[str]] = None) -> int:
    if words is None:
        streams.prepare()
    words = list(sys.argv[1:] if words is None else words)
    if not words:
        print(HELP, end="", file=sys.stderr)
        return BAD_WORDS
    try:
        try:
            return begun(words)
        except SystemExit as ended:
            sys.stdout.flush()
            return ended.code if isinstance(ended.code, int) else BAD_WORDS
    except MemoryError as error:
        return told("out of memory" if not str(error) else f"out of memory: {error}", NO_MEMORY)
    except Ended as ended:
        return told(ended, NO_PROGRAM)
    except KeyboardInterrupt:
        return told("cut short", INTERRUPTED)
    except OSError as error:
        streams.let_go()
        return told(fault_of(error), NO_PROGRAM)


if __name__ == "__main__":
    sys.exit(main())
