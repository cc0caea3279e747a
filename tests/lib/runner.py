"""Runs a script's tests: its words, each check counted, and one last line."""

from __future__ import annotations

import argparse
import fnmatch
import os
import sys
import traceback
import types
import unittest
from typing import Any, Callable, Iterable, Iterator, Optional, Sequence, Tuple, Type, Union

from . import places
from .tally import Tally

ExcInfo = Union[Tuple[Type[BaseException], BaseException, types.TracebackType], Tuple[None, None, None]]
# shared by all tests of a run
TALLY = Tally()


class Checks(unittest.TestCase):
    """Counts its checks one by one; a failed one is printed, and the test goes on.

    `given` has the words of the command line, `tally` the counts. Such a test without a check has failed; one
    of `unittest.TestCase` alone counts as one check.
    """

    given = argparse.Namespace()
    tally = TALLY

    def expect(self, name: str, came: object, wanted: object) -> bool:
        return self.tally.expect(name, came, wanted)

    def require(self, name: str, holds: object, told: object = "it does not hold") -> bool:
        return self.tally.require(name, holds, told)


class Counting(unittest.TestResult):
    """Reports results to a tally. A test with several wrong subtests counts as one that failed."""

    def __init__(self, tally: Tally) -> None:
        super().__init__()
        self.tally, self.before, self.wrong = tally, (0, 0, 0), False

    def counts(self) -> Tuple[int, int, int]:
        return self.tally.passed, self.tally.failed, self.tally.skipped

    def startTest(self, test: unittest.TestCase) -> None:
        super().startTest(test)
        self.before, self.wrong = self.counts(), False

    def stopTest(self, test: unittest.TestCase) -> None:
        super().stopTest(test)
        if not self.wrong and self.counts() == self.before:
            if isinstance(test, Checks):
                self.note(test, "it made no check")
            else:
                self.tally.passed += 1
        # no test follows: the beginning or the end of a class
        self.wrong = False

    def note(self, test: unittest.TestCase, told: str) -> None:
        if self.wrong:
            self.tally.failed -= 1
        self.wrong = True
        self.tally.fail(name_of(test), told)

    def addError(self, test: unittest.TestCase, err: ExcInfo) -> None:
        self.note(test, "".join(traceback.format_exception(*err)))

    def addFailure(self, test: unittest.TestCase, err: ExcInfo) -> None:
        self.note(test, "".join(traceback.format_exception(*err)))

    def addSubTest(self, test: unittest.TestCase, subtest: unittest.TestCase, err: Optional[ExcInfo]) -> None:
        if err is not None:
            self.note(subtest, "".join(traceback.format_exception(*err)))

    def addSkip(self, test: unittest.TestCase, reason: str) -> None:
        self.tally.skip(name_of(test), reason)

    def addUnexpectedSuccess(self, test: unittest.TestCase) -> None:
        self.note(test, "it was to fail")


def tests_of(cases: Iterable[Type[unittest.TestCase]]) -> Iterator[unittest.TestCase]:
    for case in cases:
        yield from (case(name) for name in vars(case) if name.startswith("test_"))


def name_of(test: unittest.TestCase) -> str:
    """Without the script's name; or the class whose beginning failed or skipped its tests."""
    name = test.id()
    if name.startswith("setUpClass (") and name.endswith(")"):
        name = name[len("setUpClass (") : -1]
    return name.removeprefix("__main__.")


def fits(test: unittest.TestCase, names: Sequence[str]) -> bool:
    """A name is a part of the test's, or a pattern. No names fit all."""
    own = name_of(test)
    return not names or any(name in own or fnmatch.fnmatchcase(own.rsplit(".", 1)[-1], name) for name in names)


def run_tests(tests: Iterable[unittest.TestCase], tally: Tally = TALLY) -> Tally:
    unittest.TestSuite(tests).run(Counting(tally))
    return tally


def parser_of(doc: str) -> argparse.ArgumentParser:
    """Its help is a script's own docstring, with the usage in the second paragraph."""
    name = f"tests/{os.path.basename(sys.argv[0])}"
    parser = argparse.ArgumentParser(allow_abbrev=False, prog=name, description=doc, usage=argparse.SUPPRESS)
    parser.formatter_class = argparse.RawDescriptionHelpFormatter
    usage = doc.split("\n\n")[1].removeprefix("usage: ") if "\n\nusage: " in doc else name

    def refuse(why: str) -> None:
        parser.exit(2, f"usage: {usage}\n{name}: {why}\n")

    parser.error = refuse  # type: ignore[assignment]
    return parser


def program_option(parser: argparse.ArgumentParser) -> None:
    parser.add_argument("--program", metavar="PATH", help="the program that is tested")


def names_option(parser: argparse.ArgumentParser) -> None:
    parser.add_argument("--list", action="store_true", help="print the names of the tests")
    parser.add_argument("names", nargs="*", metavar="NAME", help="a part of a test's name, or a pattern")


def stop(why: object) -> int:
    """Returns the exit status for wrong words or a missing program."""
    print(f"tests/{os.path.basename(sys.argv[0])}: {why}", file=sys.stderr)
    return 2


Options = Callable[[argparse.ArgumentParser], Any]


def main(doc: str, cases: Sequence[Type[unittest.TestCase]], *options: Options) -> int:
    """Runs the tests chosen by the words, and returns the exit status.

    0: some checks passed and none failed; 1: one failed, or none passed; 2: wrong words, or no program at the
    path."""
    parser = parser_of(doc)
    for option in options:
        option(parser)
    names_option(parser)
    given = parser.parse_args()
    tests = [test for test in tests_of(cases) if fits(test, given.names)]
    if given.list:
        print("".join(f"{name_of(test)}\n" for test in tests), end="")
        return 0
    if not tests:
        return stop(f"no test {' or '.join(given.names)}")
    try:
        if hasattr(given, "program"):
            given.program = str(places.program_of(given.program))
        if hasattr(given, "library"):
            given.library = str(places.library_in(given.library).parent)
        Checks.given = given
        return run_tests(tests).end()
    except places.Missing as missing:
        return stop(missing)
