"""Runs several scripts of tests, and adds up their counts."""

from __future__ import annotations

import dataclasses
import re
import shutil
import time
from typing import Callable, Optional, Sequence, TextIO

from .packages import PACKAGES
from .side_by_side import PAUSE, Run, signals_noted, stop

ENDED = re.compile(r"^(\d+) passed, (\d+) failed(?:, (\d+) skipped)?$")
# As `node --test` prints them, for people and in the Test Anything Protocol.
ENDED_BY_NODE = re.compile(r"^(?:#|ℹ) (pass|fail|skipped) (\d+)$", re.MULTILINE)
SKIPPED = "skipped: "
LACKED = re.compile(r"\bno ([\w.-]+)")
INDENT = "    "


@dataclasses.dataclass(frozen=True)
class Suite:
    """A script of tests: its subject, its words, and those of the short run, or `None` to leave it out."""

    name: str
    about: str
    words: tuple[str, ...]
    quick: Optional[tuple[str, ...]] = None
    # programs that it cannot run without
    needs: tuple[str, ...] = ()
    # returns what else is missing, or nothing
    lacks: Callable[[], str] = str
    # more words for each of the commands that together are the whole suite; the short run is one command
    parts: tuple[tuple[str, ...], ...] = ((),)
    # begins before others, so that it does not end long after them
    long: bool = False
    # measures time, so no other suite may run meanwhile
    alone: bool = False

    def missing(self) -> str:
        """In one line; empty if the suite can run."""
        absent = [need for need in self.needs if shutil.which(need) is None]
        return ", ".join(f"no {need}" for need in absent) or self.lacks()


@dataclasses.dataclass
class Result:
    passed: int = 0
    failed: int = 0
    skipped: list[str] = dataclasses.field(default_factory=list)
    text: str = ""
    seconds: float = 0.0

    def line(self) -> str:
        return f"{self.passed} passed, {self.failed} failed, {len(self.skipped)} skipped"


def counts_in(text: str) -> Optional[tuple[int, int]]:
    """By the last line of a suite, or the last lines of `node --test`; `None` without such."""
    lines = text.splitlines()
    found = ENDED.match(lines[-1]) if lines else None
    if found:
        return int(found[1]), int(found[2])
    by_node = {word: int(count) for word, count in ENDED_BY_NODE.findall(text)}
    return (by_node["pass"], by_node["fail"]) if {"pass", "fail"} <= by_node.keys() else None


def judged(text: str, status: Optional[int]) -> Result:
    """From a suite's text and exit status, which is `None` if it took too long.

    A suite that fails without a count of failures counts as one failure: it ended by a signal, printed no
    counts, or its status and its counts disagree. One that ends well with only skipped checks is no
    failure."""
    skipped = [line[len(SKIPPED) :] for line in text.splitlines() if line.startswith(SKIPPED)]
    counts = counts_in(text)
    if status is None:
        return Result(0, 1, skipped, f"{text}it took too long\n")
    if counts is None:
        if status == 0 and skipped:
            return Result(0, 0, skipped, text)
        return Result(0, 1, skipped, f"{text}it ended with status {status} and without counts\n")
    passed, failed = counts
    if status == 0 and not failed and (passed or skipped):
        return Result(passed, 0, skipped, text)
    if failed and status:
        return Result(passed, failed, skipped, text)
    if status and not passed and skipped:
        return Result(0, 0, skipped, text)
    return Result(passed, failed or 1, skipped, f"{text}it ended with status {status}\n")


def together(results: Sequence[Result]) -> Result:
    """The result of a suite from those of its parts. What several parts skip counts once."""
    return Result(
        sum(result.passed for result in results),
        sum(result.failed for result in results),
        list(dict.fromkeys(reason for result in results for reason in result.skipped)),
        "".join(result.text for result in results if result.failed),
    )


@dataclasses.dataclass
class Job:
    """A suite with its commands, one a part, and what became of those that have ended."""

    suite: Suite
    commands: list[list[str]]
    results: list[Result] = dataclasses.field(default_factory=list)
    began: Optional[float] = None


class Schedule:
    """Runs suites side by side, at most `places` commands at a time; then, one by one, those that run alone."""

    def __init__(self, jobs: Sequence[Job], places: int, seconds: float, report: Report) -> None:
        self.places, self.seconds, self.report = places, seconds, report
        in_turn = sorted(jobs, key=lambda job: (job.suite.alone, not job.suite.long))
        self.waiting = [(job, words) for job in in_turn for words in job.commands]
        self.running: dict[Run, Job] = {}

    def has_place(self, job: Job) -> bool:
        if job.suite.alone:
            return not self.running
        return len(self.running) < self.places

    def begin(self, job: Job, words: list[str]) -> None:
        if job.began is None:
            job.began = time.monotonic()
            self.report.begin(job.suite.name, job.suite.about, self.seconds)
        try:
            self.running[Run(words, self.seconds)] = job
        except OSError as error:
            self.add(job, judged(f"not run: {error}\n", 1))

    def add(self, job: Job, result: Result) -> None:
        """Notes the result of a part. Reports the suite if it was the last one."""
        job.results.append(result)
        if len(job.results) == len(job.commands):
            whole = together(job.results)
            whole.seconds = time.monotonic() - (job.began or 0)
            self.report.add(job.suite.name, whole)

    def look(self) -> None:
        """Notes which commands have ended."""
        for run, job in list(self.running.items()):
            ended = run.ended()
            if ended is not None:
                del self.running[run]
                self.add(job, judged(ended.text, ended.status))

    def run(self) -> Optional[int]:
        """Returns the signal that broke it off, if one did. Leaves no process either way."""
        with signals_noted() as signals:
            try:
                while (self.waiting or self.running) and not signals:
                    while self.waiting and self.has_place(self.waiting[0][0]):
                        self.begin(*self.waiting.pop(0))
                    self.look()
                    time.sleep(PAUSE)
                if self.running:
                    names = dict.fromkeys(job.suite.name for job in self.running.values())
                    self.report.print(f"broken off: {', '.join(names)}")
            finally:
                stop(self.running)
        return signals[0] if signals else None


def package_of(reason: str) -> Optional[str]:
    """Debian's package for a skipped check, or `None`."""
    return next((PACKAGES[name] for name in LACKED.findall(reason) if name in PACKAGES), None)


class Report:
    def __init__(self, out: TextIO) -> None:
        self.out, self.total = out, Result()

    def print(self, text: str) -> None:
        print(text, file=self.out, flush=True)

    def begin(self, name: str, about: str, seconds: float) -> None:
        """Prints what runs now, and how long it may take."""
        self.print(f"{name}: {about}: at most {seconds:g} s ..")

    def add(self, name: str, result: Result) -> None:
        """Prints its line, its skipped checks, and if it failed its output."""
        self.total.passed += result.passed
        self.total.failed += result.failed
        self.total.skipped += result.skipped
        self.print(f"{name}: {result.line()} ({result.seconds:.1f} s)")
        for reason in result.skipped:
            self.print(f"{SKIPPED}{name}: {reason}")
        if result.failed:
            self.print("".join(f"{INDENT}{line}\n" for line in result.text.splitlines()).rstrip("\n"))

    def end(self) -> int:
        """Prints what to install, and the last line. Returns the exit status."""
        packages = sorted({package for reason in self.total.skipped if (package := package_of(reason))})
        if packages:
            self.print(f"to skip less, on Debian: apt-get install {' '.join(packages)}")
        self.print(self.total.line())
        return 1 if self.total.failed or not self.total.passed else 0
