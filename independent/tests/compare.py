#!/usr/bin/env python3
"""Compares audit2 and run2 with the program, and with answers that were found by hand.

usage: independent/tests/compare.py [--program PATH] [--scripts N] [--seed N]

- rows.txt: worked transcripts, for both auditors;
- tests/*.cases of the repository: each audit, and each run of a script whose words run2 has;
- the transcripts of N random scripts, 200 without --scripts, and one damaged copy of each: both auditors
  must agree. Half of the damage mostly keeps the form of a line;
- N/2 random scripts: run2 must write the program's bytes;
- every network of up to three names, in every state, under every edit, fault and choice of up to two items.

Without --program: CONSOLE, or else what ./console runs. Texts that programs judge differently are kept in
out/different. The last line is `N passed, N failed, N skipped`; the exit status is 0 if some passed and none
failed, 2 without the programs, else 1.
"""

from __future__ import annotations

import argparse
import os
import pathlib
import re
import subprocess
import sys
from typing import Iterator, Optional

sys.dont_write_bytecode = True
HERE = pathlib.Path(__file__).resolve().parent
CASES = HERE.parent.parent / "tests"
sys.path[:0] = [str(CASES), str(HERE)]
from lib import case_files, places, tally  # noqa: E402
from scripts import AUDIT2, RUN2, called  # noqa: E402

RUN = re.compile(rb"run --rules (hh|manne) --nodes (\d+)(?: --present (\d+))?")
TURNS = re.compile(rb"^(?:drive|scramble) ", re.M)
# A longer text is left out: audit2 takes it, but not within seconds.
MOST_BYTES = 1_000_000
# The summary of engines.py, differ.py and small_networks.py.
SUMMARY = re.compile(r": (\d+) (?:texts|runs)\b.*?, (\d+) differ\b")


def knows_turns() -> bool:
    return called([RUN2, "hh", "0"], b"drive 0 0\n")[0] == 0


def agrees(wanted: case_files.Wanted, came: bytes) -> bool:
    """Whether an output is what a case expects."""
    if wanted.is_exact():
        return came == wanted.text()
    lines = wanted.lines < 0 or came.count(b"\n") == wanted.lines
    return lines and came.endswith(wanted.ends) and all(part in came for part in wanted.parts)


def words_of(case: case_files.Case, turns: bool) -> Optional[list[str]]:
    """The words of audit2 or run2 for a case, or `None` if neither does this."""
    size = sum(times * len(block) for times, block in case.blocks + case.out.blocks)
    if case.broken or case.words is None or size > MOST_BYTES:
        return None
    if case.words == [b"audit"]:
        return [AUDIT2]
    run = RUN.fullmatch(b" ".join(case.words))
    if run is None or (not turns and TURNS.search(b"".join(block for _, block in case.blocks))):
        return None
    return [RUN2, *(word.decode() for word in run.groups() if word is not None)]


def runs() -> Iterator[case_files.Case]:
    for path in sorted(CASES.glob("*.cases")):
        for case in case_files.read_cases(path):
            yield from case_files.runs_of(case)


def by_cases(counts: tally.Tally) -> None:
    turns, done = knows_turns(), 0
    for case in runs():
        words = words_of(case, turns)
        if words is not None:
            text = b"".join(block * times for times, block in case.blocks)
            status, out, _ = called(words, text)
            good = status == case.status and agrees(case.out, out)
            counts.require(f"{case.file}:{case.line}: {case.name}", good, f"{status} {tally.shown(out)}")
            done += 1
    counts.print(f"cases: {done} runs and audits")


def rows() -> Iterator[tuple[str, bytes]]:
    """What is said of a transcript, or how that begins; and the transcript."""
    text = (HERE / "rows.txt").read_text(encoding="ascii")
    for row in text.rstrip("\n").split("\n\n")[1:]:
        said, *lines = row.split("\n")
        yield said, "".join(line[2:] + "\n" for line in lines).encode()


def by_rows(counts: tally.Tally, program: str) -> None:
    for said, text in rows():
        for words in ([AUDIT2], [program, "audit"]):
            came = called(words, text)[1].decode().strip()
            good = came == said or (said == "accepted" and came.startswith("accepted: "))
            counts.require(f"rows.txt: {words[0]}", good, f"{came}, and not {said}, of {text.decode()}")


def by_script(counts: tally.Tally, program: str, *words: str) -> None:
    """Counts what another of these scripts compares."""
    environment = {**os.environ, "CONSOLE": program, "AUDIT2": AUDIT2, "RUN2": RUN2}
    command = [sys.executable, str(HERE / words[0]), *words[1:]]
    done = subprocess.run(command, env=environment, stdout=subprocess.PIPE, stderr=subprocess.STDOUT, encoding="utf-8")
    counts.print(done.stdout.rstrip("\n"))
    found = SUMMARY.search(done.stdout)
    texts, differ = (int(found[1]), int(found[2])) if found else (0, 0)
    counts.passed += texts - differ
    counts.failed += differ
    if done.returncode and not differ or not texts:
        counts.fail(words[0], f"it ended with status {done.returncode}")


def main() -> int:
    parser = argparse.ArgumentParser(description=__doc__, usage=argparse.SUPPRESS)
    parser.formatter_class = argparse.RawDescriptionHelpFormatter
    parser.add_argument("--program", metavar="PATH", help="the program to compare with")
    parser.add_argument("--scripts", type=int, default=200, metavar="N", help="how many random scripts")
    parser.add_argument("--seed", type=int, default=1, metavar="N", help="of the random scripts")
    given = parser.parse_args()
    try:
        program = str(places.program_of(given.program or os.environ.get("CONSOLE")))
        for path in (AUDIT2, RUN2):
            places.program_at(path)
    except places.Missing as missing:
        print(f"compare.py: {missing}", file=sys.stderr)
        return 2
    counts, half = tally.Tally(), (given.scripts + 1) // 2
    by_rows(counts, program)
    by_cases(counts)
    by_script(counts, program, "engines.py", str(given.seed), str(half))
    by_script(counts, program, "differ.py", str(given.seed), str(half), "1")
    by_script(counts, program, "differ.py", str(given.seed + 1), str(half), "1", "near")
    by_script(counts, program, "small_networks.py")
    return counts.end()


if __name__ == "__main__":
    sys.exit(main())
