"""The cases of tests/*.cases through the client, which reads each reply and spells it again."""

from __future__ import annotations

import dataclasses
import importlib.machinery
import importlib.util
import os
import pathlib
import re
import types
import unittest
from typing import TYPE_CHECKING, Callable, Iterable, Optional, Sequence

from rudekpi import Damaged, Network, Turns, audit, epochs
from rudekpi.audits import HEAD
from rudekpi.replies import Name
from support import TOP, Timed, play, spelled, told

if TYPE_CHECKING:
    from lib.case_files import Case


def case_files() -> types.ModuleType:
    loader = importlib.machinery.SourceFileLoader("case_files", os.path.join(TOP, "tests", "run"))
    found = importlib.util.spec_from_loader("case_files", loader)
    assert found is not None
    made = importlib.util.module_from_spec(found)
    loader.exec_module(made)
    return made


def cases_of(name: str, word: str) -> list[Case]:
    """Those for this command whose whole output is given."""
    found = case_files().read_cases(pathlib.Path(TOP, "tests", name))
    found = [case for case in found if not case.table and case.words[0] == word.encode()]
    return [case for case in found if not case.broken and case.out.is_exact()]


def text_of(blocks: Iterable[tuple[int, bytes]]) -> str:
    return b"".join(block * times for times, block in blocks).decode()


def entries_of(transcript: str) -> list[tuple[str, str]]:
    """The events and replies below a header; a base's lines are the reply to `checkpoint`."""
    entries: list[tuple[str, str]] = []
    for line in transcript.splitlines()[1:]:
        if line.startswith("base "):
            entries.append(("checkpoint", line))
        elif line.startswith(("node ", "edge ")):
            entries[-1] = ("checkpoint", entries[-1][1] + "\n" + line)
        elif not line.startswith("matching2 "):
            event, said = line.split(" ", 1)[1].split(" = ")
            entries.append((event, said))
    return entries


class Rows(Timed):
    def setUp(self) -> None:
        super().setUp()
        worked, turns, joins = (cases_of(f"{name}.cases", "run") for name in ("worked_examples", "turns", "joins"))
        self.cases = [case for case in worked + turns + joins if case.status == 0]
        written = pathlib.Path(TOP, "tests", "worked_examples.cases").read_text(encoding="utf-8").count("\ncase ")
        self.assertEqual(len([case for case in worked if case.status == 0]), written, "each worked example is played")
        self.assertGreater(len(turns), 5)
        self.assertGreater(len([case for case in joins if case.status == 0]), 5)

    def run_of(self, case: Case) -> tuple[str, int, Optional[int], list[str], str]:
        assert case.words is not None
        _, _, rules, _, nodes, *rest = (word.decode() for word in case.words)
        present = int(rest[1]) if rest else None
        return rules, int(nodes), present, text_of(case.blocks).splitlines(), text_of(case.out.blocks)

    def expect(
        self, lines: Sequence[str], replies: Iterable[object], wanted: str, number: Callable[[Name], str] = str
    ) -> None:
        left = entries_of(wanted)
        for line, reply in zip(lines, replies):
            if isinstance(reply, Turns):
                for turn in reply:
                    event, said = left.pop(0)
                    self.assertEqual(spelled(turn, number), said if event.startswith("step ") else event, line)
                if len(reply) < int(line.split(" ")[2]):
                    self.assertEqual(reply.status.enabled, 0, line)
            else:
                event, said = left.pop(0)
                self.assertEqual((line, spelled(reply, number)), (event, said))
        self.assertEqual(left, [])

    def test_one_by_one(self) -> None:
        for case in self.cases:
            rules, nodes, present, lines, wanted = self.run_of(case)
            with self.subTest(case.name), Network(rules, nodes, present=present) as net:
                replies = [told(lambda: play(net, line)) for line in lines]
                self.expect(lines, replies, wanted)
                if not any(isinstance(reply, Turns) for reply in replies):
                    self.assertEqual(net.transcript(), wanted)

    def test_in_a_batch(self) -> None:
        for case in self.cases:
            rules, nodes, present, lines, wanted = self.run_of(case)
            with self.subTest(case.name), Network(rules, nodes, present=present) as net:
                with net.batch(raises=False) as batch:
                    pending = [play(batch, line) for line in lines]
                self.expect(lines, [told(each.result) for each in pending], wanted)
                refused = [f"{it.event} = {spelled(it)}" for it in batch.refusals]
                self.assertEqual(
                    refused, [f"{event} = {said}" for event, said in entries_of(wanted) if said.startswith("refused ")]
                )

    def test_with_names_of_the_callers_own(self) -> None:
        played = 0
        for case in self.cases:
            rules, nodes, present, lines, wanted = self.run_of(case)
            names = {number: ("host", number) for number in range(1, nodes + 1)}
            if any(int(number) > nodes for line in lines for number in re.findall(r"(?:(?<= )|(?<=>))[0-9]+", line)):
                continue
            played += 1
            with self.subTest(case.name), Network(rules, names.values(), present=present) as net:
                replies = [told(lambda: play(net, line, lambda text: names[int(text)])) for line in lines]
                self.expect(lines, replies, wanted, lambda name: str(name[1]))
        self.assertGreater(played, 20)

    def test_the_verdicts_of_the_rows(self) -> None:
        for case in self.cases:
            if case.verdict:
                with self.subTest(case.name):
                    found = audit(text_of(case.out.blocks))
                    said = f"accepted: {found.entries} entries, {found.epochs} epochs, {found.moves} moves\n"
                    self.assertEqual(said.encode(), case.verdict)


def by_nodes(text: str, table: str) -> str:
    """The program's table of epochs as the client lists it.

    Under `hh` no bound is above n²/2 + n - 2, except that of an epoch that a base cuts.
    """
    head, *rows = table.splitlines()
    if not table.startswith("start,") or text.split(" ")[1] != "hh":
        return table
    told = []
    for row in rows:
        start, moves, edges, nodes, bound, *rest = row.split(",")
        n = int(nodes)
        most = int(bound) if start == "-" else min(int(bound), max(0, n * n // 2 + n - 2))
        told.append(",".join([start, moves, edges, nodes, f"{most}", *rest]))
    return "\n".join([head, *told]) + "\n"


class Judged(Timed):
    def test_verdicts(self) -> None:
        kinds = set()
        for case in cases_of("verdicts.cases", "audit"):
            wanted = text_of(case.out.blocks)
            kinds.add(wanted.split(" ")[0])
            with self.subTest(case.name):
                try:
                    found = audit(text_of(case.blocks))
                    said = f"accepted: {found.entries} entries, {found.epochs} epochs, {found.moves} moves\n"
                except Damaged as damaged:
                    said = f"line {damaged.line}: {damaged.why}\n"
                self.assertEqual(said, wanted)
        self.assertEqual(kinds, {"accepted:", "line"})

    def test_epochs(self) -> None:
        kinds = set()
        for case in cases_of("epochs.cases", "epochs"):
            text = text_of(case.blocks)
            wanted = by_nodes(text, text_of(case.out.blocks))
            kinds.add(wanted[:5])
            with self.subTest(case.name):
                try:
                    found = epochs(text)
                    # the program lists all but the reach
                    columns = HEAD.strip().split(",")
                    told = [dataclasses.asdict(row) for row in found]
                    rows = [["-" if row[it] is None else str(row[it]) for it in columns] for row in told]
                    said = HEAD + "".join(",".join(row) + "\n" for row in rows)
                except Damaged as damaged:
                    said = f"line {damaged.line}: {damaged.why}\n"
                self.assertEqual(said, wanted)
        self.assertIn("start", kinds)


if __name__ == "__main__":
    unittest.main()
