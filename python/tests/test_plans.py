"""Plans of sweeps in files, and rows that are played again."""

from __future__ import annotations

import json
import os
import pathlib
import subprocess
import sys
import unittest
from dataclasses import replace
from typing import Any, Optional
from unittest import mock

from rudekpi import RudekpiError, audit, graphs, sweep, sweeps
from rudekpi.disturbances import Disturbance
from rudekpi.plans import Plan, disturbance_in, plan_of, play_again, read_plan
from support import TOP, Timed

MADE = {
    "graphs": ["disk:12,0.4,1", "ring:6"],
    "rules": ["hh", "manne"],
    "daemons": ["seeded", "least"],
    "seeds": 2,
    "first_seed": 5,
    "disturbances": [0, 3, {"cut": 1, "add": 1, "every": 2}],
}
TOML = """
graphs = ["ring:6"]
seeds = 1
[[disturbances]]
faults = 3
registers = "pointer"
"""


def rudekpi(*words: str, folder: Optional[str] = None) -> subprocess.CompletedProcess[str]:
    paths = dict(os.environ, PYTHONPATH=os.path.join(TOP, "python"))
    return subprocess.run(
        [sys.executable, "-m", "rudekpi", *words], env=paths, capture_output=True, encoding="utf-8", cwd=folder
    )


class Plans(Timed):
    # no engine is used
    engines = ("program",)

    def test_by_hand(self) -> None:
        found = plan_of(MADE)
        self.assertEqual([graph.title for graph in found.graphs], ["disk:12,0.4,1", "ring:6"])
        hits = (Disturbance(), Disturbance(3), Disturbance(cut=1, add=1, every=2))
        wanted = Plan(found.graphs, ("hh", "manne"), ("seeded", "least"), range(5, 7), hits)
        self.assertEqual(found, wanted)
        usual = plan_of({"graphs": ["ring:3"]})
        self.assertEqual(usual, Plan((graphs.ring(3),), ("manne",), ("seeded",), range(10), (Disturbance(),)))

    def test_what_is_no_plan(self) -> None:
        for given, why in (
            ([], "an object"),
            ({}, "names its graphs"),
            ({"graphs": []}, "one item or more"),
            ({"graphs": [1]}, "a list of words"),
            ({"graphs": ["ring:2"]}, "makes no graph"),
            ({"graphs": ["ring:3"], "graph": 1}, "no key 'graph'"),
            ({"graphs": ["ring:3"], "seeds": True}, "a whole number from 1"),
            ({"graphs": ["ring:3"], "seeds": 0}, "a whole number from 1"),
            ({"graphs": ["ring:3"], "undirected": 1}, "true or false"),
            ({"graphs": ["ring:3"], "disturbances": [True]}, "a number of faults"),
            ({"graphs": ["ring:3"], "disturbances": [{"x": 1}]}, "no key 'x'"),
            ({"graphs": ["ring:3"], "disturbances": [{"cut": "1"}]}, "cut of a disturbance"),
            ({"graphs": ["ring:3"], "disturbances": [{"cut": -1}]}, "is no disturbance"),
        ):
            made: Any = given
            with self.subTest(given):
                self.assertRaisesRegex(ValueError, why, plan_of, made)

    def test_files(self) -> None:
        path = os.path.join(self.folder(), "plan.toml")
        pathlib.Path(path).write_text(TOML, encoding="utf-8")
        if sys.version_info >= (3, 11):
            self.assertEqual(read_plan(path).disturbances, (Disturbance(3, "pointer"),))
        with mock.patch.dict(sys.modules, tomllib=None):
            self.assertRaisesRegex(ValueError, "needs Python 3.11", read_plan, path)
        path = os.path.join(self.folder(), "plan.json")
        for text in ("{", "\x00"):
            pathlib.Path(path).write_text(text, encoding="utf-8")
            self.assertRaisesRegex(ValueError, "plan.json: ", read_plan, path)

    def test_disturbances_of_rows(self) -> None:
        for hit in (
            Disturbance(),
            Disturbance(1, "flag", 1, 1, 1, 1, 1, 0.5, 1),
            Disturbance(9, "pointer", 2, 3, 4, 5, 6, 1e-07, 7),
            Disturbance(2),
        ):
            self.assertEqual(disturbance_in(str(hit)), hit)
        self.assertRaises(ValueError, disturbance_in, "2 faultz")


class Again(Timed):
    def test_each_row(self) -> None:
        plan = plan_of(MADE)
        rows = list(sweep(plan.graphs, plan.rules, plan.daemons, plan.seeds, plan.disturbances, processes=1))
        self.assertEqual(len(rows), 2 * 2 * 2 * 2 * 3)
        for row in rows[::5]:
            played = play_again(row)
            self.assertGreaterEqual(audit(played.transcript).moves, row.moves)
        changed = replace(rows[0], moves=rows[0].moves + 1)
        self.assertRaisesRegex(RudekpiError, f"moves is {rows[0].moves}", play_again, changed)
        own = replace(rows[0], daemon="mine")
        self.assertRaisesRegex(ValueError, "'mine' is none that has a word", play_again, own)

    def test_commands(self) -> None:
        folder = self.folder()
        pathlib.Path(folder, "plan.json").write_text(json.dumps({**MADE, "seeds": 1}), encoding="utf-8")
        done = rudekpi("sweep", "plan.json", "--csv", "rows.csv", "--processes", "1", folder=folder)
        self.assertEqual((done.returncode, done.stdout, done.stderr), (0, "", ""))
        with open(os.path.join(folder, "rows.csv"), newline="", encoding="utf-8") as file:
            rows = sweeps.read_csv(file)
        self.assertEqual(len(rows), 24)
        done = rudekpi("again", "rows.csv", "7", "--output", "run.transcript", folder=folder)
        self.assertEqual((done.returncode, done.stdout, done.stderr), (0, "", ""))
        said = pathlib.Path(folder, "run.transcript").read_text(encoding="utf-8")
        self.assertEqual(said, play_again(rows[6]).transcript)
        self.assertEqual(rudekpi("again", "rows.csv", "7", folder=folder).stdout, said)
        for words, status, why in (
            ("again rows.csv 25", 2, "! there is no row 25: rows.csv has rows 1 to 24\n"),
            ("again rows.csv 0", 2, "! there is no row 0: rows.csv has rows 1 to 24\n"),
            ("again none.csv 1", 3, "! none.csv: No such file or directory\n"),
            ("again plan.json 1", 2, "! plan.json has not the columns"),
            ("sweep none.json", 3, "! none.json: No such file or directory\n"),
            ("sweep plan.json --seeds 3", 2, "! --seeds stands in the plan, and not beside it\n"),
            ("compare plan.json --graph ring:5", 2, "! --graph stands in the plan, and not beside it\n"),
        ):
            done = rudekpi(*words.split(), folder=folder)
            self.assertEqual((done.returncode, done.stdout), (status, ""), done.stderr)
            self.assertTrue(done.stderr.startswith(why), done.stderr)

    def test_a_sweep_goes_on(self) -> None:
        folder = self.folder()
        path = pathlib.Path(folder, "rows.csv")
        words = "sweep --graph ring:5 --seeds 6 --processes 1 --csv rows.csv --resume".split()
        self.assertEqual(rudekpi(*words, folder=folder).returncode, 0)
        whole = path.read_bytes()
        lines = whole.splitlines(keepends=True)
        self.assertEqual(len(lines), 7)
        # three rows, and the fourth is cut in the middle
        path.write_bytes(b"".join(lines[:4]) + lines[4][:9])
        done = rudekpi(*words, folder=folder)
        self.assertEqual((done.returncode, done.stdout, done.stderr), (0, "", ""))
        made = path.read_bytes().splitlines(keepends=True)
        self.assertEqual(made[:4], lines[:4], "as they were")
        seeds = [line.split(b",")[5] for line in made[1:]]
        self.assertEqual(sorted(seeds), [b"0", b"1", b"2", b"3", b"4", b"5"])
        before = path.read_bytes()
        self.assertEqual(rudekpi(*words, folder=folder).returncode, 0)
        self.assertEqual(path.read_bytes(), before, "nothing is left to play")
        done = rudekpi(*words[:-3], "--resume", folder=folder)
        self.assertEqual((done.returncode, done.stderr), (2, "! --resume needs a file of rows: --csv FILE\n"))
        path.write_text("a,b\n1,2\n", encoding="utf-8")
        done = rudekpi(*words, folder=folder)
        self.assertEqual((done.returncode, path.read_text(encoding="utf-8")), (2, "a,b\n1,2\n"))
        self.assertIn("! rows.csv has not the columns", done.stderr)


if __name__ == "__main__":
    unittest.main()
