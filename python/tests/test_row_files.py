"""Files of rows: damaged, of an earlier version, of a changed graph, gone on with, and in the plan's order."""

from __future__ import annotations

import csv
import importlib.util
import io
import os
import pathlib
import re
import subprocess
import sys
import unittest
import unittest.mock
from dataclasses import astuple, replace
from typing import Sequence

from rudekpi import RudekpiError, graphs, maximum_matchings, sweep, sweeps
from rudekpi.plans import disturbance_in, play_again, row_in
from rudekpi.rows import COLUMNS, EARLIER, WITH_MAXIMUM, Row, RowFile, columns_of, read_csv, text_of
from rudekpi.simple_graph import Graph
from support import TOP, Timed

has_networkx = importlib.util.find_spec("networkx") is not None
has_matplotlib = importlib.util.find_spec("matplotlib") is not None
ROW = Row("ring:5", "hh", 5, 5, "least", 0, "start", 4, 4, 2, 0, 2, 2, 0, 10, 15, 2, 0.1, 0, "0" * 16)


class Files(Timed):
    # no engine is used
    engines = ("program",)

    def text(self, rows: Sequence[Row], columns: Sequence[str] = COLUMNS) -> str:
        return text_of(rows, columns)

    def test_rows_are_read_as_they_are_written(self) -> None:
        odd = replace(ROW, graph='a "b", c\nd\udcff', disturbance="1 fault", seconds=1e-07)
        for columns, rows in (
            (COLUMNS, [ROW, odd]),
            (WITH_MAXIMUM, [replace(ROW, maximum=2), replace(odd, maximum=0, changes=None)]),
            (EARLIER, [replace(ROW, changes=None, digest="")]),
        ):
            file = io.StringIO(self.text(rows, columns), newline="")
            self.assertEqual(read_csv(file), rows)
        file = io.StringIO(newline="")
        list(sweeps.write_csv([ROW, odd], file))
        self.assertEqual(file.getvalue(), self.text([ROW, odd]))

    def test_each_cut(self) -> None:
        """However a file is cut, the whole rows are found, and the torn one is told."""
        whole = self.text([ROW, replace(ROW, seed=1)])
        ends = [at + 1 for at, letter in enumerate(whole) if letter == "\n"]
        for size in range(len(whole) + 1):
            lines = whole[:size].splitlines(keepends=True)
            file = RowFile(lines, "rows.csv")
            rows = list(file)
            wanted = sum(end <= size for end in ends[1:])
            self.assertEqual(([it.row.seed for it in rows], bool(file.columns)), ([0, 1][:wanted], size >= ends[0]))
            self.assertEqual([it.end for it in rows], ends[1 : wanted + 1])
            self.assertEqual(file.torn, wanted + 2 if size > ends[0] and size not in ends else 0)

    def test_rows_that_are_none(self) -> None:
        good = self.text([ROW]).splitlines()[1]
        for bad, why in (
            (good.rpartition(",")[0], f"the row has {len(COLUMNS) - 1} fields, and the head {len(COLUMNS)}"),
            (good + ",1", f"the row has {len(COLUMNS) + 1} fields"),
            ("", "the row has 0 fields"),
            (good.replace(",15,", "," + "1" * 6000 + ","), "is no bound of a row"),
            (good.replace(",15,", ",-1,"), "'-1' is no bound of a row"),
            (good.replace(",15,", ",\u0661,"), "is no bound of a row"),
            (good.replace("0.1", "nan"), "'nan' is no seconds of a row"),
            (good.replace("0.1", "1e999"), "'1e999' is no seconds of a row"),
            (good.replace("ring:5", "x" * 131_073), "field larger than field limit"),
            (good.replace("ring:5", '"a"b'), "expected after"),
        ):
            with self.subTest(why), self.assertRaisesRegex(ValueError, f"^rows: line 3: .*{re.escape(why)}"):
                list(RowFile([",".join(COLUMNS) + "\n", good + "\n", bad + "\n", good + "\n"], "rows"))
        self.assertRaisesRegex(ValueError, "rows has not the columns", RowFile, ["a,b\n"], "rows")

    def test_a_quote_that_is_not_closed_loses_no_rows(self) -> None:
        rows = self.text([replace(ROW, graph="a\nb"), ROW, ROW]).replace('b",', "b,")
        with self.assertRaisesRegex(ValueError, "^rows: line 2: unexpected end of data"):
            list(RowFile(rows.splitlines(keepends=True), "rows"))

    def test_a_row_by_its_number(self) -> None:
        lines = self.text([ROW, replace(ROW, seed=1)]).splitlines(keepends=True) + ["torn,"]
        self.assertEqual([row_in(lines, "rows", number).row.seed for number in (1, 2)], [0, 1])
        for given, number, why in (
            (lines, 3, "there is no row 3: rows has rows 1 to 2, and line 4 is torn"),
            (lines[:1], 1, "there is no row 1: rows has no rows"),
            (["graph,ru"], 1, "there is no row 1: rows has no rows"),
            ([lines[0], "x\n", *lines[1:]], 2, "rows: line 2: the row has 1 fields"),
        ):
            self.assertRaisesRegex(ValueError, why, row_in, given, "rows", number)
        # what comes after the row does no harm
        self.assertEqual(row_in([*lines[:2], "x\n"], "rows", 1).row, ROW)

    def test_disturbances(self) -> None:
        self.assertEqual(disturbance_in("nodes walk 1e+16").move, 1e16)
        self.assertEqual(str(disturbance_in("3 faults of flags with any value")), "3 faults of flags with any value")
        for text in ("1" * 6000 + " faults", "nodes walk 1e", "nodes walk 1.2.3", "nodes walk 1e9999"):
            self.assertRaises(ValueError, disturbance_in, text)

    def test_digests(self) -> None:
        ring = graphs.ring(4)
        self.assertRegex(ring.digest, "^[0-9a-f]{16}$")
        same = Graph("another title", (1, 2, 3, 4), ((1, 2), (2, 3), (3, 4), (1, 4)))
        self.assertEqual(same.digest, ring.digest)
        others = [
            Graph("", (1, 2, 3, 4), ((1, 2), (2, 3), (3, 4))),
            Graph("", (1, 2, 3, 4), ((2, 3), (1, 2), (3, 4), (1, 4))),
            Graph("", (2, 1, 3, 4), ((1, 2), (2, 3), (3, 4), (1, 4))),
            Graph("", ("1", 2, 3, 4), (("1", 2), (2, 3), (3, 4), ("1", 4))),
            Graph("", (1, 2, 3, 4, 5), ((1, 2), (2, 3), (3, 4), (1, 4))),
        ]
        self.assertEqual(len({ring.digest, *(graph.digest for graph in others)}), 6)

    @unittest.skipUnless(has_networkx, "no networkx")
    def test_sizes_of_maximum_matchings(self) -> None:
        # a path of four: 2; a triangle with a tail at each corner: 3; a star: 1; two triangles that share a node: 2
        cases: list[tuple[list[tuple[int, int]], int]] = [
            ([], 0),
            ([(1, 2), (2, 3), (3, 4)], 2),
            ([(1, 2), (2, 3), (1, 3), (1, 4), (2, 5), (3, 6)], 3),
            ([(1, 2), (1, 3), (1, 4)], 1),
            ([(1, 2), (2, 3), (1, 3), (3, 4), (4, 5), (3, 5)], 2),
            ([(1, 2), (3, 4), (5, 6), (6, 7)], 3),
        ]
        for edges, size in cases:
            self.assertEqual(maximum_matchings.size_of(edges), size)

    def test_without_networkx(self) -> None:
        with unittest.mock.patch.dict(sys.modules, networkx=None):
            with self.assertRaisesRegex(ImportError, "a maximum matching needs networkx, which is not there"):
                sweep([graphs.ring(5)], maximum=True)


class Sweeps(Timed):
    # each test starts many processes
    seconds = 240

    def setUp(self) -> None:
        super().setUp()
        self.at = pathlib.Path(self.folder())
        (self.at / "g.txt").write_text("1 2\n2 3\n3 4\n", encoding="utf-8")

    def run_in(self, words: str, **more: str) -> subprocess.CompletedProcess[str]:
        environment = dict(os.environ, PYTHONPATH=os.path.join(TOP, "python"), **more)
        command = [sys.executable, "-m", "rudekpi", *words.split(" ")]
        return subprocess.run(command, cwd=self.at, env=environment, capture_output=True, encoding="utf-8")

    def done(self, words: str) -> str:
        done = self.run_in(words)
        self.assertEqual((done.returncode, done.stderr), (0, ""), words)
        return done.stdout

    def refused(self, words: str, why: str, status: int = 2) -> None:
        before = {it.name: it.read_bytes() for it in self.at.iterdir()}
        done = self.run_in(words)
        self.assertEqual((done.returncode, done.stdout), (status, ""), done.stderr)
        self.assertRegex(done.stderr, f"^! {why}")
        self.assertNotIn("Traceback", done.stderr)
        self.assertEqual({it.name: it.read_bytes() for it in self.at.iterdir()}, before)

    def rows(self, name: str = "rows.csv") -> list[list[str]]:
        with open(self.at / name, newline="", encoding="utf-8") as file:
            return list(csv.reader(file))

    def test_two_sweeps_are_the_same_but_for_the_seconds(self) -> None:
        words = "--graph ring:7 --graph g.txt --rules manne,hh --daemon seeded,local --seeds 3 --faults 2,0"
        for name, processes in (("one.csv", 1), ("four.csv", 4)):
            self.run_in(f"sweep {words} --csv {name} --processes {processes}")
        one, four = self.rows("one.csv"), self.rows("four.csv")
        at = COLUMNS.index("seconds")
        self.assertEqual(*([line[:at] + line[at + 1 :] for line in rows] for rows in (one, four)))
        # the order of the words, by hand: graph, rules, daemon, seed, disturbance; no local under hh
        told = [(line[0], line[1], line[4], line[5], line[6]) for line in one[1:]]
        wanted = [
            (graph, rules, daemon, str(seed), hit)
            for graph in ("ring:7", "g.txt")
            for rules, daemons in (("manne", ("seeded", "local")), ("hh", ("seeded",)))
            for daemon in daemons
            for seed in range(3)
            for hit in ("2 faults", "start")
        ]
        self.assertEqual(told, wanted)

    def test_a_sweep_that_went_on_is_in_order_too(self) -> None:
        words = "sweep --graph ring:5 --seeds 6 --processes 1 --csv rows.csv"
        self.done(words)
        whole = self.rows()
        lines = (self.at / "rows.csv").read_bytes().splitlines(keepends=True)
        (self.at / "rows.csv").write_bytes(b"".join([lines[0], lines[6], lines[2]]) + lines[3][:20])
        self.done(f"{words} --resume")
        at = COLUMNS.index("seconds")
        self.assertEqual([line[:at] for line in self.rows()], [line[:at] for line in whole])
        # a torn head begins anew
        (self.at / "rows.csv").write_bytes(lines[0][:30])
        self.done(f"{words} --resume")
        self.assertEqual([line[:at] for line in self.rows()], [line[:at] for line in whole])

    def test_rows_that_are_not_whole(self) -> None:
        words = "sweep --graph ring:5 --seeds 3 --processes 1 --csv rows.csv"
        self.done(words)
        lines = (self.at / "rows.csv").read_bytes().splitlines(keepends=True)
        for bad, why in (
            (b"ring:5,manne\r\n", "the row has 2 fields"),
            (lines[2].replace(b"seeded", b"x" * 131_073), "field larger than field limit"),
            (lines[2].replace(b",5,5,", b"," + b"7" * 6000 + b",5,"), "'7+' is no n of a row"),
        ):
            (self.at / "rows.csv").write_bytes(b"".join([*lines[:2], bad, *lines[2:]]))
            self.refused("again rows.csv 2", f"rows.csv: line 3: {why}")
            self.refused(f"{words} --resume", f"rows.csv: line 3: {why}")
            self.refused("compare rows.csv", f"rows.csv: line 3: {why}")
            self.assertTrue(self.done("again rows.csv 1").startswith("matching manne 5\n"))
        (self.at / "rows.csv").write_bytes(b"".join(lines[:3]) + lines[3][:40])
        self.assertTrue(self.done("again rows.csv 2").startswith("matching manne 5\n"))
        self.refused("again rows.csv 3", "there is no row 3: rows.csv has rows 1 to 2, and line 4 is torn\n")
        done = self.run_in("compare rows.csv")
        self.assertEqual(done.stderr, "! rows.csv: line 4: the last row is torn, and is left out\n")
        self.assertEqual((done.returncode, done.stdout.splitlines()[1].split()[4]), (0, "2"))
        (self.at / "rows.csv").write_bytes(lines[0] + lines[1].replace(b"start", b"nodes walk 1e+16"))
        self.refused("again rows.csv 1", "rows.csv: line 2: ring:5: only the nodes of disk:N,RADIUS,SEED walk")
        (self.at / "rows.csv").write_bytes(lines[0] + lines[1].replace(b"start", b"9" * 6000 + b" faults"))
        self.refused("again rows.csv 1", "rows.csv: line 2: '9+' is no disturbance of a row\n")

    def test_a_graph_that_has_changed(self) -> None:
        words = "sweep --graph g.txt --graph ring:5 --seeds 2 --processes 1 --csv rows.csv"
        self.done(words)
        digest = graphs.read(self.at / "g.txt").digest
        self.assertEqual({line[-1] for line in self.rows()[1:] if line[0] == "g.txt"}, {digest})
        (self.at / "g.txt").write_text("1 2\n2 3\n3 4\n4 1\n", encoding="utf-8")
        now = graphs.read(self.at / "g.txt").digest
        why = f"rows.csv: line 2: the row is of another graph g.txt, with the digest {digest} and not {now}\n"
        self.refused(f"{words} --resume", why)
        why = f"another row comes of it: the digest of g.txt is {now}, and not {digest}; is the graph another one"
        self.refused("again rows.csv 1", why, status=1)
        # another graph's rows are no matter
        self.done("sweep --graph ring:5 --seeds 2 --processes 1 --csv rows.csv --resume")

    def test_files_of_an_earlier_version(self) -> None:
        # faults were drawn with any value then: the row was made so by that version
        [made] = sweep([graphs.ring(12)], ["manne"], ["least"], [4], [sweeps.Disturbance(9, any_value=True)])
        old = replace(made, disturbance="9 faults", changes=None, digest="")
        (self.at / "rows.csv").write_bytes(text_of([old], EARLIER).encode())
        with open(self.at / "rows.csv", newline="", encoding="utf-8") as file:
            self.assertEqual(read_csv(file), [old])
        self.assertEqual(self.done("again rows.csv 1"), play_again(old).transcript)
        self.assertEqual(play_again(old).moves, made.moves)
        self.assertRaises(RudekpiError, play_again, replace(old, moves=made.moves + 1))
        self.assertEqual(len(self.done("compare rows.csv").splitlines()), 2)
        why = "rows.csv has the columns of an earlier version, without the digests of graphs"
        self.refused("sweep --graph ring:12 --csv rows.csv --resume", why)

    def test_rows_that_are_there_are_not_played(self) -> None:
        words = "--graph ring:7 --rules hh,manne --seeds 4 --processes 1"
        table = self.done(f"compare {words} --csv rows.csv")
        without = {"RUDEKPI_CONSOLE": "/no/such/program", "RUDEKPI_LIBRARY": "/no/such/library"}
        done = self.run_in("compare rows.csv", **without)
        self.assertEqual((done.returncode, done.stdout, done.stderr), (0, table, ""))
        self.assertIn("| ring:7 |", self.run_in("compare rows.csv --markdown", **without).stdout)
        os.rename(self.at / "rows.csv", self.at / "rows")
        self.assertEqual(self.run_in("compare rows", **without).stdout, table)
        self.refused("compare rows --seeds 3", "--seeds is for rows that are to be played, and rows has rows\n")
        self.refused("compare rows --csv more", "--csv is for rows that are to be played, and rows has rows\n")
        self.refused("sweep rows", "the rows of rows are there: --plot draws them, and `compare rows` prints a table\n")
        if has_matplotlib:
            self.assertEqual(self.run_in("sweep rows --plot a.svg", **without).returncode, 0)
            self.assertIn("<svg", (self.at / "a.svg").read_text(encoding="utf-8"))
            self.refused("compare rows --plot rows", "rows would be written over rows, which is read\n")

    @unittest.skipUnless(has_networkx, "no networkx")
    def test_maximum(self) -> None:
        words = "sweep --graph path:7 --graph complete:5 --graph star:6 --daemon least --seeds 2 --processes 1"
        self.done(f"{words} --csv rows.csv --maximum")
        head, *rows = self.rows()
        self.assertEqual((head[-2:], len(rows)), (["digest", "maximum"], 6))
        self.assertEqual({line[0]: line[-1] for line in rows}, {"path:7": "3", "complete:5": "2", "star:6": "1"})
        self.done(f"{words} --csv cut.csv --maximum --cut 1")
        # a path of seven without an end's link is one of six, or two paths; a star of six still has a link
        for line in self.rows("cut.csv")[1:]:
            self.assertIn((line[0], line[-1]), [("path:7", "3"), ("complete:5", "2"), ("star:6", "1")])
        self.assertTrue(self.done("again rows.csv 1").startswith("matching manne 7\n"))
        self.refused(
            f"{words} --csv rows.csv --resume", "rows.csv has a column maximum, which --maximum adds: give it too\n"
        )
        self.done(f"{words} --csv plain.csv")
        self.refused(
            f"{words} --csv plain.csv --resume --maximum",
            "plain.csv has no column maximum, which --maximum adds: leave it out\n",
        )

    def test_columns_of_rows(self) -> None:
        [row] = sweep([graphs.path(3)], ["hh"], ["least"])
        self.assertEqual(len(astuple(row)), len(columns_of(True, True)))
        self.assertEqual((row.changes, row.digest, row.maximum), (0, graphs.path(3).digest, None))


if __name__ == "__main__":
    unittest.main()
