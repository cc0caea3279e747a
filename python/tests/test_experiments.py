"""The commands, code, table and picture of docs/EXPERIMENTS.md, on small sizes."""

from __future__ import annotations

import os
import pathlib
import re
import subprocess
import sys
import unittest

from rudekpi import commands
from rudekpi.schedules import Longest, connected_graphs, longest, renamed
from support import TOP, Timed

try:
    import matplotlib
except ImportError:
    matplotlib = None

PAGE = pathlib.Path(TOP, "docs", "EXPERIMENTS.md").read_text(encoding="utf-8")


def run(*words: str) -> subprocess.CompletedProcess[str]:
    return subprocess.run(
        [sys.executable, *words],
        env=dict(os.environ, PYTHONPATH=os.path.join(TOP, "python")),
        capture_output=True,
        encoding="utf-8",
    )


class Page(Timed):
    def test_its_commands_are_commands(self) -> None:
        lines = [line.split(" -m rudekpi ")[1] for line in PAGE.splitlines() if line.startswith("python3 -m rudekpi ")]
        self.assertEqual(len(lines), 2)
        for line in lines:
            given = commands.parser_of().parse_args(line.replace("edges.txt", "ring:5").split(" "))
            self.assertTrue(callable(given.run))

    @unittest.skipUnless(matplotlib, "no matplotlib")
    def test_its_code(self) -> None:
        page = re.search(r"```python\n(.*?)```", PAGE, re.DOTALL)
        assert page is not None
        code = page[1]
        paths = [os.path.join(self.folder(), name) for name in ("out.svg", "rounds.svg")]
        code = (
            code.replace("ring(50)", "ring(5)")
            .replace("grid(7, 7)", "grid(2, 2)")
            .replace("range(20)", "range(2)")
            .replace("out.svg", paths[0])
            .replace("rounds.svg", paths[1])
        )
        done = run("-c", re.sub(r".*frame_of.*\n", "", code))
        self.assertEqual((done.returncode, done.stderr), (0, ""))
        self.assertEqual([path for path in paths if not os.path.exists(path)], [])

    def test_the_smaller_rows_of_its_table(self) -> None:
        rows = [
            [word.strip("* ") for word in line.split("|")[1:-1]]
            for line in PAGE.splitlines()
            if re.match(r"\| [1-6] \| ", line)
        ]
        self.assertEqual(sum(int(row[2]) for row in rows), 143)
        found: dict[tuple[int, int], list[tuple[Longest, Longest]]] = {}
        for n in (1, 2, 3, 4):
            for graph in connected_graphs(n):
                hh, manne = longest(graph, "hh"), max(
                    (longest(it, "manne") for it in renamed(graph)), key=lambda it: it.moves
                )
                found.setdefault((n, len(graph.edges)), []).append((hh, manne))
        for row in rows:
            n, m, count = map(int, row[:3])
            self.assertEqual((row[4], row[7]), (str(2 * m + n), str(2 * m + 3 * n) if n < 6 else ""))
            self.assertEqual(row[5], str(max(0, n * n // 2 + n - 2)))
            if n < 5:
                many = found[n, m]
                spans = [sorted(it.moves for it in kind) for kind in zip(*many)]
                told = [str(moves[0]) if moves[0] == moves[-1] else f"{moves[0]} to {moves[-1]}" for moves in spans]
                self.assertEqual((count, row[3], row[6]), (len(many), *told))


class Scripts(Timed):
    def test_the_table_graph_by_graph(self) -> None:
        done = run(
            os.path.join(TOP, "bench", "longest"),
            "--nodes",
            "3",
            "--central-nodes",
            "3",
            "--processes",
            "2",
            "--program",
            os.environ["RUDEKPI_CONSOLE"],
        )
        self.assertEqual(done.returncode, 0, done.stderr)
        self.assertIn("| 3 nodes: 1-2 1-3 2-3 | 3 | 5 | 9 | 5 | 12 | 15 |", done.stdout)

    @unittest.skipUnless(matplotlib, "no matplotlib")
    def test_the_picture(self) -> None:
        folder = self.folder()
        paths = [os.path.join(folder, name) for name in ("one.svg", "two.svg", "rows.csv")]
        for path in paths[:2]:
            done = run(os.path.join(TOP, "bench", "moves"), "--sizes", "6,10", "--seeds", "2", "--csv", paths[2], path)
            self.assertEqual((done.returncode, done.stderr), (0, ""))
            self.assertIn("<svg", pathlib.Path(path).read_text(encoding="utf-8"))
        self.assertEqual(len(pathlib.Path(paths[2]).read_text(encoding="utf-8").splitlines()), 1 + 2 * 2 * 2 * 2)


if __name__ == "__main__":
    unittest.main()
