"""The table of `compare`: intervals of medians, worked by hand, and its forms."""

from __future__ import annotations

import random
import statistics
import unittest

from rudekpi.sweeps import Row
from rudekpi.tables import interval, resampled_median, table_of
from support import Timed


def row(graph: str, moves: int, rules: str = "hh", hit: str = "start") -> Row:
    return Row(graph, rules, 3, 2, "least", 0, hit, moves, moves, 1, 0, 1, 1, 0, 4, 7, 1, 0.1)


class Tables(Timed):
    # no engine is used
    engines = ("program",)

    def test_intervals(self) -> None:
        self.assertEqual(interval([7]), (7, 7))
        self.assertEqual(interval([4, 4, 4, 4]), (4, 4))
        # the mean of two draws from 0 and 10 is 0 in a quarter of all, and 10 in another
        self.assertEqual(interval([10, 0]), (0, 10))
        # the ends for 101 numbers are 0.98 times the root of 101 from the middle, which is 51
        low, high = interval(range(1, 102))
        self.assertTrue(40 <= low <= 43 and 59 <= high <= 62, (low, high))
        self.assertEqual(interval([3, 1, 2, 9]), interval([9, 3, 2, 1]), "the same each time")

    def test_medians_of_resamples(self) -> None:
        # the median of three draws from 0, 0, 9 is 9 if two of them are: 3*(1/9)*(2/3) + 1/27 = 7/27
        for known, what, share in (([0, 0, 9], 9, 7 / 27), ([0, 8], 4, 1 / 2), ([0, 8], 0, 1 / 4)):
            drawn = random.Random(5)
            found = statistics.mean(resampled_median(known, drawn) == what for _ in range(20_000))
            self.assertAlmostEqual(found, share, delta=0.015)

    def test_forms(self) -> None:
        rows = [row("a|b", moves) for moves in (2, 4, 4)]
        plain = table_of(rows)
        self.assertEqual(plain[1].split(), "a|b start least hh 3 2 3.3 4 2-4 4 4 7 4 1 3".split())
        self.assertEqual(len({len(line) for line in plain}), 1)
        marked = table_of(rows, is_markdown=True)
        self.assertEqual(marked[1], "| --- | --- | --- | --- |" + " ---: |" * 11)
        self.assertEqual(marked[2], "| a\\|b | start | least | hh | 3 | 2 | 3.3 | 4 | 2-4 | 4 | 4 | 7 | 4 | 1 | 3 |")
        self.assertEqual(len(table_of([])), 1)

    def test_bounds_of_rounds(self) -> None:
        # of three nodes: 3 under hh, 2 * 3 - 1 under manne; none if each disturbance begins rounds anew
        hits = ["start", "2 faults", "1 fault, every 1 move", "2 faults, 3 links cut, every 12 moves"]
        hits += ["trace t.csv 0123456789abcdef", "2 faults, by groups of a, every 3 moves 0123456789abcdef"]
        for hit, under_hh, under_manne in zip(hits, "33---3", "55---5"):
            for rules, bound in (("hh", under_hh), ("manne", under_manne)):
                with self.subTest(rules, hit=hit):
                    made = row("a", 2, rules, hit)
                    self.assertEqual(made.most_rounds, None if bound == "-" else int(bound))
                    self.assertEqual(table_of([made])[1].split()[-2:], ["1", bound])


if __name__ == "__main__":
    unittest.main()
