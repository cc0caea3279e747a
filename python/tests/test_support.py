"""The time limit of the client's tests."""

from __future__ import annotations

import time
import unittest
from typing import Any

from support import Timed


class SlowReport(unittest.TestResult):
    """Takes longer for a report than the limit takes to strike again."""

    def addFailure(self, test: unittest.TestCase, err: Any) -> None:
        time.sleep(1.5)
        super().addFailure(test, err)


class Limits(unittest.TestCase):
    def test_a_late_test_fails_and_its_report_is_whole(self) -> None:
        class Late(Timed):
            seconds = 1

            def runTest(self) -> None:
                time.sleep(30)

        result = SlowReport()
        start = time.monotonic()
        Late().run(result)
        self.assertLess(time.monotonic() - start, 25)
        self.assertEqual(result.errors, [])
        [(_, told)] = result.failures
        self.assertIn("no end after 4 seconds", told)


if __name__ == "__main__":
    unittest.main()
