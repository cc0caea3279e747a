"""Tasks that are handed out: dying workers, a stop in the middle, and the caller's own pools."""

from __future__ import annotations

import concurrent.futures
import multiprocessing
import os
import signal
import threading
import time
import types
import unittest
import unittest.mock
from concurrent.futures.process import BrokenProcessPool
from typing import Any, Optional

from rudekpi import workers
from rudekpi.workers import Handing
from support import Timed

# more than a pipe holds: what a dying worker was sent stays there
MUCH = bytes(1 << 20)


def given_back(number: int, much: bytes) -> int:
    return number


def dies_once(number: int, much: bytes, mark: str) -> Optional[int]:
    try:
        os.close(os.open(mark, os.O_CREAT | os.O_EXCL))
    except FileExistsError:
        return number
    os.kill(os.getpid(), signal.SIGKILL)
    return None


def dies(number: int, much: bytes) -> None:
    os.kill(os.getpid(), signal.SIGKILL)


def never_ends(number: int, much: bytes) -> None:
    while True:
        time.sleep(60)


def ended(handing: Handing[int]) -> tuple[dict[int, Any], list[int]]:
    results: dict[int, Any] = {}
    lost: list[int] = []
    for task, future in handing.done():
        if future:
            results[task] = future.result()
        else:
            lost.append(task)
    return results, lost


class OnlyPublic:
    """A pool of a later Python, whose public part alone is known."""

    def __init__(self) -> None:
        self.asked: list[object] = []

    def shutdown(self, wait: bool = True, *, cancel_futures: bool = False) -> None:
        self.asked.append(("shutdown", wait, cancel_futures))


class KillsWorkers(OnlyPublic):
    def kill_workers(self) -> None:
        self.asked.append("kill_workers")


class Pools(Timed):
    seconds = 120
    engines = ("program",)

    def setUp(self) -> None:
        super().setUp()
        self.threads = threading.active_count()

    def expect_nothing_left(self) -> None:
        # Python 3.14 and later do not wait for killed processes; if they stay, the time limit fails this test
        while multiprocessing.active_children() or threading.active_count() > self.threads:
            time.sleep(0.01)

    def test_a_task_whose_worker_dies_is_tried_again(self) -> None:
        for count in (1, 3):
            with self.subTest(count=count):
                mark = os.path.join(self.folder(), "died")
                handing = Handing(
                    iter(range(9)),
                    lambda task: (dies_once, task, MUCH, mark) if task == 4 else (given_back, task, MUCH),
                    count,
                )
                self.assertEqual(ended(handing), ({task: task for task in range(9)}, []))
                self.assertTrue(os.path.exists(mark))
                self.expect_nothing_left()

    def test_a_task_whose_workers_die_twice_is_lost_alone(self) -> None:
        for lost in ([0], [8], [2, 5]):
            with self.subTest(lost=lost):
                handing = Handing(iter(range(9)), lambda task: (dies if task in lost else given_back, task, MUCH), 2)
                results, found = ended(handing)
                self.assertEqual(
                    (results, sorted(found)), ({task: task for task in range(9) if task not in lost}, lost)
                )
                self.expect_nothing_left()

    def test_a_stop_in_the_middle_ends_all_at_once(self) -> None:
        for count in (1, 3):
            with self.subTest(count=count):
                handing = Handing(iter(range(99)), lambda task: (never_ends if task else given_back, task, MUCH), count)
                done = handing.done()
                self.assertEqual(next(done)[0], 0)
                done.close()
                self.expect_nothing_left()

    def test_of_a_later_python_only_what_is_public_is_asked(self) -> None:
        with unittest.mock.patch.object(workers, "sys", types.SimpleNamespace(version_info=(3, 15, 0))):
            pools: list[tuple[OnlyPublic, list[str]]] = [(KillsWorkers(), ["kill_workers"]), (OnlyPublic(), [])]
            for pool, first in pools:
                workers.end_at_once(pool)
                self.assertEqual(pool.asked, [*first, ("shutdown", True, True)])


class Given(Timed):
    engines = ("program",)

    def test_a_pool_that_breaks_is_not_replaced(self) -> None:
        with concurrent.futures.ProcessPoolExecutor(2) as pool:
            handing = Handing(iter(range(9)), lambda task: (dies if task == 3 else given_back, task, b""), pool)
            self.assertRaises(BrokenProcessPool, ended, handing)
            self.assertIs(handing.executor, pool)

    def test_what_is_under_way_is_taken_back_and_no_more(self) -> None:
        begun, may_end = threading.Event(), threading.Event()
        self.addCleanup(may_end.set)

        def waits() -> str:
            begun.set()
            may_end.wait()
            return "ended"

        with unittest.mock.patch.object(workers, "UNDER_WAY", 3), concurrent.futures.ThreadPoolExecutor(1) as pool:
            handing = Handing(iter(range(9)), lambda task: (waits,) if task else (int,), pool)
            done = handing.done()
            self.assertEqual(next(done)[0], 0)
            begun.wait()
            done.close()
            may_end.set()
            self.assertEqual(
                {task: future.cancelled() for future, (task, _) in handing.under_way.items()}, {1: False, 2: True}
            )
            self.assertEqual(pool.submit(int).result(), 0, "the pool takes more")


if __name__ == "__main__":
    unittest.main()
