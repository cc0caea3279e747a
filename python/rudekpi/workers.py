"""Work in tasks for an executor's workers, which may die."""

from __future__ import annotations

import contextlib
import itertools
import os
import select
import signal
import sys
import traceback
import uuid
from collections import deque
from concurrent.futures import (
    FIRST_COMPLETED,
    BrokenExecutor,
    CancelledError,
    Executor,
    Future,
    ProcessPoolExecutor,
    wait,
)
from typing import Any, Callable, Generator, Generic, Iterator, Optional, Tuple, TypeVar, Union

Task = TypeVar("Task")
# a function for a worker to call, and its arguments
Call = Tuple[Any, ...]
# how many tasks a worker has under way, and how many workers an executor without a count is taken to have
UNDER_WAY = 2
MOST_UNKNOWN = 64
# the longest wait, in milliseconds, to see that a thread has ended; how many bytes that it sends are taken at
# once
PAUSE = 10
PIECE = 1 << 16


def ignore_interrupts() -> None:
    """In a worker: Ctrl-C at the terminal is for the process that hands out the work."""
    signal.signal(signal.SIGINT, signal.SIG_IGN)


def count_of(given: Union[Executor, int]) -> int:
    """How many workers there are, as far as the executor has a count."""
    return given if isinstance(given, int) else getattr(given, "_max_workers", MOST_UNKNOWN)


def end_at_once(pool: Any) -> None:
    """Ends a pool of processes in the middle of its work, if the results are not needed.

    From Python 3.14 on the processes may end a moment later.
    """
    if hasattr(pool, "kill_workers"):
        pool.kill_workers()
    else:
        # before Python 3.14; if the processes are not found, their current work is waited for
        for worker in list((getattr(pool, "_processes", None) or {}).values()):
            worker.kill()
    end_broken(pool)


def end_broken(pool: Any) -> None:
    """Ends a pool of processes whose workers are dead or dying.

    Waits for the pool's thread to end, so that a later fork does not happen while the thread runs.
    """
    if sys.version_info < (3, 11, 5):
        take_what_is_sent(pool)
    pool.shutdown(wait=True, cancel_futures=True)


def take_what_is_sent(pool: Any) -> None:
    """Takes what a process pool sends to dead or dying workers, until its thread has ended.

    Before Python 3.11.5 that thread, and with it `shutdown`, waits forever for a worker to take what is sent:
    a fault of the standard library, https://github.com/python/cpython/issues/94777.
    """
    thread = pool._executor_manager_thread
    if not (thread and thread.is_alive()):
        return
    with contextlib.suppress(OSError):
        end = os.dup(pool._call_queue._reader.fileno())
        try:
            os.set_blocking(end, False)
            ready = select.poll()
            ready.register(end, select.POLLIN)
            while thread.is_alive():
                # a dying worker may have taken it
                with contextlib.suppress(BlockingIOError):
                    if ready.poll(PAUSE) and not os.read(end, PIECE):
                        break
        finally:
            os.close(end)


def called(token: str, call: Callable[..., Any], *words: Any) -> Any:
    """In a worker: runs a task.

    The token differs at each try, since distributed gives equal calls the same answer, even if that answer is
    a worker's death.
    """
    return call(*words)


def is_death(error: BaseException) -> bool:
    if isinstance(error, (BrokenExecutor, CancelledError)) or type(error).__name__ in (
        "KilledWorker",
        "CommClosedError",
    ):
        return True
    # if a worker dies while it hands over its result, distributed takes the result for an error, and fails
    frames = [frame for frame, _ in traceback.walk_tb(error.__traceback__)]
    return (
        bool(frames)
        and frames[-1].f_code.co_name == "_cascade_future"
        and isinstance(error, (AttributeError, TypeError, ValueError))
    )


def has_died(future: Future[Any]) -> bool:
    try:
        error = future.exception()
    except CancelledError:
        return True
    return error is not None and is_death(error)


class Handing(Generic[Task]):
    """Hands out tasks to the workers of an executor, or of `given` processes if that is a number.

    `call_of` gives the call for each task. If a task's worker dies, or a cluster loses the task's result, the
    task is tried once more with nothing else under way, so that a second death shows the task at fault. Dead
    processes started here are replaced, a given executor is not.
    """

    def __init__(self, tasks: Iterator[Task], call_of: Callable[[Task], Call], given: Union[Executor, int]) -> None:
        self.tasks, self.call_of, self.given, self.count = tasks, call_of, given, count_of(given)
        self.executor = self.new_pool() if isinstance(given, int) else given
        self.again: deque[Task] = deque()
        # for each task under way, whether it is its second try
        self.under_way: dict[Future[Any], tuple[Task, bool]] = {}

    def new_pool(self) -> Executor:
        return ProcessPoolExecutor(self.count, initializer=ignore_interrupts)

    def done(self) -> Generator[tuple[Task, Optional[Future[Any]]], None, None]:
        """Each task once its result or error is there, as they come; None if workers died over it twice."""
        is_over = has_lost = False
        try:
            while self.hand_out():
                for future in wait(self.under_way, return_when=FIRST_COMPLETED).done:
                    task, is_second = self.under_way.pop(future)
                    if not has_died(future):
                        yield task, future
                        continue
                    has_lost = True
                    if is_second:
                        yield task, None
                    else:
                        self.again.append(task)
            is_over = True
        finally:
            self.stop(is_over and not has_lost)

    def hand_out(self) -> bool:
        """Keeps as many tasks under way as needed; returns whether there is any."""
        if not self.again:
            for task in itertools.islice(self.tasks, max(0, UNDER_WAY * self.count - len(self.under_way))):
                self.submit(task, False)
        elif not self.under_way:
            self.submit(self.again.popleft(), True)
        return bool(self.under_way)

    def submit(self, task: Task, is_second: bool) -> None:
        words = (uuid.uuid4().hex, *self.call_of(task))
        try:
            future = self.executor.submit(called, *words)
        except BrokenExecutor:
            if self.executor is self.given:
                raise
            end_broken(self.executor)
            self.executor = self.new_pool()
            future = self.executor.submit(called, *words)
        self.under_way[future] = (task, is_second)

    def stop(self, is_whole: bool) -> None:
        """Cancels what is under way.

        Processes started here are ended: at once, unless all tasks are done and no process has died.
        """
        if self.executor is self.given:
            for future in self.under_way:
                future.cancel()
        elif is_whole:
            # its thread is waited for, so that no later fork meets it
            self.executor.shutdown()
        else:
            end_at_once(self.executor)
