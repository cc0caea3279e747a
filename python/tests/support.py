"""Shared by the client's tests: time limits, programs, commands and replies as texts."""

from __future__ import annotations

import concurrent.futures
import contextlib
import glob
import os
import signal
import stat
import subprocess
import sys
import tempfile
import threading
import time
import types
import unittest
from typing import Any, Callable, Container, Optional, TypeVar, Union
from unittest import mock

from rudekpi import Accepted, Base, Enabled, Fault, Matching, Moves, Network, Refused, Shown, Status, Wish
from rudekpi.batch import Batch
from rudekpi.direct import Direct
from rudekpi.replies import Name
from rudekpi.session import Session

Reply = TypeVar("Reply")

TOP = os.path.dirname(os.path.dirname(os.path.dirname(os.path.abspath(__file__))))


# how many times longer a test may take on a busy machine than on an idle one
BUSY = 4


class Timed(unittest.TestCase):
    """Fails if it takes too long; tests/client makes a class of it for each of its engines."""

    # how long a test may take on a machine that does nothing else
    seconds = 60
    engines: tuple[str, ...] = ("program", "library")
    engine = "program"

    def setUp(self) -> None:
        chosen = mock.patch.dict(os.environ, RUDEKPI_ENGINE=self.engine)
        chosen.start()
        self.addCleanup(chosen.stop)

        def stop(_: int, frame: Optional[types.FrameType]) -> None:
            if is_in_test(frame):
                raise AssertionError(f"no end after {BUSY * self.seconds} seconds")

        before = signal.signal(signal.SIGALRM, stop)
        self.addCleanup(signal.signal, signal.SIGALRM, before)
        # again each second, since other subtests follow one that is stopped
        signal.setitimer(signal.ITIMER_REAL, BUSY * self.seconds, 1)
        self.addCleanup(signal.setitimer, signal.ITIMER_REAL, 0)

    def folder(self) -> str:
        made = tempfile.TemporaryDirectory()
        self.addCleanup(made.cleanup)
        return made.name

    def program(self, text: str, name: str = "program") -> str:
        """A shell script, or a Python one if it begins with `import`."""
        path = os.path.join(self.folder(), name)
        first = f"#!{sys.executable}\n" if text.startswith("import ") else "#!/bin/sh\n"
        with open(path, "w", encoding="utf-8") as file:
            file.write(first + text)
        os.chmod(path, os.stat(path).st_mode | stat.S_IXUSR)
        return path

    def expect_end_by_interrupt(self, script: str, marks: str, count: int) -> str:
        """Runs a Python script until `count` files match `marks`, then ends all its processes by Ctrl-C.

        Returns its standard error.
        """
        folder = self.folder()
        with open(os.path.join(folder, "script.py"), "w", encoding="utf-8") as file:
            file.write(script)
        paths = dict(os.environ, PYTHONPATH=os.path.join(TOP, "python"))
        run = subprocess.Popen(
            [sys.executable, file.name], env=paths, cwd=folder, stderr=subprocess.PIPE, start_new_session=True
        )
        assert run.stderr is not None
        self.addCleanup(run.stderr.close)
        self.addCleanup(end_group, run.pid)
        while run.poll() is None and len(glob.glob(os.path.join(folder, marks))) < count:
            time.sleep(0.01)
        if run.poll() is None:
            os.killpg(run.pid, signal.SIGINT)
        said = run.communicate()[1].decode()
        # processes of multiprocessing end a moment later; else this test fails by its time limit
        while is_group(run.pid):
            time.sleep(0.01)
        return said


def is_in_test(frame: Optional[types.FrameType]) -> bool:
    """Whether a frame belongs to a test, and not to the report of one, which an exception would break off."""
    names = set()
    while frame is not None:
        names.add(frame.f_code.co_name)
        frame = frame.f_back
    return "testPartExecutor" not in names and bool(names & {"_callSetUp", "_callTestMethod", "_callCleanup"})


def children() -> list[int]:
    """This thread's processes, with ended ones that were not waited for."""
    with open(f"/proc/self/task/{threading.get_native_id()}/children", encoding="utf-8") as file:
        return [int(word) for word in file.read().split()]


def is_group(group: int) -> bool:
    try:
        os.killpg(group, 0)
    except ProcessLookupError:
        return False
    return True


def end_group(group: int) -> None:
    with contextlib.suppress(ProcessLookupError):
        os.killpg(group, signal.SIGKILL)


class Losing(concurrent.futures.Executor):
    """Does each task at once, and loses the results whose numbers, from 1, are in `lost`.

    Distributed does so if a worker dies while it hands a result over.
    """

    def __init__(self, lost: Container[int] = (1,)) -> None:
        self.asked, self.lost = 0, lost

    def submit(self, task: Callable[..., Any], *words: Any) -> concurrent.futures.Future[Any]:  # type: ignore[override]
        future: concurrent.futures.Future[Any] = concurrent.futures.Future()

        def _cascade_future(result: Any) -> None:
            try:
                kind, error, trace = result
                raise error.with_traceback(trace)
            except Exception as error:
                return future.set_exception(error)

        self.asked += 1
        try:
            result = task(*words)
        except Exception as error:
            future.set_exception(error)
            return future
        if self.asked in self.lost:
            _cascade_future(result)
        else:
            future.set_result(result)
        return future


def session_of(net: Network) -> Session:
    assert isinstance(net._session, Session)
    return net._session


def has_ended(net: Network) -> bool:
    """Whether a network's run has ended well and released everything."""
    session = net._session
    if isinstance(session, Direct):
        return not session.slot.full
    return session.talk.ended is not None and session.talk.run.has_status()


def play(player: Union[Network, Batch], line: str, name: Callable[[str], Name] = int) -> Any:
    """Gives the command of a script's line; `name` turns a number's text into a name."""
    word, *rest = line.split(" ")
    if word in ("link", "unlink"):
        return getattr(player, word)(name(rest[0]), name(rest[1]))
    if word == "point":
        return player.point(name(rest[0]), None if rest[1] == "-" else name(rest[1]))
    if word == "flag":
        return player.flag(name(rest[0]), rest[1] == "1")
    if word == "step":
        items = [item.split(">") for item in rest]
        return player.step([Wish(*map(name, item)) if len(item) == 2 else name(item[0]) for item in items])
    if word in ("show", "join", "leave"):
        return getattr(player, word)(name(rest[0]))
    if word in ("drive", "scramble"):
        return getattr(player, word)(int(rest[0]), int(rest[1]))
    calls = {
        "enabled": player.enabled,
        "matching": player.matching,
        "status": player.status,
        "checkpoint": player.checkpoint,
    }
    return calls[word]()


def told(call: Callable[[], Reply]) -> Union[Reply, Refused]:
    """The reply of a call, or the refusal that it raises."""
    try:
        return call()
    except Refused as refused:
        return refused


def spelled(reply: object, number: Callable[[Name], str] = str) -> str:
    """A reply's text in a transcript, a base's lines; `number` turns a name into its number's text."""
    if isinstance(reply, Accepted):
        return "ok"
    if isinstance(reply, Refused):
        return f"refused {reply.number} {reply.text}"
    if isinstance(reply, Moves):
        target = [f">{number(move.target)}" if move.target is not None else "" for move in reply]
        return " ".join(f"{number(move.node)}:{move.rule}{to}" for move, to in zip(reply, target))
    if isinstance(reply, Shown):
        return "-" if reply.target is None else number(reply.target)
    if isinstance(reply, Enabled):
        return " ".join(f"{number(node)}:{rule}" for node, rule in reply.items()) or "none"
    if isinstance(reply, Matching):
        return " ".join(f"{number(a)}-{number(b)}" for a, b in reply.pairs) or "none"
    if isinstance(reply, Status):
        names = ("nodes", "edges", "pairs", "enabled", "charge", "spent")
        return " ".join(f"{name}={getattr(reply, name)}" for name in names)
    if isinstance(reply, Base):
        lines = [f"base {reply.number} spent={reply.spent} nodes={len(reply.nodes)} edges={len(reply.edges)}"]
        for node, held in reply.nodes.items():
            lines.append(
                f"node {number(node)} {'-' if held.pointer is None else number(held.pointer)} {int(held.flag)}"
            )
        return "\n".join([*lines, *(f"edge {number(a)} {number(b)}" for a, b in reply.edges)])
    if isinstance(reply, Fault) and reply.register == "pointer":
        return f"point {number(reply.node)} {'-' if reply.value is None else number(reply.value)}"
    if isinstance(reply, Fault) and reply.value is not None:
        return f"flag {number(reply.node)} {int(reply.value)}"
    raise AssertionError(f"{reply!r} is no reply")
