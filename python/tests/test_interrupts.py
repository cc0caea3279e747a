"""Interrupts at each instruction of the client, at random times, and by Ctrl-C at a terminal."""

from __future__ import annotations

import gc
import os
import pty
import random
import select
import signal
import subprocess
import sys
import threading
import time
import types
import unittest
from typing import Any, Callable, Optional
from unittest import mock

import rudekpi
from rudekpi import Ended, Network, audit, processes, program
from support import TOP, Timed, children, has_ended, session_of

PACKAGE = os.path.dirname(rudekpi.__file__)


class Cut(BaseException):
    """The exception of these tests' interrupts."""


class At:
    """Raises `Cut` before the package's instruction of this number, counted from the entry of a `with`."""

    def __init__(self, number: int) -> None:
        self.left = number

    def trace(self, frame: types.FrameType, event: str, _: object) -> Optional[Callable[..., Any]]:
        if not frame.f_code.co_filename.startswith(PACKAGE):
            return None
        frame.f_trace_opcodes, frame.f_trace_lines = True, False
        if event == "opcode":
            self.left -= 1
            if self.left < 0:
                sys.settrace(None)
                raise Cut
        return self.trace

    def __enter__(self) -> At:
        self.before = sys.gettrace()
        sys.settrace(self.trace)
        return self

    def __exit__(self, kind: Optional[type[BaseException]], *_: object) -> bool:
        sys.settrace(self.before)
        return kind is Cut


class EachInstruction(Timed):
    seconds = 120

    def cut_everywhere(
        self,
        call: Callable[[Network], object],
        after: Callable[[Network], object],
        step: int = 1,
        made: Callable[[], Network] = lambda: Network("manne", 4),
    ) -> int:
        """Cuts a call short before each `step`th instruction until it ends, and checks what is left.

        Returns the number of the first instruction that did not cut it.
        """
        for number in range(0, 1_000_000, step):
            net = made()
            with At(number) as at:
                call(net)
            with self.subTest(instruction=number):
                after(net)
            if at.left >= 0:
                return number
        raise AssertionError("no end")

    def expect_usable(self, net: Network) -> None:
        net.unlink(1, 2) if (1, 2) in net.edges else None
        self.assertEqual(net.link(1, 2).entry, net.status().entry - 1)
        self.assertEqual(net.show(1).target, None)
        net.close()
        self.assertEqual(net.audit().entries, net.transcript().count(" = "))

    def test_of_an_answer(self) -> None:
        net = Network("hh", 3)
        cuts = self.cut_everywhere(
            lambda net: net.show(2),
            lambda net: self.assertEqual((net.show(1).node, net.status().edges), (1, 0)),
            made=lambda: net,
        )
        if not cuts and sys.version_info >= (3, 12):
            # `sys.settrace` reports no instruction here of a frame without a loop
            self.skipTest("this Python traces no instructions here")
        shown = net.transcript().count("show 2 = -\n")
        net.close()
        self.assertGreater(shown, 50, "some were cut in front of what asks, and some behind it")
        audit(net.transcript())

    def test_of_a_link(self) -> None:
        self.cut_everywhere(lambda net: net.link(1, 2), self.expect_usable, step=7)

    def test_of_a_batch_with_all_kinds_of_answers(self) -> None:
        def play(net: Network) -> None:
            with net.batch(raises=False) as batch:
                batch.link(1, 2)
                batch.link(1, 2)
                batch.drive(7, 5)
                batch.checkpoint()
                batch.scramble(7, 2)
                batch.show(9)

        def look(net: Network) -> None:
            said = net.transcript()
            self.assertEqual(audit(said).entries, net.status().entry - 1)
            net.close()

        self.cut_everywhere(play, look, step=37)

    def test_of_a_close(self) -> None:
        def look(net: Network) -> None:
            net.close()
            self.assertTrue(has_ended(net))
            self.assertEqual(net.transcript(), "matching manne 4\n")

        self.cut_everywhere(Network.close, look, step=3)

    def test_of_what_is_kept_from_a_checkpoint_on(self) -> None:
        def look(net: Network) -> None:
            self.assertEqual(net.link(3, 4).entry, len(net.edges))
            self.assertIn((3, 4), net.edges)
            audit(net.transcript())
            net.close()

        def play(net: Network) -> None:
            net.link(1, 2)
            net.checkpoint()
            net.link(2, 3)

        self.cut_everywhere(play, look, step=53, made=lambda: Network("manne", 4, keep=False))

    def test_of_a_renumbering(self) -> None:
        if self.engine == "program":
            self.skipTest("the program numbers its entries once")

        def made() -> Network:
            net = Network("manne", 4)
            net.link(1, 2)
            net.point(1, 2)
            return net

        def look(net: Network) -> None:
            audit(net.transcript())
            entry = net.show(1).entry
            self.assertIn(entry, (1, 3))
            # the text of a renumbering that was cut short comes with this one's
            ended = net.renumber()
            self.assertIn(f"\n{entry} show 1 = 2\n", ended)
            audit(ended[ended.rindex("matching2 ") :])
            self.assertEqual((net.show(1).entry, net.edges), (1, [(1, 2)]))
            net.close()

        self.cut_everywhere(Network.renumber, look, step=5, made=made)

    def test_of_the_making_of_one(self) -> None:
        before = set(children())
        # an interrupt in a finalizer is reported there, and not raised
        self.addCleanup(setattr, sys, "unraisablehook", sys.unraisablehook)
        sys.unraisablehook = lambda told: self.assertIs(told.exc_type, Cut)
        for number in range(0, 100_000, 41):
            with At(number) as at:
                Network("hh", 2).close()
            if at.left >= 0:
                break
        gc.collect()
        wait_until(lambda: set(children()) <= before)
        self.assertLessEqual(set(children()), before)


class Building(Timed):
    """The program of a clone, which is built first: what an interrupt of that leaves."""

    def test_it_leaves_no_process(self) -> None:
        top, main = self.folder(), threading.get_ident()
        console, mark = os.path.join(top, "console"), os.path.join(top, "pids")
        with open(console, "w", encoding="utf-8") as file:
            file.write(
                "#!/bin/sh\nsleep 300 &\necho $$ $! > pids.new && mv pids.new pids\nwait\n".replace("pids", mark)
            )
        os.chmod(console, 0o755)

        def handler(*_: object) -> None:
            raise Cut

        def send() -> None:
            wait_until(lambda: os.path.exists(mark), 60)
            signal.pthread_kill(main, signal.SIGUSR1)

        self.addCleanup(signal.signal, signal.SIGUSR1, signal.signal(signal.SIGUSR1, handler))
        before = children()
        sender = threading.Thread(target=send)
        sender.start()
        program.repository_program.cache_clear()
        with mock.patch.object(program, "PACKAGE", os.path.join(top, "python", "rudekpi")), self.assertRaises(Cut):
            program.repository_program()
        sender.join()
        self.assertEqual(children(), before)
        with open(mark, encoding="utf-8") as file:
            numbers = file.read().split()
        self.assertEqual(len(numbers), 2)
        wait_until(lambda: not any(map(is_running, numbers)))
        self.assertFalse(any(map(is_running, numbers)))

    def test_its_status(self) -> None:
        self.assertEqual(processes.status_of(["sh", "-c", "echo out; cat; exit 7"]), 7)
        with self.assertRaises(FileNotFoundError):
            processes.status_of(["/none/program"])


def is_running(number: str) -> bool:
    """Whether a process is there that has not ended."""
    try:
        with open(f"/proc/{number}/stat", encoding="utf-8") as file:
            return file.read().rpartition(")")[2].split()[0] not in "ZX"
    except FileNotFoundError:
        return False


class RandomTimes(Timed):
    seconds = 120

    def cut_at_random(self, times: int, play: Callable[[], object], most: int) -> int:
        """Plays while a thread sends `times` signals; returns how many came meanwhile.

        After `most` plays without a signal it waits for the next one, so that a sender which gets no
        processor lets no log grow full.
        """
        main, drawn = threading.get_ident(), random.Random(7)
        is_armed, is_done, came, handled = [False], [False], [0], [0]

        def handler(*_: object) -> None:
            handled[0] += 1
            if is_armed[0]:
                is_armed[0] = False
                came[0] += 1
                raise Cut

        def send() -> None:
            for number in range(times):
                time.sleep(drawn.random() * 0.0006)
                while not is_armed[0]:
                    time.sleep(0.00002)
                is_done[0] = number == times - 1
                signal.pthread_kill(main, signal.SIGUSR1)
                # two pending signals would be handled as one
                while handled[0] <= number:
                    time.sleep(0.00002)

        self.addCleanup(sys.setswitchinterval, sys.getswitchinterval())
        sys.setswitchinterval(0.00002)
        before = signal.signal(signal.SIGUSR1, handler)
        self.addCleanup(signal.signal, signal.SIGUSR1, before)
        sender = threading.Thread(target=send, daemon=True)
        sender.start()
        played, last = 0, 0
        while not is_done[0]:
            # the handler disarms itself, so that no signal comes outside this block
            try:
                is_armed[0] = True
                play()
                played = played + 1 if last == handled[0] else 1
                last = handled[0]
                if played > most:
                    time.sleep(1)
                is_armed[0] = False
            except Cut:
                pass
        sender.join()
        return came[0]

    def test_three_thousand_in_a_loop_of_show(self) -> None:
        with Network("hh", 3) as net:
            net.link(1, 2)

            def play() -> None:
                for _ in range(500):
                    shown = net.show(2)
                    if (shown.node, shown.target) != (2, None):
                        raise AssertionError(shown)

            # together at most three quarters of a log
            came = self.cut_at_random(3000, play, 7)
            self.assertGreater(came, 2700)
            self.assertEqual(net.status().edges, 1)
        audit(net.transcript())

    def test_in_batches(self) -> None:
        with Network("hh", 3000) as net:

            def play() -> None:
                with net.batch(raises=False) as batch:
                    for node in range(1, 3000):
                        batch.link(node, node + 1)
                    shown = batch.show(7)
                if shown.result().node != 7:
                    raise AssertionError(shown.result())

            self.assertGreater(self.cut_at_random(300, play, 5), 250)
            self.assertEqual(net.status().nodes, 3000)
        audit(net.transcript())

    def test_by_a_timer(self) -> None:
        drawn = random.Random(3)

        def handler(*_: object) -> None:
            raise Cut

        self.addCleanup(signal.signal, signal.SIGVTALRM, signal.signal(signal.SIGVTALRM, handler))
        with Network("manne", 3) as net:
            cut = 0
            for _ in range(300):
                try:
                    signal.setitimer(signal.ITIMER_VIRTUAL, 1e-4 + drawn.random() * 1e-3)
                    while True:
                        net.status()
                except Cut:
                    cut += 1
            self.assertEqual((cut, net.status().nodes), (300, 3))


def wait_until(is_so: Callable[[], bool], seconds: float = 30) -> None:
    last = time.monotonic() + seconds
    while not is_so() and time.monotonic() < last:
        gc.collect()
        getattr(subprocess, "_cleanup")()
        time.sleep(0.01)


TERMINAL = """
import sys, rudekpi
net = rudekpi.Network("hh", 3)
try:
    print("ready", flush=True)
    while True: net.status()
except KeyboardInterrupt:
    print("cut", flush=True)
print(net.link(1, 2), flush=True)
net.close()
print("closed", net.audit().entries == net.transcript().count(" = "), flush=True)
"""


class Sessions(Timed):
    engines = ("program",)

    def test_an_interrupt_at_a_terminal_does_not_reach_the_program(self) -> None:
        pid, end = pty.fork()
        if pid == 0:
            os.execve(
                sys.executable,
                [sys.executable, "-c", TERMINAL],
                dict(os.environ, PYTHONPATH=os.path.join(TOP, "python")),
            )
        said = b""
        while b"closed True" not in said:
            if not select.select([end], [], [], 20)[0]:
                break
            try:
                part = os.read(end, 1000)
            except OSError:
                break
            said += part
            if b"ready" in part:
                time.sleep(0.1)
                os.write(end, b"\x03")
        os.close(end)
        os.waitpid(pid, 0)
        self.assertIn(b"Accepted(entry=", said)
        self.assertIn(b"closed True", said)

    def test_a_network_that_nobody_closes(self) -> None:
        before = set(children())
        net = Network("hh", 2)
        batch = net.batch()
        batch.link(1, 2)
        pid = session_of(net).talk.run.numbers[0]
        self.assertIn(pid, children())
        del net
        self.assertIn(pid, children(), "the batch still refers to it")
        del batch
        gc.collect()
        self.assertEqual(set(children()), before)

    def test_one_that_is_dropped_is_ended_at_once(self) -> None:
        before = set(children())
        net = Network("hh", 2)
        net.link(1, 2)
        net.settle(lambda enabled: [min(enabled)])
        gc.disable()
        self.addCleanup(gc.enable)
        del net
        self.assertEqual(set(children()), before)

    def test_at_the_end_of_the_process(self) -> None:
        uses = "import rudekpi; net = rudekpi.Network('hh', 2); net.link(1, 2); print(net._session.talk.run.numbers[0])"
        words = [sys.executable, "-X", "dev", "-W", "error", "-c", uses]
        done = subprocess.run(
            words, env=dict(os.environ, PYTHONPATH=os.path.join(TOP, "python")), capture_output=True, encoding="utf-8"
        )
        self.assertEqual((done.returncode, done.stderr), (0, ""))
        self.assertFalse(os.path.exists(f"/proc/{int(done.stdout)}"))

    def test_a_child_of_this_process_holds_no_pipe(self) -> None:
        with Network("hh", 2) as net:
            go, come = os.pipe()
            child = os.fork()
            if child == 0:
                try:
                    net.status()
                    told = b"answered"
                except Ended as inherited:
                    told = inherited.last_line.encode()
                os.write(come, told)
                time.sleep(30)
                os._exit(0)
            self.addCleanup(os.waitpid, child, 0)
            self.addCleanup(os.kill, child, signal.SIGKILL)
            self.assertIn(b"belongs to another process", os.read(go, 200))
            self.assertEqual(net.link(1, 2).entry, 1)
        ended = session_of(net).talk.ended
        assert isinstance(ended, Ended)
        self.assertEqual(ended.status, 0, "it saw where its script ends, while the child is there")
        os.close(go)
        os.close(come)


if __name__ == "__main__":
    unittest.main()
