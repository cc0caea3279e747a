"""Wrong names, choices, daemons, entries, transcripts and files are explained, and lose nothing."""

from __future__ import annotations

import array
import gc
import importlib.util
import os
import random
import resource
import signal
import sys
import threading
import time
import unittest
from typing import Any, Callable
from unittest import mock

from rudekpi import Audit, Ended, Network, NoReply, Summary, Wish, audit
from rudekpi.audits import picture
from support import Timed, children

TEXT = "matching hh 2\n1 link 1 2 = ok\n2 enabled = 1:seduce 2:seduce\n3 step 1 = 1:seduce>2\n"


def fed(judge: Audit, text: memoryview) -> Summary:
    judge.feed(text)
    return judge.finish()


class Cut(BaseException):
    """The exception of these tests' interrupts."""


class Given(Timed):
    engines = ("program", "library")

    def test_what_is_no_choice(self) -> None:
        with Network("hh", 2) as net:
            choice: Any
            for choice in (0, "1", b"1", Wish(1, 2), None):
                with self.subTest(choice), self.assertRaisesRegex(TypeError, "a step is given a list of nodes, as"):
                    net.step(choice)
            self.assertEqual(net.status().entry, 1)

    def test_what_is_no_name(self) -> None:
        with Network("hh", 2) as net:
            for call in (
                lambda: net.point(1, "x"),
                lambda: net.link("x", 2),
                lambda: net.show("x"),
                lambda: net.step(["x"]),
            ):
                self.assertRaisesRegex(TypeError, "a node's name is a number here, 1 to 65535, and not 'x'", call)
            self.assertRaisesRegex(ValueError, "a node's name is 1 to 65535, and not 0", net.show, 0)
            self.assertRaisesRegex(TypeError, "a flag is a whole number, and not 'x'", net.flag, 1, "x")
        with Network("hh", ["ann", "bob"]) as net:
            self.assertRaisesRegex(TypeError, r"a node's name is hashable, .* and not \['ann'\]", net.show, ["ann"])
            self.assertRaisesRegex(ValueError, "no node has the name 'zoe'", net.show, "zoe")
        self.assertRaisesRegex(TypeError, "a node's name is hashable, .* and not {}", Network, "hh", ["ann", {}])
        self.assertRaisesRegex(TypeError, "nodes are a number or a list of names", Network, "hh", 1.5)

    def test_arrays_of_numpy(self) -> None:
        if not importlib.util.find_spec("numpy"):
            self.skipTest("no numpy")
        import numpy

        with Network("hh", numpy.array([7, 9])) as net:
            self.assertEqual(net.nodes, [7, 9])
            self.assertEqual(net.link(numpy.int64(7), 9).entry, 1)
            self.assertEqual(net.edges, [(7, 9)])
        with Network("manne", numpy.array(["ann", "bob"])) as net:
            net.link("ann", "bob")
            self.assertEqual(repr(net.edges), "[('ann', 'bob')]")
        count: Any = numpy.int64(3)
        with Network("manne", count) as net:
            net.link(numpy.int64(1), numpy.uint8(2))
            self.assertEqual([move.node for move in net.step(numpy.array([1]))], [1])
        with self.assertRaisesRegex(TypeError, r"a node's name is hashable, .* and not \[1, 2\]"):
            Network("hh", numpy.array([[1, 2], [3, 4]]))

    def test_a_daemon_by_its_word(self) -> None:
        with Network("manne", 6) as net:
            for node in range(1, 6):
                net.link(node, node + 1)
            self.assertGreater(net.settle("seeded").moves, 0)
            self.assertEqual(net.status().enabled, 0)
            self.assertRaisesRegex(
                ValueError, "no daemon has the name 'none': they are synchronous, ", net.settle, "none"
            )

    def test_entries_of_a_picture(self) -> None:
        with Network("hh", 2) as net:
            net.link(1, 2)
            for entry in (2, 16_777_216, 16_777_217, 2**32, -1):
                with self.subTest(entry), self.assertRaises(ValueError):
                    net.picture(entry)
            self.assertRaisesRegex(ValueError, "an entry is 0 to 16777216, and not 16777217", picture, TEXT, 16_777_217)
            self.assertIn("1 -- 2", net.picture(1))

    def test_memoryviews(self) -> None:
        whole = TEXT.encode()
        spread = memoryview(b"".join(bytes([byte, 0]) for byte in whole))[::2]
        rest = array.array("I", whole + b" " * (-len(whole) % 4))
        for view, wanted in (
            (spread, Summary(3, 2, 1)),
            (memoryview(whole), Summary(3, 2, 1)),
            (memoryview(rest), None if len(whole) % 4 else Summary(3, 2, 1)),
        ):
            said = []
            for engine in ("program", "library"):
                with Audit(engine=engine) as judge:
                    calls: list[Callable[[], Summary]] = [
                        lambda: audit(view, engine=engine),
                        lambda: fed(judge, view),
                    ]
                    for call in calls:
                        try:
                            said.append(str(call()))
                        except Exception as error:
                            said.append(repr(error))
            with self.subTest(view.format, contiguous=view.contiguous):
                self.assertEqual(len(set(said)), 1, said)
                if wanted:
                    self.assertEqual(said[0], str(wanted))
        self.assertIn("1 -- 2", picture(spread))

    def test_pages_that_can_not_be_written(self) -> None:
        folder = self.folder()
        before, after = os.path.join(folder, "before.html"), os.path.join(folder, "after.html")
        with open(before, "w", encoding="utf-8") as file:
            file.write("as it was")
        with Network("hh", 2) as net:
            soft, hard = resource.getrlimit(resource.RLIMIT_FSIZE)
            resource.setrlimit(resource.RLIMIT_FSIZE, (1000, hard))
            try:
                for path in (before, after, "/dev/full", os.path.join(folder, "none", "page.html")):
                    with self.subTest(path), self.assertRaises(OSError):
                        net.play(path)
            finally:
                resource.setrlimit(resource.RLIMIT_FSIZE, (soft, hard))
            self.assertEqual(os.listdir(folder), ["before.html"])
            with open(before, encoding="utf-8") as file:
                self.assertEqual(file.read(), "as it was")
            os.chmod(before, 0o640)
            os.symlink("before.html", after)
            net.play(after)
            self.assertTrue(os.path.islink(after))
            self.assertEqual(os.stat(before).st_mode & 0o777, 0o640)
            self.assertEqual(sorted(os.listdir(folder)), ["after.html", "before.html"])
            with open(before, encoding="utf-8") as file:
                self.assertEqual(file.readline(), "<!DOCTYPE html>\n")


class Children(Timed):
    engines = ("program", "library")

    def calls(self, net: Network) -> dict[str, Callable[[], Any]]:
        batch = net.batch()
        return {
            "link": lambda: net.link(1, 2),
            "unlink": lambda: net.unlink(1, 2),
            "point": lambda: net.point(1, None),
            "flag": lambda: net.flag(1, True),
            "join": lambda: net.join(1),
            "leave": lambda: net.leave(1),
            "step": lambda: net.step([1]),
            "show": lambda: net.show(1),
            "enabled": net.enabled,
            "matching": net.matching,
            "status": net.status,
            "drive": lambda: net.drive(1, 1),
            "scramble": lambda: net.scramble(1, 1),
            "checkpoint": net.checkpoint,
            "cost_of": lambda: net.cost_of("leave", 1),
            "settle": lambda: net.settle(list),
            "batch": lambda: batch.show(1).result(),
            "edges": lambda: net.edges,
            "present": lambda: net.present,
            "neighbours": lambda: net.neighbours(1),
            "registers": lambda: net.registers(1),
            "partner": lambda: net.partner(1),
            "follower": lambda: net.follower().state(),
            "transcript": net.transcript,
            "audit": net.audit,
            "picture": net.picture,
        }

    def test_each_call_raises_ended(self) -> None:
        with Network("manne", 3) as net:
            net.link(1, 2)
            net.transcript()
            calls = self.calls(net)
            go, come = os.pipe()
            child = os.fork()
            if child == 0:
                for name, call in calls.items():
                    try:
                        told = f"answered {call()!r}"
                    except Ended as ended:
                        told = str(ended)
                    except BaseException as error:
                        told = repr(error)
                    os.write(come, f"{name}: {told}\n".encode())
                net.close()
                os.write(come, f"{net!r}\n".encode())
                with Network("manne", 2) as own:
                    os.write(come, f"{own.link(1, 2).entry}\n".encode())
                os._exit(0)
            os.waitpid(child, 0)
            os.close(come)
            with open(go, encoding="utf-8") as file:
                *said, shown, entry = file.read().splitlines()
            words = "the network belongs to another process, of which this one is a child: "
            words += "ask it there, or replay its transcript here"
            self.assertEqual(said, [f"{name}: {words}" for name in calls])
            self.assertEqual((shown, entry), (f"<Network manne, 3 nodes, 1 entry, {words}>", "1"))
            self.assertEqual(net.show(1).entry, 2)
            self.assertEqual(net.edges, [(1, 2)])
        self.assertEqual(net.transcript().count(" = "), 2)


class ShortOfMemory(Timed):
    engines = ("program", "library")

    def test_it_is_told_which_entry_was_carried_out(self) -> None:
        with Network("manne", 3) as net:
            net.link(1, 2)
            with self.no_memory_for("enabled"), self.assertRaises(NoReply) as raised:
                net.enabled()
            self.assertIsInstance(raised.exception, MemoryError)
            self.assertEqual(raised.exception.entry, 2)
            self.assertIn("\n2 enabled = 1:seduce\n", net.transcript())
            self.assertEqual(net.status().entry, 3)

    def no_memory_for(self, kind: str) -> Any:
        def refuse(*_: object) -> None:
            raise MemoryError

        names = {"library": f"rudekpi.calls.{kind}_of", "program": f"rudekpi.batch.read_{kind}"}
        return mock.patch(names[self.engine], refuse)


class Creation(Timed):
    engines = ("program", "library")
    seconds = 120

    def cut_at_random_times(self, make: Callable[[], Any], times: int = 200) -> None:
        """Makes something `times` times, while signals come whose handler raises."""
        main, drawn, cut = threading.get_ident(), random.Random(9), 0
        is_armed, is_sent = [False], threading.Event()

        def handler(*_: object) -> None:
            is_sent.set()
            if is_armed[0]:
                is_armed[0] = False
                raise Cut

        def send() -> None:
            for _ in range(times):
                while not is_armed[0]:
                    time.sleep(0.00005)
                time.sleep(drawn.random() * 0.003)
                is_sent.clear()
                signal.pthread_kill(main, signal.SIGUSR1)
                is_sent.wait()

        self.addCleanup(signal.signal, signal.SIGUSR1, signal.signal(signal.SIGUSR1, handler))
        self.addCleanup(setattr, sys, "unraisablehook", sys.unraisablehook)
        sys.unraisablehook = lambda told: self.assertIs(told.exc_type, Cut)
        sender = threading.Thread(target=send, daemon=True)
        sender.start()
        while sender.is_alive():
            try:
                while sender.is_alive():
                    # again, since one that is raised in a finalizer is only reported
                    is_armed[0] = True
                    make()
                is_armed[0] = False
            except Cut:
                cut += 1
        sender.join()
        gc.collect()
        self.assertGreater(cut, times // 20)

    def test_no_process_is_left(self) -> None:
        before = set(children())
        self.cut_at_random_times(lambda: Network("hh", 2))
        self.assertEqual(set(children()), before)

    def test_of_an_audit(self) -> None:
        before = set(children())
        self.cut_at_random_times(Audit)
        self.assertEqual(set(children()), before)


if __name__ == "__main__":
    unittest.main()
