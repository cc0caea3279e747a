"""The library as an engine: path, replies, threads, interrupts, children, leaks."""

from __future__ import annotations

import gc
import os
import pathlib
import random
import resource
import signal
import subprocess
import sys
import threading
import time
import unittest
import weakref
from typing import Any, Callable, Iterable, Optional, Union
from unittest import mock

from rudekpi import Audit, Damaged, Ended, Network, NoSuchCommand, Refused, Summary, audit, library
from rudekpi.audits import Text
from rudekpi.replies import Name
from rudekpi.state import State
from support import TOP, Timed, play, told


class Cut(BaseException):
    """The exception of these tests' interrupts."""


class Chosen(Timed):
    def test_by_the_argument_and_the_environment(self) -> None:
        for engine in ("program", "library"):
            if engine == "library" and not library.found_library():
                continue
            with self.subTest(engine), Network("hh", 2, engine=engine) as net:
                self.assertEqual(net.engine, engine)
            with mock.patch.dict(os.environ, RUDEKPI_ENGINE=engine), Network("hh", 2) as net:
                self.assertEqual(net.engine, engine)
        with Network("hh", 2, program=os.environ["RUDEKPI_CONSOLE"]) as net:
            self.assertEqual(net.engine, "program")
        with mock.patch.dict(os.environ, RUDEKPI_ENGINE=""), Network("hh", 2) as net:
            self.assertEqual(net.engine, "library" if library.found_library() else "program")

    def test_that_is_none(self) -> None:
        self.assertRaisesRegex(ValueError, "an engine is", Network, "hh", 2, engine="pipe")
        self.assertRaisesRegex(ValueError, "runs no program", Network, "hh", 2, engine="library", program="console")
        self.assertRaisesRegex(ValueError, "an engine is", audit, "matching hh 2\n", engine="pipe")

    def test_a_library_that_is_none(self) -> None:
        path = pathlib.Path(self.folder(), "librudekpi.so")
        with mock.patch.dict(os.environ, RUDEKPI_LIBRARY=str(path), RUDEKPI_ENGINE=""):
            self.assertRaisesRegex(FileNotFoundError, str(path), Network, "hh", 2, engine="library")
            path.write_bytes(b"no library")
            self.assertRaises(OSError, Network, "hh", 2, engine="library")
            with Network("hh", 2) as net:
                self.assertEqual(net.engine, "program")

    def test_a_library_that_lacks_calls(self) -> None:
        libc = next(
            (
                line.split()[-1]
                for line in pathlib.Path("/proc/self/maps").read_text(encoding="utf-8").splitlines()
                if "/libc.so" in line or "/libc-" in line
            ),
            None,
        )
        if libc is None:
            self.skipTest("no libc.so")
        with mock.patch.dict(os.environ, RUDEKPI_LIBRARY=libc):
            self.assertRaisesRegex(OSError, "is no library of this package", Network, "hh", 2, engine="library")


class Same(Timed):
    engines = ("library",)
    seconds = 120

    def lines(self, drawn: random.Random, nodes: int) -> list[str]:
        node: Callable[[], int] = lambda: drawn.randint(1, nodes + 1)
        kinds: list[Callable[[], str]] = [
            lambda: f"link {node()} {node()}",
            lambda: f"link {node()} {node()}",
            lambda: f"unlink {node()} {node()}",
            lambda: f"flag {node()} {drawn.randint(0, 1)}",
            lambda: f"point {node()} {drawn.choice(['-', node()])}",
            lambda: f"join {node()}",
            lambda: f"leave {node()}",
            lambda: f"show {node()}",
            lambda: "step "
            + " ".join(drawn.choice([f"{node()}", f"{node()}>{node()}"]) for _ in range(drawn.randint(1, 3))),
            lambda: "enabled",
            lambda: "matching",
            lambda: "status",
            lambda: "checkpoint",
            lambda: f"drive {drawn.randint(0, 2**64 - 1)} {drawn.randint(0, 9)}",
            lambda: f"scramble {drawn.randint(0, 9)} {drawn.randint(0, 5)}",
        ]
        return [drawn.choice(kinds)() for _ in range(drawn.randint(1, 60))]

    def test_random_scripts(self) -> None:
        for seed in range(60):
            drawn = random.Random(seed)
            nodes, rules, keep = drawn.randint(1, 8), drawn.choice(["hh", "manne"]), drawn.random() < 0.7
            kinds: list[Union[int, list[str]]] = [nodes, [f"n{number}" for number in range(nodes)]]
            names = drawn.choice(kinds)

            def name(text: str) -> Name:
                return int(text) if names == nodes else f"n{int(text) - 1}"

            lines, found = self.lines(drawn, nodes), []
            if names != nodes:
                # the client itself refuses an invalid name
                lines = [
                    line
                    for line in lines
                    if str(nodes + 1) not in line.replace(">", " ").split(" ")[1:]
                    or line.startswith(("drive", "scramble"))
                ]
            for engine in library.ENGINES:
                with Network(
                    rules, names, present=drawn.randint(0, 0) or nodes - nodes // 3, engine=engine, keep=keep
                ) as net:
                    said = [told(lambda: play(net, line, name)) for line in lines]
                    found.append(
                        (
                            [repr(it) for it in said],
                            net.edges,
                            net.present,
                            [net.partner(it) for it in net.present],
                            net.transcript(),
                        )
                    )
            with self.subTest(seed=seed):
                self.assertEqual(*found)
                self.assertEqual(audit(found[0][-1]), audit(found[0][-1], engine="program"))

    def test_in_batches(self) -> None:
        for seed in range(20):
            drawn = random.Random(seed)
            lines, found = self.lines(drawn, 6), []
            for engine in library.ENGINES:
                with Network("manne", 6, engine=engine) as net:
                    with net.batch(raises=False) as batch:
                        asked = [play(batch, line) for line in lines]
                    found.append(
                        ([repr(told(it.result)) for it in asked], [repr(it) for it in batch.refusals], net.transcript())
                    )
            with self.subTest(seed=seed):
                self.assertEqual(*found)

    def test_verdicts_on_damaged_ones(self) -> None:
        drawn, whys = random.Random(2), set()
        with Network("manne", 9) as net:
            with net.batch() as batch:
                for node in range(1, 9):
                    batch.link(node, node + 1)
                for turn in range(6):
                    batch.scramble(turn, 6)
                    batch.drive(turn, 20)
                    batch.checkpoint()
            whole = net.transcript().encode()

        def verdict(text: Text, engine: str) -> Union[Summary, tuple[int, str]]:
            try:
                return audit(text, engine=engine)
            except Damaged as damaged:
                whys.add(damaged.why)
                return damaged.line, damaged.why

        for turn in range(150):
            at, other = drawn.randrange(len(whole)), bytes([drawn.choice(b"0123456789 -=>:\nabe")])
            text = whole[:at] + drawn.choice([other + whole[at + 1 :], whole[at + 1 :], other + whole[at:]])
            with self.subTest(turn):
                self.assertEqual(verdict(text, "library"), verdict(text, "program"))
        self.assertEqual(whys, {"not a transcript line", "out of order", "not the machine's reply", "bad base"})
        texts: list[Text] = [
            b"",
            b"x",
            "matching hh 2\n",
            bytearray(b"matching hh 2\n"),
            memoryview(b"matching hh 2\n1 show 1 = 2\n"),
        ]
        for given in texts:
            self.assertEqual(verdict(given, "library"), verdict(given, "program"))


class CostsTold(Timed):
    """The table in docs/BOUNDS.md, worked out by hand."""

    engines = ("library",)
    # ann and bob are a pair with two other edges each; cleo points at ann, unanswered; gus is absent
    names = ("ann", "bob", "cleo", "dan", "eve", "fay", "gus")
    # a call, and its cost under `hh` and `manne`, or why it is refused
    rows: tuple[tuple[tuple[Any, ...], Union[int, str], Union[int, str]], ...] = (
        (("link", "cleo", "dan"), 2, 2),
        (("unlink", "ann", "bob"), 8, 12),
        (("unlink", "ann", "cleo"), 4, 0),
        (("unlink", "bob", "eve"), 0, 0),
        (("point", "ann", "cleo"), 12, 16),
        (("point", "cleo", None), 6, 2),
        (("point", "dan", "ann"), 1, 1),
        (("flag", "ann", True), "no-flag", 7),
        (("flag", "dan", 1), "no-flag", 1),
        (("join", "gus"), 0, 1),
        (("leave", "ann"), 4, 6),
        (("leave", "cleo"), 4, 0),
        (("leave", "dan"), 0, 0),
        (("link", "ann", "bob"), "already-linked", "already-linked"),
        (("link", "ann", "ann"), "self-loop", "self-loop"),
        (("unlink", "cleo", "dan"), "not-linked", "not-linked"),
        (("link", "ann", "gus"), "unknown-node", "unknown-node"),
        (("leave", "gus"), "unknown-node", "unknown-node"),
        (("join", "ann"), "already-present", "already-present"),
        (("point", "dan", "eve"), "not-neighbour", "not-neighbour"),
    )

    def network(self, rules: str, engine: Optional[str] = None) -> Network:
        net = Network(rules, self.names, present=6, engine=engine)
        for a, b in (("ann", "bob"), ("ann", "cleo"), ("ann", "dan"), ("bob", "eve"), ("bob", "fay")):
            net.link(a, b)
        for a, b in (("ann", "bob"), ("bob", "ann"), ("cleo", "ann")):
            net.point(a, b)
        return net

    def test_by_the_library(self) -> None:
        for at, rules in enumerate(("hh", "manne")):
            with self.network(rules, "library") as net:
                before = net.transcript()
                for event, *costs in self.rows:
                    with self.subTest(rules, event=event):
                        if isinstance(costs[at], str):
                            why = rf"{event[0]} 'ann'.* would be refused \({costs[at]}\), so it has no cost"
                            self.assertRaisesRegex(
                                ValueError, why.replace("'ann'", repr(event[1])), net.cost_of, *event
                            )
                        else:
                            self.assertEqual(net.cost_of(*event), costs[at])
                self.assertEqual(net.transcript(), before)
                self.assertRaisesRegex(ValueError, "no node has the name 'zoe'", net.cost_of, "link", "ann", "zoe")
                self.assertRaisesRegex(ValueError, "has a cost, and not 'step'", net.cost_of, "step", "ann")
                self.assertRaisesRegex(ValueError, "a flag", net.cost_of, "flag", "ann", 2)
                self.assertRaises(TypeError, net.cost_of, "link", "ann")
            self.assertRaisesRegex(ValueError, "closed", net.cost_of, "leave", "ann")

    def test_that_are_none_are_those_of_what_is_refused(self) -> None:
        drawn, refused = random.Random(4), set()
        for rules in ("hh", "manne"):
            with Network(rules, 6, present=5, engine="library") as net:
                for _ in range(1500):
                    a, b = drawn.randint(1, 7), drawn.randint(1, 7)
                    event = drawn.choice(
                        [("link", a, b), ("unlink", a, b), ("point", a, drawn.choice([b, None])), ("flag", a, b % 2)]
                        + [("join", a), ("leave", a)]
                    )
                    try:
                        why = "" if net.cost_of(*event) >= 0 else "less than nothing"
                    except ValueError as error:
                        why = str(error)
                    call: Callable[[], Any] = lambda: getattr(net, event[0])(*event[1:])
                    done = told(call)
                    self.assertEqual(bool(why), isinstance(done, Refused), event)
                    if why:
                        self.assertIn(f"would be refused ({done.text})", why)
                        refused.add(done.text)
        kinds = {
            "unknown-node",
            "self-loop",
            "already-linked",
            "not-linked",
            "not-neighbour",
            "no-flag",
            "already-present",
        }
        self.assertEqual(refused, kinds)

    def test_by_the_program(self) -> None:
        with self.network("hh", "program") as net:
            self.assertRaisesRegex(
                NoSuchCommand, "the program tells no cost of unlink beforehand", net.cost_of, "unlink", "ann", "bob"
            )
            self.assertRaisesRegex(ValueError, "has a cost, and not 'show'", net.cost_of, "show", "ann")
            self.assertEqual(net.link("cleo", "dan").entry, 9)


class SilentCosts(Timed):
    """Ann and bob are a pair, bob and cy are linked, cy points nowhere: no rule is enabled."""

    # each event with its costs under hh and under manne; none if refused
    rows: list[tuple[Any, ...]] = [
        (("link", "ann", "cy"), 0, 0),
        (("link", "cy", "dan"), 2, 4),
        (("unlink", "ann", "bob"), 2, 8),
        (("unlink", "bob", "cy"), 0, 0),
        (("leave", "ann"), 2, 5),
        (("leave", "bob"), 0, 3),
        (("leave", "cy"), 0, 0),
        (("join", "eve"), 0, 0),
        (("point", "ann", None), 3, 11),
        (("point", "ann", "bob"), 0, 0),
        (("point", "bob", "cy"), 4, 12),
        (("point", "cy", "bob"), 1, 1),
        (("point", "cy", None), 0, 0),
        (("flag", "ann", 0), None, 1),
        (("flag", "ann", 1), None, 0),
    ]

    def test_by_hand(self) -> None:
        for at, rules in enumerate(("hh", "manne")):
            with Network(rules, ["ann", "bob", "cy", "dan", "eve"], present=4, engine="library") as net:
                net.link("ann", "bob")
                net.link("bob", "cy")
                self.assertIsNone(net.silent_cost_of("unlink", "ann", "bob"))
                net.step(["ann"])
                net.step(["bob"])
                if rules == "manne":
                    net.step(["ann", "bob"])
                before = net.transcript()
                for event, *costs in self.rows:
                    with self.subTest(rules, event=event):
                        if costs[at] is None:
                            self.assertRaisesRegex(ValueError, "no-flag", net.silent_cost_of, *event)
                        else:
                            self.assertEqual(net.silent_cost_of(*event), costs[at])
                self.assertEqual(net.transcript(), before)
                self.assertRaisesRegex(ValueError, "not-linked", net.silent_cost_of, "unlink", "ann", "cy")
                self.assertRaises(TypeError, net.silent_cost_of, "link", "ann")

    def test_by_the_program(self) -> None:
        with Network("hh", 2, engine="program") as net:
            self.assertRaises(NoSuchCommand, net.silent_cost_of, "link", 1, 2)


class Partners(Timed):
    """The library's answers, not derived from a transcript by the client."""

    def test_the_proved_answer_counts(self) -> None:
        with Network("hh", ["ann", "bob", "cleo", "dan"], present=3) as net:
            net.link("ann", "bob")
            net.link("bob", "cleo")
            net.point("ann", "bob")
            self.assertEqual([net.partner(it) for it in ("ann", "bob", "cleo")], [None, None, None])
            net.point("bob", "ann")
            self.assertEqual([net.partner(it) for it in ("ann", "bob", "cleo")], ["bob", "ann", None])
            self.assertRaisesRegex(ValueError, "node 'dan' is not present", net.partner, "dan")
            self.assertRaisesRegex(ValueError, "no node has the name 'zoe'", net.partner, "zoe")
            # a wrong state is not believed if the library answers that none is there
            with mock.patch.object(State, "partner", lambda *_: 2):
                self.assertEqual(net.partner("cleo"), None if net.engine == "library" else "bob")
        self.assertEqual(
            [net.partner(it) for it in ("ann", "bob", "cleo")], ["bob", "ann", None], "and of a closed one"
        )


class Pieces(Timed):
    """Their verdict is that of `audit` on the whole."""

    text = "matching hh 2\n1 link 1 2 = ok\n2 enabled = 1:seduce 2:seduce\n3 step 1 = 1:seduce>2\n"

    def verdict(self, pieces: Iterable[Text]) -> Union[Summary, str]:
        with Audit() as judge:
            try:
                for piece in pieces:
                    judge.feed(piece)
                return judge.finish()
            except Damaged as damaged:
                return str(damaged)

    def test_cut_anywhere(self) -> None:
        whole = self.text.encode()
        for text, wanted in (
            (whole, Summary(3, 2, 1)),
            (whole[:-1], "line 4: not a transcript line"),
            (b"", "line 1: bad header"),
            (whole.replace(b">2", b">1"), "line 4: not the machine's reply"),
        ):
            for size in (1, 7, 100):
                with self.subTest(text, size=size):
                    self.assertEqual(self.verdict(text[at : at + size] for at in range(0, len(text), size)), wanted)
        self.assertEqual(
            self.verdict([self.text[:20], bytearray(whole[20:40]), memoryview(whole)[40:]]), Summary(3, 2, 1)
        )

    def test_what_is_said_once_is_said_again(self) -> None:
        with Audit() as judge:
            judge.feed(self.text)
            for _ in range(2):
                self.assertEqual(judge.finish(), Summary(3, 2, 1))
            self.assertRaisesRegex(ValueError, "the audit is over", judge.feed, "4 status")
        self.assertEqual(judge.finish(), Summary(3, 2, 1))
        judge = Audit()

        def feed() -> None:
            for _ in range(99):
                judge.feed("no header\n" * 9999)

        self.assertRaises(Damaged, feed)
        for ask in (judge.finish, lambda: judge.feed(self.text), judge.finish):
            self.assertRaisesRegex(Damaged, "line 1: bad header", ask)
        judge.close()
        judge.close()

    def test_that_is_closed(self) -> None:
        with Audit() as judge:
            judge.feed(self.text)
        for ask in (judge.finish, lambda: judge.feed("x")):
            self.assertRaisesRegex(ValueError, "the audit is closed", ask)

    def test_that_nobody_closes(self) -> None:
        before = resource.getrusage(resource.RUSAGE_SELF).ru_maxrss
        for _ in range(60 if Audit().engine == "library" else 3):
            judge = Audit()
            # an unfinished line is held whole: a megabyte
            judge.feed(b"matching hh 2\n" + b"1" * (1 << 20))
            ended = weakref.ref(judge._judge)
            del judge
            self.assertIsNone(ended())
        self.assertLess(resource.getrusage(resource.RUSAGE_SELF).ru_maxrss - before, 30_000)


class Threads(Timed):
    engines = ("library",)

    def in_threads(self, call: Callable[[int], object], count: int = 4) -> None:
        """Runs a call with each thread's number; raises what one of them raises."""
        raised: list[BaseException] = []

        def called(number: int) -> None:
            try:
                call(number)
            except BaseException as error:
                raised.append(error)

        threads = [threading.Thread(target=called, args=(number,)) for number in range(count)]
        for thread in threads:
            thread.start()
        for thread in threads:
            thread.join()
        if raised:
            raise raised[0]

    def test_each_with_a_session(self) -> None:
        said = {}

        def call(number: int) -> None:
            with Network("manne", 30) as net:
                for turn in range(20):
                    told(lambda: net.link(1 + turn, 2 + turn))
                    net.scramble(number, 10)
                    net.drive(number, 50)
                said[number] = net.transcript()

        self.in_threads(call)
        together = dict(said)
        for number in range(4):
            call(number)
        self.assertEqual(said, together)

    def test_one_session_of_several(self) -> None:
        with Network("manne", 40) as net:

            def call(number: int) -> None:
                for turn in range(150):
                    a, b = random.Random(f"{number} {turn}").sample(range(1, 41), 2)
                    linked = told(lambda: net.link(a, b))
                    if isinstance(linked, Refused) and linked.number != 3:
                        raise AssertionError(linked)
                    enabled = net.enabled()
                    self.assertTrue(all(rule in library.MOVES for rule in enabled.values()))
                    self.assertEqual(net.show(a).node, a)
                    if turn % 30 == 0:
                        self.assertEqual(len(net.scramble(number, 7)), 7)
                        net.checkpoint()

            self.in_threads(call)
            last = net.status().entry
        self.assertEqual(net.audit().entries, last)
        entries = [int(line.split(" ")[0]) for line in net.transcript().splitlines() if line[0].isdigit()]
        self.assertEqual(entries, list(range(1, last + 1)))

    def test_a_lock_is_not_lost_by_interrupts(self) -> None:
        net, is_done, count = Network("hh", 3), [False], [0]

        def ask() -> None:
            while not is_done[0]:
                net.show(2)
                count[0] += 1

        def handler(*_: object) -> None:
            raise Cut

        self.addCleanup(signal.signal, signal.SIGVTALRM, signal.signal(signal.SIGVTALRM, handler))
        other = threading.Thread(target=ask)
        other.start()
        drawn, cut = random.Random(3), 0
        for _ in range(300):
            try:
                signal.setitimer(signal.ITIMER_VIRTUAL, 1e-4 + drawn.random() * 1e-3)
                while True:
                    net.show(1)
            except Cut:
                cut += 1
        before = count[0]
        last = time.monotonic() + 10
        while count[0] < before + 10 and time.monotonic() < last:
            time.sleep(0.01)
        self.assertGreaterEqual(count[0], before + 10, "the other thread still gets the lock")
        is_done[0] = True
        other.join(10)
        self.assertFalse(other.is_alive())
        net.close()
        self.assertEqual((cut, net.audit().entries), (300, net.transcript().count(" = ")))


# large replies in less and less memory; counts the outcomes
SHORT_OF_MEMORY = """
import resource, rudekpi
from collections import Counter
size = 15_000
net = rudekpi.Network("manne", size, engine="library")
with net.batch() as batch:
    for node in range(1, size):
        batch.link(node, node + 1)
pages = lambda: int(open("/proc/self/statm").read().split()[0]) * resource.getpagesize()
whole, hard = resource.getrlimit(resource.RLIMIT_AS)
calls = dict(
    enabled=net.enabled,
    step=lambda: net.step(range(1, size, 2)),
    drive=lambda: net.drive(1, 3),
    checkpoint=net.checkpoint,
)
for name, call in calls.items():
    seen = Counter()
    for room in range(0, 9_000_000, 300_000):
        net.scramble(room, 2000)
        last = net.status().entry
        resource.setrlimit(resource.RLIMIT_AS, (pages() + room, hard))
        try:
            reply = call()
            said = "answered"
        except rudekpi.Refused:
            said = "answered"
        except rudekpi.NoReply as short:
            said = "no reply"
            entry = short.entry
        except MemoryError:
            said = "nothing"
        resource.setrlimit(resource.RLIMIT_AS, (whole, hard))
        status = net.status()
        if said == "nothing" and status.entry != last + 1:
            print(f"{name}: {status.entry - last - 1} entries were added where none is told of")
        if said == "no reply" and not (last if name == "checkpoint" else last + 1) <= entry < status.entry:
            print(f"{name}: entry {entry} is told, and the last ones are {last} and {status.entry}")
        seen[said] += 1
        reply = None
    print(name, sorted(seen))
net.close()
print(net.audit().entries == status.entry)
"""


class Memory(Timed):
    engines = ("library",)

    def test_that_is_refused_for_a_reply_is_told_with_its_entry(self) -> None:
        environment = dict(os.environ, PYTHONPATH=os.path.join(TOP, "python"))
        done = subprocess.run(
            [sys.executable, "-c", SHORT_OF_MEMORY], env=environment, capture_output=True, encoding="utf-8"
        )
        self.assertEqual((done.returncode, done.stderr), (0, ""), done.stdout)
        *told, whole = done.stdout.splitlines()
        self.assertEqual([line for line in told if " entr" in line], [])
        for line in told:
            self.assertIn("'answered'", line)
        self.assertGreater(sum("'no reply'" in line for line in told), 1, told)
        self.assertEqual(whole, "True")

    def test_networks_that_nobody_closes(self) -> None:
        before = resource.getrusage(resource.RUSAGE_SELF).ru_maxrss
        for _ in range(150):
            net = Network("manne", 65_535)
            session = weakref.ref(net._session)
            # half of them in a cycle
            setattr(net, "me", net if _ % 2 else None)
            del net
            gc.collect() if _ % 2 else None
            self.assertIsNone(session())
        # a network of so many names takes some 3 MB
        self.assertLess(resource.getrusage(resource.RUSAGE_SELF).ru_maxrss - before, 100_000)

    def test_a_session_of_weeks(self) -> None:
        with Network("hh", 3, keep=False) as net:
            net.link(1, 2)
            before = resource.getrusage(resource.RUSAGE_SELF).ru_maxrss
            for turn in range(40):
                # the turns are entries of some 15 bytes
                net._session.tell(f"scramble {turn} 100000")
                net.checkpoint()
                self.assertLess(len(net.transcript()), 1000)
            self.assertLess(resource.getrusage(resource.RUSAGE_SELF).ru_maxrss - before, 60_000)
            self.assertEqual(net.status().entry, 4_000_042)
            self.assertEqual(net.audit().entries, 1)

    def test_at_the_end_of_the_process(self) -> None:
        uses = "import rudekpi; net = rudekpi.Network('hh', 2); net.link(1, 2); net.me = net; print(net.engine)"
        environment = dict(os.environ, PYTHONPATH=os.path.join(TOP, "python"))
        done = subprocess.run(
            [sys.executable, "-X", "dev", "-W", "error", "-c", uses],
            env=environment,
            capture_output=True,
            encoding="utf-8",
        )
        self.assertEqual((done.returncode, done.stdout, done.stderr), (0, "library\n", ""))

    def test_a_child_of_this_process_asks_nothing(self) -> None:
        with Network("hh", 2) as net:
            batch = net.batch()
            go, come = os.pipe()
            child = os.fork()
            if child == 0:
                said = []
                calls: list[Callable[[], object]] = [
                    net.status,
                    lambda: net.link(1, 2),
                    lambda: batch.show(1),
                    net.checkpoint,
                    lambda: net.drive(1, 1),
                ]
                for call in calls:
                    try:
                        call()
                        said.append("answered")
                    except Ended as ended:
                        said.append(ended.last_line)
                with Network("hh", 2) as own:
                    said.append(str(own.link(1, 2).entry))
                os.write(come, "\n".join(said).encode())
                os._exit(0)
            os.waitpid(child, 0)
            belongs = "the network belongs to another process, of which this one is a child"
            self.assertEqual(os.read(go, 1000).decode().split("\n"), [belongs] * 5 + ["1"])
            self.assertEqual(net.link(1, 2).entry, 1)
        os.close(go)
        os.close(come)


if __name__ == "__main__":
    unittest.main()
