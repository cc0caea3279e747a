"""Signal handlers ask in the middle of a call; RUDEKPI_SIGNALS is how many signals of each kind come."""

from __future__ import annotations

import os
import random
import re
import signal
import sys
import threading
import time
import unittest
from types import FrameType
from typing import Any, Callable

import rudekpi
from rudekpi import Audit, Base, Network, RudekpiError, Turns, audit
from support import Timed, play, spelled, told

PACKAGE = os.path.dirname(rudekpi.__file__)
SIGNALS = int(os.environ.get("RUDEKPI_SIGNALS", "60"))
NODES = 12
# questions, each a line of a script; in so small a network each is sometimes refused
LINES = (
    "show 9",
    "enabled",
    "matching",
    "status",
    "link 3 7",
    "unlink 3 7",
    "point 4 5",
    "flag 2 1",
    "leave 12",
    "join 12",
    "step 1 2 3",
    "drive 7 3",
    "scramble 5 4",
    "checkpoint",
)
BASE_HEAD = re.compile(r"base [0-9]+ spent=.*")


class Recorded:
    def __init__(self, net: Network) -> None:
        self.net = net
        self.answers: list[tuple[int, str]] = []

    def ask(self, line: str) -> None:
        call: Callable[[], Any] = lambda: play(self.net, line)
        reply = told(call)
        if isinstance(reply, Turns):
            self.answers += [(it.entry, spelled(it)) for it in reply]
            self.answers.append((reply.status.entry, spelled(reply.status)))
        elif isinstance(reply, Base):
            self.answers.append((-1, spelled(reply)))
        else:
            self.answers.append((reply.entry, spelled(reply)))


class AskAt:
    """Asks before the package's instruction of this number, counted from the entry of a `with`."""

    def __init__(self, number: int, ask: Callable[[], object]) -> None:
        self.left, self.ask = number, ask

    def trace(self, frame: FrameType, event: str, _: object) -> Any:
        if not frame.f_code.co_filename.startswith(PACKAGE):
            return None
        frame.f_trace_opcodes, frame.f_trace_lines = True, False
        if event == "opcode":
            self.left -= 1
            if self.left == -1:
                self.ask()
        return self.trace

    def __enter__(self) -> AskAt:
        self.before = sys.gettrace()
        sys.settrace(self.trace)
        return self

    def __exit__(self, *_: object) -> None:
        sys.settrace(self.before)


class Asking(Timed):
    engines = ("program", "library")
    seconds = 600

    def network(self, **words: Any) -> Network:
        net = Network("manne", NODES, **words)
        with net.batch() as batch:
            for node in range(1, NODES):
                batch.link(node, node + 1)
        net.scramble(1, 20)
        return net

    def expect_all_told(self, recorded: Recorded, first: int) -> None:
        """Each entry from `first` on is reported once, as the transcript has it."""
        said = recorded.net.transcript()
        self.assertEqual(audit(said, engine="program").entries, said.count(" = "))
        lines = [line.partition(" = ") for line in said.splitlines() if " = " in line]
        replies = {int(head.split(" ")[0]): (head.split(" ", 1)[1], reply) for head, _, reply in lines}
        asked = sorted(it for it in recorded.answers if it[0] >= 0)
        self.assertEqual([entry for entry, _ in asked], list(range(first, len(replies) + 1)))
        for entry, text in asked:
            event, reply = replies[entry]
            # for a fault the event is recorded
            wanted = event if text.startswith(("point ", "flag ")) else reply
            if text != wanted:
                raise AssertionError(f"entry {entry}: told {text!r}, and written is {event!r}: {reply!r}")
        bases = [text for entry, text in recorded.answers if entry < 0]
        for text in bases:
            self.assertIn(f"\n{text}\n", said)
        self.assertEqual(len(bases), len(re.findall(r"^base ", said, re.M)))


class EachInstruction(Asking):
    def ask_everywhere(self, outer: str, inner: str, step: int, **words: Any) -> None:
        with self.network(**words) as net:
            recorded, first = Recorded(net), net.status().entry + 1
            for number in range(0, 1_000_000, step):
                with AskAt(number, lambda: recorded.ask(inner)) as at:
                    recorded.ask(outer)
                if at.left >= 0:
                    break
            self.expect_all_told(recorded, first)
        if number < 30:
            self.skipTest("this Python traces no instructions here")

    def test_of_an_answer(self) -> None:
        self.ask_everywhere("show 9", "status", 1)

    def test_of_each_kind_of_answer(self) -> None:
        drawn = random.Random(2)
        for line in LINES:
            with self.subTest(line):
                self.ask_everywhere(line, drawn.choice(LINES), 5)

    def test_of_a_batch(self) -> None:
        with self.network() as net:
            recorded, first = Recorded(net), net.status().entry + 1
            for number in range(0, 1_000_000, 7):
                with AskAt(number, lambda: recorded.ask("enabled")) as at:
                    with net.batch(raises=False) as batch:
                        asked = [play(batch, line) for line in ("link 1 3", "link 1 3", "unlink 1 3", "show 2")]
                for pending in asked:
                    reply: Any = told(pending.result)
                    recorded.answers.append((reply.entry, spelled(reply)))
                self.assertEqual(len(batch.refusals), 1)
                if at.left >= 0:
                    break
            self.expect_all_told(recorded, first)

    def test_of_a_look_at_the_state(self) -> None:
        with self.network() as net:
            recorded, first = Recorded(net), net.status().entry + 1

            def ask() -> object:
                recorded.ask("leave 12")
                recorded.ask("join 12")
                return net.edges

            for number in range(0, 1_000_000, 23):
                with AskAt(number, ask) as at:
                    self.assertNotIn((11, 12), [] if number == 0 else net.edges)
                    self.assertIn(12, net.present if number % 2 else [12])
                    self.assertEqual(net.neighbours(1), [2])
                if at.left >= 0:
                    break
            self.expect_all_told(recorded, first)


class Handlers(Asking):
    def signalled(self, count: int, handler: Callable[[], None], play_on: Callable[[], None]) -> None:
        """Plays until signals from another thread called the handler `count` times."""
        main, drawn = threading.get_ident(), random.Random(count)
        handled, failed = [0], []

        def handle(*_: object) -> None:
            try:
                handler()
            except BaseException as error:
                failed.append(error)
            handled[0] += 1

        def send() -> None:
            for number in range(count):
                time.sleep(drawn.random() * 0.0004)
                signal.pthread_kill(main, signal.SIGUSR1)
                while handled[0] <= number:
                    time.sleep(0.00002)

        self.addCleanup(signal.signal, signal.SIGUSR1, signal.signal(signal.SIGUSR1, handle))
        sender = threading.Thread(target=send, daemon=True)
        sender.start()
        while sender.is_alive():
            play_on()
        sender.join()
        if failed:
            raise failed[0]

    def try_handler(self, asks: Callable[[Recorded], None], count: int = SIGNALS) -> None:
        with self.network() as net:
            recorded, first = Recorded(net), net.status().entry + 1
            lines = random.Random(5)
            self.signalled(count, lambda: asks(recorded), lambda: recorded.ask(lines.choice(LINES)))
            self.expect_all_told(recorded, first)

    def test_that_ask_each_kind(self) -> None:
        for line in LINES:
            with self.subTest(line):
                self.try_handler(lambda recorded: recorded.ask(line))

    def test_that_look_at_the_transcript(self) -> None:
        def look(recorded: Recorded) -> None:
            said = recorded.net.transcript()
            with Audit(engine="library" if recorded.net.engine == "library" else "program") as judge:
                judge.feed(said)
                judge.finish()

        self.try_handler(look, max(20, SIGNALS // 10) if self.engine == "program" else SIGNALS)

    def test_that_look_at_the_state(self) -> None:
        def look(recorded: Recorded) -> None:
            net = recorded.net
            edges, present = net.edges, net.present
            self.assertLessEqual({node for edge in edges for node in edge}, set(present))
            for node in present[:3]:
                self.assertEqual(
                    sorted(net.neighbours(node)), sorted({a + b - node for a, b in edges if node in (a, b)})
                )
                partner = net.partner(node)
                if partner is not None:
                    self.assertEqual((net.registers(node).pointer, net.partner(partner)), (partner, node))
            self.assertIn("12 nodes", repr(net))

        self.try_handler(look)

    def test_in_the_middle_of_a_look_at_the_state(self) -> None:
        with self.network() as net:
            recorded, first, lines = (Recorded(net), net.status().entry + 1, random.Random(3))

            def look() -> None:
                edges = net.edges
                self.assertLessEqual({node for edge in edges for node in edge}, set(range(1, NODES + 1)))
                net.present, net.transcript()

            self.signalled(SIGNALS, lambda: recorded.ask(lines.choice(LINES)), look)
            self.expect_all_told(recorded, first)

    def test_that_ask_in_batches(self) -> None:
        def ask(recorded: Recorded) -> None:
            with recorded.net.batch(raises=False) as batch:
                shown, status = batch.show(3), batch.status()
            recorded.answers.append((shown.result().entry, spelled(shown.result())))
            recorded.answers.append((status.result().entry, spelled(status.result())))

        self.try_handler(ask)
        with self.network() as net:
            recorded, first = Recorded(net), net.status().entry + 1

            def play_on() -> None:
                with net.batch(raises=False) as batch:
                    asked = [play(batch, line) for line in ("link 1 3", "unlink 1 3", "unlink 1 3", "show 2") * 50]
                refused = [it.entry for it in batch.refusals]
                self.assertEqual(refused, sorted(set(refused)))
                for it in asked:
                    reply = told(it.result)
                    recorded.answers.append((reply.entry, spelled(reply)))
                    self.assertEqual(isinstance(reply, RudekpiError), reply.entry in refused)

            self.signalled(SIGNALS, lambda: ask(recorded), play_on)
            self.expect_all_told(recorded, first)

    def test_of_one_that_is_kept_from_a_checkpoint_on(self) -> None:
        lines = random.Random(3)
        with self.network(keep=False) as net:
            recorded = Recorded(net)

            def ask() -> None:
                recorded.ask(lines.choice(["checkpoint", "drive 3 3", "status", "link 5 9"]))
                audit(net.transcript(), engine="library" if net.engine == "library" else "program")

            count = SIGNALS if self.engine == "library" else max(20, SIGNALS // 10)
            self.signalled(count, ask, lambda: recorded.ask(lines.choice(LINES)))
            last = net.status().entry
            asked = sorted(entry for entry, _ in recorded.answers if entry >= 0)
            self.assertEqual(asked, list(range(asked[0], last)))
            net.checkpoint()
            self.assertTrue(net.transcript().startswith("matching2 manne 12\n"))
            self.assertLess(len(net.transcript()), 1000)

    def test_in_the_middle_of_an_audit_that_is_fed(self) -> None:
        with self.network() as net:
            text = net.transcript().encode()
        for turn in range(max(5, SIGNALS // 20)):
            judge, busy = Audit(), []

            def handle() -> None:
                try:
                    judge.feed(b"")
                except ValueError as error:
                    busy.append(str(error))

            fed = iter([text[at : at + 7] for at in range(0, len(text), 7)])
            self.signalled(9, handle, lambda: judge.feed(next(fed, b"")))
            for piece in fed:
                judge.feed(piece)
            self.assertEqual(judge.finish(), audit(text))
            is_told = {"the audit is in the middle of another call"} if self.engine == "program" else set()
            self.assertLessEqual(set(busy), is_told)
            judge.close()

    def test_that_end_it(self) -> None:
        for turn in range(max(6, SIGNALS // 20)):
            net = self.network()
            said = []

            def play_on() -> None:
                try:
                    net.show(9)
                except ValueError as error:
                    said.append(str(error))

            self.signalled(1, net.close, play_on)
            # the signal may have come after the last of its calls
            play_on()
            self.assertEqual(set(said), {"the network is closed"})
            self.assertEqual(net.audit().entries, net.transcript().count(" = "))


if __name__ == "__main__":
    unittest.main()
