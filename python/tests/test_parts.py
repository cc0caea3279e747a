"""Audits in parts: the verdicts are those of the whole, for correct and damaged transcripts."""

from __future__ import annotations

import concurrent.futures
import os
import pathlib
import pickle
import random
import signal
import threading
import unittest
import unittest.mock
from typing import Any, Callable, Union

from rudekpi import Damaged, Network, Summary, audit, parts
from rudekpi.audits import Slice
from rudekpi.library import found_library
from rudekpi.parts import Held, LostPart, audit_parts
from support import Losing, Timed


def transcript(seed: int, turns: int = 12, nodes: int = 12) -> str:
    """With a base after some of its turns."""
    drawn = random.Random(seed)
    with Network(drawn.choice(["hh", "manne"]), nodes, present=nodes - 2) as net:
        with net.batch(raises=False) as batch:
            for _ in range(turns):
                for _ in range(8):
                    batch.link(*drawn.sample(range(1, nodes + 1), 2))
                batch.join(drawn.randint(1, nodes))
                batch.drive(seed, 12)
                batch.scramble(seed, 4)
                batch.checkpoint()
        return net.transcript()


def verdict(judge: Callable[..., Summary], *words: Any, **more: Any) -> Union[Summary, tuple[int, str]]:
    try:
        return judge(*words, **more)
    except Damaged as damaged:
        return damaged.line, damaged.why


def dies(transcript: object, **words: object) -> None:
    os.kill(os.getpid(), signal.SIGKILL)


class Parts(Timed):
    seconds = 120

    def test_they_meet_at_bases(self) -> None:
        text = transcript(1).encode()
        found = list(parts.parts_of(Held(text), 300))
        self.assertGreater(len(found), 5)
        self.assertEqual((found[0][0], found[-1][1]), (0, len(text)))
        for (start, end), (following, _) in zip(found, found[1:]):
            self.assertTrue(start < following < end)
            shared = text[following:end].decode().splitlines()
            self.assertTrue(shared[0].startswith("matching2 ") and shared[1].startswith("base "))
            numbers = dict(word.split("=") for word in shared[1].split(" ")[2:])
            self.assertEqual(len(shared), 2 + int(numbers["nodes"]) + int(numbers["edges"]))

    def test_bases_are_found_wherever_they_stand(self) -> None:
        text = transcript(4).encode()
        bases = [at for at in range(1, len(text)) if text.startswith(b"\nmatching2 ", at - 1)]
        self.assertEqual(len(bases), 12)
        path = pathlib.Path(self.folder(), "transcript")
        path.write_bytes(text)
        # pieces too small for a base, and pieces with several
        for size in (11, 12, 13, 50, 1000, len(text)):
            with unittest.mock.patch.object(parts, "PIECE", size), open(path, "rb") as file:
                for held in (Held(text), Held(b"", file.fileno(), str(path))):
                    with self.subTest(size=size, file=held.file):
                        found = list(parts.parts_of(held, 0))
                        self.assertEqual([start for start, _ in found], [0, *bases])
                        self.assertEqual(held.lines_before(bases[5]), text[: bases[5]].count(b"\n"))

    def test_the_last_parts_are_the_smaller_ones(self) -> None:
        text = transcript(6, turns=60).encode()
        found = list(parts.parts_of(Held(text), 100, 8))
        self.assertLess(len(found), 40)
        for start, end in found:
            self.assertLess(end - start, (len(text) - start) / 8 + 4000)
        self.assertLess(found[-1][1] - found[-1][0], len(text) / 20)
        self.assertEqual(audit_parts(text, size=100), audit(text))

    def test_right_ones(self) -> None:
        for seed in range(5):
            text = transcript(seed)
            bases = [at for at in range(len(text)) if text.startswith("matching2 ", at)]
            for whole in (text, text[bases[0] :], text[bases[5] :], text[: bases[3]]):
                with self.subTest(seed=seed, length=len(whole)):
                    self.assertEqual(audit_parts(whole, size=200), audit(whole))
        for whole in ("matching hh 3\n", "matching hh 0\nmatching2 hh 0\nbase 0 spent=0 nodes=0 edges=0\n"):
            self.assertEqual(audit_parts(whole, size=0), audit(whole))

    def test_damaged_ones(self) -> None:
        drawn, whys = random.Random(5), set()
        text = transcript(3)
        lines = text.splitlines(keepends=True)
        bases = [at for at, line in enumerate(lines) if line.startswith("base ")]
        for turn in range(120):
            held = list(lines)
            at = drawn.choice(bases) + drawn.randint(-1, 3) if turn % 2 else drawn.randrange(len(held))
            change = drawn.randrange(4)
            if change == 0:
                del held[at]
            elif change == 1:
                held.insert(at, held[at])
            elif change == 2:
                place = drawn.randrange(len(held[at]))
                held[at] = held[at][:place] + drawn.choice("0123456789 =-\n") + held[at][place + 1 :]
            else:
                held = [*held[:at], held[at][: drawn.randrange(len(held[at]))]]
            damaged = "".join(held)
            with self.subTest(turn=turn, line=at + 1, change=change):
                wanted = verdict(audit, damaged)
                whys.add(wanted[1] if isinstance(wanted, tuple) else "")
                self.assertEqual(verdict(audit_parts, damaged, size=100), wanted)
        self.assertGreaterEqual(whys, {"bad base", "not a transcript line", "out of order", "not the machine's reply"})

    def test_of_files_and_in_processes(self) -> None:
        text = transcript(2)
        path = pathlib.Path(self.folder(), "transcript")
        path.write_text(text, encoding="utf-8")
        self.assertEqual(audit_parts(path, size=500), audit(text))
        self.assertEqual(audit(Slice(str(path), 0, len(text))), audit(text))
        self.assertEqual(verdict(audit, Slice(str(path), 5, len(text))), verdict(audit, text[5:]))
        with self.assertRaisesRegex(OSError, "the file became shorter while it was read"):
            audit(Slice(str(path), 0, len(text) + 9))
        self.assertEqual(verdict(audit_parts, pathlib.Path(os.devnull)), verdict(audit, ""))
        with concurrent.futures.ProcessPoolExecutor(2) as executor:
            self.assertEqual(audit_parts(text.encode(), executor, size=500), audit(text))
            self.assertEqual(audit_parts(path, executor, size=500), audit(text))
            with self.assertRaises(Damaged):
                audit_parts(text[:-1], executor, size=500)
        for wrong in ("", "x", "matching2 hh 3\nbase 0 spent=0 nodes=1 edges=0\n"):
            path.write_text(wrong, encoding="utf-8")
            self.assertEqual(verdict(audit_parts, path), verdict(audit, wrong.encode()))
            self.assertEqual(verdict(audit_parts, wrong.encode()), verdict(audit, wrong.encode()))
        self.assertRaises(FileNotFoundError, audit_parts, pathlib.Path("/no/such/transcript"))

    def test_of_a_pipe(self) -> None:
        text, path = transcript(2), pathlib.Path(self.folder(), "pipe")
        os.mkfifo(path)
        writer = threading.Thread(target=path.write_text, args=(text,))
        writer.start()
        self.addCleanup(writer.join)
        self.assertEqual(audit_parts(path, size=500), audit(text))


class Joining(Timed):
    """By the library's call, or without a library by the same sums."""

    def tried(self) -> None:
        fine = Summary(7, 3, 40)
        self.assertEqual(parts.joined(None, fine, 0), fine)
        self.assertEqual(parts.joined(fine, Summary(5, 4, 2), 0), Summary(12, 6, 42))
        for line, why in (
            (2, "bad base"),
            (9, "out of order"),
            (3, "not a transcript line"),
            (8, "not the machine's reply"),
        ):
            with self.assertRaises(Damaged) as caught:
                parts.joined(fine, Damaged(line, why), 30)
            self.assertEqual((caught.exception.line, caught.exception.why), (30 + line, why))
            with self.assertRaises(Damaged) as caught:
                parts.joined(None, Damaged(line, why), 0)
            self.assertEqual((caught.exception.line, caught.exception.why), (line, why))

    def test_by_sums(self) -> None:
        with unittest.mock.patch.object(parts, "found_library", return_value=None):
            self.tried()
            text = transcript(8)
            self.assertEqual(audit_parts(text, size=100), audit(text))

    def test_by_the_library(self) -> None:
        if not found_library():
            self.skipTest("no library")
        self.tried()

    def test_what_the_library_says_is_told(self) -> None:
        text = transcript(8)
        count = len(list(parts.parts_of(Held(text.encode()), 100, parts.PARTS_LEFT * len(os.sched_getaffinity(0)))))
        library = unittest.mock.Mock()
        library.joined.side_effect = lambda whole, found, lines: Summary(whole.entries + 1, found.epochs, lines)
        with unittest.mock.patch.object(parts, "found_library", return_value=library):
            found = audit_parts(text, size=100)
        self.assertEqual(library.joined.call_count, count - 1)
        self.assertGreater(count, 2)
        self.assertEqual(found.moves, 0)


class Deaths(Timed):
    seconds = 120

    def in_parts(self, count: int) -> tuple[bytes, list[tuple[int, int]]]:
        text = transcript(7, turns=count - 1).encode()
        found = list(parts.parts_of(Held(text), 1))
        self.assertEqual(len(found), count)
        return text, found

    def test_verdicts_that_a_cluster_loses(self) -> None:
        for count in (3, 64):
            text, _ = self.in_parts(count)
            path = pathlib.Path(self.folder(), "transcript")
            path.write_bytes(text)
            for lost in ((1,), (count,), (1, 2, count), range(1, count + 1)):
                forms: list[Union[bytes, pathlib.Path]] = [text, path]
                for given in forms:
                    with self.subTest(count=count, lost=lost, given=type(given)):
                        executor = Losing(lost)
                        self.assertEqual(audit_parts(given, executor, size=1), audit(text))
                        self.assertEqual(executor.asked, count + len(lost))
            damaged = text[:-2] + b"?\n"
            self.assertEqual(verdict(audit_parts, damaged, Losing((1, 2)), size=1), verdict(audit, damaged))

    def test_a_verdict_that_is_lost_twice(self) -> None:
        for count, at in ((3, 0), (3, 1), (64, 40)):
            text, found = self.in_parts(count)
            # at first all are handed out, in order
            with self.subTest(count=count, at=at), self.assertRaises(LostPart) as caught:
                audit_parts(text, Losing((at + 1, count + 1)), size=1)
            lost, line = caught.exception, text[: found[at][0]].count(b"\n") + 1
            self.assertEqual((lost.start, lost.end, lost.line), (*found[at], line))
            self.assertIn(f"no verdict from line {line} on", str(lost))
            again = pickle.loads(pickle.dumps(lost))
            self.assertEqual((type(again), vars(again), str(again)), (LostPart, vars(lost), str(lost)))

    def test_the_first_that_is_wrong_is_told(self) -> None:
        text, found = self.in_parts(64)
        # another last figure in a part's last line, before the next base
        damaged = {at: text[: found[at + 1][0] - 2] + b"?" + text[found[at + 1][0] - 1 :] for at in (10, 30)}
        twice = (20 + 1, 64 + 1)
        self.assertEqual(verdict(audit_parts, damaged[10], Losing(twice), size=1), verdict(audit, damaged[10]))
        with self.assertRaises(LostPart) as caught:
            audit_parts(damaged[30], Losing(twice), size=1)
        self.assertEqual(caught.exception.start, found[20][0])

    def test_a_pool_that_breaks_is_the_callers(self) -> None:
        text, _ = self.in_parts(3)
        with unittest.mock.patch.object(parts, "audit", dies), concurrent.futures.ProcessPoolExecutor(2) as pool:
            self.assertRaises(concurrent.futures.BrokenExecutor, audit_parts, text, pool, size=1)

    def test_an_error_of_an_audit_is_no_death(self) -> None:
        text, _ = self.in_parts(3)
        executor = Losing(())
        with unittest.mock.patch.object(parts, "audit", side_effect=MemoryError("of the audit")):
            self.assertRaisesRegex(MemoryError, "of the audit", audit_parts, text, executor, size=1)
        self.assertEqual(executor.asked, 3)

    def test_what_is_under_way_is_bounded(self) -> None:
        text, _ = self.in_parts(64)
        made: list[concurrent.futures.Future[Any]] = []
        most = [0]

        class Counting(concurrent.futures.ThreadPoolExecutor):
            def submit(self, *words: Any) -> concurrent.futures.Future[Any]:  # type: ignore[override]
                made.append(super().submit(*words))
                most[0] = max(most[0], sum(not future.done() for future in made))
                return made[-1]

        with Counting(2) as executor:
            self.assertEqual(audit_parts(text, executor, size=1), audit(text))
        self.assertEqual(len(made), 64)
        self.assertLessEqual(most[0], 4)


if __name__ == "__main__":
    unittest.main()
