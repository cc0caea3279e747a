"""What is given as a transcript or a log: a path, an open file, bytes, text or lines, by one rule.

A file may become shorter while it is read, and errors name it.
"""

from __future__ import annotations

import io
import os
import pathlib
import pickle
import dataclasses
import subprocess
import sys
import threading
import unittest
from typing import IO, Any, Callable, Iterator
from unittest import mock

from rudekpi import (
    BadLine,
    Damaged,
    Network,
    Refused,
    Registers,
    Summary,
    audit,
    audit_parts,
    bursts,
    conform,
    epochs,
    explain,
    given,
    processes,
    replay,
)
from rudekpi.audits import picture
from support import TOP, Timed

# two nodes that marry under `hh`: what each step does is worked out by hand
PAIR = """\
matching hh 2
1 link 1 2 = ok
2 step 1 = 1:seduce>2
3 step 2 = 2:marry>1
4 status = nodes=2 edges=1 pairs=1 enabled=0 charge=0 spent=2
"""
LOG = """\
{"nodes": ["a", "b"]}
{"link": ["a", "b"]}
{"move": "a", "pointer": "b"}
{"move": "b", "pointer": "a"}
"""
WRONG = PAIR.replace("2:marry>1", "2:update")


class Ways(Timed):
    engines = ("program", "library")

    def ways(self, text: str) -> Iterator[Any]:
        """A text in each way that there is; files are closed at the end of the test."""
        path = os.path.join(self.folder(), "t")
        with open(path, "wb") as file:
            file.write(text.encode())
        yield from (text, text.encode(), bytearray(text.encode()), memoryview(text.encode()))
        yield from (path, pathlib.Path(path), io.BytesIO(text.encode()), io.StringIO(text))
        files: list[IO[Any]] = [open(path, "rb"), open(path, "rb", buffering=0), open(path, encoding="utf-8")]
        for opened in files:
            self.addCleanup(opened.close)
            yield opened
        yield from (text.splitlines(), text.encode().splitlines(), tuple(text.splitlines(keepends=True)))
        yield (line for line in text.splitlines())

    def expect_each(self, text: str, call: Callable[[Any], object], wanted: object) -> None:
        for way in self.ways(text):
            with self.subTest(repr(way)[:50]):
                self.assertEqual(call(way), wanted)

    def test_an_audit(self) -> None:
        self.expect_each(PAIR, audit, Summary(4, 2, 2))
        self.expect_each(PAIR, audit_parts, Summary(4, 2, 2))

    def test_what_is_refused(self) -> None:
        def why(way: Any) -> object:
            with self.assertRaises(Damaged) as raised:
                audit(way)
            return raised.exception.line, raised.exception.why

        self.expect_each(WRONG, why, (4, "not the machine's reply"))

    def test_epochs_bursts_and_pictures(self) -> None:
        self.expect_each(PAIR, lambda way: [(epoch.start, epoch.moves) for epoch in epochs(way)], [(0, 0), (1, 2)])
        self.expect_each(PAIR, lambda way: [(burst.start, burst.moves) for burst in bursts(way)], [(1, 2)])
        self.expect_each(PAIR, lambda way: picture(way).count("1 -- 2"), 1)

    def test_an_explanation_and_a_replay(self) -> None:
        self.expect_each(PAIR, explain, None)
        self.expect_each(WRONG, lambda way: getattr(explain(way), "line"), 4)

        def partner(way: Any) -> object:
            with replay(way) as net:
                return net.partner(1), net.transcript() == PAIR

        self.expect_each(PAIR, partner, (2, True))

    def test_a_log(self) -> None:
        self.expect_each(LOG, lambda way: conform(way, "hh").is_accepted, True)

    def test_a_text_in_one_line_is_a_path(self) -> None:
        for call in (audit, audit_parts, epochs, bursts, explain, replay, picture, Network.resume):
            with self.subTest(call), self.assertRaises(FileNotFoundError) as raised:
                call("/none/t")  # type: ignore[operator]
            self.assertEqual(raised.exception.filename, "/none/t")
        with self.assertRaises(FileNotFoundError):
            conform("/none/a.jsonl", "hh")
        with self.assertRaises(Damaged):
            audit(b"t")
        with self.assertRaises(Damaged):
            audit("")

    def test_a_last_line_that_is_cut(self) -> None:
        cut = PAIR.rstrip("\n")
        ways: list[Any] = [cut, cut.encode(), io.StringIO(cut), io.StringIO(cut).readlines()]
        for way in ways:
            with self.subTest(repr(way)[:50]), self.assertRaises(Damaged) as raised:
                audit(way)
            self.assertEqual(raised.exception.line, 5)

    def test_what_is_none_of_these(self) -> None:
        for call in (audit, audit_parts, bursts, explain, replay):
            wrongs: list[Any] = [7, None, {PAIR: 1}, [1], [None]]
            for wrong in wrongs:
                with self.subTest(call=call, wrong=wrong), self.assertRaisesRegex(TypeError, "a transcript is"):
                    call(wrong)  # type: ignore[operator]
        others: list[Any] = [7, None, {}]
        for wrong in others:
            with self.assertRaisesRegex(TypeError, "a log is a path, an open file"):
                conform(wrong, "hh")

    def test_tuples_are_lists(self) -> None:
        said = conform(
            (
                {"nodes": ("a", "b", "c")},
                {"link": ("a", "b")},
                {"moves": ({"move": "a", "pointer": "b"},)},
                {"unlink": ("a", "b")},
            ),
            "manne",
        )
        self.assertEqual((said.is_accepted, said.events, said.edits), (True, 3, 2))
        with Network("manne", ("a", "b")) as net:
            net.link("a", "b")
            self.assertEqual([move.node for move in net.step(("a",))], ["a"])

    def test_registers_unpack(self) -> None:
        with Network("hh", 2) as net:
            net.link(1, 2)
            net.point(1, 2)
            pointer, flag = net.registers(1)
            self.assertEqual((pointer, flag, net.registers(1)), (2, False, Registers(2, False)))


SHORTENED = """
import os, sys, rudekpi
from rudekpi import given, parts
path, what, size = sys.argv[1], sys.argv[2], int(sys.argv[3])
piece = os.pread
def pread(*words):
    # after the first piece, the file is emptied
    found = piece(*words)
    os.truncate(path, 0)
    return found
import io
whole = io.FileIO.readall
class Emptied(given.NamedFile):
    def readall(self):
        os.truncate(path, size // 2)
        return super().readall()
given.NamedFile = Emptied
os.pread = pread
given.PIECE = 4096
try:
    if what == "resume":
        rudekpi.Network.resume(path)
    elif what == "parts":
        rudekpi.audit_parts(path, size=4096)
    else:
        rudekpi.audit(path)
except OSError as error:
    print(error)
"""


class Shortened(Timed):
    engines = ("program", "library")

    def test_a_file_that_becomes_shorter(self) -> None:
        path = os.path.join(self.folder(), "t")
        for what in ("resume", "parts", "audit"):
            if what != "resume" and self.engine == "program":
                continue
            with open(path, "wb") as file:
                file.write(b"matching hh 2\n" + b"".join(b"%d show 1 = -\n" % entry for entry in range(1, 4001)))
            words = [sys.executable, "-c", SHORTENED, path, what, str(os.path.getsize(path))]
            paths = dict(os.environ, PYTHONPATH=os.path.join(TOP, "python"))
            done = subprocess.run(words, env=paths, capture_output=True, encoding="utf-8")
            with self.subTest(what):
                self.assertEqual((done.returncode, done.stderr), (0, ""))
                self.assertRegex(done.stdout, "the file became shorter while it was read")

    def test_again_and_again(self) -> None:
        """Another thread empties and fills the file while it is read: a verdict comes, or an error."""
        path = os.path.join(self.folder(), "t")
        text = b"matching hh 2\n" + b"".join(b"%d show 1 = -\n" % entry for entry in range(1, 200_001))
        is_done = threading.Event()

        def write() -> None:
            while not is_done.is_set():
                with open(path, "wb") as file:
                    file.write(text)

        with open(path, "wb") as file:
            file.write(text)
        writer = threading.Thread(target=write)
        writer.start()
        seen: set[str] = set()
        try:
            calls: list[Callable[[Any], object]] = [audit, audit_parts, Network.resume] * 20
            for call in calls:
                try:
                    found: Any = call(path)
                    seen.add("a verdict")
                    found.close() if isinstance(found, Network) else None
                except (Damaged, OSError, ValueError) as error:
                    seen.add(type(error).__name__)
        finally:
            is_done.set()
            writer.join()
        self.assertLessEqual(seen, {"a verdict", "Damaged", "OSError"}, seen)

    def test_errors_of_reading_name_the_file(self) -> None:
        for call in (audit, audit_parts, explain, replay, bursts, Network.resume):
            with self.subTest(call), self.assertRaises(OSError) as raised:
                call("/proc/self/mem")  # type: ignore[operator]
            self.assertEqual(raised.exception.filename, "/proc/self/mem")
        with self.assertRaises(IsADirectoryError) as folder:
            conform("/", "hh")
        self.assertEqual(folder.exception.filename, "/")


class Streams(Timed):
    engines = ("program",)

    def said(self, words: list[str], given: str) -> subprocess.CompletedProcess[str]:
        paths = dict(os.environ, PYTHONPATH=os.path.join(TOP, "python"))
        command = [sys.executable, "-m", "rudekpi", *words]
        return subprocess.run(command, env=paths, input=given, capture_output=True, encoding="utf-8")

    def test_a_minus_is_standard_input(self) -> None:
        path = os.path.join(self.folder(), "t")
        pathlib.Path(path).write_text(PAIR, encoding="utf-8")
        for words in (["explain"], ["bursts"], ["json"], ["picture", "--names", path + ".names"]):
            pathlib.Path(path + ".names").write_text("ann\nbob\n", encoding="utf-8")
            with self.subTest(words):
                named, piped = self.said([*words, path], ""), self.said([*words, "-"], PAIR)
                self.assertEqual((piped.returncode, piped.stdout), (named.returncode, named.stdout))
                self.assertEqual((named.returncode, named.stderr), (0, ""))

    def test_names_of_standard_input(self) -> None:
        path = os.path.join(self.folder(), "t")
        pathlib.Path(path).write_text(PAIR, encoding="utf-8")
        done = self.said(["bursts", "--names", "-", path], "ann\nbob\n")
        self.assertEqual((done.returncode, done.stdout.splitlines()[1][-15:]), (0, "ann bob,ann bob"))
        done = self.said(["bursts", "--names", "-"], "ann\nbob\n")
        told = "! standard input has the transcript or the names, and not both\n"
        self.assertEqual((done.returncode, done.stderr), (2, told))

    def test_files_that_can_not_be_read(self) -> None:
        for words in (["explain"], ["bursts"], ["json"], ["check"], ["page", "--output", "p"]):
            for path, why in (
                ("/none", "No such file or directory"),
                ("/", "Is a directory"),
                ("/proc/self/mem", "Input/output error"),
            ):
                with self.subTest(words=words, path=path):
                    done = self.said([*words, path], "")
                    self.assertEqual((done.returncode, done.stdout), (3, ""))
                    self.assertEqual(done.stderr, f"! {path}: {why}\n")


class Errors(unittest.TestCase):
    def test_they_are_equal_after_a_pickle(self) -> None:
        refused = Refused("link 1 1", 2, "self-loop", 7)
        for error in (refused, Damaged(3, "out of order"), BadLine(4, "the log ends")):
            with self.subTest(error):
                other = pickle.loads(pickle.dumps(error))
                self.assertEqual((other, hash(other)), (error, hash(error)))
                self.assertIsNot(other, error)
        self.assertNotEqual(Damaged(3, "out of order"), Damaged(4, "out of order"))
        self.assertNotEqual(Damaged(3, "x"), BadLine(3, "x"))
        self.assertNotEqual(refused, Refused("link 1 1", 2, "self-loop", 8))

    def test_they_are_made_dictionaries(self) -> None:
        made = dataclasses.asdict(Refused("link 1 1", 2, "self-loop", 7))
        self.assertEqual(made, {"event": "link 1 1", "number": 2, "text": "self-loop", "entry": 7})
        self.assertEqual(dataclasses.asdict(Damaged(3, "out of order")), {"line": 3, "why": "out of order"})
        self.assertEqual(str(Damaged(3, "out of order")), "line 3: out of order")


class Lines(unittest.TestCase):
    def test_which_text_is_a_path(self) -> None:
        self.assertEqual(given.path_of("t"), "t")
        self.assertEqual(given.path_of(pathlib.Path("a\nb")), "a\nb")
        for text in ("", "a\n", "a\nb", b"t", None, 7):
            self.assertIsNone(given.path_of(text))

    def test_lines_with_and_without_their_feeds(self) -> None:
        self.assertEqual(given.bytes_of(["a", "b"]), b"a\nb\n")
        mixed: Any = ["a\n", b"b"]
        self.assertEqual(given.bytes_of(mixed), b"a\nb")
        self.assertEqual(given.bytes_of([]), b"")

    def test_a_number_of_a_standard_stream(self) -> None:
        with mock.patch.object(given, "no_low_numbers", wraps=processes.no_low_numbers) as held:
            self.assertRaises(FileNotFoundError, given.bytes_of, "/none")
        self.assertTrue(held.called)


if __name__ == "__main__":
    unittest.main()
