"""The talk with the program: large replies, many commands, early ends, wrong answers, its path."""

from __future__ import annotations

import os
import pathlib
import re
import shutil
import subprocess
import sys
import unittest
from typing import Callable, Mapping, Optional
from unittest import mock

import rudekpi
from rudekpi import Ended, Garbled, Network, Refused, audit, epochs
from support import TOP, Timed

JUDGES: tuple[Callable[..., object], ...] = (audit, epochs)

HEADER = "echo 'matching hh 3'\n"
# answers the first line, and ends at the second
STOPS = HEADER + "read -r line; echo \"1 $line = ok\"; read -r line; echo one >&2; echo '! out of memory' >&2; exit 4\n"
# answers each `matching` with 600,000 bytes, anything else with `ok`
LARGE = """import sys
print("matching hh 3", flush=True)
for number, line in enumerate(sys.stdin, 1):
    reply = " ".join(["1-2"] * 150_000) if line == "matching\\n" else "ok"
    sys.stdout.write(f"{number} {line[:-1]} = {reply}\\n")
    sys.stdout.flush()
"""


# asks for the transcript in less and less memory; small freed objects without a zero lie about
SHORT_OF_MEMORY = """
import resource, rudekpi
pages = lambda: int(open("/proc/self/statm", encoding="utf-8").read().split()[0]) * resource.getpagesize()
whole, hard = resource.getrlimit(resource.RLIMIT_AS)
net = rudekpi.Network("manne", 3000, engine="program")
for _ in range(60):
    with net.batch() as batch:
        for node in range(1, 3000):
            batch.show(node)
seen = set()
for room in range(0, 16_000_000, 500_000):
    junk = [b"\\xff" * size for size in range(16, 40) for _ in range(100)]
    del junk
    resource.setrlimit(resource.RLIMIT_AS, (pages() + room, hard))
    try:
        net.transcript()
        said = "a transcript"
    except MemoryError:
        said = "no memory"
    resource.setrlimit(resource.RLIMIT_AS, (whole, hard))
    seen.add(said)
print(sorted(seen))
"""


class Memory(Timed):
    engines = ("program",)

    def test_a_transcript_for_which_there_is_none(self) -> None:
        environment = dict(os.environ, PYTHONPATH=os.path.join(TOP, "python"), MALLOC_MMAP_THRESHOLD_="65536")
        words = [sys.executable, "-c", SHORT_OF_MEMORY]
        done = subprocess.run(words, env=environment, capture_output=True, encoding="utf-8")
        self.assertEqual((done.returncode, done.stdout), (0, "['a transcript', 'no memory']\n"))
        self.assertEqual(done.stderr, "")


class Sizes(Timed):
    seconds = 60

    def test_huge_replies_in_flight(self) -> None:
        with Network("hh", 3, program=self.program(LARGE)) as net:
            with net.batch() as batch:
                asked = [batch.matching() for _ in range(60)]
                linked = batch.link(1, 2)
            self.assertEqual(linked.result().entry, 61)
            self.assertEqual(len(asked[0].result().pairs), 150_000)
            self.assertEqual(
                len(net.transcript()), 14 + sum(len(f"{k} matching = \n") for k in range(1, 61)) + 60 * 599_999 + 17
            )

    def test_replies_that_nobody_asks_for_till_the_end(self) -> None:
        net = Network("hh", 3, program=self.program(LARGE))
        batch = net.batch()
        for _ in range(40):
            batch.matching()
        net.close()
        self.assertEqual(net.transcript().count("\n"), 41)

    def test_every_node_is_enabled(self) -> None:
        nodes = 500
        with Network("manne", nodes) as net:
            with net.batch() as batch:
                for node in range(1, nodes + 1):
                    batch.flag(node, True)
                asked = [batch.enabled() for _ in range(400)]
                stepped = batch.step(range(1, nodes + 1))
            every: Mapping[int, str] = {node: "update" for node in range(1, nodes + 1)}
            self.assertTrue(all(it.result() == every for it in asked))
            self.assertEqual({(move.rule, move.target) for move in stepped.result()}, {("update", None)})
            self.assertEqual([move.node for move in stepped.result()], list(every))

    def test_a_line_that_no_pipe_holds(self) -> None:
        with Network("manne", 1) as net, self.assertRaises(Refused) as caught:
            net.step(range(1, 65536))
        self.assertEqual((caught.exception.number, len(caught.exception.event)), (11, 4 + 65_535 + 316_569))

    def test_ten_thousands_in_flight(self) -> None:
        with Network("hh", 10_000) as net:
            with net.batch(raises=False) as batch:
                for node in range(1, 10_001):
                    batch.show(node)
                    batch.link(node, node)
            self.assertEqual({it.number for it in batch.refusals}, {2})
            self.assertEqual(len(batch.refusals), 10_000)
            self.assertEqual(net.status().entry, 20_001)


class Ends(Timed):
    engines = ("program",)
    seconds = 60

    def test_while_an_answer_is_awaited(self) -> None:
        with self.assertRaises(Ended), Network("hh", 3, program=self.program(STOPS)) as net:
            self.assertEqual(net.link(1, 2).entry, 1)
            for _ in range(3):
                with self.assertRaisesRegex(Ended, "status 4: ! out of memory") as caught:
                    net.link(2, 3)
                self.assertEqual((caught.exception.status, caught.exception.last_line), (4, "! out of memory"))
            self.assertEqual(net.transcript(), "matching hh 3\n1 link 1 2 = ok\n")
            raise caught.exception

    def test_in_a_batch(self) -> None:
        net = Network("hh", 3, program=self.program(STOPS))
        with self.assertRaisesRegex(Ended, "out of memory"), net.batch() as batch:
            first, *others = [batch.link(1, 2) for _ in range(50_000)]
            self.fail("the pipe holds no 50,000 links")
        with net.batch(raises=False) as batch, self.assertRaises(Ended):
            batch.link(1, 2)
        self.assertEqual(net.transcript(), "matching hh 3\n1 link 1 2 = ok\n")
        net.close()

    def test_what_was_answered_stays(self) -> None:
        net = Network("hh", 3, program=self.program(STOPS))
        batch = net.batch()
        first, second = batch.link(1, 2), batch.link(2, 3)
        with self.assertRaises(Ended):
            second.result()
        self.assertEqual(first.result().entry, 1)

    def test_at_the_close(self) -> None:
        net = Network("hh", 3, program=self.program(HEADER + "cat > /dev/null; echo '! write failed' >&2; exit 3"))
        net.batch().link(1, 2)
        with self.assertRaisesRegex(Ended, "status 3: ! write failed"):
            net.close()
        net.close()
        answers = self.program(HEADER + 'read -r line; echo "1 $line = ok"; cat > /dev/null; exit 3')
        with self.assertRaisesRegex(Ended, "status 3"), Network("hh", 3, program=answers) as net:
            net.link(1, 2)
        self.assertEqual(net.transcript(), "matching hh 3\n1 link 1 2 = ok\n")

    def test_with_status_0_and_no_answer(self) -> None:
        net = Network("hh", 3, program=self.program(HEADER + "read -r line; exit 0"))
        with self.assertRaisesRegex(Ended, r"status 0: \(it said nothing\)"):
            net.link(1, 2)
        self.assertEqual(net.transcript(), "matching hh 3\n")
        net = Network("hh", 3, program=self.program(HEADER + "read -r line; exit 0"))
        net.batch().link(1, 2)
        self.assertRaises(Ended, net.close)

    def test_by_a_signal_and_in_a_line(self) -> None:
        net = Network("hh", 3, program=self.program(HEADER + "read -r line; printf '1 link 1 '; kill -9 $$"))
        with self.assertRaises(Ended) as caught:
            net.link(1, 2)
        self.assertEqual((caught.exception.status, net.transcript()), (-9, "matching hh 3\n"))

    def test_before_its_header(self) -> None:
        with self.assertRaisesRegex(Ended, "status 2: bad words"):
            Network("hh", 3, program=self.program("echo usage >&2; echo 'bad words' >&2; exit 2"))

    def test_of_a_judge(self) -> None:
        for judge in JUDGES:
            with self.assertRaisesRegex(Ended, "status 4: ! out of memory"):
                judge("matching hh 3\n", program=self.program("cat > /dev/null; echo '! out of memory' >&2; exit 4"))

    def test_of_one_that_reads_nothing(self) -> None:
        with self.assertRaisesRegex(Ended, "status 4"):
            audit("matching hh 3\n" * 100_000, program=self.program("exit 4"))

    def test_nothing_is_left_open(self) -> None:
        uses = """
import rudekpi
programs = %r
for program in programs:
    try:
        with rudekpi.Network("hh", 3, program=program) as net:
            net.link(1, 2)
            net.step([9])
    except (rudekpi.RudekpiError, OSError) as error:
        print(type(error).__name__)
"""
        garbled = self.program(HEADER + "read -r line; echo hello; cat > /dev/null")
        programs = [
            None,
            self.program(STOPS),
            self.program("exit 1"),
            self.program("echo hello; cat"),
            garbled,
            "/no/such/program",
        ]
        words = [sys.executable, "-X", "dev", "-W", "error::ResourceWarning", "-c", uses % programs]
        done = subprocess.run(
            words, env=dict(os.environ, PYTHONPATH=os.path.join(TOP, "python")), capture_output=True, encoding="utf-8"
        )
        kinds = "Refused Ended Ended Garbled Garbled FileNotFoundError".split(" ")
        self.assertEqual((done.stdout.split(), done.stderr), (kinds, ""))


class Answers(Timed):
    engines = ("program",)
    seconds = 60

    def test_garbled(self) -> None:
        for text, asks in [
            ("echo 'matching hh 4'", None),
            ("echo 'matching manne 3'", None),
            ("echo hello", None),
            ("echo", None),
            (HEADER + "read -r line; echo '2 link 1 2 = ok'", "link"),
            (HEADER + "read -r line; echo '1 link 1 3 = ok'", "link"),
            (HEADER + "read -r line; echo '1 link 1 2 = yes'", "link"),
            (HEADER + "echo '1 enabled = none'; cat >/dev/null", "link"),
            (HEADER + "read -r line; echo '1 enabled = 1'", "enabled"),
            (HEADER + "read -r line; echo '1 enabled = 4:marry'", "enabled"),
            (HEADER + "read -r line; echo '1 status = nodes=3'", "status"),
            (HEADER + "read -r line; echo '1 matching = 1'", "matching"),
            (HEADER + "read -r line; echo '1 status = nodes=3'", "drive"),
            (HEADER + "read -r line; echo '1 step 1 = 1:run'; cat", "drive"),
        ]:
            calls = {
                "link": lambda net: net.link(1, 2),
                "enabled": Network.enabled,
                "status": Network.status,
                "matching": Network.matching,
                "drive": lambda net: net.drive(1, 1),
                None: lambda net: self.fail("no header"),
            }
            with self.subTest(text), self.assertRaises(Garbled), Network("hh", 3, program=self.program(text)) as net:
                calls[asks](net)

    def test_a_garbled_verdict(self) -> None:
        for text in (
            "echo accepted",
            "true",
            "echo 'line 1: bad header'",
            "echo start,moves,edges,nodes,bound,cost; echo 1,2",
        ):
            for judge in JUDGES:
                with self.subTest(text), self.assertRaises(Garbled):
                    judge("", program=self.program("cat > /dev/null; " + text))


class Found(Timed):
    engines = ("program",)

    def test_by_the_argument_and_the_environment(self) -> None:
        told = self.program("echo environment >&2; exit 7")
        with mock.patch.dict(os.environ, RUDEKPI_CONSOLE=told):
            with self.assertRaisesRegex(Ended, "status 7: environment"):
                Network("hh", 3)
            with Network("hh", 3, program=pathlib.Path(self.program(HEADER + "cat"))) as net:
                self.assertEqual(net.nodes, [1, 2, 3])

    def test_that_is_not_there(self) -> None:
        for program in ("/no/such/program", os.path.join(TOP, "README.md"), TOP):
            calls: list[Callable[[], object]] = [
                lambda: Network("hh", 1, program=program),
                lambda: audit("", program=program),
            ]
            for call in calls:
                with self.subTest(program), self.assertRaises(OSError) as caught:
                    call()
                self.assertIn(program, str(caught.exception))

    def of_a_repository(self, console: Optional[str]) -> subprocess.CompletedProcess[str]:
        """A client in a repository with this console: its output and standard error."""
        folder = self.folder()
        shutil.copytree(os.path.dirname(rudekpi.__file__), os.path.join(folder, "python", "rudekpi"))
        if console:
            shutil.copy(self.program(console), os.path.join(folder, "console"))
        uses = "import rudekpi\nfor _ in range(2):\n    with rudekpi.Network('hh', 3) as net: print(net.nodes)\n"
        environment = {name: value for name, value in os.environ.items() if name != "RUDEKPI_CONSOLE"}
        environment["PYTHONPATH"] = os.path.join(folder, "python")
        return subprocess.run(
            [sys.executable, "-c", uses], env=environment, cwd="/", capture_output=True, encoding="utf-8"
        )

    def test_in_the_repository_of_the_module(self) -> None:
        builds = 'if [ "$1" = --version ]; then echo building 1 of 1: console >&2; exit 0; fi\n'
        done = self.of_a_repository(builds + HEADER + "cat")
        self.assertEqual((done.stdout, done.stderr), ("[1, 2, 3]\n" * 2, "building 1 of 1: console\n"))
        done = self.of_a_repository("echo 'build: it failed' >&2; exit 1")
        self.assertIn("build: it failed\n", done.stderr)
        self.assertIn("Ended: the program ended with status 1: the program could not be built\n", done.stderr)
        done = self.of_a_repository(None)
        self.assertTrue(
            re.search(r"FileNotFoundError: no program at .*/console: .*RUDEKPI_CONSOLE", done.stderr), done.stderr
        )


if __name__ == "__main__":
    unittest.main()
