"""Networks that go on where a run ended, and bases in files."""

from __future__ import annotations

import gc
import io
import os
import pathlib
import pickle
import random
import resource
import stat
import subprocess
import sys
import threading
import unittest
from typing import Any, cast
from unittest import mock

from rudekpi import (
    Damaged,
    Ended,
    Garbled,
    Network,
    NoReply,
    Refused,
    Registers,
    Summary,
    audit,
)
from support import TOP, Timed, children, play, told
from test_interrupts import At
from test_signals import AskAt

TEXT = """matching manne 5 3
1 link 1 2 = ok
2 link 2 3 = ok
3 step 1 = 1:seduce>2
4 join 4 = ok
5 leave 3 = ok
6 step 2 = 2:marry>1
"""
BASE = """matching2 manne 5
base 6 spent=1 nodes=3 edges=1
node 1 2 0
node 2 1 0
node 4 - 0
edge 1 2
"""
ANN = ["ann", "bob", "cleo", "dan"]


def open_files() -> list[str]:
    return sorted(os.listdir("/proc/self/fd"))


def random_lines(seed: int, nodes: int, count: int) -> list[str]:
    drawn = random.Random(seed)
    lines: list[str] = []
    for _ in range(count):
        a, b = drawn.randint(1, nodes + 1), drawn.randint(1, nodes)
        words = [
            "link",
            "link",
            "link",
            "unlink",
            "point",
            "flag",
            "join",
            "leave",
            "show",
            "status",
            "enabled",
        ]
        word = drawn.choice([*words, "matching", "step", "drive", "scramble", "checkpoint"])
        lines.append(
            {
                "link": f"link {a} {b}",
                "unlink": f"unlink {a} {b}",
                "point": f"point {a} {drawn.choice([str(b), '-'])}",
                "flag": f"flag {a} {drawn.randint(0, 1)}",
                "join": f"join {a}",
                "leave": f"leave {a}",
                "show": f"show {a}",
                "step": f"step {a} {b}",
                "drive": f"drive {drawn.randint(0, 99)} 3",
                "scramble": f"scramble {drawn.randint(0, 99)} 2",
            }.get(word, word)
        )
    return lines


def each(*given: Any) -> tuple[Any, ...]:
    return given


def played(net: Network, lines: list[str]) -> Network:
    for line in lines:
        told(lambda: cast(object, play(net, line)))
    return net


def without_base(text: str) -> str:
    """A text without the base that begins it."""
    lines = text.splitlines(keepends=True)
    _, _, _, nodes, edges = (word.rpartition("=")[2] for word in lines[1].rstrip("\n").split(" "))
    return "".join(lines[2 + int(nodes) + int(edges) :])


class GoingOn(Timed):
    engines = ("program", "library")

    def given(self) -> list[Any]:
        """A transcript in each way in which it can be given."""
        path = os.path.join(self.folder(), "t")
        with open(path, "wb") as file:
            file.write(TEXT.encode())
        opened, raw = open(path, "rb"), open(path, "rb", buffering=0)
        self.addCleanup(opened.close)
        self.addCleanup(raw.close)
        text = TEXT.encode()
        return [
            text,
            bytearray(text),
            memoryview(text),
            path,
            pathlib.Path(path),
            opened,
            raw,
            io.BytesIO(text),
            TEXT,
            io.StringIO(TEXT),
            TEXT.splitlines(),
            tuple(text.splitlines(keepends=True)),
        ]

    def test_each_way_to_give_a_transcript(self) -> None:
        before = open_files()
        for given in self.given():
            with self.subTest(repr(given)[:60]), Network.resume(given) as net:
                self.assertEqual(net.transcript(), BASE)
                self.assertEqual(net.nodes, [1, 2, 3, 4, 5])
                self.assertEqual(
                    (net.rules, net.engine, net.present),
                    ("manne", self.engine, [1, 2, 4]),
                )
                self.assertEqual(
                    (net.edges, net.partner(1), net.registers(4)),
                    ([(1, 2)], 2, Registers(None, False)),
                )
                self.assertEqual(repr(net), "<Network manne, 5 nodes, 6 entries>")
                status = net.status()
                self.assertEqual(
                    (status.entry, status.spent, status.enabled, status.pairs),
                    (7, 1, 2, 1),
                )
                self.assertEqual(net.join(5).entry, 8)
                self.assertEqual(audit(TEXT + net.transcript()).entries, 8)
        gc.collect()
        # those of `given` are still open
        self.assertEqual(len(open_files()), len(before) + 2)

    def test_a_pipe(self) -> None:
        path = os.path.join(self.folder(), "pipe")
        os.mkfifo(path)

        def write() -> None:
            with open(path, "wb") as file:
                file.write(TEXT.encode())

        writer = threading.Thread(target=write)
        writer.start()
        with Network.resume(path) as net:
            self.assertEqual(net.transcript(), BASE)
        writer.join()

    def test_an_open_file_is_read_from_its_place(self) -> None:
        file = io.BytesIO(b"something else\n" + TEXT.encode())
        file.readline()
        with Network.resume(file) as net:
            self.assertEqual(net.transcript(), BASE)

    def test_a_base_alone(self) -> None:
        for text in (
            BASE,
            BASE.replace("6", "0", 1),
            BASE.replace("base 6", "base 16777000"),
        ):
            with self.subTest(text), Network.resume(text.encode()) as net:
                number = int(text.split(" ")[3])
                self.assertEqual((net.transcript(), net.show(1).entry), (text, number + 1))
                self.assertEqual(audit(net.transcript()).entries, 1)
        with Network.resume(b"matching2 hh 0\nbase 0 spent=0 nodes=0 edges=0\n") as net:
            self.assertEqual((net.nodes, net.status().entry), ([], 1))

    def test_at_the_greatest_number(self) -> None:
        """The network goes on, and its first entry finds the log full: memory is not what it lacks."""
        base = "matching2 hh 1\nbase 16777216 spent=0 nodes=1 edges=0\nnode 1 - 0\n"
        with Network.resume(base.encode()) as net:
            self.assertEqual((net.transcript(), net.nodes), (base, [1]))
            with self.assertRaises(Ended) as raised:
                net.show(1)
        self.assertEqual((raised.exception.status, raised.exception.last_line), (4, "! log full"))

    def test_of_a_header_alone(self) -> None:
        with Network.resume(b"matching hh 2\n") as net:
            self.assertEqual(net.link(1, 2).entry, 1)
        base = "matching2 hh 2\nbase 0 spent=0 nodes=2 edges=0\nnode 1 - 0\nnode 2 - 0\n"
        self.assertEqual(net.transcript(), base + "1 link 1 2 = ok\n")

    def test_random_runs_cut_at_a_line(self) -> None:
        for seed in range(24):
            rules, nodes = ("hh", "manne")[seed % 2], 1 + seed % 7
            lines = random_lines(seed, nodes, 60)
            cut = random.Random(seed).randint(0, len(lines))
            with self.subTest(seed=seed), played(Network(rules, nodes, present=nodes // 2), lines) as whole:
                with played(Network(rules, nodes, present=nodes // 2), lines[:cut]) as first:
                    start = first.transcript()
                with played(Network.resume(start.encode()), lines[cut:]) as rest:
                    self.assertEqual(start + without_base(rest.transcript()), whole.transcript())
                    audit(start + rest.transcript())
                    self.assertEqual((rest.status(), rest.edges), (whole.status(), whole.edges))
                    for node in whole.present:
                        self.assertEqual(
                            (rest.registers(node), rest.partner(node)),
                            (whole.registers(node), whole.partner(node)),
                        )

    def test_a_large_network(self) -> None:
        nodes = 5_000
        path = os.path.join(self.folder(), "base")
        with Network("hh", nodes) as net:
            with net.batch() as batch:
                for node in range(1, nodes):
                    batch.link(node, node + 1)
            net.drive(7, 3000)
            base = net.checkpoint(path)
            text = net.transcript()
        for given in each(path, text.encode()):
            with self.subTest(repr(given)[:20]), Network.resume(given) as again:
                self.assertEqual(again.checkpoint(), base)
                self.assertEqual(again.edges, [(node, node + 1) for node in range(1, nodes)])
                self.assertEqual(again.status().entry, base.number + 1)

    def test_again_and_again(self) -> None:
        texts = [TEXT]
        for _ in range(4):
            # in turn the whole text and the last part alone
            for given in each("".join(texts), texts[-1]):
                with Network.resume(given.encode()) as net:
                    net.scramble(1, 2)
                    net.drive(1, 5)
                    net.checkpoint()
            texts.append(net.transcript())
        whole = "".join(texts)
        self.assertEqual(audit(whole).entries, whole.count(" = "))

    def test_the_transcript_from_the_last_checkpoint_on(self) -> None:
        with Network.resume(TEXT.encode(), keep=False) as net:
            self.assertEqual(net.transcript(), BASE)
            net.show(1)
            self.assertEqual(net.transcript(), f"{BASE}7 show 1 = 2\n")
            net.checkpoint()
            self.assertEqual(net.transcript(), BASE.replace("base 6", "base 7"))

    def test_in_a_batch(self) -> None:
        with Network.resume(TEXT.encode()) as net:
            with net.batch(raises=False) as batch:
                base, link, driven = (
                    batch.checkpoint(),
                    batch.link(4, 1),
                    batch.drive(1, 9),
                )
                batch.link(4, 1)
            self.assertEqual(
                (base.result().number, base.result().spent, link.result().entry),
                (6, 1, 7),
            )
            self.assertEqual(driven.result().status.enabled, 0)
            self.assertEqual([it.text for it in batch.refusals], ["already-linked"])

    def test_two_threads_at_once(self) -> None:
        # each thread has its own network
        found: list[str] = []

        def go_on() -> None:
            for _ in range(20):
                with Network.resume(TEXT.encode()) as net:
                    net.drive(1, 9)
                    found.append(net.transcript())

        threads = [threading.Thread(target=go_on) for _ in range(2)]
        for thread in threads:
            thread.start()
        for thread in threads:
            thread.join()
        self.assertEqual((len(found), len(set(found))), (40, 1))

    def test_is_not_copied(self) -> None:
        with Network.resume(TEXT.encode()) as net, self.assertRaisesRegex(TypeError, "belongs to one process"):
            pickle.dumps(net)

    def test_a_class_of_ones_own(self) -> None:
        class Own(Network):
            pass

        with Own.resume(TEXT.encode()) as net:
            self.assertIsInstance(net, Own)

    def test_a_child_of_this_process(self) -> None:
        with Network.resume(TEXT.encode()) as net:
            go, come = os.pipe()
            child = os.fork()
            if child == 0:
                try:
                    net.show(1)
                except Ended as ended:
                    os.write(come, ended.last_line.encode())
                with Network.resume(TEXT.encode()) as own:
                    os.write(come, f": {own.show(1).entry}".encode())
                os._exit(0)
            os.waitpid(child, 0)
            words = "the network belongs to another process, of which this one is a child: 7"
            self.assertEqual(os.read(go, 1000).decode(), words)
            self.assertEqual(net.show(1).entry, 7)
        os.close(go)
        os.close(come)


class Names(Timed):
    engines = ("program", "library")

    def test_of_ones_own(self) -> None:
        with Network.resume(TEXT.encode(), nodes=ANN) as net:
            self.assertEqual((net.nodes, net.present), (ANN, ["ann", "bob", "dan"]))
            self.assertEqual(net.partner("ann"), "bob")
            self.assertEqual((net.join("eve").entry, net.number_of("eve")), (7, 5))
            with self.assertRaisesRegex(ValueError, "no number is left"):
                net.join("finn")
            with self.assertRaises(Refused) as raised:
                net.link("ann", "bob")
            self.assertEqual(
                str(raised.exception),
                "link 'ann' 'bob': refused 3 already-linked (entry 8)",
            )
            self.assertEqual(net.checkpoint().nodes["ann"], Registers("bob", False))
        self.assertEqual(audit(TEXT + net.transcript()), Summary(8, 6, 2))

    def test_of_any_iterable(self) -> None:
        for nodes in (
            tuple(ANN),
            iter(ANN),
            dict.fromkeys(ANN),
            [("a", 1), 2.5, frozenset(), 7],
        ):
            with self.subTest(repr(nodes)), Network.resume(TEXT.encode(), nodes=nodes) as net:
                self.assertEqual(len(net.nodes), 4)

    def test_that_do_not_fit(self) -> None:
        folder = self.folder()
        path = os.path.join(folder, "t")
        with open(path, "w", encoding="utf-8") as file:
            file.write(TEXT)
        before = children()
        for given in each(TEXT.encode(), path):
            for nodes, why in each(
                ([], "0 names for 4 nodes"),
                (["ann", "bob", "dan"], "3 names for 4 nodes"),
                (list("abcdef"), "6 names for 5 nodes"),
                (["ann", "ann"], "two nodes have the name 'ann'"),
                ("abcd", "nodes are a number or a list of names"),
                ([None], "of which none is None"),
            ):
                with self.subTest(nodes=nodes), self.assertRaisesRegex(ValueError, why):
                    Network.resume(given, nodes=nodes)
            for wrong in (4, [[1]]):
                with self.subTest(nodes=wrong), self.assertRaises(TypeError):
                    Network.resume(given, nodes=cast(Any, wrong))
        self.assertEqual(children(), before)


class Wrong(Timed):
    engines = ("program", "library")

    def test_damaged_transcripts(self) -> None:
        texts = [
            "",
            "\n",
            "matching manne 5 6\n",
            "matching manne 65536\n",
            "matching mann 5\n",
            TEXT[:-1],
            TEXT + "7 show",
            TEXT.replace("1 link", "2 link"),
            TEXT.replace("5 leave 3 = ok", "5 leave 3 = refused 1 unknown-node"),
            TEXT + BASE.replace("spent=1", "spent=2"),
            BASE[:-2],
            BASE.replace("node 4 - 0", "node 4 1 0"),
            "\udcff",
        ]
        path = os.path.join(self.folder(), "t")
        seen: set[str] = set()
        before, files = children(), open_files()
        for text in texts:
            data = text.encode(errors="surrogateescape")
            pathlib.Path(path).write_bytes(data)
            with self.assertRaises(Damaged) as judged:
                audit(data)
            seen.add(judged.exception.why)
            for given, nodes in each((data, None), (path, ANN), (io.BytesIO(data), ["ann"])):
                with self.subTest(text=text[:80], given=repr(given)[:40]):
                    with self.assertRaises(Damaged) as raised:
                        Network.resume(given, nodes=nodes)
                    self.assertEqual(str(raised.exception), str(judged.exception))
        self.assertEqual(len(seen), 5, seen)
        self.assertEqual((children(), open_files()), (before, files))

    def test_files_that_can_not_be_read(self) -> None:
        folder = self.folder()
        with self.assertRaises(FileNotFoundError) as raised:
            Network.resume(os.path.join(folder, "none"))
        self.assertEqual(raised.exception.filename, os.path.join(folder, "none"))
        with self.assertRaises(IsADirectoryError):
            Network.resume(folder)
        with self.assertRaises(OSError):
            Network.resume("/proc/self/mem")
        if os.getuid():
            path = os.path.join(folder, "closed")
            open(path, "w", encoding="utf-8").close()
            os.chmod(path, 0)
            with self.assertRaises(PermissionError):
                Network.resume(path)

    def test_what_is_no_transcript(self) -> None:
        for wrong in (7, None, {TEXT: 1}):
            with self.subTest(wrong), self.assertRaisesRegex(TypeError, "a transcript is a path, an open file, bytes"):
                Network.resume(cast(Any, wrong))
        with self.assertRaisesRegex(ValueError, "an engine is"):
            Network.resume(TEXT.encode(), engine="both")

    def test_an_interrupt_leaves_nothing(self) -> None:
        path = os.path.join(self.folder(), "t")
        with open(path, "w", encoding="utf-8") as file:
            file.write(TEXT)
        gc.collect()
        before = children(), open_files()
        for given in each(path, TEXT.encode()):
            made: list[Network] = []
            # one more cut at each round, until none comes before the end
            for number in range(0, 1_000_000, 29):
                with At(number) as at:
                    made.append(Network.resume(given, nodes=ANN))
                gc.collect()
                for net in made:
                    net.close()
                made.clear()
                with self.subTest(repr(given)[:20], instruction=number):
                    self.assertEqual((children(), open_files()), before)
                if at.left >= 0:
                    break


class OfTheProgram(Timed):
    """What a program may write that is to go on from a file."""

    def resumed(self, text: str, program: str) -> Network:
        return Network.resume(text.encode(), program=self.program(program))

    def test_it_reads_the_file_that_it_is_given(self) -> None:
        script = f"""import shutil, sys
if sys.argv[1:3] != ["run", "--from"]:
    sys.exit(9)
with open(sys.argv[3]) as file:
    if file.read() != {TEXT!r}:
        sys.exit(8)
for sign in {BASE!r}:
    sys.stdout.write(sign)
    sys.stdout.flush()
sys.stdin.read()
"""
        path = os.path.join(self.folder(), "t")
        with open(path, "w", encoding="utf-8") as file:
            file.write(TEXT)
        program = self.program(script)
        for given in each(path, TEXT.encode(), io.BytesIO(TEXT.encode())):
            with self.subTest(repr(given)[:40]), Network.resume(given, program=program) as net:
                self.assertEqual((net.transcript(), net.edges), (BASE, [(1, 2)]))

    def test_garbled(self) -> None:
        for text in (
            "matching manne 5 3\n",
            BASE.replace("manne", "hh"),
            BASE.replace("5", "4", 1),
            BASE.replace("base", "case"),
            BASE.replace("node 4", "edge 4"),
            "1 show 1 = -\n",
            BASE + "7 show 1 = -\n",
        ):
            writes = f"import sys\nsys.stdout.write({text!r})\nsys.stdout.flush()\nsys.stdin.read()"
            with self.subTest(text), self.assertRaises(Garbled), self.resumed(TEXT, writes) as net:
                net.status()

    def test_it_ends(self) -> None:
        for program, kind, why in [
            ("exit 0", Ended, "status 0"),
            ("printf 'matching2 manne 5\\n'", Ended, "status 0"),
            ("echo '! out of memory' >&2; exit 4", Ended, "status 4: ! out of memory"),
            ("printf '! out of memory\\n! more\\n' >&2; exit 4", Ended, r"status 4: ! out of memory \(more\)$"),
            ("printf 'a\\n! log full\\nb\\n' >&2; exit 4", Ended, "status 4: ! log full$"),
            ("echo '! read failed' >&2; exit 3", OSError, "can't read the transcript$"),
            ("printf '! read failed\\n! t: is a folder\\n' >&2; exit 3", OSError, "the transcript: t: is a folder$"),
            (
                "echo '! /dev/fd/3: line 4: out of order' >&2; exit 1",
                Damaged,
                "line 4: out of order",
            ),
            ("echo '! x' >&2; exit 1", Ended, "status 1: ! x"),
        ]:
            with self.subTest(program), self.assertRaisesRegex(cast(Any, kind), why):
                self.resumed(TEXT, program)

    def test_there_is_none(self) -> None:
        with self.assertRaises(FileNotFoundError):
            Network.resume(TEXT.encode(), program="/nowhere/console")


# a large transcript in less and less memory; counts the outcomes
SHORT_OF_MEMORY = """
import resource, sys, rudekpi
from collections import Counter
size = 15_000
with rudekpi.Network("manne", size, engine="library") as net:
    with net.batch() as batch:
        for node in range(1, size):
            batch.link(node, node + 1)
    net.scramble(7, 2000)
    text = net.transcript().encode()
    wanted = net.checkpoint()
with open(sys.argv[1], "wb") as file:
    file.write(text)
pages = lambda: int(open("/proc/self/statm").read().split()[0]) * resource.getpagesize()
whole, hard = resource.getrlimit(resource.RLIMIT_AS)
for given in (text, sys.argv[1]):
    seen = Counter()
    for room in range(0, 12_000_000, 400_000):
        net = None
        resource.setrlimit(resource.RLIMIT_AS, (pages() + room, hard))
        try:
            net = rudekpi.Network.resume(given, engine="library")
            said = "went on"
        except (MemoryError, OSError):
            said = "nothing"
        resource.setrlimit(resource.RLIMIT_AS, (whole, hard))
        seen[said] += 1
        if net and net.checkpoint() != wanted:
            print("another base")
    print(sorted(seen))
"""


class Memory(Timed):
    engines = ("library",)

    def test_that_is_refused(self) -> None:
        environment = dict(os.environ, PYTHONPATH=os.path.join(TOP, "python"))
        # what a larger object took is given back when that is freed
        environment["MALLOC_MMAP_THRESHOLD_"] = "65536"
        words = [
            sys.executable,
            "-c",
            SHORT_OF_MEMORY,
            os.path.join(self.folder(), "t"),
        ]
        done = subprocess.run(words, env=environment, capture_output=True, encoding="utf-8")
        self.assertEqual((done.returncode, done.stderr), (0, ""), done.stdout)
        self.assertEqual(done.stdout, "['nothing', 'went on']\n" * 2)


class Bases(Timed):
    """Bases that are written to files."""

    engines = ("program", "library")

    def net(self) -> Network:
        return Network.resume(TEXT.encode(), nodes=ANN)

    def test_a_file(self) -> None:
        path = os.path.join(self.folder(), "base")
        with self.net() as net:
            first = net.checkpoint(path)
            self.assertEqual(pathlib.Path(path).read_text(encoding="utf-8"), BASE)
            self.assertEqual((first.number, first.edges), (6, (("ann", "bob"),)))
            self.assertEqual(net.transcript(), BASE * 2)
            net.link("ann", "dan")
            # over the older one, by a path of the other kind
            second = net.checkpoint(pathlib.Path(path))
            self.assertEqual((second.number, second.spent), (7, 0))
            self.assertTrue(
                net.transcript().endswith("7 link 1 4 = ok\n" + pathlib.Path(path).read_text(encoding="utf-8"))
            )
        with Network.resume(path, nodes=ANN) as again:
            self.assertEqual(again.checkpoint(), second)
            self.assertEqual(again.show("ann").entry, 8)
        self.assertEqual(os.listdir(os.path.dirname(path)), ["base"])

    def test_a_transcript_that_is_not_kept(self) -> None:
        path = os.path.join(self.folder(), "base")
        with Network("hh", 2, keep=False) as net:
            net.link(1, 2)
            net.checkpoint(path)
            self.assertEqual(net.transcript(), pathlib.Path(path).read_text(encoding="utf-8"))

    def test_links_and_modes(self) -> None:
        folder = self.folder()
        path, link = os.path.join(folder, "base"), os.path.join(folder, "link")
        pathlib.Path(path).write_text("as it was", encoding="utf-8")
        os.chmod(path, 0o640)
        os.symlink("base", link)
        with self.net() as net:
            net.checkpoint(link)
        self.assertTrue(os.path.islink(link))
        self.assertEqual(stat.S_IMODE(os.stat(path).st_mode), 0o640)
        self.assertEqual(pathlib.Path(path).read_text(encoding="utf-8"), BASE)

    def test_that_can_not_be_written(self) -> None:
        folder = self.folder()
        before, after = os.path.join(folder, "before"), os.path.join(folder, "after")
        pathlib.Path(before).write_text("as it was", encoding="utf-8")
        with Network("hh", 50) as net:
            soft, hard = resource.getrlimit(resource.RLIMIT_FSIZE)
            resource.setrlimit(resource.RLIMIT_FSIZE, (100, hard))
            try:
                for path in (
                    before,
                    after,
                    "/dev/full",
                    os.path.join(folder, "none", "base"),
                    folder,
                ):
                    with self.subTest(path), self.assertRaises(OSError):
                        net.checkpoint(path)
            finally:
                resource.setrlimit(resource.RLIMIT_FSIZE, (soft, hard))
            self.assertEqual(os.listdir(folder), ["before"])
            self.assertEqual(pathlib.Path(before).read_text(encoding="utf-8"), "as it was")
            # the network has its bases and goes on
            self.assertEqual(net.link(1, 2).entry, 1)
            self.assertEqual(net.transcript().count("base 0 "), 5)
            self.assertEqual(net.audit().entries, 1)
            net.checkpoint(before)
            self.assertIn("base 1 ", pathlib.Path(before).read_text(encoding="utf-8"))

    def test_a_folder_that_takes_no_new_file(self) -> None:
        if not os.getuid():
            self.skipTest("root may write everywhere")
        folder = self.folder()
        path = os.path.join(folder, "base")
        pathlib.Path(path).write_text("as it was", encoding="utf-8")
        os.chmod(folder, 0o500)
        self.addCleanup(os.chmod, folder, 0o700)
        with self.net() as net, self.assertRaises(PermissionError):
            net.checkpoint(path)
        self.assertEqual(pathlib.Path(path).read_text(encoding="utf-8"), "as it was")

    def test_they_are_on_the_disk_before_they_have_their_name(self) -> None:
        path = os.path.join(self.folder(), "base")
        calls: list[str] = []
        real_sync, real_replace = os.fsync, os.replace

        def sync(number: int) -> None:
            calls.append("folder" if stat.S_ISDIR(os.fstat(number).st_mode) else f"{os.fstat(number).st_size} bytes")
            real_sync(number)

        def replace(old: str, new: str) -> None:
            calls.append("rename")
            self.assertEqual(os.path.dirname(old), os.path.dirname(new))
            real_replace(old, new)

        with self.net() as net, mock.patch("os.fsync", sync), mock.patch("os.replace", replace):
            net.checkpoint(path)
        self.assertEqual(calls, [f"{len(BASE)} bytes", "rename", "folder"])

    def test_an_interrupt_leaves_one_whole(self) -> None:
        folder = self.folder()
        path = os.path.join(folder, "base")
        with Network("manne", 4) as net:
            net.checkpoint(path)
            cut = [0, 0]
            for number in range(0, 1_000_000, 17):
                net.show(1)
                before, after = pathlib.Path(path).read_text(encoding="utf-8"), net.checkpoint().number
                with At(number) as at:
                    net.checkpoint(path)
                found = pathlib.Path(path).read_text(encoding="utf-8")
                is_new = found != before
                cut[is_new] += 1
                with self.subTest(instruction=number):
                    self.assertEqual(audit(found).entries, 0)
                    self.assertTrue(not is_new or f"base {after} " in found)
                    self.assertEqual(os.listdir(folder), ["base"])
                if at.left >= 0:
                    break
            self.assertGreater(cut[0], 3)
            self.assertEqual(net.audit().entries, net.status().entry - 1)

    def test_a_handler_that_asks_meanwhile(self) -> None:
        folder = self.folder()
        path, other = os.path.join(folder, "base"), os.path.join(folder, "other")
        net = Network("manne", 3)

        def ask() -> None:
            net.show(2)
            net.checkpoint(other)

        with net:
            for number in range(0, 1_000_000, 23):
                with AskAt(number, ask) as at:
                    base = net.checkpoint(path)
                with self.subTest(instruction=number):
                    self.assertLessEqual(set(os.listdir(folder)), {"base", "other"})
                    self.assertIn(f"base {base.number} ", pathlib.Path(path).read_text(encoding="utf-8"))
                if at.left >= 0:
                    break
            self.assertGreater(number, 100)
            text = net.transcript()
            self.assertEqual(audit(text).entries, text.count(" = "))

    def test_memory_for_the_reply(self) -> None:
        def refuse(*_: object) -> None:
            raise MemoryError

        path = os.path.join(self.folder(), "base")
        names = {
            "library": "rudekpi.calls.base_of",
            "program": "rudekpi.batch.read_base",
        }
        with self.net() as net:
            with mock.patch(names[self.engine], refuse), self.assertRaises(NoReply) as raised:
                net.checkpoint(path)
            self.assertEqual((raised.exception.entry, net.transcript()), (6, BASE * 2))
            self.assertEqual(os.listdir(os.path.dirname(path)), [])

    def test_of_a_closed_network(self) -> None:
        path = os.path.join(self.folder(), "base")
        net = self.net()
        net.close()
        with self.assertRaisesRegex(ValueError, "closed"):
            net.checkpoint(path)
        self.assertEqual(os.listdir(os.path.dirname(path)), [])


if __name__ == "__main__":
    unittest.main()
