"""The package's command line: its own commands, the program's, and why lines are no commands."""

from __future__ import annotations

import json
import os
import pathlib
import pty
import random
import re
import select
import signal
import socket
import subprocess
import sys
import time
import unittest

from rudekpi import commands, script_words, sweeps
from support import TOP, Timed

try:
    import matplotlib
except ImportError:
    matplotlib = None

HEAD_OF_TABLE = (
    "graph disturbance daemon rules runs min mean median 95% of median 95th max bound steps rounds rounds bound"
)
PAIR = "link 1 2\nenabled\nstep 1\nenabled\nstep 2\nmatching\nstatus\n"


def environment(**more: str) -> dict[str, str]:
    return dict(os.environ, PYTHONPATH=os.path.join(TOP, "python"), **more)


def rudekpi(*words: str, given: str = "") -> subprocess.CompletedProcess[str]:
    return subprocess.run(
        [sys.executable, "-m", "rudekpi", *words],
        input=given,
        env=environment(),
        capture_output=True,
        encoding="utf-8",
    )


def said(*words: str, given: str = "") -> str:
    done = rudekpi(*words, given=given)
    if done.returncode:
        raise AssertionError(f"{words}: {done.returncode}: {done.stderr}")
    return done.stdout


def rudekpi_version() -> str:
    told = subprocess.run(
        [os.environ["RUDEKPI_CONSOLE"], "--version"], capture_output=True, encoding="utf-8", check=True
    )
    return told.stdout.split()[1]


class HandedOn(Timed):
    def test_what_the_program_does(self) -> None:
        text = pathlib.Path(TOP, "examples", "pair.transcript").read_text(encoding="utf-8")
        self.assertEqual(
            said(
                "run",
                "--rules",
                "hh",
                "--nodes",
                "2",
                given=pathlib.Path(TOP, "examples", "pair.script").read_text(encoding="utf-8"),
            ),
            text,
        )
        self.assertTrue(said("audit", given=text).startswith("accepted: 7 entries"))
        self.assertEqual(said("epochs", given=text).splitlines()[0], "start,moves,edges,nodes,bound,cost,rounds")
        console = [os.environ["RUDEKPI_CONSOLE"]]
        for words in (["run", "--help"], ["run"], ["audit", "--none"]):
            done, wanted = rudekpi(*words), subprocess.run(console + words, capture_output=True, encoding="utf-8")
            self.assertEqual(
                (done.returncode, done.stdout, done.stderr), (wanted.returncode, wanted.stdout, wanted.stderr)
            )
        for words in (["--help"], ["-h"], ["help"]):
            text = said(*words)
            self.assertIn("sweep, compare, worst, check, shell, json, conform, explain, bursts, again", text)
            self.assertTrue(
                text.endswith(subprocess.run([*console, *words], capture_output=True, encoding="utf-8").stdout)
            )
        done = rudekpi("sweeep")
        self.assertEqual(
            (done.returncode, done.stdout, done.stderr),
            (2, "", "! rudekpi has no command 'sweeep': 'sweep' may be meant\n"),
        )
        self.assertEqual(said("--version"), f"rudekpi {rudekpi_version()}\n")
        done = rudekpi("foo")
        known = (
            "sweep, compare, worst, check, shell, json, conform, explain, bursts, again, page, "
            "run, audit, picture, epochs, storm"
        )
        self.assertEqual((done.returncode, done.stdout), (2, ""))
        self.assertEqual(done.stderr, f"! rudekpi has no command 'foo': they are {known}\n")
        self.assertEqual(said("help", "worst"), said("worst", "--help"))
        self.assertEqual(said("help", "run"), said("run", "--help"))

    def test_without_words_and_without_a_program(self) -> None:
        done = rudekpi()
        self.assertEqual((done.returncode, done.stdout), (2, ""))
        self.assertIn("sweep, compare, worst, check, shell, json, conform, explain, bursts, again", done.stderr)
        without = environment(RUDEKPI_CONSOLE="/no/such/program")
        # the library needs none for a session
        for words in (["run", "--rules", "hh"], ["sweep", "--graph", "ring:5"], ["shell", "--nodes", "2"])[
            : 3 if self.engine == "program" else 2
        ]:
            done = subprocess.run(
                [sys.executable, "-m", "rudekpi", *words], env=without, capture_output=True, encoding="utf-8"
            )
            self.assertEqual(done.returncode, 3, done.stderr)
            self.assertIn("/no/such/program", done.stderr)
            self.assertNotIn("Traceback", done.stderr)


class Streams(Timed):
    """One line on standard error names the stream or file that can't be read or written."""

    def told(self, words: str, status: int = 3) -> str:
        """The standard error; expects no other output, and this status."""
        path = os.path.join(self.folder(), "script")
        pathlib.Path(path).write_text(PAIR, encoding="utf-8")
        line = f"{sys.executable} -m rudekpi {words}".replace("SCRIPT", path)
        done = subprocess.run(
            ["bash", "-c", line], env=environment(), capture_output=True, encoding="utf-8", timeout=50
        )
        self.assertEqual(done.returncode, status, done)
        self.assertEqual(done.stdout.replace("matching manne 3\n", ""), "")
        lines = [line for line in done.stderr.splitlines() if "the bound is" not in line]
        self.assertEqual(len(lines), 1, done.stderr)
        return lines[0]

    def test_output_that_is_closed_or_full(self) -> None:
        for words in ("worst --graph path:4", "check SCRIPT", "shell --nodes 3 < SCRIPT", "help", "--version"):
            with self.subTest(words):
                self.assertEqual(self.told(f"{words} >&-"), "! write failed: Bad file descriptor")
                self.assertEqual(self.told(f"{words} > /dev/full"), "! write failed: No space left on device")
        json = f"json {TOP}/examples/pair.transcript"
        for words in ("sweep --graph path:4", "compare --graph path:4", "sweep --help", "help worst", json):
            with self.subTest(words):
                self.assertEqual(self.told(f"{words} >&-"), "! write failed: Bad file descriptor")

    def test_files_that_can_not_be_written(self) -> None:
        for words in ("worst --graph path:4 --output", "sweep --graph path:4 --csv", "compare --graph path:4 --csv"):
            with self.subTest(words):
                self.assertEqual(self.told(f"{words} /dev/full"), "! /dev/full: No space left on device")
                self.assertEqual(self.told(f"{words} /none/file"), "! /none/file: No such file or directory")

    def test_input_that_is_closed_or_no_file(self) -> None:
        for words in ("check", "json", "shell --nodes 3"):
            with self.subTest(words):
                self.assertEqual(self.told(f"{words} <&-"), "! read failed: Bad file descriptor")
        self.assertEqual(self.told("check /"), "! /: Is a directory")
        self.assertEqual(self.told("json /none"), "! /none: No such file or directory")

    def test_a_reader_that_goes(self) -> None:
        sweep = f"{sys.executable} -m rudekpi sweep --graph path:4 --seeds 300 --processes 1"
        line = f"{sweep} | head -1; exit ${{PIPESTATUS[0]}}"
        done = subprocess.run(["bash", "-c", line], env=environment(), capture_output=True, encoding="utf-8")
        self.assertEqual((done.returncode, done.stdout.count("\n")), (3, 1))
        self.assertEqual(done.stderr, "! write failed: Broken pipe\n")

    def test_no_standard_error(self) -> None:
        line = f"{sys.executable} -m rudekpi worst --graph path:4 2>&-"
        done = subprocess.run(["bash", "-c", line], env=environment(), capture_output=True, encoding="utf-8")
        self.assertEqual(done.returncode, 0)
        self.assertEqual(done.stdout, said("worst", "--graph", "path:4"))
        line = f"{sys.executable} -m rudekpi check <&- 2>&-"
        self.assertEqual(subprocess.run(["bash", "-c", line], env=environment()).returncode, 3)

    def test_what_is_nested_too_deeply(self) -> None:
        path = os.path.join(self.folder(), "deep.transcript")
        pathlib.Path(path).write_text("[" * 100_000, encoding="utf-8")
        self.assertIn("line 1: bad header", rudekpi("json", path).stderr)
        why = rudekpi("check", path)
        self.assertEqual((why.returncode, why.stderr), (1, ""))

    def test_a_scheduler_that_is_not_there(self) -> None:
        with socket.socket() as free:
            free.bind(("127.0.0.1", 0))
            address = f"tcp://127.0.0.1:{free.getsockname()[1]}"
            began = time.monotonic()
            done = rudekpi("sweep", "--graph", "path:4", "--seeds", "1", "--dask", address)
        if "--dask wants distributed" in done.stderr:
            self.skipTest("no distributed")
        self.assertEqual((done.returncode, done.stdout), (3, ""))
        self.assertEqual(done.stderr, f"! no scheduler at {address}: [Errno 111] Connection refused\n")
        self.assertLess(time.monotonic() - began, 20)


class Bench(Timed):
    def test_sweep(self) -> None:
        folder = self.folder()
        edges, rows = os.path.join(folder, "edges.txt"), os.path.join(folder, "out.csv")
        pathlib.Path(edges).write_text("1 2\n2 3\n3 4\n4 1\n", encoding="utf-8")
        words = [
            "--graph",
            edges,
            "--graph",
            "path:6",
            "--rules",
            "hh,manne",
            "--daemon",
            "seeded,synchronous,greedy",
            "--seeds",
            "3",
            "--faults",
            "0,5",
        ]
        self.assertEqual(said("sweep", *words, "--csv", rows, "--processes", "2"), "")
        with open(rows, encoding="utf-8") as file:
            made = sweeps.read_csv(file)
        self.assertEqual(len(made), 2 * 3 * 2 * (2 + 3))
        self.assertEqual({row.graph for row in made}, {edges, "path:6"})
        self.assertEqual(len(said("sweep", "--graph", "ring:5", "--seeds", "2").splitlines()), 3)

    def test_compare(self) -> None:
        table = said("compare", "--graph", "ring:8", "--seeds", "5", "--daemon", "seeded").splitlines()
        self.assertEqual(table[0].split(), HEAD_OF_TABLE.split())
        for line, rules, bound in zip(table[1:], ("hh", "manne"), ("24", "40")):
            words = line.split()
            self.assertEqual((words[:5], words[11]), (["ring:8", "start", "seeded", rules, "5"], bound))
            least, mean, median, most_of, most = map(float, [*words[5:8], *words[9:11]])
            self.assertTrue(0 < least <= median <= most_of <= most <= float(bound) and least <= mean <= most)
            low, high = map(float, words[8].split("-"))
            self.assertTrue(least <= low <= median <= high <= most)
            steps, rounds, most_rounds = map(float, words[12:])
            self.assertTrue(0 < rounds <= steps <= most)
            self.assertEqual(most_rounds, 8 if rules == "hh" else 16)
        lines = said("compare", "--graph", "ring:8", "--seeds", "5", "--daemon", "seeded", "--markdown").splitlines()
        self.assertEqual(len(lines), 4)
        self.assertEqual({line.count("|") for line in lines}, {16})
        self.assertEqual([cell.strip() for cell in lines[2].split("|")[1:-1]], table[1].split())

    def test_worst(self) -> None:
        done = rudekpi("worst", "--graph", "ring:4", "--rules", "manne")
        self.assertEqual(
            done.stderr,
            "ring:4, manne: 20 moves, the longest of all, in 1296 states; the bound is 20; "
            "to play it: rudekpi run --rules manne --nodes 4\n",
        )
        played = said("run", "--rules", "manne", "--nodes", "4", given=done.stdout)
        self.assertEqual(played, said("worst", "--graph", "ring:4", "--transcript"))
        self.assertIn(
            "the longest found", rudekpi("worst", "--graph", "ring:40", "--rules", "hh", "--seconds", "0").stderr
        )

    def test_worst_of_nodes_with_names(self) -> None:
        folder = self.folder()
        path, script = os.path.join(folder, "edges"), os.path.join(folder, "script")
        pathlib.Path(path).write_text("10 20\n20 30\n", encoding="utf-8")
        done = rudekpi("worst", "--graph", path, "--rules", "hh", "--output", script)
        self.assertEqual((done.returncode, done.stdout), (0, ""))
        setting = "--rules hh --nodes 30 --present 0"
        # 2m + n is 7; the table of the longest schedules has 4 for a path of three
        self.assertIn(": 4 moves, the longest of all", done.stderr)
        self.assertTrue(done.stderr.endswith(f"; to play it: rudekpi run {setting}\n"), done.stderr)
        lines = pathlib.Path(script).read_text(encoding="utf-8").splitlines()
        self.assertEqual(lines[:5], ["join 10", "join 20", "join 30", "link 10 20", "link 20 30"])
        played = said("run", *setting.split(" "), given=pathlib.Path(script).read_text(encoding="utf-8"))
        self.assertEqual(played.splitlines()[-1].split(" ", 3)[3], "nodes=3 edges=2 pairs=1 enabled=0 charge=0 spent=4")
        self.assertNotIn("refused", played)
        self.assertEqual(played, said("worst", "--graph", path, "--rules", "hh", "--transcript"))
        pathlib.Path(path).write_text("ann bob\nbob cleo\n", encoding="utf-8")
        done = rudekpi("worst", "--graph", path, "--rules", "hh", "--output", script)
        end = f"rudekpi run --rules hh --nodes 3; the nodes 1 to 3 are ann, bob, cleo: {script}.names\n"
        self.assertTrue(done.stderr.endswith(end), done.stderr)
        self.assertEqual(pathlib.Path(script + ".names").read_text(encoding="utf-8"), '"ann"\n"bob"\n"cleo"\n')
        played = said("run", "--rules", "hh", "--nodes", "3", given=pathlib.Path(script).read_text(encoding="utf-8"))
        self.assertTrue(played.endswith("spent=4\n"), played)

    def test_no_flag_is_abbreviated(self) -> None:
        for words in (
            "sweep --graph ring:5 --seed 7",
            "compare --graph ring:5 --fault 3",
            "worst --graph ring:5 --out f",
        ):
            done = rudekpi(*words.split(" "))
            self.assertEqual((done.returncode, done.stdout), (2, ""))
            self.assertIn(f"unrecognized arguments: {words.split(' ')[-2]}", done.stderr)
        parser = commands.parser_of()
        (chosen,) = (it.choices for it in parser._actions if it.dest == "command" and it.choices)
        every = dict(chosen).values()
        self.assertEqual({it.allow_abbrev for it in (parser, *every)}, {False})
        for folder in ("python", "scripts", "tests", "bench", "examples"):
            for path in pathlib.Path(TOP, folder).rglob("*"):
                if path.is_file() and (
                    path.suffix == ".py" or (not path.suffix and b"python3" in path.read_bytes()[:40])
                ):
                    parsers = re.findall(r"ArgumentParser\(\s*[^)]{0,30}", path.read_text(encoding="utf-8"))
                    self.assertEqual([it for it in parsers if "allow_abbrev=False" not in it], [], path)

    def test_what_is_left_out_is_told(self) -> None:
        done = rudekpi("sweep", "--graph", "ring:5", "--rules", "hh,manne", "--daemon", "synchronous", "--seeds", "2")
        self.assertEqual((done.returncode, done.stdout.count("\n")), (0, 3))
        self.assertEqual(
            done.stderr, "! left out: 2 experiments, since under hh no two nodes move at once, and there are no flags\n"
        )
        done = rudekpi("sweep", "--graph", "ring:5", "--rules", "hh", "--registers", "flag", "--faults", "3")
        self.assertEqual((done.returncode, done.stdout), (2, ""))
        self.assertIn("nothing to play", done.stderr)

    def test_a_table_is_sorted_by_numbers(self) -> None:
        lines = said(
            "compare", "--graph", "ring:10", "--graph", "ring:9", "--seeds", "1", "--faults", "10,9"
        ).splitlines()
        found = [line.split()[:2] for line in lines[1::2]]
        self.assertEqual(found, [["ring:9", "9"], ["ring:9", "10"], ["ring:10", "9"], ["ring:10", "10"]])

    def test_bad_words(self) -> None:
        more = [
            "--seeds 0",
            "--seeds x",
            "--processes 0",
            "--joins 9",
            "--leaves -1",
            "--faults 1.5",
            "--faults ,",
            "--rules ,",
            "--first-seed -1",
        ]
        for words in (
            *(["sweep", "--graph", "ring:5", *words.split(" ")] for words in more),
            ["worst", "--graph", "ring:5", "--seconds", "-1"],
            ["sweep"],
            ["sweep", "--graph", "ring:2"],
            ["sweep", "--graph", "/no/such/file"],
            ["sweep", "--graph", "ring:5", "--daemon", "fair"],
            ["sweep", "--graph", "ring:5", "--faults", "x"],
            ["sweep", "--graph", "ring:5", "--rules", "x"],
            ["shell"],
            ["worst", "--graph", "ring:x"],
        ):
            done = rudekpi(*words)
            self.assertEqual((done.returncode, done.stdout.count("\n") <= 1), (2, True), (words, done.stderr))
            self.assertNotIn("Traceback", done.stderr)

    @unittest.skipUnless(matplotlib, "no matplotlib")
    def test_plots(self) -> None:
        folder = self.folder()
        for words in (["--graph", "ring:6", "--graph", "ring:9"], ["--graph", "ring:6", "--daemon", "seeded,least"]):
            paths = [os.path.join(folder, f"out{number}.svg") for number in range(2)]
            for path in paths:
                said("sweep", *words, "--seeds", "2", "--plot", path, "--processes", "1")
            texts = [pathlib.Path(path).read_text(encoding="utf-8") for path in paths]
            self.assertIn("<svg", texts[0])
            self.assertIn("<!-- moves until silence -->", texts[0])
            said("compare", *words, "--seeds", "2", "--plot", paths[1], "--plotted", "rounds", "--processes", "1")
            self.assertIn("<!-- rounds until silence -->", pathlib.Path(paths[1]).read_text(encoding="utf-8"))
        for path, status in (("out.txt", 2), ("/no/such/folder/out.svg", 3)):
            done = rudekpi("sweep", "--graph", "ring:6", "--plot", path)
            self.assertEqual((done.returncode, done.stdout.count("\n") <= 1), (status, True), done.stderr)
        script = pathlib.Path(TOP, "examples", "broken_ring.transcript")
        from rudekpi import plots

        path = os.path.join(folder, "run.png")
        plots.of_run(script.read_text(encoding="utf-8"), path)
        self.assertGreater(os.path.getsize(path), 5000)

    def test_the_charge_over_a_run(self) -> None:
        from rudekpi import plots

        text = said("run", "--rules", "hh", "--nodes", "2", given="link 1 2\nstatus\nstep 1\nstatus\nstep 2\nstatus\n")
        self.assertEqual(plots.charges_of(text), [(0, 2, True), (1, 1, False), (2, 0, False)])
        self.assertEqual(
            [line.split("charge=")[1].split(" ")[0] for line in text.splitlines() if "charge" in line], ["2", "1", "0"]
        )

    def test_an_interrupt_leaves_the_rows_so_far(self) -> None:
        path = os.path.join(self.folder(), "out.csv")
        words = [
            sys.executable,
            "-m",
            "rudekpi",
            "sweep",
            "--graph",
            "grid:12x12",
            "--daemon",
            "least",
            "--seeds",
            "3000",
            "--csv",
            path,
        ]
        with subprocess.Popen(words, env=environment(), stderr=subprocess.PIPE, encoding="utf-8") as run:
            last = time.monotonic() + 30
            while time.monotonic() < last and not (
                os.path.exists(path) and pathlib.Path(path).read_text(encoding="utf-8").count("\n") > 3
            ):
                time.sleep(0.05)
            run.send_signal(signal.SIGINT)
            told = run.communicate()[1]
        self.assertEqual(run.returncode, 130, told)
        with open(path, encoding="utf-8") as file:
            made = sweeps.read_csv(file)
        self.assertTrue(2 < len(made) < 3000)
        self.assertIn(f"! cut short: {len(made)} of 3000 rows are there", told)

    def test_progress_at_a_terminal(self) -> None:
        pid, end = pty.fork()
        if pid == 0:
            words = [sys.executable, "-m", "rudekpi", "sweep", "--graph", "ring:5", "--seeds", "4", "--csv", os.devnull]
            os.execve(sys.executable, words, environment())
        shown = b""
        while select.select([end], [], [], 30)[0]:
            try:
                part = os.read(end, 1000)
            except OSError:
                break
            shown += part
        os.close(end)
        self.assertEqual(os.waitstatus_to_exitcode(os.waitpid(pid, 0)[1]), 0)
        self.assertTrue(b"4 of 4" in shown or b"4/4" in shown, shown)


class Lines(Timed):
    def test_json(self) -> None:
        script = PAIR + "link 1 2\ncheckpoint\nshow 1\npoint 1 -\nstep 2>1 1\nscramble 3 1\n"
        text = said("run", "--rules", "hh", "--nodes", "3", "--present", "2", given=script)
        made = [json.loads(line) for line in said("json", given=text).splitlines()]
        self.assertEqual(made[0], {"header": "hh", "nodes": 3, "present": 2})
        self.assertEqual(made[1], {"entry": 1, "event": "link", "words": [1, 2], "reply": "ok"})
        self.assertEqual(made[2]["enabled"], [{"node": 1, "rule": "seduce"}, {"node": 2, "rule": "seduce"}])
        self.assertEqual(
            (made[3]["choice"], made[3]["moves"]), ([{"node": 1}], [{"node": 1, "rule": "seduce", "target": 2}])
        )
        self.assertEqual((made[6]["pairs"], made[7]["status"]["pairs"]), ([[1, 2]], 1))
        self.assertEqual((made[8]["refused"], made[8]["text"]), (3, "already-linked"))
        base = {"base": 8, "rules": "hh", "names": 3, "spent": 2, "edges": [[1, 2]]}
        self.assertEqual(
            made[9],
            {**base, "nodes": [{"node": 1, "pointer": 2, "flag": False}, {"node": 2, "pointer": 1, "flag": False}]},
        )
        self.assertEqual(
            (made[10]["target"], made[11]["words"], made[12]["choice"]),
            (2, [1, None], [{"node": 2, "target": 1}, {"node": 1}]),
        )
        self.assertEqual(len(made), text.count(" = ") + 2)
        done = rudekpi("json", given=text.replace("seduce", "marry", 1))
        self.assertEqual((done.returncode, done.stdout, done.stderr), (1, "", "line 3: not the machine's reply\n"))

    def test_check(self) -> None:
        self.assertEqual(said("check", given=PAIR), "each of 7 lines is a command, or empty\n")
        for line, why in [
            ("link 1 2\r", "CRLF"),
            ("\ufefflink 1 2", "byte order mark"),
            ("link 01 2", "leading zeros: `1`"),
            ("lnik 1 2", "`link` may be meant"),
            ("LINK 1 2", "small letters: `link`"),
            ("link 1", "takes a node and a node, and not 1"),
            ("link 1  2", "two spaces"),
            (" link 1 2", "beginning"),
            ("link\t1 2", "tab"),
            ("# a", "comments"),
            ("1 link 1 2 = ok", "of a transcript"),
            ("link 0 1", "1 to 65535"),
            ("link a 1", "not a node"),
            ("flag 1 2", "0 or 1"),
            ("step 1>2>3", "A>B"),
            ("drive 1 1000001", "number of turns"),
            ("link 1 \u00fc", "0xc3"),
            ("connect 1 2", "`link` may"),
            ("step 0", "1 to 65535"),
            ("status 1", "takes nothing, and not 1 word"),
            ("link -1 2", "not a node"),
            ("link 1,2", "a comma"),
            ("step" + " 1" * 65_536, "a step has at most 65535 items"),
            ("show 1" + " " * 1_048_571, "a line has at most 1048576 bytes"),
            ("show 0" + "1" * 60, f"zeros: `{'1' * 40}`\n"),
        ]:
            with self.subTest(line[:80]):
                path = pathlib.Path(self.folder(), "script")
                path.write_bytes(f"status\n\n{line}\nstatus\n".encode())
                done = rudekpi("check", str(path))
                self.assertEqual((done.returncode, done.stdout.count("\n")), (1, 1), done.stdout)
                self.assertTrue(done.stdout.startswith("line 3: ") and why in done.stdout, done.stdout)

    def test_what_is_no_command_is_none_to_the_program(self) -> None:
        drawn = random.Random(9)
        words = [
            *script_words.COMMANDS,
            "1",
            "2",
            "07",
            "0",
            "-",
            "1>2",
            "1>02",
            "3>",
            ">",
            "65535",
            "65536",
            "x",
            "1000000",
            "18446744073709551615",
            "18446744073709551616",
            "",
        ]
        lines = (
            {" ".join(drawn.choices(words, k=drawn.randint(0, 3))) for _ in range(150)}
            | {f"{word} 1 2" for word in words}
            | {f"{word} 1" for word in words}
            | set(words)
        )
        seen = set()
        for line in sorted(lines):
            why = script_words.why_no_command(line.encode())
            done = subprocess.run(
                [os.environ["RUDEKPI_CONSOLE"], "run", "--rules", "manne", "--nodes", "2"],
                input=f"{line}\n".encode(),
                capture_output=True,
            )
            with self.subTest(line, why=why):
                self.assertEqual(done.returncode, 2 if why else 0, done.stderr)
            seen.add(bool(why))
        self.assertEqual(seen, {True, False})

    def test_a_session(self) -> None:
        page = os.path.join(self.folder(), "page.html")
        given = "link 1 2\nlnik 1 2\nlink 1 2\ndrive 7 9\n\ncheckpoint\npicture\naudit\n"
        given += f"play {page}\nplay\nhelp\nquit\nstatus\n"
        lines = said("shell", "--nodes", "2", "--rules", "hh", given=given)
        for text in (
            "matching hh 2\n1 link 1 2 = ok\nnot sent: `lnik` is no command: `link` may be meant\n"
            "2 link 1 2 = refused 3 already-linked\n",
            "base 5 spent=2",
            "accepted: 5 entries",
            f"written: {page}",
            "play wants a file's name",
            "quit ends the session",
            "graph",
        ):
            self.assertIn(text, lines)
        self.assertNotIn("6 status", lines)
        self.assertTrue(os.path.exists(page))

    def test_a_session_at_a_terminal(self) -> None:
        pid, end = pty.fork()
        if pid == 0:
            words = [sys.executable, "-m", "rudekpi", "shell", "--nodes", "3"]
            os.execve(sys.executable, words, environment(HOME=self.folder(), TERM="dumb"))
        shown = b""
        for typed in (b"lin\t1 2\n", b"\x03", b"lnik\n", b"status\n", b"\x04"):
            wanted = time.monotonic() + 20
            while not shown.endswith(b"> ") and time.monotonic() < wanted and select.select([end], [], [], 20)[0]:
                shown += os.read(end, 4096)
            # readline waits for keys a moment after its prompt; a signal before that has no effect
            time.sleep(0.3)
            os.write(end, typed)
            shown += b"|"
            while typed == b"\x03" and b"cut short" not in shown and time.monotonic() < wanted + 20:
                if select.select([end], [], [], 2)[0]:
                    shown += os.read(end, 4096)
                else:
                    os.write(end, typed)
        try:
            while select.select([end], [], [], 20)[0]:
                shown += os.read(end, 4096)
        except OSError:
            pass
        os.close(end)
        self.assertEqual(os.waitstatus_to_exitcode(os.waitpid(pid, 0)[1]), 0)
        for text in (b"1 link 1 2 = ok", b"cut short", b"`link` may be meant", b"2 status = nodes=3 edges=1"):
            self.assertIn(text, shown)


if __name__ == "__main__":
    unittest.main()
