"""The judge of logs: verdicts by hand, divergences, bad lines, streams, damaged logs, own_nodes."""

from __future__ import annotations

import copy
import dataclasses
import io
import json
import os
import pathlib
import pickle
import re
import signal
import subprocess
import sys
import unittest
from typing import Any, Iterable
from unittest import mock

import log_fuzz
from rudekpi import BadLine, Conformance, Divergence, Ended, audit, conform, conformance, engines
from rudekpi.library import LOG_FULL, found_library
from support import TOP, Timed

PATH = ['{"nodes": ["a", "b", "c", "d"]}', '{"link": ["a", "b"]}', '{"link": ["b", "c"]}', '{"link": ["c", "d"]}']
HH = [
    '{"nodes": ["a", "b", "c", "d"], "capacity": 5}',
    *PATH[1:],
    '{"move": "b", "pointer": "c"}',
    '{"move": "c", "pointer": "b"}',
    '{"fault": "c", "pointer": "d"}',
    '{"time": 7.5, "move": "b", "pointer": null}',
    '{"move": "d", "pointer": "c"}',
    '{"join": "e"}',
    '{"link": ["d", "e"]}',
]
HH_TRANSCRIPT = """\
matching hh 5 4
1 link 1 2 = ok
2 link 2 3 = ok
3 link 3 4 = ok
4 step 2>3 = 2:seduce>3
5 step 3>2 = 3:marry>2
6 point 3 4 = ok
7 step 2 = 2:abandon
8 step 4>3 = 4:marry>3
9 join 5 = ok
10 link 4 5 = ok
11 status = nodes=5 edges=4 pairs=1 enabled=2 charge=2 spent=0
12 enabled = 1:seduce 2:seduce
"""
MANNE = [
    '{"nodes": ["a", "b", "c"], "capacity": 3}',
    '{"link": ["a", "b"]}',
    '{"link": ["b", "c"]}',
    '{"moves": [{"move": "b", "pointer": "c"}, {"move": "a", "pointer": "b"}]}',
    '{"move": "c", "pointer": "b", "flag": false}',
    '{"moves": [{"move": "b", "flag": true}, {"move": "c", "flag": true}]}',
    '{"move": "a", "pointer": null}',
]
MANNE_TRANSCRIPT = """\
matching manne 3
1 link 1 2 = ok
2 link 2 3 = ok
3 step 2>3 1>2 = 1:seduce>2 2:seduce>3
4 step 3>2 = 3:marry>2
5 step 2 3 = 2:update 3:update
6 step 1 = 1:abandon
7 status = nodes=3 edges=2 pairs=1 enabled=0 charge=1 spent=6
"""


def environment(**more: str) -> dict[str, str]:
    return dict(os.environ, PYTHONPATH=os.path.join(TOP, "python"), **more)


def rudekpi(*words: str, given: bytes = b"") -> subprocess.CompletedProcess[bytes]:
    return subprocess.run(
        [sys.executable, "-m", "rudekpi", *words], input=given, env=environment(), capture_output=True
    )


def text_of(lines: Iterable[str]) -> bytes:
    return "".join(f"{line}\n" for line in lines).encode()


class Verdicts(Timed):
    def first(self, rules: str, lines: list[str]) -> Divergence:
        """The first divergence of a log, at its last line."""
        found = conform(lines, rules)
        assert found.first is not None, lines
        self.assertEqual(found.first.line, len(lines))
        return found.first

    def test_logs_that_the_rules_allow(self) -> None:
        for rules, lines, wanted in (("hh", HH, HH_TRANSCRIPT), ("manne", MANNE, MANNE_TRANSCRIPT)):
            transcript = io.BytesIO()
            found = conform(lines, rules, transcript=transcript)
            self.assertTrue(found and found.is_accepted)
            self.assertEqual(transcript.getvalue().decode(), wanted)
            audit(transcript.getvalue())
        found = conform(HH, "hh")
        self.assertEqual(found.names, tuple("abcde"))
        self.assertEqual(found.moves, {"marry": 2, "seduce": 1, "abandon": 1})
        self.assertEqual((found.events, found.edits, found.faults, found.divergences), (10, 5, 1, 0))
        # a and b may seduce each other: one open edge; 2m + n is 2 * 4 + 5
        self.assertEqual(found.stand, engines.Stand(nodes=5, edges=4, pairs=1, enabled=2, charge=2, spent=0))
        self.assertEqual(found.bound, 13)
        found = conform(MANNE, "manne")
        self.assertEqual(found.moves, {"update": 2, "marry": 1, "seduce": 2, "abandon": 1})
        # a is unmarried, which counts 1; 2m + 3n is 2 * 2 + 3 * 3
        self.assertEqual((found.stand.charge, found.stand.spent, found.bound), (1, 6, 13))

    def test_a_log_may_be_given_in_many_forms(self) -> None:
        path = pathlib.Path(self.folder(), "log")
        path.write_bytes(text_of(HH))
        objects = map(json.loads, HH)
        with open(path, "rb") as file:
            logs: list[Any] = [path, file, text_of(HH), text_of(HH).decode(), HH, iter(HH), objects]
            logs += [text_of(HH)[:-1], text_of(HH).replace(b"\n", b"\r\n"), b"\xef\xbb\xbf" + text_of(HH)]
            logs += [text_of(HH).replace(b"\n", b"\n\n"), text_of(HH).replace(b": ", b" :\t")]
            for log in logs:
                with self.subTest(type(log)):
                    # the numbers of lines differ if there are blank ones
                    found, wanted = (dataclasses.replace(conform(it, "hh"), waiting=()) for it in (log, HH))
                    self.assertEqual(found, wanted)
        none: list[Any] = [3, None, {"nodes": []}]
        for log in none:
            with self.assertRaises(TypeError):
                conform(log, "hh")
        with self.assertRaisesRegex(ValueError, "rules are 'hh' or 'manne'"):
            conform(HH, "Manne")

    def test_names_beside_the_transcript(self) -> None:
        path = os.path.join(self.folder(), "t")
        lines = ['{"nodes": ["\\u00e9", 7, "a b"], "capacity": 4}', '{"join": "z"}', '{"link": [7, "a b"]}']
        self.assertTrue(conform(lines, "hh", transcript=path))
        self.assertEqual(pathlib.Path(path).read_text(encoding="utf-8").splitlines()[2], "2 link 2 3 = ok")
        names = pathlib.Path(path + ".names").read_text(encoding="utf-8").splitlines()
        self.assertEqual([json.loads(name) for name in names], ["\u00e9", 7, "a b", "z"])

    def test_why_a_move_is_not_allowed(self) -> None:
        to = '{{"move": "{}", "pointer": {}}}'.format
        wooed = [*PATH, to("b", '"c"')]
        cases = (
            ("hh", [*wooed, to("c", '"d"')], "marry", "b", "at c points b: c may only marry b; d does not point at c"),
            (
                "hh",
                [*wooed, to("b", "null")],
                None,
                "",
                "b's pointer is c, and c points at null: b may only wait for c",
            ),
            ("hh", [*wooed, to("a", '"b"')], None, "", "a has no neighbour that points at null"),
            ("hh", [*PATH, to("a", '"c"')], "seduce", "b", "may only seduce b; c is no neighbour of a"),
            ("hh", [*PATH, to("b", '"d"')], "seduce", "ac", "may only seduce one of a, c; d is no neighbour of b"),
            ("hh", [*PATH, to("b", "null")], "seduce", "ac", "it holds that already"),
            ("hh", [*PATH, '{"move": "b", "flag": true}'], "seduce", "ac", "there are no flags under hh"),
            ("manne", [*PATH, to("b", '"a"')], "seduce", "c", "a stands below b (they are nodes 1 and 2)"),
            ("manne", [*PATH, '{"move": "d", "flag": true}'], None, "", "d has no neighbour above it"),
            ("manne", [*PATH, '{"fault": "c", "flag": true}', to("b", '"c"')], None, "", "c is flagged"),
            ("manne", [*PATH, '{"fault": "c", "flag": true}', to("c", '"d"')], "update", "", "its flag is true"),
            ("manne", [*wooed, '{"move": "b", "pointer": null, "flag": true}'], None, "", "no rule writes both"),
            ("hh", [*PATH, '{"leave": "b"}', to("b", '"a"')], None, "", "b is not present"),
        )
        for rules, lines, rule, targets, why in cases:
            with self.subTest(lines[-1], rules=rules, why=why):
                found = self.first(rules, lines)
                self.assertIn(why, found.why)
                self.assertEqual(found.rule, rule)
                self.assertEqual(found.node, json.loads(lines[-1])["move"])
                self.assertEqual("".join(found.targets), targets)

    def test_several_at_once(self) -> None:
        both = '{"moves": [{"move": "a", "pointer": "b"}, {"move": "d", "pointer": "c"}]}'
        found = self.first("hh", [*PATH, both])
        self.assertEqual((found.node, found.why), ("a", "a, d move at once, and under hh one node moves at a time"))
        self.assertEqual(self.first("manne", [*PATH, both]).node, "d", "c stands below d")
        twice = '{"moves": [{"move": "a", "pointer": "b"}, {"move": "a", "pointer": "b"}]}'
        self.assertEqual(self.first("manne", [*PATH, twice]).why, "a moves twice in one step")
        one = '{"moves": [{"move": "a", "pointer": "b"}]}'
        self.assertEqual(conform([*PATH, one], "hh").moves["seduce"], 1)

    def test_a_stale_copy_is_named(self) -> None:
        log = [*PATH, '{"move": "b", "pointer": "a"}', '{"move": "a", "pointer": "b"}', '{"move": "c", "pointer": "b"}']
        found = self.first("hh", log)
        self.assertIn("with what b held before line 5 it was allowed: c may have read a stale copy of b", found.hint)
        # the cut cleared c's pointer, but d acts as if c still pointed at b
        cut = [*PATH, '{"fault": "c", "pointer": "b"}', '{"unlink": ["b", "c"]}', '{"move": "d", "pointer": null}']
        self.assertEqual(self.first("hh", cut).hint, "")
        cut[5:5] = ['{"fault": "d", "pointer": "c"}']
        self.assertIn("before line 7 it was allowed: d may have read a stale copy of c", self.first("hh", cut).hint)

    def test_what_goes_on_after_a_divergence(self) -> None:
        log = [
            *PATH,
            '{"move": "b", "pointer": "c"}',
            '{"move": "a", "pointer": "b"}',
            '{"move": "b", "pointer": null}',
        ]
        told: list[Divergence] = []
        transcript = io.BytesIO()
        found = conform([*log, HH[5]], "hh", resync=True, on_divergence=told.append, transcript=transcript)
        self.assertEqual([it.line for it in told], [6, 7])
        self.assertEqual((found.divergences, found.first, found.stopped), (2, told[0], ""))
        # a points at b, so that b marries it
        self.assertEqual(conform([*log, '{"move": "b", "pointer": "a"}'], "hh", resync=True).divergences, 2)
        self.assertEqual(found.events, 7)
        audit(transcript.getvalue())
        for line in ("5 step 1>2 = refused 11 not-enabled", "6 point 1 2 = ok", "7 step 2 = refused 11 not-enabled"):
            self.assertIn(f"\n{line}\n", transcript.getvalue().decode())

    def test_where_no_fault_can_write_what_was_observed(self) -> None:
        after = '{"move": "a", "pointer": "b"}'
        found = conform([*PATH, '{"move": "a", "pointer": "d"}', after], "hh", resync=True)
        self.assertEqual(found.stopped, "line 5: no fault can write this (a wrote pointer d): 6 not-neighbour")
        self.assertEqual((found.events, found.divergences), (4, 1))
        found = conform([*PATH, '{"move": "a", "flag": true}', after], "hh", resync=True)
        self.assertEqual(found.stopped, "line 5: no fault can write this (a wrote flag true): 7 no-flag")

    def test_results_leave_a_process(self) -> None:
        found = conform([*PATH, '{"move": "a", "pointer": "d"}'], "hh")
        self.assertEqual(pickle.loads(pickle.dumps(found)), found)
        self.assertEqual(copy.deepcopy(found), found)
        self.assertEqual(dataclasses.asdict(found)["first"]["line"], 5)
        bad = BadLine(3, "why")
        self.assertEqual(pickle.loads(pickle.dumps(bad)).args, bad.args)

    def test_a_full_log(self) -> None:
        """This library's calls, or the program, report it after the first edit."""
        transcript = io.BytesIO()
        if self.engine == "library":
            library = found_library()
            assert library is not None
            with mock.patch.object(library, "unlink", lambda *_: LOG_FULL), self.assertRaises(Ended) as raised:
                conform([*PATH, '{"unlink": ["a", "b"]}', *HH[4:]], "hh", transcript=transcript)
        else:
            script = (
                "echo 'matching hh 4'\nread -r _ && echo '1 link 1 2 = ok'\nread -r _\necho '! log full' >&2\nexit 4\n"
            )
            with self.assertRaises(Ended) as raised:
                conform(PATH, "hh", transcript=transcript, program=self.program(script))
        self.assertEqual((raised.exception.status, raised.exception.last_line), (4, "! log full"))
        whole = (
            "".join(HH_TRANSCRIPT.splitlines(keepends=True)[1:4]) if self.engine == "library" else "1 link 1 2 = ok\n"
        )
        self.assertEqual(transcript.getvalue().decode(), f"matching hh 4\n{whole}")

    def test_the_machine_is_given_back(self) -> None:
        made: list[Any] = []
        make = engines.engine_of

        def kept(*words: Any) -> Any:
            made.append(make(*words))
            return made[-1]

        with mock.patch.object(conformance, "engine_of", kept):
            conform(HH, "hh")
            with self.assertRaises(BadLine):
                conform([*HH, "x"], "hh")
        for engine in made:
            closed = engine.session.is_closed if self.engine == "library" else engine.net._session.is_closed
            self.assertTrue(closed)
        self.assertEqual(len(made), 2)


class BadLines(Timed):
    # what is wrong with a line after those of a path, and the message
    lines = (
        ('{"move": "a"', "this is no JSON: expecting ',' delimiter"),
        ("[1]", "an event is an object"),
        ('"a"', "an event is an object"),
        ("null", "an event is an object"),
        ("{}", "this line has none"),
        ('{"lnk": ["a", "d"]}', "'link' may be meant"),
        ('{"link": ["a", "d"], "join": "e"}', "this line has link and join"),
        ('{"nodes": ["e"]}', "nodes are named in the first line"),
        ('{"link": ["a", "a"]}', "2 self-loop"),
        ('{"link": ["a"]}', "link has a list of two names"),
        ('{"link": "ab"}', "link has a list of two names"),
        ('{"link": [["a"], "b"]}', "a node's name is a text or a whole number"),
        ('{"unlink": ["a", "c"]}', "4 not-linked"),
        ('{"join": "a"}', "13 already-present"),
        ('{"join": "e"}', "e is one name more than the capacity, which is 4: raise it in line 1"),
        ('{"join": ""}', "a node's name is a text that is not empty"),
        ('{"join": null}', "a node's name is a text or a whole number"),
        ('{"leave": "e"}', 'no node has the name "e"'),
        ('{"leave": true}', "a node's name is a text or a whole number, and not true"),
        ('{"move": "a"}', "a move names what was written"),
        ('{"move": "a", "pointer": "x"}', 'no node has the name "x"'),
        ('{"move": "a", "pointer": 1.5}', "a node's name is a text or a whole number, and not 1.5"),
        ('{"move": "a", "ponter": "b"}', "'pointer' may be meant"),
        ('{"move": "a", "pointer": "b", "note": 1}', 'no key "note": its keys are move, pointer, flag, saw, time'),
        ('{"move": "a", "flag": 1}', "a flag is true or false, and not 1"),
        ('{"move": "a", "move": "a", "pointer": "b"}', 'the key "move" is there twice'),
        ('{"time": 1, "move": "a", "pointer": "b", "time": 2}', 'the key "time" is there twice'),
        ('{"time": 01, "move": "a", "pointer": "b"}', "this is no JSON"),
        ('{"move": "a", "pointer": NaN}', "NaN is no JSON"),
        ('{"move": "a", "pointer": "b"} {}', "a second value"),
        ('{"moves": []}', "moves is a list of one move or more"),
        ('{"moves": [{"join": "e"}]}', "move 1 of the line: in moves stand moves alone"),
        ('{"moves": [{"move": "a", "flag": true}, {"move": "x", "flag": true}]}', "move 2 of the line: no node has"),
        ('{"fault": "a", "pointer": "c"}', "the machine refuses this fault (a wrote pointer c): 6 not-neighbour"),
        ('{"fault": "a", "flag": false}', "7 no-flag"),
        ('{"move": "\ufffd', "this is no JSON"),
        ("[" * 100_000, "nested too deeply"),
    )
    heads = (
        ("{}", "a log begins with"),
        ('{"link": ["a", "b"]}', "a log begins with"),
        ('{"nodes": "ab"}', "nodes is a list of names"),
        ('{"nodes": ["a", "a"]}', "two nodes have the name a"),
        ('{"nodes": [1, "1"]}', "two nodes have the name 1"),
        ('{"nodes": [""]}', "a text that is not empty"),
        ('{"nodes": [true]}', "and not true"),
        ('{"nodes": ["a"], "capacity": 0}', "capacity is a number from 1"),
        ('{"nodes": ["a"], "capacity": 65536}', "to 65535"),
        ('{"nodes": ["a"], "capacity": "9"}', "capacity is a number"),
        ('{"nodes": ["a"], "rules": "hh"}', 'no key "rules"'),
    )

    def bad(self, log: Any) -> BadLine:
        with self.assertRaises(BadLine) as raised:
            conform(log, "hh")
        return raised.exception

    def test_lines_that_are_no_events(self) -> None:
        for line, why in self.lines:
            for log in ([*PATH, line, HH[4]], text_of([*PATH, line, HH[4]])):
                with self.subTest(line[:80]):
                    bad = self.bad(log)
                    self.assertEqual(bad.line, 5)
                    self.assertIn(why, str(bad))
                    self.assertLess(len(str(bad)), 1000)

    def test_first_lines_that_are_none(self) -> None:
        for line, why in self.heads:
            with self.subTest(line):
                bad = self.bad([line])
                self.assertEqual(bad.line, 1)
                self.assertIn(why, bad.why)

    def test_texts_that_are_no_logs(self) -> None:
        whole = text_of(PATH)
        for log, line, why in (
            (b"", 1, "the log is empty"),
            (b"\n \n", 1, "the log is empty"),
            (whole.decode().encode("utf-16"), 1, "the log is UTF-16"),
            (whole.replace(b'["c", "d"]', b'["c", "\xff"]'), 4, "there is the byte 0xff"),
            (whole + b'{"move": "' + b"a" * (1 << 24), 5, "the line has more than 16777216 bytes"),
            (HH_TRANSCRIPT, 1, "this is no JSON"),
        ):
            with self.subTest(why):
                bad = self.bad(log)
                self.assertEqual(bad.line, line)
                self.assertIn(why, bad.why)

    def test_what_came_before_a_bad_line_is_a_transcript(self) -> None:
        transcript = io.BytesIO()
        with self.assertRaises(BadLine):
            conform([*HH, "x"], "hh", transcript=transcript)
        self.assertEqual(transcript.getvalue().decode(), HH_TRANSCRIPT[: HH_TRANSCRIPT.index("11 status")])


class Command(Timed):
    def said(self, *words: str, log: Iterable[str] = (), status: int = 0) -> str:
        done = rudekpi("conform", *words, given=text_of(log))
        self.assertEqual((done.returncode, done.stderr.decode()), (status, ""))
        return done.stdout.decode()

    def test_verdicts(self) -> None:
        self.assertEqual(
            self.said("--rules", "hh", log=HH),
            "accepted: 10 events, 5 edits, 1 fault, 4 moves: 2 marry, 1 seduce, 1 abandon\n"
            "at the end: 5 nodes, 4 edges, 1 pair, 2 enabled; spent 0, charge 2, bound 13\n"
            "enabled without a move, the longest first:\n"
            "    a by seduce, at least since line 8, time 7.5\n"
            "    b by seduce, at least since line 8, time 7.5\n",
        )
        path = os.path.join(self.folder(), "log")
        pathlib.Path(path).write_bytes(text_of([*HH[:6], '{"move": "b", "pointer": null}']))
        transcript = os.path.join(self.folder(), "transcript")
        said = self.said("--rules", "hh", path, "--output", transcript, status=1).splitlines()
        self.assertEqual(
            said[:3],
            [
                "line 7: b wrote pointer null, and the rules do not allow it",
                '    {"move": "b", "pointer": null}',
                "  b and c are a pair: no rule is enabled at b",
            ],
        )
        self.assertEqual(said[-2][:36], "not accepted, 1 divergence: 6 events")
        audit(pathlib.Path(transcript).read_text(encoding="utf-8"))
        self.assertEqual(pathlib.Path(transcript + ".names").read_text(encoding="utf-8"), '"a"\n"b"\n"c"\n"d"\n')

    def test_statuses_of_what_is_no_log(self) -> None:
        cases: tuple[tuple[list[str], bytes, int, str], ...] = (
            ([], text_of([*PATH, "x"]), 2, "! line 5: this is no JSON: expecting value at character 1\n"),
            ([], b"", 2, '! line 1: the log is empty: it begins with {"nodes": ["a", "b", ..], "capacity": N}\n'),
            (["/none"], b"", 3, "! /none: No such file or directory\n"),
            (["/"], b"", 3, "! /: Is a directory\n"),
            (["--output", "-"], text_of(HH), 2, "! a transcript goes to a file, .*\n"),
            (["--output", "/dev/full"], text_of(HH), 3, "! /dev/full: No space left on device\n"),
            (["--output", "/none/t"], text_of(HH), 3, "! /none/t: No such file or directory\n"),
        )
        for words, given, status, told in cases:
            with self.subTest(told):
                done = rudekpi("conform", "--rules", "hh", *words, given=given)
                self.assertEqual((done.returncode, done.stdout), (status, b""))
                self.assertRegex(done.stderr.decode(), "^" + told.replace("[", r"\[").replace("{", r"\{") + "$")

    def test_no_file_is_lost(self) -> None:
        log, old = os.path.join(self.folder(), "log"), os.path.join(self.folder(), "old")
        pathlib.Path(log).write_bytes(text_of(HH))
        pathlib.Path(old).write_text("old", encoding="utf-8")
        for words, status in (((log, "--output", log), 2), (("/none", "--output", old), 3)):
            done = rudekpi("conform", "--rules", "hh", *words)
            self.assertEqual((done.returncode, done.stdout), (status, b""))
        done = rudekpi("conform", "--rules", "hh", "--output", old, given=b"x\n")
        self.assertEqual(done.returncode, 2)
        self.assertEqual(pathlib.Path(old).read_text(encoding="utf-8"), "old")
        self.assertEqual(pathlib.Path(log).read_bytes(), text_of(HH))
        self.assertFalse(os.path.exists(old + ".names"))

    def test_streams_that_fail(self) -> None:
        path = os.path.join(self.folder(), "log")
        pathlib.Path(path).write_bytes(text_of(HH))
        for words, told in (
            ("> /dev/full", "! write failed: No space left on device\n"),
            (">&-", "! write failed: Bad file descriptor\n"),
        ):
            line = f"{sys.executable} -m rudekpi conform --rules hh {path} {words}"
            done = subprocess.run(["bash", "-c", line], env=environment(), capture_output=True, encoding="utf-8")
            self.assertEqual((done.returncode, done.stdout, done.stderr), (3, "", told))

    def test_a_pipe_is_judged_as_it_comes_and_may_be_cut_short(self) -> None:
        words = [sys.executable, "-m", "rudekpi", "conform", "--rules", "hh", "--resync"]
        run = subprocess.Popen(
            words, env=environment(), stdin=subprocess.PIPE, stdout=subprocess.PIPE, stderr=subprocess.PIPE, bufsize=0
        )
        assert run.stdin and run.stdout and run.stderr
        for pipe in (run.stdin, run.stdout, run.stderr):
            self.addCleanup(pipe.close)
        self.addCleanup(run.kill)
        run.stdin.write(text_of([*PATH, '{"move": "a", "pointer": null}']) + b'{"move": "a", "po')
        said = b""
        while b"    b points at null\n" not in said:
            said += os.read(run.stdout.fileno(), 4096)
        self.assertTrue(said.startswith(b"line 5: a wrote nothing new, and the rules do not allow it\n"))
        run.send_signal(signal.SIGINT)
        said, told = run.stdout.read(), run.stderr.read()
        self.assertEqual(run.wait(), 130)
        self.assertTrue(told.startswith(b"! cut short after "))
        self.assertIn(b"not accepted, 1 divergence: ", said)

    def test_names_that_can_not_be_printed(self) -> None:
        log = ['{"nodes": ["\\u001b[1m", "\\ud800", "\u00fc"]}', '{"move": "\\u001b[1m", "pointer": "\\ud800"}']
        done = subprocess.run(
            [sys.executable, "-m", "rudekpi", "conform", "--rules", "hh"],
            input=text_of(log),
            env=environment(LC_ALL="C", PYTHONCOERCECLOCALE="0", PYTHONUTF8="0"),
            capture_output=True,
        )
        self.assertEqual((done.returncode, done.stderr), (1, b""))
        self.assertNotIn(b"\x1b", done.stdout)
        self.assertIn(b'"\\u001b[1m" wrote pointer "\\ud800"', done.stdout)


class Damaged(Timed):
    def test_damaged_logs(self) -> None:
        counts, wrong = log_fuzz.fuzz(600 if self.engine == "library" else 40, 11, self.engine)
        self.assertEqual([*wrong], [])
        if self.engine == "library":
            self.assertGreater(counts["diverged"], 60)
            self.assertGreater(counts["accepted"], 10)

    def test_the_fuzz_sees_a_wrong_verdict(self) -> None:
        with mock.patch.object(log_fuzz, "first_verdict", lambda *_: ("accepted", 0)):
            self.assertGreater(len([*log_fuzz.fuzz(40, 11, self.engine)[1]]), 20)


class Page(Timed):
    """docs/CONFORM.md: what its commands print, and that its Python runs."""

    engines = ("library",)

    def blocks(self, kind: str) -> list[str]:
        page = pathlib.Path(TOP, "docs", "CONFORM.md").read_text(encoding="utf-8")
        fences = re.split(r"^```(\w*)\n", page, flags=re.MULTILINE)
        # text, the word of a block, its lines, and the empty word of its end, by turns
        return [lines for word, lines in zip(fences[1::4], fences[2::4]) if word == kind]

    def said(self, *words: str, text: str = "") -> str:
        more = dict(os.environ, PYTHONPATH=os.path.join(TOP, "python"))
        command = [sys.executable, "-m", "rudekpi", "conform", *words]
        done = subprocess.run(command, input=text, env=more, capture_output=True, encoding="utf-8")
        self.assertEqual((done.returncode, done.stderr), (1, ""))
        return done.stdout

    def test_the_first_log(self) -> None:
        log, printed, *_ = self.blocks("")
        self.assertEqual(self.said("--rules", "hh", text=log), printed)

    def test_the_report_on_views(self) -> None:
        words = ("--mistake", "flag", "--seed", "5", "--events", "3000", "--log", "-")
        script = os.path.join(TOP, "examples", "stale_nodes.py")
        log = subprocess.run([sys.executable, script, *words], check=True, capture_output=True, encoding="utf-8")
        said = self.said("--rules", "manne", "--views", text=log.stdout).splitlines()
        (report,) = [block for block in self.blocks("") if block.startswith("on what the nodes saw")]
        for line in report.splitlines():
            self.assertIn(line, said)

    def test_the_python(self) -> None:
        (code,) = [block for block in self.blocks("python") if "import" in block]
        log, folder = self.blocks("")[0], pathlib.Path(self.folder())
        head, *rest = log.splitlines()
        rest = [f'{{"clock": {at}, {line[1:]}' for at, line in enumerate(rest)]
        (folder / "n1.log").write_text("\n".join([head, *rest[::2], ""]), encoding="utf-8")
        (folder / "n2.log").write_text("\n".join([*rest[1::2], ""]), encoding="utf-8")
        more = dict(os.environ, PYTHONPATH=os.path.join(TOP, "python"))
        done = subprocess.run([sys.executable, "-c", code], cwd=folder, env=more, capture_output=True, encoding="utf-8")
        self.assertEqual((done.returncode, done.stderr), (0, ""))
        self.assertIn("False {'update': 0, 'marry': 1, 'seduce': 1, 'abandon': 0} 0 0 0 ", done.stdout)


class OwnNodes(Timed):
    """Its nodes know nothing of this package, or, with --proved, only the rule of one node."""

    engines = ("program",)
    seconds = 240
    # the example takes the library, if there is one
    engine_of_example = "library" if found_library() else "program"

    def verdict(self, *words: str) -> tuple[Conformance, str]:
        path = pathlib.Path(self.folder(), "log")
        example = [sys.executable, os.path.join(TOP, "examples", "own_nodes.py"), "--log", str(path), *words]
        engine = dict(os.environ, RUDEKPI_ENGINE=self.engine_of_example)
        done = subprocess.run(example, env=engine, capture_output=True, encoding="utf-8")
        self.assertEqual(done.stderr, "")
        rules = words[words.index("--rules") + 1]
        found = conform(path, rules, engine=self.engine_of_example)
        self.assertEqual(done.returncode, 0 if found else 1)
        return found, done.stdout

    def test_its_nodes_follow_the_rules(self) -> None:
        for rules in ("hh", "manne"):
            found, said = self.verdict("--rules", rules)
            self.assertTrue(said.endswith("the rules allow all of it\n"))
            self.assertEqual((found.events, found.divergences), (10_000, 0))
            self.assertGreater(min(found.moves.values()), 100)

    def test_its_nodes_run_the_proved_rule(self) -> None:
        if self.engine_of_example == "program":
            self.skipTest("no library")
        for rules in ("hh", "manne"):
            found, said = self.verdict("--rules", rules, "--proved", "--events", "4000")
            self.assertTrue(said.endswith("the rules allow all of it\n"))
            self.assertEqual((found.events, found.divergences), (4000, 0))
            self.assertGreater(min(found.moves.values()), 40)

    def test_its_mistakes_are_found_by_name(self) -> None:
        for rules, mistake, why, *more in (
            ("hh", "stale", "n17 may have read a stale copy of "),
            ("manne", "stale", "n17 may have read a stale copy of "),
            ("manne", "low", r"stands below n17 \(they are nodes "),
            ("manne", "stale", "n17 may have read a stale copy of ", "--proved"),
        ):
            if more and self.engine_of_example == "program":
                continue
            with self.subTest(mistake, rules=rules, more=more):
                words = ("--rules", rules, "--mistake", mistake, "--events", "1500", "--seed", "3", *more)
                found, said = self.verdict(*words)
                assert found.first is not None
                self.assertEqual(found.first.node, "n17")
                self.assertRegex(said, why)

    def test_it_imports_conform_and_the_rule_alone(self) -> None:
        with open(os.path.join(TOP, "examples", "own_nodes.py"), encoding="utf-8") as file:
            own = [line for line in file if "rudekpi" in line and "import" in line]
        wanted = ["from rudekpi import conform  # noqa: E402\n", "        from rudekpi import local_rule\n"]
        self.assertEqual(own, wanted)


if __name__ == "__main__":
    unittest.main()
