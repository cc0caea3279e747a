"""Logs of systems that run: bad lines, links of both ends, pipes, cut, merged and packed logs, absent nodes."""

from __future__ import annotations

import gzip
import io
import json
import os
import pathlib
import pickle
import signal
import subprocess
import sys
import tracemalloc
import unittest
from typing import Any, Iterable

from rudekpi import BadLine, Conformance, Note, audit, conform, merged
from support import TOP, Timed

# a and b are linked and point at each other
PAIR = ['{"nodes": ["a", "b", "c"]}', '{"link": ["a", "b"]}', '{"link": ["b", "c"]}']
MOVES = ['{"move": "a", "pointer": "b"}', '{"move": "b", "pointer": "a"}']
# c has seen none of this
WRONG = '{"move": "c", "pointer": "b"}'


def text_of(lines: Iterable[str]) -> bytes:
    return "".join(f"{line}\n" for line in lines).encode()


def joined(logs: dict[str, Any], **more: Any) -> dict[str, Any]:
    """Logs by their names, with others in addition or instead."""
    return {**logs, **more}


def environment() -> dict[str, str]:
    return dict(os.environ, PYTHONPATH=os.path.join(TOP, "python"))


def ran(*words: str, given: bytes = b"") -> tuple[int, str, str]:
    """The command's status, what it prints, and what it reports."""
    line = [sys.executable, "-m", "rudekpi", "conform", *words]
    done = subprocess.run(line, input=given, env=environment(), capture_output=True)
    return done.returncode, done.stdout.decode(), done.stderr.decode()


def noted(log: Any, rules: str = "hh", **words: Any) -> tuple[Conformance, list[str]]:
    """A verdict, and the texts of the notes."""
    notes: list[Note] = []
    found = conform(log, rules, on_note=notes.append, **words)
    return found, [str(note) for note in notes]


class BadLinesPassed(Timed):
    def test_bad_lines_are_said_counted_and_skipped(self) -> None:
        log = [*PAIR, "{", '{"lnk": 1}', '{"join": "a"}', '{"fault": "a", "pointer": "c"}', *MOVES]
        found, notes = noted(log, resync=True)
        self.assertEqual((found.bad_lines, found.divergences, found.events), (4, 0, 4))
        self.assertFalse(found)
        self.assertEqual([note.split(":")[0] for note in notes], ["line 4", "line 5", "line 6", "line 7"])
        self.assertTrue(all(note.endswith(" (skipped)") for note in notes))
        self.assertIn("13 already-present", notes[2])
        self.assertIn("6 not-neighbour", notes[3])
        self.assertEqual(found.stand.pairs, 1)
        with self.assertRaises(BadLine) as raised:
            conform(log, "hh")
        self.assertEqual(raised.exception.line, 4)

    def test_statuses(self) -> None:
        status, said, told = ran("--rules", "hh", "--resync", given=text_of([*PAIR, "{", *MOVES]))
        self.assertEqual((status, told), (2, ""))
        lines = said.splitlines()
        self.assertRegex(lines[0], r"^line 4: this is no JSON: .* \(skipped\)$")
        self.assertRegex(lines[-2], "^not accepted, 1 bad line: 4 events, 2 edits, 0 faults, 2 moves: ")
        status, said, _ = ran("--rules", "hh", "--resync", given=text_of([*PAIR, "{", *MOVES, WRONG]))
        self.assertEqual(status, 1)
        self.assertIn("not accepted, 1 divergence, 1 bad line: 5 events", said)

    def test_the_first_line_has_to_be_good(self) -> None:
        with self.assertRaises(BadLine):
            conform(['{"nodes": 3}', *PAIR], "hh", resync=True)

    def test_a_fault_that_is_refused_writes_nothing(self) -> None:
        transcript = io.BytesIO()
        log = [*PAIR, '{"fault": "a", "pointer": "b", "flag": true}', '{"move": "b", "pointer": "c"}']
        found = conform(log, "hh", resync=True, transcript=transcript)
        self.assertEqual((found.bad_lines, found.divergences, found.moves["seduce"]), (1, 0, 1))
        self.assertNotIn("point 1 2", transcript.getvalue().decode())
        audit(transcript.getvalue())

    def test_a_line_that_is_too_long(self) -> None:
        log = text_of(PAIR) + b" " * ((1 << 24) + 1) + b"{}\n" + text_of(MOVES)
        found, notes = noted(log, resync=True)
        self.assertEqual((found.bad_lines, found.events), (1, 4))
        self.assertEqual(notes, ["line 4: the line has more than 16777216 bytes (skipped)"])


class BothEnds(Timed):
    def test_both_ends_log_a_link(self) -> None:
        log = [*PAIR, '{"link": ["b", "a"]}', '{"link": ["c", "b"]}', *MOVES]
        log += ['{"unlink": ["a", "b"]}', '{"unlink": ["b", "a"]}']
        for resync in (False, True):
            found, notes = noted(log, resync=resync)
            self.assertTrue(found)
            self.assertEqual((found.twice, found.edits, found.events, found.bad_lines), (3, 3, 5, 0))
            what = "the link of b and a is that of line 2: logged by both ends"
            self.assertEqual(notes, [f"line 4: {what} (skipped, as later ones are)"])
        status, said, _ = ran("--rules", "hh", given=text_of(log))
        self.assertEqual(status, 0)
        self.assertIn("\nskipped: 3 link lines of the other end\n", said)

    def test_a_third_line_and_a_late_one_are_bad(self) -> None:
        again = '{"link": ["a", "b"]}'
        with self.assertRaisesRegex(BadLine, "line 5: the machine refuses to link a and b: 3 already-linked"):
            conform([*PAIR, again, again], "hh")
        # the first stands in line 2
        moves = MOVES + ['{"fault": "a", "pointer": null}', MOVES[0]] * 40
        self.assertTrue(conform([*PAIR, *moves[:48], again], "hh"))
        with self.assertRaisesRegex(BadLine, "line 53: .* 3 already-linked"):
            conform([*PAIR, *moves[:49], again], "hh")
        timed = [PAIR[0], '{"time": 5, "link": ["a", "b"]}', PAIR[2], *moves[:49]]
        self.assertTrue(conform([*timed, '{"time": 6, "link": ["a", "b"]}'], "hh"))
        with self.assertRaisesRegex(BadLine, "line 53: .* 3 already-linked"):
            conform([*timed, '{"time": 6.5, "link": ["a", "b"]}'], "hh")
        with self.assertRaisesRegex(BadLine, "line 4: .* 4 not-linked"):
            conform([*PAIR, '{"unlink": ["a", "c"]}'], "hh")

    def test_a_link_that_goes_with_its_node(self) -> None:
        found = conform([*PAIR, '{"leave": "c"}', '{"unlink": ["b", "c"]}', *MOVES], "hh")
        self.assertTrue(found)
        self.assertEqual(found.twice, 1)

    def test_a_pointer_across_a_removed_link(self) -> None:
        log = [*PAIR, '{"unlink": ["b", "c"]}', WRONG, *MOVES]
        found, notes = noted(log, resync=True)
        what = "c wrote a pointer across a link removed in line 4"
        self.assertEqual(notes, [f"line 5: {what} (skipped)"])
        assert found.first is not None
        self.assertEqual((found.divergences, found.crossed, found.stopped, found.events), (1, 1, "", 6))
        self.assertIn("before the link to b went, at line 4, it was allowed", found.first.hint)
        self.assertEqual(found.stand.pairs, 1)
        status, said, _ = ran("--rules", "hh", "--resync", given=text_of(log))
        self.assertEqual(status, 1)
        self.assertIn("\nskipped: 1 pointer across a removed link\n", said)
        # long after the link went the judging ends there
        late = [*PAIR, *MOVES, *['{"fault": "a", "pointer": null}', MOVES[0]] * 25]
        late[3:3] = ['{"unlink": ["b", "c"]}']
        found = conform([*late, WRONG], "hh", resync=True)
        self.assertEqual((found.crossed, found.stopped[:34]), (0, "line 57: no fault can write this (")[:2])
        with self.assertRaisesRegex(BadLine, "6 not-neighbour; c wrote a pointer across a link removed in line 4"):
            conform([*PAIR, '{"unlink": ["b", "c"]}', '{"fault": "c", "pointer": "b"}'], "hh")


class Pipes(Timed):
    writer = (
        "import sys, time\n"
        "for line in open(sys.argv[1]): print(line, end='', flush=True)\n"
        'for _ in range(20000): print(\'{"fault": "a", "pointer": null}\')\n'
        "sys.stdout.flush()\n"
        "open(sys.argv[1] + '.end', 'w').close()\n"
    )

    def piped(self, lines: list[str], *words: str) -> tuple[int, int, str, bool]:
        """The statuses of a writer and of the judge, what the judge prints, and whether the writer came to its end."""
        log = pathlib.Path(self.folder(), "log")
        log.write_bytes(text_of(lines))
        writer = subprocess.Popen(
            [sys.executable, "-c", f"import signal\nsignal.signal(13, signal.SIG_DFL)\n{self.writer}", str(log)],
            stdout=subprocess.PIPE,
        )
        judge = [sys.executable, "-m", "rudekpi", "conform", "--rules", "hh", *words]
        done = subprocess.run(judge, stdin=writer.stdout, env=environment(), capture_output=True, encoding="utf-8")
        assert writer.stdout
        writer.stdout.close()
        return writer.wait(), done.returncode, done.stdout + done.stderr, log.with_name("log.end").exists()

    def test_a_divergence_does_not_end_the_writer(self) -> None:
        writer, judge, said, has_ended = self.piped([*PAIR, *MOVES, WRONG])
        self.assertEqual((writer, judge, has_ended), (0, 1, True))
        self.assertEqual(said.count("not accepted, 1 divergence: 5 events"), 1)

    def test_a_bad_line_does_not_either(self) -> None:
        writer, judge, said, has_ended = self.piped([*PAIR, "{"])
        self.assertEqual((writer, judge, has_ended), (0, 2, True))
        self.assertRegex(said, "^! line 4: this is no JSON")

    def test_stop_ends_at_once(self) -> None:
        writer, judge, _, has_ended = self.piped([*PAIR, *MOVES, WRONG], "--stop")
        self.assertEqual((writer, judge, has_ended), (-signal.SIGPIPE, 1, False))

    def test_the_verdict_comes_before_the_input_ends(self) -> None:
        words = [sys.executable, "-m", "rudekpi", "conform", "--rules", "hh"]
        run = subprocess.Popen(
            words, env=environment(), stdin=subprocess.PIPE, stdout=subprocess.PIPE, stderr=subprocess.PIPE, bufsize=0
        )
        assert run.stdin and run.stdout and run.stderr
        for pipe in (run.stdin, run.stdout, run.stderr):
            self.addCleanup(pipe.close)
        self.addCleanup(run.kill)
        run.stdin.write(text_of([*PAIR, *MOVES, WRONG]))
        said = b""
        while b"at the end: 3 nodes" not in said:
            said += os.read(run.stdout.fileno(), 4096)
        self.assertIsNone(run.poll())
        run.stdin.write(b"what is left is not judged\n")
        run.send_signal(signal.SIGINT)
        self.assertEqual(run.wait(), 130)
        self.assertEqual(run.stderr.read(), b"! cut short after 5 events\n")

    def test_a_file_is_not_read_on(self) -> None:
        log = pathlib.Path(self.folder(), "log")
        log.write_bytes(text_of([*PAIR, *MOVES, WRONG, "x"]))
        with open(log, "rb", buffering=0) as file:
            self.assertFalse(conform(file, "hh", stop=False))
            file.seek(0)
            self.assertEqual(len(file.readlines()), 7)
        lines = iter([*PAIR, *MOVES, WRONG, *MOVES])
        conform(lines, "hh")
        self.assertEqual([*lines], MOVES)
        lines = iter([*PAIR, *MOVES, WRONG, *MOVES])
        conform(lines, "hh", stop=False)
        self.assertEqual([*lines], [])


class CutLines(Timed):
    def test_a_last_line_that_is_cut(self) -> None:
        whole = text_of([*PAIR, *MOVES])
        found, notes = noted(whole[:-5])
        self.assertTrue(found)
        self.assertEqual((found.events, found.cut_line, notes), (3, 5, ["line 5 is cut and was left out"]))
        # a whole value without a line feed is an event
        found, notes = noted(whole[:-1])
        self.assertEqual((found.events, found.cut_line, notes), (4, 0, []))
        status, said, told = ran("--rules", "hh", given=whole[:-5])
        self.assertEqual((status, told), (0, ""))
        self.assertTrue(said.startswith("line 5 is cut and was left out\naccepted: 3 events"))

    def test_a_letter_that_is_cut(self) -> None:
        found, notes = noted(text_of(PAIR) + '{"move": "\u00e9'.encode()[:-1])
        self.assertEqual((found.events, notes), (2, ["line 4 is cut and was left out"]))

    def test_lines_with_their_line_feeds(self) -> None:
        lines = [f"{line}\n" for line in [*PAIR, *MOVES]]
        lines[-1] = lines[-1][:-5]
        self.assertEqual(conform(lines, "hh").cut_line, 5)

    def test_every_cut(self) -> None:
        """A cut log gives a verdict or a bad first line, and never another error."""
        logs = (
            [*PAIR, MOVES[0], '{"moves": [{"move": "b", "pointer": "a"}]}'],
            [
                '{"nodes": ["\u00e9", 7], "capacity": 3}',
                '{"time": 1e3, "link": ["\u00e9", 7]}',
                '{"join": "\\ud83d\\ude00"}',
            ],
        )
        for lines in logs:
            whole = text_of(lines)
            first = whole.index(b"\n")
            for end in range(len(whole)):
                if end < first:
                    with self.assertRaises(BadLine) as raised:
                        conform(whole[:end], "hh")
                    self.assertEqual(raised.exception.line, 1)
                    continue
                found = conform(whole[:end], "hh")
                is_whole = whole[end : end + 1] == b"\n" or whole[end - 1 : end] == b"\n"
                self.assertEqual(found.cut_line, 0 if is_whole else whole[:end].count(b"\n") + 1)
                self.assertTrue(found)
            packed = gzip.compress(whole)
            for end in range(2, len(packed)):
                with self.assertRaisesRegex(OSError, "the gzip is damaged: it ends too early"):
                    conform(packed[:end], "hh")


class MergedLogs(Timed):
    parts = {
        "n1": [PAIR[0], '{"clock": 1, "link": ["a", "b"]}', '{"clock": 3, "move": "a", "pointer": "b"}'],
        "n2": ['{"clock": 2, "link": ["b", "c"]}', '{"clock": 4, "move": "b", "pointer": "a"}'],
        "n3": [PAIR[0], '{"move": "c", "pointer": "b", "clock": 5}'],
    }

    def files(self, parts: dict[str, list[str]]) -> list[str]:
        folder = self.folder()
        for name, lines in parts.items():
            pathlib.Path(folder, name).write_bytes(text_of(lines))
        return [os.path.join(folder, name) for name in parts]

    def test_logs_are_merged_by_clock(self) -> None:
        paths = self.files(self.parts)
        found = conform(merged(paths[::-1]), "hh")
        assert found.first is not None
        self.assertEqual((found.events, found.edits, found.moves["marry"]), (5, 2, 1))
        self.assertEqual((found.first.line, found.first.file), (2, paths[2]))
        self.assertIn(f"with what b held before line 2 of {paths[1]} it was allowed", found.first.hint)
        status, said, _ = ran("--rules", "hh", *paths)
        self.assertEqual(status, 1)
        self.assertTrue(said.startswith(f"{paths[2]}: line 2: c wrote pointer b, and the rules do not allow it\n"))
        self.assertEqual(conform(merged(self.parts), "hh").first.line, 2)  # type: ignore[union-attr]

    def test_equal_clocks_are_in_the_order_of_the_names(self) -> None:
        parts = {"b": ['{"clock": 1, "move": "b", "pointer": "a"}'], "a": ['{"clock": 1, "move": "a", "pointer": "b"}']}
        parts["z"] = [PAIR[0], '{"clock": 0, "link": ["a", "b"]}']
        self.assertEqual(conform(merged(parts), "hh").moves, {"marry": 1, "seduce": 1, "abandon": 0})
        self.assertEqual([*merged(parts)][2:], [json.loads(parts[name][0]) for name in "ab"])

    def test_a_clock_that_runs_backwards(self) -> None:
        parts = {**self.parts, "n2": ['{"clock": 9, "link": ["b", "c"]}', '{"clock": 7, "move": "b", "pointer": "a"}']}
        paths = self.files(parts)
        why = f"{paths[1]}: line 2: the clock runs backwards, from 9 to 7"
        with self.assertRaises(BadLine) as raised:
            conform(merged(paths[:2]), "hh")
        bad = raised.exception
        self.assertEqual((str(bad), bad.line, bad.file), (why, 2, paths[1]))
        self.assertEqual(pickle.loads(pickle.dumps(bad)), bad)
        found, notes = noted(merged(paths[:2]), resync=True)
        # the line counts as that of clock 9, so b marries a
        self.assertEqual((notes, found.bad_lines, found.moves["marry"]), ([why], 1, 1))

    def test_lines_without_a_clock(self) -> None:
        for line, why in (
            ('{"link": ["b", "c"]}', "the line has no clock, and merged logs need one"),
            ('{"clock": 1.5, "link": ["b", "c"]}', "clock is a whole number, and not 1.5"),
            ('{"clock": true, "link": ["b", "c"]}', "clock is a whole number, and not true"),
            ('{"clock": 1, "link": ["b", "c"], "clock": 2}', 'the key "clock" is there twice'),
            ("{", "this is no JSON: "),
            ("[1]", "an event is an object"),
        ):
            with self.subTest(line), self.assertRaises(BadLine) as raised:
                conform(merged(joined(self.parts, n2=[line])), "hh")
            self.assertTrue(str(raised.exception).startswith(f"n2: line 1: {why}"), raised.exception)
            with self.subTest(line):
                self.assertEqual(conform(merged(joined(self.parts, n2=[line])), "hh", resync=True).bad_lines, 1)

    def test_first_lines(self) -> None:
        with self.assertRaisesRegex(BadLine, "^n3: line 1: the first line names other nodes than that of n1$"):
            conform(merged(joined(self.parts, n3=['{"nodes": ["a", "b"]}'])), "hh")
        with self.assertRaisesRegex(BadLine, "^n2: line 1: none of the logs begins with"):
            conform(merged({"n2": self.parts["n2"]}), "hh")
        with self.assertRaisesRegex(BadLine, "the log is empty"):
            conform(merged({}), "hh")

    def test_a_cut_line_of_one_log(self) -> None:
        parts: dict[str, Any] = {**self.parts, "n2": text_of(self.parts["n2"])[:-9]}
        found, notes = noted(merged(joined(parts, n3=[])))
        self.assertEqual((notes, found.events), (["n2: line 2 is cut and was left out"], 3))

    def test_wrong_paths(self) -> None:
        (path,) = self.files({"n1": self.parts["n1"]})
        with self.assertRaisesRegex(ValueError, "is given twice"):
            merged([path, path])
        with self.assertRaises(TypeError):
            merged(path)
        self.assertEqual(ran("--rules", "hh", path, "/none"), (3, "", "! /none: No such file or directory\n"))

    def test_memory_does_not_grow_with_the_logs(self) -> None:
        def most(lines: int) -> int:
            """The most bytes that are in use while two such logs are merged."""
            folder = self.folder()
            for name in "ab":
                with open(os.path.join(folder, name), "w", encoding="utf-8") as file:
                    file.write(f'{{"nodes": ["{"x" * 200}", "y"]}}\n')
                    for clock in range(lines):
                        file.write(f'{{"clock": {clock}, "fault": "y", "pointer": null}}\n')
            tracemalloc.start()
            self.assertEqual(sum(1 for _ in merged([os.path.join(folder, name) for name in "ab"])), 2 * lines + 1)
            found = tracemalloc.get_traced_memory()[1]
            tracemalloc.stop()
            return found

        self.assertLess(most(40_000), 1.2 * most(10_000))


class Packed(Timed):
    def test_a_packed_log(self) -> None:
        whole = text_of([*PAIR, *MOVES])
        path = pathlib.Path(self.folder(), "log")
        packed = gzip.compress(whole)
        for data in (packed, gzip.compress(whole[:60]) + gzip.compress(whole[60:]), packed + bytes(9)):
            path.write_bytes(data)
            self.assertEqual(conform(path, "hh"), conform(whole, "hh"))
            self.assertEqual(conform(io.BytesIO(data), "hh"), conform(whole, "hh"))
            self.assertEqual(ran("--rules", "hh", given=data)[:2], ran("--rules", "hh", given=whole)[:2])
        self.assertTrue(conform(merged(joined(MergedLogs.parts, a=gzip.compress(PAIR[0].encode()), n3=[])), "hh"))

    def test_a_damaged_one(self) -> None:
        packed = bytearray(gzip.compress(text_of([*PAIR, *MOVES])))
        path = pathlib.Path(self.folder(), "log.gz")
        packed[-6] ^= 1
        path.write_bytes(packed)
        status, said, told = ran("--rules", "hh", str(path))
        self.assertEqual((status, said, told), (3, "", f"! {path}: the gzip is damaged: incorrect data check\n"))
        status, said, told = ran("--rules", "hh", given=bytes(packed))
        self.assertEqual((status, told), (3, "! read failed: the gzip is damaged: incorrect data check\n"))
        path.write_bytes(gzip.compress(text_of(PAIR)) + b"more")
        self.assertEqual(ran("--rules", "hh", str(path))[0], 3)


class Absent(Timed):
    def test_a_node_between_others_joins(self) -> None:
        head = '{"nodes": ["a", "b", "c"], "absent": ["b"]}'
        log = [head, '{"join": "b"}', *PAIR[1:], '{"move": "b", "pointer": "c"}']
        transcript = io.BytesIO()
        found = conform(log, "manne", transcript=transcript)
        self.assertTrue(found)
        self.assertEqual(found.names, ("a", "b", "c"))
        text = transcript.getvalue().decode()
        start = "matching2 manne 3\nbase 0 spent=0 nodes=2 edges=0\nnode 1 - 0\nnode 3 - 0\n1 join 2 = ok\n"
        self.assertTrue(text.startswith(start), text)
        audit(text)
        # c stands above b by the order of nodes, and not by that of joining
        found = conform([*log[:-1], '{"move": "b", "pointer": "a"}'], "manne")
        assert found.first is not None
        self.assertIn("a stands below b (they are nodes 1 and 2)", found.first.why)
        with self.assertRaisesRegex(BadLine, "the machine refuses to link a and b: 1 unknown-node"):
            conform([head, PAIR[1]], "manne")

    def test_bad_values(self) -> None:
        for absent, why in (
            ("b", "absent is a list of names, and not"),
            (["d"], 'a name in absent is one of nodes, and not "d"'),
            ([["b"]], "a name in absent is one of nodes, and not"),
            ([True], "a name in absent is one of nodes, and not true"),
            (["b", "b"], "absent names b twice"),
        ):
            with self.subTest(absent), self.assertRaisesRegex(BadLine, f"^line 1: {why}"):
                conform([json.dumps({"nodes": ["a", "b"], "absent": absent})], "hh")
        self.assertEqual(conform(['{"nodes": ["a"], "absent": ["a"]}'], "hh").stand.nodes, 0)
        self.assertEqual(conform(['{"nodes": ["a"], "absent": []}'], "hh").stand.nodes, 1)


if __name__ == "__main__":
    unittest.main()
