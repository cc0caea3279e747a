"""Moves judged by what their nodes saw: verdicts by hand, ages, tallies, bad views, and examples."""

from __future__ import annotations

import importlib.util
import json
import os
import pathlib
import pickle
import re
import subprocess
import sys
from typing import Any, Optional
from unittest import main

from rudekpi import BadLine, Conformance, Divergence, Finding, audit, conform
from rudekpi.ages import Histories, Spread
from rudekpi.findings import FEW
from support import TOP, Timed

HEAD = ['{"nodes": ["a", "b", "c", "d"]}', '{"link": ["a", "b"]}', '{"link": ["b", "c"]}', '{"link": ["c", "d"]}']


def move(name: str, saw: Optional[dict[str, Any]] = None, **more: Any) -> str:
    return json.dumps({"move": name, **more, **({} if saw is None else {"saw": saw})})


def at(time: float, line: str) -> str:
    return json.dumps({"time": time, **json.loads(line)})


NULL = [None, False]
# b points at c by what both hold
B_SEDUCES = move("b", {"a": NULL, "c": NULL}, pointer="c")
# with B_SEDUCES before it, d acts on what c held at the start; c marries b in between
STALE = [
    *HEAD,
    at(1, B_SEDUCES),
    at(1.5, move("c", {"b": ["c", False], "d": NULL}, pointer="b")),
    at(4, move("b", {"a": NULL, "c": ["b", False]}, flag=True)),
]


class ByHand(Timed):
    def judged(self, lines: list[str], rules: str = "manne", **how: Any) -> Conformance:
        """The same verdict for lines in the usual spelling, in another one, and as objects."""
        found = conform("".join(f"{line}\n" for line in lines), rules, **how)
        spaced = "".join(line.replace('"saw": {', '"saw" :  {') + "\n" for line in lines)
        if found.first is None or found.first.event == lines[found.first.line - 1]:
            other = conform(spaced, rules, **how)
            self.assertEqual(self.without_event(found), self.without_event(other))
        objects = conform(map(json.loads, lines), rules, **how)
        self.assertEqual(self.without_event(found), self.without_event(objects))
        return found

    def without_event(self, found: Conformance) -> dict[str, Any]:
        made = {**vars(found), "first": found.first and {**vars(found.first), "event": ""}}
        return made

    def first(self, lines: list[str], rules: str = "manne", **how: Any) -> Divergence:
        found = self.judged(lines, rules, **how)
        assert found.first is not None, lines
        self.assertEqual(found.first.line, len(lines))
        return found.first

    def test_a_move_that_is_right_on_its_view(self) -> None:
        found = self.judged(STALE)
        self.assertTrue(found)
        self.assertEqual((found.viewed, found.wrong_views, found.stale_moves), (3, 0, 0))
        self.assertEqual((found.ages, found.tallies), ((), ()))

    def test_a_wrong_guard_is_named_as_that(self) -> None:
        cases: tuple[tuple[str, list[str], str, Optional[str], str], ...] = (
            ("manne", [move("b", {"a": NULL, "c": ["d", False]}, pointer="a")], "a stands below b", None, ""),
            ("manne", [move("b", {"a": NULL, "c": NULL}, pointer="a")], "b may only seduce c", "seduce", "c"),
            ("manne", [move("b", {"a": ["b", False], "c": NULL}, pointer="c")], "b may only marry a", "marry", "a"),
            ("manne", [move("b", {"a": NULL, "c": NULL}, flag=True)], "b may only seduce c", "seduce", "c"),
            ("manne", [move("b", {"a": NULL}, pointer="c")], "b saw no c", None, ""),
            ("hh", [move("b", {"a": [None], "c": ["d"]}, pointer="c")], "c points at d", "seduce", "a"),
            ("hh", [move("b", {"a": [None], "c": ["d"]}, pointer=None)], "it holds that already", "seduce", "a"),
        )
        for rules, lines, why, rule, targets in cases:
            with self.subTest(lines[-1]):
                told = self.judged([*HEAD, *lines], rules, views=True)
                self.assertEqual((told.viewed, told.wrong_views, told.divergences, told.stale_moves), (1, 1, 1, 0))
                found = told.first
                assert found is not None
                self.assertEqual((found.kind, found.node, found.line), ("rule", "b", 5))
                self.assertIn(why, found.why)
                self.assertEqual((found.rule, "".join(map(str, found.targets))), (rule, targets))
                self.assertNotIn("stale", found.why + found.hint)

    def test_without_views_the_network_decides(self) -> None:
        # wrong on what b saw, and the network allows it
        lucky = [*HEAD, move("b", {"a": NULL, "c": ["d", False]}, pointer="c")]
        found = self.judged(lucky)
        self.assertTrue(found)
        self.assertEqual((found.wrong_views, found.moves["seduce"]), (1, 1))
        self.assertFalse(self.judged(lucky, views=True))
        # right on what d saw, and the network refuses it: c was null until line 6
        late = [*STALE, at(4.5, move("d", {"c": ["d", False]}, pointer="c"))]
        found_late = self.first(late)
        self.assertEqual(found_late.kind, "stale")
        self.assertEqual([it.what for it in found_late.differences], ["never-written"])
        told = self.judged(late, views=True)
        self.assertTrue(told)
        self.assertEqual((told.divergences, told.stale_moves, told.wrong_views), (0, 1, 0))

    def test_whose_register_was_stale_and_how_old(self) -> None:
        log = [*HEAD, at(1, B_SEDUCES), at(2, '{"fault": "b", "pointer": "a"}'), at(2, '{"fault": "c", "flag": true}')]
        log.append(at(4.5, move("c", {"b": ["c", False], "d": NULL}, flag=False)))
        log.append(at(5, move("c", {"b": ["c", False], "d": NULL}, pointer="b")))
        found = self.first(log)
        self.assertEqual((found.kind, found.rule, found.targets), ("stale", "seduce", ("d",)))
        (it,) = found.differences
        self.assertEqual((it.node, it.what, it.pointer, it.flag), ("b", "overwritten", "c", False))
        # b held this from line 5 until line 6; the move is line 9
        self.assertEqual((it.since, it.until, it.lines, it.time), (5, 6, 3, 3.0))
        self.assertEqual(it.text, "b held pointer c, flag false from line 5 until line 6, 3 lines ago, 3 in time")
        self.assertEqual(pickle.loads(pickle.dumps(found)), found)
        told = self.judged(log, views=True)
        # two reads of b by c, both stale: 2 and 3 lines, and 2.5 and 3 in time
        (row,) = told.ages
        self.assertEqual((row.reader, row.read, row.reads, row.stale, row.unknown), ("c", "b", 2, 2, 0))
        self.assertEqual(row.lines, (2, 3, 3))
        self.assertEqual(row.time, (2.5, 3.0, 3.0))

    def test_links_that_a_view_lacks_or_has_too_many_of(self) -> None:
        log = [*HEAD, '{"link": ["b", "d"]}', '{"fault": "d", "pointer": "b"}']
        found = self.first([*log, B_SEDUCES])
        self.assertEqual(found.kind, "stale")
        (it,) = found.differences
        self.assertEqual((it.node, it.what, it.since, it.lines), ("d", "not-seen", 5, 2))
        gone = [*HEAD, '{"unlink": ["b", "c"]}', B_SEDUCES]
        found = self.first(gone)
        (it,) = found.differences
        self.assertEqual((it.node, it.what, it.until, it.lines), ("c", "no-neighbour", 5, 1))
        # with views the pointer across the link is remembered: the machine's is null, and b's own is c
        told = self.judged([*gone, move("b", {"a": NULL}, pointer=None), move("b", {"a": NULL}, pointer="a")], "hh")
        self.assertFalse(told)
        back = [*gone, move("b", {"a": NULL}, pointer=None)]
        for rules in ("hh", "manne"):
            told = self.judged(back, rules, views=True)
            self.assertEqual((told.divergences, told.stopped, told.stale_moves), (0, "", 2))
            other = [*gone, move("b", {"a": NULL}, pointer="a")]
            told = self.judged(other, rules, views=True)
            assert told.first is not None
            self.assertEqual((told.first.kind, told.stopped), ("view", ""))
            self.assertIn("b points at c, and saw no c", told.first.why)
        # a link that comes again takes the pointer over: c may marry b
        again = [*gone, '{"link": ["b", "c"]}', move("c", {"b": ["c", False], "d": NULL}, pointer="b")]
        told = self.judged(again, views=True)
        self.assertEqual((told.divergences, told.moves["marry"], told.stand.pairs), (0, 1, 1))

    def test_views_that_no_state_shows(self) -> None:
        cases: tuple[tuple[dict[str, Any], str], ...] = (
            ({"a": NULL, "b": NULL, "c": NULL}, "b saw itself among its neighbours"),
            ({"a": NULL, "c": ["c", False]}, "c points at itself in what b saw"),
        )
        for saw, why in cases:
            found = self.first([*HEAD, move("b", saw, pointer="c")], views=True)
            self.assertEqual((found.kind, found.why), ("view", why))

    def test_views_that_are_none(self) -> None:
        for rules, saw, why in (
            ("manne", '["a"]', "saw is an object"),
            ("manne", '{"a": null}', r"saw has \[pointer, flag\] of a"),
            ("manne", '{"a": [null]}', r"saw has \[pointer, flag\] of a"),
            ("manne", '{"a": [null, 1]}', "a flag is true or false"),
            ("manne", '{"x": [null, false]}', 'no node has the name "x"'),
            ("manne", '{"a": ["x", false]}', 'no node has the name "x"'),
            ("manne", '{"a": [null, false], "a": [null, false]}', 'the key "a" is there twice'),
            ("hh", '{"a": [null, true]}', "there are no flags under hh"),
            ("hh", '{"a": []}', r"saw has \[pointer\] or \[pointer, false\] of a"),
        ):
            line = f'{{"move": "b", "pointer": "c", "saw": {saw}}}'
            for text in (line, f'{{"moves": [{line}]}}'):
                with self.subTest(text), self.assertRaisesRegex(BadLine, why) as raised:
                    conform([*HEAD, text], rules)
                self.assertEqual(raised.exception.line, 5)
        with self.assertRaisesRegex(BadLine, "'fault' has no key \"saw\""):
            conform([*HEAD, '{"fault": "b", "pointer": "c", "saw": {"a": [null, false]}}'], "manne")

    def test_whole_numbers_are_texts_among_keys(self) -> None:
        lines = ['{"nodes": [7, 8]}', '{"link": [7, 8]}', '{"move": 7, "pointer": 8, "saw": {"8": [null, false]}}']
        self.assertEqual(self.judged(lines, views=True).moves["seduce"], 1)
        with self.assertRaisesRegex(BadLine, "saw has 8 twice"):
            conform([*map(json.loads, lines[:2]), {"move": 7, "pointer": 8, "saw": {"8": NULL, 8: NULL}}], "manne")

    def test_several_at_once(self) -> None:
        seduced = {"move": "a", "pointer": "b", "saw": {"b": NULL}}
        wrong = {"move": "b", "pointer": "a", "saw": {"a": NULL, "c": NULL}}
        right = {"move": "b", "pointer": "c", "saw": {"a": NULL, "c": NULL}}
        lines = [*HEAD, json.dumps({"moves": [seduced, right]})]
        self.assertEqual(self.judged(lines, views=True).moves["seduce"], 2)
        lines = [*HEAD, json.dumps({"moves": [seduced, wrong]})]
        for views in (False, True):
            found = self.first(lines, views=views)
            self.assertEqual((found.kind, found.node), ("rule", "b"))
        # under hh they are right one by one, and the machine refuses them at once
        both = [*HEAD, json.dumps({"moves": [seduced, {"move": "d", "pointer": "c", "saw": {"c": NULL}}]})]
        self.assertEqual(self.first(both, "hh").kind, "together")
        self.assertTrue(self.judged(both, "hh", views=True))
        self.assertEqual(
            self.first([*HEAD, json.dumps({"moves": [wrong, {**wrong, "saw": {"a": NULL}}]})]).kind, "rule"
        )

    def test_a_move_without_a_view_is_judged_by_the_order(self) -> None:
        lines = [*HEAD, move("b", pointer="c"), move("a", pointer="b"), move("d", {"c": NULL}, pointer="c")]
        told = self.judged(lines, "hh", views=True)
        self.assertEqual((told.divergences, told.viewed), (1, 1))
        assert told.first is not None
        self.assertEqual((told.first.kind, told.first.line), ("order", 6))

    def test_what_else_may_be_wrong_at_the_node(self) -> None:
        # c sees b point at it, marries, and marries again by the same view
        saw = {"b": ["c", False], "d": NULL}
        twice = [*HEAD, B_SEDUCES, move("c", saw, pointer="b"), move("c", saw, pointer="b")]
        found = self.first(twice, views=True)
        self.assertIn("it holds that already", found.why)
        self.assertIn(
            "with what c held before line 6 it was allowed: c may have moved twice by one view, or lost what it wrote",
            found.hint,
        )
        # the same, but other lines came between: it was not at once
        found = self.first([*twice[:-1], '{"fault": "a", "pointer": null}', twice[-1]], views=True)
        self.assertIn("c may have changed without a line, or lost what it wrote", found.hint)
        # by the times it was
        found = self.first([*twice[:-2], at(7, twice[-2]), at(7, '{"link": ["a", "d"]}'), at(7, twice[-1])], views=True)
        self.assertIn("c may have moved twice by one view", found.hint)
        # c's flag is set without having married: the line of the marriage is missing
        found = self.first([*HEAD, B_SEDUCES, move("c", saw, flag=True)], views=True)
        self.assertIn("c had to write pointer b first: it skipped that, or the line is missing", found.hint)
        # the flag is written a second time, as after it was lost
        lost = [*STALE, move("b", {"a": NULL, "c": ["b", True]}, flag=True)]
        found = self.first(lost, views=True)
        self.assertIn("with flag false it was allowed: b may have changed without a line", found.hint)

    def test_the_transcript_of_a_log_with_views(self) -> None:
        path = os.path.join(self.folder(), "t")
        lines = [*STALE, at(4.5, move("d", {"c": ["d", False]}, pointer="c")), '{"unlink": ["c", "d"]}']
        self.assertTrue(conform(lines, "manne", views=True, transcript=path))
        audit(path)
        self.assertIn("point 4 3 = ok", pathlib.Path(path).read_text(encoding="utf-8"))


class Hints(Timed):
    """Guesses of logs whose moves say nothing of what was seen."""

    def hint(self, lines: list[str], rules: str = "hh", **how: Any) -> str:
        found = conform(lines, rules, resync=True, **how)
        assert found.first is not None and found.divergences == 1, found
        self.assertEqual((found.first.kind, found.first.line), ("order", len(lines)))
        return found.first.hint

    def test_only_recent_lines_are_tried(self) -> None:
        log = [*HEAD, '{"move": "b", "pointer": "a"}', '{"move": "a", "pointer": "b"}']
        bad = '{"move": "c", "pointer": "b"}'
        self.assertIn("with what b held before line 5 it was allowed", self.hint([*log, bad]))
        # a fault without a change is a line that no copy can be older than
        for more, is_tried in ((98, True), (99, False)):
            rest = ['{"fault": "d", "pointer": null}'] * more
            self.assertEqual("stale copy of b" in self.hint([*log, *rest, bad]), is_tried, more)
        self.assertIn("stale copy of b", self.hint([*log, *rest, bad], age=101))
        self.assertEqual(self.hint([*log, bad], age=1), "")
        for age in (-1, True, 1.5):
            with self.assertRaisesRegex(ValueError, "an age is how many lines"):
                conform(log, "hh", age=age)  # type: ignore[arg-type]

    def test_a_line_of_that_node_may_be_missing(self) -> None:
        # b seduced a, who then pairs with d: b may abandon a, and be free for c
        log = ['{"nodes": ["a", "b", "c", "d"]}', *HEAD[1:3], '{"link": ["a", "d"]}', '{"move": "b", "pointer": "a"}']
        bad = '{"move": "c", "pointer": "b"}'
        self.assertTrue(self.hint([*log, bad]).endswith("c may have read a stale copy of b"))
        hopeless = [*log, '{"fault": "a", "pointer": "d"}', bad]
        self.assertTrue(self.hint(hopeless).endswith("stale copy of b, or a line of b is missing"))

    def test_links_that_came_or_went(self) -> None:
        # c is linked with a, which points at c: then c may not seduce d
        came = [*HEAD, '{"fault": "a", "pointer": "b"}', '{"link": ["a", "c"]}', '{"fault": "a", "pointer": "c"}']
        bad = '{"move": "c", "pointer": "d"}'
        self.assertIn("stale copy of a", self.hint([*came, bad]))
        new = [*HEAD, '{"fault": "b", "pointer": "c"}', '{"fault": "b", "pointer": "a"}', '{"unlink": ["a", "b"]}']
        # the link takes b's pointer with it, so that b is free; c acts as if b still pointed at a
        self.assertTrue(conform([*new, '{"move": "c", "pointer": "b"}'], "hh"))
        gone = [*HEAD, '{"fault": "a", "pointer": "b"}', '{"unlink": ["a", "b"]}', '{"move": "b", "pointer": "a"}']
        found = conform(gone, "hh")
        assert found.first is not None
        self.assertIn("before the link to a went, at line 6, it was allowed: b may not have known", found.first.hint)
        left = [*HEAD, '{"fault": "a", "pointer": "b"}', '{"leave": "a"}', '{"move": "b", "pointer": "a"}']
        found = conform(left, "hh")
        assert found.first is not None
        self.assertIn("before the link to a went, at line 6, it was allowed", found.first.hint)
        linked = [*HEAD[:2], '{"link": ["c", "d"]}', '{"fault": "b", "pointer": "a"}', '{"fault": "a", "pointer": "b"}']
        linked += ['{"fault": "c", "pointer": "d"}', '{"link": ["b", "d"]}', '{"fault": "d", "pointer": "b"}']
        self.assertEqual(self.hint([*linked, '{"move": "b", "pointer": null}']), "")

    def test_writes_that_diverged_are_remembered(self) -> None:
        # a's move diverges; c's next one was allowed before it
        log = [
            *HEAD,
            '{"fault": "b", "pointer": "a"}',
            '{"move": "b", "pointer": "c"}',
            '{"move": "c", "pointer": "d"}',
        ]
        told: list[Divergence] = []
        conform(log, "hh", resync=True, on_divergence=told.append)
        self.assertEqual([it.line for it in told], [6, 7])
        self.assertIn("with what b held before line 6 it was allowed", told[1].hint)


class Keys(Timed):
    engines = ("library",)

    def test_keys_that_are_the_writers(self) -> None:
        log = [
            '{"nodes": ["a", "b"], "extra": {"run": [1, {"x": null}]}}',
            '{"clock": 3, "time": 0.5, "link": ["a", "b"], "extra": "any"}',
            '{"clock": 4, "move": "a", "pointer": "b", "extra": {"host": "h:1"}}',
            '{"time": 1e999, "clock": -5, "moves": [{"move": "b", "pointer": "a", "extra": []}]}',
        ]
        for lines in (log, "\n".join(log), [json.loads(line) for line in log]):
            self.assertTrue(conform(lines, "hh"))
        for clock in ("1.5", "null", '"1"', "true"):
            with self.assertRaisesRegex(BadLine, "a clock is a whole number"):
                conform([*log[:1], f'{{"clock": {clock}, "link": ["a", "b"]}}'], "hh")
        with self.assertRaisesRegex(BadLine, 'the key "x" is there twice'):
            conform([*log[:1], '{"link": ["a", "b"], "extra": {"x": 1, "x": 2}}'], "hh")
        odd = [line[:-1] + ', "host": "h"}' for line in log]
        with self.assertRaisesRegex(BadLine, 'no key "host"'):
            conform(odd, "hh")
        self.assertTrue(conform(odd, "hh", ignore_extra=True))
        inner = log[3].replace('"extra": []', '"ts": 5')
        with self.assertRaisesRegex(BadLine, 'no key "ts"'):
            conform([*log[:3], inner], "hh")
        self.assertTrue(conform([*log[:3], inner], "hh", ignore_extra=True))


class Counts(Timed):
    engines = ("library",)

    def test_a_spread_of_numbers(self) -> None:
        spread = Spread()
        self.assertIsNone(spread.ages(int))
        for number in range(1, 32):
            spread.add(number)
        # exact below 32: the 16th and the 30th of 31
        self.assertEqual(spread.ages(int), (16, 30, 31))
        wide = Spread()
        for size in (0, 0.001, 1000, 1e300):
            wide.add(size)
        self.assertLessEqual(abs(wide.at(50) - 0.001), 0.001 / 16)
        self.assertEqual((wide.at(1), wide.most, wide.count), (0, 1e300, 4))
        self.assertLessEqual(len(wide.counts), 1024)

    def test_a_history_is_bounded_and_says_so(self) -> None:
        past = Histories(2)
        self.assertFalse(past.may_be_older(1, 2, True))
        for line in range(2, 200):
            past.write(line, None, 1, line, False)
        self.assertEqual(len(past.held[1]), past.kept + 1)
        self.assertEqual(past.last(1, 198, False), ((198, None, 198, False), (199, None, 199, False)))
        self.assertEqual((past.last(1, 5, False), past.may_be_older(1, 5, False)), (None, True))
        self.assertFalse(past.may_be_older(1, 5, True))
        self.assertEqual(past.at(1, 150), (149, False))
        log = ['{"nodes": ["a", "b"]}', '{"link": ["a", "b"]}']
        log += ['{"fault": "b", "pointer": "a"}', '{"fault": "b", "pointer": null}'] * 100
        saw = move("a", {"b": ["a", True]}, pointer="b")
        log += ['{"fault": "b", "flag": true}', '{"fault": "b", "pointer": "a"}', '{"fault": "b", "flag": false}']
        found = conform([*log, saw], "manne", views=True)
        self.assertEqual((found.ages[0].unknown, found.ages[0].lines), (0, (1, 1, 1)))
        log += ['{"fault": "b", "pointer": "a"}', '{"fault": "b", "pointer": null}'] * 100
        found = conform([*log, saw], "manne", resync=True)
        assert found.first is None
        log.append('{"fault": "a", "flag": true}')
        found = conform([*log, move("a", {"b": ["a", True]}, flag=False), saw], "manne", views=True)
        self.assertEqual((found.ages[0].unknown, found.ages[0].lines), (2, None))

    def test_a_long_log_without_views_keeps_its_latest_writes(self) -> None:
        past = Histories(4, age=100)
        for line in range(2, 60_000):
            past.write(line, None, 1 + line % 3, line % 50, False, ((line - 3) % 50, False))
            if line % 1000 == 0:
                past.shorten(is_read=False)
        self.assertLess(len(past.latest), 20_000)
        self.assertEqual(past.at(1, 59_990), (59_988 % 50, False))
        self.assertEqual((past.at(4, 59_990), past.may_be_older(4, 1, True)), (None, True))
        begun, ended = past.last(1, 50, True) or (None, None)
        self.assertEqual((begun, ended), (None, None))
        # the guess is that of the short log
        log = [*HEAD, *['{"fault": "b", "pointer": "a"}', '{"fault": "b", "pointer": null}'] * 20_000]
        log += ['{"fault": "b", "pointer": "a"}', '{"move": "c", "pointer": "b"}']
        found = conform("\n".join(log), "hh").first
        assert found is not None
        self.assertIn("with what b held before line 40005 it was allowed", found.hint)


class Command(Timed):
    def said(self, *words: str, log: list[str], status: int) -> str:
        more = dict(os.environ, PYTHONPATH=os.path.join(TOP, "python"))
        text = "".join(f"{line}\n" for line in log)
        command = [sys.executable, "-m", "rudekpi", "conform", *words]
        done = subprocess.run(command, input=text, env=more, capture_output=True, encoding="utf-8")
        self.assertEqual((done.returncode, done.stderr), (status, ""))
        return done.stdout

    def test_what_it_prints(self) -> None:
        late = [*STALE, at(4.5, move("d", {"c": NULL}, pointer="c"))]
        wrong = [*late, at(5, move("a", {"b": ["c", False]}, pointer="b"))]
        said = self.said("--rules", "hh", log=[line for line in late if '"flag": true' not in line], status=1)
        self.assertTrue(
            said.startswith("line 7: d wrote pointer c, which the rule allows on what it saw, and that was")
        )
        self.assertIn("\n  c held pointer null from line 1 until line 6, 1 line ago, 3 in time\n", said)
        path = os.path.join(self.folder(), "ages")
        words = ("--rules", "hh", "--views", "--ages", path)
        said = self.said(*words, log=[line for line in wrong if '"flag": true' not in line], status=1)
        first, *_, last = said.splitlines()
        self.assertEqual(first, "line 8: a wrote pointer b, and broke the rule on what it saw")
        self.assertIn("\non what the nodes saw: 4 moves, 1 wrong, 1 by stale views\n", said)
        self.assertIn("\n  a, seduce: 1 of 1 wrong, 0 by a stale view\n", said)
        self.assertIn("\n  d, seduce: 0 of 1 wrong, 1 by a stale view\n", said)
        self.assertRegex(last, r"^  d +c +1 +1 +0 +1 +1 +1 +3 +3 +3$")
        rows = pathlib.Path(path).read_text(encoding="utf-8").splitlines()
        self.assertEqual(rows[0], "reader,read,reads,stale,unknown,median_lines,p95_lines,most_lines,"
                                  "median_time,p95_time,most_time")  # fmt: skip
        self.assertEqual(rows[1:], ["d,c,1,1,0,1,1,1,3.0,3.0,3.0"])

    def test_words_that_are_wrong(self) -> None:
        more = dict(os.environ, PYTHONPATH=os.path.join(TOP, "python"))
        for words, why in (
            (("--ages", "x"), "--ages needs --views"),
            (("--age", "-1"), "how many lines back is a whole number"),
            (("--age", "x"), "how many lines back is a whole number"),
        ):
            command = [sys.executable, "-m", "rudekpi", "conform", "--rules", "hh", *words]
            done = subprocess.run(command, input="", env=more, capture_output=True, encoding="utf-8")
            self.assertEqual(done.returncode, 2)
            self.assertIn(why, done.stderr)


def example(name: str) -> Any:
    """An example as a module."""
    spec = importlib.util.spec_from_file_location(name, os.path.join(TOP, "examples", f"{name}.py"))
    assert spec and spec.loader
    made = importlib.util.module_from_spec(spec)
    sys.modules[name] = made
    spec.loader.exec_module(made)
    return made


class StaleNodes(Timed):
    """examples/stale_nodes.py: each mistake is named as what it is, and the same nodes without it have none."""

    engines = ("library",)
    seconds = 120
    seeds = range(1, 21)
    # what the first divergence says, by the mistake; and what all of them together say
    words = {
        "guard": r"may only wait for|waits for",
        "low": r"stands below n17|no neighbour above it|n17 may only (seduce|marry)",
        "skip": r"its flag is true: n17 may only update .* had to write flag false first: it skipped that",
        "flag": r"flag (true|false) (it was allowed|first): (n17 may have changed|it skipped that, or)"
        r"|or lost what it wrote",
        "twice": r"it was allowed: n17 may have moved twice by one view",
        "unlogged": r"n17 may have changed without a line|or the line is missing|n17 changed without a line",
    }
    causes = {
        "guard": ("guard", "the guard of abandon is wrong"),
        "low": ("below", "it seduces neighbours below it"),
        "skip": ("skipped", "it goes on without clearing its flag"),
        "flag": ("flag", "its flag falls without a line"),
        "twice": ("twice", "it moves twice by one view"),
        "unlogged": ("unlogged", "some of its moves have no line"),
    }

    def told(self, rules: str, mistake: str, seed: int, events: int) -> tuple[Conformance, list[Divergence]]:
        told: list[Divergence] = []
        log = STALE_NODES.Net(rules, seed, mistake, events).run()
        return conform(log, rules, views=True, on_divergence=told.append), told

    def test_nodes_that_follow_the_rules(self) -> None:
        for rules in ("hh", "manne"):
            stale = 0
            for seed in self.seeds:
                found, _ = self.told(rules, "", seed, 300)
                self.assertEqual((found.divergences, found.wrong_views, found.stopped), (0, 0, ""))
                self.assertEqual(found.findings, ())
                stale += found.stale_moves
            self.assertGreater(stale, 20)

    def test_each_mistake_is_named(self) -> None:
        """The first divergence by its line alone, with care; all of them by what explains all of them."""
        cases = [("manne", mistake) for mistake in self.words] + [("hh", "guard"), ("hh", "twice")]
        for rules, mistake in cases:
            for seed in self.seeds:
                with self.subTest(mistake, rules=rules, seed=seed):
                    net = STALE_NODES.Net(rules, seed, mistake, 0)
                    # the same log goes on until it tells enough
                    for net.events in (300, 1000, 3000, 10000):
                        told: list[Divergence] = []
                        found = conform(net.run(), rules, views=True, on_divergence=told.append)
                        if len(told) >= FEW:
                            break
                    assert found.first is not None
                    self.assertEqual({(it.node, it.kind) for it in told}, {("n17", "rule")})
                    said = f"{found.first.why} {found.first.hint}"
                    self.assertRegex(said, self.words[mistake])
                    self.assertNotIn("stale", said)
                    row = found.tallies[0]
                    self.assertEqual((row.node, row.wrong > 0), ("n17", True))
                    cause, text = self.causes[mistake]
                    self.assertEqual(found.findings, (Finding("n17", cause, len(told), text),))

    def test_few_wrong_moves_do_not_tell_what_explains_them(self) -> None:
        lost = [*STALE, move("b", {"a": NULL, "c": ["b", True]}, flag=True)]
        found = conform(lost, "manne", views=True).findings
        text = "its flag falls without a line, or some of its moves have no line"
        self.assertEqual(found, (Finding("b", "flag", 1, text),))
        both = [*HEAD, move("b", {"a": NULL, "c": NULL}, pointer="c", flag=True)]
        found = conform(both, "manne", views=True).findings
        self.assertEqual(found, (Finding("b", "guard", 1, "it writes what no rule writes"),))

    def test_writes_after_unlocking(self) -> None:
        """own_nodes: right on what it saw, which was stale; so no node broke a rule."""
        path = pathlib.Path(self.folder(), "log")
        text = "only its reads, and reads of it, are stale: it writes after it has returned its locks"
        for seed in ("2", "3", "4"):
            words = ("--saw", "--mistake", "late", "--events", "1500", "--seed", seed, "--log", str(path))
            script = os.path.join(TOP, "examples", "own_nodes.py")
            done = subprocess.run([sys.executable, script, *words], capture_output=True, encoding="utf-8")
            self.assertEqual((done.returncode, done.stderr), (1, ""))
            found = conform(path, "manne")
            assert found.first is not None
            self.assertEqual((found.first.node, found.first.kind), ("n17", "stale"))
            self.assertTrue(
                any(re.search(r"until line \d+, \d+ lines? ago", it.text) for it in found.first.differences)
            )
            by_views = conform(path, "manne", views=True)
            self.assertTrue(by_views)
            self.assertEqual([(it.node, it.cause, it.text) for it in by_views.findings], [("n17", "unlocked", text)])

    def test_registers_recognised_by_their_text_are_judged_as_those_that_are_read(self) -> None:
        for rules, seed in (("hh", 1), ("hh", 2), ("manne", 1), ("manne", 2)):
            lines = STALE_NODES.Net(rules, seed, "guard", 900).run()
            found, others = (
                vars(conform(log, rules, views=True, resync=True))
                for log in ("".join(f"{line}\n" for line in lines), map(json.loads, lines))
            )
            self.assertTrue(found["ages"] and found["stale_moves"])
            self.assertEqual({**found, "first": None}, {**others, "first": None})


STALE_NODES = example("stale_nodes")


if __name__ == "__main__":
    main()
