"""The rule of one node: by hand, and against the rules that the client follows states by."""

from __future__ import annotations

import pickle
import random
import unittest
from typing import Any, Mapping, Optional

from rudekpi import (
    BadView,
    LocalMove,
    Network,
    NoSuchCommand,
    local_rule,
    may_move,
    rules,
)
from rudekpi.state import State
from support import Timed

Held = tuple[Any, bool]
NULL: Held = (None, False)


def asked(rule_set: str, me: Any, own: Held, neighbours: Mapping[Any, Held], **more: Any) -> Optional[LocalMove]:
    return local_rule(rule_set, me=me, pointer=own[0], flag=own[1], neighbours=neighbours, **more)


def random_state(rule_set: str, chance: random.Random) -> State:
    """Edges and registers at random, also such as no run reaches."""
    count = chance.randrange(1, 10)
    state = State(rule_set, count, range(1, count + 1))
    for a in range(1, count + 1):
        for b in range(a + 1, count + 1):
            if chance.random() < 0.5:
                state.link(a, b)
    for node, near in state.neighbours.items():
        if near and chance.random() < 0.6:
            state.point(node, chance.choice(sorted(near)))
        if rule_set == "manne" and chance.random() < 0.4:
            state.flag(node, True)
    return state


def held(net: Network, node: int) -> Held:
    registers = net.registers(node)
    return registers.pointer, registers.flag


class ByLibrary(Timed):
    engines = ("library",)


class ByHand(ByLibrary):
    def test_hsu_and_huang(self) -> None:
        neighbours: Any
        for own, neighbours, wanted in (
            # no suitor: it seduces the least that points nowhere
            (NULL, {5: NULL, 7: NULL}, LocalMove("seduce", 5, 5, False)),
            (NULL, {1: (9, False), 7: NULL}, LocalMove("seduce", 7, 7, False)),
            # a suitor goes first, the least of them
            (
                NULL,
                {1: NULL, 5: (3, False), 7: (3, False)},
                LocalMove("marry", 5, 5, False),
            ),
            # all neighbours are taken
            (NULL, {1: (9, False), 7: (8, False)}, None),
            # its target points at a third node; nowhere; back
            ((5, False), {5: (7, False)}, LocalMove("abandon", None, None, False)),
            ((5, False), {5: NULL}, None),
            ((5, False), {5: (3, False), 7: (3, False)}, None),
            (NULL, {}, None),
        ):
            with self.subTest(own=own, neighbours=neighbours):
                self.assertEqual(asked("hh", 3, own, neighbours), wanted)

    def test_manne(self) -> None:
        neighbours: Any
        for own, neighbours, wanted in (
            # it seduces the greatest above it that is unflagged and points nowhere, and none below it
            (
                NULL,
                {1: NULL, 5: NULL, 7: NULL, 9: (None, True)},
                LocalMove("seduce", 7, 7, False),
            ),
            (NULL, {1: NULL, 2: NULL}, None),
            (NULL, {5: NULL, 7: (3, True)}, LocalMove("marry", 7, 7, False)),
            # the flag first: it says whether the node and its target point at each other
            ((7, False), {7: (3, False)}, LocalMove("update", None, 7, True)),
            ((7, True), {7: NULL}, LocalMove("update", None, 7, False)),
            ((None, True), {7: (3, False)}, LocalMove("update", None, None, False)),
            # a target that does not answer: abandoned if it is flagged or below
            ((7, False), {7: (9, True)}, LocalMove("abandon", None, None, False)),
            ((7, False), {7: (9, False)}, None),
            ((1, False), {1: NULL}, LocalMove("abandon", None, None, False)),
            ((7, True), {7: (3, True)}, None),
        ):
            with self.subTest(own=own, neighbours=neighbours):
                self.assertEqual(asked("manne", 3, own, neighbours), wanted)

    def test_a_pointer_at_no_neighbour_becomes_null(self) -> None:
        for rule_set in ("hh", "manne"):
            self.assertEqual(
                asked(rule_set, 3, (8, True), {5: NULL}),
                LocalMove("repair", None, None, True),
            )
            self.assertEqual(
                asked(rule_set, 3, (3, False), {}),
                LocalMove("repair", None, None, False),
            )

    def test_every_allowed_target(self) -> None:
        def may(rule_set: str, rule: str, target: Optional[int]) -> bool:
            near = {1: NULL, 5: NULL, 7: NULL}
            return may_move(
                rule_set,
                me=3,
                pointer=None,
                flag=False,
                neighbours=near,
                rule=rule,
                target=target,
            )

        for rule_set, allowed in (("hh", {1, 5, 7}), ("manne", {7})):
            for target in (None, 1, 3, 5, 7, 9):
                self.assertEqual(
                    may(rule_set, "seduce", target),
                    target in allowed,
                    (rule_set, target),
                )
                self.assertFalse(may(rule_set, "marry", target))
            self.assertFalse(may(rule_set, "abandon", None))

    def test_names_of_one_s_own(self) -> None:
        # in the order of texts, ann is below bob and eve
        near = {"eve": (None, True), "bob": NULL}
        self.assertEqual(asked("manne", "ann", NULL, near), LocalMove("seduce", "bob", "bob", False))
        self.assertIsNone(asked("manne", "zoe", NULL, near))
        # by a key, zoe is the first
        order = ["zoe", "eve", "bob"]
        self.assertEqual(
            asked("manne", "zoe", NULL, near, key=order.index),
            LocalMove("seduce", "bob", "bob", False),
        )
        tuples = {(1, "b"): ((1, "a"), False)}
        self.assertEqual(
            asked("hh", (1, "a"), NULL, tuples),
            LocalMove("marry", (1, "b"), (1, "b"), False),
        )
        # a number that no network's node has is a name as others are
        self.assertEqual(asked("hh", 10**9, NULL, {0: NULL}), LocalMove("seduce", 0, 0, False))


class BadInput(ByLibrary):
    def test_views_of_no_state(self) -> None:
        me: Any
        name: Any
        neighbours: Any
        for me, neighbours, fault, name in (
            (3, {3: NULL}, "own-neighbour", 3),
            (3, {5: (5, False)}, "points-at-itself", 5),
            ("b", {"a": ("a", False)}, "points-at-itself", "a"),
        ):
            with self.subTest(fault=fault), self.assertRaises(BadView) as raised:
                asked("hh", me, NULL, neighbours)
            self.assertEqual((raised.exception.fault, raised.exception.name), (fault, name))
            again = pickle.loads(pickle.dumps(raised.exception))
            self.assertEqual(
                (again.fault, again.name, str(again)),
                (fault, name, str(raised.exception)),
            )

    def test_a_move_of_a_node_to_be_repaired(self) -> None:
        with self.assertRaises(BadView) as raised:
            may_move("hh", me=3, pointer=8, flag=False, neighbours={5: NULL}, rule="abandon")
        self.assertEqual((raised.exception.fault, raised.exception.name), ("points-at-stranger", 8))

    def test_other_values(self) -> None:
        near: Any
        me: Any
        own: Any
        more: Any
        for error, text, me, own, near, more in (
            (TypeError, "a dict", 3, NULL, [5], {}),
            (TypeError, "a pointer and a flag", 3, NULL, {5: None}, {}),
            (TypeError, "a pointer and a flag", 3, NULL, {5: (None,)}, {}),
            (TypeError, "True or False", 3, NULL, {5: (None, 1)}, {}),
            (TypeError, "True or False", 3, (None, None), {5: NULL}, {}),
            (TypeError, "not None", 3, NULL, {None: NULL}, {}),
            (TypeError, "not None", None, NULL, {5: NULL}, {}),
            (TypeError, "hashable", 3, NULL, {5: ([], False)}, {}),
            (TypeError, "hashable", [], NULL, {5: NULL}, {}),
            (TypeError, "an order", 3, NULL, {"a": NULL}, {}),
            (
                ValueError,
                "the same key",
                "a",
                NULL,
                {"b": NULL},
                {"key": lambda name: 0},
            ),
            (ValueError, "an engine is", 3, NULL, {5: NULL}, {"engine": "abacus"}),
        ):
            with self.subTest(near=near, own=own, me=me):
                self.assertRaisesRegex(error, text, lambda: asked("hh", me, own, near, **more))
        self.assertRaisesRegex(ValueError, "rules are", lambda: asked("hsu", 3, NULL, {}))
        with self.assertRaisesRegex(ValueError, "a rule is one of"):
            may_move("hh", me=3, pointer=None, flag=False, neighbours={}, rule="repair")

    def test_more_names_than_a_network_has(self) -> None:
        near = {f"n{number}": NULL for number in range(65_535)}
        self.assertRaisesRegex(ValueError, "65535 names at most", lambda: asked("hh", "me", NULL, near))
        del near["n0"]
        self.assertEqual(asked("hh", "me", NULL, near), LocalMove("seduce", "n1", "n1", False))

    def test_the_program_has_no_such_call(self) -> None:
        self.assertRaises(NoSuchCommand, lambda: asked("hh", 3, NULL, {5: NULL}, engine="program"))


class Compared(ByLibrary):
    def expect_same(self, state: State, node: int, name: Any, **more: Any) -> None:
        held = {other: (state.pointers.get(other), other in state.flags) for other in state.neighbours}
        shown = {name(it): (name(to) if to else None, flag) for it, (to, flag) in held.items()}
        near = {name(other): shown[name(other)] for other in state.neighbours[node]}
        own, rule = shown[name(node)], rules.rule_at(state, node)
        found = asked(state.rules, name(node), own, near, **more)
        self.assertEqual(found.rule if found else None, rule)
        allowed = rules.targets(state, node, rule) if rule else []
        if found:
            self.assertEqual(found.target, name(allowed[0]) if allowed else None)
            state.move(node, rule or "", allowed[0] if allowed else None)
            target = state.pointers.get(node)
            self.assertEqual(
                (found.pointer, found.flag),
                (name(target) if target else None, node in state.flags),
            )
        for other in held:
            told = may_move(
                state.rules,
                me=name(node),
                pointer=own[0],
                flag=own[1],
                neighbours=near,
                rule=rule or "seduce",
                target=name(other),
                **more,
            )
            self.assertEqual(told, other in allowed)

    def test_random_views(self) -> None:
        chance = random.Random(85)
        for rule_set in ("hh", "manne"):
            for _ in range(300):
                state = random_state(rule_set, chance)
                for node in list(state.neighbours):
                    self.expect_same(state, node, lambda number: number)

    def test_random_views_of_names(self) -> None:
        chance = random.Random(86)
        for rule_set in ("hh", "manne"):
            for _ in range(60):
                state = random_state(rule_set, chance)
                names = chance.sample([f"node {number}" for number in range(99)], len(state.neighbours))
                for node in list(state.neighbours):
                    self.expect_same(state, node, lambda number: names[number - 1], key=names.index)

    def test_a_network_moves_so(self) -> None:
        chance = random.Random(87)
        for rule_set in ("hh", "manne"):
            with Network(rule_set, 30) as net:
                for a in range(1, 31):
                    for b in chance.sample(range(1, 31), 3):
                        if a != b and b not in net.neighbours(a):
                            net.link(a, b)
                for _ in range(400):
                    enabled = net.enabled()
                    if not enabled:
                        net.scramble(chance.randrange(1 << 32), 9)
                        continue
                    node = chance.choice(sorted(enabled))
                    near = {other: held(net, other) for other in net.neighbours(node)}
                    found = asked(rule_set, node, held(net, node), near)
                    move = net.step([node])[0]
                    self.assertEqual(found, LocalMove(move.rule, move.target, *held(net, node)))


if __name__ == "__main__":
    unittest.main()
