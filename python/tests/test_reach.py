"""Nodes at rest, and the reach of edits and faults, compared with edges and registers alone."""

from __future__ import annotations

import random
from typing import Any, Optional

from rudekpi import Network, NoSuchCommand, Refused
from rudekpi.replies import Name
from support import Timed


def lone(net: Network, node: Name) -> set[Name]:
    """The neighbours of a node that are in no pair."""
    return {other for other in net.neighbours(node) if net.partner(other) is None}


def rests(net: Network, node: Name) -> bool:
    """By the definition of docs/BOUNDS.md, for present nodes."""
    held, partner = net.registers(node), net.partner(node)
    if net.rules == "manne" and held.flag != (partner is not None):
        return False
    return partner is not None or (held.pointer is None and not lone(net, node))


def of_point(net: Network, node: Name, target: Optional[Name]) -> set[Name]:
    partner, pointer = net.partner(node), net.registers(node).pointer
    if partner is None:
        return set() if target in (None, pointer) else {node}
    return set() if target == partner else {node, partner} | lone(net, node) | lone(net, partner)


def wanted(net: Network, word: str, node: Name, other: Optional[Name] = None) -> set[Name]:
    """For present nodes, by the table of docs/BOUNDS.md."""
    near, partner = net.neighbours(node), net.partner(node)
    if word == "link" and other is not None:
        return {node, other} if other not in (node, *near) and not partner and not net.partner(other) else set()
    if word == "unlink" and partner is not None:
        return {node, partner} | lone(net, node) | lone(net, partner) if partner == other else set()
    if word == "leave":
        return {partner} | lone(net, partner) if partner else set()
    if word == "flag":
        return {node} if net.rules == "manne" and other != (partner is not None) else set()
    return of_point(net, node, other) if word == "point" and (other is None or other in near) else set()


class ReachTold(Timed):
    """By hand, in the network of tests/c/reach.c."""

    engines: tuple[str, ...] = ("library",)
    # ann and bob are a pair; cleo points at ann and gus at eve, unanswered; hal is absent
    names = ("ann", "bob", "cleo", "dan", "eve", "fay", "gus", "hal")
    rows: tuple[tuple[tuple[Any, ...], str], ...] = (
        (("link", "cleo", "dan"), "cleo dan"),
        (("link", "cleo", "bob"), ""),
        (("unlink", "ann", "bob"), "ann bob cleo dan eve fay"),
        (("unlink", "ann", "cleo"), ""),
        (("point", "ann", "cleo"), "ann bob cleo dan eve fay"),
        (("point", "bob", None), "ann bob cleo dan eve fay"),
        (("point", "ann", "bob"), ""),
        (("point", "cleo", None), ""),
        (("point", "eve", "bob"), "eve"),
        (("leave", "ann"), "bob eve fay"),
        (("leave", "cleo"), ""),
        (("join", "hal"), ""),
        (("join", "ann"), ""),
        (("link", "ann", "bob"), ""),
        (("point", "dan", "eve"), ""),
    )
    flags: tuple[tuple[tuple[Any, ...], str], ...] = (
        (("flag", "ann", True), ""),
        (("flag", "ann", False), "ann"),
        (("flag", "dan", 1), "dan"),
    )

    def filled(self, rules: str, engine: Optional[str] = None) -> Network:
        net = Network(rules, self.names, present=7, engine=engine)
        for edge in ("ann bob", "ann cleo", "ann dan", "bob eve", "bob fay", "eve gus"):
            net.link(*edge.split())
        for pointer in ("ann bob", "bob ann", "cleo ann", "gus eve"):
            net.point(*pointer.split())
        return net

    def test_by_the_library(self) -> None:
        for rules, restless in (
            ("hh", "cleo eve gus"),
            ("manne", "ann bob cleo eve gus"),
        ):
            with self.filled(rules, "library") as net:
                before = net.transcript()
                flags = self.flags if rules == "manne" else [(event, "") for event, _ in self.flags]
                for event, reach in (*self.rows, *flags):
                    with self.subTest(rules, event=event):
                        self.assertEqual(net.reach(*event), set(reach.split()))
                self.assertEqual(net.restless(), restless.split())
                self.assertTrue(net.is_at_rest("hal") and net.is_at_rest("dan"))
                self.assertFalse(net.is_at_rest("eve"))
                self.assertEqual(net.transcript(), before)
                self.assertRaisesRegex(
                    ValueError,
                    "no node has the name 'zoe'",
                    net.reach,
                    "link",
                    "ann",
                    "zoe",
                )
                self.assertRaisesRegex(ValueError, "no node has the name 'zoe'", net.is_at_rest, "zoe")
                self.assertRaisesRegex(ValueError, "has a reach, and not 'step'", net.reach, "step", "ann")
                self.assertRaisesRegex(ValueError, "a flag", net.reach, "flag", "ann", 2)
                self.assertRaises(TypeError, net.reach, "link", "ann")
            self.assertRaisesRegex(ValueError, "closed", net.reach, "leave", "ann")
            self.assertRaisesRegex(ValueError, "closed", net.is_at_rest, "ann")

    def test_by_the_program(self) -> None:
        with self.filled("hh", "program") as net:
            self.assertRaisesRegex(
                NoSuchCommand,
                "tells no reach of unlink",
                net.reach,
                "unlink",
                "ann",
                "bob",
            )
            self.assertRaisesRegex(NoSuchCommand, "who is at rest", net.is_at_rest, "ann")
            self.assertRaisesRegex(NoSuchCommand, "who is at rest", net.restless)
            self.assertRaisesRegex(ValueError, "has a reach, and not 'show'", net.reach, "show", "ann")
            self.assertEqual(net.link("cleo", "dan").entry, 11)

    def test_many_in_reach(self) -> None:
        """A pair with 200 other neighbours: more than the first question has room for."""
        with Network("manne", 202, engine="library") as net:
            for leaf in range(3, 203):
                net.link(1 + leaf % 2, leaf)
            net.link(1, 2)
            net.point(1, 2)
            net.point(2, 1)
            self.assertEqual(net.reach("unlink", 1, 2), set(range(1, 203)))
            self.assertEqual(net.reach("leave", 2), {1, *range(4, 203, 2)})


class ReachDrawn(Timed):
    """The reach is that found here, and only restless or reached nodes move."""

    engines: tuple[str, ...] = ("library",)

    def disturb(self, net: Network, chance: random.Random) -> set[Name]:
        """Makes an edit or a fault, comparing its reach. Returns the nodes restless or reached."""
        word, node, other = chance.choice(["link", "link", "unlink", "point", "flag"]), *chance.sample(net.present, 2)
        rest = {
            "flag": chance.random() < 0.5,
            "point": chance.choice([None, *net.neighbours(node)]),
        }.get(word, other)
        reach = net.reach(word, node, rest)
        self.assertEqual(reach, wanted(net, word, node, rest), (word, node, rest))
        may_move = reach | set(net.restless())
        try:
            getattr(net, word)(node, rest)
        except Refused:
            self.assertEqual(reach, set())
        self.assertLessEqual(set(net.restless()), may_move)
        return may_move

    def play(self, rules: str, seed: int) -> None:
        chance = random.Random(seed)
        with Network(rules, 9, engine="library") as net:
            for _ in range(60):
                self.assertEqual(
                    net.restless(),
                    [node for node in net.present if not rests(net, node)],
                )
                may_move = self.disturb(net, chance)
                for turn in net.drive(chance.randrange(99), chance.randrange(4)):
                    self.assertLessEqual({move.node for move in turn}, may_move)
                leaver = chance.choice(net.present)
                self.assertEqual(net.reach("leave", leaver), wanted(net, "leave", leaver))

    def test_drawn(self) -> None:
        for rules in ("hh", "manne"):
            for seed in range(12):
                with self.subTest(rules, seed=seed):
                    self.play(rules, seed)
