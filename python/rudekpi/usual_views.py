"""What nodes saw, in the spelling of most writers.

Most views show registers as they are. So the present spelling of each node's registers is kept, and such a
view is recognised at once, by its text.
"""

from __future__ import annotations

import re
from typing import Callable, Optional, Sequence

from .ages import AgeTable
from .log_lines import NAME
from .state import State
from .views import RECORD, Seen, View

# the registers of a neighbour in the spelling of most writers, without the last bracket
SEEN = re.compile(rb'("[^"\\\x00-\x1f]*"): ?\[(' + NAME + rb"|null)(?:, ?(true|false))?")
# what stands between two neighbours
GLUE = b"], "
# how many spellings of registers are kept
MOST_SPELLINGS = 1 << 15


class UsualViews:
    """Reads the `saw` of moves; `raw` has numbers by names in the spelling of most writers.

    `held` returns a node's present pointer and flag, and `follow` has to be called when they change. `table`
    has each node's order of its neighbours.
    """

    def __init__(
        self, state: State, raw: dict[bytes, int], held: Callable[[int], tuple[int, bool]], table: AgeTable
    ) -> None:
        self.state, self.has_flags, self.raw, self.held, self.table = state, state.rules == "manne", raw, held, table
        self.spellings: dict[bytes, Seen] = {}
        # the last spelling of a record
        self.spelled: dict[bytes, bytes] = {}
        # of nodes that were seen: the record of what they hold, and its spelling if that is known
        self.records: dict[int, bytes] = {}
        self.texts: dict[int, Optional[bytes]] = {}

    def follow(self, node: int, pointer: int, flag: bool) -> None:
        """A node's registers change to these."""
        record = self.records[node] = RECORD.pack(node, pointer, flag)
        self.texts[node] = self.spelled.get(record)

    def forget(self, node: int) -> None:
        """A node's registers may change."""
        self.texts.pop(node, None)

    def view(self, node: int, text: bytes) -> Optional[View]:
        """What a node saw, without its outer brackets; None if it is spelled otherwise, or wrong."""
        order = self.table.orders.get(node)
        if order:
            try:
                if GLUE.join(order.listed(self.texts)) == text:
                    # twice as fast as the call of the class
                    return tuple.__new__(View, (b"".join(order.ascending(self.records)), order, ()))
            except (KeyError, TypeError):
                # a spelling is not known yet
                pass
        return self.other_view(node, text)

    def other_view(self, node: int, text: bytes) -> Optional[View]:
        """The same for a view that does not show the present registers in the present order."""
        parts = text.split(GLUE)
        found = self.read(parts)
        nodes = tuple([it[0] for it in found])
        order = self.table.orders.get(node)
        if order is None or order.nodes != nodes:
            if not found or len(set(nodes)) < len(nodes):
                return None
            is_near = self.state.neighbours.get(node, set()).issuperset(nodes)
            order = self.table.ordered(node, nodes) if is_near else None
        doubtful = self.learn(found, parts) if order else found
        return View(b"".join([it[3] for it in sorted(found)]), order, sorted(doubtful))

    def read(self, parts: Sequence[bytes]) -> list[Seen]:
        """The registers that are spelled so; none if one is spelled otherwise, or wrong."""
        known = self.spellings
        try:
            return [known[part] for part in parts]
        except KeyError:
            made = [self.spelling(part) for part in parts]
            found = [it for it in made if it]
            return found if len(found) == len(parts) else []

    def spelling(self, part: bytes) -> Optional[Seen]:
        known = self.spellings.get(part)
        if known:
            return known
        found = SEEN.fullmatch(part)
        if not found:
            return None
        name, target, flag = found.groups()
        # a whole number is a text among the keys of JSON
        node, pointer = self.raw.get(name) or self.raw.get(name[1:-1]), self.raw.get(target)
        if not node or pointer is None or (not flag if self.has_flags else flag == b"true"):
            return None
        if len(self.spellings) == MOST_SPELLINGS:
            self.spellings.clear()
            self.spelled.clear()
        record = RECORD.pack(node, pointer, flag == b"true")
        self.spelled[record] = part
        seen = self.spellings[part] = node, pointer, flag == b"true", record
        return seen

    def learn(self, found: Sequence[Seen], parts: Sequence[bytes]) -> list[Seen]:
        """What was seen and is not so; the spellings of the rest are kept."""
        texts, unlike = self.texts, []
        for it, part in zip(found, parts):
            node = it[0]
            if texts.get(node) == part:
                continue
            if self.held(node) == it[1:3]:
                self.records[node], texts[node] = it[3], part
            else:
                unlike.append(it)
        return unlike
