"""Networks that keep their nodes in pairs, played by the C library or the program `console`.

    with Network(rules="manne", nodes=["ann", "bob", "cleo"]) as net:
        net.link("ann", "bob")
        net.link("bob", "cleo")
        net.settle(lambda enabled: list(enabled))    # a daemon: from the enabled nodes to those that move
        print(net.matching().partner("bob"))

Each call runs the library in this process, or writes a line to `console run` and waits for the line's entry.
The calls of a batch (`with net.batch() as batch:`) do not wait. A refused command raises `Refused`. If the
program ends, `Ended` is raised with the program's status and last line.

`drive` and `scramble` write one entry a turn, an unknown number. So the client asks for the `status` after
them. This last entry marks their end, and is part of the transcript and the reply. `checkpoint` writes a
base, which is no entry. `Network.resume` goes on where the run of a transcript ended.

The path of the program is the argument `program`, else that in RUDEKPI_CONSOLE, else `bin/console` in this
package, else the `console` of its repository. The path of the library is that in RUDEKPI_LIBRARY, else
`bin/librudekpi.so`, else `release/librudekpi.so` of the repository. `engine="program"`, or RUDEKPI_ENGINE,
selects the program even if there is a library. Only one thread may use a network played by the program. A
network keeps its transcript in memory.
"""

from . import daemons, graphs
from .ages import Ages, PairAges
from .audits import audit, epochs
from .batch import Batch, Pending
from .bursts import Burst, bursts
from .conformance import Conformance, conform
from .divergences import Divergence
from .errors import (
    BadLine,
    BadView,
    Damaged,
    Ended,
    Garbled,
    Lost,
    NoReply,
    NoSuchCommand,
    NotCounted,
    PastBound,
    Refused,
    RudekpiError,
    WrongChoice,
)
from .explanations import Explanation, explain
from .findings import Finding
from .liveness import Waiting
from .local_rules import LocalMove, local_rule, may_move
from .log_merging import merged
from .log_notes import Note
from .move_tallies import MoveTally
from .name_files import read_names, write_names
from .network import Network
from .parts import audit_parts
from .partners import PartnerCounts
from .pieces import Audit
from .plays import play_trace
from .racks import Racks, read_racks
from .replies import (
    Accepted,
    Base,
    Enabled,
    Epoch,
    Fault,
    Matching,
    Move,
    Moves,
    Registers,
    Settled,
    Shown,
    Status,
    Summary,
    Turns,
    Wish,
)
from .replays import replay
from .schedules import longest
from .stale_reads import Difference
from .storms import storm
from .sweeps import sweep
from .traces import Trace, TraceEvent, read_trace

__version__ = "1.0.0"

__all__ = [
    "Accepted",
    "Ages",
    "Audit",
    "BadLine",
    "BadView",
    "Base",
    "Batch",
    "Burst",
    "Conformance",
    "Damaged",
    "Difference",
    "Divergence",
    "Enabled",
    "Ended",
    "Epoch",
    "Explanation",
    "Fault",
    "Finding",
    "Garbled",
    "LocalMove",
    "Lost",
    "Matching",
    "Move",
    "MoveTally",
    "Moves",
    "Network",
    "NoReply",
    "NoSuchCommand",
    "NotCounted",
    "Note",
    "PairAges",
    "PartnerCounts",
    "PastBound",
    "Pending",
    "Racks",
    "Refused",
    "Registers",
    "RudekpiError",
    "Settled",
    "Shown",
    "Status",
    "Summary",
    "Trace",
    "TraceEvent",
    "Turns",
    "Waiting",
    "Wish",
    "WrongChoice",
    "audit",
    "audit_parts",
    "bursts",
    "conform",
    "daemons",
    "epochs",
    "explain",
    "graphs",
    "local_rule",
    "longest",
    "may_move",
    "merged",
    "play_trace",
    "read_names",
    "read_racks",
    "read_trace",
    "replay",
    "storm",
    "sweep",
    "write_names",
]
