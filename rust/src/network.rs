//! A network, its edits, faults, steps and questions.

use crate::audit::Verdict;
use crate::fault::{answer, fault, Fault};
use crate::ffi::{self, RawItem, RawNode, RawVerdict, Row, Slot, Told};
use crate::Node;

/// A rule set.
#[derive(Clone, Copy, Debug, PartialEq, Eq)]
pub enum Rules {
    /// Hsu and Huang (1992): one enabled node moves at a time.
    HsuHuang = 0,
    /// Manne, Mjelde, Pilard and Tixeuil (2009): any set of enabled nodes moves at once.
    Manne = 1,
}

/// The rule of a move.
#[derive(Clone, Copy, Debug, PartialEq, Eq)]
pub enum Rule {
    Update,
    Marry,
    Seduce,
    Abandon,
}

impl Rule {
    pub(crate) fn of(number: u32) -> Rule {
        match number {
            1 => Rule::Update,
            2 => Rule::Marry,
            3 => Rule::Seduce,
            _ => Rule::Abandon,
        }
    }
}

/// The counts of a network. At most `charge` moves come before the next edit or fault.
#[repr(C)]
#[derive(Clone, Copy, Debug, Default, PartialEq, Eq)]
pub struct Counts {
    pub nodes: u32,
    pub edges: u32,
    pub pairs: u32,
    pub enabled: u32,
    pub charge: u32,
    pub spent: u32,
}

/// An enabled node and its rule.
#[derive(Clone, Copy, Debug, PartialEq, Eq)]
pub struct Enabled {
    pub node: Node,
    pub rule: Rule,
}

/// A node that moved, its rule, and its new pointer if the rule wrote one.
#[derive(Clone, Copy, Debug, PartialEq, Eq)]
pub struct Move {
    pub node: Node,
    pub rule: Rule,
    pub target: Option<Node>,
}

/// A chosen node, and optionally the neighbour that it is to point at.
#[derive(Clone, Copy, Debug, PartialEq, Eq)]
pub struct Item {
    pub node: Node,
    pub wish: Option<Node>,
}

/// A node's pointer and flag, and whether the node is present. An absent node has neither.
#[derive(Clone, Copy, Debug, PartialEq, Eq)]
pub struct Registers {
    pub pointer: Option<Node>,
    pub flag: bool,
    pub present: bool,
}

pub(crate) fn node_or_null(node: u32) -> Option<Node> {
    Some(node).filter(|&it| it != 0)
}

/// A network that maintains a maximal matching, with its transcript.
pub struct Network {
    slot: Box<Slot>,
}

// any thread may use a session, but only one at a time
unsafe impl Send for Network {}

/// Calls that add entries and return the number of the last one.
macro_rules! entries {
    ($($(#[$text:meta])* $name:ident, $call:ident, ($($word:ident: $kind:ty),*);)*) => {$(
        $(#[$text])*
        pub fn $name(&mut self, $($word: $kind),*) -> Result<u32, Fault> {
            let mut told = Told::default();
            let status = unsafe { ffi::$call(&mut *self.slot, $($word,)* &mut told) };
            answer(status, &told)
        }
    )*};
}

/// Calls that write one value and add no entry.
macro_rules! values {
    ($($(#[$text:meta])* $name:ident, $call:ident, ($($word:ident: $kind:ty),*) -> $value:ty;)*) => {$(
        $(#[$text])*
        pub fn $name(&mut self, $($word: $kind),*) -> Result<$value, Fault> {
            let mut value = <$value>::default();
            match unsafe { ffi::$call(&mut *self.slot, $($word,)* &mut value) } {
                ffi::DONE => Ok(value),
                status => Err(fault(status)),
            }
        }
    )*};
}

/// Calls that write the cost of an edit or a fault in a silent network.
macro_rules! silent_costs {
    ($($(#[$text:meta])* $name:ident, $call:ident, ($($word:ident: $kind:ty),*);)*) => {$(
        $(#[$text])*
        pub fn $name(&mut self, $($word: $kind),*) -> Result<Option<u32>, Fault> {
            let mut cost = 0;
            match unsafe { ffi::$call(&mut *self.slot, $($word,)* &mut cost) } {
                ffi::DONE => Ok(Some(cost)),
                ffi::NOT_SILENT => Ok(None),
                status => Err(fault(status)),
            }
        }
    )*};
}

/// Calls that list nodes and add no entry.
macro_rules! lists {
    ($($(#[$text:meta])* $name:ident, $call:ident, ($($word:ident: $kind:ty),*);)*) => {$(
        $(#[$text])*
        pub fn $name(&mut self, $($word: $kind),*) -> Result<Vec<Node>, Fault> {
            self.listed(|slot, out, room, count| unsafe { ffi::$call(slot, $($word,)* out, room, count) })
        }
    )*};
}

impl Network {
    /// Returns a network of the nodes 1 to `nodes`, at most 65,535, without edges.
    pub fn new(rules: Rules, nodes: u32) -> Result<Network, Fault> {
        Network::with_present(rules, nodes, nodes)
    }

    /// Returns a network of the names 1 to `nodes`, at most 65,535; the nodes 1 to `present` are present.
    pub fn with_present(rules: Rules, nodes: u32, present: u32) -> Result<Network, Fault> {
        let mut slot = Slot::empty();
        match unsafe { ffi::rudekpi_session_new(rules as u32, nodes, present, &mut *slot) } {
            ffi::DONE => Ok(Network { slot }),
            status => Err(fault(status)),
        }
    }

    /// Returns a network that goes on where the run of a transcript, or of a base alone, ended.
    ///
    /// Its own transcript begins with the base there, and its next entry has the next number. Returns
    /// `Fault::Damaged` if the bytes are no transcript.
    pub fn resume(transcript: &[u8]) -> Result<Network, Fault> {
        let (mut slot, mut raw) = (Slot::empty(), RawVerdict::default());
        let (bytes, length) = (transcript.as_ptr(), transcript.len());
        let status = unsafe { ffi::rudekpi_session_resume(&mut *slot, bytes, length, &mut raw) };
        if let Verdict::Damaged { line, damage } = Verdict::of(raw)? {
            return Err(Fault::Damaged { line, damage });
        }
        match status {
            ffi::DONE => Ok(Network { slot }),
            status => Err(fault(status)),
        }
    }

    entries! {
        /// Adds an edge.
        link, rudekpi_link, (a: Node, b: Node);
        /// Removes an edge.
        unlink, rudekpi_unlink, (a: Node, b: Node);
        /// Adds a node.
        join, rudekpi_join, (node: Node);
        /// Removes a node, with its edges and the pointers at it.
        leave, rudekpi_leave, (node: Node);
        /// Writes a node's flag, as a fault does.
        flag, rudekpi_flag, (node: Node, value: bool);
        /// Makes up to `count` steps of a seeded daemon, and stops when no node is enabled.
        drive, rudekpi_drive, (seed: u64, count: u32);
        /// Makes `count` seeded faults of registers.
        scramble, rudekpi_scramble, (seed: u64, count: u32);
        /// Adds the lines of a base to the transcript; an audit can begin at a base.
        checkpoint, rudekpi_checkpoint, ();
    }

    values! {
        /// The most moves that can still come before the next edit or fault, 0 in silence.
        moves_left, rudekpi_moves_left, () -> u32;
        /// How many rounds are complete since the last accepted edit or fault, or since counting began, in constant
        /// time. Returns `Fault::NotCounted` before `count_rounds`.
        rounds, rudekpi_rounds, () -> u32;
        /// How many rounds can still be completed before the next edit or fault, 0 in silence. Of n nodes, those
        /// complete and those left are together at most n (Hsu and Huang) or 2n (Manne; 2n - 1 if n is odd).
        /// Returns `Fault::NotCounted` before `count_rounds`.
        rounds_left, rudekpi_rounds_left, () -> u32;
        /// Whether a node is at rest: it does not move until an edit or a fault reaches it.
        is_at_rest, rudekpi_is_at_rest, (node: Node) -> bool;
        /// Numbers the entries from 1 again, in the same state, before or after the log is full. Returns how many
        /// bytes of the next `take_transcript` end the transcript so far, with a base; the bytes after them begin
        /// the next transcript.
        renumber, rudekpi_session_renumber, () -> usize;
        /// The cost, in moves, of adding an edge at this moment: the charge would grow by at most this. 0 if the
        /// edge would be refused. Changes nothing.
        cost_of_link, rudekpi_cost_of_link, (a: Node, b: Node) -> u32;
        /// The cost of removing an edge.
        cost_of_unlink, rudekpi_cost_of_unlink, (a: Node, b: Node) -> u32;
        /// The cost of a node's arrival.
        cost_of_join, rudekpi_cost_of_join, (node: Node) -> u32;
        /// The cost of a node's departure.
        cost_of_leave, rudekpi_cost_of_leave, (node: Node) -> u32;
        /// The cost of writing a flag.
        cost_of_flag, rudekpi_cost_of_flag, (node: Node, value: bool) -> u32;
    }

    silent_costs! {
        /// The most moves that adding an edge to a silent network can cause; `None` if a rule is enabled.
        silent_cost_of_link, rudekpi_silent_cost_of_link, (a: Node, b: Node);
        /// The most moves that removing an edge can cause.
        silent_cost_of_unlink, rudekpi_silent_cost_of_unlink, (a: Node, b: Node);
        /// The most moves that a node's arrival can cause.
        silent_cost_of_join, rudekpi_silent_cost_of_join, (node: Node);
        /// The most moves that a node's departure can cause.
        silent_cost_of_leave, rudekpi_silent_cost_of_leave, (node: Node);
        /// The most moves that writing a pointer can cause; target 0 is null.
        silent_cost_of_point, rudekpi_silent_cost_of_point, (node: Node, target: Node);
        /// The most moves that writing a flag can cause.
        silent_cost_of_flag, rudekpi_silent_cost_of_flag, (node: Node, value: bool);
    }

    lists! {
        /// All neighbours of a node, ascending; an absent node has none. Changes nothing.
        neighbours, rudekpi_neighbours, (node: Node);
        /// All nodes that are present, ascending.
        nodes, rudekpi_nodes, ();
        /// All nodes that are not at rest, ascending: only these may move before the next edit or fault.
        restless, rudekpi_restless, ();
        /// The nodes that adding an edge would reach, ascending. Changes nothing.
        reach_of_link, rudekpi_reach_of_link, (a: Node, b: Node);
        /// The nodes that removing an edge would reach.
        reach_of_unlink, rudekpi_reach_of_unlink, (a: Node, b: Node);
        /// The nodes that a node's departure would reach.
        reach_of_leave, rudekpi_reach_of_leave, (node: Node);
        /// The nodes that writing a flag would reach.
        reach_of_flag, rudekpi_reach_of_flag, (node: Node, value: bool);
    }

    /// The nodes that writing a pointer would reach.
    pub fn reach_of_point(&mut self, node: Node, target: Option<Node>) -> Result<Vec<Node>, Fault> {
        let target = target.unwrap_or(0);
        self.listed(|slot, out, room, count| unsafe {
            ffi::rudekpi_reach_of_point(slot, node, target, out, room, count)
        })
    }

    /// The cost, in moves, of writing a pointer at this moment.
    pub fn cost_of_point(&mut self, node: Node, target: Option<Node>) -> Result<u32, Fault> {
        let mut cost = 0;
        let target = target.unwrap_or(0);
        match unsafe { ffi::rudekpi_cost_of_point(&mut *self.slot, node, target, &mut cost) } {
            ffi::DONE => Ok(cost),
            status => Err(fault(status)),
        }
    }

    /// The node's registers, and whether the node is present. Adds no entry.
    pub fn registers(&mut self, node: Node) -> Result<Registers, Fault> {
        let mut found = RawNode::default();
        match unsafe { ffi::rudekpi_registers(&mut *self.slot, node, &mut found) } {
            ffi::DONE => Ok(Registers {
                pointer: node_or_null(found.pointer),
                flag: found.flag,
                present: found.present,
            }),
            status => Err(fault(status)),
        }
    }

    /// All edges, each with its lower end first, ascending. Adds no entry.
    pub fn edges(&mut self) -> Result<Vec<(Node, Node)>, Fault> {
        let rows: Vec<Row> =
            self.listed(|slot, out, room, count| unsafe { ffi::rudekpi_edges(slot, out, room, count) })?;
        Ok(rows.iter().map(|it| (it.node, it.other)).collect())
    }

    /// The node's partner, if the node has one. Adds no entry.
    pub fn partner(&mut self, node: Node) -> Result<Option<Node>, Fault> {
        let mut partner = 0;
        match unsafe { ffi::rudekpi_partner(&mut *self.slot, node, &mut partner) } {
            ffi::DONE => Ok(node_or_null(partner)),
            status => Err(fault(status)),
        }
    }

    /// Writes a node's pointer, as a fault does.
    pub fn point(&mut self, node: Node, target: Option<Node>) -> Result<u32, Fault> {
        let mut told = Told::default();
        let status = unsafe { ffi::rudekpi_point(&mut *self.slot, node, target.unwrap_or(0), &mut told) };
        answer(status, &told)
    }

    /// A node's pointer.
    pub fn show(&mut self, node: Node) -> Result<Option<Node>, Fault> {
        let mut told = Told::default();
        let status = unsafe { ffi::rudekpi_show(&mut *self.slot, node, &mut told) };
        answer(status, &told)?;
        Ok(node_or_null(told.target))
    }

    /// Lets nodes move, all at once. Returns their moves.
    pub fn step(&mut self, items: &[Item]) -> Result<Vec<Move>, Fault> {
        let raw: Vec<RawItem> = items
            .iter()
            .map(|it| RawItem {
                node: it.node,
                wish: it.wish.unwrap_or(0),
            })
            .collect();
        let rows = self.rows(|slot, told| unsafe { ffi::rudekpi_step(slot, raw.as_ptr(), raw.len(), told) })?;
        let of = |it: &Row| Move {
            node: it.node,
            rule: Rule::of(it.rule),
            target: node_or_null(it.other),
        };
        Ok(rows.iter().map(of).collect())
    }

    /// The enabled nodes, each with its rule.
    pub fn enabled(&mut self) -> Result<Vec<Enabled>, Fault> {
        let rows = self.rows(|slot, told| unsafe { ffi::rudekpi_enabled(slot, told) })?;
        Ok(rows
            .iter()
            .map(|it| Enabled {
                node: it.node,
                rule: Rule::of(it.rule),
            })
            .collect())
    }

    /// The pairs of nodes that point at each other.
    pub fn matching(&mut self) -> Result<Vec<(Node, Node)>, Fault> {
        let rows = self.rows(|slot, told| unsafe { ffi::rudekpi_pairs(slot, told) })?;
        Ok(rows.iter().map(|it| (it.node, it.other)).collect())
    }

    /// The counts of the network.
    pub fn status(&mut self) -> Result<Counts, Fault> {
        let (mut counts, mut told) = (Counts::default(), Told::default());
        let status = unsafe { ffi::rudekpi_status(&mut *self.slot, &mut counts, &mut told) };
        answer(status, &told)?;
        Ok(counts)
    }

    /// Carries out a line of a script, given without its line feed. A refused event is no `Fault`; the event's
    /// entry has the refusal.
    pub fn feed(&mut self, line: &[u8]) -> Result<(), Fault> {
        let mut number = 0;
        match unsafe { ffi::rudekpi_session_feed(&mut *self.slot, line.as_ptr(), line.len(), &mut number) } {
            ffi::DONE => Ok(()),
            ffi::BAD_LINE => Err(Fault::BadLine { number }),
            status => Err(fault(status)),
        }
    }

    /// Counts rounds from here on, or from here anew.
    ///
    /// A round is the shortest part of a run after which each node that was enabled at its start has moved, or was
    /// not enabled in some state since. From then on a step costs a look or two more at each mover and at each
    /// node that it disables.
    /// Returns `Fault::NoMemory` if some nine kilobytes can't be had; then nothing has changed.
    pub fn count_rounds(&mut self) -> Result<(), Fault> {
        match unsafe { ffi::rudekpi_count_rounds(&mut *self.slot) } {
            ffi::DONE => Ok(()),
            status => Err(fault(status)),
        }
    }

    /// Takes the text of the transcript since the last call.
    pub fn take_transcript(&mut self) -> Vec<u8> {
        let mut text = vec![0; unsafe { ffi::rudekpi_session_length(&mut *self.slot) }];
        unsafe { ffi::rudekpi_session_read(&mut *self.slot, text.as_mut_ptr(), text.len()) };
        text
    }

    /// Decides whether the network keeps its text from here on. If `keeps` is false, drops the unread text.
    pub fn keep_transcript(&mut self, keeps: bool) -> Result<(), Fault> {
        match unsafe { ffi::rudekpi_transcript(&mut *self.slot, keeps) } {
            ffi::DONE => Ok(()),
            status => Err(fault(status)),
        }
    }

    fn rows(&mut self, call: impl FnOnce(*mut Slot, *mut Told) -> u32) -> Result<Vec<Row>, Fault> {
        let mut told = Told::default();
        let status = call(&mut *self.slot, &mut told);
        answer(status, &told)?;
        let mut rows = vec![Row::default(); told.rows];
        unsafe { ffi::rudekpi_rows(&mut *self.slot, rows.as_mut_ptr(), rows.len()) };
        Ok(rows)
    }

    fn listed<Item: Clone + Default>(
        &mut self,
        call: impl Fn(*mut Slot, *mut Item, usize, *mut usize) -> u32,
    ) -> Result<Vec<Item>, Fault> {
        let mut ask = |items: &mut [Item]| {
            let mut count = 0;
            match call(&mut *self.slot, items.as_mut_ptr(), items.len(), &mut count) {
                ffi::DONE => Ok(count),
                status => Err(fault(status)),
            }
        };
        let mut items = vec![Item::default(); ask(&mut [])?];
        ask(&mut items)?;
        Ok(items)
    }
}

impl Drop for Network {
    fn drop(&mut self) {
        unsafe { ffi::rudekpi_session_free(&mut *self.slot) }
    }
}
