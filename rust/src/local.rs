//! The rule of one node, from what the node itself holds: for nodes of your own.

use crate::ffi::{self, RawLocalMove, RawRecord};
use crate::network::{node_or_null, Rule, Rules};
use crate::Node;
use std::fmt;

/// What a node holds: its name, pointer and flag, or a neighbour's.
#[derive(Clone, Copy, Debug, PartialEq, Eq)]
pub struct Record {
    pub node: Node,
    pub pointer: Option<Node>,
    pub flag: bool,
}

/// What a node does by its rule, and its registers afterwards.
#[derive(Clone, Copy, Debug, PartialEq, Eq)]
pub struct LocalMove {
    /// `None` is a repair: the node's pointer is at no neighbour, and becomes null.
    pub rule: Option<Rule>,
    pub target: Option<Node>,
    pub pointer: Option<Node>,
    pub flag: bool,
}

/// Why no state of the machine shows what a node holds; or a name is out of range.
#[derive(Clone, Copy, Debug, PartialEq, Eq)]
#[non_exhaustive]
pub enum BadView {
    /// This neighbour is not above the one before it: out of order, or listed twice.
    NotAscending(Node),
    /// The node is listed among its own neighbours.
    OwnNeighbour,
    /// This neighbour points at itself.
    PointsAtItself(Node),
    /// The node points at this name, which is no neighbour. Only `may_move` reports it; `local_rule` repairs it.
    PointsAtStranger(Node),
    /// A name is 0 or above 65,535.
    BadArgument,
}

impl BadView {
    fn of(told: &RawLocalMove) -> BadView {
        match told.fault {
            1 => BadView::NotAscending(told.at),
            2 => BadView::OwnNeighbour,
            3 => BadView::PointsAtItself(told.at),
            4 => BadView::PointsAtStranger(told.at),
            _ => BadView::BadArgument,
        }
    }
}

impl fmt::Display for BadView {
    fn fmt(&self, f: &mut fmt::Formatter<'_>) -> fmt::Result {
        match self {
            BadView::NotAscending(node) => write!(f, "neighbour {node} is not above the one before it"),
            BadView::OwnNeighbour => f.write_str("the node is among its own neighbours"),
            BadView::PointsAtItself(node) => write!(f, "neighbour {node} points at itself"),
            BadView::PointsAtStranger(node) => write!(f, "the node points at {node}, which is no neighbour"),
            BadView::BadArgument => f.write_str("a name is out of its range"),
        }
    }
}

impl std::error::Error for BadView {}

fn raw(record: &Record) -> RawRecord {
    RawRecord {
        node: record.node,
        pointer: record.pointer.unwrap_or(0),
        flag: record.flag,
    }
}

fn told(rules: Rules, own: &RawRecord, around: &[RawRecord]) -> Result<RawLocalMove, BadView> {
    let mut told = RawLocalMove::default();
    match unsafe { ffi::rudekpi_local_rule(rules as u32, own, around.as_ptr(), around.len(), &mut told) } {
        ffi::DONE => Ok(told),
        _ => Err(BadView::of(&told)),
    }
}

/// What a node does by its rule, from what it holds alone; `None` if no rule is enabled.
///
/// `neighbours` are their records, ascending by name. In every state of the machine that shows this at the node,
/// the answer is what the machine does there. Any thread may call this.
pub fn local_rule(rules: Rules, own: &Record, neighbours: &[Record]) -> Result<Option<LocalMove>, BadView> {
    let around: Vec<RawRecord> = neighbours.iter().map(raw).collect();
    let told = told(rules, &raw(own), &around)?;
    if told.rule == 0 {
        return Ok(None);
    }
    Ok(Some(LocalMove {
        rule: Some(told.rule).filter(|&it| it != ffi::REPAIR).map(Rule::of),
        target: node_or_null(told.target),
        pointer: node_or_null(told.pointer),
        flag: told.flag,
    }))
}

/// Whether the machine may move a node by this rule, to this target; update and abandon have none.
///
/// The arguments and errors are those of `local_rule`.
pub fn may_move(
    rules: Rules,
    own: &Record,
    neighbours: &[Record],
    rule: Rule,
    target: Option<Node>,
) -> Result<bool, BadView> {
    let around: Vec<RawRecord> = neighbours.iter().map(raw).collect();
    let (own, mut may) = (raw(own), false);
    let (count, number, aim) = (around.len(), rule as u32 + 1, target.unwrap_or(0));
    let status = unsafe { ffi::rudekpi_may_move(rules as u32, &own, around.as_ptr(), count, number, aim, &mut may) };
    match status {
        ffi::DONE => Ok(may),
        ffi::NOT_SHOWN => Err(told(rules, &own, &around).map_or_else(|wrong| wrong, |it| BadView::of(&it))),
        _ => Err(BadView::BadArgument),
    }
}
