//! Why a call failed.

use crate::audit::Damage;
use crate::ffi::{self, Told};
use std::fmt;

/// Why the machine refuses an event: the first reason that applies, in the order given in `docs/USE.md`.
#[derive(Clone, Copy, Debug, PartialEq, Eq, Hash)]
#[non_exhaustive]
pub enum Refusal {
    UnknownNode,
    SelfLoop,
    AlreadyLinked,
    NotLinked,
    TooManyEdges,
    NotNeighbour,
    NoFlag,
    EmptyChoice,
    NotCentral,
    ChosenTwice,
    NotEnabled,
    BadTarget,
    AlreadyPresent,
}

impl Refusal {
    /// All refusals with their texts, by their numbers from 1 on.
    const ALL: [(Refusal, &'static str); 13] = [
        (Refusal::UnknownNode, "unknown-node"),
        (Refusal::SelfLoop, "self-loop"),
        (Refusal::AlreadyLinked, "already-linked"),
        (Refusal::NotLinked, "not-linked"),
        (Refusal::TooManyEdges, "too-many-edges"),
        (Refusal::NotNeighbour, "not-neighbour"),
        (Refusal::NoFlag, "no-flag"),
        (Refusal::EmptyChoice, "empty-choice"),
        (Refusal::NotCentral, "not-central"),
        (Refusal::ChosenTwice, "chosen-twice"),
        (Refusal::NotEnabled, "not-enabled"),
        (Refusal::BadTarget, "bad-target"),
        (Refusal::AlreadyPresent, "already-present"),
    ];

    /// The refusal with this number, 1 to 13.
    pub fn from_number(number: u32) -> Option<Refusal> {
        let at = usize::try_from(number).ok()?.checked_sub(1)?;
        Some(Refusal::ALL.get(at)?.0)
    }

    /// The refusal's text in a transcript.
    pub fn text(self) -> &'static str {
        Refusal::ALL.iter().find(|it| it.0 == self).map_or("unknown", |it| it.1)
    }
}

impl fmt::Display for Refusal {
    fn fmt(&self, f: &mut fmt::Formatter<'_>) -> fmt::Result {
        f.write_str(self.text())
    }
}

/// Why a call failed.
#[derive(Clone, Copy, Debug, PartialEq, Eq)]
#[non_exhaustive]
pub enum Fault {
    /// The machine refused the event, as entry `entry` says. The network is unchanged.
    Refused { why: Refusal, entry: u32 },
    /// The log has 16,777,216 entries and takes no more.
    LogFull,
    /// Memory ran out. The network is unchanged, but the first turns of a `drive` or a `scramble` may remain.
    NoMemory,
    /// A number is out of range. Nothing changed.
    BadArgument,
    /// Line `number` is neither empty nor a command. Nothing changed.
    BadLine { number: u64 },
    /// Rounds are asked for, and the network does not count them: call `count_rounds` first.
    NotCounted,
    /// The bytes are no transcript; `line` is the first wrong line, from 1. Nothing was begun.
    Damaged { line: u64, damage: Damage },
}

impl fmt::Display for Fault {
    fn fmt(&self, f: &mut fmt::Formatter<'_>) -> fmt::Result {
        match self {
            Fault::Refused { why, entry } => write!(f, "entry {entry} was refused: {why}"),
            Fault::LogFull => f.write_str("the log is full"),
            Fault::NoMemory => f.write_str("memory was refused"),
            Fault::BadArgument => f.write_str("a number is out of its range"),
            Fault::NotCounted => f.write_str("rounds are not counted"),
            Fault::BadLine { number } => write!(f, "line {number}: not a command"),
            Fault::Damaged { line, damage } => write!(f, "line {line}: {}", damage.text()),
        }
    }
}

impl std::error::Error for Fault {}

/// The number of the entry, or the fault.
pub(crate) fn answer(status: u32, told: &Told) -> Result<u32, Fault> {
    match (status, Refusal::from_number(told.refusal)) {
        (ffi::DONE, _) => Ok(told.entry),
        (ffi::REFUSED, Some(why)) => Err(Fault::Refused { why, entry: told.entry }),
        (other, _) => Err(fault(other)),
    }
}

/// The fault of a status that is neither done nor a refusal.
pub(crate) fn fault(status: u32) -> Fault {
    match status {
        ffi::LOG_FULL => Fault::LogFull,
        ffi::NO_MEMORY => Fault::NoMemory,
        ffi::NOT_COUNTED => Fault::NotCounted,
        _ => Fault::BadArgument,
    }
}
