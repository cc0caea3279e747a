//! The auditor: decides whether bytes are the transcript of a run of the rules.

use crate::fault::{fault, Fault};
use crate::ffi::{self, RawVerdict, Slot};
use std::fmt;

/// The counts of a transcript.
#[derive(Clone, Copy, Debug, PartialEq, Eq)]
pub struct Summary {
    pub entries: u32,
    pub epochs: u32,
    pub moves: u64,
}

/// What is wrong with a line.
#[derive(Clone, Copy, Debug, PartialEq, Eq)]
pub enum Damage {
    BadHeader,
    NotALine,
    OutOfOrder,
    NotTheReply,
    BadBase,
}

impl Damage {
    /// The damage in the words of the program's `audit`.
    pub fn text(self) -> &'static str {
        match self {
            Damage::BadHeader => "bad header",
            Damage::NotALine => "not a transcript line",
            Damage::OutOfOrder => "out of order",
            Damage::NotTheReply => "not the machine's reply",
            Damage::BadBase => "bad base",
        }
    }
}

/// The verdict of an audit.
#[derive(Clone, Copy, Debug, PartialEq, Eq)]
pub enum Verdict {
    /// The bytes are the transcript of a run of the rules.
    Accepted(Summary),
    /// The bytes are no transcript; `line` is the first wrong line, from 1.
    Damaged { line: u64, damage: Damage },
}

impl Verdict {
    /// The verdict from C's numbers; a fault if memory ran out.
    pub(crate) fn of(raw: RawVerdict) -> Result<Verdict, Fault> {
        let damage = match raw.kind {
            0 => {
                let RawVerdict {
                    entries, epochs, moves, ..
                } = raw;
                return Ok(Verdict::Accepted(Summary { entries, epochs, moves }));
            }
            1 => Damage::BadHeader,
            2 => Damage::NotALine,
            3 => Damage::OutOfOrder,
            4 => Damage::NotTheReply,
            5 => Damage::BadBase,
            _ => return Err(Fault::NoMemory),
        };
        Ok(Verdict::Damaged { line: raw.line, damage })
    }
}

impl fmt::Display for Verdict {
    fn fmt(&self, f: &mut fmt::Formatter<'_>) -> fmt::Result {
        match self {
            Verdict::Accepted(it) => write!(
                f,
                "accepted: {} entries, {} epochs, {} moves",
                it.entries, it.epochs, it.moves
            ),
            Verdict::Damaged { line, damage } => write!(f, "line {line}: {}", damage.text()),
        }
    }
}

/// Judges a transcript in memory.
pub fn audit(text: &[u8]) -> Result<Verdict, Fault> {
    let mut verdict = RawVerdict::default();
    // a slice's pointer is never null
    unsafe { ffi::rudekpi_audit(text.as_ptr(), text.len(), &mut verdict) };
    Verdict::of(verdict)
}

/// An audit that is fed a transcript in pieces.
pub struct Audit {
    slot: Box<Slot>,
}

// any thread may use an audit, but only one at a time
unsafe impl Send for Audit {}

impl Audit {
    /// Begins an audit.
    pub fn new() -> Result<Audit, Fault> {
        let mut slot = Slot::empty();
        match unsafe { ffi::rudekpi_audit_new(&mut *slot) } {
            ffi::DONE => Ok(Audit { slot }),
            status => Err(fault(status)),
        }
    }

    /// Feeds the next bytes, cut anywhere. Returns whether no damage was found so far.
    pub fn feed(&mut self, piece: &[u8]) -> Result<bool, Fault> {
        match unsafe { ffi::rudekpi_audit_feed(&mut *self.slot, piece.as_ptr(), piece.len()) } {
            ffi::DONE => Ok(true),
            ffi::DAMAGED => Ok(false),
            status => Err(fault(status)),
        }
    }

    /// Returns the verdict on all bytes fed.
    pub fn finish(mut self) -> Result<Verdict, Fault> {
        let mut verdict = RawVerdict::default();
        unsafe { ffi::rudekpi_audit_finish(&mut *self.slot, &mut verdict) };
        Verdict::of(verdict)
    }
}

impl Drop for Audit {
    fn drop(&mut self) {
        unsafe { ffi::rudekpi_audit_free(&mut *self.slot) }
    }
}
