//! Rudekpi for Rust: a network that maintains a maximal matching, and an auditor of its transcripts.
//!
//! Each method calls a function of `rudekpi.h`. Those functions are proved; the types around them are tested.
//! A network or an audit owns its memory and may be sent between threads; only one thread at a time uses it.
//!
//! ```
//! use rudekpi::{Fault, Network, Rules};
//!
//! fn main() -> Result<(), Fault> {
//!     let mut net = Network::new(Rules::HsuHuang, 2)?;
//!     net.link(1, 2)?;
//!     net.drive(1, 9)?;
//!     assert_eq!(net.matching()?, [(1, 2)]);
//!     Ok(())
//! }
//! ```

mod audit;
mod fault;
mod ffi;
mod local;
mod network;

pub use audit::{audit, Audit, Damage, Summary, Verdict};
pub use fault::{Fault, Refusal};
pub use local::{local_rule, may_move, BadView, LocalMove, Record};
pub use network::{Counts, Enabled, Item, Move, Network, Registers, Rule, Rules};

/// A node's name, from 1 on.
pub type Node = u32;

/// Returns the version of the library: 1,000,000 times the major, plus 1,000 times the minor, plus the patch
/// number.
pub fn version() -> u32 {
    unsafe { ffi::rudekpi_version() }
}
