//! The proved planner beside the reference: random calls, what each must answer, and which bytes it may change.
//!
//! `Case` is one call with everything it is given. `compare` makes the call through the safe wrapper, with guard bytes
//! around every buffer, and compares answer and bytes with what the reference and the rules of document 01 say. The
//! modules behind it make the cases; `tests/calls.rs` runs them and counts what was met.

pub mod cases;
pub mod compare;
pub mod damage;
pub mod expected;
#[cfg(target_os = "linux")]
pub mod fenced;
pub mod gauge;
pub mod growth;
pub mod guarded;
pub mod library;
pub mod made;
pub mod plain;
pub mod plans;
pub mod runs;
pub mod tally;
pub mod trees;

pub use compare::{compare, compare_between};
pub use guarded::hex;
pub use library::Case;
