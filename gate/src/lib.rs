//! The gate's part that deals with wrong programs: `crates/*/must-fail` and `crates/*/wrong`; and, in `believed`, with
//! what must be believed.
//!
//! A wrong program is a crate with a few lines replaced (an edit). It is of use only where it is refused because a
//! fact fails: a proof that merely no longer fits its text says nothing. `edit` reads and applies one, `log` reads
//! what the prover said of it, `judge` decides whether that is a fact of its own, `trial` has each tried by itself, and
//! `carried` gives its goals the names under which their answers are then looked for.

pub mod believed;
pub mod carried;
pub mod edit;
pub mod judge;
pub mod log;
pub mod repository;
pub mod trial;
