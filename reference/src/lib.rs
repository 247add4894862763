//! A reference planner, written straight from documents 01 (the scope), 02 (the cards) and 000 (Definitions 1 to 9).
//!
//! It shares no code with the proved planner and prefers the plainest rendering of each rule over speed: trees are
//! judged through the strategies they describe, the schedules of tiny plans are enumerated, the game is searched move by
//! move.

pub mod cases;
pub mod checker;
pub mod differences;
pub mod known;
pub mod plan;
pub mod random;
pub mod run;
pub mod search;
pub mod text;
pub mod verdict;
