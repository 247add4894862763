//! The proved planner's algorithms in plain Rust: the same loops in the same order, module by module as in crates/.
//! Nothing here is proved; tests/plain.rs compares it with the reference, tests/full.rs with the proved library.

pub mod answer_text;
pub mod checker;
pub mod constraints;
pub mod differences;
pub mod following;
pub mod frame;
pub mod game;
pub mod judge;
pub mod library;
pub mod masks;
pub mod moves;
pub mod plan;
pub mod plan_text;
pub mod pruning;
pub mod run;
pub mod search;
pub mod table;
pub mod tree;
pub mod tree_text;
pub mod turns;
pub mod verdict;

pub use checker::check_tree;
pub use differences::differences;
pub use judge::judge;
pub use plan::{Plan, Refusal};
pub use plan_text::{read_plan, write_plan};
pub use run::{report, show, History, Told};
pub use search::search;
pub use tree_text::{read_tree, write_tree};
pub use verdict::{least_schedule, screen};
