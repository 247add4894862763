//! The search: hopeless, or the tree of first moves.

use super::game::Position;
use super::judge::judge;
use super::plan::{Plan, Refusal, BUFFER, HOPELESS};
use super::pruning::lost;
use super::tree::{NODE_BYTES, TREE_BYTES};
use super::turns::agent;

/// The whole game, unless it is lost before the first move.
fn from_start(plan: &Plan, tree: &mut [u8]) -> Option<usize> {
    let at = Position::start(plan);
    if lost(plan, &at) {
        return None;
    }
    agent(plan, &at, tree)
}

/// The number of nodes of the tree of first moves, which is written into the buffer, zeros behind it up to byte 573;
/// or the first of 10 (a short buffer), 2, 3, 4 (the plan), 11 (hopeless, and the 573 bytes are zero).
pub fn search(plan: &Plan, buf: &mut [u8]) -> Result<usize, Refusal> {
    let tree = buf.get_mut(..TREE_BYTES).ok_or(BUFFER)?;
    judge(plan)?;
    let found = from_start(plan, tree);
    tree[NODE_BYTES * found.unwrap_or(0)..].fill(0);
    found.ok_or(HOPELESS)
}
