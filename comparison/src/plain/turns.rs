//! The two turns of the game: the agent tries moves, the world tries outcomes. They call each other until no point is
//! left, and write the tree of first moves on the way.

use super::game::Position;
use super::masks::outcomes;
use super::moves::timely_moves;
use super::plan::Plan;
use super::pruning::{move_lost, soonest};
use super::tree::{Node, NODE_BYTES};

/// The agent's turn: the first move from which the game can be won is written, its subtrees directly behind. Moves that
/// perform a point before its soonest slot do not win, and are left out. The number of nodes written, or none where the
/// game cannot be won.
pub fn agent(plan: &Plan, at: &Position, buf: &mut [u8]) -> Option<usize> {
    if at.left == 0 {
        return at.keeps_so_far(plan).then_some(0);
    }
    for v in timely_moves(plan, at, soonest(plan, at)) {
        if let Some(below) = world(plan, at, v, &mut buf[NODE_BYTES..]) {
            buf[..NODE_BYTES].copy_from_slice(&v.to_bytes());
            return Some(below + 1);
        }
    }
    None
}

/// The world's turn after a legal move: each outcome in turn, its subtree directly behind the one before.
fn world(plan: &Plan, at: &Position, v: Node, buf: &mut [u8]) -> Option<usize> {
    if move_lost(plan, at, v) {
        return None;
    }
    let mut nodes = 0;
    for outcome in outcomes(plan.heard(v.points)) {
        nodes += agent(plan, &at.after(v, outcome), &mut buf[NODE_BYTES * nodes..])?;
    }
    Some(nodes)
}
