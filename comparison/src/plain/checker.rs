//! The checker of trees: yes, 6 or 7.

use super::game::Position;
use super::judge::judge;
use super::masks::outcomes;
use super::plan::{Plan, Refusal, BROKEN, SHAPE};
use super::tree::{legal_length, Node, NODE_BYTES};

/// A subtree that is sound in shape.
pub struct Sound {
    pub nodes: usize,
    /// Whether every path of it keeps every relevant constraint.
    pub kept: bool,
}

/// The subtree at the front of the bytes, below a path that stands at this position; none where it is not sound.
pub fn subtree(plan: &Plan, nodes: &[u8], at: &Position) -> Option<Sound> {
    let so_far = at.keeps_so_far(plan);
    if at.left == 0 {
        return Some(Sound { nodes: 0, kept: so_far });
    }
    let v = Node::front(nodes)?;
    if !at.is_legal(plan, v) {
        return None;
    }
    let mut found = Sound { nodes: 1, kept: so_far };
    for outcome in outcomes(plan.heard(v.points)) {
        let below = subtree(plan, &nodes[NODE_BYTES * found.nodes..], &at.after(v, outcome))?;
        found.nodes += below.nodes;
        found.kept &= below.kept;
    }
    Some(found)
}

/// Whether the bytes are a tree for the plan: fine, or the first of 2, 3, 4 (the plan), 6 (its shape), 7 (a broken
/// constraint).
pub fn check_tree(plan: &Plan, tree: &[u8]) -> Result<(), Refusal> {
    judge(plan)?;
    if !legal_length(tree.len()) {
        return Err(SHAPE);
    }
    match subtree(plan, tree, &Position::start(plan)) {
        Some(found) if NODE_BYTES * found.nodes == tree.len() => {
            if found.kept {
                Ok(())
            } else {
                Err(BROKEN)
            }
        }
        _ => Err(SHAPE),
    }
}
