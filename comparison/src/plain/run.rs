//! The crew's run: what a crew is told at a history of reports, and its reports.

use super::checker::{check_tree, subtree};
use super::game::Position;
use super::masks::{outcomes, subset};
use super::plan::{Plan, Refusal, AFTER_DONE, MASK, SHAPE};
use super::tree::{Node, NODE_BYTES};

/// The reports so far: a count 0 to 8 and eight outcome masks, zeros past the count.
#[derive(Clone, PartialEq, Eq, Debug, Default)]
pub struct History {
    pub count: u8,
    pub masks: [u8; 8],
}

#[derive(Clone, Copy, PartialEq, Eq, Debug)]
pub enum Told {
    Instruct(Node),
    Done,
}

impl History {
    pub fn from_bytes([count, masks @ ..]: [u8; 9]) -> History {
        History { count, masks }
    }

    pub fn to_bytes(&self) -> [u8; 9] {
        let mut bytes = [self.count; 9];
        bytes[1..].copy_from_slice(&self.masks);
        bytes
    }

    /// The masks reported; 8 where the count is past 8 or a mask past it is not zero.
    fn reported(&self) -> Result<&[u8], Refusal> {
        let (reported, unused) = self.masks.split_at_checked(self.count.into()).ok_or(MASK)?;
        if unused.iter().all(|&mask| mask == 0) {
            Ok(reported)
        } else {
            Err(MASK)
        }
    }
}

/// How many nodes stand before the child that this outcome leads to: the front node, and the subtrees before it.
fn nodes_before(plan: &Plan, nodes: &[u8], at: &Position, v: Node, mask: u8) -> Option<usize> {
    let mut count = 1;
    for outcome in outcomes(plan.heard(v.points)).take_while(|&outcome| outcome != mask) {
        count += subtree(plan, &nodes[NODE_BYTES * count..], &at.after(v, outcome))?.nodes;
    }
    Some(count)
}

/// The walk from the root of a checked tree, one mask after the other; at each 9 comes before 8.
fn told(plan: &Plan, tree: &[u8], masks: &[u8]) -> Result<Told, Refusal> {
    let mut rest = tree;
    let mut at = Position::start(plan);
    for &mask in masks {
        if at.left == 0 {
            return Err(AFTER_DONE);
        }
        let v = Node::front(rest).ok_or(SHAPE)?;
        if !subset(mask, plan.heard(v.points)) {
            return Err(MASK);
        }
        let before = nodes_before(plan, rest, &at, v, mask).ok_or(SHAPE)?;
        rest = &rest[NODE_BYTES * before..];
        at = at.after(v, mask);
    }
    if at.left == 0 {
        return Ok(Told::Done);
    }
    Node::front(rest).map(Told::Instruct).ok_or(SHAPE)
}

/// The instruction at a history, or done; or the first of 2, 3, 4, 6, 7, 8 (the count and the unused masks), then 9
/// before 8 at each mask.
pub fn show(plan: &Plan, tree: &[u8], history: &History) -> Result<Told, Refusal> {
    check_tree(plan, tree)?;
    told(plan, tree, history.reported()?)
}

/// One report more, judged as showing judges those inside the history; a refused report leaves the history.
pub fn report(plan: &Plan, tree: &[u8], history: &mut History, mask: u8) -> Result<(), Refusal> {
    let Told::Instruct(v) = show(plan, tree, history)? else { return Err(AFTER_DONE) };
    if !subset(mask, plan.heard(v.points)) {
        return Err(MASK);
    }
    history.masks[history.count as usize] = mask;
    history.count += 1;
    Ok(())
}
