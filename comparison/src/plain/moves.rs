//! The legal and timely moves of a position in their order: by slot, then points mask, then choices mask. A move is
//! timely where it performs no point before its soonest slot.

use super::constraints::Slots;
use super::game::Position;
use super::masks::{has, next_inside};
use super::plan::Plan;
use super::tree::Node;

/// The points left that may be performed in this slot. The highest comes first, so that each step doubles the mask.
fn ready(at: &Position, soonest: &Slots, slot: u8) -> u8 {
    (0..8).rev().fold(0, |m, x| 2 * m + u8::from(has(at.left, x) && soonest[x as usize] <= slot))
}

/// The first move in this slot or a later one. It performs the least set of points ready in its slot and chooses nothing.
fn from_slot(plan: &Plan, at: &Position, soonest: &Slots, slot: u8) -> Option<Node> {
    (slot..=plan.horizon).find_map(|slot| {
        let points = next_inside(ready(at, soonest, slot), 0)?;
        Some(Node { slot, points, choices: 0 })
    })
}

/// The first of the moves behind one of them.
fn next_move(plan: &Plan, at: &Position, soonest: &Slots, v: Node) -> Option<Node> {
    if let Some(choices) = next_inside(plan.settled(v.points), v.choices) {
        return Some(Node { choices, ..v });
    }
    if let Some(points) = next_inside(ready(at, soonest, v.slot), v.points) {
        return Some(Node { points, choices: 0, ..v });
    }
    from_slot(plan, at, soonest, v.slot + 1)
}

pub fn timely_moves<'a>(plan: &'a Plan, at: &'a Position, soonest: Slots) -> impl Iterator<Item = Node> + 'a {
    std::iter::successors(from_slot(plan, at, &soonest, at.earliest), move |&v| next_move(plan, at, &soonest, v))
}
