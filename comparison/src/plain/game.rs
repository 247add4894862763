//! The game: a position, the test of a move, what a move and its outcome lead to, whether something is broken so far.

use super::constraints::{all_kept_so_far, Slots};
use super::masks::{first, has, subset};
use super::plan::Plan;
use super::tree::Node;

/// Where the game stands on a path: the first slot still open, the points not yet performed, the points performed on
/// the path above, the letters set true, and the slot of each point that is performed.
#[derive(Clone, Debug)]
pub struct Position {
    pub earliest: u8,
    pub left: u8,
    pub performed: u8,
    pub values: u8,
    pub slots: Slots,
}

/// The slots, with this slot given to each of these points.
pub fn slots_after(mut slots: Slots, points: u8, slot: u8) -> Slots {
    for (x, place) in slots.iter_mut().enumerate() {
        if has(points, x as u8) {
            *place = slot;
        }
    }
    slots
}

impl Position {
    /// Before the first move.
    pub fn start(plan: &Plan) -> Position {
        Position { earliest: 0, left: first(plan.points), performed: 0, values: 0, slots: [0; 8] }
    }

    pub fn is_legal(&self, plan: &Plan, v: Node) -> bool {
        self.earliest <= v.slot
            && v.slot <= plan.horizon
            && v.points != 0
            && subset(v.points, self.left)
            && subset(v.choices, plan.settled(v.points))
    }

    /// After a legal move and its outcome.
    pub fn after(&self, v: Node, outcome: u8) -> Position {
        Position {
            earliest: v.slot + 1,
            left: self.left & !v.points,
            performed: self.performed | v.points,
            values: self.values | v.choices | outcome,
            slots: slots_after(self.slots, v.points, v.slot),
        }
    }

    /// Whether nothing is broken so far, by the points performed and the letters that they disclose.
    pub fn keeps_so_far(&self, plan: &Plan) -> bool {
        all_kept_so_far(plan, &self.slots, self.values, plan.known(self.performed), self.performed)
    }
}
