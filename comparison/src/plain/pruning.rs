//! States of the game that are lost already, and slots before which no winning move performs a point: what the search
//! leaves out.

use super::constraints::Slots;
use super::game::{slots_after, Position};
use super::masks::outcomes;
use super::plan::Plan;
use super::table::View;
use super::tree::Node;

/// The letters that each point discloses.
fn own(plan: &Plan) -> [u8; 8] {
    let mut sets = [0; 8];
    for (l, letter) in plan.used_letters().iter().enumerate() {
        sets[letter.point as usize] |= 1 << l;
    }
    sets
}

/// What the table of least slots needs to know of a position.
fn view<'a>(plan: &'a Plan, at: &Position) -> View<'a> {
    View {
        plan,
        left: at.left,
        values: at.values,
        unheard: plan.heard(at.left),
        undecided: plan.settled(at.left),
        low: slots_after(at.slots, at.left, at.earliest),
        cap: slots_after(at.slots, at.left, plan.horizon),
        own: own(plan),
    }
}

/// Says lost only where the remaining game cannot be won: where something is broken so far, or by the table. Where it does
/// not say so the game is tried.
pub fn lost(plan: &Plan, at: &Position) -> bool {
    !at.keeps_so_far(plan) || view(plan, at).hopeless()
}

/// Whether the test says lost after some outcome of a legal move: then the move does not win.
pub fn move_lost(plan: &Plan, at: &Position, v: Node) -> bool {
    outcomes(plan.heard(v.points)).any(|outcome| lost(plan, &at.after(v, outcome)))
}

/// For each point a slot before which no winning move performs it.
pub fn soonest(plan: &Plan, at: &Position) -> Slots {
    view(plan, at).soonest()
}
