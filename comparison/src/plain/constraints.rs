//! The label test, what it is to keep a constraint, the raise (points moved to the slots that constraints ask), and
//! limits of differences.

use super::masks::has;
use super::plan::{Constraint, Plan};

/// The slot of each point.
pub type Slots = [u8; 8];

/// Under a setting all letters are known.
const ALL_LETTERS: u8 = 255;

/// At row X, column Y a number that time of Y minus time of X may not exceed, plus the bias.
pub type Limits = [[u32; 8]; 8];

/// So that no limit is negative.
pub const BIAS: u32 = 1 << 24;

/// What the letters known so far say of a label.
#[derive(Clone, Copy, PartialEq, Eq, Debug)]
pub enum Tested {
    Holds,
    Fails,
    Open,
}

/// The label test, where the letters of `known` are known: those of `values` are true, the others false.
pub fn label_test(need: u8, truth: u8, values: u8, known: u8) -> Tested {
    if (values ^ truth) & need & known != 0 {
        return Tested::Fails;
    }
    if need & !known != 0 {
        return Tested::Open;
    }
    Tested::Holds
}

impl Constraint {
    /// Whether the constraint is kept so far: its label fails or is open, one of its points is not performed yet, or they
    /// are as far apart as it asks.
    fn kept_so_far(&self, slots: &Slots, values: u8, known: u8, performed: u8) -> bool {
        label_test(self.need, self.truth, values, known) != Tested::Holds
            || !(has(performed, self.from) && has(performed, self.to))
            || i16::from(slots[self.to as usize]) - i16::from(slots[self.from as usize]) <= self.bound
    }

    /// Moves `from` to the slot that is asked if it stands earlier, and to the cap at most. Where the label does not hold
    /// nothing is asked.
    fn take_turn(&self, slots: &mut Slots, values: u8, cap: u8) {
        if label_test(self.need, self.truth, values, ALL_LETTERS) != Tested::Holds {
            return;
        }
        let asked = (i16::from(slots[self.to as usize]) - self.bound).clamp(0, i16::from(cap)) as u8;
        let slot = &mut slots[self.from as usize];
        *slot = asked.max(*slot);
    }

    /// Lowers the limit for its points to its bound. Where the label does not hold nothing is asked.
    fn limit(&self, limits: &mut Limits, values: u8) {
        if label_test(self.need, self.truth, values, ALL_LETTERS) != Tested::Holds {
            return;
        }
        let limit = &mut limits[self.from as usize][self.to as usize];
        *limit = BIAS.wrapping_add_signed(self.bound.into()).min(*limit);
    }
}

/// Whether no constraint of the plan is broken so far, where the letters of `known` are known, those of them in `values`
/// are true, and the points of `performed` are performed in these slots.
pub fn all_kept_so_far(plan: &Plan, slots: &Slots, values: u8, known: u8, performed: u8) -> bool {
    plan.used_constraints().iter().all(|c| c.kept_so_far(slots, values, known, performed))
}

/// One round of the raise: each constraint takes its turn.
pub fn raise(plan: &Plan, slots: &mut Slots, values: u8, cap: u8) {
    for c in plan.used_constraints() {
        c.take_turn(slots, values, cap);
    }
}

/// What each constraint asks of the limits.
pub fn limit_all(plan: &Plan, limits: &mut Limits, values: u8) {
    for c in plan.used_constraints() {
        c.limit(limits, values);
    }
}
