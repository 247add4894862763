//! How many moves a search tries that sees a constraint broken only when nothing about it is open: it keeps the comparison
//! with the reference to plans that the reference settles soon. Neither the proved search nor the plain one needs that;
//! tests/full.rs compares those two on plans of full size.

use reference::plan::*;

#[derive(Clone)]
struct State {
    next: u8,
    left: u8,
    times: Schedule,
    known: u8,
    values: u8,
}

/// The plan, and how many more moves may be tried.
struct Game<'a> {
    plan: &'a Plan,
    budget: usize,
}

/// The number of moves tried until the plan is settled, or nothing where that takes more than the budget. A state is given
/// up only where a constraint is broken whose points are both performed and whose letters are all known.
pub fn moves_tried(plan: &Plan, budget: usize) -> Option<usize> {
    let start = State { next: 0, left: plan.all_points(), times: [0; 8], known: 0, values: 0 };
    let mut game = Game { plan, budget };
    game.agent(&start)?;
    Some(budget - game.budget)
}

impl Game<'_> {
    /// Is the game won from here? Nothing where the budget is used up.
    fn agent(&mut self, state: &State) -> Option<bool> {
        for slot in state.next..=self.plan.horizon {
            for points in masks_inside(state.left).filter(|&points| points != 0) {
                for choices in masks_inside(self.plan.disclosed(points, DECISION)) {
                    self.budget = self.budget.checked_sub(1)?;
                    if self.world(state, slot, points, choices)? {
                        return Some(true);
                    }
                }
            }
        }
        Some(false)
    }

    fn world(&mut self, before: &State, slot: u8, points: u8, choices: u8) -> Option<bool> {
        let mut after = State { next: slot + 1, left: before.left & !points, ..before.clone() };
        (0..8).filter(|&x| has(points, x)).for_each(|x| after.times[x as usize] = slot);
        let heard = self.plan.disclosed(points, CONDITION);
        after.known |= heard | self.plan.disclosed(points, DECISION);
        for outcome in masks_inside(heard) {
            let state = State { values: before.values | choices | outcome, ..after.clone() };
            if self.broken(&state) || state.left != 0 && !self.agent(&state)? {
                return Some(false);
            }
        }
        Some(true)
    }

    fn broken(&self, state: &State) -> bool {
        self.plan.used_constraints().iter().any(|c| {
            !has(state.left, c.from)
                && !has(state.left, c.to)
                && inside(c.need, state.known)
                && (state.values ^ c.truth) & c.need == 0
                && !c.keeps(&state.times)
        })
    }
}
