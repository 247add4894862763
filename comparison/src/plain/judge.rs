//! The judge of a plan record: fine, or the first of document 01's refusals 2, 3, 4.

use super::masks::{first, subset};
use super::plan::{Constraint, Letter, Plan, Refusal, CONSTRAINTS, DECISION, HEAD, LETTERS};

/// Whether the four head values are in their ranges.
pub fn head_fine(plan: &Plan) -> bool {
    plan.horizon <= 63
        && (1..=8).contains(&plan.points)
        && plan.letters <= 6
        && plan.letters <= plan.points
        && plan.constraints <= 64
}

/// Whether l can be letter i: a point of the plan that no letter before it has, and a known kind.
pub fn letter_fine(plan: &Plan, i: usize, l: &Letter) -> bool {
    l.point < plan.points && l.kind <= DECISION && plan.letter[..i].iter().all(|before| before.point != l.point)
}

/// Whether c can be a constraint of the plan.
pub fn constraint_fine(plan: &Plan, c: &Constraint) -> bool {
    c.from < plan.points
        && c.to < plan.points
        && (-999..=999).contains(&c.bound)
        && subset(c.need, first(plan.letters))
        && subset(c.truth, c.need)
}

/// Whether each letter is fine where it is used, and zero where not.
fn letters_fine(plan: &Plan) -> bool {
    let (used, unused) = plan.letter.split_at(plan.letters as usize);
    used.iter().enumerate().all(|(i, l)| letter_fine(plan, i, l)) && unused.iter().all(|l| *l == Letter::default())
}

/// Whether each constraint is fine where it is used, and zero where not.
fn constraints_fine(plan: &Plan) -> bool {
    let (used, unused) = plan.constraint.split_at(plan.constraints as usize);
    used.iter().all(|c| constraint_fine(plan, c)) && unused.iter().all(|c| *c == Constraint::default())
}

pub fn judge(plan: &Plan) -> Result<(), Refusal> {
    if !head_fine(plan) {
        return Err(HEAD);
    }
    if !letters_fine(plan) {
        return Err(LETTERS);
    }
    if !constraints_fine(plan) {
        return Err(CONSTRAINTS);
    }
    Ok(())
}
