//! The verdict under fixed outcomes, the least schedule or none, and the screen.

use super::constraints::{raise, Slots};
use super::judge::judge;
use super::masks::{first, subset};
use super::plan::{Plan, Refusal, MASK};

/// The slots at which the raise rests, from all zeros, one slot past the horizon at most.
fn least_slots(plan: &Plan, values: u8) -> Slots {
    let mut slots = [0; 8];
    loop {
        let before = slots;
        raise(plan, &mut slots, values, plan.horizon + 1);
        if slots == before {
            return slots;
        }
    }
}

/// The least schedule of a plan that was judged, unless some point stands past the horizon.
fn decide(plan: &Plan, values: u8) -> Option<Slots> {
    let slots = least_slots(plan, values);
    let used = &slots[..plan.points as usize];
    used.iter().all(|&slot| slot <= plan.horizon).then_some(slots)
}

/// The least schedule where the letters of the mask `values` are true and the others false, or none; or 2, 3, 4 (the
/// plan), 8 (a letter that the plan lacks).
pub fn least_schedule(plan: &Plan, values: u8) -> Result<Option<Slots>, Refusal> {
    judge(plan)?;
    if !subset(values, first(plan.letters)) {
        return Err(MASK);
    }
    Ok(decide(plan, values))
}

/// Whether every setting of all letters has a schedule; or 2, 3, 4.
pub fn screen(plan: &Plan) -> Result<bool, Refusal> {
    judge(plan)?;
    Ok((0..1 << plan.letters).all(|values| decide(plan, values).is_some()))
}
