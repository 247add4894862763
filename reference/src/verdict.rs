//! Fixed outcomes and the screen (document 01, "Fixed outcomes and the screen").

use crate::plan::*;

/// The earliest slot of each point over all feasible schedules, by looking at every schedule within the horizon.
pub fn least_by_enumeration(plan: &Plan, scenario: u8) -> Option<Schedule> {
    let points = plan.points as usize;
    let mut least: Option<Schedule> = None;
    let mut schedule = [0; 8];
    loop {
        if plan.feasible(&schedule, scenario) {
            let so_far = least.unwrap_or(schedule);
            least = Some(std::array::from_fn(|x| so_far[x].min(schedule[x])));
        }
        // The next schedule, as one counts: the first point that can still grow does, those before it start again.
        let Some(grows) = (0..points).find(|&x| schedule[x] < plan.horizon) else { break };
        schedule[..grows].fill(0);
        schedule[grows] += 1;
    }
    if let Some(schedule) = &least {
        assert!(plan.feasible(schedule, scenario), "the earliest slots together are a schedule");
    }
    least
}

/// The same by raising slots from zero: a relevant constraint keeps `from` no earlier than `to` minus the bound.
pub fn least_by_fixpoint(plan: &Plan, scenario: u8) -> Option<Schedule> {
    let mut slots = [0i32; 8];
    loop {
        let mut raised = false;
        for c in plan.used_constraints().iter().filter(|c| c.label_holds(scenario)) {
            let lowest = slots[c.to as usize] - c.bound as i32;
            if slots[c.from as usize] < lowest {
                slots[c.from as usize] = lowest;
                raised = true;
            }
            if lowest > plan.horizon as i32 {
                return None;
            }
        }
        if !raised {
            return Some(slots.map(|slot| slot as u8));
        }
    }
}

/// Few enough schedules to look at each.
pub fn tiny(plan: &Plan) -> bool {
    (plan.horizon as u64 + 1).pow(plan.points as u32) <= 2000
}

fn least(plan: &Plan, scenario: u8) -> Option<Schedule> {
    if tiny(plan) {
        least_by_enumeration(plan, scenario)
    } else {
        least_by_fixpoint(plan, scenario)
    }
}

/// 2, 3, 4, 8; else the least schedule, or none.
pub fn verdict(plan: &Plan, mask: u8) -> Result<Option<Schedule>, Refusal> {
    plan.judge()?;
    if !inside(mask, plan.all_letters()) {
        return Err(MASK);
    }
    Ok(least(plan, mask))
}

/// 2, 3, 4; else whether every setting of all letters has a schedule.
pub fn screen(plan: &Plan) -> Result<bool, Refusal> {
    plan.judge()?;
    Ok(masks_inside(plan.all_letters()).all(|setting| least(plan, setting).is_some()))
}
