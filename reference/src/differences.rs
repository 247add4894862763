//! The table of differences (document 02, card 2): how far apart two points can be, over all schedules.

use crate::plan::*;
use crate::verdict::tiny;

/// Row X, column Y: the largest value of time of Y minus time of X; rows and columns of unused points are zero.
pub type Table = [[i16; 8]; 8];

/// Every feasible schedule, by looking at every schedule within the horizon: its slots are the digits of a number.
pub fn schedules(plan: &Plan, scenario: u8) -> Vec<Schedule> {
    let (slots, points) = (plan.horizon as usize + 1, plan.points as usize);
    let slot = |number: usize, x: usize| if x < points { number / slots.pow(x as u32) % slots } else { 0 };
    (0..slots.pow(plan.points as u32))
        .map(|number| std::array::from_fn(|x| slot(number, x) as u8))
        .filter(|schedule| plan.feasible(schedule, scenario))
        .collect()
}

/// The largest value of time of Y minus time of X over these schedules; none where there are none.
fn largest(schedules: &[Schedule], x: usize, y: usize) -> Option<i16> {
    schedules.iter().map(|schedule| schedule[y] as i16 - schedule[x] as i16).max()
}

/// Row X over these schedules; zeros past the points.
fn row(schedules: &[Schedule], x: usize, points: usize) -> Option<[i16; 8]> {
    let mut row = [0; 8];
    for (y, entry) in row[..points].iter_mut().enumerate() {
        *entry = largest(schedules, x, y)?;
    }
    Some(row)
}

/// In row X the largest differences over the schedules listed for point X; none where a list is empty.
fn table(listed: &[Vec<Schedule>]) -> Option<Table> {
    let mut table = [[0; 8]; 8];
    for (x, schedules) in listed.iter().enumerate() {
        table[x] = row(schedules, x, listed.len())?;
    }
    Some(table)
}

/// The table over all feasible schedules.
fn table_by_enumeration(plan: &Plan, scenario: u8) -> Option<Table> {
    table(&vec![schedules(plan, scenario); plan.points as usize])
}

/// Each relevant constraint in turn keeps `to` no later than `from` plus the bound.
fn lower(plan: &Plan, scenario: u8, slots: &mut [i32; 8]) {
    for c in plan.used_constraints().iter().filter(|c| c.label_holds(scenario)) {
        let highest = slots[c.from as usize] + c.bound as i32;
        slots[c.to as usize] = slots[c.to as usize].min(highest);
    }
}

/// The latest slot of each point over the feasible schedules that have point X in this slot, or none where there is no
/// such schedule. Slots are lowered from the horizon: no slot falls below that of such a schedule, and where nothing is
/// lowered any more the slots are one.
fn latest_with(plan: &Plan, scenario: u8, x: usize, slot: u8) -> Option<Schedule> {
    let mut slots = [0i32; 8];
    slots[..plan.points as usize].fill(plan.horizon as i32);
    slots[x] = slot as i32;
    loop {
        let before = slots;
        lower(plan, scenario, &mut slots);
        if slots[x] < slot as i32 || slots.iter().any(|&slot| slot < 0) {
            return None;
        }
        if slots == before {
            return Some(slots.map(|slot| slot as u8));
        }
    }
}

/// The same by lowering: with point X in any one slot, point Y is farthest behind it in the latest schedule.
pub fn table_by_lowering(plan: &Plan, scenario: u8) -> Option<Table> {
    let latest = |x| (0..=plan.horizon).filter_map(|slot| latest_with(plan, scenario, x, slot)).collect();
    table(&(0..plan.points as usize).map(latest).collect::<Vec<_>>())
}

/// 2, 3, 4, 8; else the table, or none.
pub fn differences(plan: &Plan, mask: u8) -> Result<Option<Table>, Refusal> {
    plan.judge()?;
    if !inside(mask, plan.all_letters()) {
        return Err(MASK);
    }
    Ok(if tiny(plan) { table_by_enumeration(plan, mask) } else { table_by_lowering(plan, mask) })
}
