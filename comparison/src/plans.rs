//! Random plans and plan records, well formed and faulty.

use crate::gauge::moves_tried;
use crate::made::any_bytes;
use crate::trees::bare_tree;
use reference::known::k;
use reference::plan::*;
use reference::random::*;
use reference::search::search;

/// Bounds at and around every limit.
pub const BOUNDS: [i16; 16] = [0, 1, -1, 2, -2, 63, -63, 64, -64, 255, 256, -256, 998, -998, 999, -999];

/// Bounds past the limits.
const BAD_BOUNDS: [i16; 12] = [1000, 1000, 1000, -1000, -1000, -1000, 1001, 1255, -1024, 32767, -32768, -31769];

/// A well-formed plan.
pub fn any_plan(random: &mut Random) -> Plan {
    match random.below(12) {
        0 => k(1 + random.below(10)),
        1 | 2 => small_plan(random, 4, 4, 9),
        3 | 4 => small_plan(random, 63, 8, 20),
        5 => full_plan(random),
        6 | 7 => scheduled_plan(random),
        8 => spoilt_setting(random),
        _ => edge_plan(random),
    }
}

/// A plan that cannot be kept where all its letters have one setting, whatever it is elsewhere.
fn spoilt_setting(random: &mut Random) -> Plan {
    let (horizon, points) = (random.byte(0, 63), random.byte(1, 8));
    let letters = points.min(6) - random.byte(0, points.min(6) / 2);
    let plan = bare_plan(random, horizon, points, letters);
    let (from, to, need) = (random.byte(0, points - 1), random.byte(0, points - 1), plan.all_letters());
    let bound = if from == to { -1 } else { -1 - horizon as i16 };
    plan.with(Constraint { from, to, bound, need, truth: random.mask(need) })
}

/// Eight points, many letters and up to 64 constraints.
fn full_plan(random: &mut Random) -> Plan {
    let (horizon, letters, constraints) = (random.byte(3, 63), random.byte(3, 6), random.byte(8, 64));
    random_plan(random, horizon, 8, letters, constraints)
}

/// Each count at or near its limits, the bounds too.
pub fn edge_plan(random: &mut Random) -> Plan {
    let (horizon, points) = (*random.pick(&[0, 1, 2, 30, 62, 63]), *random.pick(&[1, 2, 5, 6, 7, 8]));
    let letters = *random.pick(&[0, 1, 2, 5, 6]).min(&points);
    let constraints = *random.pick(&[0, 1, 2, 5, 63, 64]);
    let mut plan = random_plan(random, horizon, points, letters, constraints);
    for c in &mut plan.constraint[..constraints as usize] {
        if random.one_in(2) {
            c.bound = *random.pick(&BOUNDS);
        }
    }
    plan
}

/// A plan whose constraints are kept, most of them just so, by one schedule; now and then one of them no more.
pub fn scheduled_plan(random: &mut Random) -> Plan {
    let (horizon, points) = (random.byte(0, 63), random.byte(1, 8));
    let (letters, constraints) = (random.byte(0, points.min(6)), random.byte(1, 64));
    let mut plan = random_plan(random, horizon, points, letters, constraints);
    let slots: Schedule = std::array::from_fn(|_| random.byte(0, horizon));
    for c in &mut plan.constraint[..constraints as usize] {
        let slack = if random.one_in(2) { 0 } else { random.number(0, 5) };
        c.bound = (slots[c.to as usize] as i64 - slots[c.from as usize] as i64 + slack) as i16;
    }
    if random.one_in(3) {
        tighten(random, &mut plan);
    }
    plan
}

/// One bound one less.
pub fn tighten(random: &mut Random, plan: &mut Plan) {
    if plan.constraints > 0 {
        let c = &mut plan.constraint[random.below(plan.constraints as usize)];
        c.bound = (c.bound - 1).max(-999);
    }
}

// ---- plans whose search is compared with the reference's ----

/// Is the plan settled within this many moves, by a search that gives up little? The reference's, which has a memo, then
/// settles it soon.
pub fn settled(plan: &Plan, budget: usize) -> bool {
    moves_tried(plan, budget).is_some()
}

/// A well-formed plan that is settled within the budget.
pub fn searchable_plan(random: &mut Random, budget: usize) -> Plan {
    loop {
        let plan = match random.below(16) {
            0 => k(1 + random.below(10)),
            1..=4 => small_plan(random, 4, 4, 9),
            5 | 6 => small_plan(random, 6, 5, 12),
            7 => edge_plan(random),
            8 => spoilt_setting(random),
            9..=11 => guarded_choices(random),
            12 => longest_plan(random),
            _ => grown_plan(random, budget),
        };
        if settled(&plan, budget) {
            return plan;
        }
    }
}

/// Self-loops of -1 forbid some values of the letters: the choices must look at what was heard.
fn guarded_choices(random: &mut Random) -> Plan {
    let (horizon, points) = (random.byte(1, 5), random.byte(2, 5));
    let letters = random.byte(2, points);
    let plan = bare_plan(random, horizon, points, letters);
    (0..random.byte(1, 6)).fold(plan, |plan, _| {
        let point = random.byte(0, points - 1);
        let need = 1 << random.byte(0, letters - 1) | 1 << random.byte(0, letters - 1);
        plan.with(Constraint { from: point, to: point, bound: -1, need, truth: random.mask(need) })
    })
}

/// A plan of any size: few constraints first, then the tree that the search finds, then up to 64 constraints that this
/// tree keeps, most of them just so; the search must find it again. Now and then one bound is tightened afterwards.
pub fn grown_plan(random: &mut Random, budget: usize) -> Plan {
    let (horizon, points) = (random.byte(7, 63), random.byte(4, 8));
    let letters = random.byte(0, points.min(6));
    let few = random.byte(0, 3);
    let mut plan = random_plan(random, horizon, points, letters, few);
    if settled(&plan, budget) {
        if let Ok(tree) = search(&plan, 573) {
            let more = *random.pick(&[0, 3, 10, 30, 64 - few]);
            plan = fit(random, &plan, &tree, more);
        }
    }
    if random.one_in(3) {
        tighten(random, &mut plan);
    }
    plan
}

/// A plan with six letters and 64 constraints, which has the longest text; its tree is found at once. One time in two all
/// letters are conditions of the first points, and the tree has 191 nodes.
pub fn longest_plan(random: &mut Random) -> Plan {
    let horizon = random.byte(7, 63);
    let mut plan = bare_plan(random, horizon, 8, 6);
    if random.one_in(2) {
        (0..6).for_each(|i| plan.letter[i] = Letter { point: i as u8, kind: CONDITION });
    }
    let tree = bare_tree(&plan);
    fit(random, &plan, &tree, 64)
}

// ---- plans of full size, which the reference's search need not finish ----

/// Eight points, many letters, horizon 63 or less: random constraints, the fewer the more often the plan can be won.
pub fn large_plan(random: &mut Random) -> Plan {
    let (horizon, letters) = (*random.pick(&[31, 47, 62, 63, 63]), random.byte(2, 6));
    let constraints = *random.pick(&[4, 8, 12, 16, 24, 40, 64]);
    random_plan(random, horizon, 8, letters, constraints)
}

/// Constraints that a random tree keeps, most of them just so; one time in two some of them no more.
pub fn fitted_plan(random: &mut Random) -> Plan {
    let (horizon, letters) = (random.byte(30, 63), random.byte(2, 6));
    let bare = bare_plan(random, horizon, 8, letters);
    let tree = random_tree(random, &bare, bare.all_points(), 0);
    let constraints = random.byte(8, 64);
    let mut plan = fit(random, &bare, &tree, constraints);
    if random.one_in(2) {
        (0..random.byte(1, 3)).for_each(|_| tighten(random, &mut plan));
    }
    plan
}

/// Every constraint has a label of up to three letters: what can be done depends on what is not yet known.
pub fn labelled_plan(random: &mut Random) -> Plan {
    let (horizon, letters) = (random.byte(30, 63), random.byte(3, 6));
    let plan = bare_plan(random, horizon, 8, letters);
    (0..random.byte(10, 64)).fold(plan, |plan, _| {
        let (from, step) = (random.byte(0, 7), random.byte(1, 7));
        let need = (0..3).fold(0, |need, _| need | 1 << random.byte(0, letters - 1));
        let bound = random.number(-20, 20) as i16;
        plan.with(Constraint { from, to: (from + step) % 8, bound, need, truth: random.mask(need) })
    })
}

// ---- plans that take a table of differences to its limits ----

/// 64 constraints, of which the last seven ask each point nine slots behind the one before it and the others nothing.
pub fn chained(horizon: u8) -> Plan {
    let behind = (0..7).map(|x| Constraint { from: x + 1, to: x, bound: -9, ..Constraint::default() });
    let constraints = [Constraint::default(); 57].into_iter().chain(behind);
    constraints.fold(Plan { horizon, points: 8, ..Plan::zero() }, |plan, c| plan.with(c))
}

/// Each two points, and each point with itself, under the lowest bound.
pub fn lowest() -> Plan {
    let pairs = (0..64).map(|pair| Constraint { from: pair / 8, to: pair % 8, bound: -999, ..Constraint::default() });
    pairs.fold(Plan { horizon: 63, points: 8, ..Plan::zero() }, |plan, c| plan.with(c))
}

// ---- faulty records ----

/// The bytes of a plan record: mostly well formed, else with a fault or a few, else any bytes.
pub fn record_bytes(random: &mut Random, plan: &Plan) -> Vec<u8> {
    let faults = match random.below(16) {
        0..=7 => 0,
        8..=12 => 1,
        13 => 2,
        14 => 3,
        _ if random.one_in(4) => return any_bytes(random, 400),
        _ => 8,
    };
    let mut bytes = plan.to_bytes();
    (0..faults).for_each(|_| fault(random, &mut bytes));
    bytes
}

/// One field of the record changed, mostly so that it is out of its range.
fn fault(random: &mut Random, bytes: &mut [u8]) {
    match random.below(10) {
        0 | 1 => head_fault(random, bytes),
        2..=4 => letter_fault(random, bytes),
        5..=7 => constraint_fault(random, bytes),
        8 => unused_fault(random, bytes),
        _ => bytes[random.below(400)] = random.mask(255),
    }
}

fn head_fault(random: &mut Random, bytes: &mut [u8]) {
    let (points, letters, constraints) = (bytes[1], bytes[2], bytes[3]);
    match random.below(4) {
        0 => bytes[0] = *random.pick(&[64, 65, 127, 128, 255]),
        1 => bytes[1] = *random.pick(&[0, 9, 10, 255, letters.wrapping_sub(1), letters, points.wrapping_sub(1)]),
        2 => {
            bytes[2] =
                *random.pick(&[7, 8, 255, points.wrapping_add(1), letters.wrapping_sub(1), letters.wrapping_add(1)])
        }
        _ => bytes[3] = *random.pick(&[65, 66, 128, 255, constraints.wrapping_sub(1), constraints.wrapping_add(1)]),
    }
}

/// A used letter with a bad point, a point already taken or a bad kind; with no letter in use, an unused one.
fn letter_fault(random: &mut Random, bytes: &mut [u8]) {
    let (points, letters) = (bytes[1], bytes[2].min(6) as usize);
    if letters == 0 {
        return unused_fault(random, bytes);
    }
    let (one, other) = (random.below(letters), random.below(letters));
    match random.below(3) {
        0 => bytes[4 + 2 * one] = *random.pick(&[points, points.wrapping_add(1), 8, 128, 255]),
        1 => bytes[4 + 2 * one] = bytes[4 + 2 * other],
        _ => bytes[5 + 2 * one] = *random.pick(&[2, 3, 128, 255]),
    }
}

/// A used constraint with a bad point, bound or mask; with no constraint in use, an unused one.
fn constraint_fault(random: &mut Random, bytes: &mut [u8]) {
    let (points, letters, constraints) = (bytes[1], bytes[2], bytes[3].min(64) as usize);
    if constraints == 0 {
        return unused_fault(random, bytes);
    }
    let chosen = if random.one_in(3) { constraints - 1 } else { random.below(constraints) };
    let (c, bit) = (&mut bytes[16 + 6 * chosen..22 + 6 * chosen], 1 << random.byte(0, 7));
    match random.below(6) {
        0 => c[0] = *random.pick(&[points, points.wrapping_add(1), 8, 255]),
        1 => c[1] = *random.pick(&[points, points.wrapping_add(1), 8, 255]),
        2 | 3 => c[2..4].copy_from_slice(&any_bound(random).to_be_bytes()),
        4 => c[4] |= *random.pick(&[1u8.checked_shl(letters as u32).unwrap_or(128), 64, 128]),
        _ => c[5] |= *random.pick(&[!c[4] & bit, !c[4] & 63, 64, 128]),
    }
}

fn any_bound(random: &mut Random) -> i16 {
    match random.below(4) {
        0 => *random.pick(&BOUNDS),
        1 => random.number(i16::MIN as i64, i16::MAX as i64) as i16,
        _ => *random.pick(&BAD_BOUNDS),
    }
}

/// A byte of an unused letter or constraint that is not zero.
fn unused_fault(random: &mut Random, bytes: &mut [u8]) {
    let (letters, constraints) = (bytes[2].min(6) as usize, bytes[3].min(64) as usize);
    let first = if random.one_in(2) { 4 + 2 * letters } else { 16 + 6 * constraints };
    let end = if first < 16 { 16 } else { 400 };
    if first < end {
        let place = if random.one_in(2) {
            first + random.below((end - first).min(6))
        } else {
            first + random.below(end - first)
        };
        bytes[place] = *random.pick(&[1, 1, 2, 128, 255]);
    }
}
