//! Random plans and trees with fixed seeds, for tests and case files.

use crate::checker::{parse, strategy, Path};
use crate::plan::*;

/// A small generator (splitmix64): the same numbers everywhere.
pub struct Random(pub u64);

impl Random {
    fn draw(&mut self) -> u64 {
        self.0 = self.0.wrapping_add(0x9E37_79B9_7F4A_7C15);
        let mut z = self.0;
        z = (z ^ z >> 30).wrapping_mul(0xBF58_476D_1CE4_E5B9);
        z = (z ^ z >> 27).wrapping_mul(0x94D0_49BB_1331_11EB);
        z ^ z >> 31
    }

    /// A number below `end`.
    pub fn below(&mut self, end: usize) -> usize {
        self.draw() as usize % end
    }

    /// A number from `low` to `high`, both included.
    pub fn number(&mut self, low: i64, high: i64) -> i64 {
        low + (self.draw() % (high - low + 1) as u64) as i64
    }

    pub fn byte(&mut self, low: u8, high: u8) -> u8 {
        self.number(low as i64, high as i64) as u8
    }

    /// A mask inside `whole`.
    pub fn mask(&mut self, whole: u8) -> u8 {
        self.draw() as u8 & whole
    }

    pub fn one_in(&mut self, chances: u64) -> bool {
        self.draw().is_multiple_of(chances)
    }

    pub fn pick<'a, T>(&mut self, things: &'a [T]) -> &'a T {
        &things[self.below(things.len())]
    }
}

/// A plan without constraints, its letters on random points.
pub fn bare_plan(random: &mut Random, horizon: u8, points: u8, letters: u8) -> Plan {
    let mut plan = Plan { horizon, points, letters, ..Plan::zero() };
    let mut free: Vec<u8> = (0..points).collect();
    for i in 0..letters as usize {
        let point = free.remove(random.below(free.len()));
        plan.letter[i] = Letter { point, kind: random.byte(0, 1) };
    }
    plan
}

/// A label over at most three letters; every third is empty.
fn label(random: &mut Random, plan: &Plan) -> (u8, u8) {
    if plan.letters == 0 || random.one_in(3) {
        return (0, 0);
    }
    let need = (0..random.byte(1, 3)).fold(0, |need, _| need | 1 << random.byte(0, plan.letters - 1));
    (need, random.mask(need))
}

/// `plan` with one random constraint more.
fn constrained(random: &mut Random, plan: &Plan, low: i64, high: i64) -> Plan {
    let (from, to) = (random.byte(0, plan.points - 1), random.byte(0, plan.points - 1));
    let (need, truth) = label(random, plan);
    // A self-loop below zero breaks every schedule: rare, or most plans were hopeless.
    let low = if from == to && !random.one_in(4) { 0 } else { low };
    plan.with(Constraint { from, to, bound: random.number(low, high) as i16, need, truth })
}

/// A plan with `constraints` random constraints, the bounds about the size of the horizon.
pub fn random_plan(random: &mut Random, horizon: u8, points: u8, letters: u8, constraints: u8) -> Plan {
    let bare = bare_plan(random, horizon, points, letters);
    let reach = horizon as i64 / 2 + 1;
    (0..constraints).fold(bare, |plan, _| constrained(random, &plan, -reach, horizon as i64 + 1))
}

/// Random limits, within which a random plan is made.
pub fn small_plan(random: &mut Random, horizon: u8, points: u8, constraints: u8) -> Plan {
    let (horizon, points) = (random.byte(1, horizon), random.byte(2, points));
    let letters = random.byte(0, points.min(6));
    let constraints = random.byte(0, constraints);
    random_plan(random, horizon, points, letters, constraints)
}

/// A random tree of sound shape: some of the points left in some later slot, all of them in the last slot.
pub fn random_tree(random: &mut Random, plan: &Plan, left: u8, earliest: u8) -> Vec<u8> {
    let slot = random.byte(earliest, plan.horizon.min(earliest + 2));
    let mut points = random.mask(left) & random.mask(255);
    if points == 0 {
        points = left & left.wrapping_neg();
    }
    if slot == plan.horizon {
        points = left;
    }
    let mut tree = vec![slot, points, random.mask(plan.disclosed(points, DECISION))];
    if points != left {
        for _ in masks_inside(plan.disclosed(points, CONDITION)) {
            tree.extend(random_tree(random, plan, left & !points, slot + 1));
        }
    }
    tree
}

/// The least bound with which this constraint is kept on every path where it is relevant.
fn tight_bound(strategy: &[Path], c: &Constraint) -> Option<i16> {
    let relevant = strategy.iter().filter(|path| c.label_holds(path.scenario | path.decisions));
    relevant.map(|path| path.schedule[c.to as usize] as i16 - path.schedule[c.from as usize] as i16).max()
}

/// The plan with random constraints more that the tree keeps, most of them just so.
pub fn fit(random: &mut Random, plan: &Plan, tree: &[u8], constraints: u8) -> Plan {
    let paths = strategy(plan, &parse(plan, tree).expect("a tree of sound shape"));
    (0..constraints).fold(*plan, |plan, _| {
        let mut more = constrained(random, &plan, -20, 20);
        let c = &mut more.constraint[plan.constraints as usize];
        if let Some(tight) = tight_bound(&paths, c) {
            c.bound = tight + if random.one_in(3) { random.number(0, 3) as i16 } else { 0 };
        }
        more
    })
}
