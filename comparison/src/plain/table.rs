//! The table of least slots: for every setting of the letters that a state leaves open, and every point, a slot before
//! which no win performs the point in that setting.

use super::constraints::{raise, Slots};
use super::masks::{has, inside};
use super::plan::Plan;

/// What the table needs to know of a state.
pub struct View<'a> {
    pub plan: &'a Plan,
    /// The points not yet performed.
    pub left: u8,
    /// The letters known to be true, the conditions not yet heard, the decisions not yet made.
    pub values: u8,
    pub unheard: u8,
    pub undecided: u8,
    /// The earliest and the latest slot of each point: its own if it is performed.
    pub low: Slots,
    pub cap: Slots,
    /// The letters that each point discloses.
    pub own: [u8; 8],
}

/// A row for each setting.
type Table = [Slots; 64];

/// No slot, and later than any.
const NO_SLOT: u8 = 255;

/// The row of a setting that is struck: no win comes to it.
const STRUCK: Slots = [NO_SLOT; 8];

/// Scenarios, one bit each. A scenario is named by its setting in which no open decision is true.
type Scenarios = u64;
const ALL_SCENARIOS: Scenarios = !0;

/// The setting s with the letters of the set as d has them. The remainder spares a test where a table is read.
fn set_to(s: u8, set: u8, d: u8) -> u8 {
    (s & !set | d) % 64
}

/// Whether scenario c is in the set.
fn among(set: Scenarios, c: u8) -> bool {
    set >> c & 1 == 1
}

fn struck(table: &Table, s: u8) -> bool {
    table[s as usize][0] == NO_SLOT
}

impl View<'_> {
    /// Every setting that agrees with the letters known.
    fn settings(&self) -> impl Iterator<Item = u8> + '_ {
        let unknown = self.unheard | self.undecided;
        inside(unknown).map(move |u| set_to(self.values, unknown, u))
    }

    fn scenarios(&self) -> impl Iterator<Item = u8> + '_ {
        inside(self.unheard).map(|u| set_to(self.values, self.unheard, u))
    }

    /// The settings of the scenario of s.
    fn settings_of(&self, s: u8) -> impl Iterator<Item = u8> + '_ {
        inside(self.undecided).map(move |d| set_to(s, self.undecided, d))
    }

    // The two rules that move slots up: what the constraints ask, and what cannot yet be known.

    /// Whether some point stands later than it may.
    fn too_late(&self, slots: &Slots) -> bool {
        (0..self.plan.points as usize).any(|x| self.cap[x] < slots[x])
    }

    /// The slots that the constraints ask in setting s: raised until they rest; none where some point stands too late.
    fn at_rest(&self, mut slots: Slots, s: u8) -> Option<Slots> {
        loop {
            let before = slots;
            raise(self.plan, &mut slots, s, NO_SLOT);
            if self.too_late(&slots) {
                return None;
            }
            if slots == before {
                return Some(slots);
            }
        }
    }

    /// The constraint rule for setting s, from these slots on. A setting in which some point would stand too late is
    /// struck.
    fn keep_constraints(&self, table: &mut Table, s: u8, slots: Slots) {
        table[s as usize] = self.at_rest(slots, s).unwrap_or(STRUCK);
    }

    /// A slot before which setting s cannot have point x, by the flip rule for the unheard condition q: x comes later
    /// than the point of q, or as in some setting with q the other way round, in which the decision that x discloses is
    /// the same and the other open ones are free. None where the table says as much already.
    fn flip_slot(&self, table: &Table, s: u8, q: u8, x: u8) -> Option<u8> {
        let here = table[s as usize][x as usize];
        let first = table[s as usize][self.plan.letter[q as usize].point as usize];
        if first < here || first == NO_SLOT {
            return None;
        }
        let free = self.undecided & !self.own[x as usize];
        let turned = s ^ 1 << q;
        let mut least = first + 1;
        for d in inside(free) {
            least = least.min(table[set_to(turned, free, d) as usize][x as usize]);
            if least <= here {
                return None;
            }
        }
        Some(least)
    }

    /// The flip rule for one setting, condition and point. Says whether the table changes.
    fn flip(&self, table: &mut Table, s: u8, q: u8, x: u8) -> bool {
        let Some(slot) = self.flip_slot(table, s, q, x) else { return false };
        if self.cap[x as usize] < slot {
            table[s as usize] = STRUCK;
        } else {
            table[s as usize][x as usize] = slot;
        }
        true
    }

    /// .. for each condition that is not yet heard, and each point that is left.
    fn flip_conditions(&self, table: &mut Table, s: u8) -> bool {
        let mut any = false;
        for q in (0..6).filter(|&q| has(self.unheard, q)) {
            for x in (0..8).filter(|&x| has(self.left, x)) {
                any |= self.flip(table, s, q, x);
            }
        }
        any
    }

    // The rules applied again and again, until they rest or no win is left.

    /// Both rules for setting s, whose row rests under the constraint rule before. Says whether the table changes.
    fn tighten_setting(&self, table: &mut Table, s: u8) -> bool {
        if struck(table, s) || !self.flip_conditions(table, s) {
            return false;
        }
        if !struck(table, s) {
            self.keep_constraints(table, s, table[s as usize]);
        }
        true
    }

    /// .. for each setting of scenario c.
    fn tighten_scenario(&self, table: &mut Table, c: u8) -> bool {
        let mut any = false;
        for s in self.settings_of(c) {
            any |= self.tighten_setting(table, s);
        }
        any
    }

    /// Whether scenario c, or one that differs from it in one unheard condition, is among those that moved.
    fn near(&self, moved: Scenarios, c: u8) -> bool {
        (0..6).any(|q| has(self.unheard, q) && among(moved, c ^ 1 << q)) || among(moved, c)
    }

    /// One round over the scenarios that moved or are near one that did. Says which changed.
    fn round(&self, table: &mut Table, moved: Scenarios) -> Scenarios {
        let mut now = 0;
        for c in self.scenarios() {
            if self.near(moved | now, c) && self.tighten_scenario(table, c) {
                now |= 1 << c;
            }
        }
        now
    }

    /// How many settings are left to the scenario of s, counted up to two.
    fn remain(&self, table: &Table, s: u8) -> usize {
        self.settings_of(s).filter(|&setting| !struck(table, setting)).take(2).count()
    }

    /// Whether each of the scenarios that moved has a setting left.
    fn all_remain(&self, table: &Table, moved: Scenarios) -> bool {
        self.scenarios().all(|c| !among(moved, c) || self.remain(table, c) != 0)
    }

    /// Rounds until nothing changes. Says false where no win is left.
    fn tighten(&self, table: &mut Table, mut moved: Scenarios) -> bool {
        loop {
            moved = self.round(table, moved);
            if moved == 0 {
                return true;
            }
            if !self.all_remain(table, moved) {
                return false;
            }
        }
    }

    // Probing: a setting to which no win comes is found by assuming that one does.

    /// The other settings of the scenario of s are struck: a win comes to one setting of each scenario.
    fn assume(&self, table: &mut Table, s: u8) {
        for other in self.settings_of(s).filter(|&other| other != s) {
            table[other as usize] = STRUCK;
        }
    }

    /// Setting s is struck where no win that fits comes to it. Says whether it was.
    fn probe(&self, table: &mut Table, s: u8) -> bool {
        let mut alone = *table;
        self.assume(&mut alone, s);
        let refuted = !self.tighten(&mut alone, 1 << set_to(s, self.undecided, 0));
        if refuted {
            table[s as usize] = STRUCK;
        }
        refuted
    }

    /// Each setting is probed that is not struck and whose scenario has another. Says in which scenarios one was struck.
    fn probe_each(&self, table: &mut Table) -> Scenarios {
        let mut any = 0;
        for s in self.settings() {
            if !struck(table, s) && self.remain(table, s) == 2 && self.probe(table, s) {
                any |= 1 << set_to(s, self.undecided, 0);
            }
        }
        any
    }

    /// Probing to the end: true where no win is left.
    fn refutes(&self, table: &mut Table) -> bool {
        loop {
            let moved = self.probe_each(table);
            if moved == 0 {
                return false;
            }
            if !self.tighten(table, moved) {
                return true;
            }
        }
    }

    // The whole test.

    /// The first table: in each setting the earliest slots, moved to where the constraints ask.
    fn first_rows(&self, table: &mut Table) {
        for s in self.settings() {
            self.keep_constraints(table, s, self.low);
        }
    }

    /// Both rules and probing, as far as they go. Says whether no win is left.
    fn settle(&self, table: &mut Table) -> bool {
        self.first_rows(table);
        !self.all_remain(table, ALL_SCENARIOS)
            || !self.tighten(table, ALL_SCENARIOS)
            || self.unheard != 0 && self.undecided != 0 && self.refutes(table)
    }

    /// Says true only where there is no win.
    pub fn hopeless(&self) -> bool {
        self.settle(&mut [[0; 8]; 64])
    }

    /// For each point a slot before which no win performs it: the least in any setting.
    pub fn soonest(&self) -> Slots {
        let mut table = [[0; 8]; 64];
        self.settle(&mut table);
        let mut least = STRUCK;
        for s in self.settings() {
            for (slot, &other) in least.iter_mut().zip(&table[s as usize]) {
                *slot = other.min(*slot);
            }
        }
        least
    }
}
