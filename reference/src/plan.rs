//! The plan record, the refusals by number, and the judge of records (document 01, "The plan").

/// A refusal is its number in document 01.
pub type Refusal = u8;
pub const PLAN_TEXT: Refusal = 1;
pub const HEAD: Refusal = 2;
pub const LETTER: Refusal = 3;
pub const CONSTRAINT: Refusal = 4;
pub const TREE_TEXT: Refusal = 5;
pub const SHAPE: Refusal = 6;
pub const BROKEN: Refusal = 7;
pub const MASK: Refusal = 8;
pub const AFTER_DONE: Refusal = 9;
pub const BUFFER: Refusal = 10;
pub const HOPELESS: Refusal = 11;

pub const CONDITION: u8 = 0;
pub const DECISION: u8 = 1;

/// The slot of each point; entries past the plan's points are zero.
pub type Schedule = [u8; 8];

#[derive(Clone, Copy, PartialEq, Eq, Debug, Default)]
pub struct Letter {
    pub point: u8,
    pub kind: u8,
}

/// Where the label holds, the time of `to` minus the time of `from` is at most `bound`.
#[derive(Clone, Copy, PartialEq, Eq, Debug, Default)]
pub struct Constraint {
    pub from: u8,
    pub to: u8,
    pub bound: i16,
    pub need: u8,
    pub truth: u8,
}

impl Constraint {
    pub fn label_holds(&self, scenario: u8) -> bool {
        (0..8).all(|i| !has(self.need, i) || has(scenario, i) == has(self.truth, i))
    }

    pub fn keeps(&self, schedule: &Schedule) -> bool {
        schedule[self.to as usize] as i32 - schedule[self.from as usize] as i32 <= self.bound as i32
    }
}

#[derive(Clone, Copy, PartialEq, Eq, Debug)]
pub struct Plan {
    pub horizon: u8,
    pub points: u8,
    pub letters: u8,
    pub constraints: u8,
    pub letter: [Letter; 6],
    pub constraint: [Constraint; 64],
}

/// Bit i of a mask.
pub fn has(mask: u8, i: u8) -> bool {
    mask >> i & 1 == 1
}

/// Is each bit of `part` set in `whole`?
pub fn inside(part: u8, whole: u8) -> bool {
    part & !whole == 0
}

/// The mask of the first `count` bits.
pub fn first_bits(count: u8) -> u8 {
    (0..count).map(|i| 1 << i).sum()
}

/// All masks inside `whole`, as rising numbers.
pub fn masks_inside(whole: u8) -> impl Iterator<Item = u8> {
    (0..=255).filter(move |&part| inside(part, whole))
}

impl Plan {
    pub fn zero() -> Plan {
        Plan::from_bytes(&[])
    }

    /// The record of 400 bytes; where the bytes are fewer, the rest is zero.
    pub fn from_bytes(bytes: &[u8]) -> Plan {
        let at = |i: usize| bytes.get(i).copied().unwrap_or(0);
        let letter = std::array::from_fn(|i| Letter { point: at(4 + 2 * i), kind: at(5 + 2 * i) });
        let constraint = std::array::from_fn(|i| {
            let byte = |k: usize| at(16 + 6 * i + k);
            let bound = i16::from_be_bytes([byte(2), byte(3)]);
            Constraint { from: byte(0), to: byte(1), bound, need: byte(4), truth: byte(5) }
        });
        Plan { horizon: at(0), points: at(1), letters: at(2), constraints: at(3), letter, constraint }
    }

    pub fn to_bytes(&self) -> Vec<u8> {
        let mut bytes = vec![self.horizon, self.points, self.letters, self.constraints];
        for l in &self.letter {
            bytes.extend([l.point, l.kind]);
        }
        for c in &self.constraint {
            let [high, low] = c.bound.to_be_bytes();
            bytes.extend([c.from, c.to, high, low, c.need, c.truth]);
        }
        bytes
    }

    /// The plan with one constraint more.
    pub fn with(&self, constraint: Constraint) -> Plan {
        let mut plan = *self;
        plan.constraint[plan.constraints as usize] = constraint;
        plan.constraints += 1;
        plan
    }

    pub fn all_points(&self) -> u8 {
        first_bits(self.points)
    }

    pub fn all_letters(&self) -> u8 {
        first_bits(self.letters)
    }

    /// The letters of this kind that these points disclose.
    pub fn disclosed(&self, points: u8, kind: u8) -> u8 {
        (0..self.letters)
            .filter(|&i| self.letter[i as usize].kind == kind && has(points, self.letter[i as usize].point))
            .map(|i| 1 << i)
            .sum()
    }

    pub fn used_constraints(&self) -> &[Constraint] {
        &self.constraint[..self.constraints as usize]
    }

    /// Definition 4, and every slot within the horizon: is the schedule feasible in this scenario?
    pub fn feasible(&self, schedule: &Schedule, scenario: u8) -> bool {
        schedule[..self.points as usize].iter().all(|&slot| slot <= self.horizon)
            && self.used_constraints().iter().all(|c| !c.label_holds(scenario) || c.keeps(schedule))
    }

    pub fn head_fits(&self) -> bool {
        self.horizon <= 63
            && (1..=8).contains(&self.points)
            && self.letters <= 6
            && self.letters <= self.points
            && self.constraints <= 64
    }

    /// Letter i, whose point none of the letters before it may have taken.
    pub fn letter_fits(&self, i: usize) -> bool {
        let l = self.letter[i];
        l.point < self.points && l.kind <= 1 && self.letter[..i].iter().all(|before| before.point != l.point)
    }

    pub fn constraint_fits(&self, i: usize) -> bool {
        let c = self.constraint[i];
        c.from < self.points
            && c.to < self.points
            && (-999..=999).contains(&c.bound)
            && inside(c.need, self.all_letters())
            && inside(c.truth, c.need)
    }

    /// Records: 2, 3, 4. No entry is looked at before the counts are known to fit.
    pub fn judge(&self) -> Result<(), Refusal> {
        if !self.head_fits() {
            return Err(HEAD);
        }
        let (letters, constraints) = (self.letters as usize, self.constraints as usize);
        let unused_letters = &self.letter[letters..];
        if !(0..letters).all(|i| self.letter_fits(i)) || unused_letters.iter().any(|&l| l != Letter::default()) {
            return Err(LETTER);
        }
        let unused = &self.constraint[constraints..];
        if !(0..constraints).all(|i| self.constraint_fits(i)) || unused.iter().any(|&c| c != Constraint::default()) {
            return Err(CONSTRAINT);
        }
        Ok(())
    }
}
