//! The plan record, its letters as masks, and the numbers of the refusals.

use super::masks::has;

/// A refusal is its number in document 01.
pub type Refusal = u8;
pub const PLAN_TEXT: Refusal = 1;
pub const HEAD: Refusal = 2;
pub const LETTERS: Refusal = 3;
pub const CONSTRAINTS: Refusal = 4;
pub const TREE_TEXT: Refusal = 5;
pub const SHAPE: Refusal = 6;
pub const BROKEN: Refusal = 7;
pub const MASK: Refusal = 8;
pub const AFTER_DONE: Refusal = 9;
pub const BUFFER: Refusal = 10;
pub const HOPELESS: Refusal = 11;

pub const CONDITION: u8 = 0;
pub const DECISION: u8 = 1;

/// The length of a record as bytes.
pub const PLAN_BYTES: usize = 400;
const LETTERS_AT: usize = 4;
const CONSTRAINTS_AT: usize = 16;

/// A letter: its disclosing point, and its kind.
#[derive(Clone, Copy, PartialEq, Eq, Debug, Default)]
pub struct Letter {
    pub point: u8,
    pub kind: u8,
}

/// Time of `to` minus time of `from` is at most `bound` where each letter of `need` has the value that `truth` shows.
#[derive(Clone, Copy, PartialEq, Eq, Debug, Default)]
pub struct Constraint {
    pub from: u8,
    pub to: u8,
    pub bound: i16,
    pub need: u8,
    pub truth: u8,
}

/// Four counts, the letters and the constraints; in a well-formed plan the entries past the counts are zero.
#[derive(Clone, PartialEq, Eq, Debug)]
pub struct Plan {
    pub horizon: u8,
    pub points: u8,
    pub letters: u8,
    pub constraints: u8,
    pub letter: [Letter; 6],
    pub constraint: [Constraint; 64],
}

impl Plan {
    /// The plan with this head and nothing else.
    pub fn with_head([horizon, points, letters, constraints]: [u8; 4]) -> Plan {
        let (letter, constraint) = ([Letter::default(); 6], [Constraint::default(); 64]);
        Plan { horizon, points, letters, constraints, letter, constraint }
    }

    pub fn from_bytes(bytes: &[u8; PLAN_BYTES]) -> Plan {
        let mut plan = Plan::with_head([bytes[0], bytes[1], bytes[2], bytes[3]]);
        for (letter, b) in plan.letter.iter_mut().zip(bytes[LETTERS_AT..CONSTRAINTS_AT].chunks_exact(2)) {
            *letter = Letter { point: b[0], kind: b[1] };
        }
        for (constraint, b) in plan.constraint.iter_mut().zip(bytes[CONSTRAINTS_AT..].chunks_exact(6)) {
            *constraint = Constraint::from_bytes([b[0], b[1], b[2], b[3], b[4], b[5]]);
        }
        plan
    }

    pub fn to_bytes(&self) -> [u8; PLAN_BYTES] {
        let mut bytes = [0; PLAN_BYTES];
        bytes[..LETTERS_AT].copy_from_slice(&[self.horizon, self.points, self.letters, self.constraints]);
        for (b, letter) in bytes[LETTERS_AT..CONSTRAINTS_AT].chunks_exact_mut(2).zip(&self.letter) {
            b.copy_from_slice(&[letter.point, letter.kind]);
        }
        for (b, constraint) in bytes[CONSTRAINTS_AT..].chunks_exact_mut(6).zip(&self.constraint) {
            b.copy_from_slice(&constraint.to_bytes());
        }
        bytes
    }

    /// The letters in use, for a head that is in its ranges.
    pub fn used_letters(&self) -> &[Letter] {
        &self.letter[..self.letters as usize]
    }

    /// The constraints in use, for a head that is in its ranges.
    pub fn used_constraints(&self) -> &[Constraint] {
        &self.constraint[..self.constraints as usize]
    }

    /// The letters of this kind that these points disclose.
    fn disclosed(&self, points: u8, kind: u8) -> u8 {
        let mut mask = 0;
        for (i, letter) in self.used_letters().iter().enumerate() {
            if letter.kind == kind && has(points, letter.point) {
                mask |= 1 << i;
            }
        }
        mask
    }

    /// The conditions that these points disclose: what is heard after a move that performs them.
    pub fn heard(&self, points: u8) -> u8 {
        self.disclosed(points, CONDITION)
    }

    /// The decisions that these points disclose: those that a move with them may choose.
    pub fn settled(&self, points: u8) -> u8 {
        self.disclosed(points, DECISION)
    }

    /// The letters of either kind that these points disclose: those known once they are performed.
    pub fn known(&self, points: u8) -> u8 {
        self.heard(points) | self.settled(points)
    }
}

impl Constraint {
    /// The six bytes of a record and of a frame.
    pub fn from_bytes([from, to, high, low, need, truth]: [u8; 6]) -> Constraint {
        Constraint { from, to, bound: i16::from_be_bytes([high, low]), need, truth }
    }

    pub fn to_bytes(&self) -> [u8; 6] {
        let [high, low] = self.bound.to_be_bytes();
        [self.from, self.to, high, low, self.need, self.truth]
    }
}
