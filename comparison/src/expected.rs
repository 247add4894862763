//! What each call must answer and leave in its buffers: the rules of the header and document 01 over the reference.

use crate::library::{Answer, Case, Library};
use reference::checker::check;
use reference::differences::differences;
use reference::plan::*;
use reference::run::{report, show, History, Told};
use reference::search::{exhaustive, program, search};
use reference::text::{read_plan, read_tree, write_plan, write_tree, TREE_BYTES};
use reference::verdict::{screen, verdict};

pub const PLAN_BYTES: usize = 400;
pub const HISTORY_BYTES: usize = 9;
pub const INSTRUCTION_BYTES: usize = 3;
pub const SCHEDULE_BYTES: usize = 8;
pub const TABLE_BYTES: usize = 128;
pub const STEPS_BYTES: usize = 32;

/// The answer, and every buffer of the case after the call, in the order of its parts.
#[derive(Clone, PartialEq, Eq, Debug)]
pub struct Expected {
    pub answer: Answer,
    pub after: Vec<Vec<u8>>,
}

pub fn expected(case: &Case) -> Expected {
    expected_by(&Rules, case)
}

/// What another library answers and leaves.
pub fn expected_by(library: &dyn Library, case: &Case) -> Expected {
    let mut after: Vec<Vec<u8>> = case.parts().iter().map(|(_, bytes)| bytes.to_vec()).collect();
    let mut lent: Vec<&mut [u8]> = after.iter_mut().map(|bytes| &mut bytes[..]).collect();
    let answer = case.perform(library, &mut lent);
    Expected { answer, after }
}

/// Few enough games to play each to its end.
pub fn small(plan: &Plan) -> bool {
    (plan.horizon as u64 + 1).saturating_pow(plan.points as u32) <= 256
}

/// A buffer shorter than its record: 10, before anything else is looked at.
fn long_enough(buffer: &[u8], length: usize) -> Result<(), Refusal> {
    if buffer.len() < length {
        Err(BUFFER)
    } else {
        Ok(())
    }
}

fn plan_record(bytes: &[u8]) -> Result<Plan, Refusal> {
    long_enough(bytes, PLAN_BYTES)?;
    Ok(Plan::from_bytes(&bytes[..PLAN_BYTES]))
}

pub fn history_record(bytes: &[u8]) -> Result<History, Refusal> {
    long_enough(bytes, HISTORY_BYTES)?;
    Ok(History { count: bytes[0], masks: std::array::from_fn(|i| bytes[1 + i]) })
}

pub fn history_bytes(history: &History) -> Vec<u8> {
    [&[history.count], &history.masks[..]].concat()
}

/// These bytes at the front of the buffer; the rest stays.
fn put(buffer: &mut [u8], bytes: &[u8]) {
    buffer[..bytes.len()].copy_from_slice(bytes);
}

/// The text at the front of the buffer: its length.
fn put_text(buffer: &mut [u8], text: &[u8]) -> Answer {
    put(buffer, text);
    Ok(text.len())
}

/// The library as the documents say it.
pub struct Rules;

impl Library for Rules {
    fn judge_plan(&self, plan: &[u8]) -> Answer {
        plan_record(plan)?.judge().map(|()| 1)
    }

    /// Beside a refusal the record is all zero.
    fn read_plan(&self, text: &[u8], plan: &mut [u8]) -> Answer {
        long_enough(plan, PLAN_BYTES)?;
        let read = read_plan(text);
        put(plan, &read.map_or(vec![0; PLAN_BYTES], |read| read.to_bytes()));
        read.map(|_| 1)
    }

    fn write_plan(&self, plan: &[u8], text: &mut [u8]) -> Answer {
        let written = write_plan(&plan_record(plan)?, text.len())?;
        put_text(text, &written)
    }

    /// Only the bytes of the nodes change, not those behind them up to 573.
    fn read_tree(&self, text: &[u8], tree: &mut [u8]) -> Answer {
        let nodes = read_tree(text, tree.len())?;
        put(tree, &nodes);
        Ok(nodes.len() / 3)
    }

    fn write_tree(&self, tree: &[u8], text: &mut [u8]) -> Answer {
        let written = write_tree(tree, text.len())?;
        put_text(text, &written)
    }

    fn check_tree(&self, plan: &[u8], tree: &[u8]) -> Answer {
        check(&plan_record(plan)?, tree).map(|_| 1)
    }

    /// On success the tree and zeros up to byte 573, on 11 zeros up to there, on other refusals nothing.
    fn search(&self, plan: &[u8], tree: &mut [u8]) -> Answer {
        let plan = plan_record(plan)?;
        let found = if small(&plan) { exhaustive(&plan, tree.len()) } else { search(&plan, tree.len()) };
        if matches!(found, Ok(_) | Err(HOPELESS)) {
            put(tree, &[0; TREE_BYTES]);
        }
        let nodes = found?;
        put(tree, &nodes);
        Ok(nodes.len() / 3)
    }

    fn show(&self, plan: &[u8], tree: &[u8], history: &[u8], instruction: &mut [u8]) -> Answer {
        let (plan, history) = (plan_record(plan)?, history_record(history)?);
        long_enough(instruction, INSTRUCTION_BYTES)?;
        Ok(match show(&plan, tree, &history)? {
            Told::Instruct { slot, points, choices } => {
                put(instruction, &[slot, points, choices]);
                1
            }
            Told::Done => 0,
        })
    }

    fn report(&self, plan: &[u8], tree: &[u8], history: &mut [u8], mask: u8) -> Answer {
        let (plan, given) = (plan_record(plan)?, history_record(history)?);
        let (answer, left) = report(&plan, tree, &given, mask);
        put(history, &history_bytes(&left));
        answer.map(|()| 1)
    }

    /// Each accepted report leaves what was told before it, and its mask; the other calls leave nothing.
    fn follow(&self, plan: &[u8], tree: &[u8], history: &mut [u8], calls: &[u8], steps: &mut [u8]) -> Answer {
        let (plan, mut left) = (plan_record(plan)?, history_record(history)?);
        long_enough(steps, STEPS_BYTES)?;
        let mut told = Vec::new();
        for call in calls.chunks_exact(2).filter(|call| call[0] != 0) {
            let (answer, longer) = report(&plan, tree, &left, call[1]);
            if answer.is_ok() {
                told.push((show(&plan, tree, &left), call[1]));
                left = longer;
            }
        }
        put(history, &history_bytes(&left));
        put(steps, &[0; STEPS_BYTES]);
        put(steps, &told.iter().flat_map(step).collect::<Vec<u8>>());
        Ok(told.len())
    }

    /// The schedule, or eight zeros beside none and beside every refusal, a short plan's 10 among them. A place that is
    /// shorter than eight bytes stays as it was.
    fn least_schedule(&self, plan: &[u8], values: u8, schedule: &mut [u8]) -> Answer {
        long_enough(schedule, SCHEDULE_BYTES)?;
        let least = plan_record(plan).and_then(|plan| verdict(&plan, values));
        put(schedule, &least.unwrap_or(None).unwrap_or([0; 8]));
        least.map(|least| usize::from(least.is_some()))
    }

    /// The table, row by row, or 128 zeros where `least_schedule` leaves eight; a shorter place stays as it was.
    fn differences(&self, plan: &[u8], values: u8, table: &mut [u8]) -> Answer {
        long_enough(table, TABLE_BYTES)?;
        let found = plan_record(plan).and_then(|plan| differences(&plan, values));
        let rows = found.unwrap_or(None).unwrap_or([[0; 8]; 8]);
        put(table, &rows.concat().into_iter().flat_map(i16::to_be_bytes).collect::<Vec<u8>>());
        found.map(|found| usize::from(found.is_some()))
    }

    fn screen(&self, plan: &[u8]) -> Answer {
        screen(&plan_record(plan)?).map(usize::from)
    }

    fn answer(&self, input: &[u8], text: &mut [u8]) -> Answer {
        let printed = program(input);
        long_enough(text, printed.len())?;
        put_text(text, &printed)
    }
}

/// The four bytes of an accepted report: the instruction that it followed, and its mask.
fn step(told: &(Result<Told, Refusal>, u8)) -> [u8; 4] {
    let (Ok(Told::Instruct { slot, points, choices }), mask) = *told else {
        panic!("a report was accepted where nothing was told: {told:?}")
    };
    [slot, points, choices, mask]
}
