//! The plain planner behind the trait of the library's calls: records of bytes in, records of bytes out.

use super::answer_text::answer_to;
use super::following::{follow, Step};
use super::plan::{Refusal, BUFFER, PLAN_BYTES};
use super::{check_tree, differences, judge, least_schedule, read_plan, read_tree, report, screen, search, show};
use super::{write_plan, write_tree, History, Plan, Told};
use crate::library::{Answer, Library};

const STEP_BYTES: usize = 4;
const MOST_STEPS: usize = 8;
const TABLE_BYTES: usize = 128;

/// The record at the front of a buffer; 10 where the buffer is shorter.
fn record<const N: usize>(bytes: &[u8]) -> Result<&[u8; N], Refusal> {
    bytes.first_chunk().ok_or(BUFFER)
}

fn record_mut<const N: usize>(bytes: &mut [u8]) -> Result<&mut [u8; N], Refusal> {
    bytes.first_chunk_mut().ok_or(BUFFER)
}

fn plan_in(bytes: &[u8]) -> Result<Plan, Refusal> {
    record::<PLAN_BYTES>(bytes).map(Plan::from_bytes)
}

fn step_bytes(step: &Step) -> [u8; STEP_BYTES] {
    let [slot, points, choices] = step.instruction.to_bytes();
    [slot, points, choices, step.report]
}

pub struct Plain;

impl Library for Plain {
    fn judge_plan(&self, plan: &[u8]) -> Answer {
        judge(&plan_in(plan)?).map(|()| 1)
    }

    fn read_plan(&self, text: &[u8], plan: &mut [u8]) -> Answer {
        let place = record_mut(plan)?;
        let read = read_plan(text);
        *place = read.as_ref().map_or([0; PLAN_BYTES], Plan::to_bytes);
        read.map(|_| 1)
    }

    fn write_plan(&self, plan: &[u8], text: &mut [u8]) -> Answer {
        write_plan(&plan_in(plan)?, text)
    }

    fn read_tree(&self, text: &[u8], tree: &mut [u8]) -> Answer {
        read_tree(text, tree)
    }

    fn write_tree(&self, tree: &[u8], text: &mut [u8]) -> Answer {
        write_tree(tree, text)
    }

    fn check_tree(&self, plan: &[u8], tree: &[u8]) -> Answer {
        check_tree(&plan_in(plan)?, tree).map(|()| 1)
    }

    fn search(&self, plan: &[u8], tree: &mut [u8]) -> Answer {
        search(&plan_in(plan)?, tree)
    }

    fn show(&self, plan: &[u8], tree: &[u8], history: &[u8], instruction: &mut [u8]) -> Answer {
        let (plan, history) = (plan_in(plan)?, History::from_bytes(*record(history)?));
        let place = record_mut(instruction)?;
        match show(&plan, tree, &history)? {
            Told::Instruct(node) => {
                *place = node.to_bytes();
                Ok(1)
            }
            Told::Done => Ok(0),
        }
    }

    fn report(&self, plan: &[u8], tree: &[u8], history: &mut [u8], mask: u8) -> Answer {
        let plan = plan_in(plan)?;
        let place = record_mut(history)?;
        let mut longer = History::from_bytes(*place);
        report(&plan, tree, &mut longer, mask)?;
        *place = longer.to_bytes();
        Ok(1)
    }

    fn follow(&self, plan: &[u8], tree: &[u8], history: &mut [u8], calls: &[u8], steps: &mut [u8]) -> Answer {
        let plan = plan_in(plan)?;
        let (place, steps) = (record_mut(history)?, record_mut::<{ STEP_BYTES * MOST_STEPS }>(steps)?);
        let mut left = History::from_bytes(*place);
        let followed = follow(&plan, tree, &mut left, calls);
        *place = left.to_bytes();
        steps.fill(0);
        for (bytes, step) in steps.chunks_exact_mut(STEP_BYTES).zip(&followed) {
            bytes.copy_from_slice(&step_bytes(step));
        }
        Ok(followed.len())
    }

    fn least_schedule(&self, plan: &[u8], values: u8, schedule: &mut [u8]) -> Answer {
        let place = record_mut(schedule)?;
        let least = plan_in(plan).and_then(|plan| least_schedule(&plan, values));
        *place = least.unwrap_or(None).unwrap_or([0; 8]);
        least.map(|least| usize::from(least.is_some()))
    }

    fn differences(&self, plan: &[u8], values: u8, table: &mut [u8]) -> Answer {
        let place = record_mut::<TABLE_BYTES>(table)?;
        let found = plan_in(plan).and_then(|plan| differences(&plan, values));
        let rows = found.unwrap_or(None).unwrap_or([[0; 8]; 8]);
        for (bytes, entry) in place.chunks_exact_mut(2).zip(rows.as_flattened()) {
            bytes.copy_from_slice(&entry.to_be_bytes());
        }
        found.map(|found| usize::from(found.is_some()))
    }

    fn screen(&self, plan: &[u8]) -> Answer {
        screen(&plan_in(plan)?).map(usize::from)
    }

    fn answer(&self, input: &[u8], text: &mut [u8]) -> Answer {
        answer_to(input, text)
    }
}
