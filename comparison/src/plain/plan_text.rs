//! Plan texts: read into a plan record, written from one.

use super::frame::{line_length, put, take};
use super::judge::{constraint_fine, head_fine, judge, letter_fine};
use super::plan::{Constraint, Letter, Plan, Refusal, BUFFER, CONSTRAINTS, HEAD, LETTERS, PLAN_TEXT};

const HEAD_FRAME: u8 = 0x01;
const LETTER_FRAME: u8 = 0x02;
const CONSTRAINT_FRAME: u8 = 0x03;

fn read_head(text: &mut &[u8]) -> Result<Plan, Refusal> {
    let [_, head @ ..] = take::<5>(text, HEAD_FRAME).ok_or(PLAN_TEXT)?;
    let plan = Plan::with_head(head);
    if head_fine(&plan) {
        Ok(plan)
    } else {
        Err(HEAD)
    }
}

/// Letter i into the plan that was read so far.
fn read_letter(text: &mut &[u8], plan: &mut Plan, i: usize) -> Result<(), Refusal> {
    let [_, number, point, kind] = take(text, LETTER_FRAME).ok_or(PLAN_TEXT)?;
    let letter = Letter { point, kind };
    if number as usize != i || !letter_fine(plan, i, &letter) {
        return Err(LETTERS);
    }
    plan.letter[i] = letter;
    Ok(())
}

/// Constraint j into the plan that was read so far.
fn read_constraint(text: &mut &[u8], plan: &mut Plan, j: usize) -> Result<(), Refusal> {
    let [_, values @ ..] = take::<7>(text, CONSTRAINT_FRAME).ok_or(PLAN_TEXT)?;
    let constraint = Constraint::from_bytes(values);
    if !constraint_fine(plan, &constraint) {
        return Err(CONSTRAINTS);
    }
    plan.constraint[j] = constraint;
    Ok(())
}

/// The plan that a text says, or 1, 2, 3, 4 for its first faulty frame.
pub fn read_plan(text: &[u8]) -> Result<Plan, Refusal> {
    let mut rest = text;
    let mut plan = read_head(&mut rest)?;
    for i in 0..plan.letters as usize {
        read_letter(&mut rest, &mut plan, i)?;
    }
    for j in 0..plan.constraints as usize {
        read_constraint(&mut rest, &mut plan, j)?;
    }
    if rest.is_empty() {
        Ok(plan)
    } else {
        Err(PLAN_TEXT)
    }
}

fn text_length(plan: &Plan) -> usize {
    line_length(5) + line_length(4) * plan.letters as usize + line_length(7) * plan.constraints as usize
}

/// The text of a plan into the buffer, and its length; or 2, 3, 4, 10.
pub fn write_plan(plan: &Plan, out: &mut [u8]) -> Result<usize, Refusal> {
    judge(plan)?;
    let length = text_length(plan);
    if out.len() < length {
        return Err(BUFFER);
    }
    let mut rest = put(out, &[HEAD_FRAME, plan.horizon, plan.points, plan.letters, plan.constraints]);
    for (i, letter) in plan.used_letters().iter().enumerate() {
        rest = put(rest, &[LETTER_FRAME, i as u8, letter.point, letter.kind]);
    }
    for constraint in plan.used_constraints() {
        let [from, to, high, low, need, truth] = constraint.to_bytes();
        rest = put(rest, &[CONSTRAINT_FRAME, from, to, high, low, need, truth]);
    }
    Ok(length)
}
