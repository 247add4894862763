//! Plan texts and tree texts (document 01, "The texts").

use crate::plan::*;

/// What a tree read or searched needs, and the longest tree.
pub const TREE_BYTES: usize = 573;

/// One frame as a line.
pub fn line(frame: &[u8]) -> Vec<u8> {
    let mut text: Vec<u8> = frame.iter().flat_map(|byte| format!("{byte:02X}").into_bytes()).collect();
    text.push(b'\n');
    text
}

pub fn refusal_line(refusal: Refusal) -> Vec<u8> {
    line(&[0x7F, refusal])
}

fn digit(character: u8) -> Option<u8> {
    b"0123456789ABCDEF".iter().position(|&d| d == character).map(|value| value as u8)
}

/// Takes a whole frame of this kind and length off the front of the text: the bytes behind its kind.
fn take(text: &mut &[u8], kind: u8, length: usize) -> Option<Vec<u8>> {
    if text.len() < 2 * length + 1 || text[2 * length] != b'\n' {
        return None;
    }
    let frame: Option<Vec<u8>> =
        text[..2 * length].chunks(2).map(|pair| Some(16 * digit(pair[0])? + digit(pair[1])?)).collect();
    let frame = frame?;
    if frame[0] != kind {
        return None;
    }
    *text = &text[2 * length + 1..];
    Some(frame[1..].to_vec())
}

/// Each frame is judged in form, then in value, before the next is looked at; the end of the text comes last.
pub fn read_plan(text: &[u8]) -> Result<Plan, Refusal> {
    let mut rest = text;
    let head = take(&mut rest, 0x01, 5).ok_or(PLAN_TEXT)?;
    let mut plan = Plan::from_bytes(&head);
    if !plan.head_fits() {
        return Err(HEAD);
    }
    for i in 0..plan.letters as usize {
        let values = take(&mut rest, 0x02, 4).ok_or(PLAN_TEXT)?;
        plan.letter[i] = Letter { point: values[1], kind: values[2] };
        if values[0] as usize != i || !plan.letter_fits(i) {
            return Err(LETTER);
        }
    }
    for i in 0..plan.constraints as usize {
        let v = take(&mut rest, 0x03, 7).ok_or(PLAN_TEXT)?;
        let bound = i16::from_be_bytes([v[2], v[3]]);
        plan.constraint[i] = Constraint { from: v[0], to: v[1], bound, need: v[4], truth: v[5] };
        if !plan.constraint_fits(i) {
            return Err(CONSTRAINT);
        }
    }
    if rest.is_empty() {
        Ok(plan)
    } else {
        Err(PLAN_TEXT)
    }
}

fn within(text: Vec<u8>, room: usize) -> Result<Vec<u8>, Refusal> {
    if text.len() <= room {
        Ok(text)
    } else {
        Err(BUFFER)
    }
}

/// 2, 3, 4, then 10.
pub fn write_plan(plan: &Plan, room: usize) -> Result<Vec<u8>, Refusal> {
    plan.judge()?;
    let mut text = line(&[0x01, plan.horizon, plan.points, plan.letters, plan.constraints]);
    for i in 0..plan.letters {
        let l = plan.letter[i as usize];
        text.extend(line(&[0x02, i, l.point, l.kind]));
    }
    for c in plan.used_constraints() {
        let [high, low] = c.bound.to_be_bytes();
        text.extend(line(&[0x03, c.from, c.to, high, low, c.need, c.truth]));
    }
    within(text, room)
}

/// 10 first, then 5. Any slot and masks are read: their sense is the checker's business.
pub fn read_tree(text: &[u8], room: usize) -> Result<Vec<u8>, Refusal> {
    if room < TREE_BYTES {
        return Err(BUFFER);
    }
    let mut rest = text;
    let nodes = take(&mut rest, 0x04, 2).ok_or(TREE_TEXT)?[0];
    if !(1..=191).contains(&nodes) {
        return Err(TREE_TEXT);
    }
    let mut bytes = Vec::new();
    for _ in 0..nodes {
        bytes.extend(take(&mut rest, 0x05, 4).ok_or(TREE_TEXT)?);
    }
    if rest.is_empty() {
        Ok(bytes)
    } else {
        Err(TREE_TEXT)
    }
}

pub fn length_fits(tree: &[u8]) -> bool {
    tree.len().is_multiple_of(3) && (3..=TREE_BYTES).contains(&tree.len())
}

/// The length first (6), then 10; no shape is judged.
pub fn write_tree(tree: &[u8], room: usize) -> Result<Vec<u8>, Refusal> {
    if !length_fits(tree) {
        return Err(SHAPE);
    }
    let mut text = line(&[0x04, (tree.len() / 3) as u8]);
    for node in tree.chunks(3) {
        text.extend(line(&[0x05, node[0], node[1], node[2]]));
    }
    within(text, room)
}
