//! The crew's run: showing and reporting (document 01, "The crew's run").

use crate::checker::{check, Node};
use crate::plan::*;

#[derive(Clone, Copy, PartialEq, Eq, Debug, Default)]
pub struct History {
    pub count: u8,
    pub masks: [u8; 8],
}

#[derive(Clone, Copy, PartialEq, Eq, Debug)]
pub enum Told {
    Instruct { slot: u8, points: u8, choices: u8 },
    Done,
}

/// The reported masks; 8 where the count or an unused mask is wrong.
fn reported(history: &History) -> Result<&[u8], Refusal> {
    let count = history.count as usize;
    if count > 8 || history.masks[count..].iter().any(|&mask| mask != 0) {
        return Err(MASK);
    }
    Ok(&history.masks[..count])
}

/// The node reached by the masks, or none at done; at each mask 9 comes before 8.
fn follow<'a>(root: &'a Node, masks: &[u8]) -> Result<Option<&'a Node>, Refusal> {
    let mut here = Some(root);
    for &mask in masks {
        let node = here.ok_or(AFTER_DONE)?;
        if !inside(mask, node.heard) {
            return Err(MASK);
        }
        here = node.child(mask);
    }
    Ok(here)
}

pub fn show(plan: &Plan, tree: &[u8], history: &History) -> Result<Told, Refusal> {
    let root = check(plan, tree)?;
    let masks = reported(history)?;
    Ok(match follow(&root, masks)? {
        Some(node) => Told::Instruct { slot: node.slot, points: node.points, choices: node.choices },
        None => Told::Done,
    })
}

fn lengthen(plan: &Plan, tree: &[u8], history: &History, mask: u8) -> Result<History, Refusal> {
    let root = check(plan, tree)?;
    let masks = [reported(history)?, &[mask]].concat();
    follow(&root, &masks)?;
    // A path has at most eight nodes, so a ninth report came after done and was refused above.
    let mut longer = *history;
    longer.masks[history.count as usize] = mask;
    longer.count += 1;
    Ok(longer)
}

/// A refused report hands back the given history.
pub fn report(plan: &Plan, tree: &[u8], history: &History, mask: u8) -> (Result<(), Refusal>, History) {
    match lengthen(plan, tree, history, mask) {
        Ok(longer) => (Ok(()), longer),
        Err(refusal) => (Err(refusal), *history),
    }
}
