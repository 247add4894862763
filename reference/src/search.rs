//! The search: the whole game, move by move in document 01's order, with a memo; and the same with one cut.

use crate::plan::*;
use crate::text::{read_plan, refusal_line, write_tree, TREE_BYTES};
use std::collections::HashMap;

/// What has happened so far; everything the rest of the game depends on.
#[derive(Clone, PartialEq, Eq, Hash)]
struct State {
    /// The earliest slot that the next move may use.
    next: u8,
    left: u8,
    times: Schedule,
    known: u8,
    values: u8,
}

struct Game<'a> {
    plan: &'a Plan,
    /// Whether states are given up before no point is left.
    cut: bool,
    memo: HashMap<State, Option<Vec<u8>>>,
}

impl Game<'_> {
    /// Some constraint that is relevant for sure cannot be kept, wherever the points that are left may go. With no
    /// point left this is exactly: some relevant constraint is broken.
    fn spoiled(&self, state: &State) -> bool {
        let earliest = |x: u8| if has(state.left, x) { state.next } else { state.times[x as usize] } as i32;
        let latest = |x: u8| if has(state.left, x) { self.plan.horizon } else { state.times[x as usize] } as i32;
        self.plan.used_constraints().iter().any(|c| {
            inside(c.need, state.known)
                && c.label_holds(state.values)
                && earliest(c.to) - latest(c.from) > c.bound as i32
        })
    }

    /// The agent's turn: the subtree of the first move that wins.
    fn agent(&mut self, state: State) -> Option<Vec<u8>> {
        if let Some(answer) = self.memo.get(&state) {
            return answer.clone();
        }
        let answer = self.first_win(&state);
        self.memo.insert(state, answer.clone());
        answer
    }

    fn first_win(&mut self, state: &State) -> Option<Vec<u8>> {
        for slot in state.next..=self.plan.horizon {
            for points in masks_inside(state.left).filter(|&points| points != 0) {
                for choices in masks_inside(self.plan.disclosed(points, DECISION)) {
                    if let Some(rest) = self.world(state, slot, points, choices) {
                        return Some([vec![slot, points, choices], rest].concat());
                    }
                }
            }
        }
        None
    }

    /// The world's turn: the subtrees of all outcomes, none where no point is left, or nothing where one is lost.
    fn world(&mut self, before: &State, slot: u8, points: u8, choices: u8) -> Option<Vec<u8>> {
        let mut after = before.clone();
        after.next = slot + 1;
        after.left &= !points;
        (0..8).filter(|&x| has(points, x)).for_each(|x| after.times[x as usize] = slot);
        let heard = self.plan.disclosed(points, CONDITION);
        after.known |= heard | self.plan.disclosed(points, DECISION);
        after.values |= choices;
        let mut subtrees = Vec::new();
        for outcome in masks_inside(heard) {
            let state = State { values: after.values | outcome, ..after.clone() };
            if (self.cut || state.left == 0) && self.spoiled(&state) {
                return None;
            }
            if state.left != 0 {
                subtrees.extend(self.agent(state)?);
            }
        }
        Some(subtrees)
    }
}

fn played(plan: &Plan, room: usize, cut: bool) -> Result<Vec<u8>, Refusal> {
    if room < TREE_BYTES {
        return Err(BUFFER);
    }
    plan.judge()?;
    let start = State { next: 0, left: plan.all_points(), times: [0; 8], known: 0, values: 0 };
    Game { plan, cut, memo: HashMap::new() }.agent(start).ok_or(HOPELESS)
}

/// 10, then 2, 3, 4, then 11; else the bytes of the tree.
pub fn search(plan: &Plan, room: usize) -> Result<Vec<u8>, Refusal> {
    played(plan, room, true)
}

/// The same where every game is played to its end, for small plans.
pub fn exhaustive(plan: &Plan, room: usize) -> Result<Vec<u8>, Refusal> {
    played(plan, room, false)
}

/// The program: what it prints for its input.
pub fn program(input: &[u8]) -> Vec<u8> {
    let judged = &input[..input.len().min(1026)];
    let answer = read_plan(judged).and_then(|plan| search(&plan, TREE_BYTES)).and_then(|tree| write_tree(&tree, 1724));
    answer.unwrap_or_else(refusal_line)
}
