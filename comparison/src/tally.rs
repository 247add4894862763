//! Counts what the cases of a call met, so that a test that meets too little of it fails.

use crate::expected::*;
use crate::library::{Answer, Case};
use reference::plan::{Plan, AFTER_DONE, BUFFER, HOPELESS, MASK, SHAPE};
use reference::search::program;
use reference::text::{read_plan, write_plan, write_tree, TREE_BYTES};
use reference::verdict::tiny;
use std::collections::BTreeMap;

/// What each buffer that needs a length must meet.
const LENGTHS: [(&str, usize); 6] = [
    ("empty, 10", 10),
    ("short, 10", 20),
    ("one short, 10", 20),
    ("just enough, accepted", 500),
    ("one more, accepted", 20),
    ("longer, accepted", 100),
];

#[derive(Default)]
pub struct Tally(BTreeMap<String, usize>);

impl Tally {
    pub fn count(&mut self, case: &Case, expected: &Expected) {
        let outcome = outcome(case, expected);
        let labels = lengths(case, expected).into_iter().chain(details(case, expected)).chain(searched(case, expected));
        for label in labels.chain(tabled(case, expected)).chain([outcome]) {
            *self.0.entry(label).or_default() += 1;
        }
    }

    /// Everything that was met and how often, one line each.
    pub fn lines(&self) -> String {
        self.0.iter().map(|(label, count)| format!("  {count:7} {label}\n")).collect()
    }

    /// What was met less often than it must be: these labels, and lengths around the limit of each of these buffers.
    pub fn lacking(&self, needed: &[(&str, usize)], sized: &[&str]) -> Vec<String> {
        let met = |label: &str| self.0.get(label).copied().unwrap_or(0);
        let around = |part: &&str| LENGTHS.map(|(length, least)| (format!("{part} {length}"), least));
        let needed = needed.iter().map(|&(label, least)| (label.to_string(), least));
        let all = needed.chain(sized.iter().flat_map(around));
        let lacking = all.filter(|(label, least)| met(label) < *least);
        lacking.map(|(label, least)| format!("{label:?}: {}, not {least}", met(&label))).collect()
    }
}

/// What the call ended in: a refusal's number, or a word for its success.
fn outcome(case: &Case, expected: &Expected) -> String {
    let number = match expected.answer {
        Err(refusal) => return refusal.to_string(),
        Ok(number) => number,
    };
    match (case, number) {
        (Case::JudgePlan { .. } | Case::CheckTree { .. }, _) => "yes".into(),
        (Case::ReadPlan { .. } | Case::ReadTree { .. }, _) => "read".into(),
        (Case::WritePlan { .. } | Case::WriteTree { .. }, _) => "written".into(),
        (Case::Search { .. }, _) => "tree".into(),
        (Case::Show { .. }, 0) => "done".into(),
        (Case::Show { .. }, _) => "instruction".into(),
        (Case::Report { .. }, _) => "accepted".into(),
        (Case::Follow { .. }, _) => format!("{number} accepted"),
        (Case::LeastSchedule { .. }, 0) => "none".into(),
        (Case::LeastSchedule { .. }, _) => "schedule".into(),
        (Case::Differences { .. }, 0) => "none".into(),
        (Case::Differences { .. }, _) => "table".into(),
        (Case::Screen { .. }, 0) => "fails".into(),
        (Case::Screen { .. }, _) => "passes".into(),
        (Case::Answer { .. }, _) if expected.after[1].starts_with(b"04") => "tree".into(),
        (Case::Answer { .. }, _) => String::from_utf8_lossy(&expected.after[1][..4]).into_owned(),
    }
}

/// What this buffer of the case needs, where there is such a length.
fn needed(case: &Case, answer: Answer, part: &str) -> Option<usize> {
    match (part, case) {
        ("plan", _) => Some(PLAN_BYTES),
        ("history", _) => Some(HISTORY_BYTES),
        ("instruction", _) => Some(INSTRUCTION_BYTES),
        ("schedule", _) => Some(SCHEDULE_BYTES),
        ("table", _) => Some(TABLE_BYTES),
        ("steps", _) => Some(STEPS_BYTES),
        ("tree", Case::ReadTree { .. } | Case::Search { .. }) => Some(TREE_BYTES),
        ("text", Case::WritePlan { plan, .. }) => written(write_plan(&Plan::from_bytes(plan), usize::MAX)),
        ("text", Case::WriteTree { tree, .. }) => written(write_tree(tree, usize::MAX)),
        ("text", Case::Answer { input, .. }) => Some(answer.unwrap_or_else(|_| program(input).len())),
        _ => None,
    }
}

fn written(text: Result<Vec<u8>, u8>) -> Option<usize> {
    text.ok().map(|text| text.len())
}

/// For each buffer that needs a length: how long it is, beside what was answered.
fn lengths(case: &Case, expected: &Expected) -> Vec<String> {
    let mut labels = Vec::new();
    for (name, bytes) in case.parts() {
        let word = match needed(case, expected.answer, name).map(|needed| bytes.len() as i64 - needed as i64) {
            None => continue,
            Some(_) if bytes.is_empty() => "empty",
            Some(-1) => "one short",
            Some(0) => "just enough",
            Some(1) => "one more",
            Some(2..) => "longer",
            Some(_) => "short",
        };
        let said = expected.answer.map_or_else(|refusal| refusal.to_string(), |_| "accepted".to_string());
        labels.push(format!("{name} {word}, {said}"));
    }
    labels
}

/// Further distinctions: sizes of trees, ways to 8 and 9, places beside short records.
fn details(case: &Case, expected: &Expected) -> Option<String> {
    match (case, expected.answer) {
        (Case::ReadTree { .. }, Ok(nodes)) => Some(size(nodes)),
        (Case::CheckTree { tree, .. }, Ok(_)) => Some(size(tree.len() / 3)),
        (Case::CheckTree { tree, .. } | Case::WriteTree { tree, .. }, Err(SHAPE)) => Some(odd_length(tree)),
        (Case::LeastSchedule { plan, .. } | Case::Differences { plan, .. } | Case::Screen { plan }, Ok(_))
            if tiny(&Plan::from_bytes(plan)) =>
        {
            Some("by enumeration".into())
        }
        (Case::LeastSchedule { plan, schedule, .. }, Err(BUFFER)) if plan.len() < PLAN_BYTES => {
            Some(place_beside_short(schedule, SCHEDULE_BYTES))
        }
        (Case::Differences { plan, table, .. }, Err(BUFFER)) if plan.len() < PLAN_BYTES => {
            Some(place_beside_short(table, TABLE_BYTES))
        }
        (Case::Show { history, .. }, Err(MASK)) => Some(way_to_8(history)),
        (Case::Report { history, .. }, Err(MASK)) => Some(way_to_8(history)),
        (Case::Report { mask, .. }, Err(AFTER_DONE)) => {
            Some(format!("9, mask {}", if *mask == 0 { "0" } else { "else" }))
        }
        (Case::Follow { calls, .. }, Ok(_)) if calls.len() % 2 == 1 => Some("odd list".into()),
        (Case::Answer { input, .. }, Ok(_)) if input.len() == 1025 => Some("longest plan".into()),
        (Case::Answer { input, .. }, Ok(_)) if longest_and_more(input) => Some("longest plan and more".into()),
        _ => None,
    }
}

/// Of a schedule's or a table's place beside a short plan: whether it is there, and whether zeros can be told from what
/// stood there.
fn place_beside_short(buffer: &[u8], needed: usize) -> String {
    let word = match buffer.get(..needed) {
        None => "no place",
        Some(place) if place.iter().all(|&byte| byte == 0) => "zeros before",
        Some(_) => "zeros anew",
    };
    format!("10, plan short: {word}")
}

fn longest_and_more(input: &[u8]) -> bool {
    input.len() > 1025 && read_plan(&input[..1025]).is_ok()
}

fn size(nodes: usize) -> String {
    let word = match nodes {
        0..=1 => "one",
        2..=20 => "some",
        21..=190 => "many",
        _ => "191",
    };
    format!("nodes: {word}")
}

/// Of a search: the tree's size, and whether the whole game was played.
fn searched(case: &Case, expected: &Expected) -> Vec<String> {
    match (case, expected.answer) {
        (Case::Search { plan, .. }, Ok(_) | Err(HOPELESS)) => {
            let whole = small(&Plan::from_bytes(plan)).then(|| "by the exhaustive game".to_string());
            expected.answer.ok().map(size).into_iter().chain(whole).collect()
        }
        _ => Vec::new(),
    }
}

/// Of a table: whether it forces some point before another, and whether it uses row and column 7.
fn tabled(case: &Case, expected: &Expected) -> Vec<String> {
    match (case, expected.answer) {
        (Case::Differences { plan, .. }, Ok(1)) => {
            let forced = expected.after[1][..TABLE_BYTES].chunks(2).any(|entry| entry[0] >= 0x80);
            let order = if forced { "an order is forced" } else { "no order is forced" };
            let eight = (Plan::from_bytes(plan).points == 8).then_some("table of eight points");
            [order].into_iter().chain(eight).map(String::from).collect()
        }
        _ => Vec::new(),
    }
}

/// Which lengths no tree has.
fn odd_length(tree: &[u8]) -> String {
    let word = match tree.len() {
        0 => "none",
        length if length % 3 != 0 => "not of three",
        576 => "192",
        577.. => "more",
        _ => "a tree's",
    };
    format!("6, nodes: {word}")
}

fn way_to_8(history: &[u8]) -> String {
    let count = history[0] as usize;
    let word = match count {
        9.. => "count",
        _ if history[1 + count..9].iter().any(|&mask| mask != 0) => "unused mask",
        _ => "mask",
    };
    format!("8, {word}")
}
