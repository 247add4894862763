//! The vectors of crates/vectors, and the inputs that each call gets from one.

use crate::fail;
use comparison::library::{Answer, Case};
use reference::plan::{Plan, CONDITION};
use reference::run::{report, show, History, Told};
use reference::text::{read_plan, read_tree};
use std::path::{Path, PathBuf};

const PLAN_BYTES: usize = 400;
const TREE_BYTES: usize = 573;
const TABLE_BYTES: usize = 128;
const PLAN_TEXT_BYTES: usize = 1025;
const TREE_TEXT_BYTES: usize = 1724;

pub struct Vector {
    pub name: String,
    text: Vec<u8>,
    output: Vec<u8>,
}

impl Vector {
    pub fn group(&self) -> &str {
        self.name.trim_end_matches(|c: char| c.is_ascii_digit())
    }

    fn plan(&self) -> Option<Plan> {
        read_plan(&self.text).ok()
    }

    /// The plan, where it reads, and its tree, where it has one.
    fn plan_and_tree(&self) -> Option<(Plan, Vec<u8>)> {
        Some((self.plan()?, read_tree(&self.output, TREE_BYTES).ok()?))
    }

    /// What this call is given of the vector; nothing where its plan is refused or it has no tree and the call needs one.
    pub fn cases(&self, call: &str) -> Vec<Case> {
        match call {
            "read_plan" => vec![Case::ReadPlan { text: self.text.clone(), plan: vec![0; PLAN_BYTES] }],
            "read_tree" if self.plan_and_tree().is_some() => {
                vec![Case::ReadTree { text: self.output.clone(), tree: vec![0; TREE_BYTES] }]
            }
            "search" | "write_plan" | "screen" | "least_schedule" | "differences" => {
                self.plan().map_or(vec![], |plan| plan_cases(call, &plan))
            }
            _ => self.plan_and_tree().map_or(vec![], |(plan, tree)| tree_cases(call, &plan, tree)),
        }
    }

    /// What a search must answer and leave by the output: the nodes and zeros, or its refusal beside zeros.
    pub fn searched(&self) -> (Answer, Vec<u8>) {
        let refusal = || u8::from_str_radix(&String::from_utf8_lossy(&self.output[2..4]), 16).unwrap_or(0);
        let mut tree = read_tree(&self.output, TREE_BYTES).unwrap_or_default();
        let nodes = tree.len() / 3;
        tree.resize(TREE_BYTES, 0);
        (if nodes == 0 { Err(refusal()) } else { Ok(nodes) }, tree)
    }
}

fn contents(path: &Path) -> Vec<u8> {
    std::fs::read(path).unwrap_or_else(|error| fail(format!("{}: {error}", path.display()), 2))
}

/// All vectors, by name.
pub fn all() -> Vec<Vector> {
    let data = Path::new(env!("CARGO_MANIFEST_DIR")).join("../crates/vectors/data");
    let entries = std::fs::read_dir(&data).unwrap_or_else(|error| fail(format!("{}: {error}", data.display()), 2));
    let mut files: Vec<PathBuf> = entries.flatten().map(|entry| entry.path()).collect();
    files.retain(|path| path.extension().is_some_and(|ending| ending == "in"));
    files.sort();
    files.iter().map(|path| vector(path)).collect()
}

fn vector(path: &Path) -> Vector {
    let name = path.file_stem().unwrap_or_default().to_string_lossy().into_owned();
    Vector { name, text: contents(path), output: contents(&path.with_extension("out")) }
}

/// The last history at which something is told, where each report is made from the points told.
fn deepest(plan: &Plan, tree: &[u8], mask: impl Fn(u8) -> u8) -> History {
    let mut last = History::default();
    let mut history = last;
    while let Ok(Told::Instruct { points, .. }) = show(plan, tree, &history) {
        last = history;
        history = report(plan, tree, &history, mask(points)).1;
    }
    last
}

/// The start, the last node of the first path, where every condition is false, and that of the last, where each is
/// true; a history that is the same as the one before it is left out.
fn histories(plan: &Plan, tree: &[u8]) -> Vec<Vec<u8>> {
    let first = deepest(plan, tree, |_| 0);
    let last = deepest(plan, tree, |points| plan.disclosed(points, CONDITION));
    let mut all = vec![History::default(), first, last];
    all.dedup();
    all.iter().map(|history| [&[history.count][..], &history.masks].concat()).collect()
}

/// The search of a plan.
pub fn search_case(plan: &Plan) -> Case {
    Case::Search { plan: plan.to_bytes(), tree: vec![0; TREE_BYTES] }
}

fn plan_cases(call: &str, plan: &Plan) -> Vec<Case> {
    let settings = 0..1u8 << plan.letters;
    let record = plan.to_bytes();
    let scheduled = |values| Case::LeastSchedule { plan: record.clone(), values, schedule: vec![0; 8] };
    let tabled = |values| Case::Differences { plan: record.clone(), values, table: vec![0; TABLE_BYTES] };
    match call {
        "search" => vec![search_case(plan)],
        "write_plan" => vec![Case::WritePlan { plan: record, text: vec![0; PLAN_TEXT_BYTES] }],
        "screen" => vec![Case::Screen { plan: record }],
        "least_schedule" => settings.map(scheduled).collect(),
        "differences" => settings.map(tabled).collect(),
        _ => vec![],
    }
}

fn tree_cases(call: &str, plan: &Plan, tree: Vec<u8>) -> Vec<Case> {
    let histories = histories(plan, &tree).into_iter();
    let plan = plan.to_bytes();
    let show = |history| Case::Show { plan: plan.clone(), tree: tree.clone(), history, instruction: vec![0; 3] };
    let report = |history| Case::Report { plan: plan.clone(), tree: tree.clone(), history, mask: 0 };
    match call {
        "check_tree" => vec![Case::CheckTree { plan, tree }],
        "write_tree" => vec![Case::WriteTree { tree, text: vec![0; TREE_TEXT_BYTES] }],
        "show" => histories.map(show).collect(),
        "report" => histories.map(report).collect(),
        _ => vec![],
    }
}
