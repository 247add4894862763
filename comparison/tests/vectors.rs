//! The vectors of crates/vectors through the proved calls: what the program prints, and every path of every tree.

use comparison::compare::check;
use comparison::expected::{history_bytes, Expected};
use comparison::{compare, Case};
use reference::checker::{self, Node};
use reference::plan::*;
use reference::run::History;
use reference::text::{read_plan, read_tree};
use std::path::PathBuf;

struct Vector {
    name: String,
    input: Vec<u8>,
    output: Vec<u8>,
}

fn folder() -> PathBuf {
    PathBuf::from(env!("CARGO_MANIFEST_DIR")).join("../crates/vectors/data")
}

fn vector(name: &str) -> Vector {
    let read = |ending: &str| {
        let path = folder().join(format!("{name}.{ending}"));
        std::fs::read(&path).unwrap_or_else(|error| panic!("{}: {error}", path.display()))
    };
    Vector { name: name.to_string(), input: read("in"), output: read("out") }
}

/// All vectors of the folder.
fn all() -> Vec<Vector> {
    let entries = std::fs::read_dir(folder()).expect("the folder of vectors");
    let paths = entries.map(|entry| entry.expect("a file").path());
    let inputs = paths.filter(|path| path.extension().is_some_and(|ending| ending == "in"));
    let vectors: Vec<Vector> = inputs.map(|path| vector(&path.file_stem().unwrap().to_string_lossy())).collect();
    assert!(vectors.len() >= 210, "{} vectors", vectors.len());
    vectors
}

const GUARD: [u8; 64] = [0x5A; 64];

/// The case must answer this number and leave this in its last buffer, all others as they were.
fn told(case: &Case, answer: usize, last: &[u8]) {
    let mut after: Vec<Vec<u8>> = case.parts().iter().map(|(_, bytes)| bytes.to_vec()).collect();
    *after.last_mut().expect("a buffer") = last.to_vec();
    check(case, &GUARD, &GUARD, &Expected { answer: Ok(answer), after });
}

#[test]
fn the_program_answers_them() {
    for Vector { input, output, .. } in all() {
        let text = vec![0xEE; output.len() + 7];
        told(&Case::Answer { input, text }, output.len(), &[&output[..], &[0xEE; 7]].concat());
    }
}

/// The vectors whose output is a tree, with plan and tree as the reference reads them.
fn trees() -> Vec<(Vector, Plan, Vec<u8>)> {
    let trees = all().into_iter().filter(|vector| vector.output.starts_with(b"04"));
    let read = |vector: Vector| {
        let (plan, tree) = (read_plan(&vector.input).expect("a plan"), read_tree(&vector.output, 573).expect("a tree"));
        (vector, plan, tree)
    };
    let trees: Vec<_> = trees.map(read).collect();
    assert!(trees.len() >= 120, "{} trees", trees.len());
    trees
}

/// Faulty plans too.
#[test]
fn plans_are_read() {
    for Vector { input, .. } in all() {
        compare(&Case::ReadPlan { text: input, plan: vec![0xEE; 407] });
    }
}

/// Of well-formed plans, under no letter true and under all of them.
#[test]
fn differences_are_those_of_the_reference() {
    let plans: Vec<Plan> = all().iter().filter_map(|vector| read_plan(&vector.input).ok()).collect();
    assert!(plans.len() >= 170, "{} plans", plans.len());
    for (plan, values) in plans.iter().flat_map(|plan| [0, plan.all_letters()].map(|values| (plan, values))) {
        compare(&Case::Differences { plan: plan.to_bytes(), values, table: vec![0xEE; 135] });
    }
}

#[test]
fn texts_are_read_and_written() {
    for (Vector { input, output, .. }, plan, tree) in trees() {
        told(&Case::ReadPlan { text: input.clone(), plan: vec![0xEE; 400] }, 1, &plan.to_bytes());
        let text = vec![0xEE; input.len()];
        told(&Case::WritePlan { plan: plan.to_bytes(), text }, input.len(), &input);
        let (lent, rest) = (vec![0xEE; 573], vec![0xEE; 573 - tree.len()]);
        let after = [&tree[..], &rest].concat();
        told(&Case::ReadTree { text: output.clone(), tree: lent }, tree.len() / 3, &after);
        let text = vec![0xEE; output.len()];
        told(&Case::WriteTree { tree, text }, output.len(), &output);
    }
}

/// One crew over one tree that the reference has checked.
struct Crew {
    plan: Vec<u8>,
    tree: Vec<u8>,
}

impl Crew {
    fn shows(&self, history: &History, node: Option<&Node>) {
        let (plan, tree, history) = (self.plan.clone(), self.tree.clone(), history_bytes(history));
        let case = Case::Show { plan, tree, history, instruction: vec![0xEE; 3] };
        match node {
            Some(node) => told(&case, 1, &[node.slot, node.points, node.choices]),
            None => told(&case, 0, &[0xEE; 3]),
        }
    }

    /// The mask is accepted: the longer history.
    fn reports(&self, history: &History, mask: u8) -> History {
        let mut longer = *history;
        longer.masks[history.count as usize] = mask;
        longer.count += 1;
        let (plan, tree) = (self.plan.clone(), self.tree.clone());
        told(&Case::Report { plan, tree, history: history_bytes(history), mask }, 1, &history_bytes(&longer));
        longer
    }

    /// The whole path as one list of calls, each report behind a showing.
    fn follows(&self, history: &History, steps: &[u8]) {
        let (plan, tree) = (self.plan.clone(), self.tree.clone());
        let calls = steps.chunks(4).flat_map(|step| [0, 0xEE, 1, step[3]]).collect();
        let case = Case::Follow { plan, tree, history: vec![0; 9], calls, steps: vec![0xEE; 32] };
        let mut after: Vec<Vec<u8>> = case.parts().iter().map(|(_, bytes)| bytes.to_vec()).collect();
        after[2] = history_bytes(history);
        after[4] = [steps, &vec![0; 32 - steps.len()]].concat();
        check(&case, &GUARD, &GUARD, &Expected { answer: Ok(steps.len() / 4), after });
    }

    /// Every path from here to done, by showing and reporting, then as a list: how many there are.
    fn walks(&self, history: &History, steps: &[u8], here: Option<&Node>) -> usize {
        self.shows(history, here);
        let Some(node) = here else {
            self.follows(history, steps);
            return 1;
        };
        let step = |mask| [steps, &[node.slot, node.points, node.choices, mask]].concat();
        let outcomes = masks_inside(node.heard);
        outcomes.map(|mask| self.walks(&self.reports(history, mask), &step(mask), node.child(mask))).sum()
    }
}

#[test]
fn every_path_of_their_trees_ends_in_done() {
    let mut paths = 0;
    for (Vector { name, .. }, plan, tree) in trees() {
        let root = checker::check(&plan, &tree).unwrap_or_else(|refusal| panic!("{name}: {refusal}"));
        let crew = Crew { plan: plan.to_bytes(), tree: tree.clone() };
        told(&Case::CheckTree { plan: crew.plan.clone(), tree: tree.clone() }, 1, &tree);
        let conditions = plan.disclosed(plan.all_points(), CONDITION).count_ones();
        let walked = crew.walks(&History::default(), &[], Some(&root));
        assert_eq!(walked, 1 << conditions, "{name}");
        paths += walked;
    }
    assert!(paths >= 1000, "{paths} paths");
}

/// Masks that mostly name letters which the root does not tell, as the reference says them.
#[test]
fn wrong_reports_are_refused() {
    for (_, plan, tree) in trees() {
        for mask in [1, 2, 4, 8, 16, 32, 64, 128, 255] {
            let (plan, tree) = (plan.to_bytes(), tree.clone());
            compare(&Case::Report { plan, tree, history: vec![0; 9], mask });
        }
    }
}
