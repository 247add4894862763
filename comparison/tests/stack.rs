//! Every call of the proved library on a small stack: all vectors, in a thread that has 64 KB.
//!
//! The size is that of the whole thread. The frames of this test, of the wrapper and of Rust's own start of a thread
//! count, and so does what the system keeps on a thread's stack; a call has less. A call that needs more ends the test
//! with "has overflowed its stack". `COMPARISON_STACK` names another size, in KB.

use std::path::PathBuf;
use tureenlark::*;

/// KB that serve all vectors, as docs/LIBRARY.md says.
const KILOBYTES: usize = 64;

/// Where all buffers stand: not on the stack.
struct Room {
    plan: Vec<u8>,
    tree: Vec<u8>,
    text: Vec<u8>,
    history: Vec<u8>,
    instruction: Vec<u8>,
    schedule: Vec<u8>,
    table: Vec<u8>,
    steps: Vec<u8>,
    calls: Vec<u8>,
}

impl Room {
    fn new() -> Room {
        Room {
            plan: vec![0; PLAN_BYTES],
            tree: vec![0; TREE_BYTES],
            text: vec![0; TREE_TEXT_BYTES],
            history: vec![0; HISTORY_BYTES],
            instruction: vec![0; INSTRUCTION_BYTES],
            schedule: vec![0; SCHEDULE_BYTES],
            table: vec![0; TABLE_BYTES],
            steps: vec![0; STEPS_BYTES],
            calls: Vec::with_capacity(32),
        }
    }
}

/// How many vectors were plans, how many had a tree, and the most reports of one run.
#[derive(Default)]
struct Met {
    plans: usize,
    trees: usize,
    longest: usize,
}

/// Every call that takes a plan, then those that take its tree.
fn calls_of(input: &[u8], output: &[u8], room: &mut Room, met: &mut Met) {
    let length = answer(input, &mut room.text).expect("a text");
    assert!(room.text[..length] == *output, "another answer");
    if read_plan(input, &mut room.plan).is_err() {
        return;
    }
    met.plans += 1;
    judge_plan(&room.plan).expect("a plan");
    assert!(write_plan(&room.plan, &mut room.text) == Ok(input.len()));
    screen(&room.plan).expect("a plan");
    for values in 0..1 << room.plan[2] {
        let found = least_schedule(&room.plan, values, &mut room.schedule).expect("a setting");
        assert!(differences(&room.plan, values, &mut room.table) == Ok(found));
    }
    let Ok(nodes) = search(&room.plan, &mut room.tree) else { return };
    met.trees += 1;
    assert!(write_tree(&room.tree[..3 * nodes], &mut room.text) == Ok(output.len()));
    assert!(read_tree(output, &mut room.tree) == Ok(nodes));
    check_tree(&room.plan, &room.tree[..3 * nodes]).expect("a tree");
    // a run in which nothing comes out true, and one in which everything does that may
    for all in [false, true] {
        run(nodes, all, room, met);
    }
}

fn run(nodes: usize, all: bool, room: &mut Room, met: &mut Met) {
    let tree = &room.tree[..3 * nodes];
    room.history.fill(0);
    room.calls.clear();
    while show(&room.plan, tree, &room.history, &mut room.instruction) == Ok(Told::Instruct) {
        let mask = if all { heard(&room.plan, room.instruction[1]) } else { 0 };
        report(&room.plan, tree, &mut room.history, mask).expect("a report");
        room.calls.extend([0, 0, 1, mask]);
    }
    let reports = room.calls.len() / 4;
    room.history.fill(0);
    assert!(follow(&room.plan, tree, &mut room.history, &room.calls, &mut room.steps) == Ok(reports));
    met.longest = met.longest.max(reports);
}

/// The conditions that these points tell.
fn heard(plan: &[u8], points: u8) -> u8 {
    let condition = |letter: &usize| {
        let entry = &plan[4 + 2 * letter..];
        points >> entry[0] & 1 == 1 && entry[1] == 0
    };
    (0..plan[2] as usize).filter(condition).map(|letter| 1 << letter).sum()
}

#[test]
fn all_vectors_on_a_small_stack() {
    let folder = PathBuf::from(env!("CARGO_MANIFEST_DIR")).join("../crates/vectors/data");
    let paths = std::fs::read_dir(folder).expect("the folder of vectors").map(|entry| entry.expect("a file").path());
    let inputs: Vec<PathBuf> = paths.filter(|path| path.extension().is_some_and(|ending| ending == "in")).collect();
    let read = |path: PathBuf| std::fs::read(&path).unwrap_or_else(|error| panic!("{}: {error}", path.display()));
    let vectors: Vec<_> = inputs.iter().map(|path| (read(path.clone()), read(path.with_extension("out")))).collect();
    assert!(vectors.len() >= 210, "{} vectors", vectors.len());

    let named = std::env::var("COMPARISON_STACK").ok();
    let kilobytes = named.map_or(KILOBYTES, |named| named.parse().expect("a number of KB"));
    let (mut room, mut met) = (Room::new(), Met::default());
    let thread = std::thread::Builder::new().stack_size(kilobytes * 1024).spawn(move || {
        for (input, output) in &vectors {
            calls_of(input, output, &mut room, &mut met);
        }
        met
    });
    let met = thread.expect("a thread").join().expect("all calls");
    println!("{kilobytes} KB: {} plans, {} trees, runs of up to {} reports", met.plans, met.trees, met.longest);
    // nobody performs more points one after the other than there can be
    assert!(met.plans >= 170 && met.trees >= 120 && met.longest == 8);
}
