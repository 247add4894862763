//! The plain planner beside the reference: random small cases with fixed seeds, and the vectors.

use comparison::cases::MAKERS;
use comparison::expected::expected;
use comparison::plain;
use comparison::plain::library::Plain;
use comparison::plain::plan::PLAN_BYTES;
use comparison::plans::{chained, lowest};
use reference::plan::{masks_inside, Plan};
use reference::random::{bare_plan, fit, random_tree, small_plan, Random};
use reference::{checker, differences, run, search, text, verdict};
use std::path::{Path, PathBuf};

/// What a lent buffer holds before a call.
const LENT: u8 = 0xA5;
const TREE_BYTES: usize = 573;
const PLAN_TEXT_BYTES: usize = 1025;
const TREE_TEXT_BYTES: usize = 1724;

/// What a character of a text is exchanged for: digits, their neighbours, lower case, the line's end.
const CHARACTERS: &[u8] = b"0123456789ABCDEF/:@Ga\n";

/// How often each answer was given: 0 where a call was accepted, else the refusal.
struct Tally([u32; 12]);

impl Tally {
    fn count<T>(&mut self, answer: &Result<T, u8>) {
        self.0[answer.as_ref().err().copied().unwrap_or(0) as usize] += 1;
    }

    fn expect(&self, answers: &[usize], least: u32) {
        assert!(answers.iter().all(|&answer| self.0[answer] >= least), "{answers:?} at least {least} of {:?}", self.0);
    }
}

fn plain_plan(plan: &Plan) -> plain::Plan {
    plain::Plan::from_bytes(&plan.to_bytes().try_into().expect("a record"))
}

/// A buffer of this length that holds these bytes at its front.
fn lent_with(front: &[u8], length: usize) -> Vec<u8> {
    let mut bytes = front.to_vec();
    bytes.resize(length.max(front.len()), LENT);
    bytes
}

/// Calls with a lent buffer, and compares answer and buffer with what the reference hands out.
fn compare_filled(
    expected: &Result<Vec<u8>, u8>,
    length: usize,
    unit: usize,
    call: impl FnOnce(&mut [u8]) -> Result<usize, u8>,
) {
    let mut buffer = vec![LENT; length];
    let answer = call(&mut buffer);
    assert_eq!(answer, expected.as_ref().map(|bytes| bytes.len() / unit).map_err(|&refusal| refusal));
    assert!(buffer == lent_with(expected.as_deref().unwrap_or(&[]), length), "lent bytes: {buffer:?}");
}

fn compare_search(plan: &Plan, room: usize) -> Result<Vec<u8>, u8> {
    let expected = search::search(plan, room);
    let mut buffer = vec![LENT; room];
    let answer = plain::search(&plain_plan(plan), &mut buffer);
    assert_eq!(answer, expected.as_ref().map(|tree| tree.len() / 3).map_err(|&refusal| refusal), "{plan:?}");
    let front = match &expected {
        Ok(tree) => [tree.clone(), vec![0; TREE_BYTES - tree.len()]].concat(),
        Err(11) => vec![0; TREE_BYTES],
        Err(_) => vec![],
    };
    assert!(buffer == lent_with(&front, room), "{plan:?} {buffer:?}");
    expected
}

fn compare_plan_text(input: &[u8]) -> Result<Plan, u8> {
    let expected = text::read_plan(input);
    let answer = plain::read_plan(input).map(|plan| plan.to_bytes().to_vec());
    assert_eq!(answer, expected.map(|plan| plan.to_bytes()), "{}", String::from_utf8_lossy(input));
    expected
}

fn compare_plan_writing(plan: &Plan, room: usize) -> Result<Vec<u8>, u8> {
    let expected = text::write_plan(plan, room);
    compare_filled(&expected, room, 1, |buffer| plain::write_plan(&plain_plan(plan), buffer));
    expected
}

fn compare_tree_text(input: &[u8], room: usize) -> Result<Vec<u8>, u8> {
    let expected = text::read_tree(input, room);
    compare_filled(&expected, room, 3, |buffer| plain::read_tree(input, buffer));
    expected
}

fn compare_tree_writing(tree: &[u8], room: usize) -> Result<Vec<u8>, u8> {
    let expected = text::write_tree(tree, room);
    compare_filled(&expected, room, 1, |buffer| plain::write_tree(tree, buffer));
    expected
}

fn compare_check(plan: &Plan, tree: &[u8]) -> Result<(), u8> {
    let expected = checker::check(plan, tree).map(|_| ());
    assert_eq!(plain::check_tree(&plain_plan(plan), tree), expected, "{plan:?} {tree:?}");
    expected
}

fn compare_showing(plan: &Plan, tree: &[u8], history: &run::History) -> Result<run::Told, u8> {
    let expected = run::show(plan, tree, history);
    let given = plain::History { count: history.count, masks: history.masks };
    let answer = plain::show(&plain_plan(plan), tree, &given).map(|told| match told {
        plain::Told::Instruct(v) => run::Told::Instruct { slot: v.slot, points: v.points, choices: v.choices },
        plain::Told::Done => run::Told::Done,
    });
    assert_eq!(answer, expected, "{plan:?} {tree:?} {history:?}");
    expected
}

fn compare_report(plan: &Plan, tree: &[u8], history: &run::History, mask: u8) -> (Result<(), u8>, run::History) {
    let (expected, left) = run::report(plan, tree, history, mask);
    let mut given = plain::History { count: history.count, masks: history.masks };
    assert_eq!(plain::report(&plain_plan(plan), tree, &mut given, mask), expected, "{plan:?} {history:?} {mask}");
    assert_eq!((given.count, given.masks), (left.count, left.masks), "{plan:?} {history:?} {mask}");
    (expected, left)
}

fn compare_verdict(plan: &Plan, values: u8) -> Result<Option<[u8; 8]>, u8> {
    let expected = verdict::verdict(plan, values);
    assert_eq!(plain::least_schedule(&plain_plan(plan), values), expected, "{plan:?} {values}");
    expected
}

fn compare_differences(plan: &Plan, values: u8) -> Result<Option<differences::Table>, u8> {
    let expected = differences::differences(plan, values);
    assert_eq!(plain::differences(&plain_plan(plan), values), expected, "{plan:?} {values}");
    expected
}

fn compare_screen(plan: &Plan) -> Result<bool, u8> {
    let expected = verdict::screen(plan);
    assert_eq!(plain::screen(&plain_plan(plan)), expected, "{plan:?}");
    expected
}

/// The bytes with one of them replaced, removed, doubled or cut off behind, now and then with none.
fn damaged(random: &mut Random, bytes: &[u8], replacements: &[u8]) -> Vec<u8> {
    let mut out = bytes.to_vec();
    let at = random.below(bytes.len());
    match random.below(8) {
        0 => drop(out.remove(at)),
        1 => out.insert(at, bytes[at]),
        2 => out.truncate(at),
        3 => {}
        _ => out[at] = *random.pick(replacements),
    }
    out
}

/// A sound tree and a plan that it keeps.
fn kept_tree(random: &mut Random) -> (Plan, Vec<u8>) {
    let (horizon, points) = (random.byte(0, 8), random.byte(1, 8));
    let letters = random.byte(0, points.min(6));
    let bare = bare_plan(random, horizon, points, letters);
    let tree = random_tree(random, &bare, bare.all_points(), 0);
    let constraints = random.byte(0, 24);
    (fit(random, &bare, &tree, constraints), tree)
}

#[test]
fn searches() {
    let mut random = Random(101);
    let mut tally = Tally([0; 12]);
    for _ in 0..3000 {
        let plan = small_plan(&mut random, 5, 5, 12);
        let room = if random.one_in(20) { TREE_BYTES - 1 } else { TREE_BYTES + random.below(9) };
        tally.count(&compare_search(&plan, room));
    }
    tally.expect(&[0, 10, 11], 100);
}

#[test]
fn plan_texts() {
    let mut random = Random(102);
    let mut tally = Tally([0; 12]);
    for _ in 0..1500 {
        let plan = small_plan(&mut random, 63, 8, 64);
        let length = PLAN_TEXT_BYTES - random.below(40);
        let Ok(text) = compare_plan_writing(&plan, length) else { continue };
        assert_eq!(compare_plan_writing(&plan, text.len() - 1), Err(10));
        tally.count(&compare_plan_text(&text));
        for _ in 0..4 {
            let top = &text[..text.len().min(80)];
            tally.count(&compare_plan_text(&damaged(&mut random, top, CHARACTERS)));
            tally.count(&compare_plan_text(&damaged(&mut random, &text, &CHARACTERS[..16])));
        }
    }
    tally.expect(&[0, 1, 2, 3, 4], 100);
}

#[test]
fn plan_records() {
    let mut random = Random(103);
    let mut tally = Tally([0; 12]);
    for _ in 0..4000 {
        let mut bytes = small_plan(&mut random, 6, 4, 8).to_bytes();
        let place = if random.one_in(2) { random.below(16) } else { random.below(PLAN_BYTES) };
        bytes[place] = random.byte(0, 9);
        let plan = Plan::from_bytes(&bytes);
        assert_eq!(plain_plan(&plan).to_bytes().to_vec(), bytes);
        let written = compare_plan_writing(&plan, PLAN_TEXT_BYTES);
        let _ = (compare_screen(&plan), compare_verdict(&plan, 0), compare_check(&plan, &[0, 1, 0]));
        let _ = compare_differences(&plan, 0);
        if written.is_err() {
            let _ = compare_search(&plan, TREE_BYTES);
        }
        tally.count(&written);
    }
    tally.expect(&[0, 2, 3, 4], 100);
}

/// A node without points in front of the tree, everything else a slot later.
fn idle_first(plan: &Plan, tree: &[u8]) -> (Plan, Vec<u8>) {
    let later = Plan { horizon: plan.horizon + 1, ..*plan };
    let shifted = tree.chunks(3).flat_map(|node| [node[0] + 1, node[1], node[2]]);
    (later, [0, 0, 0].into_iter().chain(shifted).collect())
}

#[test]
fn trees() {
    let mut random = Random(104);
    let mut tally = Tally([0; 12]);
    let small: Vec<u8> = (0..16).collect();
    for _ in 0..1000 {
        let (plan, tree) = kept_tree(&mut random);
        tally.count(&compare_check(&plan, &tree));
        for _ in 0..4 {
            tally.count(&compare_check(&plan, &damaged(&mut random, &tree, &small)));
        }
        let (later, idle) = idle_first(&plan, &tree);
        assert_eq!(compare_check(&later, &idle[3..]), Ok(()));
        assert_eq!(compare_check(&later, &idle), Err(6));
        let mut tighter = plan;
        let c = random.below(64) % (plan.constraints as usize).max(1);
        tighter.constraint[c].bound -= i16::from(plan.constraints > 0);
        tally.count(&compare_check(&tighter, &tree));
    }
    tally.expect(&[0, 6, 7], 100);
}

#[test]
fn tree_texts() {
    let mut random = Random(105);
    let mut tally = Tally([0; 12]);
    for _ in 0..1000 {
        let (_, tree) = kept_tree(&mut random);
        let written = compare_tree_writing(&tree, TREE_TEXT_BYTES).expect("a legal length");
        tally.count(&compare_tree_writing(&tree, written.len() - 1));
        tally.count(&compare_tree_writing(&tree[..random.below(tree.len())], TREE_TEXT_BYTES));
        tally.count(&compare_tree_text(&written, TREE_BYTES - random.below(2)));
        for _ in 0..4 {
            tally.count(&compare_tree_text(&damaged(&mut random, &written, CHARACTERS), TREE_BYTES + 3));
        }
    }
    for count in [0u8, 190, 191, 192, 255] {
        let text = [text::line(&[4, count]), text::line(&[5, 1, 2, 3]).repeat(count as usize)].concat();
        tally.count(&compare_tree_text(&text, TREE_BYTES));
    }
    tally.expect(&[0, 5, 6, 10], 100);
}

/// Random reports from the start until two were refused behind done.
fn walk(random: &mut Random, plan: &Plan, tree: &[u8], tally: &mut Tally) {
    let mut history = run::History::default();
    let mut refused_at_done = 0;
    while refused_at_done < 2 {
        tally.count(&compare_showing(plan, tree, &history));
        let within = plan.disclosed(plan.all_points(), 0);
        let (answer, left) = compare_report(plan, tree, &history, random.mask(within) & random.mask(255));
        tally.count(&answer);
        refused_at_done += u32::from(answer == Err(9));
        history = left;
    }
}

#[test]
fn runs() {
    let mut random = Random(106);
    let mut tally = Tally([0; 12]);
    for _ in 0..600 {
        let (plan, tree) = kept_tree(&mut random);
        walk(&mut random, &plan, &tree, &mut tally);
        for _ in 0..4 {
            let count = random.byte(0, 9);
            let masks = std::array::from_fn(|i| if i < count.into() { random.mask(63) & random.mask(63) } else { 0 });
            let mut history = run::History { count, masks };
            history.masks[7] |= u8::from(random.one_in(8));
            tally.count(&compare_showing(&plan, &tree, &history));
            tally.count(&compare_report(&plan, &tree, &history, random.mask(255)).0);
        }
        let start = run::History::default();
        tally.count(&compare_showing(&plan, &damaged(&mut random, &tree, &[0, 1, 2, 3]), &start));
    }
    tally.expect(&[0, 6, 8, 9], 100);
}

#[test]
fn verdicts_and_screens() {
    let mut random = Random(107);
    let mut tally = Tally([0; 12]);
    let (mut least, mut none, mut passed, mut failed) = (0, 0, 0, 0);
    for round in 0..1000 {
        let constraints = if round % 2 == 0 { 8 } else { 40 };
        let plan = small_plan(&mut random, 20, 8, constraints);
        for values in masks_inside(plan.all_letters()).chain([random.byte(0, 255)]) {
            let answer = compare_verdict(&plan, values);
            tally.count(&answer);
            match answer {
                Ok(Some(_)) => least += 1,
                Ok(None) => none += 1,
                Err(_) => {}
            }
        }
        *if compare_screen(&plan) == Ok(true) { &mut passed } else { &mut failed } += 1;
    }
    tally.expect(&[0, 8], 100);
    assert!(least.min(none).min(passed).min(failed) >= 100, "{least} {none} {passed} {failed}");
}

#[test]
fn tables_of_differences() {
    let mut random = Random(109);
    let mut tally = Tally([0; 12]);
    let (mut tables, mut none, mut forced) = (0, 0, 0);
    for round in 0..1000 {
        let constraints = if round % 2 == 0 { 8 } else { 40 };
        let plan = small_plan(&mut random, 20, 8, constraints);
        for values in masks_inside(plan.all_letters()).chain([random.byte(0, 255)]) {
            let answer = compare_differences(&plan, values);
            tally.count(&answer);
            match answer {
                Ok(Some(table)) => {
                    tables += 1;
                    forced += u32::from(table.as_flattened().iter().any(|&entry| entry < 0));
                }
                Ok(None) => none += 1,
                Err(_) => {}
            }
        }
    }
    tally.expect(&[0, 8], 100);
    assert!(tables.min(none).min(forced) >= 100, "{tables} {none} {forced}");
    let limits = [chained(63), chained(62), lowest()].map(|plan| compare_differences(&plan, 0));
    assert!(matches!(limits, [Ok(Some(_)), Ok(None), Ok(None)]));
}

#[test]
fn calls_over_records() {
    let mut random = Random(108);
    let mut tally = Tally([0; 12]);
    for number in 0..2800 {
        let case = MAKERS[number % MAKERS.len()](&mut random).case;
        let expected = expected(&case);
        let mut lent: Vec<Vec<u8>> = case.parts().iter().map(|(_, bytes)| bytes.to_vec()).collect();
        let mut parts: Vec<&mut [u8]> = lent.iter_mut().map(|bytes| &mut bytes[..]).collect();
        assert_eq!(case.perform(&Plain, &mut parts), expected.answer, "{case:?}");
        assert!(lent == expected.after, "{case:?}");
        tally.count(&expected.answer);
    }
    tally.expect(&[0, 1, 2, 3, 4, 5, 6, 7, 8, 9, 10, 11], 5);
}

/// The inputs of all vectors.
fn vectors() -> Vec<PathBuf> {
    let folder = Path::new(env!("CARGO_MANIFEST_DIR")).join("../crates/vectors/data");
    let entries = std::fs::read_dir(folder).expect("a folder of vectors");
    let mut paths: Vec<PathBuf> = entries.map(|entry| entry.expect("a file").path()).collect();
    paths.retain(|path| path.extension().is_some_and(|extension| extension == "in"));
    assert!(paths.len() >= 210, "{} vectors", paths.len());
    paths
}

/// What the program prints, by the plain planner.
fn printed(input: &[u8]) -> Vec<u8> {
    let (mut tree, mut text) = ([0; TREE_BYTES], [0; TREE_TEXT_BYTES]);
    let judged = &input[..input.len().min(PLAN_TEXT_BYTES + 1)];
    let answer = plain::read_plan(judged)
        .and_then(|plan| plain::search(&plan, &mut tree))
        .and_then(|nodes| plain::write_tree(&tree[..3 * nodes], &mut text));
    answer.map_or_else(text::refusal_line, |length| text[..length].to_vec())
}

#[test]
fn answers_to_all_vectors() {
    for path in vectors() {
        let output = std::fs::read(path.with_extension("out")).expect("an output");
        assert_eq!(printed(&std::fs::read(&path).expect("an input")), output, "{path:?}");
    }
}

#[test]
fn trees_of_all_vectors() {
    let mut run = 0;
    for path in vectors() {
        let input = std::fs::read(&path).expect("an input");
        let output = std::fs::read(path.with_extension("out")).expect("an output");
        if let (Ok(plan), Ok(tree)) = (compare_plan_text(&input), compare_tree_text(&output, TREE_BYTES)) {
            assert_eq!(compare_check(&plan, &tree), Ok(()), "{path:?}");
            assert_eq!(compare_tree_writing(&tree, TREE_TEXT_BYTES), Ok(output));
            run += 1;
        }
    }
    assert!(run >= 100, "{run} trees");
}
