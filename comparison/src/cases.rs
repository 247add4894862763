//! Random cases of every call.

use crate::damage::{any_plan_text, any_tree_text, plan_text};
use crate::expected::{HISTORY_BYTES, INSTRUCTION_BYTES, PLAN_BYTES, SCHEDULE_BYTES, STEPS_BYTES, TABLE_BYTES};
use crate::library::Case;
use crate::made::{any_bytes, buffer, cut, record, trial, Made, Trial};
use crate::plans::{any_plan, record_bytes, searchable_plan, settled};
use crate::runs::{any_calls, any_history, any_report};
use crate::trees::{pair, plan_and_tree};
use reference::checker::{parse, Node};
use reference::plan::Plan;
use reference::random::Random;
use reference::search::program;
use reference::text::{read_plan, TREE_BYTES};

/// How the cases of each call are made.
pub const MAKERS: [fn(&mut Random) -> Trial; 14] = [
    judge_plan,
    read_plan_text,
    write_plan_text,
    read_tree_text,
    write_tree_text,
    check_tree,
    search,
    show,
    report,
    follow,
    least_schedule,
    differences,
    screen,
    answer,
];

/// How many moves a search may try, mostly; one in fifty may try twenty times as many.
const BUDGET: usize = 3000;

/// The longest plan text.
const LONGEST: usize = 1025;

fn budget(random: &mut Random) -> usize {
    if random.one_in(50) {
        20 * BUDGET
    } else {
        BUDGET
    }
}

/// A plan record, well formed or faulty, as long as it should be or not.
fn any_record(random: &mut Random, plan: &Plan) -> Made {
    let bytes = record_bytes(random, plan);
    record(random, &bytes)
}

/// The same, but faulty one time in six only: where the plan stands beside other things.
fn mostly_good(random: &mut Random, plan: &Plan) -> Made {
    if random.one_in(3) {
        any_record(random, plan)
    } else {
        plan.to_bytes().into()
    }
}

pub fn judge_plan(random: &mut Random) -> Trial {
    let plan = any_plan(random);
    let Made { bytes: plan, beyond } = any_record(random, &plan);
    trial(random, Case::JudgePlan { plan }, &[&beyond])
}

pub fn read_plan_text(random: &mut Random) -> Trial {
    let plan = any_plan(random);
    let Made { bytes: text, beyond } = any_plan_text(random, &plan);
    let plan = buffer(random, PLAN_BYTES);
    trial(random, Case::ReadPlan { text, plan }, &[&beyond])
}

pub fn write_plan_text(random: &mut Random) -> Trial {
    let plan = any_plan(random);
    let needed = plan_text(&plan).len();
    let Made { bytes: plan, beyond } = any_record(random, &plan);
    let text = buffer(random, needed);
    trial(random, Case::WritePlan { plan, text }, &[&beyond])
}

pub fn read_tree_text(random: &mut Random) -> Trial {
    let (_, tree) = pair(random);
    let Made { bytes: text, beyond } = any_tree_text(random, &tree);
    let tree = buffer(random, TREE_BYTES);
    trial(random, Case::ReadTree { text, tree }, &[&beyond])
}

pub fn write_tree_text(random: &mut Random) -> Trial {
    let (_, Made { bytes: mut tree, beyond }) = plan_and_tree(random);
    if random.one_in(4) {
        let length = *random.pick(&[0, 1, 2, 3, 4, 5, 6, 569, 570, 571, 572, 573, 574, 575, 576, 579, 765, 768, 771]);
        tree = any_bytes(random, length);
    }
    let text = buffer(random, 5 + 9 * (tree.len() / 3).min(192));
    trial(random, Case::WriteTree { tree, text }, &[&beyond])
}

pub fn check_tree(random: &mut Random) -> Trial {
    let (plan, tree) = plan_and_tree(random);
    let plan = mostly_good(random, &plan);
    let case = Case::CheckTree { plan: plan.bytes, tree: tree.bytes };
    trial(random, case, &[&plan.beyond, &tree.beyond])
}

/// A record whose plan, where it is well formed, is settled within the budget.
fn searchable_record(random: &mut Random) -> Made {
    loop {
        let budget = budget(random);
        let plan = searchable_plan(random, budget);
        let made = mostly_good(random, &plan);
        let plan = Plan::from_bytes(&made.bytes);
        if made.bytes.len() < PLAN_BYTES || plan.judge().is_err() || settled(&plan, budget) {
            return made;
        }
    }
}

pub fn search(random: &mut Random) -> Trial {
    let Made { bytes: plan, beyond } = searchable_record(random);
    let tree = buffer(random, TREE_BYTES);
    trial(random, Case::Search { plan, tree }, &[&beyond])
}

/// A plan, a tree, and the tree's root where its shape is sound.
fn crew(random: &mut Random) -> (Made, Made, Option<Node>) {
    let (plan, mut tree) = if random.one_in(4) {
        plan_and_tree(random)
    } else {
        let (plan, tree) = pair(random);
        (plan, tree.into())
    };
    if random.one_in(40) {
        tree = cut(&tree.bytes, random.below(tree.bytes.len() + 1));
    }
    let root = parse(&plan, &tree.bytes).ok();
    let bytes = if random.one_in(4) { any_record(random, &plan) } else { record(random, &plan.to_bytes()) };
    (bytes, tree, root)
}

pub fn show(random: &mut Random) -> Trial {
    let (plan, tree, root) = crew(random);
    let (history, _) = any_history(random, root.as_ref());
    let history = record(random, &history);
    let instruction = buffer(random, INSTRUCTION_BYTES);
    let case = Case::Show { plan: plan.bytes, tree: tree.bytes, history: history.bytes, instruction };
    trial(random, case, &[&plan.beyond, &tree.beyond, &history.beyond])
}

pub fn report(random: &mut Random) -> Trial {
    let (plan, tree, root) = crew(random);
    let (history, here) = any_history(random, root.as_ref());
    let mask = any_report(random, here);
    let history = record(random, &history);
    let case = Case::Report { plan: plan.bytes, tree: tree.bytes, history: history.bytes, mask };
    trial(random, case, &[&plan.beyond, &tree.beyond, &history.beyond])
}

pub fn follow(random: &mut Random) -> Trial {
    let (plan, tree, root) = crew(random);
    let start =
        if random.one_in(2) { any_history(random, root.as_ref()) } else { (vec![0; HISTORY_BYTES], root.as_ref()) };
    let calls = any_calls(random, start.1);
    let history = record(random, &start.0);
    let steps = buffer(random, STEPS_BYTES);
    let beyond = [&plan.beyond[..], &tree.beyond, &history.beyond, &calls.beyond];
    let (plan, tree, history, calls) = (plan.bytes, tree.bytes, history.bytes, calls.bytes);
    trial(random, Case::Follow { plan, tree, history, calls, steps }, &beyond)
}

/// A plan record and a mask, which mostly names no letter that the plan lacks.
fn plan_and_values(random: &mut Random) -> (Made, u8) {
    let plan = any_plan(random);
    let values = if random.one_in(5) { random.mask(255) } else { random.mask(plan.all_letters()) };
    (mostly_good(random, &plan), values)
}

pub fn least_schedule(random: &mut Random) -> Trial {
    let (Made { bytes: plan, beyond }, values) = plan_and_values(random);
    let schedule = buffer(random, SCHEDULE_BYTES);
    trial(random, Case::LeastSchedule { plan, values, schedule }, &[&beyond])
}

pub fn differences(random: &mut Random) -> Trial {
    let (Made { bytes: plan, beyond }, values) = plan_and_values(random);
    let table = buffer(random, TABLE_BYTES);
    trial(random, Case::Differences { plan, values, table }, &[&beyond])
}

pub fn screen(random: &mut Random) -> Trial {
    let plan = any_plan(random);
    let Made { bytes: plan, beyond } = mostly_good(random, &plan);
    trial(random, Case::Screen { plan }, &[&beyond])
}

/// The text of a plan that is settled within the budget, good or damaged.
fn searchable_text(random: &mut Random) -> Made {
    loop {
        let budget = budget(random);
        let plan = searchable_plan(random, budget);
        let mut made = any_plan_text(random, &plan);
        if made.bytes.len() == LONGEST && random.one_in(3) {
            made.bytes.push(*random.pick(b"\n0\0"));
        }
        match read_plan(&made.bytes) {
            Ok(plan) if !settled(&plan, budget) => {}
            _ => return made,
        }
    }
}

pub fn answer(random: &mut Random) -> Trial {
    let Made { bytes: input, beyond } = searchable_text(random);
    let text = buffer(random, program(&input).len());
    trial(random, Case::Answer { input, text }, &[&beyond])
}
