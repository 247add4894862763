//! The proved search beside the plain one on plans of full size: random ones with fixed seeds, and those that grow.
//!
//! The two are one algorithm: what it does wrong on paper they would do wrong alike. What else is held against their
//! answers: both checkers say yes to each tree, and a scenario without any schedule, as the reference's verdicts find it,
//! is hopeless.

use comparison::compare::check;
use comparison::expected::expected_by;
use comparison::growth::{families, Member};
use comparison::library::{Library, Proved};
use comparison::plain::game::Position;
use comparison::plain::library::Plain;
use comparison::plain::moves::timely_moves;
use comparison::plain::pruning::soonest;
use comparison::plain::{self, tree::Node};
use comparison::plans::{fitted_plan, labelled_plan, large_plan, longest_plan};
use comparison::Case;
use reference::checker;
use reference::plan::{masks_inside, Plan, CONDITION, DECISION, HOPELESS};
use reference::random::Random;
use reference::text::{read_plan, write_plan};
use reference::verdict::verdict;
use std::collections::BTreeMap;

const TREE_BYTES: usize = 573;
const GUARD: [u8; 64] = [0x5A; 64];

/// How often each outcome was met.
#[derive(Default)]
struct Tally(BTreeMap<&'static str, usize>);

impl Tally {
    fn count(&mut self, outcome: &'static str, met: bool) {
        *self.0.entry(outcome).or_default() += usize::from(met);
    }

    fn expect(&self, needed: &[(&str, usize)]) {
        println!("{:?}", self.0);
        for (outcome, least) in needed {
            let met = self.0.get(outcome).copied().unwrap_or(0);
            assert!(met >= *least, "{outcome}: {met}, not {least}");
        }
    }
}

/// Prints the text of a plan when what it stands around panics.
struct Printed<'a>(&'a Plan);

impl Drop for Printed<'_> {
    fn drop(&mut self) {
        if std::thread::panicking() {
            let text = write_plan(self.0, usize::MAX).unwrap_or_default();
            eprintln!("the plan:\n{}", String::from_utf8_lossy(&text));
        }
    }
}

/// Whether the first table of the test decides: in some scenario no setting of the decisions has a schedule.
fn first_table_decides(plan: &Plan) -> bool {
    let [conditions, decisions] = [CONDITION, DECISION].map(|kind| plan.disclosed(plan.all_points(), kind));
    let none = |values| verdict(plan, values) == Ok(None);
    masks_inside(conditions).any(|heard| masks_inside(decisions).all(|made| none(heard | made)))
}

/// Whether the first move that the search tries is the one that it finds.
fn found_at_once(plan: &Plan, tree: &[u8]) -> bool {
    let plan = plain::Plan::from_bytes(&plan.to_bytes().try_into().expect("a record"));
    let start = Position::start(&plan);
    let first = timely_moves(&plan, &start, soonest(&plan, &start)).next();
    first == Node::front(tree)
}

/// The search of a plan: what the plain one answers and leaves, byte for byte, and what else is known of it.
fn compare_search(plan: &Plan, tally: &mut Tally) {
    let _printed = Printed(plan);
    let case = Case::Search { plan: plan.to_bytes(), tree: vec![0xEE; TREE_BYTES + 7] };
    let expected = expected_by(&Plain, &case);
    check(&case, &GUARD, &GUARD, &expected);
    match expected.answer {
        Ok(nodes) => {
            let tree = &expected.after[1][..3 * nodes];
            assert_eq!(Proved.check_tree(&plan.to_bytes(), tree), Ok(1));
            assert!(checker::check(plan, tree).is_ok());
            assert!(!first_table_decides(plan));
            tally.count("tree", true);
            tally.count("tree of more than 20 nodes", nodes > 20);
            tally.count("tree of 191 nodes", nodes == 191);
            tally.count("first move does not win", !found_at_once(plan, tree));
        }
        Err(HOPELESS) => {
            tally.count("hopeless", true);
            tally.count("hopeless, not by the first table", !first_table_decides(plan));
        }
        Err(refusal) => panic!("refused: {refusal}"),
    }
}

fn run(seed: u64, cases: usize, make: fn(&mut Random) -> Plan, needed: &[(&str, usize)]) {
    let (mut random, mut tally) = (Random(seed), Tally::default());
    for _ in 0..cases {
        compare_search(&make(&mut random), &mut tally);
    }
    tally.expect(needed);
}

#[test]
fn random_plans() {
    let needed =
        [("tree", 500), ("hopeless", 300), ("tree of more than 20 nodes", 150), ("first move does not win", 20)];
    run(201, 1200, large_plan, &needed);
}

#[test]
fn plans_fitted_to_trees() {
    let needed =
        [("tree", 800), ("hopeless", 100), ("tree of more than 20 nodes", 250), ("first move does not win", 300)];
    run(202, 1200, fitted_plan, &needed);
}

#[test]
fn plans_full_of_labels() {
    let needed = [("tree", 500), ("hopeless, not by the first table", 100), ("first move does not win", 60)];
    run(203, 1200, labelled_plan, &needed);
}

#[test]
fn longest_plans() {
    run(204, 200, longest_plan, &[("tree of 191 nodes", 60)]);
}

#[test]
fn plans_that_grow() {
    let mut tally = Tally::default();
    for Member { plan, twin, .. } in families().into_iter().flat_map(|family| family.members) {
        compare_search(&plan, &mut tally);
        twin.iter().for_each(|twin| compare_search(twin, &mut tally));
    }
    tally.expect(&[("tree", 18), ("hopeless, not by the first table", 13)]);
}

/// A decision that no crew may take makes all others early; that it may not, only probing finds. A filter of moves that
/// does not probe tries very many moves here.
#[test]
fn plans_in_which_the_filter_must_probe() {
    let mut tally = Tally::default();
    for name in ["selector28", "selector64"] {
        let text = std::fs::read(format!("{}/tests/plans/{name}.plan", env!("CARGO_MANIFEST_DIR"))).expect("a plan");
        let begun = std::time::Instant::now();
        compare_search(&read_plan(&text).expect("it is well formed"), &mut tally);
        assert!(begun.elapsed().as_secs() < 5, "{name} took {:?}", begun.elapsed());
    }
    tally.expect(&[("tree", 2)]);
}
