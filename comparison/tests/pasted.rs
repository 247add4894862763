//! Cases that stand alone. A comparison that fails prints one; it is pasted here and stays.

use comparison::plans::{chained, lowest};
use comparison::{compare, compare_between, hex, Case};
use reference::known::k;

/// K1 to K10 are searched into a buffer of 573 bytes, and into one that is longer.
#[test]
fn k1_to_k10() {
    for (number, length) in (1..=10).flat_map(|number| [(number, 573), (number, 600)]) {
        compare(&Case::Search { plan: k(number).to_bytes(), tree: vec![0xEE; length] });
    }
}

/// K4's text is answered into just as many bytes as it needs, and into one less: 10.
#[test]
fn k4_answered() {
    let input =
        hex("303130323032303130320A30323030303030300A30333030303130303031303130310A303330313030464646453031303\
        00A");
    for length in [32, 31] {
        compare(&Case::Answer { input: input.clone(), text: vec![0xEE; length] });
    }
}

/// A tree of 572 bytes cannot be lent: 10, before the text is looked at.
#[test]
fn a_byte_short() {
    compare(&Case::ReadTree { text: hex(""), tree: vec![0xEE; 572] });
}

/// A history cut to eight bytes, with what was cut off behind it: 10.
#[test]
fn a_history_cut() {
    compare_between(
        &Case::Report { plan: k(1).to_bytes(), tree: hex("000100"), history: hex("0000000000000000"), mask: 0 },
        &hex("A5A5A5A5"),
        &hex("00A5A5A5"),
    );
}

/// A plan cut short is 10: the schedule's eight bytes are zero where they are there, and fewer bytes stay.
#[test]
fn a_plan_cut() {
    for (length, place) in [399, 0].into_iter().flat_map(|length| [(length, 8), (length, 20), (length, 7), (length, 0)])
    {
        let plan = k(4).to_bytes()[..length].to_vec();
        compare(&Case::LeastSchedule { plan, values: 0, schedule: vec![0xEE; place] });
    }
}

/// The same of the table's 128 bytes.
#[test]
fn a_plan_cut_beside_a_table() {
    for (length, place) in
        [399, 0].into_iter().flat_map(|length| [(length, 128), (length, 140), (length, 127), (length, 0)])
    {
        let plan = k(4).to_bytes()[..length].to_vec();
        compare(&Case::Differences { plan, values: 0, table: vec![0xEE; place] });
    }
}

/// All eight points forced one behind the other, from slot 0 to slot 63; with a slot less none, and none by far.
#[test]
fn tables_at_their_limits() {
    for plan in [chained(63), chained(62), lowest()] {
        compare(&Case::Differences { plan: plan.to_bytes(), values: 0, table: vec![0xEE; 128] });
    }
}

/// K1 to K10, which have two letters at most, under every mask of three: tables, none and 8.
#[test]
fn differences_of_k1_to_k10() {
    for (number, values) in (1..=10).flat_map(|number| (0..8).map(move |values| (number, values))) {
        compare(&Case::Differences { plan: k(number).to_bytes(), values, table: vec![0xEE; 131] });
    }
}
