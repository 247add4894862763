//! Random cases of every call against the reference: fixed seeds, or with COMPARISON_CASES=N as many as N in all.
//!
//! COMPARISON_SEED=S chooses the seed of a long run, which is printed; without it the clock does. COMPARISON_SAY=1
//! prints every case before it is run, for a call that does not come back (with `-- --nocapture --test-threads=1`).

use comparison::cases;
use comparison::compare::{check, Pasted};
use comparison::expected::expected;
use comparison::made::Trial;
use comparison::tally::Tally;
use reference::random::Random;
use std::io::Write;
use std::sync::atomic::{AtomicUsize, Ordering};
use std::sync::OnceLock;
use std::time::{Instant, SystemTime, UNIX_EPOCH};

/// A call's cases: its seed and how many there are, how they are made, and what they must meet at least.
struct Call {
    seed: u64,
    cases: usize,
    make: fn(&mut Random) -> Trial,
    needed: &'static [(&'static str, usize)],
    /// The buffers whose lengths must be met on both sides of what they need.
    sized: &'static [&'static str],
}

/// The number of cases of a long run, its seed, and when it began.
struct Long {
    cases: usize,
    seed: u64,
    began: Instant,
}

fn long() -> Option<&'static Long> {
    static LONG: OnceLock<Option<Long>> = OnceLock::new();
    let read = || {
        let cases = std::env::var("COMPARISON_CASES").ok()?.parse().expect("COMPARISON_CASES is a number");
        let clock = || SystemTime::now().duration_since(UNIX_EPOCH).expect("a clock").as_nanos() as u64;
        let seed = std::env::var("COMPARISON_SEED").map_or_else(|_| clock(), |seed| seed.parse().expect("a number"));
        say(&format!("COMPARISON_CASES={cases} COMPARISON_SEED={seed}"));
        Some(Long { cases, seed, began: Instant::now() })
    };
    LONG.get_or_init(read).as_ref()
}

/// A line that is seen while the tests run.
fn say(line: &str) {
    let _ = writeln!(std::io::stderr(), "{line}");
}

/// Counts a case over all calls; one line for each 100,000.
fn progress(long: &Long) {
    static RUN: AtomicUsize = AtomicUsize::new(0);
    let run = RUN.fetch_add(1, Ordering::Relaxed) + 1;
    if run.is_multiple_of(100_000) {
        say(&format!("{run} cases, {} s", long.began.elapsed().as_secs()));
    }
}

fn run(call: &Call) {
    let all: usize = CALLS.iter().map(|call| call.cases).sum();
    let long = long();
    let cases = long.map_or(call.cases, |long| (long.cases * call.cases).div_ceil(all));
    let seed = long.map_or(0, |long| long.seed).wrapping_mul(1000).wrapping_add(call.seed);
    let (mut random, mut tally, began) = (Random(seed), Tally::default(), Instant::now());
    for _ in 0..cases {
        let Trial { case, before, behind } = (call.make)(&mut random);
        let _pasted = Pasted { case: &case, before: &before, behind: &behind };
        let expected = expected(&case);
        check(&case, &before, &behind, &expected);
        tally.count(&case, &expected);
        long.iter().for_each(|long| progress(long));
    }
    println!("{cases} cases, {} ms\n{}", began.elapsed().as_millis(), tally.lines());
    let lacking = tally.lacking(call.needed, call.sized);
    assert!(cases < call.cases || lacking.is_empty(), "too few cases met: {}", lacking.join("; "));
}

const JUDGE_PLAN: Call = Call {
    seed: 1,
    cases: 12000,
    make: cases::judge_plan,
    needed: &[("yes", 4000), ("2", 1000), ("3", 1000), ("4", 1000), ("10", 400)],
    sized: &["plan"],
};

const READ_PLAN: Call = Call {
    seed: 2,
    cases: 12000,
    make: cases::read_plan_text,
    needed: &[
        ("read", 4000),
        ("1", 2000),
        ("2", 200),
        ("3", 200),
        ("4", 200),
        ("10", 500),
        ("plan longer, 1", 500),
        ("plan longer, 2", 50),
        ("plan longer, 3", 50),
        ("plan longer, 4", 50),
    ],
    sized: &["plan"],
};

const WRITE_PLAN: Call = Call {
    seed: 3,
    cases: 12000,
    make: cases::write_plan_text,
    needed: &[("written", 3500), ("2", 1000), ("3", 1000), ("4", 1000), ("10", 800)],
    sized: &["plan", "text"],
};

const READ_TREE: Call = Call {
    seed: 4,
    cases: 12000,
    make: cases::read_tree_text,
    needed: &[
        ("read", 4000),
        ("5", 2500),
        ("10", 600),
        ("nodes: one", 500),
        ("nodes: some", 2500),
        ("nodes: many", 400),
        ("nodes: 191", 200),
        ("tree longer, 5", 500),
    ],
    sized: &["tree"],
};

const WRITE_TREE: Call = Call {
    seed: 5,
    cases: 10000,
    make: cases::write_tree_text,
    needed: &[
        ("written", 4000),
        ("6", 1500),
        ("6, nodes: none", 20),
        ("6, nodes: not of three", 500),
        ("6, nodes: 192", 20),
        ("10", 300),
    ],
    sized: &["text"],
};

const CHECK_TREE: Call = Call {
    seed: 6,
    cases: 20000,
    make: cases::check_tree,
    needed: &[
        ("yes", 4000),
        ("2", 300),
        ("3", 300),
        ("4", 300),
        ("6", 1500),
        ("7", 500),
        ("10", 150),
        ("nodes: one", 400),
        ("nodes: some", 2500),
        ("nodes: many", 150),
        ("nodes: 191", 40),
        ("6, nodes: none", 20),
        ("6, nodes: not of three", 200),
        ("6, nodes: 192", 20),
    ],
    sized: &["plan"],
};

const SEARCH: Call = Call {
    seed: 7,
    cases: 8000,
    make: cases::search,
    needed: &[
        ("tree", 3000),
        ("2", 150),
        ("3", 200),
        ("4", 200),
        ("10", 500),
        ("11", 900),
        ("nodes: one", 80),
        ("nodes: some", 2000),
        ("nodes: many", 150),
        ("nodes: 191", 100),
        ("by the exhaustive game", 500),
        ("tree just enough, 11", 200),
        ("tree longer, 11", 200),
    ],
    sized: &["plan", "tree"],
};

const SHOW: Call = Call {
    seed: 8,
    cases: 10000,
    make: cases::show,
    needed: &[
        ("instruction", 2000),
        ("done", 600),
        ("2", 150),
        ("3", 150),
        ("4", 150),
        ("6", 300),
        ("7", 80),
        ("8, count", 400),
        ("8, unused mask", 300),
        ("8, mask", 150),
        ("9", 150),
        ("10", 1000),
    ],
    sized: &["plan", "history", "instruction"],
};

const REPORT: Call = Call {
    seed: 9,
    cases: 10000,
    make: cases::report,
    needed: &[
        ("accepted", 1300),
        ("2", 150),
        ("3", 150),
        ("4", 150),
        ("6", 300),
        ("7", 100),
        ("8, count", 400),
        ("8, unused mask", 300),
        ("8, mask", 800),
        ("9, mask 0", 400),
        ("9, mask else", 250),
        ("10", 600),
        ("history longer, 8", 200),
        ("history longer, 9", 100),
    ],
    sized: &["plan", "history"],
};

const FOLLOW: Call = Call {
    seed: 10,
    cases: 6000,
    make: cases::follow,
    needed: &[
        ("0 accepted", 1000),
        ("1 accepted", 300),
        ("2 accepted", 300),
        ("3 accepted", 200),
        ("4 accepted", 120),
        ("5 accepted", 50),
        ("6 accepted", 20),
        ("7 accepted", 15),
        ("8 accepted", 10),
        ("10", 600),
        ("odd list", 600),
    ],
    sized: &["plan", "history", "steps"],
};

const LEAST_SCHEDULE: Call = Call {
    seed: 11,
    cases: 12000,
    make: cases::least_schedule,
    needed: &[
        ("schedule", 3000),
        ("none", 1300),
        ("2", 300),
        ("3", 300),
        ("4", 300),
        ("8", 1000),
        ("10", 700),
        ("10, plan short: zeros anew", 150),
        ("10, plan short: no place", 5),
        ("schedule longer, 8", 300),
        ("by enumeration", 1000),
    ],
    sized: &["plan", "schedule"],
};

const DIFFERENCES: Call = Call {
    seed: 14,
    cases: 12000,
    make: cases::differences,
    needed: &[
        ("table", 3000),
        ("none", 1300),
        ("2", 300),
        ("3", 300),
        ("4", 300),
        ("8", 1000),
        ("10", 700),
        ("10, plan short: zeros anew", 150),
        ("10, plan short: no place", 5),
        ("table longer, 2", 100),
        ("table longer, 3", 100),
        ("table longer, 4", 100),
        ("table longer, 8", 300),
        ("table of eight points", 300),
        ("an order is forced", 1000),
        ("no order is forced", 300),
        ("by enumeration", 1000),
    ],
    sized: &["plan", "table"],
};

const SCREEN: Call = Call {
    seed: 12,
    cases: 10000,
    make: cases::screen,
    needed: &[
        ("passes", 2500),
        ("fails", 2000),
        ("2", 250),
        ("3", 250),
        ("4", 250),
        ("10", 100),
        ("by enumeration", 1000),
    ],
    sized: &["plan"],
};

const ANSWER: Call = Call {
    seed: 13,
    cases: 5000,
    make: cases::answer,
    needed: &[
        ("tree", 1000),
        ("7F01", 800),
        ("7F02", 100),
        ("7F03", 100),
        ("7F04", 80),
        ("7F0B", 350),
        ("10", 250),
        ("longest plan", 80),
        ("longest plan and more", 40),
    ],
    sized: &["text"],
};

const CALLS: [Call; 14] = [
    JUDGE_PLAN,
    READ_PLAN,
    WRITE_PLAN,
    READ_TREE,
    WRITE_TREE,
    CHECK_TREE,
    SEARCH,
    SHOW,
    REPORT,
    FOLLOW,
    LEAST_SCHEDULE,
    DIFFERENCES,
    SCREEN,
    ANSWER,
];

#[test]
fn judge_plan() {
    run(&JUDGE_PLAN);
}

#[test]
fn read_plan() {
    run(&READ_PLAN);
}

#[test]
fn write_plan() {
    run(&WRITE_PLAN);
}

#[test]
fn read_tree() {
    run(&READ_TREE);
}

#[test]
fn write_tree() {
    run(&WRITE_TREE);
}

#[test]
fn check_tree() {
    run(&CHECK_TREE);
}

#[test]
fn search() {
    run(&SEARCH);
}

#[test]
fn show() {
    run(&SHOW);
}

#[test]
fn report() {
    run(&REPORT);
}

#[test]
fn follow() {
    run(&FOLLOW);
}

#[test]
fn least_schedule() {
    run(&LEAST_SCHEDULE);
}

#[test]
fn differences() {
    run(&DIFFERENCES);
}

#[test]
fn screen() {
    run(&SCREEN);
}

#[test]
fn answer() {
    run(&ANSWER);
}
