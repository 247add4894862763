//! The tables of times, and what stands above them.

use crate::meter::{measure, Implementation, PLAIN, PROVED, REFERENCE, SAMPLE, SLOW};
use crate::vectors::Vector;
use crate::{fail, Options, CALLS, GROUPS};
use std::process::Command;
use std::time::Duration;

/// What is promised of the proved search on each vector.
const PROMISED: Duration = Duration::from_millis(500);

// Numbers.

/// Three digits and a unit.
pub fn time_text(seconds: f64) -> String {
    let (value, unit) = match seconds {
        s if s < 1e-6 => (s * 1e9, "ns"),
        s if s < 1e-3 => (s * 1e6, "µs"),
        s if s < 1.0 => (s * 1e3, "ms"),
        s => (s, "s"),
    };
    let digits = if value < 10.0 { 2 } else { usize::from(value < 100.0) };
    format!("{value:.digits$} {unit}")
}

/// The seconds of one implementation on some inputs, rising.
struct Times(Vec<f64>);

impl Times {
    fn of(seconds: &[Vec<f64>], implementation: usize) -> Times {
        let mut sorted: Vec<f64> = seconds.iter().map(|input| input[implementation]).collect();
        sorted.sort_by(f64::total_cmp);
        Times(sorted)
    }

    fn median(&self) -> f64 {
        (self.0[(self.0.len() - 1) / 2] + self.0[self.0.len() / 2]) / 2.0
    }

    /// The least time that this share of the inputs does not exceed.
    fn share(&self, share: f64) -> f64 {
        let count = (share * self.0.len() as f64).ceil() as usize;
        self.0[count.max(1) - 1]
    }

    fn worst(&self) -> f64 {
        self.share(1.0)
    }

    fn sum(&self) -> f64 {
        self.0.iter().sum()
    }
}

/// Measures a call on vectors: how many of them have inputs for it, and the seconds of each input.
fn measured<'a>(
    call: &str,
    vectors: impl Iterator<Item = &'a Vector>,
    implementations: &[Implementation],
    samples: usize,
) -> (usize, Vec<Vec<f64>>) {
    let (mut plans, mut seconds) = (0, Vec::new());
    for vector in vectors {
        let (cases, place) = (vector.cases(call), format!("{call} on {}", vector.name));
        plans += usize::from(!cases.is_empty());
        for case in &cases {
            let found = measure(&place, case, implementations, samples);
            if call == "search" {
                check_search(&place, vector, found.answer, &found.buffers[1], found.seconds[0]);
            }
            seconds.push(found.seconds);
        }
    }
    (plans, seconds)
}

/// Ends the program where a search is not what the vector says, or takes longer than was promised.
fn check_search(place: &str, vector: &Vector, answer: Result<usize, u8>, tree: &[u8], seconds: f64) {
    let (expected, nodes) = vector.searched();
    if answer != expected || tree != nodes {
        fail(format!("{place}: {answer:?}, not what the vector says"), 1);
    }
    if seconds > PROMISED.as_secs_f64() {
        let (taken, most) = (time_text(seconds), time_text(PROMISED.as_secs_f64()));
        fail(format!("{place}: the proved library takes {taken}, more than the {most} promised"), 1);
    }
}

fn in_group<'a>(vectors: &'a [Vector], group: &'a str) -> impl Iterator<Item = &'a Vector> {
    vectors.iter().filter(move |vector| vector.group() == group)
}

// The search.

const SEARCHING: [Implementation; 2] = [PROVED, PLAIN];
const COLUMNS: [&str; 7] = ["least", "quarter", "median", "3 quarters", "9 of 10", "worst", "sum"];

/// What stands in the columns.
fn spread(times: &Times) -> [f64; 7] {
    let share = |share| times.share(share);
    [share(0.0), share(0.25), times.median(), share(0.75), share(0.9), times.worst(), times.sum()]
}

fn print_spread(group: &str, seconds: &[Vec<f64>]) {
    let rows = [0, 1].map(|i| spread(&Times::of(seconds, i)));
    for (i, row) in rows.iter().enumerate() {
        let (group, plans) = if i == 0 { (group, seconds.len().to_string()) } else { ("", String::new()) };
        print!("{group:<7}{plans:>5}  {:<7}", SEARCHING[i].name);
        row.iter().for_each(|&time| print!("{:>11}", time_text(time)));
        println!();
    }
    print!("{:<14}{:<7}", "", "ratio");
    for column in 0..COLUMNS.len() {
        let ratio = format!("{:.2}", rows[0][column] / rows[1][column]);
        print!("{:>11}", if matches!(COLUMNS[column], "median" | "worst" | "sum") { &ratio } else { "" });
    }
    println!();
}

/// The searches group by group, and all of them.
pub fn print_searches(vectors: &[Vector], options: &Options) {
    println!("search: how the times of the plans of a group are spread, and proved / plain");
    print!("{:<7}{:>5}  {:<7}", "group", "plans", "");
    COLUMNS.iter().for_each(|column| print!("{column:>11}"));
    println!();
    let mut all = Vec::new();
    for group in GROUPS.into_iter().filter(|group| options.group(group)) {
        let (_, seconds) = measured("search", in_group(vectors, group), &SEARCHING, options.samples);
        print_spread(group, &seconds);
        all.extend(seconds);
    }
    if options.group.is_none() {
        print_spread("all", &all);
    }
    println!();
}

// The other calls.

const CALLING: [Implementation; 3] = [PROVED, REFERENCE, PLAIN];

/// A line for each call and group: the median and the worst of its inputs.
pub fn print_calls(vectors: &[Vector], options: &Options) {
    let [proved, reference, plain] = CALLING.map(|implementation| implementation.name);
    println!("{:<34}{proved:^21}{reference:^21}{plain:^21}{:^17}", "", "proved / plain");
    print!("{:<15}{:<6}{:>6}{:>7}", "call", "group", "plans", "inputs");
    CALLING.iter().for_each(|_| print!("  {:>9}{:>10}", "median", "worst"));
    println!("  {:>8}{:>7}", "median", "worst");
    for call in CALLS.into_iter().filter(|call| options.call(call)) {
        for group in GROUPS.into_iter().filter(|group| options.group(group)) {
            let (plans, seconds) = measured(call, in_group(vectors, group), &CALLING, options.samples);
            if plans > 0 {
                print_call(call, group, plans, &seconds);
            }
        }
    }
}

fn print_call(call: &str, group: &str, plans: usize, seconds: &[Vec<f64>]) {
    let times = [0, 1, 2].map(|i| Times::of(seconds, i));
    print!("{call:<15}{group:<6}{plans:>6}{:>7}", seconds.len());
    times.iter().for_each(|t| print!("  {:>9}{:>10}", time_text(t.median()), time_text(t.worst())));
    let [proved, _, plain] = &times;
    println!("  {:>8.2}{:>7.2}", proved.median() / plain.median(), proved.worst() / plain.worst());
}

// What stands above the tables.

/// What a compiler says of itself, or nothing.
fn version(program: &str, word: &str) -> String {
    let said = Command::new(program).arg(word).output();
    let said = said.map_or(String::new(), |output| String::from_utf8_lossy(&output.stdout).trim().to_string());
    if said.is_empty() {
        format!("{program} unknown")
    } else {
        said
    }
}

/// Which library was linked as the proved one. A folder named by hand may hold any other.
fn linked() -> String {
    match option_env!("TUREENLARK_LIBRARY") {
        Some(folder) => format!("NOT KNOWN TO BE PROVED: the library that TUREENLARK_LIBRARY={folder} named"),
        None => "the proved library, through its safe wrapper".to_string(),
    }
}

/// What the vectors are to the calls.
fn inputs() -> String {
    format!(
        "\
Inputs: the vectors of crates/vectors. A plan text that is refused counts for read_plan only; search has every other
vector. Trees are the vectors' own. show, report: at the start, and at the last node of the first and of the last path.
least_schedule, differences: every setting of the letters.
search is measured without the reference, which does not finish the hard plans. Quarter, 3 quarters, 9 of 10: such a
share of the plans takes so long at most. The run fails where a search does not give the bytes of the vector's output,
or takes the proved library longer than {}. A row of the other calls: the median and the worst of its inputs.",
        time_text(PROMISED.as_secs_f64())
    )
}

pub fn print_heading(options: &Options) {
    let (samples, sample, slow) = (options.samples, SAMPLE.as_micros(), SLOW.as_millis());
    println!("Time of one call in these implementations, all built for release and run in one program:");
    println!("  proved     {}", linked());
    println!("  plain      the proved library's algorithms in ordinary Rust ({})", version("rustc", "--version"));
    if !options.growth {
        println!("  reference  the second planner, plain rather than fast (the same compiler)");
        println!("{}", inputs());
    }
    println!(
        "\
One input: the least of {samples} samples and the first call, the implementations taking turns. A sample is as many
calls in a row as take {sample} µs or more. Where a first call takes {slow} ms there are 3 samples.
Plans cross as records of 400 bytes, histories of 9: each implementation decodes them, and encodes what it hands back,
inside the timed call. Buffers are allocated before, zero at first, and not cleared between calls; only before a report
the nine bytes of its history are given anew, inside the timed part.
The run fails where an answer differs between the implementations, or a byte left in the buffers.
"
    );
}
