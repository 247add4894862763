//! The benchmark: how long the calls take in the proved library, the reference and the plain planner, as tables.
//!
//! `benchmark [--growth] [--group NAME] [--call NAME] [--quick]`. What is measured, and how, is said above the tables.
//! Every answer is compared on the way; a difference ends the program with status 1, and so does a search that takes
//! the proved library longer than was promised.

mod growth;
mod meter;
mod tables;
mod vectors;

use std::fmt::Display;
use std::process::exit;

pub const GROUPS: [&str; 5] = ["K", "edge", "small", "full", "worst"];

/// The calls but for the search, which has a table of its own.
pub const CALLS: [&str; 10] = [
    "check_tree",
    "show",
    "report",
    "read_plan",
    "write_plan",
    "read_tree",
    "write_tree",
    "least_schedule",
    "differences",
    "screen",
];

pub fn fail(message: impl Display, status: i32) -> ! {
    eprintln!("benchmark: {message}");
    exit(status)
}

/// What the command line asks.
pub struct Options {
    growth: bool,
    group: Option<String>,
    call: Option<String>,
    samples: usize,
}

impl Options {
    fn read(mut words: impl Iterator<Item = String>) -> Options {
        let calls = [&["search"], &CALLS[..]].concat();
        let mut options = Options { growth: false, group: None, call: None, samples: 9 };
        while let Some(word) = words.next() {
            match word.as_str() {
                "--growth" => options.growth = true,
                "--group" => options.group = one_of(&GROUPS, words.next(), "--group"),
                "--call" => options.call = one_of(&calls, words.next(), "--call"),
                "--quick" => options.samples = 3,
                _ => fail("usage: benchmark [--growth] [--group NAME] [--call NAME] [--quick]", 2),
            }
        }
        options
    }

    fn group(&self, name: &str) -> bool {
        self.group.as_deref().is_none_or(|chosen| chosen == name)
    }

    fn call(&self, name: &str) -> bool {
        self.call.as_deref().is_none_or(|chosen| chosen == name)
    }
}

fn one_of(known: &[&str], word: Option<String>, option: &str) -> Option<String> {
    match word {
        Some(word) if known.contains(&word.as_str()) => Some(word),
        _ => fail(format!("{option} wants one of {}", known.join(", ")), 2),
    }
}

fn main() {
    let options = Options::read(std::env::args().skip(1));
    tables::print_heading(&options);
    if options.growth {
        return growth::print(options.samples);
    }
    let vectors = vectors::all();
    if options.call("search") {
        tables::print_searches(&vectors, &options);
    }
    if CALLS.iter().any(|call| options.call(call)) {
        tables::print_calls(&vectors, &options);
    }
}
