//! The interpreter of case files: what each line must print.

use crate::checker::check;
use crate::differences::differences;
use crate::plan::{Plan, Refusal};
use crate::run::{report, show, History, Told};
use crate::text::{read_plan, read_tree, write_plan, write_tree, TREE_BYTES};
use crate::verdict::{screen, verdict};

/// What is kept from line to line.
struct Kept {
    plan: Plan,
    tree: Vec<u8>,
    history: History,
}

pub fn hex(bytes: &[u8]) -> String {
    bytes.iter().map(|byte| format!("{byte:02X}")).collect()
}

fn bytes_of(digits: &[u8]) -> Vec<u8> {
    let digits = std::str::from_utf8(digits).expect("HEX");
    assert!(digits.len().is_multiple_of(2), "HEX has two digits to a byte");
    (0..digits.len() / 2).map(|i| u8::from_str_radix(&digits[2 * i..2 * i + 2], 16).expect("HEX")).collect()
}

pub fn exchange(text: &[u8], from: u8, to: u8) -> Vec<u8> {
    text.iter().map(|&byte| if byte == from { to } else { byte }).collect()
}

fn refusal(number: Refusal) -> String {
    format!("7F{number:02X}")
}

fn written(answer: Result<Vec<u8>, Refusal>) -> Vec<u8> {
    answer.map_or_else(|number| refusal(number).into_bytes(), |text| exchange(&text, b'\n', b'|'))
}

impl Kept {
    fn showing(&self) -> String {
        match show(&self.plan, &self.tree, &self.history) {
            Ok(Told::Instruct { slot, points, choices }) => format!("instruct {}", hex(&[slot, points, choices])),
            Ok(Told::Done) => "done".to_string(),
            Err(number) => refusal(number),
        }
    }

    fn reporting(&mut self, mask: u8) -> String {
        let (answer, history) = report(&self.plan, &self.tree, &self.history, mask);
        self.history = history;
        let word = answer.map_or_else(refusal, |()| "fine".to_string());
        format!("{word} {:02X}{}", history.count, hex(&history.masks))
    }

    fn verdict(&self, mask: u8) -> String {
        match verdict(&self.plan, mask) {
            Ok(Some(schedule)) => format!("least {}", hex(&schedule)),
            Ok(None) => format!("none {}", hex(&[0; 8])),
            Err(number) => format!("{} {}", refusal(number), hex(&[0; 8])),
        }
    }

    fn differences(&self, mask: u8) -> String {
        let (word, table) = match differences(&self.plan, mask) {
            Ok(Some(table)) => ("table".to_string(), table),
            Ok(None) => ("none".to_string(), [[0; 8]; 8]),
            Err(number) => (refusal(number), [[0; 8]; 8]),
        };
        let entries: String = table.iter().flatten().map(|entry| hex(&entry.to_be_bytes())).collect();
        format!("{word} {entries}")
    }

    fn screen(&self) -> String {
        let word = |passes| if passes { "passes" } else { "fails" }.to_string();
        screen(&self.plan).map_or_else(refusal, word)
    }

    fn call(&mut self, line: &[u8]) -> Vec<u8> {
        let given = line.get(2..).unwrap_or(&[]);
        let text = || exchange(given, b'|', b'\n');
        match line[0] {
            b'#' => line.to_vec(),
            b'p' => {
                let read = read_plan(&text());
                self.plan = read.unwrap_or(Plan::zero());
                written(read.and_then(|plan| write_plan(&plan, 1025)))
            }
            b'r' => {
                self.plan = Plan::from_bytes(&bytes_of(given));
                written(write_plan(&self.plan, 1025))
            }
            b't' => {
                let read = read_tree(&text(), TREE_BYTES);
                self.tree = read.clone().unwrap_or_default();
                written(read.and_then(|tree| write_tree(&tree, 1724)))
            }
            b'b' => {
                self.tree = bytes_of(given);
                written(write_tree(&self.tree, 1724))
            }
            b'c' => check(&self.plan, &self.tree).map_or_else(refusal, |_| "yes".to_string()).into_bytes(),
            b'm' => self.verdict(bytes_of(given)[0]).into_bytes(),
            b'd' => self.differences(bytes_of(given)[0]).into_bytes(),
            b's' => self.screen().into_bytes(),
            b'h' => {
                let bytes = bytes_of(given);
                self.history = History { count: bytes[0], masks: bytes[1..].try_into().expect("eight masks") };
                self.showing().into_bytes()
            }
            b'i' => self.showing().into_bytes(),
            b'o' => self.reporting(bytes_of(given)[0]).into_bytes(),
            other => panic!("no call is named by byte {other}"),
        }
    }
}

/// The lines that a case file must print.
pub fn answers(file: &[u8]) -> Vec<u8> {
    let mut kept = Kept { plan: Plan::zero(), tree: Vec::new(), history: History::default() };
    let mut printed = Vec::new();
    for line in file.split_inclusive(|&byte| byte == b'\n') {
        let (end, line) = line.split_last().expect("a line");
        assert!(*end == b'\n', "each line is ended by a line feed");
        printed.extend(kept.call(line));
        printed.push(b'\n');
    }
    printed
}
