//! The names that a declaration mentions and does not bind itself.

use super::antt::{indent, is_comment, File, Item, Kind};
use std::collections::BTreeSet;

/// Words of the language, and what it has without a `use`.
const BUILT_IN: [&str; 20] = [
    "λ",
    "let",
    "in",
    "record",
    "data",
    "where",
    "pub",
    "abbrev",
    "unfoldable",
    "=",
    ":",
    "→",
    "×",
    "¬",
    "⊥",
    "Unit",
    "Type",
    ".",
    "_",
    "tt",
];

/// Names as they are written, in a qualified one its prefix too. `constructor` says of a name whether a pattern takes it
/// as such: any other name there is a variable.
pub fn mentioned(file: &File, item: &Item, constructor: &dyn Fn(&str) -> bool) -> BTreeSet<String> {
    let mut found = BTreeSet::new();
    let mut known: Vec<String> = Vec::new();
    if let Some(head) = item.module {
        let words = words(&file.lines[head.code..head.end].join("\n"));
        known = free(&words[2..], &known, &mut found);
    }
    let pieces = pieces(file, item);
    for (n, piece) in pieces.iter().enumerate() {
        match (item.kind, n) {
            (Kind::Definition, 0) => drop(free(after_name(piece), &known, &mut found)),
            (Kind::Definition, _) => clause(piece, &known, constructor, &mut found),
            (_, 0) => known = free(after_name(piece), &known, &mut found),
            (_, _) => {
                free(after_name(piece), &known, &mut found);
                known.extend(item.members.get(n - 1).cloned());
            }
        }
    }
    found.remove(&item.name);
    found
}

/// The signature and each clause of a definition; the head and each field of a record, constructor of a type.
fn pieces(file: &File, item: &Item) -> Vec<Vec<String>> {
    let level = if item.kind == Kind::Definition { item.indent } else { item.indent + 2 };
    let mut pieces: Vec<String> = Vec::new();
    for line in file.lines[item.span.code..item.span.end].iter().filter(|l| !is_comment(l)) {
        match pieces.last_mut() {
            Some(last) if indent(line) > level => *last += &format!("\n{line}"),
            _ => pieces.push(line.clone()),
        }
    }
    pieces.retain(|p| !p.trim_start().starts_with("unfolding "));
    pieces.iter().map(|p| words(p)).collect()
}

/// Behind the marks and the name.
fn after_name(piece: &[String]) -> &[String] {
    let marks = ["abbrev", "unfoldable", "pub", "record", "data"];
    let name = piece.iter().position(|w| !marks.contains(&w.as_str())).unwrap_or(0);
    &piece[name + 1..]
}

/// A clause: what stands before its `=` are patterns.
fn clause(piece: &[String], known: &[String], constructor: &dyn Fn(&str) -> bool, found: &mut BTreeSet<String>) {
    let equals = piece.iter().position(|w| w == "=").unwrap_or(piece.len());
    let mut known = known.to_vec();
    for word in piece[..equals].iter().skip(1).filter(|w| is_name(w)) {
        if word.contains('.') || constructor(word) {
            found.insert(word.clone());
        } else {
            known.push(word.clone());
        }
    }
    free(&piece[equals..], &known, found);
}

/// An opened bracket: how many names were known before it, the names that it binds for what stands behind it, and
/// whether it is a record's, in which labels stand before `=`.
struct Bracket {
    before: usize,
    binds: Vec<String>,
    labels: bool,
}

/// Adds the names that are mentioned and not known. What is known behind the words, at the outermost level.
fn free(words: &[String], known: &[String], found: &mut BTreeSet<String>) -> Vec<String> {
    let mut known = known.to_vec();
    let mut open: Vec<Bracket> = Vec::new();
    let mut at = 0;
    while at < words.len() {
        match words[at].as_str() {
            "(" | "{" => {
                let binds = binders(&words[at + 1..]);
                let labels = at > 0 && words[at - 1] == "record";
                at += if labels { label(&words[at + 1..]) } else { binds.len() };
                open.push(Bracket { before: known.len(), binds, labels });
            }
            ")" | "}" => {
                let bracket = open.pop().unwrap_or(Bracket { before: 0, binds: Vec::new(), labels: false });
                known.truncate(bracket.before);
                known.extend(bracket.binds);
            }
            "," | ";" => {
                known.truncate(open.last().map_or(known.len(), |b| b.before));
                at += if open.last().is_some_and(|b| b.labels) { label(&words[at + 1..]) } else { 0 };
            }
            "λ" | "let" => {
                let names = words[at + 1..].iter().take_while(|w| is_name(w)).cloned().collect::<Vec<_>>();
                at += names.len();
                known.extend(names);
            }
            word if is_name(word) && !known.iter().any(|k| k == word || is_field(word, k)) => {
                found.insert(word.to_string());
            }
            _ => (),
        }
        at += 1;
    }
    known
}

/// `x y :` behind an opened bracket binds them.
fn binders(words: &[String]) -> Vec<String> {
    let names: Vec<String> = words.iter().take_while(|w| is_name(w)).cloned().collect();
    if words.get(names.len()).is_some_and(|w| w == ":") {
        names
    } else {
        Vec::new()
    }
}

/// Whether a word names a field of this variable.
fn is_field(word: &str, variable: &str) -> bool {
    word.strip_prefix(variable).is_some_and(|rest| rest.starts_with('.'))
}

/// How many words a label takes that stands before `=`.
fn label(words: &[String]) -> usize {
    usize::from(words.get(1).is_some_and(|w| w == "="))
}

/// Not a word of the language, a number, a text, a bracket or the field of something.
fn is_name(word: &str) -> bool {
    let first = word.chars().next().unwrap_or(' ');
    !BUILT_IN.contains(&word) && !first.is_ascii_digit() && !"\".(){};,".contains(first)
}

/// The words of some code. Brackets, commas and the dot behind what λ binds stand by themselves.
pub fn words(code: &str) -> Vec<String> {
    let mut found: Vec<String> = Vec::new();
    let mut word = String::new();
    let mut quoted = false;
    for c in code.chars() {
        if c == '"' {
            quoted = !quoted;
        }
        if !quoted && (c.is_whitespace() || "(){};,".contains(c)) {
            push(&mut found, std::mem::take(&mut word));
            push(&mut found, c.to_string());
        } else {
            word.push(c);
        }
    }
    push(&mut found, word);
    found
}

fn push(found: &mut Vec<String>, word: String) {
    match word.strip_suffix('.') {
        _ if word.trim().is_empty() => (),
        Some(name) if !name.is_empty() && !word.starts_with('"') => found.extend([name.to_string(), ".".to_string()]),
        _ => found.push(word),
    }
}
