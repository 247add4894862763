//! What the comment at the top of a file of definitions says at its end: whether it is to be believed, and for what.

use super::antt::Kind;
use super::definitions::{Definitions, Source};
use super::reach::Reached;
use super::Statement;
use crate::repository::read;
use std::fs;
use std::path::Path;

/// The top of each list of modules.
pub const LIST: &str = "Definitions: the modules of this folder, in the order in which they are read.";
const NOT: &str = "Not to be believed: only theorems and inner contracts use it.";
const COMPUTED: &str = "Computed: pinned by ";
const BELIEVED: &str = "To be believed, for ";
const WIDTH: usize = 140;

/// The sentence for a file that these statements reach; none where none does.
pub fn sentence(statements: &[&Statement]) -> Option<String> {
    let (demands, others): (Vec<&Statement>, Vec<&Statement>) =
        statements.iter().partition(|s| s.word.starts_with("demand "));
    let words = |list: &[&Statement]| list.iter().map(|s| s.word.replace("demand ", "")).collect::<Vec<_>>();
    match (words(&demands).as_slice(), words(&others).as_slice()) {
        ([], []) => None,
        ([], [one]) => Some(format!("{BELIEVED}{one} only.")),
        ([], [more @ .., last]) => Some(format!("{BELIEVED}{} and {last} only.", more.join(", "))),
        (numbers, _) => Some(format!("{BELIEVED}demand {}.", numbers.join(", "))),
    }
}

/// What a header says of its file, and what of belief.
pub fn split(header: &str) -> (&str, &str) {
    let starts = [BELIEVED, COMPUTED, NOT].into_iter().filter_map(|start| header.rfind(start));
    let at = starts.max().unwrap_or(header.len());
    (header[..at].trim_end(), &header[at..])
}

/// The statements that reach a file.
pub fn reaching<'a>(statements: &'a [Statement<'a>], reached: &[Reached], file: usize) -> Vec<&'a Statement<'a>> {
    let both = statements.iter().zip(reached);
    both.filter(|(_, r)| r.items.iter().any(|(f, _)| *f == file)).map(|(s, _)| s).collect()
}

/// The faults of every header: it says something else than what is reached, or its file is of two kinds.
pub fn faults(root: &Path, definitions: &Definitions, statements: &[Statement], reached: &[Reached]) -> Vec<String> {
    let mut found = lists(root, definitions);
    for (n, source) in definitions.sources.iter().enumerate() {
        found.extend(mixed(n, source, reached));
        let header = source.file.header_text();
        let (description, said) = split(&header);
        if description.contains("believe") {
            found.push(format!("{}: its header speaks of belief before its last sentence", source.path()));
        }
        match sentence(&reaching(statements, reached, n)) {
            Some(wanted) if said == wanted => (),
            Some(wanted) => found.push(format!("{}: its header has to end: {wanted}", source.path())),
            None => found.extend(unreached(root, said).map(|e| format!("{}: {e}", source.path()))),
        }
    }
    found
}

/// A file has definitions that are reached and others that are not.
fn mixed(file: usize, source: &Source, reached: &[Reached]) -> Option<String> {
    let is_reached = |item: usize| reached.iter().any(|r| r.items.contains(&(file, item)));
    let items = source.file.items.iter().enumerate().filter(|(_, i)| i.public || i.kind != Kind::Definition);
    let (some, none): (Vec<_>, Vec<_>) = items.partition(|(n, _)| is_reached(*n));
    if some.is_empty() || none.is_empty() {
        return None;
    }
    let names: Vec<&str> = none.iter().map(|(_, i)| i.name.as_str()).collect();
    Some(format!("{}: no statement needs {}, and some need the rest of the file", source.path(), names.join(", ")))
}

/// What is wrong with the header of a file that nothing reaches.
fn unreached(root: &Path, said: &str) -> Option<String> {
    if said == NOT {
        return None;
    }
    let pinned = said.strip_prefix(COMPUTED).and_then(|s| s.strip_suffix('.')).and_then(|s| s.split_once(" of "));
    let Some((theorem, file)) = pinned else {
        return Some(format!("no statement reaches it, so its header ends: {COMPUTED}`..` of ... or: {NOT}"));
    };
    let theorem = theorem.trim_matches('`');
    let text = read(&root.join("crates").join(file)).unwrap_or_default();
    let declares = |l: &str| l.trim_start().trim_start_matches("pub ").starts_with(&format!("{theorem} :"));
    let there = file.contains("/proofs/") && text.lines().any(declares);
    (!there).then(|| format!("{file} has no theorem `{theorem}`"))
}

fn lists(root: &Path, definitions: &Definitions) -> Vec<String> {
    let files = definitions.crates.iter().map(|c| format!("{c}/specs/Lib.antt"));
    let text = |f: &String| read(&root.join("crates").join(f)).ok();
    let wrong = files.filter(|f| text(f).is_some_and(|t| t.lines().next() != Some(&format!("-- {LIST}"))));
    wrong.map(|f| format!("{f}: its first line has to be: -- {LIST}")).collect()
}

/// Writes the sentence that belongs there into each header that a statement reaches, unless it says that none does: such
/// a file has to be looked at. Writes the header of each list of modules too.
pub fn write(
    root: &Path,
    definitions: &Definitions,
    statements: &[Statement],
    reached: &[Reached],
) -> Result<(), String> {
    for krate in &definitions.crates {
        let file = root.join("crates").join(krate).join("specs/Lib.antt");
        if let Ok(text) = read(&file) {
            let modules = text.lines().skip_while(|l| l.starts_with("--")).map(|l| format!("{l}\n"));
            put(&file, &format!("-- {LIST}\n{}", modules.collect::<String>()))?;
        }
    }
    for (n, source) in definitions.sources.iter().enumerate() {
        let header = source.file.header_text();
        let Some(wanted) = sentence(&reaching(statements, reached, n)) else { continue };
        let (description, said) = split(&header);
        if said != wanted && (said.is_empty() || said.starts_with(BELIEVED)) {
            let file = root.join("crates").join(source.path());
            let body = source.file.lines[source.file.header..].join("\n");
            put(&file, &format!("{}\n{body}\n", wrapped(&format!("{description} {wanted}"))))?;
        }
    }
    Ok(())
}

fn put(file: &Path, text: &str) -> Result<(), String> {
    fs::write(file, text).map_err(|e| format!("{}: {e}", file.display()))
}

fn wrapped(text: &str) -> String {
    let mut lines = vec!["--".to_string()];
    for word in text.split_whitespace() {
        let last = lines.last().map_or(0, |l| l.chars().count());
        if last + 1 + word.chars().count() > WIDTH {
            lines.push("--".to_string());
        }
        if let Some(line) = lines.last_mut() {
            *line += &format!(" {word}");
        }
    }
    lines.join("\n")
}
