//! The pages: for each statement, in order, every definition that it needs and that no statement before it needed.

use super::definitions::{Definitions, Source};
use super::reach::Reached;
use super::{Statement, CALLS, CARDS, PAGE, PAGES};
use std::collections::{BTreeMap, BTreeSet};

const TOP: &str = "\
# What must be believed

To believe what the theorems say, read this page, docs/BELIEVED-CALLS.md and docs/BELIEVED-CARDS.md, and nothing else: each
statement with every definition that it needs, cut from the files, definitions before their users. A definition stands where
it is needed first. This page has what the planner is for: demand 2, the texts and the checker, and demand 3, the search and
the crew's run. What is on none of the pages is pinned by theorems, or used by proofs and inner contracts alone; the first
lines of each file of `crates/*/specs` say which. `gate believed --write` makes the pages, `tests/believed` fails where they
are not as the files are.
";

const TOP_OF_CALLS: &str = "\
# What must be believed of each call

The second page, behind docs/BELIEVED.md, whose definitions are not repeated: what each call answers and leaves in the bytes
lent to it (demand 1), the verdict and the screen, how answers of the code are read of which only contracts speak, and the
exported calls.
";

const TOP_OF_CARDS: &str = "\
# What must be believed of the change requests

The third page, behind docs/BELIEVED.md and docs/BELIEVED-CALLS.md, whose definitions are not repeated: what the cards of
document 02 ask for of which no demand speaks, and what the code's answers mean there. docs/cards has a note on each card. At
the end stands what the three pages use of the toolchain's library.
";

/// A file's part of a page.
struct Part {
    path: String,
    lines: Vec<String>,
}

impl Part {
    /// The lines, and the file: behind the first comment where there is room, else in a line of its own.
    fn text(&self) -> String {
        let first = &self.lines[0];
        if first.starts_with("-- ") && first.chars().count() + self.path.len() < 135 {
            return format!("{first}  == {}\n{}", self.path, self.lines[1..].join("\n"));
        }
        format!("-- == {}\n{}", self.path, self.lines.join("\n"))
    }
}

pub fn pages(definitions: &Definitions, statements: &[Statement], reached: &[Reached]) -> Vec<(&'static str, String)> {
    let mut shown = Reached::default();
    let written = PAGES.iter().map(|file| {
        let own: Vec<(&Statement, &Reached)> =
            statements.iter().zip(reached).filter(|(statement, _)| statement.page == *file).collect();
        (*file, page(definitions, file, &own, &mut shown))
    });
    written.collect()
}

/// One page; `shown` is what the pages before it have, and then what it has too.
fn page(definitions: &Definitions, file: &str, statements: &[(&Statement, &Reached)], shown: &mut Reached) -> String {
    let mut rows = Vec::new();
    let mut text = String::new();
    let mut total = 0;
    for (statement, reached) in statements {
        let own = parts(definitions, reached, shown);
        let all = lines(&parts(definitions, reached, &Reached::default()));
        rows.push(format!("| {} | {} | {all} |", statement.title, lines(&own)));
        total += lines(&own);
        let own: Vec<String> = own.iter().map(Part::text).collect();
        text += &format!("\n## {}\n\n```\n{}\n```\n", statement.title, own.join("\n"));
        shown.items.extend(&reached.items);
        shown.types.extend(reached.types.clone());
        shown.library.extend(reached.library.clone());
    }
    let table = format!(
        "| statement | lines | with what it needs from above |\n|---|---|---|\n{}\n| all | {total} | |\n",
        rows.join("\n")
    );
    let top = match file {
        PAGE => TOP,
        CALLS => TOP_OF_CALLS,
        _ => TOP_OF_CARDS,
    };
    let library = if file == CARDS { library(&shown.library) } else { String::new() };
    format!("{top}\n{table}{text}{library}")
}

fn lines(parts: &[Part]) -> usize {
    parts.iter().map(|p| p.lines.len()).sum()
}

/// What is reached and not yet shown, file by file in the order of the crates: in each the code's types first.
fn parts(definitions: &Definitions, reached: &Reached, shown: &Reached) -> Vec<Part> {
    let mut found = Vec::new();
    for krate in &definitions.crates {
        found.extend(types(krate, reached, shown));
        for (n, source) in definitions.sources.iter().enumerate().filter(|(_, s)| s.krate == *krate) {
            let new = reached.items.difference(&shown.items).filter(|(file, _)| *file == n);
            let new: BTreeSet<usize> = new.map(|(_, item)| *item).collect();
            if !new.is_empty() {
                found.push(Part { path: source.path(), lines: cut(source, &new) });
            }
        }
    }
    found
}

fn types(krate: &str, reached: &Reached, shown: &Reached) -> Vec<Part> {
    let new = reached.types.iter().filter(|(place, t)| t.krate == krate && !shown.types.contains_key(*place));
    let mut new: Vec<_> = new.map(|(_, t)| t).collect();
    new.sort_by_key(|t| (t.file.clone(), t.at));
    let mut files: BTreeMap<String, Vec<String>> = BTreeMap::new();
    for t in new {
        files.entry(format!("{krate}/{}", t.file)).or_default().extend(in_one_line(&t.lines));
    }
    files.into_iter().map(|(path, lines)| Part { path, lines }).collect()
}

/// A type of the code: its comment, and its fields or cases in one line where that is short enough.
fn in_one_line(lines: &[String]) -> Vec<String> {
    let is_comment = |l: &&String| l.trim_start().starts_with("//");
    let code: Vec<&str> = lines.iter().filter(|l| !is_comment(l)).map(|l| l.trim()).collect();
    let joined = code.join(" ").replace(", }", " }");
    let inner = lines.iter().skip_while(is_comment).any(|l| is_comment(&l));
    if inner || joined.len() > 140 {
        return lines.to_vec();
    }
    lines.iter().take_while(is_comment).cloned().chain([joined]).collect()
}

/// These declarations of a file, with the heads of their modules and sections.
fn cut(source: &Source, items: &BTreeSet<usize>) -> Vec<String> {
    let file = &source.file;
    let mut spans: BTreeSet<(usize, usize)> = BTreeSet::new();
    for item in items.iter().map(|n| &file.items[*n]) {
        spans.insert((item.span.first, item.span.end));
        spans.extend(item.module.map(|m| (m.first, m.end)));
        spans.extend(file.sections.iter().rev().find(|(_, end)| *end <= item.span.first));
    }
    spans.into_iter().flat_map(|(first, end)| file.lines[first..end].to_vec()).collect()
}

fn library(names: &BTreeSet<(String, String)>) -> String {
    let mut modules: BTreeMap<&str, Vec<String>> = BTreeMap::new();
    for (module, name) in names {
        modules.entry(module).or_default().push(format!("`{name}`"));
    }
    let rows = modules.iter().map(|(module, names)| format!("- `{module}`: {}\n", names.join(", ")));
    format!("\n## Of the toolchain\n\n{}", rows.collect::<String>())
}
