//! What must be believed, on three pages: every name is followed from the statements, and nothing else is to be believed.
//!
//! `antt` takes a file of definitions apart, `scope` says which names a declaration mentions, `definitions` what a name
//! means in its file, `code` finds the code's types, `reach` follows the names, `page` writes what was found, and
//! `headers` compares it with what the files say of themselves.

pub mod antt;
pub mod code;
pub mod definitions;
pub mod headers;
pub mod page;
pub mod reach;
pub mod scope;

use crate::repository::read;
use definitions::Definitions;
use reach::Reached;
use std::path::Path;

/// The pages, in the order in which they are read, and how long each may be.
pub const PAGE: &str = "docs/BELIEVED.md";
pub const CALLS: &str = "docs/BELIEVED-CALLS.md";
pub const CARDS: &str = "docs/BELIEVED-CARDS.md";
pub const PAGES: [&str; 3] = [PAGE, CALLS, CARDS];
pub const MOST_LINES: usize = 800;

/// A statement: its page, its title there, its word in headers, and its roots: crate, file and name of each.
pub struct Statement<'a> {
    pub page: &'a str,
    pub title: &'a str,
    pub word: &'a str,
    pub roots: &'a [(&'a str, &'a str, &'a str)],
}

/// The statements, in the order of the documents.
pub const STATEMENTS: [Statement; 9] = [
    Statement { page: CALLS, title: "Demand 1", word: "demand 1", roots: &[("demands", "Demand1", "Demand1")] },
    Statement { page: PAGE, title: "Demand 2", word: "demand 2", roots: &[("demands", "Demand2", "Demand2")] },
    Statement { page: PAGE, title: "Demand 3", word: "demand 3", roots: &[("demands", "Demand3", "Demand3")] },
    Statement {
        page: CALLS,
        title: "Fixed outcomes and the screen",
        word: "the verdict",
        roots: &[("demands", "FixedOutcomes", "FixedOutcomes")],
    },
    // what the cases of answers mean of which no demand speaks, but only contracts
    Statement {
        page: CALLS,
        title: "How further answers of the code are read",
        word: "the contracts",
        roots: &[
            ("frame", "Written", "written_answer"),
            ("plan_text", "PlanRead", "plan_read_answer"),
            ("tree_text", "TreeRead", "tree_read_answer"),
            ("following", "Following", "followed_record"),
            ("answer_text", "Holding", "holding"),
        ],
    },
    Statement {
        page: CALLS,
        title: "The library",
        word: "the library",
        roots: &[("tureenlark", "LibraryDemands", "LibraryDemands")],
    },
    // what a card asks for of which no demand speaks
    Statement {
        page: CARDS,
        title: "Card 1: labels that are still open",
        word: "card 1",
        roots: &[
            ("network", "LabelTest", "LabelTest"),
            ("constraints", "Labels", "label"),
            ("constraints", "Labels", "tested_as"),
        ],
    },
    Statement {
        page: CARDS,
        title: "Card 2: which step must come before which",
        word: "card 2",
        roots: &[("demands", "ForcedOrder", "ForcedOrder")],
    },
    Statement {
        page: CARDS,
        title: "Card 3: the set of steps done",
        word: "card 3",
        roots: &[("network", "RunningSet", "RunningSet"), ("game", "Carried", "carried")],
    },
];

/// All definitions, and what each statement reaches of them.
pub struct Believed<'a> {
    root: &'a Path,
    statements: &'a [Statement<'a>],
    definitions: Definitions,
    reached: Vec<Reached>,
}

impl<'a> Believed<'a> {
    pub fn read(root: &'a Path, statements: &'a [Statement<'a>]) -> Result<Believed<'a>, String> {
        let definitions = Definitions::read(root)?;
        let reached = statements.iter().map(|s| Reached::from(root, &definitions, s.roots)).collect();
        Ok(Believed { root, statements, definitions, reached })
    }

    /// Each page with its text.
    pub fn pages(&self) -> Vec<(&'static str, String)> {
        page::pages(&self.definitions, self.statements, &self.reached)
    }

    /// What is wrong: a name that leads nowhere, a header that disagrees, a page that is not current or too long.
    pub fn faults(&self) -> Vec<String> {
        let mut found: Vec<String> = self.reached.iter().flat_map(|r| r.faults.iter().cloned()).collect();
        found.sort();
        found.dedup();
        found.extend(headers::faults(self.root, &self.definitions, self.statements, &self.reached));
        for (file, page) in self.pages() {
            if read(&self.root.join(file)).ok().as_ref() != Some(&page) {
                found.push(format!("{file} is not current: gate believed --write makes it"));
            }
            if page.lines().count() > MOST_LINES {
                found.push(format!("{file} has {} lines, more than {MOST_LINES}", page.lines().count()));
            }
        }
        found
    }

    pub fn write(&self) -> Result<(), String> {
        let written = self
            .pages()
            .into_iter()
            .map(|(file, page)| std::fs::write(self.root.join(file), page).map_err(|e| format!("{file}: {e}")));
        written.collect()
    }

    pub fn write_headers(&self) -> Result<(), String> {
        headers::write(self.root, &self.definitions, self.statements, &self.reached)
    }

    /// For each file the sentence with which its header has to end; where nothing reaches it, the one that it has.
    pub fn headers(&self) -> Vec<String> {
        let sources = self.definitions.sources.iter().enumerate();
        let said = sources.map(|(n, source)| {
            let header = source.file.header_text();
            let wanted = headers::sentence(&headers::reaching(self.statements, &self.reached, n));
            let wanted = wanted.unwrap_or_else(|| format!("(not reached) {}", headers::split(&header).1));
            format!("{}: {wanted}", source.path())
        });
        said.collect()
    }
}
