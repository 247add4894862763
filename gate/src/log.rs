//! What the prover said of a crate: its errors, and the functions that are not proved.

/// One error: the file below the crate's folder, the declaration in which it stands, and its whole text.
#[derive(Clone, Debug, PartialEq)]
pub struct Error {
    pub file: String,
    pub declaration: String,
    pub text: String,
}

/// Why an error was given.
#[derive(Clone, Copy, Debug, PartialEq)]
pub enum Kind {
    /// an inequality that does not follow from what is known, or two sides that do not compute to the same
    Fact,
    /// the statement asked for is not the one that is proved
    Differ,
    /// something that it uses was refused before
    NotAdmitted,
    /// a name, a field or a place of a proof that is not there, or a text that cannot be read
    Name,
    /// anything else, as a rewriting that finds nothing to rewrite: the proof no longer fits
    Misfit,
}

impl Error {
    pub fn kind(&self) -> Kind {
        let first = self.text.lines().next().unwrap_or("");
        let said = self.text.split_whitespace().collect::<Vec<_>>().join(" ");
        if RESTS.iter().any(|r| first.contains(r)) {
            Kind::NotAdmitted
        } else if NAMES.iter().any(|n| first.contains(n)) {
            Kind::Name
        } else if BROKEN.iter().any(|b| said.contains(b)) || computed(&said) || literals(&said) {
            Kind::Fact
        } else if DIFFER.iter().any(|d| said.contains(d)) {
            Kind::Differ
        } else {
            Kind::Misfit
        }
    }

    /// Whether it says that a loop's measure does not fall. With another measure the loop might end all the same.
    pub fn of_a_measure(&self) -> bool {
        is_measure(&self.declaration)
    }

    /// Whether it passes this declaration over, since what that rests on was refused.
    pub fn passes_over(&self, declaration: &str) -> bool {
        let names = self.text.split_once(" not checked: ").map_or("", |(_, names)| names);
        names.split([',', ' ', '\n']).any(|n| n.trim_matches('`') == declaration)
    }

    /// Whether a text of the code or of the definitions cannot be read, so that no statement was tried.
    pub fn is_unread(&self) -> bool {
        let of_a_text = self.file.is_empty() || !self.file.starts_with("proofs/");
        of_a_text && (self.declaration.is_empty() && self.kind() != Kind::NotAdmitted || self.kind() == Kind::Name)
    }
}

/// A goal that a loop ends: loop-NAME-smaller, with the way to it behind it, and in a cycle the function before it.
fn is_measure(goal: &str) -> bool {
    goal.split('-').any(|word| word == "smaller")
}

/// The prover's words for what uses something that was refused before.
const RESTS: [&str; 2] = ["was not admitted", "which was rejected, w"];

/// Its words for an inequality that fails.
const BROKEN: [&str; 2] = ["does not follow from what it read", "`grind`: the goal does not follow"];

/// Its words for a statement that is not the one asked for, or of which no proof was found where there was one.
const DIFFER: [&str; 9] = [
    "`search`: no proof of `",
    "`grind` found no proof",
    "the two types",
    "the two values",
    "but this has type",
    "does not hold",
    "list the missing equation",
    "give a proof of that as the last argument",
    "Every way was tried",
];

/// The prover's and the compiler's words for a name, a place or a text that is not there or cannot be read.
const NAMES: [&str; 11] = [
    "not in scope",
    "can be named from here",
    "has no field",
    "is no name",
    "operand is missing",
    "expected the end",
    "cannot continue",
    "unexpected",
    "expected one of",
    "cannot find",
    "error[",
];

/// A proof by computing: both sides were to be the same, `but this has type A ≡ A`, or of numerals `◌≡◌ {A = ℕ} A A`.
fn computed(said: &str) -> bool {
    let Some(found) = quoted(said, "but this has type ") else { return false };
    let same = |text: &str, sign: &str| {
        text.match_indices(sign).any(|(at, _)| text[..at].trim() == text[at + sign.len()..].trim())
    };
    let behind = found.strip_prefix("◌≡◌ {").and_then(|rest| rest.split_once("} "));
    same(found, " ≡ ") || behind.is_some_and(|(_, sides)| same(sides, " "))
}

/// Where the two sides first differ, one has one value and the other has another.
fn literals(said: &str) -> bool {
    let value = |v: &str| v == "true" || v == "false" || (!v.is_empty() && v.bytes().all(|b| b.is_ascii_digit()));
    let (one, other) = (quoted(said, "where one has "), quoted(said, "the other has "));
    matches!((one, other), (Some(a), Some(b)) if value(a) && value(b))
}

/// The text between the quotes that stand right behind the last of these words.
fn quoted<'a>(said: &'a str, words: &str) -> Option<&'a str> {
    let rest = said[said.rfind(words)? + words.len()..].strip_prefix('`')?;
    rest.split('`').next()
}

/// The errors of a log, in its order.
pub fn errors(log: &str) -> Vec<Error> {
    let mut found: Vec<Error> = Vec::new();
    let mut open = false;
    for line in log.lines() {
        if let Some(error) = error_line(line) {
            found.push(error);
            open = true;
        } else if open && line.starts_with("  ") {
            let text = &mut found.last_mut().expect("one is open").text;
            text.push('\n');
            text.push_str(line);
        } else {
            open = false;
        }
    }
    found
}

fn error_line(line: &str) -> Option<Error> {
    if line.starts_with("error") {
        return Some(Error { file: String::new(), declaration: String::new(), text: line.to_string() });
    }
    let (place, text) = line.split_once(": error")?;
    if place.contains(' ') {
        return None;
    }
    let start = ["/proofs/", "/specs/", "/src/"].iter().filter_map(|f| place.rfind(f)).max().map_or(0, |at| at + 1);
    let file = place[start..].split(':').next().unwrap_or("").to_string();
    let said = text.strip_prefix(": ").unwrap_or(text);
    let declaration = said.strip_prefix('`').and_then(|s| s.split_once("`: ")).map_or("", |(name, _)| name).to_string();
    Some(Error { file, declaration, text: line.to_string() })
}

/// A function of a crate.
#[derive(Clone, Debug, PartialEq)]
pub struct Function {
    pub file: File,
    pub name: String,
}

/// In which file of its crate a function stands.
#[derive(Clone, Debug, PartialEq)]
pub enum File {
    Root,
    Module(String),
    Any,
}

/// What a log says of a function.
#[derive(Clone, Debug, PartialEq)]
pub enum Said {
    Proved,
    /// the goals that nothing proved; those that an answer was written for are told by errors
    NotProved(Vec<Goal>),
}

/// A goal that the prover looked for a proof of and found none, and whether it found values at which the goal is false.
#[derive(Clone, Debug, PartialEq)]
pub struct Goal {
    pub name: String,
    pub is_false: bool,
}

impl Goal {
    pub fn of_a_measure(&self) -> bool {
        is_measure(&self.name)
    }

    /// `note: FILE: it is not proved that .. (`NAME`); ..`
    fn noted(line: &str) -> Option<Goal> {
        let said = line.strip_prefix("note: ")?.split_once(": it is not proved that ")?.1;
        let (before, after) = said.split_once("`); ")?;
        let name = before.rsplit_once("(`")?.1.to_string();
        Some(Goal { name, is_false: after.contains("allow values at which this goal is false") })
    }

    /// Those of the line of a function: `.. `search` did not prove `NAME`, `NAME``.
    fn listed(said: &str) -> Vec<Goal> {
        let names = said.split_once("`search` did not prove ").map_or("", |(_, names)| names);
        let names = names.split('`').skip(1).step_by(2).take_while(|n| !n.contains("::"));
        names.map(|n| Goal { name: n.to_string(), is_false: false }).collect()
    }
}

impl Function {
    /// The function `name` of a file below src/.
    pub fn of(file: &str, name: &str) -> Function {
        let stem = file.trim_start_matches("src/").trim_end_matches(".rt");
        let file = if stem == "lib" || stem == "main" { File::Root } else { File::Module(stem.to_string()) };
        Function { file, name: name.to_string() }
    }

    /// Whether these names above a function's lead from the crate's root to this one's file. A method stands below its
    /// type.
    fn is_here(&self, above: &[&str]) -> bool {
        let types = |names: &[&str]| names.iter().all(|t| t.starts_with(|c: char| c.is_ascii_uppercase()));
        match &self.file {
            File::Root => types(above),
            File::Module(m) => above.split_first().is_some_and(|(first, rest)| first == m && types(rest)),
            File::Any => true,
        }
    }

    /// Whether an error stands in this function's own proof. A cycle has one proof, in which a goal begins with the name
    /// of its function, unless the cycle is a single function's and is called like it.
    pub fn owns(&self, error: &Error) -> bool {
        let inner = error.file.strip_prefix("proofs/").and_then(|f| f.rsplit_once('/'));
        let Some((folder, "Answers.antt" | "Invariants.antt" | "Proof.antt")) = inner else { return false };
        let path: Vec<&str> = folder.split('/').collect();
        let Some((last, above)) = path.split_last() else { return false };
        let own = match last.strip_prefix('+') {
            None => *last == self.name,
            Some(cycle) => cycle == self.name || error.declaration.starts_with(&format!("{}-", self.name)),
        };
        own && self.is_here(above)
    }

    pub fn said(&self, log: &str) -> Said {
        let mut noted = Vec::new();
        for line in log.lines() {
            noted.extend(Goal::noted(line));
            let Some((head, said)) = line.strip_prefix("fn ").and_then(|l| l.split_once(": ")) else { continue };
            let mut goals = std::mem::take(&mut noted);
            let path: Vec<&str> = head.split("::").skip(1).collect();
            let own = path.split_last().is_some_and(|(last, above)| *last == self.name && self.is_here(above));
            if own && (said.starts_with("not proved") || said.starts_with("no proof")) {
                goals.extend(Goal::listed(said));
                return Said::NotProved(goals);
            }
        }
        Said::Proved
    }
}
