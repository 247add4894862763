//! Answers under the names that an edit gives their goals.
//!
//! A goal is named after the condition on the way to it, as `returns-then-i-ge8`. Where an edit changes that condition the
//! goal has another name, and its answer is refused for the name alone, whether a fact fails or not. So the answers of such
//! a proof are tried once more, with the new condition wherever they name the old one: what is refused then is the fact.

use crate::log::Error;

/// A folder of a proof, and each condition that it names with the one that stands in its place.
#[derive(Clone, Debug, PartialEq)]
pub struct Carried {
    pub folder: String,
    pub conditions: Vec<(String, String)>,
}

impl Carried {
    /// A file of that proof under the new names.
    pub fn apply(&self, text: &str) -> String {
        self.conditions.iter().fold(text.to_string(), |text, (old, new)| renamed(&text, old, new))
    }
}

/// The proofs that name a condition which is gone, of those whose files `text` gives.
pub fn carried(log: &str, errors: &[Error], text: &dyn Fn(&str) -> String) -> Vec<Carried> {
    let mut found: Vec<Carried> = Vec::new();
    for error in errors {
        let (Some(gone), Some((folder, _))) = (gone(error), error.file.rsplit_once('/')) else { continue };
        let Some((way, old)) = parts(gone) else { continue };
        let at = found.iter().position(|c| c.folder == folder);
        let at = at.unwrap_or_else(|| {
            found.push(Carried { folder: folder.to_string(), conditions: Vec::new() });
            found.len() - 1
        });
        let conditions = &mut found[at].conditions;
        if conditions.iter().any(|(o, _)| o == old) {
            continue;
        }
        let known = text(folder);
        let free = |name: &&str| !named(&known, name) && parts(name).is_some_and(|(w, _)| w == way);
        let offered = offers(log, error, gone);
        if let Some((_, new)) = offered.into_iter().find(free).and_then(parts) {
            conditions.push((old.to_string(), new.to_string()));
        }
    }
    found.retain(|c| !c.conditions.is_empty());
    found
}

/// The goal or the field that an error says is not there.
fn gone(error: &Error) -> Option<&str> {
    let first = error.text.lines().next()?;
    let (_, rest) = first
        .split_once(" has no field `")
        .or_else(|| first.split_once(" has no `").filter(|(_, rest)| rest.contains("that can be named from here")))?;
    rest.split('`').next()
}

/// The names that the prover offers in place of one that is gone, the nearest first.
fn offers<'a>(log: &'a str, error: &'a Error, gone: &str) -> Vec<&'a str> {
    let help = format!("help: `Goals` has no `{gone}`; ");
    let goals = log.lines().find_map(|l| l.strip_prefix(help.as_str())).unwrap_or("");
    let fields = error.text.split_once("(nearest: ").and_then(|(_, rest)| rest.split(')').next()).unwrap_or("");
    let fields = fields.split(", ").filter_map(|f| f.strip_prefix('.'));
    goals.split('`').skip(1).step_by(2).chain(fields).collect()
}

/// The way to a place, and the condition at its end.
fn parts(name: &str) -> Option<(&str, &str)> {
    let ends = ["-then-", "-else-"].iter().filter_map(|w| name.rfind(w).map(|at| at + w.len()));
    let starts = ["if-", "Then-", "Else-"].iter().filter(|w| name.starts_with(**w)).map(|w| w.len());
    ends.chain(starts).max().map(|at| name.split_at(at))
}

fn is_part(c: char) -> bool {
    c.is_alphanumeric() || c == '_' || c == '\''
}

/// Whether a name ends here, or with a number behind a dash.
fn ends(behind: &str) -> bool {
    let rest = behind.strip_prefix('-').map_or(behind, |rest| rest.trim_start_matches(|c: char| c.is_ascii_digit()));
    let counted = rest.len() < behind.len().saturating_sub(1);
    !rest.starts_with(|c| is_part(c) || c == '-') && (counted || !behind.starts_with('-'))
}

fn named(text: &str, name: &str) -> bool {
    text.match_indices(name).any(|(at, _)| !text[at + name.len()..].starts_with(|c| is_part(c) || c == '-'))
}

/// The text with a condition replaced, where it stands at the end of a way.
fn renamed(text: &str, old: &str, new: &str) -> String {
    let (mut done, mut rest) = (String::new(), text);
    while let Some(at) = rest.find(old) {
        let (before, behind) = (&rest[..at], &rest[at + old.len()..]);
        let own = ["if-", "then-", "else-", "Then-", "Else-"].iter().any(|way| before.ends_with(way)) && ends(behind);
        done.push_str(before);
        done.push_str(if own { new } else { old });
        rest = behind;
    }
    done + rest
}
