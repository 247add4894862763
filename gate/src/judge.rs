//! Whether a wrong program was refused for a reason of its own.

use crate::edit::{Edit, Place, Reason};
use crate::log::{errors, Error, File, Function, Goal, Kind, Said};

/// What refused the wrong program, in a few words; or why its refusal shows nothing.
///
/// - An edit of functions alone: each of them is not proved, and the first error in its own proof is a fact that fails:
///   what the code does is not what its contract says. Loops' measures are passed over: they belong to the proof. Where
///   nothing is wrong with the answers that its proof has, it is a goal that the prover's own search does not prove any
///   more; and a goal at which the prover found values that make it false is a fact in any case.
/// - Any other edit names what refuses it. `fact: NAME` is a case (a statement without variables, in a file of cases)
///   that computes otherwise with the edit. `fact: fn NAME` is a function that does not do what the wrong definition
///   says. `claim: NAME` is a law or theorem that is false with the edit; that it is, and not only proved otherwise, no
///   log can show, so `why:` says it.
///
/// Where a text of the code or of the definitions cannot be read, nothing was tried.
pub fn judge(edit: &Edit, places: &[Place], log: &str) -> Result<String, String> {
    if !log.lines().any(|l| l.starts_with("logic=not-proved")) {
        return Err("it is not refused".to_string());
    }
    let errors = errors(log);
    if let Some(e) = errors.iter().find(|e| e.is_unread()) {
        return Err(format!("the edited text cannot be read: {}", short(e)));
    }
    if !edit.reasons.is_empty() && !places.contains(&Place::Elsewhere) {
        return Err("it changes functions alone, and each of them is judged by its own proof".to_string());
    }
    if !edit.reasons.is_empty() {
        return all(edit.reasons.iter().map(|reason| match reason {
            Reason::Fact(name) => case(name, &errors),
            Reason::Claim(name) => statement(name, &errors, &[Kind::Fact, Kind::Differ]),
            Reason::Function(name) => function(&Function { file: File::Any, name: name.clone() }, &errors, log),
        }));
    }
    if places.contains(&Place::Elsewhere) {
        return Err("it changes more than functions and names no fact that it makes false".to_string());
    }
    all(places.iter().map(|place| match place {
        Place::Function { file, name } => function(&Function::of(file, name), &errors, log),
        Place::Elsewhere => unreachable!("looked for above"),
    }))
}

fn all(said: impl Iterator<Item = Result<String, String>>) -> Result<String, String> {
    let mut reasons = said.collect::<Result<Vec<_>, _>>()?;
    reasons.dedup();
    Ok(reasons.join(", "))
}

fn case(name: &str, errors: &[Error]) -> Result<String, String> {
    match errors.iter().find(|e| e.declaration == name) {
        Some(e) if !e.file.contains("Cases") => Err(format!("`{name}` is no case: a law is named by 'claim:'")),
        _ => statement(name, errors, &[Kind::Fact]),
    }
}

fn statement(name: &str, errors: &[Error], taken: &[Kind]) -> Result<String, String> {
    match errors.iter().find(|e| e.declaration == name) {
        Some(first) => among(first, taken).map(|()| format!("`{name}`")),
        None => Err(match errors.iter().find(|e| e.passes_over(name)) {
            Some(e) => format!("`{name}` only rests on something refused: {}", short(e)),
            None => format!("nothing is said against `{name}`"),
        }),
    }
}

fn function(f: &Function, errors: &[Error], log: &str) -> Result<String, String> {
    let Said::NotProved(goals) = f.said(log) else { return Err(format!("`{}` is still proved", f.name)) };
    let facts: Vec<&Goal> = goals.iter().filter(|g| !g.of_a_measure()).collect();
    if let Some(g) = facts.iter().find(|g| g.is_false) {
        return Ok(format!("`{}` of `{}`, which is false", g.name, f.name));
    }
    if let Some(first) = errors.iter().find(|e| f.owns(e) && !e.of_a_measure()) {
        return among(first, &[Kind::Fact, Kind::Differ]).map(|()| format!("`{}` of `{}`", first.declaration, f.name));
    }
    match facts.first() {
        Some(g) => Ok(format!("`{}` of `{}`", g.name, f.name)),
        None if goals.is_empty() => Err(format!("no error stands in the proof of `{}`", f.name)),
        None => Err(format!("only a measure of `{}` is not proved", f.name)),
    }
}

fn among(error: &Error, taken: &[Kind]) -> Result<(), String> {
    match error.kind() {
        kind if taken.contains(&kind) => Ok(()),
        Kind::NotAdmitted => Err(format!("`{}` only rests on something refused: {}", error.declaration, short(error))),
        Kind::Name => Err(format!("a name or a place is missing, no fact fails: {}", short(error))),
        _ => Err(format!("a proof no longer fits, no fact fails: {}", short(error))),
    }
}

/// The beginning of an error, in one line.
fn short(error: &Error) -> String {
    error.text.split_whitespace().collect::<Vec<_>>().join(" ").chars().take(300).collect()
}
