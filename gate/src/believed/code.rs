//! Structs and enums of the code, which definitions name as they are declared in `src`.

use crate::repository::read;
use std::path::Path;

/// A struct or enum, cut from its file with its comment and without its attributes.
#[derive(Clone, Debug, PartialEq)]
pub struct Declared {
    pub krate: String,
    /// below the crate, `src/lib.rt`
    pub file: String,
    pub name: String,
    pub lines: Vec<String>,
    /// where it stands in its file
    pub at: usize,
    /// the types that it names, each with its crate and its place, as `declared` finds them
    pub names: Vec<(String, Vec<String>)>,
}

/// The types of std that every file has in scope: they are std's, and no page shows them.
const PRELUDE: [&str; 2] = ["Option", "Result"];

/// The type of this crate at a place: the modules that lead to it, and its name.
pub fn declared(root: &Path, krate: &str, place: &[String]) -> Result<Declared, String> {
    let (name, modules) = place.split_last().ok_or("a type without a name")?;
    let file = match modules {
        [] => "src/lib.rt".to_string(),
        _ => format!("src/{}.rt", modules.join("/")),
    };
    let text = read(&root.join("crates").join(krate).join(&file))?;
    let lines: Vec<&str> = text.lines().collect();
    let at = lines.iter().position(|l| declares(l) == Some(name.as_str()));
    let at = at.ok_or_else(|| format!("{krate}/{file} declares no {name}"))?;
    let above = lines[..at].iter().rev().take_while(|l| l.starts_with("//") || l.starts_with("#[")).count();
    let end = at + lines[at..].iter().position(|l| *l == "}").map_or(1, |n| n + 1);
    let std = |t: &String| PRELUDE.contains(&t.as_str()) && place_of(&lines, krate, modules, t).is_none();
    let names = types(&lines[at..end]).into_iter().filter(|t| t != name && !std(t));
    let names = names.map(|t| {
        let place = place_of(&lines, krate, modules, &t);
        place.ok_or_else(|| format!("{krate}/{file}: {name} names {t}, which is not resolved"))
    });
    let names = names.collect::<Result<_, _>>()?;
    let shown = lines[at - above..end].iter().filter(|l| !l.starts_with("#["));
    let lines = shown.map(|l| l.to_string()).collect();
    Ok(Declared { krate: krate.to_string(), file, name: name.clone(), lines, at, names })
}

/// The name that a line declares.
fn declares(line: &str) -> Option<&str> {
    let line = line.strip_prefix("pub ").unwrap_or(line);
    let rest = line.strip_prefix("struct ").or(line.strip_prefix("enum "))?;
    rest.split(|c: char| !c.is_alphanumeric() && c != '_').next()
}

/// The names in it that begin with a capital letter and are not its own fields or variants.
fn types(lines: &[&str]) -> Vec<String> {
    let code = lines.iter().map(|l| l.split("//").next().unwrap_or(""));
    let typed = code.map(|l| l.split_once(['(', ':']).map_or("", |(_, t)| t).to_string());
    let words = typed.collect::<Vec<_>>().join(" ");
    let split = |c: char| !c.is_alphanumeric() && c != '_';
    let named = words.split(split).filter(|w| w.starts_with(char::is_uppercase)).map(str::to_string);
    named.collect()
}

/// Where a type that a file names is declared: beside it, or where a `use` says.
fn place_of(lines: &[&str], krate: &str, modules: &[String], name: &str) -> Option<(String, Vec<String>)> {
    if lines.iter().any(|l| declares(l) == Some(name)) {
        let place = modules.iter().cloned().chain([name.to_string()]).collect();
        return Some((krate.to_string(), place));
    }
    let paths = used(lines);
    let path = paths.iter().find(|path| path.last() == Some(&name))?;
    let (first, rest) = path.split_first()?;
    let krate = if *first == "crate" { krate } else { first };
    Some((krate.to_string(), rest.iter().map(|r| r.to_string()).collect()))
}

/// The paths that the lines `use` name, `use a::{B, C};` being two of them.
fn used<'a>(lines: &[&'a str]) -> Vec<Vec<&'a str>> {
    let used = lines.iter().filter_map(|l| l.strip_prefix("use ")).map(|l| l.trim_end_matches(';'));
    let split = |u: &'a str| match u.split_once("::{") {
        Some((module, names)) => {
            let names = names.trim_end_matches('}').split(',').map(str::trim);
            names.map(|n| module.split("::").chain([n]).collect()).collect()
        }
        None => vec![u.split("::").collect::<Vec<_>>()],
    };
    used.flat_map(split).collect()
}
