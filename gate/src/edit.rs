//! The file of a wrong program, in the language of `rt must-fail`: `file:`, `old:` and `new:` lines, each pair one
//! replacement. Lines that rt passes over and that are read here: `fact:` and `claim:`, what refuses it (`Reason`); `why:`,
//! why a claim is false; and `call: NAME`, the public call of which this is a wrong answer. `impostor:` and `mistake:`,
//! for document 01's, are read by tests/edits.

/// One text of one file, and what stands in its place.
#[derive(Clone, Debug, PartialEq)]
pub struct Replacement {
    pub file: String,
    pub old: String,
    pub new: String,
}

#[derive(Clone, Debug, Default, PartialEq)]
pub struct Edit {
    pub replacements: Vec<Replacement>,
    pub reasons: Vec<Reason>,
    pub calls: Vec<String>,
}

/// What refuses a wrong program, by its name.
#[derive(Clone, Debug, PartialEq)]
pub enum Reason {
    Fact(String),
    Function(String),
    Claim(String),
}

/// A place that an edit changes.
#[derive(Clone, Debug, PartialEq)]
pub enum Place {
    /// a function's contract or body: its file below src/, and its name
    Function { file: String, name: String },
    /// anything else: a definition, a constant, a struct
    Elsewhere,
}

impl Edit {
    pub fn read(text: &str) -> Result<Edit, String> {
        let mut edit = Edit::default();
        let (mut file, mut old, mut explained) = (String::new(), None, false);
        for line in text.lines() {
            let (key, rest) = line.split_once(':').ok_or_else(|| format!("a line that says nothing: {line}"))?;
            let value = rest.strip_prefix(' ').unwrap_or(rest).to_string();
            if value.is_empty() && key != "new" {
                return Err(format!("nothing stands behind '{key}:'"));
            }
            match key {
                "file" => file = value,
                "old" if old.is_none() => old = Some(value),
                "new" => {
                    let old = old.take().ok_or("a 'new:' line without an 'old:' line before it")?;
                    edit.replacements.push(Replacement { file: file.clone(), old, new: value });
                }
                "fact" => edit.reasons.push(match value.strip_prefix("fn ") {
                    Some(name) => Reason::Function(name.to_string()),
                    None => Reason::Fact(value),
                }),
                "claim" => edit.reasons.push(Reason::Claim(value)),
                "why" => explained = true,
                "call" => edit.calls.push(value),
                "impostor" | "mistake" => {}
                _ => return Err(format!("'{key}:' is no key here")),
            }
        }
        if old.is_some() {
            return Err("an 'old:' line without a 'new:' line behind it".to_string());
        }
        if edit.replacements.is_empty() {
            return Err("it has no 'old:' and 'new:' pair".to_string());
        }
        if !explained && edit.reasons.iter().any(|r| matches!(r, Reason::Claim(_))) {
            return Err("it does not say why its claim is false".to_string());
        }
        if let Some(r) = edit.replacements.iter().find(|r| !r.file.starts_with("src/") && !r.file.starts_with("specs/"))
        {
            return Err(format!("it changes {}, which is neither code nor a definition", r.file));
        }
        Ok(edit)
    }

    /// What the edit makes of the files: each `old` must stand in its file just once.
    pub fn apply(&self, read: &dyn Fn(&str) -> Result<String, String>) -> Result<Applied, String> {
        let mut applied = Applied::default();
        for r in &self.replacements {
            if !applied.files.iter().any(|(f, _)| *f == r.file) {
                applied.files.push((r.file.clone(), read(&r.file)?));
            }
            let text = &mut applied.files.iter_mut().find(|(f, _)| *f == r.file).expect("just put in").1;
            match text.matches(&r.old).count() {
                1 => {
                    applied.places.push(place(&r.file, text, &r.old));
                    *text = text.replacen(&r.old, &r.new, 1);
                }
                n => return Err(format!("an 'old:' text stands {n} times in {}", r.file)),
            }
        }
        Ok(applied)
    }
}

/// The files that an edit changes, as it leaves them, and the place of each replacement.
#[derive(Clone, Debug, Default, PartialEq)]
pub struct Applied {
    pub files: Vec<(String, String)>,
    pub places: Vec<Place>,
}

fn place(file: &str, text: &str, old: &str) -> Place {
    let Some(start) = text.find(old) else { return Place::Elsewhere };
    let (mut at, mut found) = (0, None);
    for line in text.split_inclusive('\n') {
        if let Some((indent, name)) = function_header(line) {
            if at <= start + old.len() {
                found = Some((at, indent, name));
            }
        }
        at += line.len();
    }
    match found {
        // behind a function's closing brace nothing is that function's
        Some((begin, indent, name)) if !closed(text.get(begin..start).unwrap_or(""), indent) => {
            Place::Function { file: file.to_string(), name: name.to_string() }
        }
        _ => Place::Elsewhere,
    }
}

fn closed(text: &str, indent: usize) -> bool {
    text.lines().any(|l| l.len() == indent + 1 && l.ends_with('}') && l.trim_start() == "}")
}

/// Of a line that begins a function: its indentation and the function's name.
fn function_header(line: &str) -> Option<(usize, &str)> {
    let rest = line.trim_start();
    let indent = line.len() - rest.len();
    let rest = rest.strip_prefix("pub ").unwrap_or(rest);
    let rest = rest.strip_prefix("extern \"C\" ").unwrap_or(rest);
    let rest = rest.strip_prefix("fn ")?;
    let end = rest.find(|c: char| !c.is_ascii_alphanumeric() && c != '_').unwrap_or(rest.len());
    Some((indent, &rest[..end]))
}
