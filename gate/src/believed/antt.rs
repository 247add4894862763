//! A file of definitions, taken apart: its header, what it uses, its declarations with their comments.

/// What a declaration is: a name by its type and clauses, a record by its fields, a type by its constructors.
#[derive(Clone, Copy, Debug, PartialEq)]
pub enum Kind {
    Definition,
    Record,
    Data,
}

/// A line `use`: names of a module, each with the name that it has here; or the module by another name.
#[derive(Debug, PartialEq)]
pub enum Use {
    Names { module: String, names: Vec<(String, String)> },
    Alias { module: String, alias: String },
}

/// The lines from `first`, a comment, to before `end`; the code begins at `code`.
#[derive(Clone, Copy, Debug, PartialEq)]
pub struct Span {
    pub first: usize,
    pub code: usize,
    pub end: usize,
}

#[derive(Debug)]
pub struct Item {
    pub name: String,
    pub kind: Kind,
    pub public: bool,
    /// fields of a record, constructors of a type
    pub members: Vec<String>,
    pub span: Span,
    pub indent: usize,
    /// the head of the module with parameters in which it stands
    pub module: Option<Span>,
}

#[derive(Debug)]
pub struct File {
    pub lines: Vec<String>,
    /// how many of the lines are the comment at the top
    pub header: usize,
    pub uses: Vec<Use>,
    pub items: Vec<Item>,
    /// comments that stand by themselves, above several declarations: first line and behind the last
    pub sections: Vec<(usize, usize)>,
}

pub fn indent(line: &str) -> usize {
    line.len() - line.trim_start().len()
}

pub fn is_comment(line: &str) -> bool {
    line.trim_start().starts_with("--")
}

impl File {
    pub fn parse(text: &str) -> Result<File, String> {
        let lines: Vec<String> = text.lines().map(str::to_string).collect();
        let header = lines.iter().take_while(|l| l.starts_with("--")).count();
        let mut file = File { lines, header, uses: Vec::new(), items: Vec::new(), sections: Vec::new() };
        let body = file.read_uses()?;
        file.read_items(body)?;
        Ok(file)
    }

    /// The comment at the top, as one line.
    pub fn header_text(&self) -> String {
        let lines = self.lines[..self.header].iter();
        lines.map(|l| l.trim_start_matches('-').trim()).collect::<Vec<_>>().join(" ")
    }

    fn read_uses(&mut self) -> Result<usize, String> {
        let mut at = self.header;
        while self.lines.get(at).is_some_and(|l| l.starts_with("use ")) {
            let mut text = self.lines[at].clone();
            while text.contains('{') && !text.contains('}') {
                at += 1;
                let more = self.lines.get(at).ok_or_else(|| format!("a list of names has no end: {text}"))?;
                text = format!("{text} {}", more.trim());
            }
            self.uses.push(read_use(&text)?);
            at += 1;
        }
        Ok(at)
    }

    fn read_items(&mut self, body: usize) -> Result<(), String> {
        let mut module: Option<Span> = None;
        let mut comment: Option<usize> = None;
        let mut at = body;
        while at < self.lines.len() {
            let line = self.lines[at].clone();
            let level = if module.is_some() && indent(&line) > 0 { 2 } else { 0 };
            if line.trim().is_empty() {
                self.sections.extend(comment.take().map(|first| (first, at)));
            } else if indent(&line) == 0 && line.starts_with("module ") {
                let end = self.module_head(at)?;
                module = Some(Span { first: comment.take().unwrap_or(at), code: at, end });
                at = end - 1;
            } else if indent(&line) == level && is_comment(&line) {
                comment.get_or_insert(at);
            } else if indent(&line) == level && is_signature(&line) {
                module = if level == 0 { None } else { module };
                self.items.push(new_item(&line, comment.take().unwrap_or(at), at, module)?);
            } else {
                comment = None;
                self.extend(at)?;
            }
            at += 1;
        }
        Ok(())
    }

    /// Behind the line on which the module's head ends.
    fn module_head(&self, at: usize) -> Result<usize, String> {
        let ends = |l: &String| l.trim_end().ends_with(" where") || l.trim() == "where";
        let more = self.lines[at..].iter().position(ends);
        more.map(|n| at + n + 1).ok_or_else(|| format!("a module's head has no end: {}", self.lines[at]))
    }

    /// The line belongs to the last declaration.
    fn extend(&mut self, at: usize) -> Result<(), String> {
        let line = self.lines[at].clone();
        let item = self.items.last_mut().ok_or_else(|| format!("this belongs to no declaration: {line}"))?;
        item.span.end = at + 1;
        if item.kind != Kind::Definition && indent(&line) == item.indent + 2 && !is_comment(&line) {
            let name = line.split_whitespace().find(|w| *w != "pub").unwrap_or_default();
            item.members.push(name.to_string());
        }
        Ok(())
    }
}

fn read_use(line: &str) -> Result<Use, String> {
    let said = line.trim_start_matches("use ").trim();
    if let Some((module, names)) = said.split_once(".{") {
        let names = names.trim_end_matches('}').split(',').map(str::trim).filter(|n| !n.is_empty());
        let pair = |n: &str| n.split_once(" as ").map_or((n.to_string(), n.to_string()), |(a, b)| (a.into(), b.into()));
        return Ok(Use::Names { module: module.to_string(), names: names.map(pair).collect() });
    }
    let (module, alias) = said.split_once(" as ").ok_or_else(|| format!("this use names nothing: {line}"))?;
    Ok(Use::Alias { module: module.to_string(), alias: alias.to_string() })
}

const MARKS: [&str; 5] = ["abbrev", "unfoldable", "pub", "record", "data"];

/// A declaration begins with a mark or with its name and a colon; a clause with neither.
fn is_signature(line: &str) -> bool {
    let mut words = line.split_whitespace();
    let first = words.next().unwrap_or_default();
    MARKS.contains(&first) || words.next() == Some(":")
}

fn new_item(line: &str, first: usize, at: usize, module: Option<Span>) -> Result<Item, String> {
    let marks: Vec<&str> = line.split_whitespace().take_while(|w| MARKS.contains(w)).collect();
    let name = line.split_whitespace().nth(marks.len()).ok_or_else(|| format!("no name is declared: {line}"))?;
    let kind = match marks.last() {
        Some(&"record") => Kind::Record,
        Some(&"data") => Kind::Data,
        _ => Kind::Definition,
    };
    Ok(Item {
        name: name.to_string(),
        kind,
        public: marks.contains(&"pub"),
        members: Vec::new(),
        span: Span { first, code: at, end: at + 1 },
        indent: indent(line),
        module,
    })
}
