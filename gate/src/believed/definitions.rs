//! All definitions of a repository, in the order in which they are read, and what a name means in each of their files.

use super::antt::{File, Kind, Use};
use crate::repository::{crates, read};
use std::collections::{BTreeMap, BTreeSet};
use std::fs;
use std::path::Path;

/// What a name stands for.
#[derive(Clone, Debug, PartialEq)]
pub enum Target {
    /// a declaration, by its file and its place there; `member` for its constructors and fields
    Item { file: usize, item: usize, member: bool },
    /// a struct or enum of the code
    Type { krate: String, place: Vec<String> },
    /// what the toolchain has
    Library { module: String, name: String },
}

pub struct Source {
    pub krate: String,
    pub module: String,
    pub file: File,
}

impl Source {
    pub fn path(&self) -> String {
        format!("{}/specs/{}.antt", self.krate, self.module)
    }
}

pub struct Definitions {
    pub crates: Vec<String>,
    pub sources: Vec<Source>,
    places: BTreeMap<(String, String), usize>,
}

impl Definitions {
    /// Every file of every `specs` but for the lists of modules; definitions before those that use them.
    pub fn read(root: &Path) -> Result<Definitions, String> {
        let crates = crates(root)?;
        let mut sources = Vec::new();
        for krate in &crates {
            let folder = root.join("crates").join(krate).join("specs");
            if folder.is_dir() {
                sources.extend(in_order(krate, read_folder(krate, &folder)?));
            }
        }
        let key = |s: &Source| (s.krate.clone(), s.module.clone());
        let places = sources.iter().enumerate().map(|(n, s)| (key(s), n)).collect();
        Ok(Definitions { crates, sources, places })
    }

    /// A declaration by its crate, its file and its name.
    pub fn find(&self, krate: &str, module: &str, name: &str) -> Result<Target, String> {
        let file = self.places.get(&(krate.to_string(), module.to_string()));
        let file = *file.ok_or_else(|| format!("there is no file {krate}/specs/{module}.antt"))?;
        let found = self.declared_in(file, name);
        found.ok_or_else(|| format!("{} declares no {name}", self.sources[file].path()))
    }

    fn declared_in(&self, file: usize, name: &str) -> Option<Target> {
        let items = || self.sources[file].file.items.iter().enumerate();
        let target = |item, member| Target::Item { file, item, member };
        let own = items().find(|(_, i)| i.name == name).map(|(n, _)| target(n, false));
        own.or_else(|| items().find(|(_, i)| i.members.iter().any(|m| m == name)).map(|(n, _)| target(n, true)))
    }

    /// What a name means in a file: its own, one that it uses, or one of a module that it calls otherwise. With a dot behind
    /// it a field of that may be named.
    pub fn resolve(&self, file: usize, name: &str) -> Result<Target, String> {
        let source = &self.sources[file];
        let said = || format!("{}: the name {name} is not resolved", source.path());
        if let Some(own) = self.own(file, name) {
            return Ok(own);
        }
        for used in &source.file.uses {
            match used {
                Use::Names { module, names } => {
                    if let Some((there, _)) = names.iter().find(|(_, here)| means(here, name)) {
                        return self.of_module(module, there).map_err(|e| format!("{}: {e}", source.path()));
                    }
                }
                Use::Alias { module, alias } => {
                    if let Some(there) = name.strip_prefix(alias.as_str()).and_then(|r| r.strip_prefix('.')) {
                        return self.of_module(module, there).map_err(|e| format!("{}: {e}", source.path()));
                    }
                }
            }
        }
        match name.split_once('.') {
            Some((record, _)) => self.resolve(file, record).map_err(|_| said()),
            None => Err(said()),
        }
    }

    /// A declaration of the file itself, or a constructor: its fields are named only behind a dot.
    fn own(&self, file: usize, name: &str) -> Option<Target> {
        let found = self.declared_in(file, name)?;
        match &found {
            Target::Item { item, member: true, .. } if self.sources[file].file.items[*item].kind != Kind::Data => None,
            _ => Some(found),
        }
    }

    /// A name of a module: `Rattle.CRATE.specs.MODULE`, `.. .specs.declared.TYPE` for the code's types, anything else of the
    /// toolchain.
    fn of_module(&self, module: &str, name: &str) -> Result<Target, String> {
        let library = || Target::Library { module: module.to_string(), name: name.to_string() };
        let Some((krate, rest)) = module.strip_prefix("Rattle.").and_then(|m| m.split_once('.')) else {
            return Ok(library());
        };
        if !self.crates.iter().any(|c| c == krate) {
            return Ok(library());
        }
        let inner = rest.strip_prefix("specs.").ok_or_else(|| format!("{module} is no module of definitions"))?;
        if let Some(place) = inner.strip_prefix("declared.") {
            let place = place.split('.').filter(|p| *p != "TheVariants").map(str::to_string).collect();
            return Ok(Target::Type { krate: krate.to_string(), place });
        }
        self.find(krate, inner, name)
    }

    /// Whether a pattern takes this name for a constructor. Of the toolchain's names it is thought.
    pub fn is_constructor(&self, file: usize, name: &str) -> bool {
        match self.resolve(file, name) {
            Ok(Target::Item { file, item, member }) => member && self.sources[file].file.items[item].kind == Kind::Data,
            Ok(_) => true,
            Err(_) => false,
        }
    }
}

/// An operator is named with a ◌ where each side goes, and written without.
fn means(declared: &str, written: &str) -> bool {
    declared == written || (declared.contains('◌') && declared.split('◌').any(|part| part == written))
}

fn read_folder(krate: &str, folder: &Path) -> Result<Vec<Source>, String> {
    let listed = read(&folder.join("Lib.antt"))?;
    let modules: Vec<&str> = listed.lines().filter_map(|l| l.strip_prefix("pub mod ")).map(str::trim).collect();
    let entries = fs::read_dir(folder).map_err(|e| format!("{}: {e}", folder.display()))?;
    let names = entries.filter_map(|e| e.ok()).map(|e| e.file_name().to_string_lossy().into_owned());
    for name in names.filter(|n| n != "Lib.antt") {
        if !modules.iter().any(|m| format!("{m}.antt") == name) {
            return Err(format!("{krate}/specs/Lib.antt does not list {name}"));
        }
    }
    let source = |module: &&str| {
        let text = read(&folder.join(format!("{module}.antt")))?;
        let file = File::parse(&text).map_err(|e| format!("{krate}/specs/{module}.antt: {e}"))?;
        Ok(Source { krate: krate.to_string(), module: module.to_string(), file })
    };
    modules.iter().map(source).collect()
}

/// As listed, but each file behind those of its crate that it uses.
fn in_order(krate: &str, sources: Vec<Source>) -> Vec<Source> {
    let inside = format!("Rattle.{krate}.specs.");
    let mut waiting = sources;
    let mut done: BTreeSet<String> = BTreeSet::new();
    let mut ordered = Vec::new();
    while !waiting.is_empty() {
        let all: BTreeSet<String> = waiting.iter().map(|s| s.module.clone()).collect();
        let ready = |s: &Source| {
            let modules = s.file.uses.iter().map(|u| match u {
                Use::Names { module, .. } | Use::Alias { module, .. } => module,
            });
            let mut inner = modules.filter_map(|m| m.strip_prefix(inside.as_str()));
            inner.all(|m| done.contains(m) || !all.contains(m))
        };
        let next = waiting.iter().position(ready).unwrap_or(0);
        let source = waiting.remove(next);
        done.insert(source.module.clone());
        ordered.push(source);
    }
    ordered
}
