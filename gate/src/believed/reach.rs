//! What is reached from a statement when every name is followed.

use super::code::{declared, Declared};
use super::definitions::{Definitions, Target};
use super::scope::mentioned;
use std::collections::{BTreeMap, BTreeSet};
use std::path::Path;

#[derive(Clone, Debug, Default)]
pub struct Reached {
    /// declarations, by file and place there
    pub items: BTreeSet<(usize, usize)>,
    /// structs and enums of the code, by crate and place
    pub types: BTreeMap<(String, Vec<String>), Declared>,
    /// the toolchain's names, by module
    pub library: BTreeSet<(String, String)>,
    /// names that lead nowhere
    pub faults: BTreeSet<String>,
}

impl Reached {
    /// Follows every name from these roots: crate, file and name of each.
    pub fn from(root: &Path, definitions: &Definitions, roots: &[(&str, &str, &str)]) -> Reached {
        let mut reached = Reached::default();
        let mut waiting = Vec::new();
        for (krate, module, name) in roots {
            match definitions.find(krate, module, name) {
                Ok(target) => waiting.push(target),
                Err(e) => drop(reached.faults.insert(e)),
            }
        }
        while let Some(target) = waiting.pop() {
            waiting.extend(reached.add(root, definitions, target));
        }
        reached
    }

    /// Adds one thing. What it leads to, if it is new.
    fn add(&mut self, root: &Path, definitions: &Definitions, target: Target) -> Vec<Target> {
        match target {
            Target::Item { file, item, .. } if self.items.insert((file, item)) => self.names(definitions, file, item),
            Target::Type { krate, place } if !self.types.contains_key(&(krate.clone(), place.clone())) => {
                match declared(root, &krate, &place) {
                    Ok(found) => {
                        let names = found.names.iter().cloned().map(|(krate, place)| Target::Type { krate, place });
                        let names = names.collect();
                        self.types.insert((krate, place), found);
                        names
                    }
                    Err(e) => {
                        self.faults.insert(e);
                        Vec::new()
                    }
                }
            }
            Target::Library { module, name } => {
                self.library.insert((module, name));
                Vec::new()
            }
            _ => Vec::new(),
        }
    }

    fn names(&mut self, definitions: &Definitions, file: usize, item: usize) -> Vec<Target> {
        let source = &definitions.sources[file].file;
        let constructor = |name: &str| definitions.is_constructor(file, name);
        let mut found = Vec::new();
        for name in mentioned(source, &source.items[item], &constructor) {
            match definitions.resolve(file, &name) {
                Ok(target) => found.push(target),
                Err(e) => drop(self.faults.insert(e)),
            }
        }
        found
    }
}
