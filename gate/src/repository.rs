//! Where the wrong programs of a repository stand: `must-fail` has those that rt ci tries too, `wrong` the others.

use crate::edit::{Edit, Place};
use std::fs;
use std::path::{Path, PathBuf};

/// The two folders of a crate in which wrong programs stand.
#[derive(Clone, Copy, Debug, PartialEq)]
pub enum Folder {
    MustFail,
    Wrong,
}

impl Folder {
    pub fn name(self) -> &'static str {
        match self {
            Folder::MustFail => "must-fail",
            Folder::Wrong => "wrong",
        }
    }
}

pub struct Program {
    pub krate: String,
    pub label: String,
    pub folder: Folder,
    pub file: PathBuf,
    /// the edit and the places that it changes, or why it cannot be read or applied
    pub edit: Result<(Edit, Vec<Place>), String>,
}

impl Program {
    pub fn name(&self) -> String {
        format!("{}/{}", self.krate, self.label)
    }

    /// What the prover said of it when it was last tried.
    pub fn log(&self, root: &Path) -> PathBuf {
        root.join("target/wrong").join(&self.krate).join(format!("{}.log", self.label))
    }
}

/// The crates that crates.txt lists, in its order. The words behind a name, as `staticlib`, are no part of it.
pub fn crates(root: &Path) -> Result<Vec<String>, String> {
    let text = read(&root.join("crates.txt"))?;
    let lines = text.lines().map(|l| l.split('#').next().unwrap_or(""));
    let names = lines.filter_map(|l| l.split_once(':')).filter_map(|(head, _)| head.split_whitespace().next());
    Ok(names.map(str::to_string).collect())
}

/// The wrong programs of one of a crate's folders, by name.
pub fn programs(root: &Path, krate: &str, folder: Folder) -> Result<Vec<Program>, String> {
    let place = root.join("crates").join(krate);
    let Ok(entries) = fs::read_dir(place.join(folder.name())) else { return Ok(Vec::new()) };
    let mut files: Vec<PathBuf> = entries.filter_map(|e| e.ok()).map(|e| e.path()).collect();
    files.sort();
    let mut found = Vec::new();
    for file in files {
        if file.extension().is_none_or(|x| x != "edit") {
            return Err(format!("{} is no .edit file", file.display()));
        }
        let label = file.file_stem().map(|s| s.to_string_lossy().into_owned()).unwrap_or_default();
        let edit = read_edit(&place, &file);
        found.push(Program { krate: krate.to_string(), label, folder, file, edit });
    }
    Ok(found)
}

fn read_edit(place: &Path, file: &Path) -> Result<(Edit, Vec<Place>), String> {
    let edit = Edit::read(&read(file)?)?;
    let places = edit.apply(&|f: &str| read(&place.join(f)))?.places;
    Ok((edit, places))
}

pub fn read(file: &Path) -> Result<String, String> {
    fs::read_to_string(file).map_err(|e| format!("{}: {e}", file.display()))
}
