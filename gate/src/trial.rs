//! Trying wrong programs, each by itself.
//!
//! Every crate is first proved as it is, by `rt all check` in the repository, which keeps in each crate's `out` the proof
//! of each of its modules. A wrong program is then checked in a copy of the repository, over a copy of those proofs: only
//! what the edit reaches is checked anew. That the rest is proved is true of every such copy, since it is the same text;
//! and a refusal comes from a module that was checked. `whole` has everything checked anew, the crates below too.

use crate::carried::carried;
use crate::judge::judge;
use crate::log::errors;
use crate::repository::{read, Program};
use std::fs;
use std::path::{Path, PathBuf};
use std::process::{Command, Stdio};
use std::sync::atomic::{AtomicUsize, Ordering};
use std::time::{Duration, Instant};

/// The parts of a crate that a check reads.
const PARTS: [&str; 3] = ["src", "specs", "proofs"];
/// What a check keeps, below a crate: its proofs, and the library that the crates above read.
const PROOFS: &str = "out/incremental";
const LIBRARY: &str = "out/rlib";

pub struct Trials<'a> {
    /// the repository, all of whose crates are proved
    pub root: &'a Path,
    /// an empty folder to work in
    pub work: &'a Path,
    pub crates: &'a [String],
    pub jobs: usize,
    pub whole: bool,
}

/// How a wrong program was refused, or why it counts as not refused, and how long that took.
pub struct Outcome {
    pub said: Result<String, String>,
    pub took: Duration,
}

impl Trials<'_> {
    /// Lays a copy of the repository for each job: the crates' texts and libraries.
    pub fn lay(&self) -> Result<(), String> {
        (0..self.jobs).try_for_each(|job| {
            let place = self.place(job);
            let said = |e: std::io::Error| format!("{}: {e}", place.display());
            for krate in self.crates {
                let (from, to) = (self.root.join("crates").join(krate), place.join("crates").join(krate));
                for part in PARTS.iter().chain([&LIBRARY]).filter(|part| from.join(part).is_dir()) {
                    copy(&from.join(part), &to.join(part))?;
                }
            }
            fs::copy(self.root.join("crates.txt"), place.join("crates.txt")).map(drop).map_err(said)
        })
    }

    /// Tries each of these; `said` hears of each as soon as it is known.
    pub fn run(&self, programs: &[Program], said: &(dyn Fn(&Program, &Outcome) + Sync)) -> Vec<Outcome> {
        side_by_side(self.jobs, programs, &|job: usize, p: &Program| {
            let began = Instant::now();
            let outcome = Outcome { said: self.one(job, p), took: began.elapsed() };
            said(p, &outcome);
            outcome
        })
    }

    fn one(&self, job: usize, p: &Program) -> Result<String, String> {
        let (edit, places) = p.edit.as_ref().map_err(|e| format!("BAD EDIT: {e}"))?;
        let file = p.log(self.root);
        let _ = fs::remove_file(&file);
        let from = self.root.join("crates").join(&p.krate);
        let place = self.place(job).join("crates").join(&p.krate);
        let files = edit.apply(&|f: &str| read(&from.join(f)))?.files;
        put(&place, &files)?;
        replace(&place.join(PROOFS), (!self.whole).then(|| from.join(PROOFS)))?;
        let said = self.said(&place, &|log| judge(edit, places, log));
        for part in PARTS.iter().filter(|part| from.join(part).is_dir()) {
            replace(&place.join(part), Some(from.join(part)))?;
        }
        replace(&place.join(PROOFS), None)?;
        let (log, by) = said?;
        fs::create_dir_all(file.parent().expect("a log stands in a folder")).map_err(|e| e.to_string())?;
        fs::write(&file, &log).map_err(|e| e.to_string())?;
        by
    }

    /// What the prover says of the crate in this folder, and what that comes to; where it shows nothing, once more with the
    /// answers under the new names of their goals, if some have one.
    fn said(&self, place: &Path, judged: &dyn Fn(&str) -> Result<String, String>) -> Result<Said, String> {
        let log = self.check(place)?;
        let by = judged(&log);
        if by.is_err() {
            if let Some(names) = carry(place, &log)? {
                let log = names + &self.check(place)?;
                let by = judged(&log);
                return Ok((log, by));
            }
        }
        Ok((log, by))
    }

    /// What the prover says of the crate in this folder, where it came to an end: status 0 is proved and 1 is refused.
    fn check(&self, place: &Path) -> Result<String, String> {
        let verb = if self.whole { "verdict" } else { "check" };
        let run = Command::new("rt").args([verb, "--jobs", "1"]).current_dir(place).stdin(Stdio::null()).output();
        let output = run.map_err(|e| format!("rt: {e}"))?;
        let log = String::from_utf8_lossy(&output.stdout).into_owned() + &String::from_utf8_lossy(&output.stderr);
        match output.status.code() {
            Some(0 | 1) => Ok(log),
            status => Err(format!("rt ended with status {status:?}:\n{log}")),
        }
    }

    fn place(&self, job: usize) -> PathBuf {
        self.work.join(job.to_string())
    }
}

/// A log, and what refused the wrong program or why that shows nothing.
type Said = (String, Result<String, String>);

/// Writes the answers under the new names of their goals, and says which; nothing where no name is new.
fn carry(place: &Path, log: &str) -> Result<Option<String>, String> {
    let texts = |folder: &str| files(&place.join(folder)).into_iter().map(|(_, text)| text).collect();
    let all = carried(log, &errors(log), &texts);
    let mut said = String::new();
    for proof in &all {
        for (file, text) in files(&place.join(&proof.folder)) {
            fs::write(&file, proof.apply(&text)).map_err(|e| format!("{}: {e}", file.display()))?;
        }
        let conditions = proof.conditions.iter().map(|(old, new)| format!("{new} for {old}"));
        said += &format!("carried: {}: {}\n", proof.folder, conditions.collect::<Vec<_>>().join(", "));
    }
    Ok((!all.is_empty()).then_some(said))
}

/// The files of a folder, with their texts.
fn files(folder: &Path) -> Vec<(PathBuf, String)> {
    let entries = fs::read_dir(folder).into_iter().flatten().filter_map(|e| e.ok()).map(|e| e.path());
    entries.filter_map(|path| read(&path).ok().map(|text| (path, text))).collect()
}

fn put(place: &Path, files: &[(String, String)]) -> Result<(), String> {
    files.iter().try_for_each(|(file, text)| fs::write(place.join(file), text).map_err(|e| format!("{file}: {e}")))
}

/// Removes a folder, and makes it anew as a copy of another where one is given.
fn replace(folder: &Path, by: Option<PathBuf>) -> Result<(), String> {
    if folder.is_dir() {
        fs::remove_dir_all(folder).map_err(|e| format!("{}: {e}", folder.display()))?;
    }
    by.map_or(Ok(()), |from| copy(&from, folder))
}

fn copy(from: &Path, to: &Path) -> Result<(), String> {
    let said = |e: std::io::Error| format!("{}: {e}", from.display());
    fs::create_dir_all(to).map_err(said)?;
    for entry in fs::read_dir(from).map_err(said)? {
        let entry = entry.map_err(said)?;
        let target = to.join(entry.file_name());
        if entry.file_type().map_err(said)?.is_dir() {
            copy(&entry.path(), &target)?;
        } else {
            fs::copy(entry.path(), target).map_err(said)?;
        }
    }
    Ok(())
}

/// What `work` makes of each item, in their order, so many at a time; it hears the number of the job that does it.
fn side_by_side<T: Sync, R: Send>(jobs: usize, items: &[T], work: &(dyn Fn(usize, &T) -> R + Sync)) -> Vec<R> {
    let next = AtomicUsize::new(0);
    let one = |job: usize| {
        let mut mine = Vec::new();
        loop {
            let at = next.fetch_add(1, Ordering::Relaxed);
            let Some(item) = items.get(at) else { return mine };
            mine.push((at, work(job, item)));
        }
    };
    let one = &one;
    let mut done: Vec<(usize, R)> = std::thread::scope(|scope| {
        let threads: Vec<_> = (0..jobs).map(|job| scope.spawn(move || one(job))).collect();
        threads.into_iter().flat_map(|t| t.join().expect("a trial does not panic")).collect()
    });
    done.sort_by_key(|(at, _)| *at);
    done.into_iter().map(|(_, r)| r).collect()
}
