//! `gate try [--whole] [CRATE | CRATE/LABEL]..` tries the wrong programs that are named, or all of crates/*/wrong and
//! crates/*/must-fail, each by itself; `gate judge` reads the logs that it left; `gate believed [--write | --headers |
//! --write-headers]` compares or writes the page of what must be believed and the sentences at the ends of the headers.
//! Run at the repository's root.

use gate::believed::{Believed, STATEMENTS};
use gate::judge::judge;
use gate::repository::{crates, programs, read, Folder, Program};
use gate::trial::{Outcome, Trials};
use std::path::Path;
use std::process::{Command, ExitCode};

fn main() -> ExitCode {
    let words: Vec<String> = std::env::args().skip(1).collect();
    let said = match words.split_first() {
        Some((first, rest)) if first == "try" => try_programs(rest),
        Some((first, [])) if first == "judge" => judge_all(),
        Some((first, rest)) if first == "believed" => believed(rest),
        _ => {
            Err("usage: gate try [--whole] [CRATE | CRATE/LABEL].., gate judge, or gate believed [OPTION]".to_string())
        }
    };
    match said {
        Ok(0) => ExitCode::SUCCESS,
        Ok(_) => ExitCode::FAILURE,
        Err(e) => {
            eprintln!("error: {e}");
            println!("0 passed, 1 failed");
            ExitCode::from(2)
        }
    }
}

/// All wrong programs, crate by crate.
fn all(root: &Path) -> Result<Vec<Program>, String> {
    let mut found = Vec::new();
    for krate in crates(root)? {
        for folder in [Folder::MustFail, Folder::Wrong] {
            found.extend(programs(root, &krate, folder)?);
        }
    }
    Ok(found)
}

/// Those that these words name; where there is no word, all.
fn named(root: &Path, words: &[String]) -> Result<Vec<Program>, String> {
    let found = all(root)?;
    let is = |p: &Program, word: &String| p.name() == *word || p.krate == *word;
    if let Some(w) = words.iter().find(|w| !found.iter().any(|p| is(p, w))) {
        return Err(format!("no wrong program is called {w}"));
    }
    Ok(found.into_iter().filter(|p| words.is_empty() || words.iter().any(|w| is(p, w))).collect())
}

/// Tries wrong programs and prints what refused each. How many were not refused for a fact of their own.
fn try_programs(words: &[String]) -> Result<usize, String> {
    let root = std::env::current_dir().map_err(|e| e.to_string())?;
    let (options, names): (Vec<String>, Vec<String>) = words.iter().cloned().partition(|w| w.starts_with("--"));
    if let Some(o) = options.iter().find(|o| *o != "--whole") {
        return Err(format!("{o} is no option"));
    }
    let found = named(&root, &names)?;
    if found.is_empty() {
        return Err("there is no wrong program".to_string());
    }
    let crates = crates(&root)?;
    if names.is_empty() {
        prove(&root, &["all", "check"])?;
    }
    for krate in crates.iter().filter(|c| !names.is_empty() && found.iter().any(|p| p.krate == **c)) {
        prove(&root.join("crates").join(krate), &["check"])?;
    }
    let work = Work::new()?;
    let jobs = std::env::var("RT_JOBS").ok().and_then(|j| j.parse().ok());
    let jobs = jobs.or(std::thread::available_parallelism().ok().map(|n| n.get())).unwrap_or(1).max(1);
    let whole = options.iter().any(|o| o == "--whole");
    let trials = Trials { root: &root, work: work.folder(), crates: &crates, jobs, whole };
    trials.lay()?;
    let outcomes = trials.run(&found, &say);
    let failed = outcomes.iter().filter(|o| o.said.is_err()).count();
    println!("{} passed, {failed} failed", outcomes.len() - failed);
    Ok(failed)
}

/// Proves the crates in this folder as they are; what is proved stays there.
fn prove(folder: &Path, words: &[&str]) -> Result<(), String> {
    let check = Command::new("rt").args(words).current_dir(folder).output().map_err(|e| format!("rt: {e}"))?;
    match check.status.success() {
        true => Ok(()),
        false => Err(format!("not all is proved:\n{}", String::from_utf8_lossy(&check.stdout))),
    }
}

fn say(p: &Program, o: &Outcome) {
    let took = o.took.as_secs_f64();
    match &o.said {
        Ok(by) => println!("{}: refused by {by} ({took:.1} s)", p.name()),
        Err(why) => println!("{}: NOT REFUSED for a fact of its own: {why} ({took:.1} s)", p.name()),
    }
}

/// Judges every log anew. How many wrong programs show nothing, or were not tried since they were written.
fn judge_all() -> Result<usize, String> {
    let root = std::env::current_dir().map_err(|e| e.to_string())?;
    let programs = all(&root)?;
    let mut faults = 0;
    for p in &programs {
        if let Err(why) = judged(p, &root) {
            println!("{}: {why}", p.name());
            faults += 1;
        }
    }
    println!("{} wrong programs judged, {faults} faults", programs.len());
    Ok(faults)
}

fn judged(p: &Program, root: &Path) -> Result<String, String> {
    let (edit, places) = p.edit.as_ref().map_err(|e| format!("BAD EDIT: {e}"))?;
    if !tried(p, root) {
        return Err("it was not tried since it was written".to_string());
    }
    judge(edit, places, &read(&p.log(root))?)
}

/// Compares what must be believed with the page and the headers, or writes them. How many faults there are.
fn believed(words: &[String]) -> Result<usize, String> {
    let root = std::env::current_dir().map_err(|e| e.to_string())?;
    let believed = Believed::read(&root, &STATEMENTS)?;
    match words.iter().map(String::as_str).collect::<Vec<_>>().as_slice() {
        [] => (),
        ["--write"] => return believed.write().map(|()| 0),
        ["--write-headers"] => return believed.write_headers().map(|()| 0),
        ["--headers"] => {
            believed.headers().iter().for_each(|h| println!("{h}"));
            return Ok(0);
        }
        _ => return Err(format!("{} is no option", words.join(" "))),
    }
    let faults = believed.faults();
    faults.iter().for_each(|f| println!("{f}"));
    let pages = believed.pages();
    let lines = pages.iter().map(|(file, page)| format!("{file} {}", page.lines().count()));
    println!("lines to be believed: {}; {} faults", lines.collect::<Vec<_>>().join(", "), faults.len());
    Ok(faults.len())
}

fn tried(p: &Program, root: &Path) -> bool {
    let time = |f: &Path| f.metadata().and_then(|m| m.modified()).ok();
    matches!((time(&p.file), time(&p.log(root))), (Some(edit), Some(log)) if edit <= log)
}

/// A folder of its own below the one for temporary files, removed at the end.
struct Work(std::path::PathBuf);

impl Work {
    /// The first that is free: rt remembers a folder in which it kept proofs, and is not to remember ever more of them.
    fn new() -> Result<Work, String> {
        let folders = (0..100).map(|n| std::env::temp_dir().join(format!("gate.{n}")));
        let free = folders.into_iter().find(|folder| std::fs::create_dir(folder).is_ok());
        free.map(Work).ok_or(format!("{} takes no new folder", std::env::temp_dir().display()))
    }

    fn folder(&self) -> &Path {
        &self.0
    }
}

impl Drop for Work {
    fn drop(&mut self) {
        let _ = std::fs::remove_dir_all(&self.0);
    }
}
