//! The program's inputs and expected outputs in crates/vectors/data, or in the folder that REFERENCE_VECTORS names.

use reference::checker::check;
use reference::search::program;
use reference::text::{read_plan, read_tree};
use std::path::PathBuf;

fn folder() -> PathBuf {
    let ours = PathBuf::from(env!("CARGO_MANIFEST_DIR")).join("../crates/vectors/data");
    std::env::var_os("REFERENCE_VECTORS").map_or(ours, PathBuf::from)
}

/// Names and bytes of all pairs; there must be some.
fn pairs() -> Vec<(String, Vec<u8>, Vec<u8>)> {
    let folder = folder();
    let entries = std::fs::read_dir(&folder).unwrap_or_else(|error| panic!("{}: {error}", folder.display()));
    let mut pairs = Vec::new();
    for entry in entries {
        let path = entry.unwrap().path();
        if path.extension().is_some_and(|extension| extension == "in") {
            let name = path.file_stem().unwrap().to_string_lossy().into_owned();
            pairs.push((name, std::fs::read(&path).unwrap(), std::fs::read(path.with_extension("out")).unwrap()));
        }
    }
    assert!(!pairs.is_empty(), "{} has no vectors", folder.display());
    pairs
}

#[test]
fn the_program_prints_them() {
    let mut run = 0;
    for (name, input, output) in pairs() {
        if name.starts_with('K') || name.starts_with("edge") || name.starts_with("small") {
            assert_eq!(program(&input), output, "{name}");
            run += 1;
        }
    }
    assert!(run > 0, "no vector of the groups K, edge and small");
}

#[test]
fn the_checker_accepts_their_trees() {
    let mut trees = 0;
    for (name, input, output) in pairs() {
        if let (Ok(plan), Ok(tree)) = (read_plan(&input), read_tree(&output, 573)) {
            assert!(check(&plan, &tree).is_ok(), "{name}");
            trees += 1;
        }
    }
    assert!(trees > 0, "no vector has a tree");
}
