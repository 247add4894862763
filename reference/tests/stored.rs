//! The stored case files, and what they must print, are what the generator makes.

#[test]
fn the_stored_cases_are_made_anew() {
    let folder = concat!(env!("CARGO_MANIFEST_DIR"), "/../crates/calls");
    let made = std::process::Command::new(env!("CARGO_BIN_EXE_make_cases")).args([folder, "--check"]).output().unwrap();
    assert!(made.status.success(), "{}", String::from_utf8_lossy(&made.stdout));
}
