//! Links libtureenlark.a. The proof builds it, not cargo: this only finds it.

use std::env;
use std::path::PathBuf;

fn main() {
    let package = PathBuf::from(env::var_os("CARGO_MANIFEST_DIR").expect("cargo names the package's folder"));
    let root = package.ancestors().nth(2).expect("the package stands two levels below the root");
    // A relative folder is taken from the root, as in tests/c_library.
    let named = env::var_os("TUREENLARK_LIBRARY").filter(|folder| !folder.is_empty());
    let folder = root.join(named.unwrap_or("crates/tureenlark/out".into()));
    let archive = folder.join("libtureenlark.a");
    println!("cargo::rerun-if-env-changed=TUREENLARK_LIBRARY");
    println!("cargo::rerun-if-changed={}", archive.display());
    if archive.is_file() {
        println!("cargo::rustc-link-search=native={}", folder.display());
        println!("cargo::rustc-link-lib=static=tureenlark");
    } else {
        let builder = "`rt lib` in crates/tureenlark builds it";
        println!("cargo::error=there is no {}: {builder}", archive.display());
    }
}
