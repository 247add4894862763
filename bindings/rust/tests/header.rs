//! No compiler compares the three places that declare the calls: bindings/c/tureenlark.h, the declarations in
//! src/lib.rs, and the exported functions of the proved crate. Here they must have the same functions, with the same
//! arguments in the same order, and the first two the same constants.

use std::collections::BTreeMap;
use std::fmt::Debug;
use std::fs;
use std::path::{Path, PathBuf};

/// How an argument is passed.
#[derive(Clone, Copy, PartialEq, Eq, Debug)]
enum Kind {
    ConstPointer,
    Pointer,
    Length,
    Byte,
}

type Argument = (String, Kind);
/// The arguments of each function, in order. Their names count: two slices exchanged are of the same kinds.
type Functions = BTreeMap<String, Vec<Argument>>;
type Constants = BTreeMap<String, usize>;

fn root() -> PathBuf {
    Path::new(env!("CARGO_MANIFEST_DIR")).ancestors().nth(2).unwrap().to_path_buf()
}

fn read(path: &Path) -> String {
    fs::read_to_string(path).unwrap_or_else(|error| panic!("{}: {error}", path.display()))
}

fn header() -> String {
    without(&read(&root().join("bindings/c/tureenlark.h")), "/*", "*/")
}

fn bindings() -> String {
    without(&read(&root().join("bindings/rust/src/lib.rs")), "//", "\n")
}

/// All files of the proved crate, one behind the other.
fn proved() -> String {
    let folder = root().join("crates/tureenlark/src");
    let entries = fs::read_dir(&folder).unwrap_or_else(|error| panic!("{}: {error}", folder.display()));
    let files = entries.map(|entry| entry.unwrap().path()).filter(|path| path.extension().is_some_and(|e| e == "rt"));
    let text: String = files.map(|path| without(&read(&path), "//", "\n")).collect();
    assert!(!text.is_empty(), "{}: there is no Rattle file", folder.display());
    text
}

/// The text without its comments, which go from `open` to `close`.
fn without(text: &str, open: &str, close: &str) -> String {
    let mut parts = text.split(open);
    let before = parts.next().unwrap().to_string();
    parts.fold(before, |kept, part| kept + "\n" + part.split_once(close).map_or("", |(_, behind)| behind))
}

/// Every function that is introduced by `start`, has its arguments between parentheses and goes on with `end`; white
/// space counts once.
fn functions(text: &str, start: &str, end: &str, arguments: impl Fn(&str) -> Vec<Argument>) -> Functions {
    let text = text.split_whitespace().collect::<Vec<_>>().join(" ");
    let mut found = Functions::new();
    for part in text.split(start).skip(1) {
        let (name, rest) = part.split_once('(').expect("arguments behind a name");
        let (list, rest) = rest.split_once(')').expect("an end of the arguments");
        assert!(rest.starts_with(end), "{name}: {end:?} must follow its arguments");
        let list =
            list.split(',').map(str::trim).filter(|argument| !argument.is_empty()).flat_map(&arguments).collect();
        assert_eq!(found.insert(name.to_string(), list), None, "{name} is declared twice");
    }
    found
}

fn of_header(text: &str) -> Functions {
    let found = functions(text, "size_t tureenlark_", ";", |argument| {
        let (kind, name) = argument.split_at(argument.rfind([' ', '*']).unwrap() + 1);
        let kind = match kind.trim() {
            "const uint8_t *" => Kind::ConstPointer,
            "uint8_t *" => Kind::Pointer,
            "size_t" => Kind::Length,
            "uint8_t" => Kind::Byte,
            _ => panic!("the header has an argument {argument:?}"),
        };
        vec![(name.to_string(), kind)]
    });
    let declarations = text.lines().filter(|line| !line.starts_with('#')).flat_map(|line| line.matches('(')).count();
    assert_eq!(found.len(), declarations, "the header has a function that was not understood");
    found
}

fn of_bindings(text: &str) -> Functions {
    let (_, text) = text.split_once("extern \"C\" {").expect("declarations");
    let (text, behind) = text.split_once('}').expect("an end of the declarations");
    assert!(!behind.contains("extern"), "src/lib.rs declares functions in a second place");
    let found = functions(text, "pub fn tureenlark_", " -> usize;", |argument| {
        let (name, kind) = argument.split_once(": ").expect("a type");
        let kind = match kind {
            "*const u8" => Kind::ConstPointer,
            "*mut u8" => Kind::Pointer,
            "usize" => Kind::Length,
            "u8" => Kind::Byte,
            _ => panic!("src/lib.rs has an argument {argument:?}"),
        };
        vec![(name.to_string(), kind)]
    });
    assert_eq!(found.len(), text.matches("fn ").count(), "src/lib.rs has a declaration that was not understood");
    found
}

/// A slice is passed as a pointer and then a length.
fn of_proved(text: &str) -> Functions {
    let found = functions(text, "#[unsafe(no_mangle)] pub extern \"C\" fn tureenlark_", " -> usize ", |argument| {
        let (name, kind) = argument.split_once(": ").expect("a type");
        let length = (format!("{name}_length"), Kind::Length);
        match kind {
            "&[u8]" => vec![(name.to_string(), Kind::ConstPointer), length],
            "&mut [u8]" => vec![(name.to_string(), Kind::Pointer), length],
            "u8" => vec![(name.to_string(), Kind::Byte)],
            _ => panic!("crates/tureenlark has an argument {argument:?}"),
        }
    });
    for word in ["extern", "no_mangle"] {
        assert_eq!(found.len(), text.matches(word).count(), "crates/tureenlark exports what was not understood");
    }
    found
}

fn number(text: &str) -> usize {
    let digits = text.trim_start_matches("((size_t)").trim_end_matches(')');
    let read = digits.strip_prefix("0x").map_or_else(|| digits.parse(), |hex| usize::from_str_radix(hex, 16));
    read.unwrap_or_else(|_| panic!("no number: {text:?}"))
}

/// The macros and the refusals of the header, without its prefix.
fn constants_of_header(text: &str) -> Constants {
    let mut found = Constants::new();
    for line in text.lines().filter_map(|line| line.trim_start_matches("#define ").trim().strip_prefix("TUREENLARK_")) {
        if let Some((name, value)) = line.trim_end_matches(',').split_once(' ') {
            found.insert(name.to_string(), number(value.trim_start_matches("= ")));
        }
    }
    // two more for the guard, TUREENLARK_H
    assert_eq!(
        found.len() + 2,
        text.matches("TUREENLARK_").count(),
        "the header has a constant that was not understood"
    );
    found
}

/// The constants of src/lib.rs, and its refusals with their names written as in C.
fn constants_of_bindings(text: &str) -> Constants {
    let mut found = Constants::new();
    for line in text.lines().filter_map(|line| line.trim_start_matches("pub ").strip_prefix("const ")) {
        let (name, value) = line.split_once(": usize = ").expect("a number");
        found.insert(name.to_string(), number(value.trim_end_matches(';')));
    }
    let (_, refusals) = text.split_once("pub enum Refusal {").expect("the refusals");
    for line in refusals.split_once('}').unwrap().0.split(',').map(str::trim).filter(|line| !line.is_empty()) {
        let (name, value) = line.split_once(" = ").expect("a number");
        let mut in_c = String::new();
        for letter in name.chars() {
            if letter.is_uppercase() && !in_c.is_empty() {
                in_c.push('_');
            }
            in_c.push(letter.to_ascii_uppercase());
        }
        found.insert(in_c, number(value));
    }
    found
}

/// What stands at `place` is what the header says, thing by thing, so that a failure names the thing.
fn agree<T: PartialEq + Debug>(place: &str, found: BTreeMap<String, T>, header: BTreeMap<String, T>) {
    for (name, said) in &header {
        assert_eq!(found.get(name), Some(said), "{name}: {place} (left) and the header (right) differ");
    }
    let strays: Vec<&String> = found.keys().filter(|name| !header.contains_key(*name)).collect();
    assert!(strays.is_empty(), "{place} has what the header lacks: {strays:?}");
}

#[test]
fn the_bindings_declare_what_the_header_does() {
    agree("src/lib.rs", of_bindings(&bindings()), of_header(&header()));
}

#[test]
fn the_bindings_have_the_constants_of_the_header() {
    agree("src/lib.rs", constants_of_bindings(&bindings()), constants_of_header(&header()));
}

#[test]
fn the_proved_crate_exports_what_the_header_declares() {
    agree("crates/tureenlark", of_proved(&proved()), of_header(&header()));
}

/// The comparison is worth something only where each kind of difference is seen.
#[test]
fn differences_are_seen() {
    fn seen<T: PartialEq>(text: &str, parse: impl Fn(&str) -> T, from: &str, to: &str) {
        let changed = text.replacen(from, to, 1);
        assert!(changed != text, "{from:?} is not there");
        assert!(parse(&changed) != parse(text), "{to:?} for {from:?} is not seen");
    }
    let (header, bindings) = (header(), bindings());
    seen(&header, of_header, "size_t tureenlark_screen(const uint8_t *plan, size_t plan_length);", "");
    seen(&header, of_header, "tureenlark_read_plan", "tureenlark_plan");
    seen(&header, of_header, "uint8_t *instruction", "const uint8_t *instruction");
    seen(&header, of_header, "uint8_t mask", "size_t mask");
    seen(&header, of_header, "uint8_t values, uint8_t *schedule", "uint8_t *schedule, uint8_t values");
    seen(&header, constants_of_header, "TUREENLARK_TREE_BYTES 573", "TUREENLARK_TREE_BYTES 574");
    seen(&header, constants_of_header, "0x7F00", "0x7E00");
    seen(&bindings, of_bindings, "history: *const u8", "history: *mut u8");
    seen(&bindings, of_bindings, "mask: u8", "");
    seen(&bindings, constants_of_bindings, "AfterDone = 9", "AfterDone = 8");
    let proved =
        "#[unsafe(no_mangle)]\npub extern \"C\" fn tureenlark_a(\n    plan: &[u8],\n    tree: &[u8],\n) -> usize\n    ensures";
    seen(proved, of_proved, "plan: &[u8],\n    tree: &[u8]", "tree: &[u8],\n    plan: &[u8]");
    seen(proved, of_proved, "tree: &[u8]", "tree: &mut [u8]");
    seen(proved, of_proved, "tree: &[u8]", "tree: u8");
}
