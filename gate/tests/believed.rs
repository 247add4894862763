//! What must be believed, in planted repositories: what is reached, what is shown, and each fault.

use gate::believed::{Believed, Statement, CALLS, PAGE, PAGES};
use std::fs;
use std::path::{Path, PathBuf};
use std::sync::atomic::{AtomicUsize, Ordering};

const STATEMENTS: [Statement; 2] = [
    Statement { page: PAGE, title: "Demand 1", word: "demand 1", roots: &[("two", "Claim", "Claim")] },
    Statement { page: CALLS, title: "The rest", word: "the rest", roots: &[("one", "Rest", "rest")] },
];

const LIST: &str = "-- Definitions: the modules of this folder, in the order in which they are read.\n";

const BASE: &str = "\
-- Definitions: numbers. To be believed, for demand 1.
use Rattle.std.specs.Prelude.{ℕ, ◌+◌}
use Rattle.one.specs.declared.Colour.{Colour}
use Rattle.one.specs.declared.Colour.TheVariants as colour

-- ---- two numbers

-- a pair
pub record Pair : Type 0 where
  pub left : ℕ
  -- the other one
  pub right : ℕ

pub data Sign : Type 0 where
  plus : Sign
  minus : ℕ → Sign

-- what a colour counts
abbrev pub worth : Colour → ℕ
worth colour.Red = 1
worth (colour.Shade s) = 2

module _ (p : Pair) where
  -- both together
  unfoldable pub sum : Sign → ℕ
  sum plus = p.left + p.right
  sum (minus n) = n
";

const INNER: &str = "\
-- Definitions: for proofs. Not to be believed: only theorems and inner contracts use it.
use Rattle.std.specs.Prelude.{ℕ}

abbrev pub inner : ℕ
inner = 7
";

const REST: &str = "\
-- Definitions: the rest. To be believed, for the rest only.
use Rattle.std.specs.Prelude.{ℕ}
use Rattle.one.specs.Base as base

abbrev pub rest : base.Pair → ℕ
rest inner = inner.left
";

const CLAIM: &str = "\
-- The claim. To be believed, for demand 1.
use Rattle.std.specs.Prelude.{ℕ, ◌≡◌}
use Rattle.one.specs.declared.Colour.{Colour}
use Rattle.one.specs.Base.{Pair, Sign, minus, sum as total, worth}

pub record Claim : Type 0 where
  pub sums : (p : Pair) (n : ℕ) → total p (minus n) ≡ (λ Sign. Sign) n
  pub worth_less : (c : Colour) → worth c ≡ 0
";

const CODE: &str = "\
// Code.

use two::{Hue, Tone};

// A shade (not shown before what names it).
#[derive(Clone, Copy)]
pub struct Shade {
    pub depth: u8,
}

// A colour.
#[derive(Clone, Copy)]
pub enum Colour {
    Mixed(Tone),
    Red,
    Shade(Shade),
}

pub struct Other {
    pub at: u8,
}
";

/// A repository of two crates in a folder of its own, removed at the end.
struct Planted(PathBuf);

static COUNT: AtomicUsize = AtomicUsize::new(0);

impl Planted {
    fn new() -> Planted {
        let number = COUNT.fetch_add(1, Ordering::Relaxed);
        let planted = Planted(std::env::temp_dir().join(format!("believed.{}.{number}", std::process::id())));
        planted.put("crates.txt", "# two\none:\ntwo: one\n");
        planted.put("crates/one/specs/Lib.antt", &format!("{LIST}pub mod Rest\npub mod Base\npub mod Inner\n"));
        planted.put("crates/one/specs/Base.antt", BASE);
        planted.put("crates/one/specs/Inner.antt", INNER);
        planted.put("crates/one/specs/Rest.antt", REST);
        planted.put("crates/one/src/lib.rt", CODE);
        planted.put("crates/two/specs/Lib.antt", &format!("{LIST}pub mod Claim\n"));
        planted.put("crates/two/specs/Claim.antt", CLAIM);
        planted.put("crates/two/src/lib.rt", "pub struct Tone {\n    pub high: u8,\n}\n");
        planted.put(PAGE, "");
        planted.read(|b| b.write().expect("the page can be written"));
        planted
    }

    fn put(&self, file: &str, text: &str) {
        let file = self.0.join(file);
        fs::create_dir_all(file.parent().expect("a file stands in a folder")).expect("a folder");
        fs::write(file, text).expect("a file");
    }

    /// Replaces a piece of a file, and makes the page anew.
    fn edit(&self, file: &str, old: &str, new: &str) {
        let text = self.text(file);
        assert!(text.contains(old), "{old}");
        self.put(file, &text.replace(old, new));
        self.read(|b| b.write().expect("the page can be written"));
    }

    fn text(&self, file: &str) -> String {
        fs::read_to_string(self.0.join(file)).expect("a file")
    }

    fn read<A>(&self, f: impl FnOnce(Believed) -> A) -> A {
        f(Believed::read(Path::new(&self.0), &STATEMENTS).expect("it can be read"))
    }

    fn faults(&self) -> Vec<String> {
        self.read(|b| b.faults())
    }

    fn only_fault(&self, words: &str) {
        let faults = self.faults();
        assert!(faults.len() == 1 && faults[0].contains(words), "{faults:?}");
    }
}

impl Drop for Planted {
    fn drop(&mut self) {
        let _ = fs::remove_dir_all(&self.0);
    }
}

#[test]
fn nothing_is_wrong_at_first() {
    assert_eq!(Planted::new().faults(), Vec::<String>::new());
}

#[test]
fn definitions_stand_before_their_users_with_their_comments() {
    let planted = Planted::new();
    let page = PAGES.map(|page| planted.text(page)).concat();
    let at = |words: &str| page.find(words).unwrap_or_else(|| panic!("{words} is not on the page:\n{page}"));
    let order = [
        "## Demand 1",
        "-- == one/src/lib.rt",
        "// A shade (not shown before what names it).\npub struct Shade { pub depth: u8 }\n",
        "// A colour.\npub enum Colour { Mixed(Tone), Red, Shade(Shade) }\n",
        "-- ---- two numbers  == one/specs/Base.antt\n-- a pair\npub record Pair : Type 0 where\n",
        "  -- the other one\n  pub right : ℕ\n",
        "pub data Sign",
        "abbrev pub worth",
        "module _ (p : Pair) where\n  -- both together\n  unfoldable pub sum : Sign → ℕ\n",
        "-- == two/specs/Claim.antt\npub record Claim",
        "## The rest",
        "abbrev pub rest",
        "- `Rattle.std.specs.Prelude`: `ℕ`, `◌+◌`, `◌≡◌`",
    ];
    assert!(order.windows(2).all(|w| at(w[0]) < at(w[1])), "{page}");
    assert_eq!(page.matches("pub record Pair").count(), 1);
    assert!(!page.contains("struct Other") && !page.contains("pub inner"), "{page}");
}

#[test]
fn the_top_counts_the_lines() {
    let planted = Planted::new();
    let (page, calls) = (planted.text(PAGE), planted.text(CALLS));
    assert!(page.contains("\n| Demand 1 | 26 | 26 |\n| all | 26 | |\n"), "{page}");
    assert!(calls.contains("\n| The rest | 2 | 8 |\n| all | 2 | |\n"), "{calls}");
}

#[test]
fn a_variable_is_no_definition() {
    // in Rest.antt a variable is called `inner`, and the definition of that name is used there
    let planted = Planted::new();
    planted.edit("crates/one/specs/Rest.antt", "Base as base\n", "Base as base\nuse Rattle.one.specs.Inner.{inner}\n");
    assert_eq!(planted.faults(), Vec::<String>::new());
    planted.edit("crates/one/specs/Rest.antt", "rest inner = inner.left", "rest p = inner");
    planted.only_fault("one/specs/Inner.antt: its header has to end: To be believed, for the rest only.");
}

#[test]
fn a_name_that_leads_nowhere() {
    let planted = Planted::new();
    planted.edit("crates/one/specs/Base.antt", "sum (minus n) = n", "sum (minus n) = n + nowhere");
    planted.only_fault("one/specs/Base.antt: the name nowhere is not resolved");
}

#[test]
fn a_name_that_its_module_does_not_declare() {
    let planted = Planted::new();
    planted.edit("crates/two/specs/Claim.antt", "sum as total", "product as total");
    let faults = planted.faults();
    assert!(faults.iter().any(|f| f.contains("one/specs/Base.antt declares no product")), "{faults:?}");
}

#[test]
fn a_type_that_the_code_does_not_declare() {
    let planted = Planted::new();
    planted.edit("crates/one/src/lib.rt", "pub enum Colour", "pub enum Color");
    planted.only_fault("one/src/lib.rt declares no Colour");
    planted.edit("crates/one/src/lib.rt", "pub enum Color", "pub enum Colour");
    planted.edit("crates/one/src/lib.rt", "pub struct Shade", "pub struct Shadow");
    planted.only_fault("Colour names Shade, which is not resolved");
}

#[test]
fn a_definition_that_rests_on_a_proof() {
    let planted = Planted::new();
    planted.edit("crates/two/specs/Claim.antt", "Rattle.one.specs.Base.{", "Rattle.one.proofs.Base.{");
    let faults = planted.faults();
    assert!(faults.iter().any(|f| f.contains("Rattle.one.proofs.Base is no module of definitions")), "{faults:?}");
}

#[test]
fn a_root_that_is_missing() {
    let planted = Planted::new();
    planted.edit("crates/two/specs/Claim.antt", "record Claim", "record Claims");
    let faults = planted.faults();
    assert!(faults.iter().any(|f| f == "two/specs/Claim.antt declares no Claim"), "{faults:?}");
}

#[test]
fn a_header_that_disagrees() {
    let planted = Planted::new();
    planted.edit("crates/one/specs/Base.antt", "for demand 1.", "for the rest only.");
    planted.only_fault("one/specs/Base.antt: its header has to end: To be believed, for demand 1.");
    planted.edit("crates/one/specs/Base.antt", " To be believed, for the rest only.", "");
    planted.only_fault("one/specs/Base.antt: its header has to end: To be believed, for demand 1.");
    planted.read(|b| b.write_headers().expect("headers can be written"));
    assert_eq!(planted.faults(), Vec::<String>::new());
    assert_eq!(planted.text("crates/one/specs/Base.antt"), BASE);
}

#[test]
fn a_header_that_says_computed() {
    let planted = Planted::new();
    let not = "Not to be believed: only theorems and inner contracts use it.";
    planted.edit("crates/one/specs/Inner.antt", not, "Computed: pinned by `seven` of one/proofs/Laws.antt.");
    planted.only_fault("one/specs/Inner.antt: one/proofs/Laws.antt has no theorem `seven`");
    planted.put("crates/one/proofs/Laws.antt", "module _ where\n  pub seven : inner ≡ 7\n  seven = refl\n");
    assert_eq!(planted.faults(), Vec::<String>::new());
    planted.edit("crates/one/specs/Inner.antt", "Computed: pinned by `seven` of one/proofs/Laws.antt.", "");
    planted.only_fault("one/specs/Inner.antt: no statement reaches it");
    // it is never written over
    planted.edit("crates/one/specs/Base.antt", "To be believed, for demand 1.", not);
    planted.read(|b| b.write_headers().expect("headers can be written"));
    assert!(planted.text("crates/one/specs/Base.antt").contains(not));
}

#[test]
fn a_list_of_modules_with_another_header() {
    let planted = Planted::new();
    planted.edit("crates/two/specs/Lib.antt", "in which they are read", "of their names");
    planted.only_fault("two/specs/Lib.antt: its first line has to be");
    planted.read(|b| b.write_headers().expect("headers can be written"));
    assert_eq!(planted.faults(), Vec::<String>::new());
}

#[test]
fn a_header_that_speaks_twice() {
    let planted = Planted::new();
    planted.edit("crates/one/specs/Base.antt", "numbers. To", "numbers. A reader must believe them. To");
    planted.only_fault("one/specs/Base.antt: its header speaks of belief before its last sentence");
}

#[test]
fn names_in_a_list_of_several_lines() {
    let planted = Planted::new();
    let broken = "Base.{\n  Pair, Sign, minus,\n  sum as total,\n  worth\n}";
    planted.edit("crates/two/specs/Claim.antt", "Base.{Pair, Sign, minus, sum as total, worth}", broken);
    assert_eq!(planted.faults(), Vec::<String>::new());
}

#[test]
fn a_file_of_two_kinds() {
    let planted = Planted::new();
    planted.edit("crates/one/specs/Base.antt", "-- a pair\n", "abbrev pub spare : ℕ\nspare = 0\n\n-- a pair\n");
    planted.only_fault("one/specs/Base.antt: no statement needs spare, and some need the rest of the file");
}

#[test]
fn a_page_that_is_not_current() {
    let planted = Planted::new();
    planted.put("crates/one/specs/Base.antt", &BASE.replace("-- a pair", "-- two numbers"));
    planted.only_fault("docs/BELIEVED.md is not current");
}

#[test]
fn a_page_that_is_too_long() {
    let planted = Planted::new();
    let fields: String = (0..800).map(|n| format!("  pub field-{n} : ℕ\n")).collect();
    planted.edit("crates/one/specs/Base.antt", "  pub left : ℕ\n", &format!("  pub left : ℕ\n{fields}"));
    planted.only_fault("lines, more than 800");
}

#[test]
fn a_file_that_is_not_listed() {
    let planted = Planted::new();
    planted.put("crates/one/specs/Stray.antt", INNER);
    let said = Believed::read(&planted.0, &STATEMENTS).err();
    assert_eq!(said, Some("one/specs/Lib.antt does not list Stray.antt".to_string()));
}
