//! A refusal of each kind, planted: which count as a fact of the wrong program's own, and which show nothing.

use gate::carried::{carried, Carried};
use gate::edit::{Edit, Place};
use gate::judge::judge;
use gate::log::errors;

const SOURCE: &str = "\
pub const MOST: usize = 3;

pub fn lesser(a: u8, b: u8) -> u8
    ensures { result ≡ min a b }
{
    if a <= b { a } else { b }
}

impl Cursor {
    pub fn step(self) -> Cursor {
        Cursor { at: self.at + 1 }
    }
}
";

fn edit(text: &str) -> (Edit, Vec<Place>) {
    let edit = Edit::read(text).expect("it can be read");
    let source = |f: &str| if f == "src/lib.rt" { Ok(SOURCE.to_string()) } else { Ok("least = 1\n".to_string()) };
    let places = edit.apply(&source).expect("it can be applied").places;
    (edit, places)
}

/// `lesser` takes the greater.
fn body() -> (Edit, Vec<Place>) {
    edit("file: src/lib.rt\nold: if a <= b {\nnew: if b <= a {\n")
}

fn log(lines: &[&str]) -> String {
    lines.join("\n") + "\nlogic=not-proved\n"
}

const DIFFER: &str =
    "./proofs/lesser/Answers.antt:11:13: error: `returns`: as printed, the two types differ only where \
                      one has `c.args.b` (expected), right after `mathlib.Core.Path.◌≡◌`\n  and the other has \
                      `c.args.a` (found)";

const OMEGA: &str =
    "./proofs/lesser/Answers.antt:15:67: error: `returns`: `omega`: the goal does not follow from what \
                     it read. All of that holds, and the goal fails, at `c.args.a` = 1";

/// What stands before the line of a function that has a goal with no proof.
const GAVE_UP: &str = "note: src/lib.rt:3:1: it is not proved that what the function ensures holds when it returns \
                       (`returns`); `search` gave up at one of its limits";
const FALSE: &str = "note: src/lib.rt:3:1: it is not proved that what the function ensures holds when it returns \
                     (`returns`); the facts known there allow values at which this goal is false";
const MEASURE: &str = "note: src/lib.rt:4:5: it is not proved that the loop ends, by its measure \
                       (`loop-i-smaller-then-i-eq0`); `search` gave up at one of its limits";

const MISSING: &str =
    "./proofs/lesser/Answers.antt:8:26: error: `returns-then-a-leb`: `goal.returns-then-a-leb`: module \
                       `Rattle.one.proofs.lesser.Goals` has no `returns-then-a-leb` that can be named from here (names \
                       in it that begin alike: `returns`)";

const NOT_PROVED: &str = "fn one::lesser: not proved";
const NO_PROOF: &str =
    "fn one::lesser: no proof: expected answers in ./proofs/lesser/Answers.antt; `search` did not prove";

fn says(program: (Edit, Vec<Place>), log: &str) -> Result<String, String> {
    judge(&program.0, &program.1, log)
}

fn refused(program: (Edit, Vec<Place>), log: &str, word: &str) {
    let why = says(program, log).expect_err("this shows nothing");
    assert!(why.contains(word), "{why}");
}

#[test]
fn a_value_that_differs_counts() {
    assert_eq!(says(body(), &log(&[DIFFER, NOT_PROVED])), Ok("`returns` of `lesser`".to_string()));
    let by_hand = DIFFER.replace("Answers", "Proof");
    assert!(says(body(), &log(&[&by_hand, NOT_PROVED])).is_ok());
}

#[test]
fn an_inequality_that_fails_counts() {
    assert!(says(body(), &log(&[OMEGA, NOT_PROVED])).is_ok());
    let part = OMEGA.replace("the goal does not follow", "the part `.fits` of the goal does not follow");
    let invariant = part.replace("Answers", "Invariants").replace("`returns`", "`invariant-loop-i`");
    assert!(says(body(), &log(&[&invariant, NOT_PROVED])).is_ok());
}

#[test]
fn an_answer_whose_search_finds_no_proof_counts() {
    let search = "./proofs/lesser/Answers.antt:29:90: error: `returns`: `search`: no proof of `Prim.Native.Nat.◌≤◌ 11 \
                  (lib.ListN.length c.args.out.now)`\n  was found. It stopped 5 lemmas deep, with lemmas still to try";
    assert_eq!(says(body(), &log(&[search, NOT_PROVED])), Ok("`returns` of `lesser`".to_string()));
    let grind =
        "./proofs/lesser/Answers.antt:7:9: error: `returns`: `grind` found no proof, and could not check its values";
    assert!(says(body(), &log(&[grind, NOT_PROVED])).is_ok());
}

#[test]
fn a_goal_that_the_search_does_not_prove_counts() {
    let line = format!("{NO_PROOF} `returns`");
    assert_eq!(says(body(), &log(&[GAVE_UP, &line])), Ok("`returns` of `lesser`".to_string()));
    // also where its proof has answers for other goals, with which nothing is wrong
    assert_eq!(says(body(), &log(&[GAVE_UP, NOT_PROVED])), Ok("`returns` of `lesser`".to_string()));
    // a note belongs to the function behind it
    refused(body(), &log(&[GAVE_UP, "fn one::greater: not proved", NOT_PROVED]), "no error stands");
}

#[test]
fn a_goal_that_is_false_counts_in_any_case() {
    let by = Ok("`returns` of `lesser`, which is false".to_string());
    assert_eq!(says(body(), &log(&[FALSE, &format!("{NO_PROOF} `returns`")])), by);
    assert_eq!(says(body(), &log(&[MISSING, FALSE, NOT_PROVED])), by);
    refused(body(), &log(&[MISSING, GAVE_UP, NOT_PROVED]), "a name or a place");
}

#[test]
fn a_measure_that_the_search_does_not_prove_shows_nothing() {
    let line = format!("{NO_PROOF} `loop-i-smaller-then-i-eq0`");
    refused(body(), &log(&[MEASURE, &line]), "only a measure");
    assert!(says(body(), &log(&[MEASURE, GAVE_UP, &line])).is_ok());
}

#[test]
fn what_is_still_proved_is_not_refused() {
    refused(body(), "fn one::lesser: proved\nlogic=proved functions=1\n", "not refused");
}

#[test]
fn an_empty_log_is_not_a_refusal() {
    refused(body(), "", "not refused");
}

#[test]
fn a_log_without_an_error_shows_nothing() {
    refused(body(), &log(&[NOT_PROVED]), "no error stands");
}

#[test]
fn a_harmless_change_beside_a_refusal_elsewhere_shows_nothing() {
    let other = DIFFER.replace("proofs/lesser/", "proofs/greater/");
    refused(body(), &log(&[&other, "fn one::greater: not proved", "fn one::lesser: proved"]), "still proved");
}

#[test]
fn an_error_in_another_functions_proof_shows_nothing() {
    let other = DIFFER.replace("proofs/lesser/", "proofs/module/lesser/");
    refused(body(), &log(&[&other, NOT_PROVED]), "no error stands");
    let law = DIFFER.replace("proofs/lesser/Answers", "proofs/lesser/Laws");
    refused(body(), &log(&[&law, NOT_PROVED]), "no error stands");
}

#[test]
fn something_refused_below_shows_nothing() {
    let below =
        "./proofs/lesser/Answers.antt:11:5: error: 1 declaration that depends on `least`, which was not admitted, was \
                 not checked: returns";
    refused(body(), &log(&[below, NOT_PROVED]), "only rests on");
    refused(body(), &log(&["fn one::lesser: no proof: it calls `one::x`, which is not proved"]), "no error stands");
}

#[test]
fn a_name_shows_nothing() {
    let name = "./proofs/lesser/Answers.antt:9:5: error: `returns`: `limit` is not in scope";
    refused(body(), &log(&[name, NOT_PROVED]), "a name or a place");
}

#[test]
fn a_place_that_is_gone_shows_nothing() {
    refused(body(), &log(&[MISSING, NOT_PROVED]), "a name or a place");
    let field =
        "./proofs/lesser/Answers.antt:19:105: error: `returns`: record `Rattle.one.proofs.lesser.Lts.Else2` has no \
                 field `if-a-leb` (nearest: .if-a-ltb)";
    refused(body(), &log(&[field, NOT_PROVED]), "a name or a place");
}

#[test]
fn a_text_that_cannot_be_read_shows_nothing() {
    let text = "error[E0425]: cannot find `c` in this scope";
    refused(body(), &log(&[text, DIFFER, NOT_PROVED]), "cannot be read");
    let clause = "src/lib.rt:4:15: error: `minimum` is not in scope";
    refused(body(), &log(&[clause, DIFFER, NOT_PROVED]), "cannot be read");
}

#[test]
fn a_proof_that_no_longer_fits_shows_nothing() {
    let misfit = "./proofs/lesser/Answers.antt:9:5: error: `returns`: `rw`: no occurrence of the path's left endpoint in the goal";
    refused(body(), &log(&[misfit, NOT_PROVED]), "no longer fits");
    // not even where a fact fails behind it
    refused(body(), &log(&[misfit, DIFFER, NOT_PROVED]), "no longer fits");
}

#[test]
fn a_loops_measure_shows_nothing() {
    let measure = OMEGA.replace("`returns`", "`loop-i-smaller`");
    refused(body(), &log(&[&measure, NOT_PROVED]), "no error stands");
    assert!(says(body(), &log(&[&measure, DIFFER, NOT_PROVED])).is_ok());
}

#[test]
fn every_function_that_is_changed_is_judged() {
    let both = || edit("file: src/lib.rt\nold: if a <= b {\nnew: if b <= a {\nold: self.at + 1\nnew: self.at + 2\n");
    let step = DIFFER.replace("proofs/lesser/", "proofs/Cursor/step/");
    let not = [NOT_PROVED, "fn one::Cursor::step: not proved"];
    refused(both(), &log(&[DIFFER, not[0], not[1]]), "the proof of `step`");
    assert!(says(both(), &log(&[DIFFER, &step, not[0], not[1]])).is_ok());
}

#[test]
fn a_cycle_has_one_proof_with_the_goals_of_each() {
    let cycle = |goal: &str| DIFFER.replace("proofs/lesser/", "proofs/+pair/").replace("`returns`", goal);
    assert!(says(body(), &log(&[&cycle("`lesser-returns`"), NOT_PROVED])).is_ok());
    refused(body(), &log(&[&cycle("`greater-returns`"), NOT_PROVED]), "no error stands");
    let alone = DIFFER.replace("proofs/lesser/", "proofs/+lesser/");
    assert!(says(body(), &log(&[&alone, NOT_PROVED])).is_ok());
}

#[test]
fn a_definition_must_name_what_it_makes_false() {
    let wrong = || edit("file: specs/Least.antt\nold: least = 1\nnew: least = 2\n");
    let named = || edit("fact: one_least\nfile: specs/Least.antt\nold: least = 1\nnew: least = 2\n");
    let case = "./proofs/Cases.antt:9:5: error: `one_least`: expected type `1 ≡ x`, but this has type `1 ≡ y`";
    let rests =
        "./proofs/Cases.antt:9:5: error: 2 declarations that depend on `least`, which was rejected, were not checked: \
                 one_least, other (via one_least)";
    refused(wrong(), &log(&[case]), "names no fact");
    refused(named(), &log(&[&case.replace("one_least", "other")]), "nothing is said against");
    refused(named(), &log(&[rests]), "only rests on");
    refused(named(), &log(&[case]), "no longer fits");
    let numerals = case.replace("but this has type `1 ≡ y`", "but this has type `◌≡◌ {A = ℕ} 0 0`");
    assert_eq!(says(named(), &log(&[&numerals])), Ok("`one_least`".to_string()));
    let other = case.replace("but this has type `1 ≡ y`", "but this has type `◌≡◌ {A = ℕ} 0 7`");
    assert!(says(named(), &log(&[&other])).is_err());
    let computed = case.replace("but this has type `1 ≡ y`", "but this has type `least ≡ least`");
    assert_eq!(says(named(), &log(&[&computed])), Ok("`one_least`".to_string()));
}

#[test]
fn a_claim_says_why_it_is_false() {
    let text = "file: specs/Least.antt\nold: least = 1\nnew: least = 2\n";
    assert!(Edit::read(&format!("claim: one_least\n{text}")).is_err());
    let claim = || edit(&format!("claim: one_least\nwhy: nothing is less than 1\n{text}"));
    let other = "./proofs/Laws.antt:9:5: error: `one_least`: expected type `a < b`, but this has type `a ≤ b`";
    assert!(says(claim(), &log(&[other])).is_ok());
    refused(claim(), &log(&["./proofs/Laws.antt:9:5: error: `one_least`: `c` is not in scope"]), "a name or a place");
}

#[test]
fn a_definition_may_name_a_function_that_does_otherwise() {
    let named = || edit("fact: fn lesser\nfile: specs/Least.antt\nold: least = 1\nnew: least = 2\n");
    assert!(says(named(), &log(&[DIFFER, NOT_PROVED])).is_ok());
    refused(named(), &log(&[DIFFER, "fn one::lesser: proved"]), "still proved");
}

#[test]
fn a_constant_is_no_functions() {
    let constant = edit("file: src/lib.rt\nold: pub const MOST: usize = 3;\nnew: pub const MOST: usize = 2;\n");
    refused(constant, &log(&[DIFFER, NOT_PROVED]), "names no fact");
}

#[test]
fn an_edit_that_cannot_be_applied_is_an_error() {
    let source = |_: &str| Ok(SOURCE.to_string());
    for old in ["nothing like it", "self"] {
        let edit = Edit::read(&format!("file: src/lib.rt\nold: {old}\nnew: x\n")).expect("it can be read");
        assert!(edit.apply(&source).is_err(), "{old}");
    }
    assert!(Edit::read("file: proofs/Laws.antt\nold: a\nnew: b\n").is_err());
    assert!(Edit::read("file: src/lib.rt\n").is_err());
    let pair = "file: src/lib.rt\nold: a\nnew: b\n";
    assert!(Edit::read(pair).is_ok());
    for slip in ["Fact: one_least\n", "why: \n", "old: c\n", "one_least\n"] {
        assert!(Edit::read(&format!("{pair}{slip}")).is_err(), "{slip}");
        assert!(Edit::read(&format!("{slip}{pair}")).is_err(), "{slip}");
    }
}

#[test]
fn functions_are_judged_by_their_own_proofs_alone() {
    let named = edit("fact: fn lesser\nfile: src/lib.rt\nold: if a <= b {\nnew: if b <= a {\n");
    refused(named, &log(&[DIFFER, NOT_PROVED]), "changes functions alone");
}

#[test]
fn a_law_is_no_case() {
    let named = edit("fact: one_least\nfile: specs/Least.antt\nold: least = 1\nnew: least = 2\n");
    let law = "./proofs/Laws.antt:9:5: error: `one_least`: `omega`: the goal does not follow from what it read";
    refused(named, &log(&[law]), "is no case");
}

#[test]
fn answers_are_carried_to_the_new_names_of_their_goals() {
    let answers =
        "pub returns-then-i-ge8 : goal.returns-then-i-ge8\nreturns-then-i-ge8 c = f (g c).Then-i-ge8 c.if-i-ge80\n\
                   pub returns : goal.returns\n";
    let gone = "./proofs/lesser/Answers.antt:8:26: error: `returns-then-i-ge8`: `goal.returns-then-i-ge8`: module \
                `Rattle.one.proofs.lesser.Goals` has no `returns-then-i-ge8` that can be named from here";
    let help = "help: `Goals` has no `returns-then-i-ge8`; rattle asks for `returns`, `returns-then-i-ge7`";
    let log = log(&[gone, NOT_PROVED, help]);
    let found = carried(&log, &errors(&log), &|_| answers.to_string());
    let conditions = vec![("i-ge8".to_string(), "i-ge7".to_string())];
    assert_eq!(found, vec![Carried { folder: "proofs/lesser".to_string(), conditions }]);
    let wanted =
        "pub returns-then-i-ge7 : goal.returns-then-i-ge7\nreturns-then-i-ge7 c = f (g c).Then-i-ge7 c.if-i-ge80\n\
                  pub returns : goal.returns\n";
    assert_eq!(found[0].apply(answers), wanted);
    // a longer name that has the condition in it stays
    let longer = "c.if-i-ge8.true c.slot-i-ge8 c.Then-i-ge8-j c.returns-then-i-ge8-2";
    assert_eq!(found[0].apply(longer), "c.if-i-ge7.true c.slot-i-ge8 c.Then-i-ge8-j c.returns-then-i-ge7-2");
    // a name that has its answer already is not taken, and another error asks for none
    assert_eq!(carried(&log, &errors(&log), &|_| wanted.to_string()), vec![]);
    assert_eq!(carried(DIFFER, &errors(DIFFER), &|_| answers.to_string()), vec![]);
}

#[test]
fn a_field_is_carried_too() {
    let field = "./proofs/lesser/Answers.antt:41:67: error: `returns`: record `Rattle.one.proofs.lesser.Lts.After` has no field \
                 `if-not-fine` (nearest: .if-fine, .fine)";
    let found = carried(field, &errors(field), &|_| "returns c = c.if-not-fine\n".to_string());
    assert_eq!(found[0].apply("c.if-not-fine"), "c.if-fine");
}
