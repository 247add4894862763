//! Makes one call through the wrapper, guard bytes around every buffer, and compares all of it with what is expected.

use crate::expected::{expected, Expected};
use crate::guarded::{digits, Guarded};
use crate::library::{Case, Proved};

/// Guards of 64 bytes where a case brings none of its own.
const GUARD: [u8; 64] = [0xA5; 64];

/// The case must answer as expected and leave every byte as expected; else panics with a test to paste.
pub fn compare(case: &Case) {
    compare_between(case, &GUARD, &GUARD);
}

/// The same with these guards before and behind each buffer. What is answered and left must not depend on them.
pub fn compare_between(case: &Case, before: &[u8], behind: &[u8]) {
    let _pasted = Pasted { case, before, behind };
    check(case, before, behind, &expected(case));
}

/// The same where the expectation is known.
pub fn check(case: &Case, before: &[u8], behind: &[u8], expected: &Expected) {
    if std::env::var_os("COMPARISON_SAY").is_some() {
        eprintln!("{}", pasted(case, before, behind));
    }
    let mut lent: Vec<Guarded> = case.parts().iter().map(|(_, bytes)| Guarded::new(before, bytes, behind)).collect();
    let answer = case.perform(&Proved, &mut lent.iter_mut().map(Guarded::lent).collect::<Vec<_>>());
    let mut wrong = Vec::new();
    if answer != expected.answer {
        wrong.push(format!("answer: expected {:?}, came {answer:?}", expected.answer));
    }
    for (i, (name, _)) in case.parts().iter().enumerate() {
        let after = &expected.after[i];
        if let Some(place) = lent[i].difference(before, after, behind) {
            let (after, came) = (digits(after), digits(lent[i].lent()));
            wrong.push(format!("{name}: {place}\n  expected {after}\n  came     {came}"));
        }
    }
    assert!(wrong.is_empty(), "{}", wrong.join("\n"));
}

/// Prints the case when what it stands around panics: the reference, the call or the comparison.
pub struct Pasted<'a> {
    pub case: &'a Case,
    pub before: &'a [u8],
    pub behind: &'a [u8],
}

impl Drop for Pasted<'_> {
    fn drop(&mut self) {
        if std::thread::panicking() {
            eprintln!("to be pasted into comparison/tests/pasted.rs:\n{}", pasted(self.case, self.before, self.behind));
        }
    }
}

/// The case as a test that stands alone.
pub fn pasted(case: &Case, before: &[u8], behind: &[u8]) -> String {
    let quoted = |bytes: &[u8]| format!("hex(\"{}\")", digits(bytes));
    let mut fields: Vec<String> =
        case.parts().iter().map(|(name, bytes)| format!("{name}: {}", quoted(bytes))).collect();
    fields.extend(case.byte().map(|(name, byte)| format!("{name}: {byte}")));
    let case = format!("Case::{} {{ {} }}", case.name(), fields.join(", "));
    let call = if (before, behind) == (&GUARD, &GUARD) {
        format!("compare(&{case});")
    } else {
        format!("compare_between(&{case}, &{}, &{});", quoted(before), quoted(behind))
    };
    format!("#[test]\nfn pasted() {{\n    {call}\n}}")
}
