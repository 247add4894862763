//! Random cases of every call with each buffer against a page that nobody may touch, on either side.
//!
//! A call that reads past a buffer ends the test program with SIGSEGV; COMPARISON_SAY=1 and `-- --nocapture
//! --test-threads=1` print each case before it is run, so that the last one is the case in question.
#![cfg(target_os = "linux")]

use comparison::cases::MAKERS;
use comparison::compare::{pasted, Pasted};
use comparison::expected::expected;
use comparison::fenced::{Fenced, Side};
use comparison::library::{Case, Proved};
use reference::random::Random;

/// The case with all its buffers against the fences on this side.
fn fenced(case: &Case, fences: &mut [Fenced], side: Side) {
    let _pasted = Pasted { case, before: &[], behind: &[] };
    let expected = expected(case);
    let parts = case.parts();
    let lend = |(fence, (_, bytes)): (_, &(_, &[u8]))| Fenced::lend(fence, bytes, side);
    let mut lent: Vec<&mut [u8]> = fences.iter_mut().zip(&parts).map(lend).collect();
    let answer = case.perform(&Proved, &mut lent);
    let after: Vec<Vec<u8>> = lent.iter().map(|bytes| bytes.to_vec()).collect();
    assert!((answer, after) == (expected.answer, expected.after), "{side:?}");
}

#[test]
fn no_call_touches_a_fence() {
    let mut fences: Vec<Fenced> = (0..5).map(|_| Fenced::default()).collect();
    for (make, seed) in MAKERS.into_iter().zip(101..) {
        let mut random = Random(seed);
        for _ in 0..400 {
            let case = make(&mut random).case;
            if std::env::var_os("COMPARISON_SAY").is_some() {
                eprintln!("{}", pasted(&case, &[], &[]));
            }
            [Side::Before, Side::Behind].into_iter().for_each(|side| fenced(&case, &mut fences, side));
        }
    }
}
