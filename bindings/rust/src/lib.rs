//! Tureenlark from Rust: one safe function for each call of the proved planner, over byte slices of any length and any
//! contents.
//!
//! Records are bytes, as docs/LIBRARY.md lays them out: a plan is [`PLAN_BYTES`] long, a history [`HISTORY_BYTES`], an
//! instruction [`INSTRUCTION_BYTES`], a schedule [`SCHEDULE_BYTES`], a table [`TABLE_BYTES`], steps [`STEPS_BYTES`]. A
//! slice that is shorter than its record is refused with [`Refusal::Buffer`] before anything else is looked at, and no
//! byte changes, save a schedule's eight and a table's 128 where only the plan is short: they are zero then. Bytes
//! behind a record are neither read nor changed. Only the bytes that a call names change.
//!
//! From a plan's text to a crew that is done:
//!
//! ```
//! use tureenlark::*;
//!
//! let mut plan = [0; PLAN_BYTES];
//! read_plan(b"0102020102\n02000000\n03000100010101\n030100FFFE0100\n", &mut plan)?;
//! let mut buffer = [0; TREE_BYTES];
//! let nodes = search(&plan, &mut buffer)?;
//! let tree = &buffer[..3 * nodes];
//!
//! let mut history = [0; HISTORY_BYTES];
//! let mut instruction = [0; INSTRUCTION_BYTES];
//! let mut told = Vec::new();
//! while show(&plan, tree, &history, &mut instruction)? == Told::Instruct {
//!     told.push(instruction);
//!     report(&plan, tree, &mut history, 0)?;
//! }
//! assert_eq!(told, [[0, 1, 0], [2, 2, 0]]);
//! # Ok::<(), Refusal>(())
//! ```
#![deny(missing_docs)]
#![deny(unsafe_op_in_unsafe_fn)]

use std::fmt;
use std::ops::RangeInclusive;

/// The calls as bindings/c/tureenlark.h declares them; tests/header.rs holds the two together.
///
/// They are total: any contents and any lengths are fine, and a call writes only to its `*mut` buffers, within their
/// lengths. What the caller owes is pointers to that many bytes, not null, and no overlap with a `*mut` buffer. A slice
/// gives the first, also where it is empty, and `&mut` the second. That is the safety argument of every `unsafe` block
/// below.
mod raw {
    extern "C" {
        pub fn tureenlark_judge_plan(plan: *const u8, plan_length: usize) -> usize;
        pub fn tureenlark_read_plan(text: *const u8, text_length: usize, plan: *mut u8, plan_length: usize) -> usize;
        pub fn tureenlark_write_plan(plan: *const u8, plan_length: usize, text: *mut u8, text_length: usize) -> usize;
        pub fn tureenlark_read_tree(text: *const u8, text_length: usize, tree: *mut u8, tree_length: usize) -> usize;
        pub fn tureenlark_write_tree(tree: *const u8, tree_length: usize, text: *mut u8, text_length: usize) -> usize;
        pub fn tureenlark_check_tree(plan: *const u8, plan_length: usize, tree: *const u8, tree_length: usize)
            -> usize;
        pub fn tureenlark_search(plan: *const u8, plan_length: usize, tree: *mut u8, tree_length: usize) -> usize;
        pub fn tureenlark_show(
            plan: *const u8,
            plan_length: usize,
            tree: *const u8,
            tree_length: usize,
            history: *const u8,
            history_length: usize,
            instruction: *mut u8,
            instruction_length: usize,
        ) -> usize;
        pub fn tureenlark_report(
            plan: *const u8,
            plan_length: usize,
            tree: *const u8,
            tree_length: usize,
            history: *mut u8,
            history_length: usize,
            mask: u8,
        ) -> usize;
        pub fn tureenlark_follow(
            plan: *const u8,
            plan_length: usize,
            tree: *const u8,
            tree_length: usize,
            history: *mut u8,
            history_length: usize,
            calls: *const u8,
            calls_length: usize,
            steps: *mut u8,
            steps_length: usize,
        ) -> usize;
        pub fn tureenlark_least_schedule(
            plan: *const u8,
            plan_length: usize,
            values: u8,
            schedule: *mut u8,
            schedule_length: usize,
        ) -> usize;
        pub fn tureenlark_differences(
            plan: *const u8,
            plan_length: usize,
            values: u8,
            table: *mut u8,
            table_length: usize,
        ) -> usize;
        pub fn tureenlark_screen(plan: *const u8, plan_length: usize) -> usize;
        pub fn tureenlark_answer(input: *const u8, input_length: usize, text: *mut u8, text_length: usize) -> usize;
    }
}

/// The length of a plan record.
pub const PLAN_BYTES: usize = 400;
/// The length of a history: a count and eight masks.
pub const HISTORY_BYTES: usize = 9;
/// The length of an instruction: slot, points, choices.
pub const INSTRUCTION_BYTES: usize = 3;
/// The length of a schedule: the slot of each point.
pub const SCHEDULE_BYTES: usize = 8;
/// The length of a table of differences: eight rows of eight entries, two bytes each.
pub const TABLE_BYTES: usize = 128;
/// The length of steps: eight times slot, points, choices and mask.
pub const STEPS_BYTES: usize = 32;
/// What a tree that is read or searched needs, and the length of the longest tree.
pub const TREE_BYTES: usize = 573;
/// The length of the longest plan text.
pub const PLAN_TEXT_BYTES: usize = 1025;
/// The length of the longest tree text.
pub const TREE_TEXT_BYTES: usize = 1724;

/// Answers from here on are refusals: this and the refusal's number.
const REFUSED: usize = 0x7F00;

/// Why a call was refused, by document 01's numbers.
#[derive(Clone, Copy, PartialEq, Eq, Debug)]
pub enum Refusal {
    /// The text of a plan is malformed.
    PlanText = 1,
    /// A value in a plan's head is out of its range.
    Head = 2,
    /// A letter of a plan is faulty, or an unused entry for one is not zero.
    Letters = 3,
    /// A constraint of a plan is faulty, or an unused entry for one is not zero.
    Constraints = 4,
    /// The text of a tree is malformed.
    TreeText = 5,
    /// A tree's length, its shape or a slot past the horizon.
    Shape = 6,
    /// A tree of sound shape breaks a relevant constraint on some path.
    Broken = 7,
    /// A history is malformed, or a mask names a letter that it may not.
    Mask = 8,
    /// A report after done.
    AfterDone = 9,
    /// A lent slice is too short.
    Buffer = 10,
    /// No crew can be sure to keep the plan.
    Hopeless = 11,
}

impl Refusal {
    /// Its number in document 01, 1 to 11.
    pub fn number(self) -> u8 {
        self as u8
    }

    fn numbered(number: usize) -> Option<Refusal> {
        use Refusal::*;
        [PlanText, Head, Letters, Constraints, TreeText, Shape, Broken, Mask, AfterDone, Buffer, Hopeless]
            .into_iter()
            .find(|refusal| refusal.number() as usize == number)
    }
}

impl fmt::Display for Refusal {
    /// Who should act, and what is wrong.
    fn fmt(&self, f: &mut fmt::Formatter) -> fmt::Result {
        f.write_str(match self {
            Refusal::PlanText => {
                "the author of the plan: a line of its text is not a whole frame of the expected kind and length, \
                 or frames are missing or extra"
            }
            Refusal::Head => "the author of the plan: a value in its head is out of range",
            Refusal::Letters => {
                "the author of the plan: a letter is out of order, has a bad or taken point or a bad kind, \
                 or an unused entry is not zero"
            }
            Refusal::Constraints => {
                "the author of the plan: a constraint has a bad point, bound or mask, or an unused entry is not zero"
            }
            Refusal::TreeText => {
                "the maker of the tree: its text is malformed, or its number of nodes is not from 1 to 191"
            }
            Refusal::Shape => {
                "the maker of the tree: its length is not a multiple of 3 from 3 to 573, \
                 or it breaks a rule of shape or the horizon"
            }
            Refusal::Broken => "the maker of the tree: its shape is sound, but some path breaks a relevant constraint",
            Refusal::Mask => "the crew: a history is malformed, or a mask names a letter that it may not",
            Refusal::AfterDone => "the crew: a report after done",
            Refusal::Buffer => "the calling program: a lent buffer is shorter than needed",
            Refusal::Hopeless => "the author of the plan: it is hopeless, no crew can be sure to keep it",
        })
    }
}

impl std::error::Error for Refusal {}

/// What a crew is told at a history.
#[derive(Clone, Copy, PartialEq, Eq, Debug)]
pub enum Told {
    /// To do what the first three bytes of the lent instruction say.
    Instruct,
    /// That it is done.
    Done,
}

/// Takes an answer apart: one of the results, or one of the refusals, that the call's contract allows. Any other number
/// means that the library and this file do not belong together.
fn taken_apart(call: &str, answer: usize, results: RangeInclusive<usize>, refusals: &[u8]) -> Result<usize, Refusal> {
    if results.contains(&answer) {
        return Ok(answer);
    }
    match answer.checked_sub(REFUSED).and_then(Refusal::numbered) {
        Some(refusal) if refusals.contains(&refusal.number()) => Err(refusal),
        _ => panic!("tureenlark_{call} answered {answer:#X}, which its contract does not allow"),
    }
}

/// Whether the record is a well-formed plan, or else what is wrong with it: 10, 2, 3 or 4.
///
/// ```
/// use tureenlark::*;
///
/// let mut plan = [0; PLAN_BYTES];
/// plan[0] = 3; // the horizon
/// assert_eq!(judge_plan(&plan), Err(Refusal::Head)); // no point
/// plan[1] = 1;
/// assert_eq!(judge_plan(&plan), Ok(()));
/// plan[4] = 1;
/// assert_eq!(judge_plan(&plan), Err(Refusal::Letters)); // there is no letter 0, so its entry must be zero
/// assert_eq!(judge_plan(&plan[1..]), Err(Refusal::Buffer));
/// ```
pub fn judge_plan(plan: &[u8]) -> Result<(), Refusal> {
    let answer = unsafe { raw::tureenlark_judge_plan(plan.as_ptr(), plan.len()) };
    taken_apart("judge_plan", answer, 1..=1, &[10, 2, 3, 4]).map(|_| ())
}

/// Reads a plan's text: the first 400 bytes of `plan` are the record that it says. Refused with 10, and no byte
/// changes; or with 1, 2, 3 or 4, and those 400 bytes are zero.
///
/// ```
/// use tureenlark::*;
///
/// let mut plan = [0xEE; PLAN_BYTES];
/// read_plan(b"0102020102\n02000000\n03000100010101\n030100FFFE0100\n", &mut plan)?;
/// assert_eq!(plan[..4], [2, 2, 1, 2]); // horizon, points, letters, constraints
/// assert_eq!(plan[4..16], [0; 12]); // letter 0: point 0, a condition; five unused entries
/// assert_eq!(plan[16..28], [0, 1, 0, 1, 1, 1, 1, 0, 0xFF, 0xFE, 1, 0]); // two constraints
/// assert_eq!(plan[28..], [0; 372]);
///
/// assert_eq!(read_plan(b"", &mut plan), Err(Refusal::PlanText));
/// assert_eq!(plan, [0; PLAN_BYTES]);
/// # Ok::<(), Refusal>(())
/// ```
pub fn read_plan(text: &[u8], plan: &mut [u8]) -> Result<(), Refusal> {
    let answer = unsafe { raw::tureenlark_read_plan(text.as_ptr(), text.len(), plan.as_mut_ptr(), plan.len()) };
    taken_apart("read_plan", answer, 1..=1, &[10, 1, 2, 3, 4]).map(|_| ())
}

/// Writes a plan's text to the front of `text` and answers its length. Refused with 10 (the record), 2, 3, 4 or 10 (the
/// text), and no byte changes.
///
/// ```
/// use tureenlark::*;
///
/// let mut plan = [0; PLAN_BYTES];
/// plan[..2].copy_from_slice(&[3, 1]); // horizon 3, one point
/// let mut text = [b'.'; 13];
/// assert_eq!(write_plan(&plan, &mut text[..10]), Err(Refusal::Buffer));
/// assert_eq!(text, *b".............");
/// assert_eq!(write_plan(&plan, &mut text), Ok(11));
/// assert_eq!(text, *b"0103010000\n..");
/// ```
pub fn write_plan(plan: &[u8], text: &mut [u8]) -> Result<usize, Refusal> {
    let answer = unsafe { raw::tureenlark_write_plan(plan.as_ptr(), plan.len(), text.as_mut_ptr(), text.len()) };
    taken_apart("write_plan", answer, 11..=text.len().min(PLAN_TEXT_BYTES), &[10, 2, 3, 4])
}

/// Reads a tree's text: puts its nodes, three bytes each, at the front of `tree` and answers their number. Refused with
/// 10 (fewer than [`TREE_BYTES`] lent) or 5, and no byte changes. What the nodes say is not judged: see [`check_tree`].
///
/// ```
/// use tureenlark::*;
///
/// let mut tree = [0xEE; TREE_BYTES];
/// assert_eq!(read_tree(b"0403\n05000100\n05020200\n", &mut tree), Err(Refusal::TreeText)); // a node is missing
/// assert_eq!(tree, [0xEE; TREE_BYTES]);
/// assert_eq!(read_tree(b"0403\n05000100\n05020200\n05010200\n", &mut tree), Ok(3));
/// assert_eq!(tree[..9], [0, 1, 0, 2, 2, 0, 1, 2, 0]);
/// assert_eq!(tree[9..], [0xEE; TREE_BYTES - 9]);
/// ```
pub fn read_tree(text: &[u8], tree: &mut [u8]) -> Result<usize, Refusal> {
    let answer = unsafe { raw::tureenlark_read_tree(text.as_ptr(), text.len(), tree.as_mut_ptr(), tree.len()) };
    taken_apart("read_tree", answer, 1..=191, &[10, 5])
}

/// Writes a tree's text to the front of `text` and answers its length; `tree` has three bytes for each node, and no
/// more. Refused with 6 (a length that no tree has) or 10, and no byte changes. What the nodes say is not judged.
///
/// ```
/// use tureenlark::*;
///
/// let mut text = [b'.'; 25];
/// assert_eq!(write_tree(&[0, 1, 0, 2], &mut text), Err(Refusal::Shape));
/// assert_eq!(text, *b".........................");
/// assert_eq!(write_tree(&[0, 1, 0, 2, 2, 0], &mut text), Ok(23));
/// assert_eq!(text, *b"0402\n05000100\n05020200\n..");
/// ```
pub fn write_tree(tree: &[u8], text: &mut [u8]) -> Result<usize, Refusal> {
    let answer = unsafe { raw::tureenlark_write_tree(tree.as_ptr(), tree.len(), text.as_mut_ptr(), text.len()) };
    taken_apart("write_tree", answer, 14..=text.len().min(TREE_TEXT_BYTES), &[6, 10])
}

/// Whether the bytes, three for each node and no more, are a tree whose every path keeps the plan; or else what is
/// wrong: 10, 2, 3, 4, 6 or 7.
///
/// ```
/// use tureenlark::*;
///
/// let mut plan = [0; PLAN_BYTES];
/// read_plan(b"0102020102\n02000000\n03000100010101\n030100FFFE0100\n", &mut plan)?;
/// assert_eq!(check_tree(&plan, &[0, 1, 0, 2, 2, 0, 1, 2, 0]), Ok(()));
/// assert_eq!(check_tree(&plan, &[0, 1, 0, 1, 2, 0, 2, 2, 0]), Err(Refusal::Broken)); // the children exchanged
/// assert_eq!(check_tree(&plan, &[0, 1, 0, 0, 2, 0, 1, 2, 0]), Err(Refusal::Shape)); // a child in its parent's slot
/// # Ok::<(), Refusal>(())
/// ```
pub fn check_tree(plan: &[u8], tree: &[u8]) -> Result<(), Refusal> {
    let answer = unsafe { raw::tureenlark_check_tree(plan.as_ptr(), plan.len(), tree.as_ptr(), tree.len()) };
    taken_apart("check_tree", answer, 1..=1, &[10, 2, 3, 4, 6, 7]).map(|_| ())
}

/// Searches for the tree of first moves: puts it at the front of `tree`, zeros behind it up to byte 573, and answers
/// its number of nodes. Refused with 10 (fewer than [`TREE_BYTES`] lent, or the record), 2, 3 or 4, and no byte
/// changes; or with 11, and the first 573 bytes are zero.
///
/// ```
/// use tureenlark::*;
///
/// let mut plan = [0; PLAN_BYTES];
/// read_plan(b"0102020102\n02000000\n03000100010101\n030100FFFE0100\n", &mut plan)?;
/// let mut tree = [0xEE; TREE_BYTES + 1];
/// assert_eq!(search(&plan, &mut tree), Ok(3));
/// assert_eq!(tree[..9], [0, 1, 0, 2, 2, 0, 1, 2, 0]);
/// assert_eq!(tree[9..573], [0; 564]);
/// assert_eq!(tree[573..], [0xEE]);
///
/// plan[0] = 1; // the horizon
/// assert_eq!(search(&plan, &mut tree), Err(Refusal::Hopeless));
/// assert_eq!(tree[..573], [0; 573]);
/// assert_eq!(tree[573..], [0xEE]);
/// # Ok::<(), Refusal>(())
/// ```
pub fn search(plan: &[u8], tree: &mut [u8]) -> Result<usize, Refusal> {
    let answer = unsafe { raw::tureenlark_search(plan.as_ptr(), plan.len(), tree.as_mut_ptr(), tree.len()) };
    taken_apart("search", answer, 1..=191, &[10, 2, 3, 4, 11])
}

/// What a crew is told at a history: done, or the instruction (slot, points, choices) in the first three bytes of
/// `instruction`. Refused with 10, 2, 3, 4, 6, 7, 8 or 9. At done and where it is refused, no byte changes.
///
/// ```
/// use tureenlark::*;
///
/// let mut plan = [0; PLAN_BYTES];
/// read_plan(b"0102020102\n02000000\n03000100010101\n030100FFFE0100\n", &mut plan)?;
/// let tree = [0, 1, 0, 2, 2, 0, 1, 2, 0];
/// let mut instruction = [0xEE; 3];
/// assert_eq!(show(&plan, &tree, &[0, 0, 0, 0, 0, 0, 0, 0, 0], &mut instruction), Ok(Told::Instruct));
/// assert_eq!(instruction, [0, 1, 0]);
/// assert_eq!(show(&plan, &tree, &[1, 1, 0, 0, 0, 0, 0, 0, 0], &mut instruction), Ok(Told::Instruct));
/// assert_eq!(instruction, [1, 2, 0]);
/// assert_eq!(show(&plan, &tree, &[2, 1, 0, 0, 0, 0, 0, 0, 0], &mut instruction), Ok(Told::Done));
/// assert_eq!(show(&plan, &tree, &[3, 1, 0, 0, 0, 0, 0, 0, 0], &mut instruction), Err(Refusal::AfterDone));
/// assert_eq!(instruction, [1, 2, 0]);
/// # Ok::<(), Refusal>(())
/// ```
pub fn show(plan: &[u8], tree: &[u8], history: &[u8], instruction: &mut [u8]) -> Result<Told, Refusal> {
    let answer = unsafe {
        raw::tureenlark_show(
            plan.as_ptr(),
            plan.len(),
            tree.as_ptr(),
            tree.len(),
            history.as_ptr(),
            history.len(),
            instruction.as_mut_ptr(),
            instruction.len(),
        )
    };
    let told = taken_apart("show", answer, 0..=1, &[10, 2, 3, 4, 6, 7, 8, 9])?;
    Ok(if told == 1 { Told::Instruct } else { Told::Done })
}

/// Reports the conditions that came out true: `history` is one mask longer. Refused with 10, 2, 3, 4, 6, 7, 8 or 9, and
/// no byte changes. A new history is nine zeros.
///
/// ```
/// use tureenlark::*;
///
/// let mut plan = [0; PLAN_BYTES];
/// read_plan(b"0102020102\n02000000\n03000100010101\n030100FFFE0100\n", &mut plan)?;
/// let tree = [0, 1, 0, 2, 2, 0, 1, 2, 0];
/// let mut history = [0; HISTORY_BYTES];
/// assert_eq!(report(&plan, &tree, &mut history, 2), Err(Refusal::Mask)); // there is no letter 1
/// assert_eq!(history, [0, 0, 0, 0, 0, 0, 0, 0, 0]);
/// assert_eq!(report(&plan, &tree, &mut history, 1), Ok(()));
/// assert_eq!(history, [1, 1, 0, 0, 0, 0, 0, 0, 0]);
/// assert_eq!(report(&plan, &tree, &mut history, 0), Ok(()));
/// assert_eq!(report(&plan, &tree, &mut history, 0), Err(Refusal::AfterDone));
/// assert_eq!(history, [2, 1, 0, 0, 0, 0, 0, 0, 0]);
/// # Ok::<(), Refusal>(())
/// ```
pub fn report(plan: &[u8], tree: &[u8], history: &mut [u8], mask: u8) -> Result<(), Refusal> {
    let answer = unsafe {
        raw::tureenlark_report(
            plan.as_ptr(),
            plan.len(),
            tree.as_ptr(),
            tree.len(),
            history.as_mut_ptr(),
            history.len(),
            mask,
        )
    };
    taken_apart("report", answer, 1..=1, &[10, 2, 3, 4, 6, 7, 8, 9]).map(|_| ())
}

/// Makes a list of calls, two bytes each, from this history on: 0 and any byte shows, any other byte and a mask
/// reports that mask; an odd last byte is no call. Answers the number of accepted reports. `history` holds the history
/// that is left; the first 32 bytes of `steps` hold, for each accepted report, the slot, points and choices told and
/// the mask, zeros behind them. Refused calls change nothing; `follow` itself is refused only with 10, and then no byte
/// changes.
///
/// ```
/// use tureenlark::*;
///
/// let mut plan = [0; PLAN_BYTES];
/// read_plan(b"0102020102\n02000000\n03000100010101\n030100FFFE0100\n", &mut plan)?;
/// let tree = [0, 1, 0, 2, 2, 0, 1, 2, 0];
/// let mut history = [0; HISTORY_BYTES];
/// let mut steps = [0xEE; STEPS_BYTES];
/// // a showing, a report that is refused, two that are accepted, one after done
/// let calls = [0, 0, 1, 2, 1, 1, 1, 0, 1, 0];
/// assert_eq!(follow(&plan, &tree, &mut history, &calls, &mut steps), Ok(2));
/// assert_eq!(history, [2, 1, 0, 0, 0, 0, 0, 0, 0]);
/// assert_eq!(steps[..8], [0, 1, 0, 1, 1, 2, 0, 0]);
/// assert_eq!(steps[8..], [0; 24]);
/// # Ok::<(), Refusal>(())
/// ```
pub fn follow(plan: &[u8], tree: &[u8], history: &mut [u8], calls: &[u8], steps: &mut [u8]) -> Result<usize, Refusal> {
    let answer = unsafe {
        raw::tureenlark_follow(
            plan.as_ptr(),
            plan.len(),
            tree.as_ptr(),
            tree.len(),
            history.as_mut_ptr(),
            history.len(),
            calls.as_ptr(),
            calls.len(),
            steps.as_mut_ptr(),
            steps.len(),
        )
    };
    taken_apart("follow", answer, 0..=8, &[10])
}

/// Where the letters of `values` are true and the others false: `true`, and the first eight bytes of `schedule` are the
/// least slots, or `false` where there is no schedule. Refused with 10, 2, 3, 4 or 8. Beside `false` and every refusal,
/// 10 for a short plan too, the eight bytes are zero; where `schedule` has fewer, no byte changes.
///
/// ```
/// use tureenlark::*;
///
/// let mut plan = [0; PLAN_BYTES];
/// read_plan(b"0102020102\n02000000\n03000100010101\n030100FFFE0100\n", &mut plan)?;
/// let mut schedule = [0xEE; SCHEDULE_BYTES];
/// assert_eq!(least_schedule(&plan, 0, &mut schedule), Ok(true));
/// assert_eq!(schedule, [0, 2, 0, 0, 0, 0, 0, 0]); // point 1 in slot 2
/// plan[0] = 1; // the horizon
/// assert_eq!(least_schedule(&plan, 0, &mut schedule), Ok(false));
/// assert_eq!(schedule, [0; SCHEDULE_BYTES]);
/// assert_eq!(least_schedule(&plan, 2, &mut schedule), Err(Refusal::Mask)); // there is no letter 1
/// schedule.fill(0xEE);
/// assert_eq!(least_schedule(&plan, 0, &mut schedule[..7]), Err(Refusal::Buffer)); // there is no place
/// assert_eq!(schedule, [0xEE; SCHEDULE_BYTES]);
/// assert_eq!(least_schedule(&plan[..399], 0, &mut schedule), Err(Refusal::Buffer)); // there is one
/// assert_eq!(schedule, [0; SCHEDULE_BYTES]);
/// # Ok::<(), Refusal>(())
/// ```
pub fn least_schedule(plan: &[u8], values: u8, schedule: &mut [u8]) -> Result<bool, Refusal> {
    let answer = unsafe {
        raw::tureenlark_least_schedule(plan.as_ptr(), plan.len(), values, schedule.as_mut_ptr(), schedule.len())
    };
    taken_apart("least_schedule", answer, 0..=1, &[10, 2, 3, 4, 8]).map(|found| found == 1)
}

/// Where the letters of `values` are true and the others false: `true`, and the first 128 bytes of `table` are the
/// differences, or `false` where there is no schedule. Row X, column Y (see [`entry`]) is the largest value that time
/// of Y minus time of X takes in any schedule within the horizon; rows and columns of unused points are zero. X is
/// forced strictly before Y exactly where row Y, column X is at most -1. Refused with 10, 2, 3, 4 or 8. Beside `false`
/// and every refusal, 10 for a short plan too, the 128 bytes are zero; where `table` has fewer, no byte changes.
///
/// ```
/// use tureenlark::*;
///
/// let mut plan = [0; PLAN_BYTES];
/// read_plan(b"0102020102\n02000000\n03000100010101\n030100FFFE0100\n", &mut plan)?;
/// let (fetch, photograph) = (0, 1);
/// let mut table = [0xEE; TABLE_BYTES];
/// assert_eq!(differences(&plan, 0, &mut table), Ok(true));
/// assert_eq!(entry(&table, photograph, fetch), -2); // at most -1: fetch before photograph
/// assert_eq!(entry(&table, fetch, photograph), 2); // and photograph at most 2 slots later
/// assert_eq!(entry(&table, fetch, 7), 0); // there is no point 7
/// assert_eq!(differences(&plan, 1, &mut table), Ok(true));
/// assert_eq!(entry(&table, photograph, fetch), 2); // fetch may come up to 2 slots later,
/// assert_eq!(entry(&table, fetch, photograph), 1); // photograph up to 1 slot later: no order is forced
///
/// plan[0] = 1; // the horizon
/// assert_eq!(differences(&plan, 0, &mut table), Ok(false));
/// assert_eq!(table, [0; TABLE_BYTES]);
/// assert_eq!(differences(&plan, 2, &mut table), Err(Refusal::Mask)); // there is no letter 1
/// table.fill(0xEE);
/// assert_eq!(differences(&plan, 0, &mut table[..127]), Err(Refusal::Buffer)); // there is no place
/// assert_eq!(table, [0xEE; TABLE_BYTES]);
/// assert_eq!(differences(&plan[..399], 0, &mut table), Err(Refusal::Buffer)); // there is one
/// assert_eq!(table, [0; TABLE_BYTES]);
/// # Ok::<(), Refusal>(())
/// ```
pub fn differences(plan: &[u8], values: u8, table: &mut [u8]) -> Result<bool, Refusal> {
    let answer =
        unsafe { raw::tureenlark_differences(plan.as_ptr(), plan.len(), values, table.as_mut_ptr(), table.len()) };
    taken_apart("differences", answer, 0..=1, &[10, 2, 3, 4, 8]).map(|found| found == 1)
}

/// Row `x`, column `y` of a table that [`differences`] filled: the largest value that time of `y` minus time of `x`
/// takes. Panics where `x` or `y` is above 7, or the slice is shorter than [`TABLE_BYTES`].
///
/// ```
/// use tureenlark::*;
///
/// let mut table = [0; TABLE_BYTES];
/// table[16..18].copy_from_slice(&[0xFF, 0xFE]);
/// assert_eq!(entry(&table, 1, 0), -2);
/// assert_eq!(entry(&table, 0, 1), 0);
/// ```
pub fn entry(table: &[u8], x: usize, y: usize) -> i16 {
    assert!(x < 8 && y < 8, "a table has no row {x}, column {y}");
    let (table, place) = (&table[..TABLE_BYTES], 16 * x + 2 * y);
    i16::from_be_bytes([table[place], table[place + 1]])
}

/// Whether every setting of all letters has a schedule. Refused with 10, 2, 3 or 4. A plan that passes may still be
/// hopeless.
///
/// ```
/// use tureenlark::*;
///
/// let mut plan = [0; PLAN_BYTES];
/// read_plan(b"0102020102\n02000000\n03000100000101\n030100FFFE0100\n", &mut plan)?;
/// assert_eq!(screen(&plan), Ok(true));
/// // hopeless: if letter 0 is true, point 1 may come no later than point 0, and nobody knows by then
/// assert_eq!(search(&plan, &mut [0; TREE_BYTES]), Err(Refusal::Hopeless));
/// plan[0] = 1; // the horizon
/// assert_eq!(screen(&plan), Ok(false));
/// # Ok::<(), Refusal>(())
/// ```
pub fn screen(plan: &[u8]) -> Result<bool, Refusal> {
    let answer = unsafe { raw::tureenlark_screen(plan.as_ptr(), plan.len()) };
    taken_apart("screen", answer, 0..=1, &[10, 2, 3, 4]).map(|passes| passes == 1)
}

/// What the program prints for this input, a tree text or one 7F frame: puts it at the front of `text` and answers its
/// length. Refused with 10, and no byte changes.
///
/// ```
/// use tureenlark::*;
///
/// let mut text = [b'.'; TREE_TEXT_BYTES];
/// let length = answer(b"0102020102\n02000000\n03000100010101\n030100FFFE0100\n", &mut text)?;
/// assert_eq!(text[..length], *b"0403\n05000100\n05020200\n05010200\n");
/// let length = answer(b"0101020102\n02000000\n03000100010101\n030100FFFE0100\n", &mut text)?;
/// assert_eq!(text[..length], *b"7F0B\n"); // hopeless
/// assert_eq!(answer(b"", &mut text[..4]), Err(Refusal::Buffer));
/// # Ok::<(), Refusal>(())
/// ```
pub fn answer(input: &[u8], text: &mut [u8]) -> Result<usize, Refusal> {
    let answer = unsafe { raw::tureenlark_answer(input.as_ptr(), input.len(), text.as_mut_ptr(), text.len()) };
    taken_apart("answer", answer, 5..=text.len().min(TREE_TEXT_BYTES), &[10])
}

#[cfg(test)]
mod tests {
    use super::*;

    #[test]
    fn every_refusal_is_taken_apart() {
        let all: Vec<u8> = (1..=11).collect();
        for &number in &all {
            let refusal = taken_apart("search", REFUSED + number as usize, 1..=191, &all).unwrap_err();
            assert_eq!(refusal.number(), number);
            assert!(refusal.to_string().starts_with("the "));
        }
    }

    #[test]
    fn no_entry_is_read_outside_a_table() {
        for (length, x, y) in [(TABLE_BYTES, 8, 0), (TABLE_BYTES, 0, 8), (TABLE_BYTES - 1, 0, 0)] {
            assert!(std::panic::catch_unwind(|| entry(&vec![0; length], x, y)).is_err(), "{length} {x} {y}");
        }
    }

    #[test]
    fn what_no_contract_allows_is_no_result() {
        for answer in [0, 192, REFUSED - 1, REFUSED, REFUSED + 1, REFUSED + 12, usize::MAX] {
            let taken = std::panic::catch_unwind(|| taken_apart("search", answer, 1..=191, &[10, 2, 3, 4, 11]));
            let said = *taken.unwrap_err().downcast::<String>().unwrap();
            assert_eq!(said, format!("tureenlark_search answered {answer:#X}, which its contract does not allow"));
        }
    }
}
