//! What the program prints for its input: the tree text, or one 7F frame.

use super::frame::{line_length, put};
use super::plan::{Refusal, BUFFER};
use super::plan_text::read_plan;
use super::search::search;
use super::tree::{NODE_BYTES, TREE_BYTES};
use super::tree_text::write_tree;

const REFUSAL_FRAME: u8 = 0x7F;

/// What counts of the input: one byte more than the longest plan text.
const JUDGED: usize = 1026;

/// The nodes of the tree that the search makes of the plan that the text says.
fn searched(text: &[u8], tree: &mut [u8]) -> Result<usize, Refusal> {
    search(&read_plan(text)?, tree)
}

/// What is printed, at the front of the buffer, and its length; or 10.
pub fn answer_to(input: &[u8], out: &mut [u8]) -> Result<usize, Refusal> {
    let mut tree = [0; TREE_BYTES];
    match searched(&input[..input.len().min(JUDGED)], &mut tree) {
        Ok(nodes) => write_tree(&tree[..NODE_BYTES * nodes], out),
        Err(_) if out.len() < line_length(2) => Err(BUFFER),
        Err(refusal) => {
            put(out, &[REFUSAL_FRAME, refusal]);
            Ok(line_length(2))
        }
    }
}
