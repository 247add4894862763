//! Tree texts: read into bytes, written from bytes.

use super::frame::{line_length, put, take};
use super::plan::{Refusal, BUFFER, SHAPE, TREE_TEXT};
use super::tree::{legal_length, MOST_NODES, NODE_BYTES, TREE_BYTES};

const HEAD_FRAME: u8 = 0x04;
const NODE_FRAME: u8 = 0x05;

fn read_head(text: &mut &[u8]) -> Result<usize, Refusal> {
    let [_, nodes] = take(text, HEAD_FRAME).ok_or(TREE_TEXT)?;
    if (1..=MOST_NODES).contains(&nodes.into()) {
        Ok(nodes.into())
    } else {
        Err(TREE_TEXT)
    }
}

/// The number of nodes of a text that says a tree, judged to its end.
fn read_nodes(text: &[u8]) -> Result<usize, Refusal> {
    let mut rest = text;
    let nodes = read_head(&mut rest)?;
    for _ in 0..nodes {
        take::<4>(&mut rest, NODE_FRAME).ok_or(TREE_TEXT)?;
    }
    if rest.is_empty() {
        Ok(nodes)
    } else {
        Err(TREE_TEXT)
    }
}

/// The tree that a text says into the buffer, and the number of its nodes; or 10, 5. No byte changes before the whole
/// text is judged.
pub fn read_tree(text: &[u8], out: &mut [u8]) -> Result<usize, Refusal> {
    if out.len() < TREE_BYTES {
        return Err(BUFFER);
    }
    let nodes = read_nodes(text)?;
    let mut rest = &text[line_length(2)..];
    for node in out.chunks_exact_mut(NODE_BYTES).take(nodes) {
        let [_, values @ ..] = take::<4>(&mut rest, NODE_FRAME).ok_or(TREE_TEXT)?;
        node.copy_from_slice(&values);
    }
    Ok(nodes)
}

/// The text of a tree's bytes into the buffer, and its length; or 6, 10. No shape is judged.
pub fn write_tree(tree: &[u8], out: &mut [u8]) -> Result<usize, Refusal> {
    if !legal_length(tree.len()) {
        return Err(SHAPE);
    }
    let nodes = tree.len() / NODE_BYTES;
    let length = line_length(2) + line_length(4) * nodes;
    if out.len() < length {
        return Err(BUFFER);
    }
    let mut rest = put(out, &[HEAD_FRAME, nodes as u8]);
    for node in tree.chunks_exact(NODE_BYTES) {
        rest = put(rest, &[NODE_FRAME, node[0], node[1], node[2]]);
    }
    Ok(length)
}
