//! A tree in memory: its nodes as bytes, three to a node.

pub const NODE_BYTES: usize = 3;
pub const MOST_NODES: usize = 191;

/// What a tree read or searched needs, and the longest tree.
pub const TREE_BYTES: usize = NODE_BYTES * MOST_NODES;

/// What is done in a slot: the points performed and the choices made, as masks.
#[derive(Clone, Copy, PartialEq, Eq, Debug)]
pub struct Node {
    pub slot: u8,
    pub points: u8,
    pub choices: u8,
}

impl Node {
    /// The node at the front of the bytes.
    pub fn front(nodes: &[u8]) -> Option<Node> {
        let &[slot, points, choices, ..] = nodes else { return None };
        Some(Node { slot, points, choices })
    }

    pub fn to_bytes(self) -> [u8; NODE_BYTES] {
        [self.slot, self.points, self.choices]
    }
}

/// Whether a tree can have this many bytes.
pub fn legal_length(n: usize) -> bool {
    n.is_multiple_of(NODE_BYTES) && (NODE_BYTES..=TREE_BYTES).contains(&n)
}
