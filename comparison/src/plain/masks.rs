//! Masks: bytes whose bit i, value 2 to the power i, stands for letter or point i.

/// Whether i, below 8, is a member.
pub fn has(mask: u8, i: u8) -> bool {
    mask >> i & 1 == 1
}

/// Whether each member of a is one of b.
pub fn subset(a: u8, b: u8) -> bool {
    a & b == a
}

/// The mask of the first n, at most 8.
pub fn first(n: u8) -> u8 {
    ((1u16 << n) - 1) as u8
}

/// Of the masks inside a set, number k: its members are the binary digits of k, the lowest member least.
fn numbered(set: u8, mut k: u16) -> u8 {
    let mut rest = set;
    let mut out = 0;
    while rest != 0 {
        let low = 1 << rest.trailing_zeros();
        rest -= low;
        if k % 2 == 1 {
            out |= low;
        }
        k /= 2;
    }
    out
}

/// The masks inside a set in document 01's order of outcomes.
pub fn outcomes(heard: u8) -> impl Iterator<Item = u8> {
    (0..1 << heard.count_ones()).map(move |k| numbered(heard, k))
}

/// Of the masks inside a set, the one behind this one in their order; none behind the last.
pub fn next_inside(set: u8, mask: u8) -> Option<u8> {
    // adding 1 where every place outside the set is filled carries over those places
    (mask | !set).checked_add(1).map(|carried| carried & set)
}

/// The masks inside a set in their order, the empty one first.
pub fn inside(set: u8) -> impl Iterator<Item = u8> {
    std::iter::successors(Some(0), move |&mask| next_inside(set, mask))
}
