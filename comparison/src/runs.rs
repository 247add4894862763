//! Histories, reports and lists of calls beside a tree, good ones and damaged ones.

use crate::expected::history_bytes;
use crate::made::{any_bytes, Made};
use reference::checker::Node;
use reference::plan::{inside, masks_inside};
use reference::random::Random;
use reference::run::History;

/// Where a crew is: at a node, or nowhere, because it is done or the tree is none.
type Place<'a> = Option<&'a Node>;

/// A mask inside `whole`, all and none more often than others.
fn good_mask(random: &mut Random, whole: u8) -> u8 {
    match random.below(4) {
        0 => 0,
        1 => whole,
        _ => random.mask(whole),
    }
}

/// Random good reports from the root to done: the masks, and the node at which each was reported.
fn walked<'a>(random: &mut Random, root: Place<'a>) -> Vec<(u8, &'a Node)> {
    let (mut walk, mut here) = (Vec::new(), root);
    while let Some(node) = here {
        let mask = good_mask(random, node.heard);
        walk.push((mask, node));
        here = node.child(mask);
    }
    walk
}

/// The first reports of a random walk, one time in four all of them; and where they lead.
fn good_history<'a>(random: &mut Random, root: Place<'a>) -> (History, Place<'a>) {
    let walk = walked(random, root);
    let count = if walk.is_empty() || random.one_in(4) { walk.len() } else { random.below(walk.len()) };
    let mut history = History { count: count as u8, masks: [0; 8] };
    walk[..count].iter().zip(&mut history.masks).for_each(|((mask, _), place)| *place = *mask);
    (history, walk.get(count).map(|&(_, node)| node))
}

/// Nine bytes of a history, most of them good, and where it leads if so.
pub fn any_history<'a>(random: &mut Random, root: Place<'a>) -> (Vec<u8>, Place<'a>) {
    let (mut history, here) = good_history(random, root);
    match random.below(16) {
        0..=9 => (history_bytes(&history), here),
        10 => (any_bytes(random, 9), None),
        _ => {
            odd_history(random, &mut history);
            (history_bytes(&history), None)
        }
    }
}

/// A history with a wrong count, a mask that is not zero past it, or wrong masks.
fn odd_history(random: &mut Random, history: &mut History) {
    let count = history.count as usize;
    let (any, bit) = (random.below(8), 1 << random.byte(0, 7));
    match random.below(10) {
        0 => history.count = *random.pick(&[9, 10, 16, 128, 255]),
        1 => history.count = random.mask(255),
        2 => history.count = 8,
        3 => history.count = history.count.saturating_sub(1),
        4 => history.count += (count < 8) as u8,
        5 => history.masks[any] ^= bit,
        6 => history.masks[7] |= bit,
        7 => history.masks[count.min(7)] = bit,
        8 => (history.count, history.masks[count.min(7)]) = (8, bit),
        _ => history.masks[count.saturating_sub(1)] ^= bit,
    }
}

/// A mask to report here: mostly good, else with a letter more, else any byte.
pub fn any_report(random: &mut Random, here: Place) -> u8 {
    let heard = here.map_or(0, |node| node.heard);
    match random.below(8) {
        0..=4 => good_mask(random, heard),
        5 => good_mask(random, heard) | 1 << random.byte(0, 7),
        6 => masks_inside(63).filter(|&mask| !inside(mask, heard)).nth(random.below(8)).unwrap_or(64),
        _ => random.mask(255),
    }
}

/// A list of calls from here on, most reports good; now and then a long one; an odd last byte now and then.
pub fn any_calls(random: &mut Random, start: Place) -> Made {
    let most = *random.pick(&[0, 1, 2, 4, 8, 12, 16, 16, 24, 24]);
    let (mut calls, mut here) = (Vec::new(), start);
    for _ in 0..most {
        let first = *random.pick(&[0, 1, 1, 1, 1, 2, 128, 255]);
        let mask = any_report(random, here);
        calls.extend([first, mask]);
        let accepted = here.filter(|node| first != 0 && inside(mask, node.heard));
        here = accepted.map_or(here, |node| node.child(mask));
    }
    if random.one_in(4) {
        calls.push(*random.pick(&[0, 1, 1, 255]));
        return Made { bytes: calls, beyond: vec![0] };
    }
    if random.one_in(30) {
        let more = random.below(200);
        calls.extend(any_bytes(random, more));
    }
    calls.into()
}
