//! Random trees beside plans, good ones and damaged ones.

use crate::made::{any_bytes, cut, Made, HUGE};
use crate::plans::{scheduled_plan, tighten};
use reference::checker::{parse, Node};
use reference::known::k;
use reference::plan::*;
use reference::random::*;
use reference::search::search;

/// The tree of first moves of a plan without constraints: point after point, slot after slot, every choice false.
pub fn bare_tree(plan: &Plan) -> Vec<u8> {
    search(&Plan { constraints: 0, constraint: Plan::zero().constraint, ..*plan }, 573).expect("a tree")
}

/// A plan and a tree that keeps it.
pub fn pair(random: &mut Random) -> (Plan, Vec<u8>) {
    match random.below(16) {
        0 => {
            let plan = k(*random.pick(&[1, 3, 4, 7, 8, 9]));
            (plan, search(&plan, 573).expect("a tree"))
        }
        1..=6 => found(random),
        7 => wide(random),
        _ => fitted(random),
    }
}

/// A random small plan that can be won, and the tree that the reference finds.
fn found(random: &mut Random) -> (Plan, Vec<u8>) {
    loop {
        let plan = small_plan(random, 4, 4, 9);
        if let Ok(tree) = search(&plan, 573) {
            return (plan, tree);
        }
    }
}

/// A random tree and a plan whose constraints it keeps, most of them just so.
fn fitted(random: &mut Random) -> (Plan, Vec<u8>) {
    let (horizon, points) = (random.byte(0, 20), random.byte(1, 8));
    let letters = random.byte(0, points.min(4));
    let plan = bare_plan(random, horizon, points, letters);
    let tree = random_tree(random, &plan, plan.all_points(), 0);
    let constraints = *random.pick(&[0, 2, 5, 9, 20, 64]);
    (fit(random, &plan, &tree, constraints), tree)
}

/// Up to six conditions told one by one: trees of up to 191 nodes, paths of up to eight.
fn wide(random: &mut Random) -> (Plan, Vec<u8>) {
    let points = random.byte(7, 8);
    let mut plan = Plan { horizon: random.byte(7, 63), points, letters: 6, ..Plan::zero() };
    let decisions = if random.one_in(2) { 0 } else { 1 << random.byte(0, 5) };
    (0..6).for_each(|i| plan.letter[i] = Letter { point: i as u8, kind: (decisions >> i & 1) as u8 });
    let (tree, constraints) = (bare_tree(&plan), *random.pick(&[2, 6, 64]));
    (fit(random, &plan, &tree, constraints), tree)
}

/// A plan and the bytes of a tree for it: good, or good for a plan that is a little different, or damaged, or of no shape.
pub fn plan_and_tree(random: &mut Random) -> (Plan, Made) {
    let (mut plan, tree) = pair(random);
    match random.below(16) {
        0..=4 => (plan, tree.into()),
        5 | 6 => {
            tighten(random, &mut plan);
            (plan, tree.into())
        }
        7 => {
            let other = random_tree(random, &plan, plan.all_points(), 0);
            (plan, other.into())
        }
        8 => {
            plan.horizon = plan.horizon.saturating_sub(1);
            (plan, tree.into())
        }
        9 => (scheduled_plan(random), tree.into()),
        _ => (plan, damaged(random, &plan, &tree)),
    }
}

/// The tree with one damage of the list; some leave it as it is.
pub fn damaged(random: &mut Random, plan: &Plan, tree: &[u8]) -> Made {
    match random.below(12) {
        0 => cut(tree, random.below(tree.len() + 1)),
        1 => cut(tree, tree.len() - 3),
        2 => {
            let length = *random.pick(&[0, 1, 2, 3, 4, 6, 570, 572, 573, 574, 575, 576, 579, 600, 768, 1999]);
            any_bytes(random, length).into()
        }
        3 => {
            let length = random.below(2000);
            any_bytes(random, length).into()
        }
        4 => longer(random, tree).into(),
        5 | 6 => reshaped(random, &parse(plan, tree).expect("a tree of sound shape"), 0).to_bytes().into(),
        7 | 8 => chosen(random, plan, tree).into(),
        _ => changed(random, plan, tree).into(),
    }
}

/// The tree with something behind it.
fn longer(random: &mut Random, tree: &[u8]) -> Vec<u8> {
    let last = &tree[tree.len() - 3..];
    let more = match random.below(6) {
        0 => vec![0],
        1 => vec![0; 3],
        2 => last.to_vec(),
        3 => last.repeat(*random.pick(&[191 - tree.len() / 3, 192 - tree.len() / 3, 191, 255, 256])),
        4 if random.one_in(2) => last.repeat(HUGE),
        _ => any_bytes(random, 3),
    };
    [tree, &more].concat()
}

/// The tree with one node changed, some way down: its children exchanged, its points performed once more below, or a node
/// without points before it where there is a slot for one. As it is where none of that can be.
fn reshaped(random: &mut Random, node: &Node, earliest: u8) -> Node {
    let mut node = node.clone();
    let (children, next) = (node.children.len(), node.slot + 1);
    let chosen = random.below(children.max(1));
    match random.below(6) {
        0 if children > 1 => node.children.swap(random.below(children - 1), children - 1),
        1 if children > 0 => node.children[chosen].points |= random.mask(node.points) | lowest(node.points),
        2 if node.slot > earliest => {
            node = Node { slot: node.slot - 1, points: 0, choices: 0, heard: 0, children: vec![node] };
        }
        _ if children > 0 => node.children[chosen] = reshaped(random, &node.children[chosen], next),
        _ => {}
    }
    node
}

fn lowest(mask: u8) -> u8 {
    mask & mask.wrapping_neg()
}

/// A place in the tree: a node with a point that tells something of this kind, if there is one, else any node.
fn telling(random: &mut Random, plan: &Plan, tree: &[u8], kind: u8) -> usize {
    let nodes = (0..tree.len()).step_by(3);
    let telling: Vec<usize> = nodes.filter(|&at| plan.disclosed(tree[at + 1], kind) != 0).collect();
    if telling.is_empty() {
        3 * random.below(tree.len() / 3)
    } else {
        *random.pick(&telling)
    }
}

/// The tree with a node's choices changed: one turned, one of a condition, one of a decision told elsewhere, any.
fn chosen(random: &mut Random, plan: &Plan, tree: &[u8]) -> Vec<u8> {
    let (mut t, kind) = (tree.to_vec(), random.byte(0, 1));
    let at = telling(random, plan, tree, kind);
    match random.below(4) {
        0 => t[at + 2] ^= lowest(plan.disclosed(t[at + 1], DECISION)),
        1 => t[at + 2] |= lowest(plan.disclosed(t[at + 1], CONDITION)),
        2 => t[at + 2] |= lowest(plan.disclosed(!t[at + 1], DECISION)),
        _ => t[at + 2] |= 1 << random.byte(0, 7),
    }
    t
}

/// The tree with one of its bytes changed, a node more or less, two nodes exchanged, or all slots moved.
fn changed(random: &mut Random, plan: &Plan, tree: &[u8]) -> Vec<u8> {
    let mut t = tree.to_vec();
    let nodes = tree.len() / 3;
    let (at, other) = (3 * random.below(nodes), 3 * random.below(nodes));
    match random.below(12) {
        0 => t[at] = t[at].wrapping_add(1),
        1 => t[at] = t[at].wrapping_sub(1),
        2 => t[at] = *random.pick(&[plan.horizon, plan.horizon + 1, 63, 64, 255]),
        3 => (0..nodes).for_each(|i| t[3 * i] = t[3 * i].wrapping_add(1)),
        4 => t[at + 1] &= t[at + 1].wrapping_sub(1),
        5 => t[at + 1] |= t[other + 1],
        6 => t[at + 1] |= lowest(!plan.all_points()) | random.mask(!plan.all_points()),
        7 => (0..3).for_each(|i| t.swap(at + i, other + i)),
        8 => drop(t.drain(at..at + 3)),
        9 => (0..3).for_each(|i| t.insert(at + i, tree[at + i])),
        10 => t[at + 1] = 0,
        _ => t[random.below(3 * nodes)] ^= 1 << random.byte(0, 7),
    }
    t
}
