//! The tree checker, through strategies: the tree's shape, then Definitions 6 to 8 on the strategy it describes.

use crate::plan::*;
use crate::text::length_fits;

#[derive(Clone, PartialEq, Eq, Debug)]
pub struct Node {
    pub slot: u8,
    pub points: u8,
    pub choices: u8,
    /// The conditions that its points disclose.
    pub heard: u8,
    /// One for each outcome, in order; none where no point remains.
    pub children: Vec<Node>,
}

impl Node {
    /// The child for an outcome mask; none behind the last node of a path, whatever was heard there.
    pub fn child(&self, outcome: u8) -> Option<&Node> {
        masks_inside(self.heard).position(|mask| mask == outcome).and_then(|place| self.children.get(place))
    }

    pub fn to_bytes(&self) -> Vec<u8> {
        let mut bytes = vec![self.slot, self.points, self.choices];
        bytes.extend(self.children.iter().flat_map(Node::to_bytes));
        bytes
    }
}

/// The subtree at the front of `bytes`, with the bytes behind it, or nothing where a shape rule is broken.
fn subtree<'a>(plan: &Plan, bytes: &'a [u8], left: u8, earliest: u8) -> Option<(Node, &'a [u8])> {
    let [slot, points, choices, ref rest @ ..] = *bytes else { return None };
    let mut rest = rest;
    let sound = slot >= earliest
        && slot <= plan.horizon
        && points != 0
        && inside(points, left)
        && inside(choices, plan.disclosed(points, DECISION));
    if !sound {
        return None;
    }
    let heard = plan.disclosed(points, CONDITION);
    let mut children = Vec::new();
    if points != left {
        for _ in masks_inside(heard) {
            let (child, behind) = subtree(plan, rest, left & !points, slot + 1)?;
            children.push(child);
            rest = behind;
        }
    }
    Some((Node { slot, points, choices, heard, children }, rest))
}

/// The tree that the bytes describe for a well-formed plan, or 6.
pub fn parse(plan: &Plan, bytes: &[u8]) -> Result<Node, Refusal> {
    if !length_fits(bytes) {
        return Err(SHAPE);
    }
    match subtree(plan, bytes, plan.all_points(), 0) {
        Some((root, [])) => Ok(root),
        _ => Err(SHAPE),
    }
}

/// Definition 6, one condition scenario of it: its schedule and its decision scenario.
#[derive(Clone, Copy, PartialEq, Eq, Debug)]
pub struct Path {
    pub scenario: u8,
    pub schedule: Schedule,
    pub decisions: u8,
}

pub fn condition_scenarios(plan: &Plan) -> Vec<u8> {
    masks_inside(plan.disclosed(plan.all_points(), CONDITION)).collect()
}

fn walk(root: &Node, scenario: u8) -> Path {
    let mut path = Path { scenario, schedule: [0; 8], decisions: 0 };
    let mut here = Some(root);
    while let Some(node) = here {
        for point in (0..8).filter(|&point| has(node.points, point)) {
            path.schedule[point as usize] = node.slot;
        }
        path.decisions |= node.choices;
        here = node.child(scenario & node.heard);
    }
    path
}

/// The execution strategy of a tree that is sound in shape: one path for each condition scenario.
pub fn strategy(plan: &Plan, root: &Node) -> Vec<Path> {
    condition_scenarios(plan).into_iter().map(|scenario| walk(root, scenario)).collect()
}

/// Definition 6: in every condition scenario the schedule is feasible for the projection.
pub fn viable(plan: &Plan, strategy: &[Path]) -> bool {
    strategy.iter().all(|path| plan.feasible(&path.schedule, path.scenario | path.decisions))
}

/// Definition 7: the conditions assigned before time t, and those of them that are true.
fn history(plan: &Plan, path: &Path, t: u8) -> (u8, u8) {
    let before = (0..plan.points).filter(|&x| path.schedule[x as usize] < t).map(|x| 1 << x).sum();
    let assigned = plan.disclosed(before, CONDITION);
    (assigned, path.scenario & assigned)
}

/// Definition 8 for one ordered pair of condition scenarios, schedules and decisions both.
fn dynamic_pair(plan: &Plan, one: &Path, other: &Path) -> bool {
    (0..plan.points).all(|x| {
        let t = one.schedule[x as usize];
        let decisions = plan.disclosed(1 << x, DECISION);
        history(plan, one, t) != history(plan, other, t)
            || (other.schedule[x as usize] == t && one.decisions & decisions == other.decisions & decisions)
    })
}

/// Definition 8.
pub fn dynamic(plan: &Plan, strategy: &[Path]) -> bool {
    strategy.iter().all(|one| strategy.iter().all(|other| dynamic_pair(plan, one, other)))
}

/// 2, 3, 4, 6, 7; the parsed tree where all is well.
pub fn check(plan: &Plan, bytes: &[u8]) -> Result<Node, Refusal> {
    plan.judge()?;
    let root = parse(plan, bytes)?;
    let strategy = strategy(plan, &root);
    assert!(dynamic(plan, &strategy), "a tree of sound shape is dynamic: {bytes:?}");
    if viable(plan, &strategy) {
        Ok(root)
    } else {
        Err(BROKEN)
    }
}
