//! A crew's list of calls, made one after the other.

use super::plan::Plan;
use super::run::{report, show, History, Told};
use super::tree::Node;

/// An instruction that was followed, and the report that was accepted there.
#[derive(Clone, Copy, PartialEq, Eq, Debug)]
pub struct Step {
    pub instruction: Node,
    pub report: u8,
}

/// The calls that the bytes say, two bytes to a call: 0 shows, which leaves everything, and any other number reports
/// the mask behind it. The history is left as the calls leave it.
pub fn follow(plan: &Plan, tree: &[u8], history: &mut History, calls: &[u8]) -> Vec<Step> {
    let mut steps = Vec::new();
    for call in calls.chunks_exact(2).filter(|call| call[0] != 0) {
        let shown = show(plan, tree, history);
        let reported = report(plan, tree, history, call[1]);
        if let (Ok(Told::Instruct(instruction)), Ok(())) = (shown, reported) {
            steps.push(Step { instruction, report: call[1] });
        }
    }
    steps
}
