//! Families of plans that grow in one measure: the horizon, the letters or the points.
//!
//! All are made of one plan that can be won by waiting alone. Condition a is told half of the horizon after the start,
//! decision e is made no earlier. Where a is true, jobs x and y come soon after the start, or, with e, late; where a is
//! false, y comes in the middle, or, with e, x does. So neither job is begun before a is told: what suits a true breaks
//! what suits a false. No constraint is broken by beginning one, and each outcome alone has its schedule; the search
//! refuses such a move, in every slot and for every set of jobs, by looking at all outcomes together. With fewer than
//! five points or two letters a part of this is missing, and nothing has to wait.

use reference::plan::{Constraint, Letter, Plan, CONDITION, DECISION};

/// What grows, what the plans are, and the plans.
pub struct Family {
    pub measure: &'static str,
    pub what: &'static str,
    pub members: Vec<Member>,
}

/// A plan that can be won, and its twin that cannot: no late slot is left for the jobs. It has none where it is too small
/// for that.
pub struct Member {
    pub value: u8,
    pub plan: Plan,
    pub twin: Option<Plan>,
}

/// The letters that a constraint's label needs, and those of them that are true.
type Label = (u8, u8);
const ALWAYS: Label = (0, 0);

// Labels over condition a, letter 0, and decision e, letter 1: who is true.
const NEITHER: Label = (3, 0);
const A_ALONE: Label = (3, 1);
const E_ALONE: Label = (3, 2);
const BOTH: Label = (3, 3);

/// Point x comes so many slots after point y, or more.
fn after(x: u8, y: u8, slots: i16, (need, truth): Label) -> Constraint {
    Constraint { from: x, to: y, bound: -slots, need, truth }
}

/// Point x comes so many slots after point y at most.
fn within(x: u8, y: u8, slots: i16, (need, truth): Label) -> Constraint {
    Constraint { from: y, to: x, bound: slots, need, truth }
}

/// Points x and y are performed in one slot.
fn together(x: u8, y: u8) -> [Constraint; 2] {
    [after(x, y, 0, ALWAYS), within(x, y, 0, ALWAYS)]
}

/// Letter d, a decision, is what letter c is: its point cannot be kept elsewhere.
fn repeats(d: u8, c: u8, point: u8) -> [Constraint; 2] {
    [1 << c, 1 << d].map(|truth| Constraint { from: point, to: point, bound: -1, need: 1 << c | 1 << d, truth })
}

/// The points of the plan that is common to all.
struct Core {
    told: u8,
    decided: u8,
    start: u8,
    x: u8,
    y: u8,
}

impl Core {
    /// In the twin `late` is past the horizon.
    fn constraints(&self, horizon: u8, late: i16) -> Vec<Constraint> {
        let (&Core { told, decided, start, x, y }, h) = (self, i16::from(horizon));
        vec![
            after(told, start, h / 2, ALWAYS),
            after(decided, told, 0, ALWAYS),
            within(x, start, h / 12, A_ALONE),
            within(y, start, h / 12, A_ALONE),
            after(x, start, late, BOTH),
            after(y, start, late, BOTH),
            after(y, start, h / 3, NEITHER),
            after(x, start, h / 3, E_ALONE),
        ]
    }
}

/// A plan with these letters and constraints, without those that name a point or a letter which it lacks.
fn made(horizon: u8, points: u8, letters: &[Letter], constraints: &[Constraint]) -> Plan {
    let mut plan = Plan { horizon, points, letters: letters.len() as u8, ..Plan::zero() };
    plan.letter[..letters.len()].copy_from_slice(letters);
    let fits = |c: &&Constraint| c.from.max(c.to) < points && c.need >> letters.len() == 0;
    constraints.iter().filter(fits).fold(plan, |plan, c| plan.with(*c))
}

fn condition(point: u8) -> Letter {
    Letter { point, kind: CONDITION }
}

fn decision(point: u8) -> Letter {
    Letter { point, kind: DECISION }
}

fn late(horizon: u8) -> i16 {
    2 * i16::from(horizon) / 3
}

fn too_late(horizon: u8) -> i16 {
    i16::from(horizon) + 1
}

/// Two letters. Points 0 to 4 are the core, the others jobs in one slot with x.
fn jobs(horizon: u8, points: u8, late: i16) -> Plan {
    let core = Core { told: 0, decided: 1, start: 2, x: 3, y: 4 };
    let mut constraints = core.constraints(horizon, late);
    (5..8).for_each(|job| constraints.extend(together(job, core.x)));
    made(horizon, points, &[condition(core.told), decision(core.decided)], &constraints)
}

/// Horizon 63 and eight points. Behind a and e: the start tells b, and f, made by a job in one slot with x, repeats it;
/// c is told no sooner than a, and g repeats it.
fn lettered(letters: u8, late: i16) -> Plan {
    let core = Core { x: 0, y: 1, start: 3, told: 4, decided: 5 };
    let (job, second, last) = (2, 6, 7);
    let mut constraints = core.constraints(63, late);
    constraints.extend(together(job, core.x));
    constraints.push(after(second, core.told, 0, ALWAYS));
    constraints.extend(repeats(3, 2, job).into_iter().chain(repeats(5, 4, last)));
    let [a, e, b] = [condition(core.told), decision(core.decided), condition(core.start)];
    let [f, c, g] = [decision(job), condition(second), decision(last)];
    made(63, 8, &[a, e, b, f, c, g][..letters as usize], &constraints)
}

pub fn families() -> [Family; 3] {
    let horizons = [7, 15, 31, 63].map(|value| {
        let twin = Some(jobs(value, 8, too_late(value)));
        Member { value, plan: jobs(value, 8, late(value)), twin }
    });
    let letters = (0..=6).map(|value| {
        let twin = (value >= 2).then(|| lettered(value, too_late(63)));
        Member { value, plan: lettered(value, late(63)), twin }
    });
    let points = (2..=8).map(|value| {
        let twin = (value >= 5).then(|| jobs(63, value, too_late(63)));
        Member { value, plan: jobs(63, value, late(63)), twin }
    });
    [
        Family {
            measure: "horizon",
            what: "8 points, 2 letters; x, y and three jobs in one slot with x; all bounds grow with the horizon",
            members: horizons.into(),
        },
        Family {
            measure: "letters",
            what: "horizon 63, 8 points; conditions a, b, c and decisions e, f, g in turn, where f repeats b and g repeats c",
            members: letters.collect(),
        },
        Family {
            measure: "points",
            what: "horizon 63, 2 letters; at first the points of a and e, then the start, x, y, and up to three jobs in one slot with x",
            members: points.collect(),
        },
    ]
}
