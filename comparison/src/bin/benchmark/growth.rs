//! How the time of the search grows: families of plans, proved and plain side by side.

use crate::fail;
use crate::meter::{measure, PLAIN, PROVED};
use crate::tables::time_text;
use crate::vectors::search_case;
use comparison::growth::{families, Family, Member};
use comparison::library::{Library, Proved};
use reference::plan::{Plan, HOPELESS};

const WHAT: &str = "\
Growth of the search. In all plans condition a is told half of the horizon after the start, decision e is made no
earlier, and jobs x and y are to be done: soon after the start where a is true, or late if e is; where a is false, y in
the middle, or x if e is true. It can be won, and from 5 points and 2 letters on only by waiting until a is told: what
suits a true breaks what suits a false. Each outcome alone has its schedule and no constraint is broken by beginning a
job, so that the search has to refuse it in every slot, and every set of jobs, by all outcomes together. The twin has no
late slot and is hopeless, and again each outcome alone has its schedule. The proved checker said yes to each tree.
";

/// The answer in words, and the times.
fn columns(answer: &str, proved: &str, plain: &str, ratio: &str) -> String {
    format!("{answer:>11}{proved:>11}{plain:>11}{ratio:>8}")
}

/// Measures the search of a plan, which is hopeless or not, as is said.
fn searched(place: &str, plan: &Plan, hopeless: bool, samples: usize) -> String {
    let found = measure(place, &search_case(plan), &[PROVED, PLAIN], samples);
    let answer = match found.answer {
        Ok(nodes) if !hopeless && Proved.check_tree(&plan.to_bytes(), &found.buffers[1][..3 * nodes]) == Ok(1) => {
            format!("{nodes} nodes")
        }
        Err(HOPELESS) if hopeless => "hopeless".to_string(),
        other => fail(format!("{place}: {other:?}, not what the family says"), 1),
    };
    let [proved, plain] = [found.seconds[0], found.seconds[1]];
    columns(&answer, &time_text(proved), &time_text(plain), &format!("{:.2}", proved / plain))
}

fn print_member(measure: &str, Member { value, plan, twin }: &Member, samples: usize) {
    let place = |what: &str| format!("growth, {measure} {value}, {what}");
    let own = searched(&place("plan"), plan, false, samples);
    let twin = twin.as_ref().map(|twin| searched(&place("twin"), twin, true, samples));
    println!("{value:<8}{own}{}", twin.unwrap_or_else(|| columns("-", "-", "-", "-")));
}

pub fn print(samples: usize) {
    println!("{WHAT}");
    for Family { measure, what, members } in families() {
        println!("{measure}: {what}");
        let heading = columns("answer", PROVED.name, PLAIN.name, "ratio");
        println!("{measure:<8}{heading}{}", columns("twin", PROVED.name, PLAIN.name, "ratio"));
        members.iter().for_each(|member| print_member(measure, member, samples));
        println!();
    }
}
