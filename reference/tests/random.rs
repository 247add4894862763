//! Two ways to the same answer, on random plans.

use reference::checker::{check, condition_scenarios, dynamic, viable, Path};
use reference::plan::*;
use reference::random::{random_plan, random_tree, small_plan, Random};
use reference::search::{exhaustive, search};
use reference::verdict::{least_by_enumeration, least_by_fixpoint, tiny};

#[test]
fn the_verdict_methods_agree() {
    let mut random = Random(1);
    let (mut some, mut none) = (0, 0);
    for _ in 0..400 {
        let plan = small_plan(&mut random, 6, 4, 16);
        for mask in masks_inside(plan.all_letters()).filter(|_| tiny(&plan)) {
            let least = least_by_enumeration(&plan, mask);
            assert_eq!(least, least_by_fixpoint(&plan, mask), "{plan:?} {mask}");
            *if least.is_some() { &mut some } else { &mut none } += 1;
        }
    }
    assert!(some > 200 && none > 200, "{some} {none}");
}

/// Every schedule with every decision scenario that is feasible in one condition scenario.
fn options(plan: &Plan, scenario: u8) -> Vec<Path> {
    let mut options = Vec::new();
    let slots = plan.horizon as usize + 1;
    for number in 0..slots.pow(plan.points as u32) {
        let slot = |x: u8| if x < plan.points { number / slots.pow(x as u32) % slots } else { 0 };
        let schedule: Schedule = std::array::from_fn(|x| slot(x as u8) as u8);
        for decisions in masks_inside(plan.disclosed(plan.all_points(), DECISION)) {
            let path = Path { scenario, schedule, decisions };
            if viable(plan, &[path]) {
                options.push(path);
            }
        }
    }
    options
}

/// Definition 9: some strategy is viable and dynamic, looked for among all of them.
fn consistent(plan: &Plan, scenarios: &[u8], chosen: &mut Vec<Path>) -> bool {
    let Some((&scenario, others)) = scenarios.split_first() else { return true };
    options(plan, scenario).into_iter().any(|path| {
        chosen.push(path);
        // A pair that is not dynamic stays so, whatever the other scenarios get.
        let found = dynamic(plan, chosen) && consistent(plan, others, chosen);
        chosen.pop();
        found
    })
}

#[test]
fn the_search_decides_definition_9() {
    let mut random = Random(2);
    let (mut won, mut hopeless) = (0, 0);
    for _ in 0..500 {
        let (horizon, points) = (random.byte(0, 2), random.byte(1, 3));
        let letters = random.byte(0, points);
        let plan = random_plan(&mut random, horizon, points, letters, 5);
        let tree = search(&plan, 573);
        let strategy = consistent(&plan, &condition_scenarios(&plan), &mut Vec::new());
        assert_eq!(tree.is_ok(), strategy, "{plan:?}");
        *if strategy { &mut won } else { &mut hopeless } += 1;
        if let Ok(tree) = tree {
            assert!(check(&plan, &tree).is_ok());
        }
    }
    assert!(won > 100 && hopeless > 100, "{won} {hopeless}");
}

#[test]
fn the_cut_changes_nothing() {
    let mut random = Random(4);
    let (mut won, mut hopeless) = (0, 0);
    for _ in 0..1000 {
        let plan = small_plan(&mut random, 4, 4, 14);
        let tree = exhaustive(&plan, 573);
        assert_eq!(tree, search(&plan, 573), "{plan:?}");
        *if tree.is_ok() { &mut won } else { &mut hopeless } += 1;
    }
    assert!(won > 200 && hopeless > 200, "{won} {hopeless}");
}

#[test]
fn random_trees_are_sound_in_shape() {
    let mut random = Random(3);
    for _ in 0..300 {
        let plan = small_plan(&mut random, 9, 8, 6);
        let tree = random_tree(&mut random, &plan, plan.all_points(), 0);
        assert!(tree.len() <= 573);
        assert!(!matches!(check(&plan, &tree), Err(SHAPE)), "{plan:?} {tree:?}");
    }
}
