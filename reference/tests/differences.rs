//! The table of differences: K1 to K10, two ways to the same table, and what it says of the schedules themselves.

use reference::differences::{differences, schedules, table_by_lowering, Table};
use reference::known::k;
use reference::plan::*;
use reference::random::{random_plan, small_plan, Random};
use reference::verdict::{tiny, verdict};

/// A plan of any number of points, few enough schedules to look at each.
fn tiny_plan(random: &mut Random) -> Plan {
    loop {
        let (horizon, points) = (random.byte(0, 12), random.byte(1, 8));
        let (letters, constraints) = (random.byte(0, points.min(4)), random.byte(0, 2 * points));
        let plan = random_plan(random, horizon, points, letters, constraints);
        if tiny(&plan) {
            return plan;
        }
    }
}

/// The table in which only two points are used.
fn two_points(zero_to_one: i16, one_to_zero: i16) -> Table {
    let mut table = [[0; 8]; 8];
    (table[0][1], table[1][0]) = (zero_to_one, one_to_zero);
    table
}

#[test]
fn k1_to_k10() {
    let table = |number, mask| differences(&k(number), mask).unwrap();
    assert_eq!((table(1, 0), table(2, 0), table(3, 0)), (Some([[0; 8]; 8]), None, Some([[0; 8]; 8])));
    assert_eq!((table(4, 0), table(4, 1)), (Some(two_points(2, -2)), Some(two_points(1, 2))));
    assert_eq!((table(5, 0), table(5, 1)), (None, Some(two_points(1, 1))));
    assert_eq!((table(6, 0), table(6, 1)), (Some(two_points(63, -2)), Some(two_points(0, 63))));
    assert_eq!((table(7, 0), table(7, 1)), (Some(two_points(2, -2)), Some(two_points(0, 2))));
    assert_eq!((table(8, 0), table(8, 1)), (None, Some(two_points(0, 1))));
    for (number, late) in [(9, 1), (10, 0)] {
        let tables = [0, 1, 2, 3].map(|mask| table(number, mask));
        assert_eq!(tables, [Some(two_points(late, 1)), None, None, Some(two_points(late, 1))], "K{number}");
    }
}

#[test]
fn faulty_plans_come_before_faulty_masks() {
    let faulty = |change: fn(&mut Plan)| {
        let mut plan = k(9);
        change(&mut plan);
        [0, 255].map(|mask| differences(&plan, mask))
    };
    assert_eq!(faulty(|plan| plan.horizon = 64), [Err(HEAD); 2]);
    assert_eq!(faulty(|plan| plan.letter[5].kind = 1), [Err(LETTER); 2]);
    assert_eq!(faulty(|plan| plan.constraint[1].bound = 1000), [Err(CONSTRAINT); 2]);
    assert_eq!([4, 128, 255].map(|mask| differences(&k(9), mask)), [Err(MASK); 3]);
}

/// "X is forced strictly before Y exactly when row Y, column X is at most -1", of the schedules; how many pairs are.
fn forced(plan: &Plan, schedules: &[Schedule], table: &Table) -> usize {
    let points = plan.points as usize;
    let pairs = (0..points).flat_map(|x| (0..points).map(move |y| (x, y)));
    let before = |&(x, y): &(usize, usize)| {
        let before = schedules.iter().all(|schedule| schedule[x] < schedule[y]);
        assert_eq!(before, table[y][x] <= -1, "{plan:?} {x} {y}");
        before
    };
    pairs.filter(before).count()
}

/// Rows and columns of unused points are zero, and so is the diagonal.
fn zeros(plan: &Plan, table: &Table) -> bool {
    let used = |x: usize| x < plan.points as usize;
    let zero = |x: usize, y: usize| x == y || !used(x) || !used(y);
    (0..64).all(|i| !zero(i / 8, i % 8) || table[i / 8][i % 8] == 0)
}

/// The plans are tiny, so that `differences` looks at every schedule.
#[test]
fn the_methods_agree() {
    let mut random = Random(5);
    let (mut some, mut none, mut before) = (0, 0, 0);
    for _ in 0..2500 {
        let plan = tiny_plan(&mut random);
        for mask in masks_inside(plan.all_letters()) {
            let found = differences(&plan, mask).unwrap();
            assert_eq!(found, table_by_lowering(&plan, mask), "{plan:?} {mask}");
            assert_eq!(found.is_none(), verdict(&plan, mask).unwrap().is_none(), "{plan:?} {mask}");
            *if found.is_some() { &mut some } else { &mut none } += 1;
            if let Some(table) = found {
                assert!(zeros(&plan, &table), "{plan:?} {mask}");
                before += forced(&plan, &schedules(&plan, mask), &table);
            }
        }
    }
    assert!(some > 1000 && none > 1000 && before > 1000, "{some} {none} {before}");
}

/// By the verdict: some schedule has point Y as far behind point X as the table says, and none has it farther.
fn exact(plan: &Plan, mask: u8, table: &Table) -> bool {
    let apart = |x: u8, y: u8, least: i16| {
        let more = plan.with(Constraint { from: y, to: x, bound: -least, need: 0, truth: 0 });
        verdict(&more, mask).unwrap().is_some()
    };
    let mut pairs = (0..plan.points).flat_map(|x| (0..plan.points).map(move |y| (x, y)));
    pairs.all(|(x, y)| {
        let largest = table[x as usize][y as usize];
        apart(x, y, largest) && !apart(x, y, largest + 1)
    })
}

#[test]
fn larger_tables_are_exact() {
    let mut random = Random(6);
    let (mut some, mut none) = (0, 0);
    for _ in 0..1000 {
        let plan = small_plan(&mut random, 63, 8, 16);
        let mask = random.mask(plan.all_letters());
        let found = differences(&plan, mask).unwrap();
        assert_eq!(found.is_none(), verdict(&plan, mask).unwrap().is_none(), "{plan:?} {mask}");
        assert!(found.is_none_or(|table| zeros(&plan, &table) && exact(&plan, mask, &table)), "{plan:?} {mask}");
        *if found.is_some() { &mut some } else { &mut none } += 1;
    }
    assert!(some > 300 && none > 100, "{some} {none}");
}
