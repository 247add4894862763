//! Document 01's K1 to K14 and its edges.

use reference::checker::check;
use reference::known::{k, K4_PLAN, K4_TREE};
use reference::plan::*;
use reference::run::{report, show, History, Told};
use reference::search::{program, search};
use reference::text::{read_plan, read_tree, refusal_line, write_plan, write_tree};
use reference::verdict::screen;

fn found(number: usize) -> Result<Vec<u8>, Refusal> {
    search(&k(number), 573)
}

#[test]
fn k1_to_k10() {
    assert_eq!(program(b"0103010000\n"), b"0401\n05000100\n");
    assert_eq!(program(K4_PLAN), K4_TREE);
    assert_eq!(found(1), Ok(vec![0, 1, 0]));
    assert_eq!(found(3), found(1));
    assert_eq!(found(4), Ok(vec![0, 1, 0, 2, 2, 0, 1, 2, 0]));
    assert_eq!(found(7), Ok(vec![0, 1, 0, 2, 2, 0]));
    assert_eq!(found(8), Ok(vec![0, 2, 0, 1, 1, 1]));
    assert_eq!(found(9), Ok(vec![0, 1, 0, 1, 2, 0, 1, 2, 2]));
    for hopeless in [2, 5, 6, 10] {
        assert_eq!(found(hopeless), Err(HOPELESS), "K{hopeless}");
    }
    assert_eq!((screen(&k(6)), screen(&k(8))), (Ok(true), Ok(false)));
}

#[test]
fn k11_to_k13() {
    assert!(check(&k(4), &[0, 1, 0, 2, 2, 0, 1, 2, 0]).is_ok());
    assert_eq!(check(&k(4), &[0, 1, 0, 1, 2, 0, 2, 2, 0]), Err(BROKEN));
    assert_eq!(check(&k(4), &[0, 1, 0, 0, 2, 0, 1, 2, 0]), Err(SHAPE));
    assert_eq!(check(&k(5), &[0, 1, 0, 2, 2, 0, 1, 2, 0]), Err(SHAPE));
}

#[test]
fn k14() {
    let (plan, tree) = (k(4), found(4).unwrap());
    let start = History::default();
    assert_eq!(report(&plan, &tree, &start, 2), (Err(MASK), start));
    let (answer, after_one) = report(&plan, &tree, &start, 1);
    assert_eq!(answer, Ok(()));
    assert_eq!(show(&plan, &tree, &after_one), Ok(Told::Instruct { slot: 1, points: 2, choices: 0 }));
    let (answer, after_two) = report(&plan, &tree, &after_one, 0);
    assert_eq!((answer, show(&plan, &tree, &after_two)), (Ok(()), Ok(Told::Done)));
    assert_eq!(after_two, History { count: 2, masks: [1, 0, 0, 0, 0, 0, 0, 0] });
    assert_eq!(report(&plan, &tree, &after_two, 0), (Err(AFTER_DONE), after_two));
    assert_eq!(report(&plan, &tree, &after_two, 255), (Err(AFTER_DONE), after_two));
}

#[test]
fn texts_come_back() {
    assert_eq!(read_plan(K4_PLAN), Ok(k(4)));
    assert_eq!(write_plan(&k(4), K4_PLAN.len()), Ok(K4_PLAN.to_vec()));
    assert_eq!(write_plan(&k(4), K4_PLAN.len() - 1), Err(BUFFER));
    let tree = read_tree(K4_TREE, 573).unwrap();
    assert_eq!(write_tree(&tree, K4_TREE.len()), Ok(K4_TREE.to_vec()));
    assert_eq!(write_tree(&tree, K4_TREE.len() - 1), Err(BUFFER));
    assert_eq!((read_tree(b"", 572), write_tree(&[], 0)), (Err(BUFFER), Err(SHAPE)));
    for number in 1..=10 {
        assert_eq!(Plan::from_bytes(&k(number).to_bytes()), k(number));
    }
}

#[test]
fn edges() {
    let with_bound = |bound: &str| program(format!("0100010001\n030000{bound}0000\n").as_bytes());
    assert_eq!(with_bound("03E7"), b"0401\n05000100\n");
    assert_eq!(with_bound("FC19"), refusal_line(HOPELESS));
    assert_eq!((with_bound("03E8"), with_bound("FC18")), (refusal_line(CONSTRAINT), refusal_line(CONSTRAINT)));
    for (head, fits) in [
        ("013F010000", true),
        ("0140010000", false),
        ("0100080000", true),
        ("0100090000", false),
        ("0100000000", false),
        ("0100060700", false),
        ("0100020300", false),
    ] {
        let answer = read_plan(format!("{head}\n").as_bytes());
        assert_eq!(answer.is_ok(), fits, "{head}");
        assert!(fits || answer == Err(HEAD), "{head}");
    }
}
