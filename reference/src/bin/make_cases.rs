//! Writes the case files and what they must print: `make_cases FOLDER` writes `FOLDER/data/*.cases` and
//! `FOLDER/stdout`; `make_cases FOLDER --check` compares instead and exits 1 on a difference.
//!
//! A file is the fixed cases of the same name in `hand/`, if any, and behind them the ones made here.

use reference::cases::{answers, exchange, hex};
use reference::checker::{check, parse, Node};
use reference::known::{k, K4_PLAN, K4_TREE};
use reference::plan::*;
use reference::random::*;
use reference::run::{report, History};
use reference::search::search;
use reference::text::{line, read_plan, write_plan, write_tree};
use std::path::Path;
use std::process::ExitCode;

/// The longest a case file may be.
const LONGEST: usize = 65_536;

/// A case file in the making.
struct Cases(Vec<u8>);

impl Cases {
    fn line(&mut self, call: u8, given: &[u8]) {
        assert!(!given.contains(&b'\n'));
        self.0.push(call);
        if !b"csi".contains(&call) {
            self.0.push(b' ');
        }
        self.0.extend(given);
        self.0.push(b'\n');
    }

    fn note(&mut self, words: &str) {
        self.line(b'#', words.as_bytes());
    }

    fn hex(&mut self, call: u8, bytes: &[u8]) {
        self.line(call, hex(bytes).as_bytes());
    }

    /// A text as it is, for `p` or `t`.
    fn text(&mut self, call: u8, text: &[u8]) {
        assert!(!text.contains(&b'|'));
        self.line(call, &exchange(text, b'\n', b'|'));
    }

    fn plan(&mut self, plan: &Plan) {
        self.text(b'p', &write_plan(plan, 1025).expect("a well-formed plan"));
    }

    fn tree(&mut self, tree: &[u8]) {
        self.text(b't', &write_tree(tree, 1724).expect("a tree's length"));
    }

    /// A record that may be faulty: some of the plan's 400 bytes replaced, and no zeros at the end.
    fn record(&mut self, plan: &Plan, patches: &[(usize, u8)]) {
        let mut bytes = plan.to_bytes();
        patches.iter().for_each(|&(place, value)| bytes[place] = value);
        let used = bytes.iter().rposition(|&byte| byte != 0).map_or(1, |last| last + 1);
        self.hex(b'r', &bytes[..used]);
    }

    /// These bytes as the tree, checked.
    fn checked(&mut self, tree: &[u8]) {
        self.hex(b'b', tree);
        self.line(b'c', b"");
    }

    fn show_at(&mut self, history: &History) {
        self.hex(b'h', &[&[history.count], &history.masks[..]].concat());
    }

    fn verdicts(&mut self, plan: &Plan, masks: impl IntoIterator<Item = u8>) {
        self.plan(plan);
        masks.into_iter().for_each(|mask| self.hex(b'm', &[mask]));
    }

    fn tables(&mut self, plan: &Plan, masks: impl IntoIterator<Item = u8>) {
        self.plan(plan);
        masks.into_iter().for_each(|mask| self.hex(b'd', &[mask]));
    }

    fn screened(&mut self, plan: &Plan) {
        self.plan(plan);
        self.line(b's', b"");
    }
}

// ---- plans and trees ----

/// Six letters, seven points, and eight constraints on many labels.
fn six_letters() -> Plan {
    let letters = "0106070608|02000500|02010401|02020300|02030201|02040100|02050001|";
    let rows = "030100FFFF0101|030201FFFE0302|030302FFFF0C0C|030403FFFF1000|";
    let more = "030504FFFD3020|03000500042121|030600FFFE0400|03010600013F2A|";
    read_plan(&exchange((letters.to_owned() + rows + more).as_bytes(), b'|', b'\n')).expect("a well-formed plan")
}

/// Faults for that plan's record: of the head, of a letter, of a constraint, and so on; last of several at once.
#[rustfmt::skip]
const FAULTS: [&[(usize, u8)]; 14] = [
    &[(0, 64)], &[(15, 2)], &[(60, 3), (61, 0xE8)], &[(1, 9)], &[(4, 4)], &[(63, 0x40)], &[(2, 7)], &[(10, 7)], &[(3, 7)],
    &[(3, 65)], &[(2, 5)], &[(17, 7)], &[(0, 255), (5, 9), (16, 9)], &[(5, 9), (16, 9)],
];

/// The plan with the longest text: six letters, 64 constraints, every field in use.
fn longest_plan() -> Plan {
    let bare = Plan { horizon: 63, points: 8, constraints: 0, constraint: Plan::zero().constraint, ..six_letters() };
    (0..64).fold(bare, |plan, i| {
        let bound = if i % 2 == 0 { 999 - i as i16 } else { i as i16 - 999 };
        plan.with(Constraint { from: i % 8, to: 7 - i % 8, bound, need: i, truth: i & 0x2A })
    })
}

/// Six conditions heard one by one, then two points in turn: the most nodes that a tree can have. Only where all
/// conditions are true must point 7 follow point 6 at once.
fn widest() -> (Plan, Vec<u8>) {
    let mut plan = Plan { horizon: 9, points: 8, letters: 6, ..Plan::zero() };
    (0..6).for_each(|i| plan.letter[i].point = i as u8);
    for to in 0..7 {
        plan = plan.with(Constraint { from: to + 1, to, bound: -1, need: 0, truth: 0 });
    }
    plan = plan.with(Constraint { from: 6, to: 7, bound: 1, need: 0x3F, truth: 0x3F });
    let tree = search(&plan, 573).expect("a tree");
    assert_eq!(tree.len(), 573);
    (plan, tree)
}

/// A random small plan with a tree of three nodes or more, as the search finds it.
fn winnable(random: &mut Random) -> (Plan, Vec<u8>) {
    loop {
        let plan = small_plan(random, 4, 4, 9);
        match search(&plan, 573) {
            Ok(tree) if tree.len() >= 9 => return (plan, tree),
            _ => {}
        }
    }
}

/// A random tree of at most `longest` bytes, and a plan whose constraints it keeps, most of them just so.
fn fitted(random: &mut Random, horizon: u8, points: u8, constraints: u8, longest: usize) -> (Plan, Vec<u8>) {
    loop {
        let letters = random.byte(0, points.min(6));
        let plan = bare_plan(random, horizon, points, letters);
        let tree = random_tree(random, &plan, plan.all_points(), 0);
        if tree.len() <= longest {
            return (fit(random, &plan, &tree, constraints), tree);
        }
    }
}

// ---- texts ----

/// Every text with one character wrong, gone or twice.
fn spoilt_characters(f: &mut Cases, call: u8, name: &str, text: &[u8], wrong: &[u8]) {
    let at = |i: usize, bytes: &[u8]| [&text[..i], bytes, &text[i + 1..]].concat();
    f.note(&format!("every proper prefix of K4's {name} text, the empty one first"));
    (0..text.len()).for_each(|i| f.text(call, &text[..i]));
    f.note(&format!("each byte of K4's {name} text replaced by bytes beside the digits, line ends, 0, 255; then by F"));
    for (i, was) in text.iter().enumerate() {
        wrong.iter().filter(|&byte| byte != was).for_each(|&byte| f.text(call, &at(i, &[byte])));
    }
    f.note(&format!("each byte of K4's {name} text left out or, at odd places, there twice"));
    (0..text.len()).for_each(|i| f.text(call, &at(i, &[text[i]; 2][..2 * (i % 2)])));
}

/// Every text with one frame gone, twice, exchanged with the next, or ended in another way; then with strays.
fn spoilt_frames(f: &mut Cases, call: u8, name: &str, text: &[u8]) {
    let frames: Vec<&[u8]> = text.split_inclusive(|&byte| byte == b'\n').collect();
    f.note(&format!("K4's {name} text: each frame missing, doubled, behind its successor; ended by 0D 0A, 0D, 0A 0A, 20 0A, nothing"));
    for (i, frame) in frames.iter().enumerate() {
        let instead = |some: &[&[u8]], behind: usize| [&frames[..i], some, &frames[i + behind..]].concat().concat();
        f.text(call, &instead(&[], 1));
        f.text(call, &instead(&[frame, frame], 1));
        frames.get(i + 1).iter().for_each(|next| f.text(call, &instead(&[next, frame], 2)));
        for end in ["\r\n", "\r", "\n\n", " \n", ""] {
            f.text(call, &instead(&[&frame[..frame.len() - 1], end.as_bytes()], 1));
        }
    }
    f.note(&format!("K4's {name} text with something behind it, and before it"));
    let strays: [&[u8]; 10] =
        [b"\n", b"\r", b"0", b"\0", b"\xFF", b"0103010000\n", b"02010100\n", b"0401\n", b"05000100\n", text];
    for stray in strays {
        f.text(call, &[text, stray].concat());
        f.text(call, &[stray, text].concat());
    }
}

fn texts(f: &mut Cases) {
    spoilt_characters(f, b'p', "plan", K4_PLAN, b"/:@Ga\r \0\xFF\nF");
    spoilt_frames(f, b'p', "plan", K4_PLAN);
    spoilt_characters(f, b't', "tree", K4_TREE, b"/Gf\0\xFF\nF");
    spoilt_frames(f, b't', "tree", K4_TREE);
    f.note("the longest plan text, 1,025 bytes; a byte more; its last line feed missing; its last bound 03E8, also with a byte more");
    let text = write_plan(&longest_plan(), 1025).expect("a well-formed plan");
    let spoilt = [&text[..1016], b"03E83F2A\n"].concat();
    assert!(text.len() == 1025 && spoilt.len() == 1025);
    for text in [&text[..], &[&text[..], b"0"].concat(), &text[..1024], &spoilt, &[&spoilt[..], b"0"].concat()] {
        f.text(b'p', text);
    }
    f.note("the longest tree text, 1,724 bytes; its last frame missing; 192 nodes");
    let text = write_tree(&widest().1, 1724).expect("a tree's length");
    assert_eq!(text.len(), 1724);
    f.text(b't', &text);
    f.text(b't', &text[..1715]);
    f.text(b't', &[&line(&[4, 192]), &text[5..], &line(&[5, 0, 1, 0])].concat());
    f.note("random trees of sound shape with plans that they keep, seed 11");
    let mut random = Random(11);
    for i in 1..=8 {
        let (plan, tree) = fitted(&mut random, 7 * i, i, i / 2, 45);
        f.plan(&plan);
        f.tree(&tree);
    }
}

// ---- records ----

fn records(f: &mut Cases) {
    let (six, zero) = (six_letters(), Plan::zero());
    f.note(
        "document 01, K1 to K10; the plan with the longest text; all zero; a horizon only; one point and nothing else",
    );
    (1..=10).for_each(|number| f.record(&k(number), &[]));
    f.record(&longest_plan(), &[]);
    [&[][..], &[(0, 63)], &[(1, 1)]].iter().for_each(|patches| f.record(&zero, patches));
    f.note("a plan with six letters, seven points, eight constraints; each head value, in it and in K3, at its limits and past them");
    f.record(&six, &[]);
    let limits: [&[u8]; 4] =
        [&[0, 63, 64, 128, 255], &[0, 1, 5, 6, 8, 9, 255], &[0, 1, 5, 7, 8, 255], &[0, 1, 7, 9, 64, 65, 255]];
    for (place, value) in (0..4).flat_map(|place| limits[place].iter().map(move |&value| (place, value))) {
        f.record(&six, &[(place, value)]);
        f.record(&k(3), &[(place, value)]);
    }
    f.note("each letter's point and kind at their limits and past them; points taken twice");
    for place in 4..16 {
        let values: &[u8] = if place % 2 == 0 { &[0, 3, 5, 6, 7, 255] } else { &[0, 1, 2, 255] };
        values.iter().for_each(|&value| f.record(&six, &[(place, value)]));
    }
    f.note(
        "K9: each constraint's points, bound (999, 1000, -999, -1000, 32767, -32768, 0, 255, 256, -256), need and true",
    );
    for at in [16, 22, 28] {
        for (place, point) in
            [(at, 0), (at, 1), (at, 2), (at, 255), (at + 1, 0), (at + 1, 1), (at + 1, 2), (at + 1, 255)]
        {
            f.record(&k(9), &[(place, point)]);
        }
        for bound in [999, 1000, -999, -1000, 32767, -32768, 0, 255, 256, -256i16] {
            let [high, low] = bound.to_be_bytes();
            f.record(&k(9), &[(at + 2, high), (at + 3, low)]);
        }
        for (need, truth) in
            [(0, 0), (0, 1), (1, 1), (1, 2), (3, 3), (2, 3), (4, 0), (4, 4), (128, 0), (3, 128), (255, 255)]
        {
            f.record(&k(9), &[(at + 4, need), (at + 5, truth)]);
        }
    }
    f.note("an unused letter that is not zero, at each index under each count");
    for (letters, i) in (0..6).flat_map(|letters| (letters..6).map(move |i| (letters, i))) {
        let mut plan = Plan { horizon: 9, points: 8, letters: letters as u8, ..zero };
        (0..letters).for_each(|j| plan.letter[j] = Letter { point: j as u8, kind: 1 });
        f.record(&plan, &[(4 + 2 * i + i % 2, 7 - 6 * (i % 2) as u8)]);
    }
    f.note("an unused constraint that is not zero, at each index, its six bytes in turn; then in and behind the longest plan");
    (0..64).for_each(|i| f.record(&k(1), &[(16 + 6 * i + i % 6, 1)]));
    let last: [&[(usize, u8)]; 3] = [&[(3, 63)], &[(3, 65)], &[(396, 0xFC), (397, 0x18)]];
    last.iter().for_each(|patches| f.record(&longest_plan(), patches));
    f.note("one fault and several at once: 2 before 3 before 4, wherever they stand; every byte 255");
    let several: [&[(usize, u8)]; 4] =
        [&[(18, 127), (15, 2)], &[(18, 127), (2, 5)], &[(18, 127), (3, 255), (5, 7)], &[(2, 255), (5, 7)]];
    FAULTS.iter().chain(&several).for_each(|faults| f.record(&six, faults));
    f.record(&zero, &[(1, 1), (14, 1), (399, 1)]);
    f.record(&zero, &[(0, 64), (1, 1), (399, 1)]);
    f.hex(b'r', &[255; 400]);
    f.note("random plans with up to three bytes spoilt, seed 21");
    let mut random = Random(21);
    for _ in 0..60 {
        let plan = small_plan(&mut random, 63, 8, 6);
        let mut patches = vec![];
        for _ in 0..random.byte(0, 3) {
            patches.push((random.byte(0, 51) as usize, *random.pick(&[0, 1, 2, 5, 6, 7, 8, 9, 63, 64, 65, 255])));
        }
        f.record(&plan, &patches);
    }
}

// ---- checks ----

/// The tree with the children of its first branching node exchanged.
fn exchanged(node: &Node) -> Node {
    let mut node = node.clone();
    match &mut node.children[..] {
        [only] => *only = exchanged(only),
        children => children.reverse(),
    }
    node
}

const DAMAGES: &str =
    "children exchanged; all slots one later; one slot one later; one slot one earlier; one slot past \
    the horizon; a choice turned; a choice of a condition or of a letter not disclosed; a point missing; a point more; \
    no points; a point outside the plan; last node dropped; last node doubled; first node dropped; two nodes \
    exchanged; a bit flipped; a byte short; a byte more";

type Change<'a> = &'a dyn Fn(&mut Vec<u8>);

/// The damages of that list, in its order, each at a random node. Some may leave the tree as it is.
fn damaged(random: &mut Random, plan: &Plan, tree: &[u8]) -> Vec<Vec<u8>> {
    let (nodes, lowest) = (tree.len() / 3, |mask: u8| mask & mask.wrapping_neg());
    let (at, other) = (3 * random.below(nodes), 3 * random.below(nodes));
    let (place, bit) = (random.below(tree.len()), 1 << random.byte(0, 7));
    let choice = 1 << random.byte(0, 5) | lowest(plan.disclosed(tree[at + 1], CONDITION));
    let changes: [Change; 18] = [
        &|t| *t = exchanged(&parse(plan, t).expect("a tree of sound shape")).to_bytes(),
        &|t| (0..nodes).for_each(|i| t[3 * i] += 1),
        &|t| t[at] += 1,
        &|t| t[at] = t[at].wrapping_sub(1),
        &|t| t[at] = plan.horizon + 1,
        &|t| t[at + 2] ^= lowest(plan.disclosed(t[at + 1], DECISION)),
        &|t| t[at + 2] |= choice,
        &|t| t[at + 1] &= t[at + 1] - 1,
        &|t| t[at + 1] |= t[other + 1],
        &|t| t[at + 1] = 0,
        &|t| t[at + 1] |= !plan.all_points() & 0x90,
        &|t| t.truncate(3 * nodes - 3),
        &|t| t.extend_from_within(3 * nodes - 3..),
        &|t| drop(t.drain(..3)),
        &|t| (0..3).for_each(|i| t.swap(at + i, other + i)),
        &|t| t[place] ^= bit,
        &|t| t.truncate(3 * nodes - 1),
        &|t| t.push(0),
    ];
    let damage = |change: &Change| {
        let mut bytes = tree.to_vec();
        change(&mut bytes);
        bytes
    };
    changes.iter().map(damage).collect()
}

fn checks(f: &mut Cases) {
    f.note("under the last plan above: lengths 0, 1, 2, 4, 573, 575, 576, 600");
    [0, 1, 2, 4, 573, 575, 576, 600].iter().for_each(|&length| f.checked(&vec![1; length]));
    f.note("191 nodes; the first, then the last leaf one slot later; a leaf with two points; a node less; a node more");
    let (plan, tree) = widest();
    f.plan(&plan);
    f.checked(&tree);
    for (at, value) in [(21, 8), (570, 8), (571, 0xC0)] {
        f.checked(&[&tree[..at], &[value], &tree[at + 1..]].concat());
    }
    f.checked(&tree[..570]);
    f.checked(&[&tree[..], &[7, 128, 0]].concat());
    f.note("a faulty plan beside a tree that is good without the fault, a tree of bad shape, none: 2, 3 or 4 first");
    for (i, faults) in FAULTS.iter().enumerate() {
        f.record(&six_letters(), faults);
        f.checked([&[0, 0x7F, 0][..], &[0, 0, 0], &[]][i / 3 % 3]);
    }
    f.note("K4 with a fault beside its tree; then a refused text, which leaves the plan all zero");
    f.text(b't', K4_TREE);
    for faults in [(5, 2), (15, 1), (26, 3), (261, 1), (1, 9), (3, 200)] {
        f.record(&k(4), &[faults]);
        f.line(b'c', b"");
    }
    f.text(b'p', &K4_PLAN[..49]);
    f.line(b'c', b"");
    f.note("random plans, seed 31: the tree that the search finds; then every second one of these damages:");
    f.note(DAMAGES);
    let mut random = Random(31);
    for i in 0..24 {
        let (plan, tree) = winnable(&mut random);
        f.plan(&plan);
        f.tree(&tree);
        f.line(b'c', b"");
        let bad = damaged(&mut random, &plan, &tree);
        bad.iter().skip(i % 2).step_by(2).filter(|&bytes| *bytes != tree).for_each(|bytes| f.checked(bytes));
    }
    f.note(
        "random trees of sound shape with plans that they keep, seed 32: the tree; its first, second, third and sixth",
    );
    f.note("damage; another tree; the first tree again, one of the plan's bounds one less, twice");
    let mut random = Random(32);
    for i in 0..26 {
        let (plan, tree) = fitted(&mut random, 6 + 2 * i, 4 + i % 5, 3 + i % 4, 75);
        f.plan(&plan);
        f.checked(&tree);
        let bad = damaged(&mut random, &plan, &tree);
        [0, 1, 2, 5].iter().filter(|&&i| bad[i] != tree).for_each(|&i| f.checked(&bad[i]));
        f.checked(&random_tree(&mut random, &plan, plan.all_points(), 0));
        for _ in 0..2 {
            let mut tighter = plan;
            tighter.constraint[random.byte(0, plan.constraints - 1) as usize].bound -= 1;
            f.plan(&tighter);
            f.checked(&tree);
        }
    }
}

// ---- runs ----

/// One crew's walk: wrong reports, then a good one, until done; then two further. The history at the end.
fn walk(f: &mut Cases, random: &mut Random, plan: &Plan, tree: &[u8]) -> History {
    let root = check(plan, tree).expect("a good tree");
    let mut history = History::default();
    f.show_at(&history);
    loop {
        let masks = &history.masks[..history.count as usize];
        let node = masks.iter().try_fold(&root, |node, &mask| node.child(mask));
        let heard = node.map_or(0, |node| node.heard);
        let stray = 1 << random.byte(0, 7);
        let (any, good) = (random.mask(plan.all_letters()) | random.mask(stray), random.mask(heard));
        let wrong = [any, 255].into_iter().filter(|&mask| !inside(mask, heard) && !random.one_in(3));
        wrong.chain([good]).for_each(|mask| f.hex(b'o', &[mask]));
        f.line(b'i', b"");
        history = report(plan, tree, &history, good).1;
        if node.is_none() {
            f.hex(b'o', &[255]);
            return history;
        }
    }
}

/// The finished history with something wrong or short, each shown, some reported to as well.
fn odd_histories(f: &mut Cases, random: &mut Random, done: &History) {
    let count = done.count as usize;
    let (at, unused, bit) = (random.below(count), random.below(8), 1 << random.byte(0, 7));
    let odd: [&dyn Fn(&mut History); 13] = [
        &|h| h.count = 9,
        &|h| h.count = 255,
        &|h| h.count = 8,
        &|h| h.count -= 1,
        &|h| h.count += (count < 8) as u8,
        &|h| {
            h.count = at as u8;
            h.masks[at..].fill(0)
        },
        &|h| h.masks[at] ^= bit,
        &|h| h.masks[unused] ^= bit,
        &|h| (h.count, h.masks[count % 8]) = (8, bit),
        &|h| (h.masks[at], h.masks[7]) = (0xC0, 1),
        &|h| (h.count, h.masks[at], h.masks[7]) = (8, 0x40, 0x80),
        &|h| (h.count, h.masks) = (0, [0, 0, 0, 0, 0, 0, 0, 1]),
        &|h| (h.count, h.masks) = (8, [255; 8]),
    ];
    for change in odd {
        let mut history = *done;
        change(&mut history);
        f.show_at(&history);
        if random.one_in(2) {
            f.hex(b'o', &[*random.pick(&[0, 0, 1, 255])]);
        }
    }
}

/// Showing and reporting at the first history and at a malformed one.
const CALLS: &[u8] = b"h 000000000000000000\no 00\nh 090707070707070707\no FF\n";

fn crew(f: &mut Cases, random: &mut Random, (plan, tree): (Plan, Vec<u8>), faulty: bool) {
    f.plan(&plan);
    f.tree(&tree);
    let done = walk(f, random, &plan, &tree);
    odd_histories(f, random, &done);
    walk(f, random, &plan, &tree);
    if faulty {
        let bad = damaged(random, &plan, &tree);
        for damage in [0, 1, 9, 11, 16] {
            f.hex(b'b', &bad[damage]);
            f.0.extend(CALLS);
        }
        f.tree(&tree);
        // A faulty head, letter and constraint; then a self-loop that no tree keeps.
        for fault in [(0, 64), (15, 2), (394, 8)] {
            f.record(&plan, &[fault]);
            f.0.extend(CALLS);
        }
        f.plan(&plan.with(Constraint { bound: -1, ..Constraint::default() }));
        f.0.extend(CALLS);
    }
}

fn runs(f: &mut Cases) {
    let mut random = Random(41);
    f.note("the tree of 191 nodes, seed 41: walks of eight reports, odd histories");
    crew(f, &mut random, widest(), false);
    f.note("random plans and the trees that the search finds, seed 41 going on: a walk with wrong reports, two reports after done;");
    f.note("odd histories (count 9, 255, unused masks, a bad mask inside, masks after done); each fourth beside faulty trees and plans");
    for i in 0..20 {
        let found = winnable(&mut random);
        crew(f, &mut random, found, i % 4 == 0);
    }
    f.note("random trees of sound shape with plans that they keep, seed 42, in the same way");
    let mut random = Random(42);
    for i in 0..24 {
        let made = fitted(&mut random, 8 + i, 4 + i % 5, 3, 100);
        crew(f, &mut random, made, i % 4 == 0);
    }
}

// ---- verdicts and screens ----

fn verdicts(f: &mut Cases) {
    f.note("six letters and constraints on many labels: every mask from 00 to 3F, then 40, 80, FF");
    for horizon in [6, 4, 63] {
        f.verdicts(&Plan { horizon, ..six_letters() }, (0..=0x3F).chain([0x40, 0x80, 0xFF]));
    }
    f.note("random plans with 8 points, 6 letters, seed 51: every mask from 00 to 3F");
    let mut random = Random(51);
    for constraints in [16, 24, 40, 64] {
        f.verdicts(&random_plan(&mut random, 63, 8, 6, constraints), 0..=0x3F);
    }
    f.note("random small plans, seed 51 going on: every mask, then one that names a letter the plan lacks");
    for _ in 0..60 {
        let plan = small_plan(&mut random, 9, 6, 18);
        f.verdicts(&plan, masks_inside(plan.all_letters()).chain([1 << plan.letters]));
    }
    f.note("random larger plans, seed 51 going on: all false, all true, a random mask, any byte");
    for _ in 0..40 {
        let plan = small_plan(&mut random, 63, 8, 20);
        f.verdicts(&plan, [0, plan.all_letters(), random.mask(plan.all_letters()), random.mask(255)]);
    }
    f.note("faulty records: 2, 3, 4 come before 8");
    for faults in FAULTS {
        f.record(&six_letters(), faults);
        [0, 255].iter().for_each(|&mask| f.hex(b'm', &[mask]));
    }
}

fn screens(f: &mut Cases) {
    f.note("six letters: a self-loop of -1 that holds at one setting only, each in turn, the first and the last among them");
    let bare = Plan { constraints: 0, constraint: Plan::zero().constraint, ..six_letters() };
    let loops = |i| Constraint { from: i % 7, to: i % 7, bound: -1, need: 0x3F, truth: i };
    (0..64).for_each(|i| f.screened(&bare.with(loops(i))));
    f.note("six letters and constraints on many labels, under horizons 0 to 9 and 63");
    (0..10).chain([63]).for_each(|horizon| f.screened(&Plan { horizon, ..six_letters() }));
    f.note("the longest plan; random plans with 8 points, 6 letters, seed 61");
    f.screened(&longest_plan());
    let mut random = Random(61);
    for constraints in [4, 8, 12, 16, 24, 32, 64] {
        f.screened(&random_plan(&mut random, 63, 8, 6, constraints));
    }
    f.note("random plans, seed 61 going on");
    (0..120).for_each(|_| f.screened(&small_plan(&mut random, 12, 6, 12)));
    f.note("faulty records");
    for faults in FAULTS {
        f.record(&six_letters(), faults);
        f.line(b's', b"");
    }
}

// ---- tables of differences ----

fn differences(f: &mut Cases) {
    f.note("six letters and constraints on many labels, under the horizons 6, 63; the longest plan");
    for horizon in [6, 63] {
        f.tables(&Plan { horizon, ..six_letters() }, [0x00, 0x01, 0x15, 0x2A, 0x3F, 0x40]);
    }
    f.tables(&longest_plan(), [0, 0x3F]);
    f.note("random small plans, seed 71: all false, all true, a random mask, one that names a letter the plan lacks");
    let mut random = Random(71);
    for _ in 0..20 {
        let plan = small_plan(&mut random, 9, 6, 10);
        let all = plan.all_letters();
        f.tables(&plan, [0, all, random.mask(all), 1 << plan.letters]);
    }
    f.note("plans that some tree keeps, seed 71 going on, the horizon 63 at the last: all false, all true, two random masks");
    for i in 1..=21 {
        let (plan, _) = fitted(&mut random, 3 * i, 8 - i % 4, 6 + i % 7, 200);
        let all = plan.all_letters();
        f.tables(&plan, [0, all, random.mask(all), random.mask(all)]);
    }
    f.note("random larger plans, seed 71 going on: all false, all true, a random mask, any byte");
    for _ in 0..16 {
        let plan = small_plan(&mut random, 63, 8, 16);
        f.tables(&plan, [0, plan.all_letters(), random.mask(plan.all_letters()), random.mask(255)]);
    }
    f.note("faulty records: 2, 3, 4 come before 8");
    for faults in FAULTS {
        f.record(&six_letters(), faults);
        f.hex(b'd', &[255]);
    }
}

// ---- the files ----

type Maker = fn(&mut Cases);
const FILES: [(&str, &[u8], Maker); 7] = [
    ("texts", include_bytes!("../../hand/texts.cases"), texts),
    ("records", b"", records),
    ("checks", include_bytes!("../../hand/checks.cases"), checks),
    ("runs", include_bytes!("../../hand/runs.cases"), runs),
    ("verdicts", include_bytes!("../../hand/verdicts.cases"), verdicts),
    ("screens", include_bytes!("../../hand/screens.cases"), screens),
    ("differences", include_bytes!("../../hand/differences.cases"), differences),
];

/// Each file's name and bytes, the expected output last.
fn files() -> Vec<(String, Vec<u8>)> {
    let (mut files, mut stdout) = (Vec::new(), Vec::new());
    for (name, hand, make) in FILES {
        let mut cases = Cases(hand.to_vec());
        make(&mut cases);
        assert!(cases.0.len() <= LONGEST, "{name} is {} bytes", cases.0.len());
        stdout.extend(answers(&cases.0));
        files.push((format!("data/{name}.cases"), cases.0));
    }
    files.push(("stdout".to_string(), stdout));
    files
}

fn main() -> ExitCode {
    let arguments: Vec<String> = std::env::args().skip(1).collect();
    let (folder, compare) = match &arguments[..] {
        [folder] => (Path::new(folder), false),
        [folder, option] if option == "--check" => (Path::new(folder), true),
        _ => {
            eprintln!("usage: make_cases FOLDER [--check]");
            return ExitCode::from(2);
        }
    };
    let mut answer = ExitCode::SUCCESS;
    for (name, bytes) in files() {
        let path = folder.join(&name);
        if !compare {
            std::fs::create_dir_all(path.parent().expect("a folder")).expect("a folder to write to");
            std::fs::write(&path, &bytes).expect("a file to write to");
        } else if std::fs::read(&path).ok() != Some(bytes) {
            println!("{name} differs");
            answer = ExitCode::FAILURE;
        }
    }
    answer
}
