//! Plan texts and tree texts, good ones and damaged ones: faulty values, faulty frames, faulty bytes.

use crate::made::{any_bytes, cut, Made, HUGE};
use crate::plans::record_bytes;
use reference::plan::Plan;
use reference::random::Random;
use reference::text::line;

type Frames = Vec<Vec<u8>>;

fn text_of(frames: &Frames) -> Vec<u8> {
    frames.iter().flat_map(|frame| line(frame)).collect()
}

/// The frames that the record says, whether or not its values fit.
fn plan_frames(record: &[u8]) -> Frames {
    let mut frames = vec![[&[1], &record[..4]].concat()];
    for i in 0..record[2].min(6) {
        let at = 4 + 2 * i as usize;
        frames.push(vec![2, i, record[at], record[at + 1]]);
    }
    for i in 0..record[3].min(64) as usize {
        frames.push([&[3], &record[16 + 6 * i..22 + 6 * i]].concat());
    }
    frames
}

pub fn plan_text(plan: &Plan) -> Vec<u8> {
    text_of(&plan_frames(&plan.to_bytes()))
}

/// A plan's text, one in two of them good.
pub fn any_plan_text(random: &mut Random, plan: &Plan) -> Made {
    match random.below(16) {
        0..=6 => plan_text(plan).into(),
        7..=9 => {
            let frames = plan_frames(&record_bytes(random, plan));
            if random.one_in(3) {
                damaged_text(random, frames)
            } else {
                text_of(&frames).into()
            }
        }
        10 => wrong_in_both(random, plan_frames(&plan.to_bytes())).into(),
        _ => damaged_text(random, plan_frames(&plan.to_bytes())),
    }
}

/// One frame with a value out of its range and wrong in form as well: the form comes first.
fn wrong_in_both(random: &mut Random, mut frames: Frames) -> Vec<u8> {
    let chosen = if random.one_in(2) { 0 } else { random.below(frames.len()) };
    let (front, length) = (text_of(&frames[..chosen].to_vec()).len(), frames[chosen].len());
    frames[chosen][1 + random.below(length - 1)] = *random.pick(&[64, 128, 200, 255]);
    let mut text = text_of(&frames);
    line_end(random, &mut text, front);
    text
}

fn tree_frames(nodes: &[u8]) -> Frames {
    let mut frames = vec![vec![4, (nodes.len() / 3) as u8]];
    frames.extend(nodes.chunks_exact(3).map(|node| [&[5], node].concat()));
    frames
}

/// The text of a tree, or of any bytes as nodes, one in two of them good; among the others wrong counts.
pub fn any_tree_text(random: &mut Random, tree: &[u8]) -> Made {
    let nodes = match random.below(4) {
        0 => {
            let count = *random.pick(&[1, 2, 16, 100, 190, 191]);
            any_bytes(random, 3 * count)
        }
        _ => tree.to_vec(),
    };
    let mut frames = tree_frames(&nodes);
    match random.below(16) {
        0..=8 => text_of(&frames).into(),
        9 => {
            frames[0][1] =
                *random.pick(&[0, 191, 192, 255, frames[0][1].wrapping_sub(1), frames[0][1].wrapping_add(1)]);
            text_of(&frames).into()
        }
        10 => {
            let count = *random.pick(&[0, 192, 193, 255, 256, 257]);
            text_of(&tree_frames(&any_bytes(random, 3 * count))).into()
        }
        _ => damaged_text(random, frames),
    }
}

/// A text of these frames with a damage or two, cut, followed by something, or something else altogether.
fn damaged_text(random: &mut Random, mut frames: Frames) -> Made {
    match random.below(16) {
        0..=4 => {
            frame_damage(random, &mut frames);
            text_of(&frames).into()
        }
        5..=10 => {
            let mut text = text_of(&frames);
            (0..random.byte(1, 2)).for_each(|_| byte_damage(random, &mut text));
            text.into()
        }
        11 => {
            let text = text_of(&frames);
            cut(&text, random.below(text.len()))
        }
        12 => {
            let text = text_of(&frames);
            cut(&text, text.len() - 1)
        }
        13 | 14 => with_strays(random, &text_of(&frames)).into(),
        _ => {
            let length = *random.pick(&[0, 1, 5, 11, 1025, 1026, 5000]);
            any_text(random, length).into()
        }
    }
}

/// A frame changed, longer, shorter, missing, doubled, or exchanged with another.
fn frame_damage(random: &mut Random, frames: &mut Frames) {
    let (one, other) = (random.below(frames.len()), random.below(frames.len()));
    let place = random.below(frames[one].len());
    match random.below(8) {
        0 | 1 => frames[one][place] = *random.pick(&[0, 1, 2, 3, 4, 5, 6, 7, 8, 63, 64, 0x7F, 128, 255]),
        2 => frames[one].insert(place, 0),
        3 => drop(frames[one].remove(place)),
        4 => drop(frames.remove(one)),
        5 => frames.insert(one, frames[one].clone()),
        6 => frames.swap(one, other),
        _ => frames[one][0] = *random.pick(&[1, 2, 3, 4, 5, 0x7F]),
    }
}

/// Bytes that a reader may take for digits or line ends.
const TEMPTING: &[u8] = b"/:@G`afgz\r\n \0+-x0123456789ABCDEF\x7F\x80\xB0\xFF";

/// A byte of the text changed, missing, doubled or extra; digits in lower case; another end of line.
fn byte_damage(random: &mut Random, text: &mut Vec<u8>) {
    if text.is_empty() {
        return;
    }
    let place = random.below(text.len());
    match random.below(9) {
        0 => text[place] ^= 1 << random.byte(0, 7),
        1 => text[place] = *random.pick(TEMPTING),
        2 => drop(text.remove(place)),
        3 => text.insert(place, text[place]),
        4 => text.insert(place, *random.pick(TEMPTING)),
        5 => lower_case(text, place),
        6 => {
            *text = text.iter().flat_map(|&byte| if byte == b'\n' { vec![b'\r', b'\n'] } else { vec![byte] }).collect()
        }
        7 => line_end(random, text, place),
        _ => text[place] = random.mask(255),
    }
}

/// The next digit from this place on that is a capital, in lower case.
fn lower_case(text: &mut [u8], place: usize) {
    if let Some(digit) = text[place..].iter_mut().find(|byte| byte.is_ascii_uppercase()) {
        digit.make_ascii_lowercase();
    }
}

/// The next line feed from this place on replaced.
fn line_end(random: &mut Random, text: &mut Vec<u8>, place: usize) {
    if let Some(end) = (place..text.len()).find(|&i| text[i] == b'\n') {
        let instead: &[u8] = random.pick(&["\r\n", "\r", "\n\n", " \n", "", "\n\r"]).as_bytes();
        text.splice(end..end + 1, instead.iter().copied());
    }
}

/// Something behind the text, or before it: now and then several thousand bytes.
fn with_strays(random: &mut Random, text: &[u8]) -> Vec<u8> {
    let stray: Vec<u8> = match random.below(10) {
        0 => b"\n".to_vec(),
        1 => b"\0".to_vec(),
        2 => b"0".to_vec(),
        3 => text.to_vec(),
        4 => text[text.len() - text.len().min(9)..].to_vec(),
        5 => b"03000000000000\n".repeat(1 + random.below(300)),
        6 => b"05000100\n".repeat(1 + random.below(300)),
        7 | 8 => b"0".repeat(HUGE),
        _ => any_bytes(random, 4000),
    };
    if random.one_in(4) {
        [&stray[..], text].concat()
    } else {
        [text, &stray].concat()
    }
}

/// Any bytes, or any digits and line feeds.
fn any_text(random: &mut Random, length: usize) -> Vec<u8> {
    if random.one_in(2) {
        any_bytes(random, length)
    } else {
        (0..length).map(|_| *random.pick(b"0123456789ABCDEF\n")).collect()
    }
}
