//! Buffers in the making: their lengths around the limits, what would follow a cut one, and the guards of a case.

use crate::library::Case;
use reference::random::Random;

/// Bytes for a call, and those that would follow them had nothing been cut off.
#[derive(Clone, Debug, Default)]
pub struct Made {
    pub bytes: Vec<u8>,
    pub beyond: Vec<u8>,
}

impl From<Vec<u8>> for Made {
    fn from(bytes: Vec<u8>) -> Made {
        Made { bytes, beyond: Vec::new() }
    }
}

/// One case and the guards around each of its buffers.
pub struct Trial {
    pub case: Case,
    pub before: Vec<u8>,
    pub behind: Vec<u8>,
}

pub fn any_bytes(random: &mut Random, length: usize) -> Vec<u8> {
    (0..length).map(|_| random.mask(255)).collect()
}

/// The first `length` bytes; the others stand beyond.
pub fn cut(bytes: &[u8], length: usize) -> Made {
    let (bytes, beyond) = bytes.split_at(length);
    Made { bytes: bytes.to_vec(), beyond: beyond.to_vec() }
}

/// One past what two bytes can count.
pub const HUGE: usize = 65_536;

/// A length for a buffer that needs `needed`: mostly enough, often just so, one in ten too short or none; seldom huge.
pub fn length_about(random: &mut Random, needed: usize) -> usize {
    match random.below(24) {
        _ if random.one_in(150) => HUGE + random.below(needed + 1),
        _ if random.one_in(80) => 0,
        0 => needed - 1,
        1 => random.below(needed),
        2..=10 => needed,
        11 | 12 => needed + 1,
        13 | 14 => needed + random.below(2000),
        _ => needed + random.below(40),
    }
}

/// A lent buffer that needs `needed` bytes, filled with any bytes, or all zeros or ones now and then.
pub fn buffer(random: &mut Random, needed: usize) -> Vec<u8> {
    let length = length_about(random, needed);
    match random.below(12) {
        0 => vec![0; length],
        1 => vec![255; length],
        _ => any_bytes(random, length),
    }
}

/// A record as it is, or with bytes behind it, or cut short.
pub fn record(random: &mut Random, bytes: &[u8]) -> Made {
    match random.below(32) {
        _ if random.one_in(150) => cut(bytes, 0),
        0 => cut(bytes, bytes.len() - 1),
        1 => cut(bytes, random.below(bytes.len())),
        2 => [bytes, &any_bytes(random, 1)].concat().into(),
        3..=8 => {
            let more = if random.one_in(40) { HUGE - random.below(2) * bytes.len() } else { *random.pick(&[40, 2000]) };
            [bytes, &any_bytes(random, more)].concat().into()
        }
        _ => bytes.to_vec().into(),
    }
}

/// Guards of 64 bytes and a few more, so that buffers begin anywhere: any bytes, zeros, ones, or what was cut off a buffer.
pub fn trial(random: &mut Random, case: Case, beyond: &[&[u8]]) -> Trial {
    let odd = random.below(16);
    let before = any_bytes(random, 64 + odd);
    let front = random.pick(beyond).to_vec();
    let behind = match random.below(4) {
        0 if front.is_empty() => vec![255; 64],
        1 => vec![0; 64],
        2 => any_bytes(random, 64),
        _ => [front, any_bytes(random, 64)].concat(),
    };
    Trial { case, before, behind }
}
