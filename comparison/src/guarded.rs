//! Bytes inside a larger allocation with guard bytes around them, and bytes as digits.

/// `length` bytes from `start` on are lent; those before and behind them are guards.
pub struct Guarded {
    all: Vec<u8>,
    start: usize,
    length: usize,
}

impl Guarded {
    pub fn new(before: &[u8], bytes: &[u8], behind: &[u8]) -> Guarded {
        Guarded { all: [before, bytes, behind].concat(), start: before.len(), length: bytes.len() }
    }

    pub fn lent(&mut self) -> &mut [u8] {
        &mut self.all[self.start..self.start + self.length]
    }

    /// Where the allocation is not `before`, `bytes`, `behind` any more: the first such place in words.
    pub fn difference(&self, before: &[u8], bytes: &[u8], behind: &[u8]) -> Option<String> {
        let expected = [before, bytes, behind].concat();
        assert_eq!(expected.len(), self.all.len(), "a buffer keeps its length");
        let place = (0..expected.len()).find(|&i| expected[i] != self.all[i])?;
        let (end, byte) = (self.start + self.length, format!("{:02X}, not {:02X}", self.all[place], expected[place]));
        Some(match place {
            _ if place < self.start => format!("the byte {} before it is {byte}", self.start - place),
            _ if place >= end => format!("the byte {} behind its end is {byte}", place - end),
            _ => format!("byte {} of {} is {byte}", place - self.start, self.length),
        })
    }
}

pub fn digits(bytes: &[u8]) -> String {
    bytes.iter().map(|byte| format!("{byte:02X}")).collect()
}

/// The bytes that pairs of digits say.
pub fn hex(digits: &str) -> Vec<u8> {
    assert!(digits.len().is_multiple_of(2), "two digits to a byte");
    (0..digits.len()).step_by(2).map(|i| u8::from_str_radix(&digits[i..i + 2], 16).expect("two digits")).collect()
}
