//! Frames: hexadecimal digits, one frame read and written.

/// The value of a digit, 0-9 or A-F in upper case.
fn digit(c: u8) -> Option<u8> {
    match c {
        b'0'..=b'9' => Some(c - b'0'),
        b'A'..=b'F' => Some(c - b'A' + 10),
        _ => None,
    }
}

/// The digit of a value below 16.
fn hex_digit(v: u8) -> u8 {
    if v < 10 {
        b'0' + v
    } else {
        b'A' + v - 10
    }
}

/// The length of the line of a frame.
pub const fn line_length(bytes: usize) -> usize {
    2 * bytes + 1
}

/// Takes a whole frame of N bytes and this kind off the front of the text; the text stays where there is none.
pub fn take<const N: usize>(text: &mut &[u8], kind: u8) -> Option<[u8; N]> {
    let (line, rest) = text.split_at_checked(line_length(N))?;
    let mut frame = [0; N];
    for (byte, pair) in frame.iter_mut().zip(line.chunks_exact(2)) {
        *byte = 16 * digit(pair[0])? + digit(pair[1])?;
    }
    if frame[0] != kind || line[2 * N] != b'\n' {
        return None;
    }
    *text = rest;
    Some(frame)
}

/// Puts the line of a frame at the front of the buffer, which has room for it, and hands back what is behind it.
pub fn put<'a>(out: &'a mut [u8], frame: &[u8]) -> &'a mut [u8] {
    let (line, rest) = out.split_at_mut(line_length(frame.len()));
    for (pair, byte) in line.chunks_exact_mut(2).zip(frame) {
        pair[0] = hex_digit(byte / 16);
        pair[1] = hex_digit(byte % 16);
    }
    line[2 * frame.len()] = b'\n';
    rest
}
