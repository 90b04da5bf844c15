//! Lines and hexadecimal digits, the same for both files: "Two upper-case digits a byte, no blanks,
//! each line ended by one line feed."

/// The lines without their line feeds, or `None` if the last one is not ended. An empty text has no
/// lines.
pub fn lines(text: &[u8]) -> Option<impl Iterator<Item = &[u8]>> {
    if text.last().is_some_and(|&last| last != b'\n') {
        return None;
    }
    let ended = text.split_inclusive(|&c| c == b'\n');
    Some(ended.map(|line| &line[..line.len() - 1]))
}

/// The bytes of a line of digits, or `None` if it has anything else, an odd digit, or more bytes
/// than the buffer.
pub fn decode<'a>(line: &[u8], buffer: &'a mut [u8]) -> Option<&'a [u8]> {
    let length = line.len() / 2;
    if line.len() != 2 * length || length > buffer.len() {
        return None;
    }
    for (byte, pair) in buffer.iter_mut().zip(line.chunks_exact(2)) {
        *byte = 16 * digit(pair[0])? + digit(pair[1])?;
    }
    Some(&buffer[..length])
}

fn digit(c: u8) -> Option<u8> {
    match c {
        b'0'..=b'9' => Some(c - b'0'),
        b'A'..=b'F' => Some(c - b'A' + 10),
        _ => None,
    }
}

/// Appends the two digits of one byte.
pub fn push_byte(line: &mut Vec<u8>, byte: u8) {
    const DIGITS: &[u8; 16] = b"0123456789ABCDEF";
    line.push(DIGITS[usize::from(byte / 16)]);
    line.push(DIGITS[usize::from(byte % 16)]);
}

/// Appends the digits of several bytes.
pub fn push_bytes(line: &mut Vec<u8>, bytes: &[u8]) {
    for &byte in bytes {
        push_byte(line, byte);
    }
}

#[cfg(test)]
mod tests {
    use super::*;

    #[test]
    fn lines_are_ended() {
        let count = |text: &[u8]| lines(text).map(|lines| lines.count());
        assert_eq!(count(b""), Some(0));
        assert_eq!(count(b"\n"), Some(1));
        assert_eq!(count(b"00\n01\n"), Some(2));
        assert_eq!(count(b"00\n01"), None);
    }

    #[test]
    fn digits_are_upper_case_pairs() {
        let mut buffer = [0; 2];
        assert_eq!(decode(b"0AF9", &mut buffer), Some(&[0x0A, 0xF9][..]));
        assert_eq!(decode(b"", &mut buffer), Some(&[][..]));
        for bad in [&b"0"[..], b"0a", b"0G", b"0:", b"0@", b"0 ", b"00\r", b"000000", b"\xEF\xBB"] {
            assert_eq!(decode(bad, &mut buffer), None);
        }
    }

    #[test]
    fn every_byte_comes_back() {
        for byte in 0..=255 {
            let mut line = Vec::new();
            push_byte(&mut line, byte);
            assert_eq!(decode(&line, &mut [0; 1]), Some(&[byte][..]));
        }
    }
}
