//! 01, "The replay program", and C-16: the frames of a script and the reply to each.

use crate::error::Error;
use crate::gauge::Gauge;
use crate::text::{decode, push_byte, push_bytes};

/// "01, register, 0 to 255 bytes"
pub const MAX_FRAME: usize = 2 + 255;

#[derive(Clone, Copy, Debug, PartialEq, Eq)]
pub enum Frame<'a> {
    Write { register: u8, bytes: &'a [u8] },
    Read { register: u8, count: u8 },
    Supply { millivolts: u16 },
}

/// The frame of one line, its bytes kept in a lent buffer: "01, register, 0 to 255 bytes (write);
/// 00, register, count (read)". C-16: "A new script frame, 02 and two bytes, high byte first".
pub fn frame<'a>(line: &[u8], buffer: &'a mut [u8; MAX_FRAME]) -> Option<Frame<'a>> {
    match *decode(line, buffer)? {
        [1, register, ref bytes @ ..] => Some(Frame::Write { register, bytes }),
        [0, register, count] => Some(Frame::Read { register, count }),
        [2, high, low] => Some(Frame::Supply { millivolts: u16::from_be_bytes([high, low]) }),
        _ => None,
    }
}

/// "one frame a line, digits and line ends as in the image"; "It may be empty."
pub fn is_valid(text: &[u8]) -> bool {
    first_bad_line(text).is_none()
}

/// The number of the first line that is no frame or is not ended, from 1.
pub fn first_bad_line(text: &[u8]) -> Option<usize> {
    let mut buffer = [0; MAX_FRAME];
    let is_bad =
        |line: &[u8]| line.strip_suffix(b"\n").and_then(|line| frame(line, &mut buffer)).is_none();
    text.split_inclusive(|&c| c == b'\n').position(is_bad).map(|before| before + 1)
}

/// Runs one frame and appends its reply: "number and count taken, or 00 and the bytes read, or the
/// number alone for a refused read". C-12: "The replay's write line gains that byte". C-16: "sets
/// it and replies the number alone".
pub fn answer(gauge: &mut Gauge, frame: Frame, reply: &mut Vec<u8>) {
    match frame {
        Frame::Write { register, bytes } => {
            let written = gauge.write(register, bytes);
            push_byte(reply, written.error.map_or(0, Error::number));
            push_byte(reply, written.accepted as u8);
            push_byte(reply, written.changed as u8);
        }
        Frame::Read { register, count } => {
            let mut buffer = [0; 255];
            let count = usize::from(count);
            match gauge.read(register, count, &mut buffer) {
                Ok(()) => {
                    push_byte(reply, 0);
                    push_bytes(reply, &buffer[..count]);
                }
                Err(error) => push_byte(reply, error.number()),
            }
        }
        Frame::Supply { millivolts } => {
            push_byte(reply, gauge.set_supply(millivolts).err().map_or(0, Error::number));
        }
    }
    reply.push(b'\n');
}

#[cfg(test)]
mod tests {
    use super::*;

    #[test]
    fn frames() {
        let mut buffer = [0; MAX_FRAME];
        assert_eq!(frame(b"0140", &mut buffer), Some(Frame::Write { register: 0x40, bytes: &[] }));
        assert_eq!(
            frame(b"01400A", &mut buffer),
            Some(Frame::Write { register: 0x40, bytes: &[0x0A] })
        );
        assert_eq!(
            frame(b"00FF80", &mut buffer),
            Some(Frame::Read { register: 0xFF, count: 0x80 })
        );
        let supply = |millivolts| Some(Frame::Supply { millivolts });
        assert_eq!(frame(b"020A8C", &mut buffer), supply(2_700));
        assert_eq!(frame(b"02FFFE", &mut buffer), supply(0xFFFE));
        for bad in [
            &b""[..],
            b"01",
            b"00",
            b"0040",
            b"00400101",
            b"02",
            b"020A",
            b"020A8C00",
            b"034001",
            b"FF4001",
            b"01400",
            b"01 40",
        ] {
            assert_eq!(frame(bad, &mut buffer), None);
        }
    }

    #[test]
    fn at_most_255_data_bytes() {
        let line = |data: usize| [&b"0140"[..], &vec![b'0'; 2 * data]].concat();
        let mut buffer = [0; MAX_FRAME];
        assert!(frame(&line(255), &mut buffer).is_some());
        assert!(frame(&line(256), &mut buffer).is_none());
    }

    #[test]
    fn scripts() {
        for good in [&b""[..], b"0140\n", b"0140\n000001\n"] {
            assert!(is_valid(good));
        }
        for bad in [
            &b"\n"[..],
            b"0140",
            b"0140\n\n",
            b"0140\r\n",
            b"0140\n000001",
            b"\xEF\xBB\xBF0140\n",
            b"0140\n\0",
        ] {
            assert!(!is_valid(bad));
        }
        assert_eq!(first_bad_line(b"0140\n000001\n0240\n0140"), Some(3));
        assert_eq!(first_bad_line(b"0140\n0140"), Some(2));
    }
}
