//! 01, "Image file": "one block a line, in hexadecimal. Class, block, the data bytes, checksum."

use crate::error::Error;
use crate::layout::{checksum, Class, Layout, BLOCK_LENGTH};
use crate::text::{decode, lines, push_byte, push_bytes};

/// Class, block, 32 data bytes, checksum.
const MAX_LINE: usize = 2 + BLOCK_LENGTH + 1;

/// The layout and the image that a text holds. "Nothing else is accepted."
pub fn read(text: &[u8]) -> Result<(Layout, Vec<u8>), Error> {
    let mut layout = Layout::default();
    let mut image = Vec::new();
    for line in lines(text).ok_or(Error::Invalid)? {
        add_line(&mut layout, &mut image, line).ok_or(Error::Invalid)?;
    }
    layout.check_image(image.len())?;
    Ok((layout, image))
}

/// Adds the block of one line, or answers `None` if it cannot follow the lines before it.
fn add_line(layout: &mut Layout, image: &mut Vec<u8>, line: &[u8]) -> Option<()> {
    let mut buffer = [0; MAX_LINE];
    let bytes = decode(line, &mut buffer)?;
    let [id, block, data @ .., sum] = bytes else { return None };
    if data.is_empty() || *sum != checksum(data) {
        return None;
    }
    match layout.classes.last_mut() {
        // "blocks of a class run from 0 without gaps, all but the last hold 32 bytes"
        Some(last) if last.id == *id => {
            if last.length % BLOCK_LENGTH != 0 || last.length / BLOCK_LENGTH != usize::from(*block)
            {
                return None;
            }
            last.length += data.len();
        }
        // "Classes ascend"
        Some(last) if last.id > *id => return None,
        _ if *block != 0 => return None,
        _ => layout.classes.push(Class { id: *id, length: data.len() }),
    }
    image.extend_from_slice(data);
    Some(())
}

/// The text of a layout and its image.
pub fn write(layout: &Layout, image: &[u8]) -> Result<Vec<u8>, Error> {
    layout.check_image(image.len())?;
    let mut text = Vec::new();
    for class in &layout.classes {
        let bytes = &image[layout.class(class.id)?];
        for (block, data) in (0u8..).zip(bytes.chunks(BLOCK_LENGTH)) {
            push_bytes(&mut text, &[class.id, block]);
            push_bytes(&mut text, data);
            push_byte(&mut text, checksum(data));
            text.push(b'\n');
        }
    }
    Ok(text)
}

#[cfg(test)]
mod tests {
    use super::*;

    fn good() -> (Layout, Vec<u8>) {
        let classes = [(0, 1), (48, 33), (58, 96), (112, 32), (255, 65)];
        let classes = classes.map(|(id, length)| Class { id, length }).to_vec();
        let layout = Layout { classes };
        let image = (0..layout.length()).map(|i| (i * 37 % 256) as u8).collect();
        (layout, image)
    }

    #[test]
    fn what_is_written_is_read_back() {
        let (layout, image) = good();
        let text = write(&layout, &image).unwrap();
        assert_eq!(read(&text), Ok((layout, image)));
    }

    #[test]
    fn writing_judges_first() {
        let (mut layout, image) = good();
        assert_eq!(write(&layout, &image[1..]), Err(Error::Invalid));
        layout.classes.remove(2);
        assert_eq!(write(&layout, &image[..layout.length()]), Err(Error::Invalid));
    }

    /// Every text one character away: accepted only if the same text is written from what was read.
    #[test]
    fn an_accepted_text_is_the_text_of_what_was_read() {
        let (layout, image) = good();
        let text = write(&layout, &image).unwrap();
        let mut accepted = 0;
        for place in 0..text.len() {
            for other in b"09AFaf \r\n" {
                let mut changed = text.clone();
                changed[place] = *other;
                if let Ok((layout, image)) = read(&changed) {
                    assert_eq!(write(&layout, &image), Ok(changed));
                    accepted += 1;
                }
            }
            let mut shorter = text.clone();
            shorter.remove(place);
            assert_eq!(read(&shorter), Err(Error::Invalid));
        }
        assert!(accepted > 0);
    }

    #[test]
    fn bad_texts() {
        let (layout, image) = good();
        let text = write(&layout, &image).unwrap();
        let with = |more: &[u8]| read(&[&text[..], more].concat());
        assert!(with(b"").is_ok());
        for more in [&b"\n"[..], b" ", b"\r\n", b"FF0300FF\n", b"FF0200FF\n", b"\0"] {
            assert_eq!(with(more), Err(Error::Invalid));
        }
        assert_eq!(read(b""), Err(Error::Invalid));
        assert_eq!(read(&text[..text.len() - 1]), Err(Error::Invalid));
        assert_eq!(read(&[b"0000FF\n", &text[..]].concat()), Err(Error::Invalid));
        assert_eq!(read(&[b"\xEF\xBB\xBF", &text[..]].concat()), Err(Error::Invalid));
    }
}
