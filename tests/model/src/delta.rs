//! C-11, "Show me what differs": the runs of differing bytes between two images of one layout, and
//! the tool that lists them.

use crate::error::Error;
use crate::imagefile;
use crate::layout::Layout;
use crate::text::{push_byte, push_bytes};
use std::collections::BTreeMap;

/// "each with class, offset (two bytes, high first), old bytes, new bytes". There are as many new
/// bytes as old ones, and the offset counts from the start of the class.
#[derive(Clone, Debug, PartialEq, Eq)]
pub struct Run {
    pub class: u8,
    pub offset: u16,
    pub old: Vec<u8>,
    pub new: Vec<u8>,
}

impl Run {
    /// The run between the same images in the other order.
    pub fn exchanged(self) -> Run {
        Run { old: self.new, new: self.old, ..self }
    }
}

/// Class, and offset in that class.
type Address = (u8, u16);
/// The differing bytes, each with its old and its new value.
type Differing = BTreeMap<Address, (u8, u8)>;

/// "Every differing byte is in exactly one run and no equal byte is in any." A run begins at each
/// differing byte that has none before it in its class. Addresses ascend as the bytes of an image
/// do, since classes ascend.
pub fn runs(layout: &Layout, old: &[u8], new: &[u8]) -> Vec<Run> {
    let values = old.iter().copied().zip(new.iter().copied());
    let all = addresses(layout).into_iter().zip(values);
    let differing: Differing = all.filter(|(_, (old, new))| old != new).collect();
    let follows_another = |&(class, offset): &Address| {
        offset.checked_sub(1).is_some_and(|before| differing.contains_key(&(class, before)))
    };
    let starts = differing.keys().filter(|address| !follows_another(address));
    starts.map(|&start| run_from(start, &differing)).collect()
}

/// The address of each byte of an image.
fn addresses(layout: &Layout) -> Vec<Address> {
    let of_class = |id, length| (0..length as u16).map(move |offset| (id, offset));
    layout.classes.iter().flat_map(|class| of_class(class.id, class.length)).collect()
}

/// "Runs are as long as they can be inside a class and never span two."
fn run_from((class, offset): Address, differing: &Differing) -> Run {
    let values = (offset..).map_while(|next| differing.get(&(class, next)).copied());
    let (old, new) = values.unzip();
    Run { class, offset, old, new }
}

/// "Laying the runs over the first image gives the second."
pub fn lay_over(layout: &Layout, image: &[u8], runs: &[Run]) -> Result<Vec<u8>, Error> {
    layout.check_image(image.len())?;
    let mut laid = image.to_vec();
    for run in runs {
        let class = &mut laid[layout.class(run.class)?];
        let offset = usize::from(run.offset);
        class[offset..offset + run.new.len()].copy_from_slice(&run.new);
    }
    Ok(laid)
}

/// The runs between the images of two files. "Refusals: 10 for either image, then 18 where layouts
/// differ". `None` is a file that is missing or cannot be read. The 14 is a call's own.
pub fn runs_of_files(old: Option<&[u8]>, new: Option<&[u8]>) -> Result<Vec<Run>, Error> {
    let (old_layout, old_image) = imagefile::read(old.ok_or(Error::Invalid)?)?;
    let (new_layout, new_image) = imagefile::read(new.ok_or(Error::Invalid)?)?;
    if old_layout != new_layout {
        return Err(Error::Layouts);
    }
    Ok(runs(&old_layout, &old_image, &new_image))
}

/// The whole output: "ascending, one hexadecimal line a run", and "a refused tool prints the number
/// alone, as one line like the replay's 0A".
pub fn diff(old: Option<&[u8]>, new: Option<&[u8]>) -> Vec<u8> {
    let mut output = Vec::new();
    match runs_of_files(old, new) {
        Ok(runs) => runs.iter().for_each(|run| push_run(&mut output, run)),
        Err(error) => {
            push_byte(&mut output, error.number());
            output.push(b'\n');
        }
    }
    output
}

fn push_run(output: &mut Vec<u8>, run: &Run) {
    push_byte(output, run.class);
    push_bytes(output, &run.offset.to_be_bytes());
    push_bytes(output, &run.old);
    push_bytes(output, &run.new);
    output.push(b'\n');
}

#[cfg(test)]
mod tests {
    use super::*;
    use crate::layout::Class;

    const CLASSES: [(u8, usize); 4] = [(48, 6), (58, 96), (112, 28), (200, 512)];

    fn layout(classes: &[(u8, usize)]) -> Layout {
        Layout { classes: classes.iter().map(|&(id, length)| Class { id, length }).collect() }
    }

    fn zeros() -> Vec<u8> {
        vec![0; layout(&CLASSES).length()]
    }

    /// An image of zeros but for these bytes: class, offset, value.
    fn image(bytes: &[(u8, usize, u8)]) -> Vec<u8> {
        let mut image = zeros();
        for &(class, offset, value) in bytes {
            image[layout(&CLASSES).class(class).unwrap()][offset] = value;
        }
        image
    }

    fn text(classes: &[(u8, usize)], image: &[u8]) -> Vec<u8> {
        imagefile::write(&layout(classes), image).unwrap()
    }

    /// What the tool prints for two images of `CLASSES`.
    fn printed(old: &[u8], new: &[u8]) -> String {
        let output = diff(Some(&text(&CLASSES, old)), Some(&text(&CLASSES, new)));
        String::from_utf8(output).unwrap()
    }

    #[test]
    fn equal_images_print_nothing() {
        assert_eq!(printed(&zeros(), &zeros()), "");
        let other = image(&[(48, 3, 7)]);
        assert_eq!(printed(&other, &other), "");
    }

    #[test]
    fn one_byte_and_the_order_of_old_and_new() {
        let (old, new) = (image(&[(48, 5, 0x01)]), image(&[(48, 5, 0xAB)]));
        assert_eq!(printed(&old, &new), "30000501AB\n");
        assert_eq!(printed(&new, &old), "300005AB01\n");
    }

    #[test]
    fn all_old_bytes_come_before_all_new_bytes() {
        let old = image(&[(112, 8, 1), (112, 9, 2), (112, 10, 3)]);
        let new = image(&[(112, 8, 4), (112, 9, 5), (112, 10, 6)]);
        assert_eq!(printed(&old, &new), "700008010203040506\n");
    }

    #[test]
    fn a_run_crosses_the_end_of_a_block() {
        let new = image(&[(58, 31, 0xA1), (58, 32, 0xB2)]);
        assert_eq!(printed(&zeros(), &new), "3A001F0000A1B2\n");
    }

    #[test]
    fn runs_never_span_two_classes() {
        let new = image(&[(48, 5, 1), (58, 0, 2), (58, 95, 3), (112, 0, 4)]);
        assert_eq!(printed(&zeros(), &new), "3000050001\n3A00000002\n3A005F0003\n7000000004\n");
    }

    #[test]
    fn an_equal_byte_is_in_no_run() {
        let new = image(&[(58, 7, 1), (58, 9, 2)]);
        assert_eq!(printed(&zeros(), &new), "3A00070001\n3A00090002\n");
    }

    #[test]
    fn offsets_have_two_bytes_high_first() {
        let new = image(&[(200, 255, 1), (200, 256, 2), (200, 511, 3)]);
        assert_eq!(printed(&zeros(), &new), "C800FF00000102\nC801FF0003\n");
    }

    #[test]
    fn a_whole_class_is_one_run() {
        let new: Vec<(u8, usize, u8)> = (0..512).map(|offset| (200, offset, 0xFF)).collect();
        let expected = format!("C80000{}{}\n", "00".repeat(512), "FF".repeat(512));
        assert_eq!(printed(&zeros(), &image(&new)), expected);
    }

    #[test]
    fn ten_for_either_image_comes_before_eighteen() {
        let good = text(&CLASSES, &zeros());
        let other = text(&CLASSES[1..], &zeros()[6..]);
        let damaged = &other[1..];
        let is_refused = |old: Option<&[u8]>, new: Option<&[u8]>| diff(old, new) == b"0A\n";
        assert!(is_refused(Some(&good), Some(damaged)));
        assert!(is_refused(Some(damaged), Some(&good)));
        assert!(is_refused(Some(damaged), Some(damaged)));
        assert!(is_refused(Some(&good), Some(b"")));
        assert!(is_refused(Some(b""), Some(&good)));
        assert!(is_refused(None, Some(&good)));
        assert!(is_refused(Some(&good), None));
        assert!(is_refused(None, None));
        assert_eq!(diff(Some(&good), Some(&other)), b"12\n");
    }

    #[test]
    fn eighteen_where_layouts_differ() {
        let old = text(&CLASSES, &zeros());
        let others: [&[(u8, usize)]; 7] = [
            // renumbered
            &[(49, 6), (58, 96), (112, 28), (200, 512)],
            &[(48, 6), (58, 96), (112, 28), (201, 512)],
            // one length
            &[(48, 5), (58, 96), (112, 28), (200, 512)],
            // two lengths, and as many bytes
            &[(48, 6), (58, 96), (112, 29), (200, 511)],
            // a class more or less
            &[(48, 6), (58, 96), (112, 28), (200, 512), (201, 1)],
            &[(48, 6), (58, 96), (112, 28)],
            // a class more, and as many bytes
            &[(48, 6), (58, 96), (112, 28), (200, 500), (201, 12)],
        ];
        for classes in others {
            let new = text(classes, &vec![0; layout(classes).length()]);
            assert_eq!(diff(Some(&old), Some(&new)), b"12\n", "{classes:?}");
            assert_eq!(diff(Some(&new), Some(&old)), b"12\n", "{classes:?}");
        }
    }

    #[test]
    fn laid_over_the_first_image_they_give_the_second() {
        let layout = layout(&CLASSES);
        let old = image(&[(48, 5, 9), (58, 0, 1), (200, 300, 2)]);
        let new = image(&[(48, 5, 1), (58, 1, 1), (112, 27, 3), (200, 511, 4)]);
        let runs = runs(&layout, &old, &new);
        assert_eq!(runs.len(), 5);
        assert_eq!(lay_over(&layout, &old, &runs).as_ref(), Ok(&new));
        let back: Vec<Run> = runs.into_iter().map(Run::exchanged).collect();
        assert_eq!(lay_over(&layout, &new, &back).as_ref(), Ok(&old));
        assert_eq!(lay_over(&layout, &old[1..], &back), Err(Error::Invalid));
    }
}
