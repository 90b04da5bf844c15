//! C-12, "How many bytes did that commit change?": the third number of a write's answer.

/// "how many bytes of the image differ before and after"
pub fn count_differing(before: &[u8], after: &[u8]) -> usize {
    before.iter().zip(after).filter(|(old, new)| old != new).count()
}

#[cfg(test)]
mod tests {
    use crate::error::Error;
    use crate::gauge::tests::{done, gauge, refused, send, with_block};
    use crate::gauge::{Gauge, Written};
    use crate::layout::checksum;
    use crate::record::Boot;

    const SEALED_BLOCKS: [(u8, u8); 2] = [(2, 0xBB), (3, 0xCC)];

    fn edit(gauge: &mut Gauge, register: u8, bytes: &[u8]) {
        assert_eq!(gauge.write(register, bytes), done(bytes.len()));
    }

    /// A write of the right checksum at 0x60, and of these bytes after it.
    fn commit_and(gauge: &mut Gauge, after: &[u8]) -> Written {
        let sum = checksum(&gauge.record.window);
        gauge.write(0x60, &[&[sum], after].concat())
    }

    /// What a commit alone answers, which is accepted.
    fn commit(gauge: &mut Gauge) -> usize {
        let written = commit_and(gauge, &[]);
        assert_eq!(written, Written { changed: written.changed, ..done(1) });
        written.changed
    }

    /// A gauge with two bytes of a block edited, and not yet committed.
    fn with_two_edits() -> Gauge {
        let mut gauge = with_block(58, 1);
        edit(&mut gauge, 0x45, &[1, 2]);
        gauge
    }

    /// Sealed, with block B or C loaded by this byte.
    fn sealed_with(byte: u8) -> Gauge {
        let mut gauge = gauge(Boot::Sealed);
        edit(&mut gauge, 0x3F, &[byte]);
        gauge
    }

    #[test]
    fn one_byte_changed_is_one_however_many_bits_it_has() {
        for byte in [0xBA, 0x3B, 0x44, 0x00, 0xFF] {
            let mut gauge = with_block(58, 1);
            edit(&mut gauge, 0x5F, &[byte]);
            assert_eq!(commit(&mut gauge), 1, "{byte:02X}");
        }
    }

    #[test]
    fn all_bytes_of_a_block_changed_are_32_and_there_are_no_more() {
        let mut gauge = with_block(48, 0);
        edit(&mut gauge, 0x40, &[0xFF; 32]);
        assert_eq!(commit(&mut gauge), 32);
    }

    #[test]
    fn it_counts_bytes_that_differ_and_not_bytes_written() {
        let mut gauge = with_block(48, 0);
        // of 0, 1, .. 31 the bytes 4 and 31 are these already
        edit(&mut gauge, 0x40, &[4; 32]);
        edit(&mut gauge, 0x5F, &[31]);
        assert_eq!(commit(&mut gauge), 30);
    }

    #[test]
    fn an_unchanged_window_changes_nothing() {
        assert_eq!(commit(&mut with_block(48, 0)), 0);
        let mut gauge = with_block(58, 2);
        edit(&mut gauge, 0x40, &[0xCC; 32]);
        assert_eq!(commit(&mut gauge), 0);
    }

    #[test]
    fn a_byte_changed_and_changed_back_is_not_counted() {
        let mut gauge = with_block(58, 1);
        edit(&mut gauge, 0x40, &[1, 2, 3]);
        edit(&mut gauge, 0x40, &[0xBB, 0xBB]);
        assert_eq!(commit(&mut gauge), 1);
        edit(&mut gauge, 0x42, &[0xBB]);
        assert_eq!(commit(&mut gauge), 1);
        edit(&mut gauge, 0x42, &[9]);
        edit(&mut gauge, 0x42, &[0xBB]);
        assert_eq!(commit(&mut gauge), 0);
    }

    #[test]
    fn a_commit_written_twice_changes_nothing_the_second_time() {
        let mut gauge = with_two_edits();
        assert_eq!(commit(&mut gauge), 2);
        assert_eq!(commit(&mut gauge), 0);
    }

    #[test]
    fn of_a_short_block_only_its_own_bytes_count() {
        // one byte in block 1 of class 48, 28 in block 0 of class 112
        for (class, block, own) in [(48, 1, 1), (112, 0, 28)] {
            let mut gauge = with_block(class, block);
            edit(&mut gauge, 0x40, &[0xA5; 32]);
            assert_eq!(commit(&mut gauge), own);
            edit(&mut gauge, 0x40 + own as u8, &vec![0x5A; 32 - own]);
            assert_eq!(commit(&mut gauge), 0);
            edit(&mut gauge, 0x40 + own as u8 - 1, &[7, 7]);
            assert_eq!(commit(&mut gauge), 1);
        }
    }

    #[test]
    fn zero_unless_0x60_committed() {
        let mut gauge = with_two_edits();
        assert_eq!(gauge.write(0x47, &[3]), done(1));
        assert_eq!(gauge.write(0x61, &[1]), done(1));
        assert_eq!(gauge.write(0x3F, &[2, 9, 9]), done(3));
        assert_eq!(gauge.write(0x00, &[0, 0]), done(2));
        assert_eq!(gauge.write(0x02, &[0]), refused(Error::ReadOnly, 0));
    }

    #[test]
    fn a_refused_commit_answers_zero() {
        let mut gauge = with_two_edits();
        let wrong = checksum(&gauge.record.window).wrapping_add(1);
        assert_eq!(gauge.write(0x60, &[wrong]), refused(Error::Checksum, 0));
        assert_eq!(gauge.write(0x5E, &[1, 1, wrong, 0]), refused(Error::Checksum, 2));
        assert_eq!(commit_and(&mut sealed_with(1), &[]), refused(Error::BlockA, 0));
        send(&mut gauge, &[0x0020]);
        assert_eq!(commit_and(&mut gauge, &[]), refused(Error::NotLoaded, 0));
    }

    #[test]
    fn a_later_byte_refused_leaves_the_commit_and_its_count() {
        for byte in [2, 0x80, 0xFF] {
            let stored = Written { changed: 2, ..refused(Error::Control, 1) };
            assert_eq!(commit_and(&mut with_two_edits(), &[byte]), stored);
        }
        let stored = Written { changed: 2, ..refused(Error::ReadOnly, 2) };
        assert_eq!(commit_and(&mut with_two_edits(), &[0, 0]), stored);
        for byte in [0, 2] {
            let mut gauge = sealed_with(2);
            edit(&mut gauge, 0x40, &[1]);
            let stored = Written { changed: 1, ..refused(Error::Sealed, 1) };
            assert_eq!(commit_and(&mut gauge, &[byte]), stored);
        }
    }

    #[test]
    fn a_later_byte_accepted_leaves_the_count() {
        for byte in [0, 1] {
            let stored = Written { changed: 2, ..done(2) };
            assert_eq!(commit_and(&mut with_two_edits(), &[byte]), stored);
        }
    }

    #[test]
    fn a_write_refused_whole_answers_zero() {
        let mut gauge = with_two_edits();
        assert_eq!(commit(&mut gauge), 2);
        assert_eq!(gauge.write(0x60, &[]), refused(Error::Argument, 0));
        assert_eq!(gauge.write(0x60, &[0; 33]), refused(Error::Argument, 0));
        gauge.record.control = 2;
        assert_eq!(gauge.write(0x60, &[0]), refused(Error::Record, 0));
        gauge.image.pop();
        assert_eq!(gauge.write(0x60, &[0]), refused(Error::Invalid, 0));
    }

    #[test]
    fn the_next_write_does_not_answer_it_again() {
        let mut gauge = with_two_edits();
        assert_eq!(commit(&mut gauge), 2);
        assert_eq!(gauge.write(0x40, &[0]), done(1));
    }

    #[test]
    fn a_sealed_gauge_takes_it_from_blocks_b_and_c_alone() {
        for (byte, stored) in SEALED_BLOCKS {
            let mut gauge = sealed_with(byte);
            // everything outside blocks B and C has another value
            gauge.image[..33 + 32].fill(0x55);
            gauge.image[33 + 96..].fill(0x55);
            edit(&mut gauge, 0x40, &[stored, 0x55, stored, 0x55, 0x55]);
            assert_eq!(commit(&mut gauge), 3);
        }
    }
}
