//! C-16, "No flash writes on a low supply."

/// "0 to 4,500"
pub const MAX_SUPPLY: u16 = 4_500;

/// "at 3,600 on power-on"
pub const POWER_ON_SUPPLY: u16 = 3_600;

/// "2,700 itself is accepted"
pub const COMMIT_SUPPLY: u16 = 2_700;

#[cfg(test)]
mod tests {
    use crate::error::Error;
    use crate::gauge::tests::{done, gauge, refused, send, with_block};
    use crate::gauge::{Gauge, Written};
    use crate::layout::checksum;
    use crate::record::{Boot, Mode, Record};
    use crate::replay::replay;

    /// A gauge with block B loaded while sealed, on this supply.
    fn on_supply(millivolts: u16) -> Gauge {
        let mut gauge = gauge(Boot::Sealed);
        assert_eq!(gauge.write(0x3F, &[2]), done(1));
        assert_eq!(gauge.set_supply(millivolts), Ok(()));
        gauge
    }

    fn commit(gauge: &mut Gauge) -> Written {
        let sum = checksum(&gauge.record.window);
        gauge.write(0x60, &[sum])
    }

    #[test]
    fn the_range() {
        for millivolts in [0, 1, 2_450, 2_699, 2_700, 3_600, 4_499, 4_500] {
            assert_eq!(on_supply(millivolts).record.supply, millivolts);
        }
        let mut gauge = on_supply(1_234);
        for millivolts in [4_501, 5_000, 0x8000, 0xFFFF] {
            let before = gauge.record.clone();
            assert_eq!(gauge.set_supply(millivolts), Err(Error::Argument));
            assert_eq!(gauge.record, before);
        }
    }

    #[test]
    fn every_mode_takes_it() {
        let mut gauge = gauge(Boot::Sealed);
        for (words, mode) in [
            (&[][..], Mode::Sealed),
            (&[0x0414, 0x3672], Mode::Unsealed),
            (&[0x0201, 0x0403], Mode::FullAccess),
        ] {
            send(&mut gauge, words);
            let before = gauge.record.clone();
            assert_eq!(gauge.set_supply(4_000 + words.len() as u16), Ok(()));
            assert_eq!(gauge.record.mode, mode);
            let supply = gauge.record.supply;
            assert_eq!(gauge.record, Record { supply, ..before });
        }
    }

    #[test]
    fn the_order_10_15_1() {
        let mut gauge = on_supply(3_000);
        gauge.record.supply = 4_501;
        assert_eq!(gauge.set_supply(0xFFFF), Err(Error::Record));
        assert_eq!(gauge.set_supply(3_600), Err(Error::Record));
        gauge.image.pop();
        assert_eq!(gauge.set_supply(0xFFFF), Err(Error::Invalid));
    }

    #[test]
    fn a_commit_under_2700() {
        for (millivolts, stands) in
            [(0, false), (2_450, false), (2_699, false), (2_700, true), (2_701, true)]
        {
            let mut gauge = on_supply(millivolts);
            assert_eq!(gauge.write(0x40, &[1]), done(1));
            let before = gauge.clone();
            if stands {
                assert_eq!(commit(&mut gauge), Written { changed: 1, ..done(1) });
            } else {
                assert_eq!(commit(&mut gauge), refused(Error::Supply, 0), "{millivolts}");
                assert_eq!((&gauge.record, &gauge.image), (&before.record, &before.image));
            }
        }
    }

    #[test]
    fn also_one_that_would_change_nothing() {
        assert_eq!(commit(&mut on_supply(2_699)), refused(Error::Supply, 0));
        assert_eq!(commit(&mut on_supply(2_700)), done(1));
    }

    #[test]
    fn it_may_be_tried_again() {
        let mut gauge = on_supply(2_699);
        assert_eq!(gauge.write(0x5F, &[9]), done(1));
        assert_eq!(commit(&mut gauge), refused(Error::Supply, 0));
        assert_eq!(gauge.set_supply(2_700), Ok(()));
        assert_eq!(commit(&mut gauge), Written { changed: 1, ..done(1) });
    }

    #[test]
    fn the_others_come_first() {
        // 6, 7, 8
        let mut gauge = gauge(Boot::Sealed);
        assert_eq!(gauge.set_supply(0), Ok(()));
        assert_eq!(gauge.write(0x60, &[0xFF]), refused(Error::NotLoaded, 0));
        assert_eq!(gauge.write(0x3F, &[1]), done(1));
        assert_eq!(commit(&mut gauge), refused(Error::BlockA, 0));
        assert_eq!(gauge.write(0x3F, &[2]), done(1));
        let wrong = !checksum(&gauge.record.window);
        assert_eq!(gauge.write(0x60, &[wrong]), refused(Error::Checksum, 0));
        assert_eq!(commit(&mut gauge), refused(Error::Supply, 0));
        // 16
        send(&mut gauge, &[0x0414, 0x3672]);
        assert_eq!(gauge.write(0x61, &[0]), done(1));
        assert_eq!(gauge.write(0x3E, &[112, 0, 9]), done(3));
        assert_eq!(commit(&mut gauge), refused(Error::Keys, 0));
        assert_eq!(gauge.write(0x40, &[0x14]), done(1));
        assert_eq!(commit(&mut gauge), refused(Error::Supply, 0));
    }

    #[test]
    fn the_bytes_before_0x60_stand() {
        let mut gauge = with_block(48, 0);
        assert_eq!(gauge.set_supply(2_000), Ok(()));
        let image = gauge.image.clone();
        let bytes = [&[7; 32][..], &[checksum(&[7; 32]), 0]].concat();
        assert_eq!(gauge.write(0x40, &bytes), refused(Error::Supply, 32));
        assert_eq!((gauge.record.window, gauge.image), ([7; 32], image));
    }

    #[test]
    fn kept_through_sealing_and_reset() {
        for boot in [Boot::Sealed, Boot::Open] {
            for (word, after) in [(0x0020, Boot::Sealed), (0x0041, boot)] {
                let mut gauge = gauge(boot);
                assert_eq!(gauge.set_supply(2_100), Ok(()));
                send(&mut gauge, &[word]);
                assert_eq!(gauge.record, Record { supply: 2_100, ..Record::power_on(after) });
            }
        }
    }

    #[test]
    fn frames() {
        let gauge = gauge(Boot::Sealed);
        let image = crate::imagefile::write(&gauge.layout, &gauge.image).unwrap();
        let output = |script: &[u8]| replay(Some(&image), Some(script));
        // block B, 2,699, its commit, 2,700, again; 4,501 leaves that
        let script = b"013F02\n020A8B\n01609F\n020A8C\n01609F\n021195\n01609F\n021194\n";
        assert_eq!(output(script), b"000100\n00\n110000\n00\n000100\n01\n000100\n00\n");
        // between the words of a key
        assert_eq!(
            output(b"01001404\n020000\n01007236\n01000000\n000002\n"),
            b"000200\n00\n000200\n000200\n000040\n"
        );
        // the high byte first
        assert_eq!(output(b"028C0A\n020A8B\n"), b"01\n00\n");
    }
}
