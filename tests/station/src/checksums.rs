//! Checksums of any number of bytes.

use crate::demand_variety;
use crate::lent::Lent;
use crate::station;
use generator::random::Random;
use model::layout::checksum;

/// Every length up to this one.
const LENGTHS: usize = 5_000;
/// And these: the ends of 16 bits, and more than that.
const LONG: [usize; 4] = [65_535, 65_536, 65_537, 1_000_003];

/// Compares all of them, or answers the first difference in words.
pub fn compare(seed: u64) -> Result<(), String> {
    let mut met = [false; 256];
    let mut strings = 0;
    for length in (0..=LENGTHS).chain(LONG) {
        let noise = Random::new(seed, length as u64).bytes(length);
        let contents = [("noise", noise), ("00", vec![0; length]), ("FF", vec![0xFF; length])];
        for (name, bytes) in contents {
            let expected = compare_one(&bytes).map_err(|what| {
                format!("checksum of {length} bytes of {name}, seed {seed}: {what}")
            })?;
            met[usize::from(expected)] = true;
            strings += 1;
        }
    }
    println!("{strings} checksums compared");
    let missing = (0..met.len()).filter(|&value| !met[value]);
    demand_variety(missing.map(|value| format!("checksum {value:02X}: never")).collect())
}

/// What the model says, and the library in every way of lending.
fn compare_one(bytes: &[u8]) -> Result<u8, String> {
    let expected = checksum(bytes);
    for lent in Lent::read_only_ways(bytes) {
        let answer = station::checksum(&lent);
        if answer != expected {
            return Err(format!("{answer:02X}, and not {expected:02X} ({})", lent.way));
        }
    }
    Ok(expected)
}
