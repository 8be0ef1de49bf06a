//! Inputs that are not as their program asks for them.

use super::random::Random;
use crate::sheets::{trailer, NOTE, ROW, ROWS, TRAILER};

/// Ends an input before its last byte.
pub fn cut(mut bytes: Vec<u8>, random: &mut Random) -> Vec<u8> {
    bytes.truncate(random.below(bytes.len().max(1)));
    bytes
}

/// Repeats an input until it is longer than `most`, one in three by a single byte.
pub fn longer(bytes: Vec<u8>, most: usize, random: &mut Random) -> Vec<u8> {
    let times = (most + 1).div_ceil(bytes.len()) + random.below(2);
    let mut bytes = bytes.repeat(times);
    let spare = bytes.len() - (most + 1);
    let kept = random.below(spare + 1);
    bytes.truncate(most + 1 + random.pick(&[0, kept, spare]));
    bytes
}

/// Bytes without meaning: mostly few, sometimes up to twice as many as `most`.
pub fn meaningless(most: usize, random: &mut Random) -> Vec<u8> {
    let length = match random.below(4) {
        0 => random.below(2 * most),
        _ => 1 + random.below(200),
    };
    random.bytes(length)
}

/// Leaves an input of words whole, cuts it, turns a bit of it, puts any bits into one of
/// its words, or lengthens it.
pub fn words(mut bytes: Vec<u8>, random: &mut Random) -> Vec<u8> {
    match random.below(5) {
        0 => bytes,
        1 => cut(bytes, random),
        2 => with_turned_bit(bytes, random),
        3 => {
            let at = 8 * random.below(bytes.len() / 8);
            bytes[at..at + 8].copy_from_slice(&random.word().to_le_bytes());
            bytes
        }
        _ => {
            let length = 1 + random.below(80);
            [bytes, random.bytes(length)].concat()
        }
    }
}

fn with_turned_bit(mut bytes: Vec<u8>, random: &mut Random) -> Vec<u8> {
    let at = random.below(bytes.len());
    bytes[at] ^= 1 << random.below(8);
    bytes
}

/// Leaves a sheet whole, damages it or takes another in its place.
pub fn sheet(sheet: Vec<u8>, random: &mut Random) -> Vec<u8> {
    match random.below(12) {
        0..=2 => sheet,
        3 => cut(sheet, random),
        4 => with_turned_bit(sheet, random),
        5 | 6 => with_trailer_word(sheet, random),
        7 => with_kind(sheet, random),
        8 => lengthened(sheet, random),
        9 => at_a_limit(random),
        10 => {
            let length = random.below(64);
            random.bytes(length)
        }
        _ => vec![random.pick(&[0, 0xff]); random.below(18)],
    }
}

/// Puts a telling number into one of the trailer's four words.
fn with_trailer_word(mut sheet: Vec<u8>, random: &mut Random) -> Vec<u8> {
    let at = sheet.len() - TRAILER + 4 * random.below(4);
    let mut word = [0; 4];
    word.copy_from_slice(&sheet[at..at + 4]);
    let held = u32::from_le_bytes(word);
    let put = match random.below(6) {
        0 => held.wrapping_add(1),
        1 => held.wrapping_sub(1),
        2 => held.wrapping_add(24),
        3 => random.pick(&[0, 1, 2, 24, 1000, 1001, 24_000, 24_024]),
        4 => u32::MAX,
        _ => random.bits() as u32,
    };
    sheet[at..at + 4].copy_from_slice(&put.to_le_bytes());
    sheet
}

/// Puts a telling number into the kind of one row; without rows, leaves all.
fn with_kind(mut sheet: Vec<u8>, random: &mut Random) -> Vec<u8> {
    let end = sheet.len() - TRAILER;
    let mut word = [0; 4];
    word.copy_from_slice(&sheet[end..end + 4]);
    let count = u32::from_le_bytes(word) as usize;
    if count > 0 {
        let at = end - ROW * (1 + random.below(count));
        let kind = random.pick(&[0, 1, 4, 5, 256, 1 << 32 | 1, 1 << 63, u64::MAX]);
        sheet[at..at + 8].copy_from_slice(&kind.to_le_bytes());
    }
    sheet
}

/// Lengthens a sheet behind, or before, where the note grows.
fn lengthened(sheet: Vec<u8>, random: &mut Random) -> Vec<u8> {
    let more = vec![0; random.pick(&[1, 8, 24, NOTE])];
    if random.below(2) == 0 {
        [sheet, more].concat()
    } else {
        [more, sheet].concat()
    }
}

/// Lengths of a note and numbers of rows at the limits and next to them, whole or not; no
/// long note of triples has many rows.
const LIMITS: [(usize, usize); 16] = [
    (0, 0),
    (0, 1),
    (0, ROWS - 1),
    (0, ROWS),
    (0, ROWS + 1),
    (3, ROWS),
    (NOTE - 1, 0),
    (NOTE - 1, 1),
    (NOTE, 0),
    (NOTE, 1),
    (NOTE, ROWS - 1),
    (NOTE, ROWS),
    (NOTE, ROWS + 1),
    (NOTE + 1, 0),
    (NOTE + 1, 1),
    (NOTE + 1, ROWS),
];

/// A sheet at the limit of a length, or one past it.
fn at_a_limit(random: &mut Random) -> Vec<u8> {
    let (note, rows) = random.pick(&LIMITS);
    let row = [1, 10.0_f64.to_bits(), 1500.0_f64.to_bits()].map(u64::to_le_bytes).concat();
    [vec![1; note], row.repeat(rows), trailer(rows * ROW)].concat()
}

#[cfg(test)]
mod tests {
    use super::*;
    use crate::inputs::papers::small;
    use crate::sheets::read;
    use std::collections::{BTreeMap, BTreeSet};

    #[test]
    fn sheets_reach_every_refusal_and_many_stay_whole() {
        for triples in [false, true] {
            let mut outcomes = BTreeMap::new();
            for seed in 0..500 {
                let sheet = sheet(small(seed, 20, triples), &mut Random::new(seed));
                let outcome = read(&sheet).map_or_else(|refusal| refusal.0, |_| 0);
                *outcomes.entry(outcome).or_insert(0) += 1;
            }
            let every = BTreeSet::from([0, 20, 21, 22, 23, 24]);
            assert_eq!(outcomes.keys().copied().collect::<BTreeSet<u8>>(), every);
            assert!(outcomes[&0] > 100);
        }
    }

    #[test]
    fn limits_are_whole_up_to_the_limit() {
        let mut random = Random::new(0);
        let sheets: Vec<Vec<u8>> = (0..300).map(|_| at_a_limit(&mut random)).collect();
        assert!(sheets.iter().any(|sheet| sheet.len() == 28_112 && read(sheet).is_ok()));
        assert!(sheets.iter().any(|sheet| sheet.len() == 28_113 && read(sheet).is_err()));
        assert!(sheets.iter().any(|sheet| sheet.len() == 24_040 && read(sheet).is_err()));
    }
}
