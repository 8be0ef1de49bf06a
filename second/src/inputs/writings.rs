//! Notes and rows for `written`, behind the words that say how long the note is and how
//! long the room.

use super::random::Random;
use crate::sheets::{NOTE, ROW, ROWS, TRAILER};

/// What is to be written: the two words, the note and the rows.
struct Writing {
    note: u64,
    room: u64,
    rest: Vec<u8>,
}

impl Writing {
    fn bytes(self) -> Vec<u8> {
        [&self.note.to_le_bytes()[..], &self.room.to_le_bytes(), &self.rest].concat()
    }
}

/// A note and `count` rows, at most 1,000, that are written into a room that holds them.
pub fn whole(seed: u64, count: usize) -> Vec<u8> {
    let mut random = Random::new(seed);
    let note = note(&mut random);
    fitting(note, &rows(count, &mut random), &mut random).bytes()
}

/// Up to `most` rows with a note, as `whole` has them or with something changed: up to
/// three things, so that of two refusals the first must be found.
pub fn damaged(seed: u64, most: usize, random: &mut Random) -> Vec<u8> {
    let mut inner = Random::new(seed);
    let count = inner.below(most + 1);
    let mut note = note(&mut inner);
    let mut rows = rows(count, &mut inner);
    let changes = random.below(4);
    let changes: Vec<usize> = (0..changes).map(|_| random.below(4)).collect();
    if changes.contains(&0) {
        note.resize(NOTE + random.pick(&[1, 1, 24]), 7);
    }
    if changes.contains(&1) {
        rows = rows.repeat(1 + (ROWS * ROW).div_ceil(rows.len().max(1)));
        rows.truncate(ROW * ROWS + random.pick(&[0, 1, 23, 24, 25, 48]));
    }
    if changes.contains(&2) {
        rows.truncate(rows.len().saturating_sub(random.pick(&[1, 8, 23])));
    }
    if changes.contains(&3) && rows.len() >= ROW {
        let at = ROW * random.below(rows.len() / ROW);
        let kind = random.pick(&[0, 5, 256, 1 << 32 | 1, 1 << 63, u64::MAX]);
        rows[at..at + 8].copy_from_slice(&kind.to_le_bytes());
    }
    let mut writing = fitting(note, &rows, random);
    match random.below(8) {
        0 => writing.room = (writing.rest.len() + TRAILER - 1) as u64,
        1 => writing.room = random.below(writing.rest.len() + TRAILER) as u64,
        2 => writing.note = writing.note.wrapping_add(random.pick(&[1, 24, u64::MAX])),
        3 => writing.note = random.word(),
        _ => {}
    }
    writing.bytes()
}

/// A room just long enough, or longer.
fn fitting(note: Vec<u8>, rows: &[u8], random: &mut Random) -> Writing {
    let length = (note.len() + rows.len() + TRAILER) as u64;
    let room = random.pick(&[length, length, length + 1, 28_112, u64::MAX]).max(length);
    Writing { note: note.len() as u64, room, rest: [&note[..], rows].concat() }
}

/// Any bytes, few or as many as there may be.
fn note(random: &mut Random) -> Vec<u8> {
    let few = random.below(40);
    let length = random.pick(&[0, few, few, few, NOTE - 1, NOTE]);
    random.bytes(length)
}

fn rows(count: usize, random: &mut Random) -> Vec<u8> {
    (0..count)
        .flat_map(|_| [1 + random.below(4) as u64, random.word(), random.word()])
        .flat_map(u64::to_le_bytes)
        .collect()
}

#[cfg(test)]
mod tests {
    use super::*;
    use crate::outputs;
    use crate::Program;
    use std::collections::BTreeMap;

    fn written(input: &[u8]) -> Vec<u8> {
        outputs::bytes(Program::Written, input)
    }

    #[test]
    fn whole_ones_are_written() {
        for seed in 0..50 {
            let input = whole(seed, 20);
            assert_eq!(written(&input)[..input.len() - 16], input[16..]);
        }
    }

    #[test]
    fn damaged_ones_reach_every_refusal_and_many_are_written() {
        let mut refused = BTreeMap::new();
        let mut sheets = 0;
        for seed in 0..1000 {
            let text = written(&damaged(seed, 20, &mut Random::new(!seed)));
            if text.starts_with(b"refused ") {
                *refused.entry(text).or_insert(0) += 1;
            } else {
                sheets += 1;
            }
        }
        assert!(sheets > 100);
        assert!((22..26).all(|number| refused[format!("refused {number}\n").as_bytes()] > 40));
    }
}
