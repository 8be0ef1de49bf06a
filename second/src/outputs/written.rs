//! What `written` prints. Standard input is two little-endian words, how long the note
//! is and how long the room for the sheet, then the note, then the rows' bytes. A word
//! that is not there whole is 0, a note ends at the latest with the input, and no room is
//! longer than the longest sheet. At most 65,536 bytes are read. Printed are the bytes
//! of the sheet, or `refused N` and a newline.

use super::listings::LONGEST;
use crate::refusals::Refusal;
use crate::sheets::write;

/// The most bytes of standard input that are read.
pub const LIMIT: usize = 65_536;

pub fn sheet(input: &[u8]) -> Vec<u8> {
    let input = &input[..input.len().min(LIMIT)];
    let rest = input.get(16..).unwrap_or(&[]);
    let (note, rows) = rest.split_at(word(input, 0).min(rest.len()));
    let mut room = vec![0; word(input, 8).min(LONGEST)];
    match write(note, rows, &mut room) {
        Ok(length) => room[..length].to_vec(),
        Err(Refusal(number)) => format!("refused {number}\n").into_bytes(),
    }
}

/// The word at a place, 0 where it is not there whole.
fn word(input: &[u8], at: usize) -> usize {
    let bytes = input.get(at..at + 8).and_then(|bytes| bytes.try_into().ok());
    bytes.map_or(0, u64::from_le_bytes).try_into().unwrap_or(usize::MAX)
}

#[cfg(test)]
mod tests {
    use super::*;
    use crate::sheets::{read, ROW};

    fn parts(note: u64, room: u64, rest: &[u8]) -> Vec<u8> {
        [&note.to_le_bytes()[..], &room.to_le_bytes(), rest].concat()
    }

    #[test]
    fn a_sheet_is_its_note_its_rows_and_a_trailer() {
        let mut row = [0; ROW];
        row[0] = 4;
        let written = sheet(&parts(3, u64::MAX, &[&b"abc"[..], &row].concat()));
        assert_eq!(written[..27], [&b"abc"[..], &row].concat());
        assert_eq!(read(&written).unwrap().note, b"abc");
    }

    #[test]
    fn what_is_missing_is_zero_or_nothing() {
        for few in 0..16 {
            assert_eq!(sheet(&vec![0xff; few]), b"refused 25\n");
        }
        assert_eq!(sheet(&parts(0, 16, &[])).len(), 16);
        assert_eq!(sheet(&parts(0, 15, &[])), b"refused 25\n");
        assert_eq!(sheet(&parts(9, 20, b"note")).len(), 20);
        assert_eq!(sheet(&parts(0, 40, &[1; ROW - 1])), b"refused 23\n");
        assert_eq!(sheet(&parts(0, 0, &[1; ROW])), b"refused 24\n");
        assert_eq!(sheet(&parts(0, 0, &[0; LIMIT])), b"refused 22\n");
    }
}
