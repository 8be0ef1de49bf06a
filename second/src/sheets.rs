//! Point sheets: a note, rows of 24 bytes and a trailer of 16 bytes, all
//! little-endian ("Point sheets" of 01).

use crate::refusals::{Refusal, LENGTHS, ROOM, ROW_COUNT, ROW_KIND, SHORT_SHEET, VERSION};

/// Bytes of a trailer: row count, distance, version and zero, each u32.
pub const TRAILER: usize = 16;
/// Bytes of a row: kind (u64) and two values as f64 bits.
pub const ROW: usize = 24;
/// The longest note.
pub const NOTE: usize = 4096;
/// The most rows.
pub const ROWS: usize = 1000;
/// The only version.
const VERSION_1: u32 = 1;

/// A sheet that reads: its note and its rows' bytes.
#[derive(Clone, Copy, Debug, PartialEq, Eq)]
pub struct Sheet<'a> {
    pub note: &'a [u8],
    rows: &'a [u8],
}

impl Sheet<'_> {
    /// Each row as its kind and two values.
    pub fn rows(&self) -> impl Iterator<Item = (u64, f64, f64)> + '_ {
        self.rows.chunks_exact(ROW).map(|row| {
            let value = |at| f64::from_bits(word(row, at));
            (word(row, 0), value(8), value(16))
        })
    }
}

/// The u64 at a place.
fn word(bytes: &[u8], at: usize) -> u64 {
    let mut word = [0; 8];
    word.copy_from_slice(&bytes[at..at + 8]);
    u64::from_le_bytes(word)
}

/// The u32 at a place.
fn half_word(bytes: &[u8], at: usize) -> u32 {
    let mut word = [0; 4];
    word.copy_from_slice(&bytes[at..at + 4]);
    u32::from_le_bytes(word)
}

/// Reads a sheet, or refuses it by 20, 21, 22, 23 or 24.
pub fn read(bytes: &[u8]) -> Result<Sheet<'_>, Refusal> {
    let body = bytes.len().checked_sub(TRAILER).ok_or(SHORT_SHEET)?;
    let (body, trailer) = bytes.split_at(body);
    let [count, distance, version, zero] = [0, 4, 8, 12].map(|at| half_word(trailer, at));
    if version != VERSION_1 || zero != 0 {
        return Err(VERSION);
    }
    let (count, distance) = (count as usize, distance as usize);
    if count > ROWS {
        return Err(ROW_COUNT);
    }
    if distance != ROW * count {
        return Err(LENGTHS);
    }
    let note = body.len().checked_sub(distance).ok_or(LENGTHS)?;
    if note > NOTE {
        return Err(LENGTHS);
    }
    let (note, rows) = body.split_at(note);
    judge_kinds(rows)?;
    Ok(Sheet { note, rows })
}

/// Writes a sheet at the front of `room` and gives its length, or refuses by 22, 23,
/// 24 or 25 and writes nothing.
pub fn write(note: &[u8], rows: &[u8], room: &mut [u8]) -> Result<usize, Refusal> {
    if rows.len() / ROW > ROWS {
        return Err(ROW_COUNT);
    }
    if note.len() > NOTE || !rows.len().is_multiple_of(ROW) {
        return Err(LENGTHS);
    }
    judge_kinds(rows)?;
    let sheet = [note, rows, &trailer(rows.len())].concat();
    room.get_mut(..sheet.len()).ok_or(ROOM)?.copy_from_slice(&sheet);
    Ok(sheet.len())
}

/// The trailer behind so many bytes of rows.
pub fn trailer(distance: usize) -> Vec<u8> {
    let count = (distance / ROW) as u32;
    [count, distance as u32, VERSION_1, 0].into_iter().flat_map(u32::to_le_bytes).collect()
}

fn judge_kinds(rows: &[u8]) -> Result<(), Refusal> {
    let known = rows.chunks_exact(ROW).all(|row| (1..=4).contains(&word(row, 0)));
    if known {
        Ok(())
    } else {
        Err(ROW_KIND)
    }
}

#[cfg(test)]
mod tests {
    use super::*;

    fn row(kind: u64) -> Vec<u8> {
        [kind, 1.0_f64.to_bits(), f64::NAN.to_bits()]
            .into_iter()
            .flat_map(u64::to_le_bytes)
            .collect()
    }

    fn written(note: &[u8], rows: &[u8]) -> Vec<u8> {
        let mut room = vec![0xee; 30_000];
        let length = write(note, rows, &mut room).unwrap();
        assert!(room[length..].iter().all(|&byte| byte == 0xee));
        room.truncate(length);
        room
    }

    #[test]
    fn the_empty_sheet_is_sixteen_bytes() {
        let sheet = [0_u32, 0, 1, 0].into_iter().flat_map(u32::to_le_bytes).collect::<Vec<u8>>();
        assert_eq!(written(&[], &[]), sheet);
        assert_eq!(read(&sheet), Ok(Sheet { note: &[], rows: &[] }));
    }

    #[test]
    fn a_written_sheet_reads_back() {
        for (note, count) in [(0, 0), (5, 3), (NOTE, ROWS)] {
            let note = vec![7; note];
            let rows = row(4).repeat(count);
            let sheet = written(&note, &rows);
            let back = read(&sheet).unwrap();
            assert_eq!((back.note, back.rows), (&note[..], &rows[..]));
            assert_eq!(written(back.note, back.rows), sheet);
        }
    }

    #[test]
    fn reading_refuses_in_order() {
        let mut sheet = written(&[1, 2], &row(1));
        assert_eq!(read(&sheet[..15]), Err(SHORT_SHEET));
        assert_eq!(read(&[0xff; 16]), Err(VERSION));
        let trailer_at = sheet.len() - TRAILER;
        sheet[2] = 5;
        assert_eq!(read(&sheet), Err(ROW_KIND));
        sheet[trailer_at + 4] = 25;
        assert_eq!(read(&sheet), Err(LENGTHS));
        sheet[trailer_at..trailer_at + 4].fill(0xff);
        assert_eq!(read(&sheet), Err(ROW_COUNT));
        sheet[trailer_at + 12] = 1;
        assert_eq!(read(&sheet), Err(VERSION));
    }

    #[test]
    fn a_distance_past_the_start_and_a_long_note_are_refused() {
        let sheet = written(&[], &row(1));
        assert_eq!(read(&sheet[1..]), Err(LENGTHS));
        let long = [vec![0; NOTE + 1], trailer(0)].concat();
        assert_eq!(read(&long), Err(LENGTHS));
        assert!(read(&long[1..]).is_ok());
    }

    #[test]
    fn a_kind_is_a_whole_word() {
        let mut bytes = written(&[], &row(1));
        bytes[7] = 1;
        assert_eq!(read(&bytes), Err(ROW_KIND));
    }

    #[test]
    fn writing_refuses_in_order_and_keeps_the_room() {
        let mut room = vec![0xee; 39];
        let cases = [
            (NOTE + 1, [row(9).repeat(ROWS + 1), vec![0]].concat(), ROW_COUNT),
            (NOTE + 1, row(9), LENGTHS),
            (0, row(9)[..23].to_vec(), LENGTHS),
            (0, row(9), ROW_KIND),
            (0, row(1), ROOM),
        ];
        for (note, rows, refusal) in cases {
            assert_eq!(write(&vec![0; note], &rows, &mut room), Err(refusal));
            assert!(room.iter().all(|&byte| byte == 0xee));
        }
    }
}
