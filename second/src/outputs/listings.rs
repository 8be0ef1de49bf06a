//! The listings of the programs that read a sheet: `regions`, `answers`, `quotients`.
//! A refused sheet prints only `refused N`; input above 28,112 bytes is refused by 23
//! before it is read.

use super::hex;
use crate::answers::{answer, Answer};
use crate::derivatives::quotient;
use crate::refusals::{Refusal, LENGTHS};
use crate::regions::highest_saturation_pressure;
use crate::saturation::saturation_temperature;
use crate::sheets::{read, Sheet, NOTE, ROW, ROWS, TRAILER};

/// The longest sheet: the longest note, the most rows and the trailer.
pub const LONGEST: usize = NOTE + ROWS * ROW + TRAILER;

/// Row number, kind, refusal and region of each row.
pub fn regions(input: &[u8]) -> String {
    listing(input, |sheet| {
        let mut text = String::from("row kind answer region\n");
        for (number, (kind, first, second)) in (1..).zip(sheet.rows()) {
            let (refusal, region) = outcome(&answer(kind, first, second));
            text.push_str(&format!("{number} {kind} {refusal} {region}\n"));
        }
        Ok(text)
    })
}

/// Refusal, region, mark and every value of each row.
pub fn answers(input: &[u8]) -> String {
    listing(input, |sheet| {
        let mut text = String::from("row kind answer region mark p T v u h s cp w x\n");
        for (number, (kind, first, second)) in (1..).zip(sheet.rows()) {
            let answer = answer(kind, first, second);
            let (refusal, region) = outcome(&answer);
            let values = answer.as_ref().map_or_else(|_| vec!["-".into(); 10], values);
            text.push_str(&format!("{number} {kind} {refusal} {region} {}\n", values.join(" ")));
        }
        Ok(text)
    })
}

/// Each row's quotient for each triple z, x, y of bytes in the note.
pub fn quotients(input: &[u8]) -> String {
    listing(input, |sheet| {
        if !sheet.note.len().is_multiple_of(3) {
            return Err(LENGTHS);
        }
        let mut text = String::from("row z x y answer value\n");
        for (number, (kind, first, second)) in (1..).zip(sheet.rows()) {
            for triple in sheet.note.chunks_exact(3) {
                let [z, x, y] = [triple[0], triple[1], triple[2]];
                let (refusal, value) = match quotient(kind, first, second, [z, x, y]) {
                    Ok(value) => (0, hex(value)),
                    Err(Refusal(number)) => (number, "-".into()),
                };
                text.push_str(&format!("{number} {z} {x} {y} {refusal} {value}\n"));
            }
        }
        Ok(text)
    })
}

/// How many rows of a sheet are answered in one phase at Ts(p): where a temperature past
/// saturation is pulled to. The gate counts by it how much of that it has compared.
pub fn saturated(input: &[u8]) -> usize {
    let at_saturation = |(kind, first, second)| match answer(kind, first, second) {
        Ok(Answer::Single { state, .. }) => {
            let meets_saturation = state.p <= highest_saturation_pressure();
            meets_saturation && state.t == saturation_temperature(state.p)
        }
        _ => false,
    };
    read(input).map_or(0, |sheet| sheet.rows().filter(|&row| at_saturation(row)).count())
}

/// The text of a sheet that reads, or the line of a refused one.
fn listing(input: &[u8], text: impl Fn(&Sheet) -> Result<String, Refusal>) -> String {
    let sheet = if input.len() > LONGEST { Err(LENGTHS) } else { read(input) };
    sheet
        .and_then(|sheet| text(&sheet))
        .unwrap_or_else(|Refusal(number)| format!("refused {number}\n"))
}

/// The refusal, 0 if none, and the region, 0 if refused; a wet state's is 4.
fn outcome(answer: &Result<Answer, Refusal>) -> (u8, u64) {
    match answer {
        Ok(Answer::Single { state, .. }) => (0, state.equation.region_number()),
        Ok(Answer::Wet { .. }) => (0, 4),
        Err(Refusal(number)) => (*number, 0),
    }
}

/// The mark, then p, T, v, u, h, s, cp, w and x; `-` for a value the state lacks.
fn values(answer: &Answer) -> Vec<String> {
    let (verified, values) = match answer {
        Answer::Single { state, verified } => {
            let of = &state.properties;
            let values = [state.p, state.t, of.v, of.u, of.h, of.s].map(Some);
            (verified, [&values[..], &[Some(of.cp), Some(of.w), None]].concat())
        }
        Answer::Wet { state: of, verified } => {
            let values = [of.p, of.t, of.v, of.u, of.h, of.s].map(Some);
            (verified, [&values[..], &[None, None, Some(of.x)]].concat())
        }
    };
    let mark = u8::from(*verified).to_string();
    let values = values.into_iter().map(|value| value.map_or("-".into(), hex));
    [mark].into_iter().chain(values).collect()
}

#[cfg(test)]
mod tests {
    use super::*;
    use crate::sheets::{trailer, write};

    fn sheet(note: &[u8], rows: &[(u64, f64, f64)]) -> Vec<u8> {
        let rows: Vec<u8> = rows
            .iter()
            .flat_map(|&(kind, first, second)| [kind, first.to_bits(), second.to_bits()])
            .flat_map(u64::to_le_bytes)
            .collect();
        let mut room = vec![0; LONGEST];
        let length = write(note, &rows, &mut room).unwrap();
        room.truncate(length);
        room
    }

    /// Its second row as M-101 of 02 reads it.
    #[test]
    fn the_listing_of_01() {
        let input = sheet(&[], &[(1, 10.0, 1500.0), (1, 10.5, 1500.0), (1, 100.0, 900.0)]);
        assert_eq!(regions(&input), "row kind answer region\n1 1 0 5\n2 1 0 5\n3 1 0 2\n");
    }

    #[test]
    fn refused_sheets_print_one_line() {
        for program in [regions, answers, quotients] {
            assert_eq!(program(&[]), "refused 20\n");
            assert_eq!(program(&[0xff; 16]), "refused 21\n");
            assert_eq!(program(&[0xff; LONGEST + 1]), "refused 23\n");
        }
        let longest = [vec![3; NOTE + 1], vec![0; 24_000], trailer(24_000)].concat();
        assert_eq!(regions(&longest), "refused 23\n");
        assert_eq!(regions(&longest[1..]), "refused 24\n");
    }

    #[test]
    fn answers_show_what_a_state_has() {
        let input = sheet(b"note", &[(1, 3.0, 300.0), (2, 1.0, 2000.0), (4, f64::NAN, 1.0)]);
        let text = answers(&input);
        let lines: Vec<Vec<&str>> = text.lines().map(|line| line.split(' ').collect()).collect();
        assert!(lines.iter().all(|line| line.len() == 14));
        assert_eq!(lines[1][..6], ["1", "1", "0", "1", "1", "4008000000000000"]);
        assert_eq!(lines[1][13], "-");
        assert_eq!(lines[2][..5], ["2", "2", "0", "4", "1"]);
        assert_eq!(lines[2][11..13], ["-", "-"]);
        assert_eq!(lines[3].join(" "), "3 4 1 0 - - - - - - - - - -");
    }

    #[test]
    fn rows_at_saturation_are_counted_in_one_phase_alone() {
        let pulled = [(2, 1.0, 762.68), (3, 0.01, 8.1489), (4, 2777.12, 6.585)];
        let others = [(2, 1.0, 2000.0), (2, 3.0, 500.0), (4, 2777.0, 6.585), (1, 25.0, 650.0)];
        assert_eq!(saturated(&sheet(&[], &[&pulled[..], &others].concat())), 3);
        assert_eq!((saturated(&sheet(&[], &others)), saturated(&[])), (0, 0));
    }

    #[test]
    fn quotients_take_their_triples_from_the_note() {
        let rows = [(1, 3.0, 300.0), (2, 1.0, 2000.0)];
        let text = quotients(&sheet(&[4, 4, 2, 1, 2, 9], &rows));
        let expected = "row z x y answer value\n\
            1 4 4 2 0 3ff0000000000000\n1 1 2 9 9 -\n2 4 4 2 8 -\n2 1 2 9 9 -\n";
        assert_eq!(text, expected);
        assert_eq!(quotients(&sheet(&[4, 4], &rows)), "refused 23\n");
        assert_eq!(quotients(&sheet(&[], &rows)), "row z x y answer value\n");
    }
}
