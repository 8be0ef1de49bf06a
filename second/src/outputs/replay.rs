//! The listing of the program `replay`: a run of desk calls read as records of six
//! little-endian words op, caller, a, b, c, d, and a line for what each call gave. Of a
//! post a is the kind, b and c are the bits of p and y, and d is the number of halvings.
//!
//! A run has at most 65,536 bytes. One byte more is read, so that a longer input always
//! ends with a bad record: a record that ends where a run may end leaves that byte
//! behind it, and one that reaches further is cut short, records being whole words.
//! The first record is read in any case, so the empty input is a bad record too.

use super::hex;
use crate::desk::{Collected, Desk, Peeked, Row, Turned, CALLERS, ROWS};
use crate::refusals::Refusal;

/// The most bytes of a run.
pub const LIMIT: usize = 65_536;
/// The most turns one record may ask for.
pub const MOST_TURNS: u64 = 100_000;

/// A record that cannot be taken.
struct BadRecord;

/// A line for each record, up to the last byte or a bad record.
pub fn listing(input: &[u8]) -> String {
    let mut words = Words(&input[..input.len().min(LIMIT + 1)]);
    let mut desk = Desk::new();
    let mut text = String::new();
    for number in 1.. {
        let line = played(&mut desk, &mut words);
        let ends = line.is_err() || words.0.is_empty();
        let line = line.unwrap_or_else(|BadRecord| "bad record".into());
        text.push_str(&format!("{number} {line}\n"));
        if ends {
            break;
        }
    }
    text
}

/// The words of standard input not yet taken.
struct Words<'a>(&'a [u8]);

impl Words<'_> {
    fn next(&mut self) -> Result<u64, BadRecord> {
        let (word, rest) = self.0.split_first_chunk().ok_or(BadRecord)?;
        self.0 = rest;
        Ok(u64::from_le_bytes(*word))
    }

    fn next_number(&mut self) -> Result<f64, BadRecord> {
        self.next().map(f64::from_bits)
    }
}

/// Takes one record and gives its line without the number.
fn played(desk: &mut Desk, words: &mut Words) -> Result<String, BadRecord> {
    let (op, caller, a) = (words.next()?, words.next()?, words.next()?);
    let (b, c, d) = (words.next_number()?, words.next_number()?, words.next()?);
    match op {
        1 => Ok(posted(desk.post(caller, a, b, c, d))),
        2 if a <= MOST_TURNS => Ok(turned(desk, a)),
        3 => Ok(peeked(desk.peek(caller, a))),
        4 => Ok(collected(desk.collect(caller, a))),
        5 => Ok(withdrawn(desk.withdraw(caller, a))),
        6 => {
            *desk = desk_from(words)?;
            Ok("desk".into())
        }
        7 => Ok(shown(desk)),
        _ => Err(BadRecord),
    }
}

fn posted(ticket: Result<u64, Refusal>) -> String {
    match ticket {
        Ok(ticket) => format!("post 0 {ticket}"),
        Err(Refusal(number)) => format!("post {number} -"),
    }
}

/// The refusal of the turns, how many halved and how many were idle.
fn turned(desk: &mut Desk, turns: u64) -> String {
    let (mut refusal, mut halved, mut idle) = (0, 0, 0);
    for _ in 0..turns {
        match desk.turn() {
            Ok(Turned::Halved) => halved += 1,
            Ok(Turned::Idle) => idle += 1,
            Err(Refusal(number)) => refusal = number,
        }
    }
    format!("turn {refusal} {halved} {idle}")
}

fn peeked(peeked: Result<Peeked, Refusal>) -> String {
    match peeked {
        Ok(Peeked { halvings, lo, hi }) => format!("peek 0 {halvings} {} {}", hex(lo), hex(hi)),
        Err(Refusal(number)) => format!("peek {number} - - -"),
    }
}

fn collected(collected: Result<Collected, Refusal>) -> String {
    match collected {
        Ok(Collected { state, verified, number, lo, hi }) => {
            let of = &state.properties;
            let values = [state.p, state.t, of.v, of.u, of.h, of.s, of.cp, of.w].map(hex);
            let (region, mark) = (state.equation.region_number(), u8::from(verified));
            let (values, lo, hi) = (values.join(" "), hex(lo), hex(hi));
            format!("collect 0 {region} {mark} {values} {number} {lo} {hi}")
        }
        Err(Refusal(number)) => format!("collect {number}{}", " -".repeat(13)),
    }
}

fn withdrawn(withdrawn: Result<(), Refusal>) -> String {
    let number = withdrawn.map_or_else(|Refusal(number)| number, |()| 0);
    format!("withdraw {number}")
}

/// Pointer and counts, then a line for each filled row, rows counted from 0.
fn shown(desk: &Desk) -> String {
    let counts = desk.counts.map(|count| count.to_string()).join(" ");
    let mut text = format!("pointer {} counts {counts}", desk.pointer);
    for (index, row) in desk.rows.iter().enumerate().filter(|(_, row)| row.filled) {
        let Row { caller, ticket, kind, region, number, halvings, .. } = row;
        let [p, y, lo, hi] = [row.p, row.y, row.lo, row.hi].map(hex);
        text.push_str(&format!(
            "\nrow {index} {caller} {ticket} {kind} {region} {p} {y} {number} {halvings} {lo} {hi}"
        ));
    }
    text
}

/// The desk in the words after a record: pointer, counts, rows.
fn desk_from(words: &mut Words) -> Result<Desk, BadRecord> {
    let mut desk = Desk::new();
    desk.pointer = words.next()?;
    for caller in 0..CALLERS {
        desk.counts[caller] = words.next()?;
    }
    for index in 0..ROWS {
        desk.rows[index] = row_from(words)?;
    }
    Ok(desk)
}

fn row_from(words: &mut Words) -> Result<Row, BadRecord> {
    let filled = match words.next()? {
        0 => false,
        1 => true,
        _ => return Err(BadRecord),
    };
    Ok(Row {
        filled,
        caller: words.next()?,
        ticket: words.next()?,
        kind: words.next()?,
        region: words.next()?,
        p: words.next_number()?,
        y: words.next_number()?,
        number: words.next()?,
        halvings: words.next()?,
        lo: words.next_number()?,
        hi: words.next_number()?,
    })
}

#[cfg(test)]
mod tests {
    use super::*;

    fn bytes(words: &[u64]) -> Vec<u8> {
        words.iter().flat_map(|word| word.to_le_bytes()).collect()
    }

    fn post(caller: u64, kind: u64, p: f64, y: f64, number: u64) -> [u64; 6] {
        [1, caller, kind, p.to_bits(), y.to_bits(), number]
    }

    /// A record of any op but a post.
    fn record(op: u64, caller: u64, a: u64) -> [u64; 6] {
        [op, caller, a, 0, 0, 0]
    }

    /// A record that gives a new desk, with the 361 words behind it.
    fn new_desk() -> Vec<u64> {
        [&record(6, 0, 0)[..], &[0; 361]].concat()
    }

    #[test]
    fn a_run_from_post_to_collect() {
        let run = [
            post(3, 2, 3.0, 500.0, 40),
            record(3, 3, 0),
            record(4, 3, 0),
            record(2, 0, 50),
            record(7, 0, 0),
            record(4, 3, 0),
            record(5, 3, 0),
            post(9, 2, 3.0, 500.0, 40),
        ];
        let text = listing(&bytes(&run.concat()));
        let lines: Vec<&str> = text.lines().collect();
        assert_eq!(lines[0], "1 post 0 0");
        assert!(lines[1].starts_with("2 peek 0 0 4071126666666666 "));
        assert_eq!(lines[2], "3 collect 12 - - - - - - - - - - - - -");
        assert_eq!(lines[3], "4 turn 0 40 10");
        assert_eq!(lines[4], "5 pointer 1 counts 0 0 0 1 0 0 0 0");
        let row = "row 0 3 0 2 1 4008000000000000 407f400000000000 40 40 ";
        assert!(lines[5].starts_with(row));
        assert!(lines[6].starts_with("6 collect 0 1 1 4008000000000000 "));
        assert_eq!(lines[6].split(' ').count(), 16);
        assert_eq!(lines[7], "7 withdraw 11");
        assert_eq!(lines[8], "8 post 9 -");
    }

    /// The columns from the nth on, counted from 0.
    fn columns(line: &str, from: usize) -> Vec<&str> {
        line.split(' ').skip(from).collect()
    }

    #[test]
    fn a_collect_shows_the_number_and_the_bracket_that_a_peek_showed_last() {
        for number in [10, 27, 50] {
            let run = [
                post(3, 3, 0.1, 8.0, number),
                record(2, 0, number - 1),
                record(7, 0, 0),
                record(2, 0, 2),
                record(3, 3, 0),
                record(4, 3, 0),
            ];
            let text = listing(&bytes(&run.concat()));
            let lines: Vec<&str> = text.lines().collect();
            let (number, before) = (number.to_string(), (number - 1).to_string());
            assert_eq!(columns(lines[3], 8)[..2], [&number, &before]);
            assert_eq!(lines[4], "4 turn 0 1 1");
            let peeked = columns(lines[5], 3);
            assert_eq!(peeked[0], number);
            assert_eq!(columns(lines[6], 13), peeked);
        }
    }

    #[test]
    fn posts_for_too_few_or_too_many_halvings_are_refused_by_9() {
        let nan = f64::NAN;
        let mut words = [
            post(0, 2, 3.0, 500.0, 9),
            post(0, 2, 3.0, 500.0, 51),
            post(0, 2, nan, 500.0, 0),
            post(0, 2, nan, 500.0, u64::MAX),
            post(0, 2, nan, 500.0, 10),
            post(0, 2, 3.0, 500.0, 10),
        ]
        .concat();
        words.extend(new_desk());
        *words.last_chunk_mut::<361>().unwrap().first_mut().unwrap() = 32;
        words.extend(post(8, 1, nan, 0.0, 51));
        let expected = "1 post 9 -\n2 post 9 -\n3 post 9 -\n4 post 9 -\n5 post 1 -\n\
            6 post 0 0\n7 desk\n8 post 15 -\n";
        assert_eq!(listing(&bytes(&words)), expected);
    }

    /// A desk with one filled row, of caller 3, ticket 0 of 1.
    fn desk_of_one(number: u64, halvings: u64) -> Vec<u64> {
        let mut words = new_desk();
        words[6 + 1 + 3] = 1;
        let row = [1, 3, 0, 2, 1, 3.0_f64.to_bits(), 500.0_f64.to_bits(), number, halvings];
        let bracket = [300.0_f64.to_bits(), 400.0_f64.to_bits()];
        words[6 + 9..6 + 9 + 11].copy_from_slice(&[&row[..], &bracket].concat());
        words
    }

    #[test]
    fn a_given_desk_is_judged_by_the_numbers_of_its_rows() {
        let cases = [
            (10, 9, "turn 0 1 1", "withdraw 0"),
            (10, 10, "turn 0 0 2", "withdraw 0"),
            (50, 49, "turn 0 1 1", "withdraw 0"),
            (10, 11, "turn 15 0 0", "withdraw 15"),
            (39, 40, "turn 15 0 0", "withdraw 15"),
            (50, 51, "turn 15 0 0", "withdraw 15"),
            (9, 0, "turn 15 0 0", "withdraw 15"),
            (51, 40, "turn 15 0 0", "withdraw 15"),
        ];
        for (number, halvings, turned, withdrawn) in cases {
            let mut words = desk_of_one(number, halvings);
            words.extend([record(7, 0, 0), record(2, 0, 2), record(5, 3, 0)].concat());
            let expected = format!(
                "1 desk\n2 pointer 0 counts 0 0 0 1 0 0 0 0\n\
                 row 0 3 0 2 1 4008000000000000 407f400000000000 {number} {halvings} \
                 4072c00000000000 4079000000000000\n3 {turned}\n4 {withdrawn}\n"
            );
            assert_eq!(listing(&bytes(&words)), expected);
        }
    }

    #[test]
    fn an_unsound_desk_refuses_every_call_and_is_shown() {
        let mut words = new_desk();
        words[6] = 32;
        let calls = [
            record(2, 0, 3),
            record(2, 0, 0),
            post(0, 9, 0.0, 0.0, 0),
            record(3, 9, 0),
            record(4, 0, 0),
            record(5, 0, 0),
            record(7, 0, 0),
        ];
        words.extend(calls.concat());
        let expected = "1 desk\n2 turn 15 0 0\n3 turn 0 0 0\n4 post 15 -\n5 peek 15 - - -\n\
            6 collect 15 - - - - - - - - - - - - -\n7 withdraw 15\n\
            8 pointer 32 counts 0 0 0 0 0 0 0 0\n";
        assert_eq!(listing(&bytes(&words)), expected);
    }

    #[test]
    fn a_bad_record_ends_the_run() {
        let show = record(7, 0, 0);
        let shown = "1 pointer 0 counts 0 0 0 0 0 0 0 0\n";
        let mut filled = new_desk();
        filled[6 + 9] = 2;
        let runs: [&[u64]; 6] = [
            &record(8, 0, 0),
            &record(0, 0, 0),
            &[record(2, 0, 100_001), show].concat(),
            &show[..5],
            &[&record(6, 0, 0)[..], &[0; 360]].concat(),
            &filled,
        ];
        for run in runs {
            let run = [&show, run].concat();
            assert_eq!(listing(&bytes(&run)), format!("{shown}2 bad record\n"));
        }
        for length in [0, 1, 8, 47] {
            assert_eq!(listing(&vec![7; length]), "1 bad record\n");
        }
    }

    /// 65,536 bytes: 1,245 records of 48 bytes, of which 2 carry a desk of 2,888 more.
    fn longest_run() -> Vec<u8> {
        let withdraws = record(5, 0, 0).repeat(1243);
        bytes(&[new_desk().repeat(2), withdraws].concat())
    }

    #[test]
    fn a_run_of_the_greatest_length_is_played_to_its_end() {
        let run = longest_run();
        assert_eq!(run.len(), LIMIT);
        let text = listing(&run);
        assert!(text.starts_with("1 desk\n2 desk\n3 withdraw 11\n"));
        assert!(text.ends_with("1245 withdraw 11\n"));
    }

    #[test]
    fn a_longer_run_ends_with_a_bad_record() {
        for more in [1, 47, 48, 49, 96, 10_000] {
            let text = listing(&[longest_run(), vec![0; more]].concat());
            assert!(text.ends_with("1245 withdraw 11\n1246 bad record\n"), "{more}");
        }
        for count in [1366, 1420] {
            let text = listing(&bytes(&record(5, 0, 0).repeat(count)));
            assert!(text.ends_with("1365 withdraw 11\n1366 bad record\n"), "{count}");
        }
        let text = listing(&bytes(&new_desk().repeat(23)));
        assert!(text.ends_with("22 desk\n23 bad record\n"));
    }
}
