//! Standard input for the program `replay`: runs of desk calls. The desk is kept
//! beside the run, so that most calls name tickets that are open.

use super::points::py;
use super::random::Random;
use crate::basic::Region;
use crate::desk::{
    bracket, Desk, Row, CALLERS, FEWEST_HALVINGS, MOST_HALVINGS, MOST_TICKETS, ROWS,
};
use crate::outputs::{most_bytes, MOST_TURNS};
use crate::Program;

/// The words of a record: op, caller, a, b, c, d.
pub type Record = [u64; 6];

/// Calls that fill a run to its last byte, beside two that set the desk: 2 · 2,936 +
/// 1,243 · 48 = 65,536.
const CALLS_BESIDE_TWO_DESKS: usize = 1243;

/// A run of `count` records, fewer where the input would grow too long. The seed decides
/// what is in it: of three consecutive ones, one begins on a new desk, one on a sound desk
/// given in words and one on an unsound one; of five, one ends in a bad record; of eight,
/// one holds any bits in its words; of 32, one is of the greatest length; of 60, one has
/// nearly or exactly the most turns that a record may ask for.
pub fn records(seed: u64, count: usize) -> Vec<u8> {
    if seed % 32 == 17 {
        return longest(seed);
    }
    let mut run = Run::new(seed);
    match seed % 3 {
        0 => {}
        1 => run.set_sound_desk(),
        _ => run.set_unsound_desk(),
    }
    for index in 0..count {
        match seed % 8 {
            _ if run.is_nearly_full() => break,
            3 => run.any_bits(),
            _ => run.step(),
        }
        if seed % 60 == 36 && index == count / 2 {
            let turns = run.random.pick(&[MOST_TURNS, MOST_TURNS - 1, 65_536]);
            run.call([2, 0, turns, 0, 0, 0]);
        }
    }
    if seed % 5 == 4 {
        run.bad_record();
    }
    run.bytes
}

/// A run whose last record ends with the last byte that a run may have.
fn longest(seed: u64) -> Vec<u8> {
    let mut run = Run::new(seed);
    for index in 0..CALLS_BESIDE_TWO_DESKS {
        if index % 600 == 100 {
            run.set_sound_desk();
        }
        run.one_call();
    }
    run.bytes
}

/// A run that goes on past the last byte that a run may have. For one seed in two a record
/// ends there, otherwise one reaches past it.
pub fn past_the_end(seed: u64) -> Vec<u8> {
    let mut run = Run::new(seed);
    if seed.is_multiple_of(2) {
        run.bytes = longest(seed);
    }
    while run.bytes.len() <= most_bytes(Program::Replay) + 200 {
        run.one_call();
    }
    run.bytes
}

/// A run as it is made, with the desk that it leaves.
pub struct Run {
    pub random: Random,
    pub desk: Desk,
    pub bytes: Vec<u8>,
}

impl Run {
    pub fn new(seed: u64) -> Run {
        Run { random: Random::new(seed), desk: Desk::new(), bytes: Vec::new() }
    }

    pub fn is_nearly_full(&self) -> bool {
        self.bytes.len() + 3000 > most_bytes(Program::Replay)
    }

    fn words(&mut self, words: &[u64]) {
        self.bytes.extend(words.iter().flat_map(|word| word.to_le_bytes()));
    }

    /// A record, and what it does to the desk.
    pub fn call(&mut self, record: Record) {
        self.words(&record);
        let [op, caller, a, b, c, d] = record;
        match op {
            1 => {
                let _ = self.desk.post(caller, a, f64::from_bits(b), f64::from_bits(c), d);
            }
            2 => {
                for _ in 0..a {
                    let _ = self.desk.turn();
                }
            }
            4 => {
                let _ = self.desk.collect(caller, a);
            }
            5 => {
                let _ = self.desk.withdraw(caller, a);
            }
            _ => {}
        }
    }

    /// One call; an unsound desk is soon exchanged.
    pub fn step(&mut self) {
        let kept = if self.desk.is_sound() { 40 } else { 4 };
        match (self.random.below(kept), self.random.below(4)) {
            (0, 0) => self.set_unsound_desk(),
            (0, _) => self.set_sound_desk(),
            _ => self.one_call(),
        }
    }

    fn one_call(&mut self) {
        match self.random.below(40) {
            0..=13 => self.post(),
            14 => self.post_with_faults(),
            15..=23 => self.turn(),
            24..=28 => self.peek_or_withdraw(3),
            29..=35 => self.collect(),
            36 | 37 => self.peek_or_withdraw(5),
            _ => self.show(),
        }
    }

    fn post(&mut self) {
        let caller = self.caller();
        let kind = match self.random.below(16) {
            0 => self.random.pick(&[0, 1, 4, 5, u64::MAX]),
            _ => 2 + self.random.below(2) as u64,
        };
        let (_, p, y) = py(&mut self.random, if kind == 3 { 3 } else { 2 });
        let number = any_number(&mut self.random);
        self.call([1, caller, kind, p.to_bits(), y.to_bits(), number]);
    }

    /// A post for which several refusals apply, so that their order shows.
    fn post_with_faults(&mut self) {
        let caller = self.random.pick(&[0, 1, 2, 7, 8, u64::MAX]);
        let kind = self.random.pick(&[1, 2, 2, 3, 3, 4]);
        let number = match self.random.below(3) {
            0 => number_within(&mut self.random),
            _ => number_outside(&mut self.random),
        };
        let p = self.random.pick(&[f64::NAN, f64::INFINITY, 0.0, 0.0006, 100.5, 1.0, 25.0]);
        let y = self.random.pick(&[f64::NAN, 1e9, 500.0, 2000.0, 2100.0, 1.5]);
        self.call([1, caller, kind, p.to_bits(), y.to_bits(), number]);
    }

    /// Mostly few turns, sometimes enough to make every job ready.
    fn turn(&mut self) {
        let turns = match self.random.below(16) {
            0 => self.random.pick(&[1280, 1600]),
            1 | 2 => self.random.pick(&[160, 320]),
            _ => self.random.pick(&[0, 1, 1, 2, 3, 5, 13, 40]),
        };
        let [caller, b, c, d] = self.unused();
        self.call([2, caller, turns, b, c, d]);
    }

    /// Whatever the ticket's row holds.
    pub fn peek_or_withdraw(&mut self, op: u64) {
        let (caller, ticket) = self.ticket(|_| true);
        let [_, b, c, d] = self.unused();
        self.call([op, caller, ticket, b, c, d]);
    }

    fn collect(&mut self) {
        let ready = self.random.below(4) != 0;
        let (caller, ticket) = self.ticket(|row| !ready || !row.is_unfinished());
        let [_, b, c, d] = self.unused();
        self.call([4, caller, ticket, b, c, d]);
    }

    pub fn show(&mut self) {
        let ([caller, b, c, d], a) = (self.unused(), self.random.pick(&[0, 1, u64::MAX]));
        self.call([7, caller, a, b, c, d]);
    }

    /// Words that a record does not look at: zeros, or any bits.
    fn unused(&mut self) -> [u64; 4] {
        match self.random.below(2) {
            0 => [0; 4],
            _ => [(); 4].map(|()| self.random.word()),
        }
    }

    /// A record with any bits in its words, or a desk, now and then one with any bits too.
    fn any_bits(&mut self) {
        let [caller, a, b, c, d] = [(); 5].map(|()| self.random.word());
        let sound = self.desk.is_sound();
        match self.random.below(8) as u64 {
            0 if sound => self.set_desk(any_desk),
            0 | 6 => self.set_sound_desk(),
            2 => self.call([2, caller, a % 200, b, c, d]),
            op => self.call([op, caller, a, b, c, d]),
        }
    }

    pub fn caller(&mut self) -> u64 {
        match self.random.below(16) {
            0 => self.random.pick(&[8, 9, 1 << 32, u64::MAX]),
            _ => self.random.below(CALLERS) as u64,
        }
    }

    /// A caller and ticket: mostly those of a filled row that is wanted.
    pub fn ticket(&mut self, wanted: impl Fn(&Row) -> bool) -> (u64, u64) {
        let rows = self.desk.rows.iter().filter(|row| row.filled && wanted(row));
        let open: Vec<(u64, u64)> = rows.map(|row| (row.caller, row.ticket)).collect();
        if open.is_empty() || self.random.below(8) == 0 {
            let caller = self.random.pick(&[0, 3, 7, 8, u64::MAX]);
            (caller, self.random.pick(&[0, 1, 2, MOST_TICKETS, u64::MAX]))
        } else {
            self.random.pick(&open)
        }
    }

    fn set_sound_desk(&mut self) {
        self.set_desk(sound_desk);
    }

    fn set_unsound_desk(&mut self) {
        self.set_desk(unsound_desk);
    }

    /// A record that sets the desk, and the desk in words behind it.
    pub fn set_desk(&mut self, made: impl FnOnce(&mut Random) -> Desk) {
        self.desk = made(&mut self.random);
        let ([caller, b, c, d], a) = (self.unused(), self.random.word());
        self.words(&[6, caller, a, b, c, d]);
        self.words(&words_of(&self.desk));
    }

    /// A record that ends the program, and one behind it that is not looked at.
    fn bad_record(&mut self) {
        match self.random.below(4) {
            0 => {
                let op = self.random.pick(&[0, 8, 1 << 32 | 1, u64::MAX]);
                self.words(&[op, 0, 0, 0, 0, 0]);
            }
            1 => {
                let turns = self.random.pick(&[MOST_TURNS + 1, 1 << 32, u64::MAX]);
                self.words(&[2, 0, turns, 0, 0, 0]);
            }
            2 => {
                let length = 1 + self.random.below(47);
                return self.bytes.extend(vec![7; length]);
            }
            _ => {
                let mut words = words_of(&self.desk);
                words[9 + 11 * self.random.below(ROWS)] = self.random.pick(&[2, 256, u64::MAX]);
                self.words(&[6, 0, 0, 0, 0, 0]);
                self.words(&words);
            }
        }
        self.words(&[7, 0, 0, 0, 0, 0]);
    }
}

/// A number of halvings to post for, now and then one that is refused.
pub fn any_number(random: &mut Random) -> u64 {
    match random.below(16) {
        0 => number_outside(random),
        _ => number_within(random),
    }
}

/// A number of halvings that a post may name: an end or the 40 of 01, or one next to it, or
/// any.
pub fn number_within(random: &mut Random) -> u64 {
    match random.below(2) {
        0 => random.pick(&[10, 11, 39, 40, 41, 49, 50]),
        _ => FEWEST_HALVINGS + random.below((MOST_HALVINGS - FEWEST_HALVINGS + 1) as usize) as u64,
    }
}

/// A number of halvings that no post may name. Two of them end in the bits of one it may.
pub fn number_outside(random: &mut Random) -> u64 {
    random.pick(&[0, 9, 9, 51, 51, 40 + (1 << 8), 40 + (1 << 32), u64::MAX])
}

/// A sound desk with some rows filled, their numbers at the ends of what is allowed,
/// their temperatures now and then no temperatures at all.
pub fn sound_desk(random: &mut Random) -> Desk {
    let mut desk = Desk::new();
    desk.pointer = random.below(ROWS) as u64;
    let crowd = 1 + random.below(4);
    for index in 0..ROWS {
        desk.rows[index] = if random.below(3) == 0 { junk(random) } else { Row::default() };
        let caller = random.below(CALLERS) as u64;
        if open(&desk, caller) < crowd {
            desk.rows[index] = filled(random, caller, index as u64);
        }
    }
    for caller in 0..CALLERS {
        let used = desk.rows.iter().filter(|row| row.filled && row.caller == caller as u64);
        let least = used.map(|row| row.ticket + 1).max().unwrap_or(0);
        let count = random.pick(&[0, least, least + 1, least + 5, MOST_TICKETS - 1, MOST_TICKETS]);
        desk.counts[caller] = count.clamp(least, MOST_TICKETS);
    }
    desk
}

fn open(desk: &Desk, caller: u64) -> usize {
    desk.rows.iter().filter(|row| row.filled && row.caller == caller).count()
}

/// A filled row of a caller; the row's index keeps its tickets apart.
fn filled(random: &mut Random, caller: u64, index: u64) -> Row {
    let ticket = random.pick(&[index, 1000 + index, MOST_TICKETS - 1 - index]);
    let kind = 2 + random.below(2) as u64;
    let (_, p, y) = match random.below(12) {
        0 => (kind, random.any(), random.any()),
        _ => py(random, kind),
    };
    let region = random.pick(&[Region::One, Region::Two]);
    let (lo, hi) = match random.below(6) {
        0 => (random.any(), random.any()),
        1 => (random.between(300.0, 900.0), random.between(300.0, 900.0)),
        _ => bracket(region, p),
    };
    let number = number_within(random);
    let halvings = match random.below(3) {
        0 => 0,
        1 => random.pick(&[number - 2, number - 1, number]),
        _ => random.below(number as usize + 1) as u64,
    };
    let (filled, region) = (true, region.number());
    Row { filled, caller, ticket, kind, region, p, y, number, halvings, lo, hi }
}

/// An empty row that still holds numbers.
fn junk(random: &mut Random) -> Row {
    Row {
        filled: false,
        caller: random.bits(),
        ticket: random.below(4) as u64,
        kind: random.bits(),
        region: random.below(6) as u64,
        p: random.any(),
        y: random.any(),
        number: random.word(),
        halvings: random.below(60) as u64,
        lo: random.any(),
        hi: random.any(),
    }
}

/// A desk that breaks one rule of a sound one.
fn unsound_desk(random: &mut Random) -> Desk {
    let mut desk = sound_desk(random);
    spoil(&mut desk, random);
    desk
}

/// A desk with any bits in every word but those that tell whether a row is filled.
fn any_desk(random: &mut Random) -> Desk {
    let row = |random: &mut Random| Row {
        filled: random.below(2) == 0,
        caller: random.word(),
        ticket: random.word(),
        kind: random.word(),
        region: random.word(),
        p: f64::from_bits(random.word()),
        y: f64::from_bits(random.word()),
        number: random.word(),
        halvings: random.word(),
        lo: f64::from_bits(random.word()),
        hi: f64::from_bits(random.word()),
    };
    Desk {
        pointer: random.word(),
        counts: [(); CALLERS].map(|()| random.word()),
        rows: [(); ROWS].map(|()| row(random)),
    }
}

/// Breaks one rule of a sound desk.
fn spoil(desk: &mut Desk, random: &mut Random) {
    let index = random.below(ROWS);
    desk.counts[0] = desk.counts[0].max(40);
    desk.rows[index] = Row { ticket: 33, ..filled(random, 0, 0) };
    let row = &mut desk.rows[index];
    match random.below(14) {
        0 => desk.pointer = random.pick(&[32, 33, u64::MAX]),
        1 => desk.counts[random.below(CALLERS)] = random.pick(&[MOST_TICKETS + 1, u64::MAX]),
        2 => row.caller = random.pick(&[8, 1 << 32, u64::MAX]),
        3 => row.ticket = random.pick(&[desk.counts[0], u64::MAX]),
        4 => row.region = random.pick(&[0, 3, 4, 5, u64::MAX]),
        5 => row.kind = random.pick(&[0, 1, 4, u64::MAX]),
        6 | 7 => row.halvings = row.number + 1,
        8 => row.halvings = random.pick(&[51, 52, u64::MAX]),
        9 | 10 => with_number_outside(row, random),
        11 | 12 => desk.rows[(index + 1 + random.below(ROWS - 1)) % ROWS] = desk.rows[index],
        _ => {
            for ticket in 0..5 {
                desk.rows[(index + ticket) % ROWS] = filled(random, 0, 0);
                desk.rows[(index + ticket) % ROWS].ticket = 34 + ticket as u64;
            }
        }
    }
}

/// Gives a row a number that no post may name, and a count not above it.
pub fn with_number_outside(row: &mut Row, random: &mut Random) {
    row.number = number_outside(random);
    row.halvings = row.halvings.min(row.number);
}

/// A desk as 361 words: pointer, counts, rows.
fn words_of(desk: &Desk) -> Vec<u64> {
    let mut words = vec![desk.pointer];
    words.extend(desk.counts);
    for row in &desk.rows {
        words.extend([u64::from(row.filled), row.caller, row.ticket, row.kind, row.region]);
        words.extend([row.p.to_bits(), row.y.to_bits(), row.number, row.halvings]);
        words.extend([row.lo.to_bits(), row.hi.to_bits()]);
    }
    words
}

#[cfg(test)]
mod tests {
    use super::*;
    use crate::desk::is_allowed;
    use crate::outputs;
    use crate::refusals::Refusal;
    use std::collections::BTreeSet;
    use std::sync::LazyLock;

    #[test]
    fn desks_are_sound_or_unsound_as_asked() {
        for seed in 0..500 {
            let desk = sound_desk(&mut Random::new(seed));
            assert!(desk.is_sound(), "{seed}");
            assert_eq!(words_of(&desk).len(), 361);
            assert!(!unsound_desk(&mut Random::new(seed)).is_sound(), "{seed}");
        }
    }

    /// Each line of a run without its number and without what stands behind its refusal.
    fn outcomes(run: &[u8]) -> Vec<String> {
        let text = outputs::of(Program::Replay, run);
        let lines = text.lines().filter(|line| !line.starts_with("row"));
        lines.map(|line| line.split(' ').skip(1).take(2).collect::<Vec<_>>().join(" ")).collect()
    }

    #[test]
    fn runs_reach_every_outcome() {
        let seen: BTreeSet<String> =
            (0..60).flat_map(|seed| outcomes(&records(seed, 60))).collect();
        let expected = [
            ("post", "0 1 2 5 6 8 9 10 13 15"),
            ("turn", "0 15"),
            ("peek", "0 9 11 15"),
            ("collect", "0 9 11 12 15"),
            ("withdraw", "0 9 11 15"),
            ("bad", "record"),
        ];
        for (call, refusals) in expected {
            for refusal in refusals.split(' ') {
                assert!(seen.contains(&format!("{call} {refusal}")), "{call} {refusal}");
            }
        }
        assert!(seen.contains("desk"));
    }

    fn row_of(words: &[u64]) -> Row {
        let value = |index: usize| f64::from_bits(words[index]);
        Row {
            filled: words[0] == 1,
            caller: words[1],
            ticket: words[2],
            kind: words[3],
            region: words[4],
            p: value(5),
            y: value(6),
            number: words[7],
            halvings: words[8],
            lo: value(9),
            hi: value(10),
        }
    }

    fn desk_of(words: &[u64]) -> Desk {
        let mut desk = Desk { pointer: words[0], ..Desk::new() };
        desk.counts.copy_from_slice(&words[1..9]);
        for (row, words) in desk.rows.iter_mut().zip(words[9..].chunks_exact(11)) {
            *row = row_of(words);
        }
        desk
    }

    /// The posts of a run up to a bad record, each with the desk that it finds, and the
    /// desks given.
    fn posts_and_desks(run: &[u8]) -> PostsAndDesks {
        let words: Vec<u64> =
            run.chunks_exact(8).map(|word| u64::from_le_bytes(word.try_into().unwrap())).collect();
        let (mut words, mut played) = (&words[..], Run::new(0));
        let (mut posts, mut desks) = (vec![], vec![]);
        while let Some((&record, behind)) = words.split_first_chunk::<6>() {
            words = behind;
            match record {
                [0 | 8.., ..] => break,
                [2, _, turns, ..] if turns > MOST_TURNS => break,
                [6, ..] if words.len() < 361 => break,
                [6, ..] => {
                    played.desk = desk_of(&words[..361]);
                    desks.push(played.desk);
                    words = &words[361..];
                }
                [1, ..] => {
                    posts.push((played.desk, record));
                    played.call(record);
                }
                _ => played.call(record),
            }
        }
        (posts, desks)
    }

    type PostsAndDesks = (Vec<(Desk, Record)>, Vec<Desk>);

    /// The posts and given desks of the runs that the comparison plays.
    static ALL: LazyLock<PostsAndDesks> = LazyLock::new(|| {
        let parts = (1..=240).map(|seed| posts_and_desks(&records(seed, 60)));
        let (posts, desks): (Vec<_>, Vec<_>) = parts.unzip();
        (posts.concat(), desks.concat())
    });

    #[test]
    fn posts_name_every_number_allowed_and_several_others() {
        let (posts, _) = &*ALL;
        let named: BTreeSet<u64> = posts.iter().map(|(_, [.., number])| *number).collect();
        let outside = [0, 9, 51, 40 + (1 << 8), 40 + (1 << 32), u64::MAX];
        assert!((10..=50).chain(outside).all(|number| named.contains(&number)));
    }

    /// What a post is refused by, 0 if it is not.
    fn refusal(mut desk: Desk, [_, caller, a, b, c, d]: Record) -> u8 {
        let posted = desk.post(caller, a, f64::from_bits(b), f64::from_bits(c), d);
        posted.map_or_else(|Refusal(number)| number, |_| 0)
    }

    /// Numbers outside come with every other refusal of a post, so that the order shows.
    #[test]
    fn numbers_outside_are_posted_where_each_other_refusal_applies_too() {
        let (posts, _) = &*ALL;
        let otherwise: BTreeSet<u8> = posts
            .iter()
            .filter(|(_, [.., number])| !is_allowed(*number))
            .map(|&(desk, record)| {
                let [op, caller, a, b, c, _] = record;
                let instead = refusal(desk, [op, caller, a, b, c, 40]);
                assert_eq!(refusal(desk, record), if instead == 15 { 15 } else { 9 });
                instead
            })
            .collect();
        assert_eq!(otherwise, BTreeSet::from([0, 1, 2, 5, 6, 8, 9, 10, 13, 15]));
    }

    /// Whether a desk is unsound by the numbers and counts of its rows and nothing else.
    fn is_unsound_by_number(desk: &Desk) -> bool {
        let rows = desk.rows.map(|row| Row { number: 40, halvings: 0, ..row });
        !desk.is_sound() && Desk { rows, ..*desk }.is_sound()
    }

    #[test]
    fn given_desks_have_any_number_in_any_row() {
        let (_, desks) = &*ALL;
        let rows = |wanted: fn(&Desk) -> bool, filled: bool| -> Vec<(u64, u64)> {
            let rows = desks.iter().filter(|desk| wanted(desk)).flat_map(|desk| desk.rows);
            let rows = rows.filter(|row| row.filled == filled);
            rows.map(|row| (row.number, row.halvings)).collect()
        };
        let sound = rows(Desk::is_sound, true);
        for number in [10, 11, 39, 40, 41, 49, 50] {
            for halvings in [0, number - 1, number] {
                assert!(sound.contains(&(number, halvings)), "{number} {halvings}");
            }
        }
        let empty = rows(Desk::is_sound, false);
        assert!(empty.iter().any(|&(number, _)| (1..10).contains(&number)));
        assert!(empty.iter().any(|&(number, _)| number > 50));
        assert!(empty.iter().any(|&(number, halvings)| is_allowed(number) && halvings > number));
        let unsound = rows(is_unsound_by_number, true);
        for number in [0, 9, 51, u64::MAX] {
            assert!(unsound.iter().any(|&(held, _)| held == number), "{number}");
        }
        let above = |most: u64| {
            let is_above = |&(number, halvings): &(u64, u64)| {
                is_allowed(number) && halvings == number + 1 && halvings <= most
            };
            unsound.iter().any(is_above)
        };
        assert!(above(40) && above(50));
        assert!(unsound.iter().any(|&(number, halvings)| number == 50 && halvings == 51));
    }

    #[test]
    fn states_of_every_number_are_collected() {
        let lines = (1..=240).map(|seed| outputs::of(Program::Replay, &records(seed, 60)));
        let collected: BTreeSet<u64> = lines
            .flat_map(|text| {
                let given = text.lines().filter(|line| line.contains(" collect 0 "));
                let number = |line: &str| line.split(' ').nth(13).unwrap().parse().unwrap();
                given.map(number).collect::<Vec<u64>>()
            })
            .collect();
        assert_eq!(collected, BTreeSet::from_iter(10..=50));
    }

    #[test]
    fn some_runs_have_the_greatest_length_and_are_played_to_the_end() {
        let run = records(17, 60);
        assert_eq!(run.len(), most_bytes(Program::Replay));
        assert_eq!(outcomes(&run).len(), CALLS_BESIDE_TWO_DESKS + 2);
        assert!(!outcomes(&run).contains(&"bad record".into()));
    }

    #[test]
    fn runs_past_the_end_are_cut_at_a_record_or_within_one() {
        for (seed, records) in [(2, 1245), (3, 1365)] {
            let outcomes = outcomes(&past_the_end(seed));
            assert_eq!(outcomes.len(), records + 1);
            assert_eq!(outcomes[records], "bad record");
        }
    }

    #[test]
    fn some_runs_have_very_many_turns() {
        let words = |seed| -> Vec<u64> {
            let run = records(seed, 60);
            run.chunks_exact(8).map(|word| u64::from_le_bytes(word.try_into().unwrap())).collect()
        };
        let most = (0..4).flat_map(|round| words(36 + 60 * round));
        assert!(most.filter(|&word| word == MOST_TURNS).count() > 0);
    }
}
