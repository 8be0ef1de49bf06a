//! The desk of 01: eight callers, 32 rows, one halving a turn. How many halvings a job
//! takes, its number, is named at its post (M-104 of 02).

use crate::answers::{verified, Single};
use crate::basic::{b23_temperature, Region};
use crate::refusals::{
    Refusal, FOUR_OPEN, NOT_OPEN, NOT_READY, NOT_SINGLE, NOT_SOUND, TICKETS_SPENT, UNKNOWN,
};
use crate::regions::{from_py, highest_saturation_pressure, Place, Quantity, T_25};
use crate::saturation::{saturation_temperature, T_13, T_LOWEST};

/// Callers are 0 to 7.
pub const CALLERS: usize = 8;
/// Rows of a desk.
pub const ROWS: usize = 32;
/// The most tickets a caller may have open.
const OPEN_TICKETS: usize = 4;
/// The most tickets a caller is ever given.
pub const MOST_TICKETS: u64 = 1_000_000;
/// The fewest halvings that a post may name.
pub const FEWEST_HALVINGS: u64 = 10;
/// The most halvings that a post may name.
pub const MOST_HALVINGS: u64 = 50;

/// One row. An empty row of a new desk holds 0 in every field; the other fields of an
/// empty row mean nothing.
#[derive(Clone, Copy, Debug, Default, PartialEq)]
pub struct Row {
    pub filled: bool,
    pub caller: u64,
    pub ticket: u64,
    pub kind: u64,
    pub region: u64,
    pub p: f64,
    pub y: f64,
    /// The halvings after which the job is ready.
    pub number: u64,
    /// The halvings done.
    pub halvings: u64,
    pub lo: f64,
    pub hi: f64,
}

/// The desk as the host keeps it between calls.
#[derive(Clone, Copy, Debug, Default, PartialEq)]
pub struct Desk {
    pub pointer: u64,
    pub counts: [u64; CALLERS],
    pub rows: [Row; ROWS],
}

/// What a turn did.
#[derive(Clone, Copy, Debug, PartialEq, Eq)]
pub enum Turned {
    Halved,
    Idle,
}

/// What a peek shows.
#[derive(Clone, Copy, Debug, PartialEq)]
pub struct Peeked {
    pub halvings: u64,
    pub lo: f64,
    pub hi: f64,
}

/// What a collect hands out.
#[derive(Clone, Copy, Debug, PartialEq)]
pub struct Collected {
    pub state: Single,
    pub verified: bool,
    /// The halvings that the post named.
    pub number: u64,
    /// The last bracket.
    pub lo: f64,
    pub hi: f64,
}

impl Row {
    /// Whether a filled row's own numbers are allowed beside the ticket counts.
    fn is_sound(&self, counts: &[u64; CALLERS]) -> bool {
        let count = usize::try_from(self.caller).ok().and_then(|caller| counts.get(caller));
        count.is_some_and(|&count| self.ticket < count)
            && matches!(self.region, 1 | 2)
            && matches!(self.kind, 2 | 3)
            && is_allowed(self.number)
            && self.halvings <= self.number
    }

    fn holds(&self, caller: u64, ticket: u64) -> bool {
        self.filled && self.caller == caller && self.ticket == ticket
    }

    pub fn is_unfinished(&self) -> bool {
        self.filled && self.halvings < self.number
    }

    /// The region of a sound row.
    fn region(&self) -> Region {
        if self.region == 1 {
            Region::One
        } else {
            Region::Two
        }
    }

    /// What a sound row asks for.
    fn quantity(&self) -> Quantity {
        if self.kind == 2 {
            Quantity::Enthalpy
        } else {
            Quantity::Entropy
        }
    }

    fn middle(&self) -> f64 {
        (self.lo + self.hi) / 2.0
    }

    /// One halving: if y(p,mid) < y asked, lo = mid, else hi = mid.
    fn halve(&mut self) {
        let middle = self.middle();
        if self.quantity().at(self.region(), self.p, middle) < self.y {
            self.lo = middle;
        } else {
            self.hi = middle;
        }
        self.halvings += 1;
    }

    /// The state at the middle of the last bracket, and that bracket.
    fn settled(&self) -> Collected {
        let state = Single::at(self.region(), self.p, self.middle());
        let back = (state.properties.h, state.properties.s);
        let verified = verified(self.quantity(), back, self.y);
        Collected { state, verified, number: self.number, lo: self.lo, hi: self.hi }
    }
}

impl Desk {
    /// A new desk: every row empty, every number 0.
    pub fn new() -> Desk {
        Desk::default()
    }

    /// Whether the desk is sound. Only filled rows are judged, and not their p, y, lo, hi.
    pub fn is_sound(&self) -> bool {
        let filled: Vec<&Row> = self.rows.iter().filter(|row| row.filled).collect();
        self.pointer < ROWS as u64
            && self.counts.iter().all(|&count| count <= MOST_TICKETS)
            && filled.iter().all(|row| row.is_sound(&self.counts))
            && filled.iter().all(|row| self.open(row.caller) <= OPEN_TICKETS)
            && filled.iter().all(|row| self.held(row.caller, row.ticket) == 1)
    }

    /// Posts a (p,h) query, kind 2, or a (p,s) query, kind 3, for so many halvings; gives
    /// the ticket. Caller, kind and number are judged before any value is looked at.
    pub fn post(
        &mut self,
        caller: u64,
        kind: u64,
        p: f64,
        y: f64,
        number: u64,
    ) -> Result<u64, Refusal> {
        self.admit(caller)?;
        let quantity = match kind {
            2 => Quantity::Enthalpy,
            3 => Quantity::Entropy,
            _ => return Err(UNKNOWN),
        };
        if !is_allowed(number) {
            return Err(UNKNOWN);
        }
        let region = judged(quantity, p, y)?;
        let ticket = self.counts[caller as usize];
        if ticket >= MOST_TICKETS {
            return Err(TICKETS_SPENT);
        }
        if self.open(caller) >= OPEN_TICKETS {
            return Err(FOUR_OPEN);
        }
        let (lo, hi) = bracket(region, p);
        let (filled, region, halvings) = (true, region.number(), 0);
        let row = Row { filled, caller, ticket, kind, region, p, y, number, halvings, lo, hi };
        let free = self.rows.iter_mut().find(|row| !row.filled);
        *free.expect("callers within their limit leave a row free") = row;
        self.counts[caller as usize] += 1;
        Ok(ticket)
    }

    /// Gives one halving to the first unfinished row at or after the pointer.
    pub fn turn(&mut self) -> Result<Turned, Refusal> {
        self.judge()?;
        let start = self.pointer as usize;
        let mut round = (start..ROWS).chain(0..start);
        match round.find(|&index| self.rows[index].is_unfinished()) {
            Some(index) => {
                self.rows[index].halve();
                self.pointer = ((index + 1) % ROWS) as u64;
                Ok(Turned::Halved)
            }
            None => Ok(Turned::Idle),
        }
    }

    /// Shows how far a job is.
    pub fn peek(&self, caller: u64, ticket: u64) -> Result<Peeked, Refusal> {
        let Row { halvings, lo, hi, .. } = self.rows[self.find(caller, ticket)?];
        Ok(Peeked { halvings, lo, hi })
    }

    /// Hands out a finished job's state and frees its row.
    pub fn collect(&mut self, caller: u64, ticket: u64) -> Result<Collected, Refusal> {
        let index = self.find(caller, ticket)?;
        if self.rows[index].is_unfinished() {
            return Err(NOT_READY);
        }
        let collected = self.rows[index].settled();
        self.rows[index] = Row::default();
        Ok(collected)
    }

    /// Frees a job's row, finished or not.
    pub fn withdraw(&mut self, caller: u64, ticket: u64) -> Result<(), Refusal> {
        let index = self.find(caller, ticket)?;
        self.rows[index] = Row::default();
        Ok(())
    }

    fn judge(&self) -> Result<(), Refusal> {
        if self.is_sound() {
            Ok(())
        } else {
            Err(NOT_SOUND)
        }
    }

    fn admit(&self, caller: u64) -> Result<(), Refusal> {
        self.judge()?;
        if caller < CALLERS as u64 {
            Ok(())
        } else {
            Err(UNKNOWN)
        }
    }

    /// The row that holds a caller's open ticket.
    fn find(&self, caller: u64, ticket: u64) -> Result<usize, Refusal> {
        self.admit(caller)?;
        self.rows.iter().position(|row| row.holds(caller, ticket)).ok_or(NOT_OPEN)
    }

    /// How many tickets a caller has open.
    fn open(&self, caller: u64) -> usize {
        self.rows.iter().filter(|row| row.filled && row.caller == caller).count()
    }

    /// How many rows hold a caller's ticket.
    fn held(&self, caller: u64, ticket: u64) -> usize {
        self.rows.iter().filter(|row| row.holds(caller, ticket)).count()
    }
}

/// Whether a post may name so many halvings.
pub fn is_allowed(number: u64) -> bool {
    (FEWEST_HALVINGS..=MOST_HALVINGS).contains(&number)
}

/// The region of a post, or its refusal; a wet query is refused.
fn judged(quantity: Quantity, p: f64, y: f64) -> Result<Region, Refusal> {
    match from_py(quantity, p, y)? {
        Place::Liquid => Ok(Region::One),
        Place::Vapour => Ok(Region::Two),
        Place::Wet => Err(NOT_SINGLE),
    }
}

/// The temperatures between which a post's state is sought.
pub fn bracket(region: Region, p: f64) -> (f64, f64) {
    let meets_saturation = p <= highest_saturation_pressure();
    match (region, meets_saturation) {
        (Region::One, true) => (T_LOWEST, saturation_temperature(p)),
        (Region::One, false) => (T_LOWEST, T_13),
        (_, true) => (saturation_temperature(p), T_25),
        (_, false) => (b23_temperature(p), T_25),
    }
}

#[cfg(test)]
mod tests {
    use super::*;
    use crate::answers::{answer, Answer};
    use crate::refusals::{NOT_FINITE, OUT_OF_RANGE, PRESSURE, REGION_3};

    fn with_turns(desk: &mut Desk, turns: usize) {
        for _ in 0..turns {
            desk.turn().unwrap();
        }
    }

    const QUERIES: [(u64, f64, f64); 4] =
        [(2, 3.0, 500.0), (3, 80.0, 3.0), (2, 5.0, 3500.0), (3, 0.1, 8.0)];

    #[test]
    fn a_job_is_ready_after_as_many_halvings_as_it_was_posted_for() {
        for ((kind, p, y), number) in
            QUERIES.into_iter().flat_map(|query| [10, 11, 40, 49, 50].map(|n| (query, n)))
        {
            let mut desk = Desk::new();
            assert_eq!(desk.post(2, kind, p, y, number), Ok(0));
            with_turns(&mut desk, number as usize - 1);
            assert_eq!(desk.collect(2, 0), Err(NOT_READY));
            assert_eq!(desk.turn(), Ok(Turned::Halved));
            let collected = desk.collect(2, 0).unwrap();
            assert_eq!(collected.number, number);
            assert!(collected.verified || number < 40);
            assert_eq!(desk.collect(2, 0), Err(NOT_OPEN));
            assert_eq!(desk.rows, Desk::new().rows);
        }
    }

    #[test]
    fn a_count_never_passes_its_own_number() {
        let mut desk = Desk::new();
        for (caller, number) in [(0, 50), (1, 10), (2, 40)] {
            desk.post(caller, 2, 3.0, 500.0, number).unwrap();
        }
        with_turns(&mut desk, 100);
        let before = desk;
        assert_eq!(desk.turn(), Ok(Turned::Idle));
        assert_eq!(desk, before);
        assert_eq!(desk.rows.map(|row| row.halvings)[..3], [50, 10, 40]);
        for (caller, number) in [(0, 50), (1, 10), (2, 40)] {
            assert_eq!(desk.peek(caller, 0).unwrap().halvings, number);
            assert_eq!(desk.collect(caller, 0).unwrap().number, number);
        }
    }

    #[test]
    fn a_collect_shows_the_last_bracket_and_the_state_at_its_middle() {
        for (number, (kind, p, y)) in [10, 23, 40, 50].into_iter().zip(QUERIES) {
            let mut desk = Desk::new();
            desk.post(6, kind, p, y, number).unwrap();
            with_turns(&mut desk, number as usize);
            let Peeked { halvings, lo, hi } = desk.peek(6, 0).unwrap();
            let collected = desk.collect(6, 0).unwrap();
            assert_eq!((halvings, collected.number), (number, number));
            assert_eq!((collected.lo, collected.hi), (lo, hi));
            assert_eq!(collected.state.t, (lo + hi) / 2.0);
        }
    }

    /// Its bracket ends at Ts(p), so that no halving goes past the line and nothing is pulled,
    /// where the direct answer to the same query lies on the line.
    #[test]
    fn a_state_next_to_saturation_is_that_of_its_halvings() {
        for (kind, p, y, side) in [
            (2, 1.0, 762.68, -1.0),
            (3, 10.0, 3.3602, -1.0),
            (2, 1.0, 2777.12, 1.0),
            (3, 0.01, 8.1489, 1.0),
        ] {
            let ts = saturation_temperature(p);
            let Ok(Answer::Single { state, .. }) = answer(kind, p, y) else { panic!() };
            assert_eq!(state.t, ts);
            let mut desk = Desk::new();
            desk.post(1, kind, p, y, 50).unwrap();
            with_turns(&mut desk, 50);
            let Collected { state, verified, .. } = desk.collect(1, 0).unwrap();
            let off = side * (state.t - ts);
            assert!(verified && off > 1e-5 && off < 0.03, "{kind} {p} {y}: {off}");
            let back = if kind == 2 { state.properties.h } else { state.properties.s };
            assert!((back - y).abs() < 1e-10, "{kind} {p} {y}: {back}");
        }
    }

    /// A desk of 32 jobs, four of each caller; the last, in the last row, is for `last`
    /// halvings and the others for `others`.
    fn full_desk(others: u64, last: u64) -> Desk {
        let mut desk = Desk::new();
        for index in 0..ROWS as u64 {
            let number = if index + 1 == ROWS as u64 { last } else { others };
            desk.post(index / 4, 2, 3.0, 500.0, number).unwrap();
        }
        assert!(desk.rows.iter().all(|row| row.filled));
        desk
    }

    #[test]
    fn a_job_on_a_full_desk_is_ready_after_32_turns_for_each_of_its_halvings() {
        for (others, last) in [(50, 10), (10, 10), (50, 11), (50, 40), (50, 50)] {
            let mut desk = full_desk(others, last);
            with_turns(&mut desk, 32 * last as usize - 1);
            assert_eq!(desk.collect(7, 3), Err(NOT_READY));
            with_turns(&mut desk, 1);
            assert_eq!(desk.collect(7, 3).unwrap().number, last);
        }
    }

    #[test]
    fn a_rough_job_is_ready_after_ten_turns_alone_and_320_on_a_full_desk() {
        let mut alone = Desk::new();
        alone.post(7, 2, 3.0, 500.0, 10).unwrap();
        with_turns(&mut alone, 10);
        let mut full = full_desk(50, 10);
        with_turns(&mut full, 320);
        let (rough, same) = (alone.collect(7, 0).unwrap(), full.collect(7, 3).unwrap());
        assert_eq!(rough, same);
        let width = (saturation_temperature(3.0) - T_LOWEST) / 1024.0;
        assert!((rough.hi - rough.lo - width).abs() < 1e-10);
    }

    #[test]
    fn a_freed_row_has_number_0() {
        let mut desk = Desk::new();
        for number in [10, 50] {
            desk.post(4, 2, 3.0, 500.0, number).unwrap();
        }
        with_turns(&mut desk, 20);
        desk.collect(4, 0).unwrap();
        desk.withdraw(4, 1).unwrap();
        assert_eq!(desk.rows.map(|row| row.number), [0; ROWS]);
        assert_eq!(desk.rows, Desk::new().rows);
        desk.post(5, 2, 3.0, 500.0, 30).unwrap();
        assert_eq!((desk.rows[0].number, desk.rows[0].halvings), (30, 0));
    }

    #[test]
    fn a_peek_shows_one_halving_for_each_turn() {
        let mut desk = Desk::new();
        desk.post(0, 2, 3.0, 500.0, 50).unwrap();
        let mut width = desk.rows[0].hi - desk.rows[0].lo;
        for turns in 1..=50 {
            desk.turn().unwrap();
            let peeked = desk.peek(0, 0).unwrap();
            assert_eq!(peeked.halvings, turns);
            width /= 2.0;
            assert!((peeked.hi - peeked.lo - width).abs() < 1e-10);
        }
    }

    #[test]
    fn turns_go_round_from_the_pointer() {
        let mut desk = Desk::new();
        for caller in 0..3 {
            desk.post(caller, 2, 3.0, 500.0, 12).unwrap();
        }
        with_turns(&mut desk, 4);
        assert_eq!(desk.rows.map(|row| row.halvings)[..3], [2, 1, 1]);
        assert_eq!(desk.pointer, 1);
        desk.rows[2].halvings = 12;
        desk.pointer = 2;
        desk.turn().unwrap();
        assert_eq!((desk.rows[0].halvings, desk.pointer), (3, 1));
    }

    #[test]
    fn the_fifth_open_post_is_refused_and_spends_no_ticket() {
        let mut desk = Desk::new();
        for ticket in 0..4 {
            assert_eq!(desk.post(7, 2, 3.0, 500.0, 40), Ok(ticket));
        }
        let before = desk;
        assert_eq!(desk.post(7, 2, 3.0, 500.0, 40), Err(FOUR_OPEN));
        assert_eq!(desk, before);
        desk.withdraw(7, 1).unwrap();
        assert_eq!(desk.post(7, 2, 3.0, 500.0, 40), Ok(4));
        assert_eq!(desk.rows[1].ticket, 4);
    }

    #[test]
    fn posts_are_refused_in_order() {
        let mut desk = Desk::new();
        desk.counts[1] = MOST_TICKETS;
        assert_eq!(desk.post(8, 1, f64::NAN, 0.0, 40), Err(UNKNOWN));
        assert_eq!(desk.post(0, 1, f64::NAN, 0.0, 40), Err(UNKNOWN));
        assert_eq!(desk.post(0, 4, f64::NAN, 0.0, 40), Err(UNKNOWN));
        assert_eq!(desk.post(1, 2, f64::NAN, 0.0, 40), Err(NOT_FINITE));
        assert_eq!(desk.post(1, 2, 0.0006, 0.0, 40), Err(PRESSURE));
        assert_eq!(desk.post(1, 2, 1.0, 1e9, 40), Err(OUT_OF_RANGE));
        assert_eq!(desk.post(1, 2, 25.0, 2100.0, 40), Err(REGION_3));
        assert_eq!(desk.post(1, 2, 1.0, 2000.0, 40), Err(NOT_SINGLE));
        assert_eq!(desk.post(1, 2, 3.0, 500.0, 40), Err(TICKETS_SPENT));
        desk.pointer = 32;
        assert_eq!(desk.post(8, 1, f64::NAN, 0.0, 9), Err(NOT_SOUND));
    }

    #[test]
    fn a_number_outside_10_to_50_is_refused_before_any_value_is_looked_at() {
        let mut desk = Desk::new();
        for ticket in 0..4 {
            assert_eq!(desk.post(0, 2, 3.0, 500.0, 10 + 10 * ticket), Ok(ticket));
        }
        desk.counts[1] = MOST_TICKETS;
        let before = desk;
        let values = [
            (f64::NAN, 500.0),
            (0.0, 500.0),
            (1.0, 1e9),
            (25.0, 2100.0),
            (1.0, 2000.0),
            (3.0, 500.0),
        ];
        for number in [0, 9, 51, 40 + (1 << 8), 40 + (1 << 32), u64::MAX] {
            for (caller, (p, y)) in [0, 1, 2].into_iter().flat_map(|c| values.map(|v| (c, v))) {
                assert_eq!(desk.post(caller, 2, p, y, number), Err(UNKNOWN));
            }
        }
        assert_eq!(desk, before);
        desk.rows[0].number = 9;
        assert_eq!(desk.post(8, 1, f64::NAN, 0.0, 51), Err(NOT_SOUND));
    }

    #[test]
    fn soundness_judges_filled_rows_only() {
        let mut sound = Desk::new();
        sound.counts[3] = 5;
        let (filled, caller, ticket) = (true, 3, 4);
        let row = Row { filled, caller, ticket, kind: 2, region: 1, number: 40, ..Row::default() };
        sound.rows[9] = Row { p: f64::NAN, lo: f64::INFINITY, ..row };
        sound.rows[0] = Row { caller: 99, number: 9, halvings: 99, ..Row::default() };
        sound.rows[1] = Row { number: 51, ..Row::default() };
        assert!(sound.is_sound());
        let flaws = [
            Row { caller: 8, ..row },
            Row { caller: u64::MAX, ..row },
            Row { ticket: 5, ..row },
            Row { region: 0, ..row },
            Row { region: 3, ..row },
            Row { kind: 1, ..row },
            Row { kind: 4, ..row },
            Row { halvings: 41, ..row },
            row,
        ];
        for flaw in flaws {
            let mut desk = sound;
            desk.rows[20] = flaw;
            assert!(!desk.is_sound(), "{flaw:?}");
        }
        let mut crowded = sound;
        for ticket in 0..4 {
            crowded.rows[ticket] = Row { ticket: ticket as u64, ..row };
        }
        assert!(!crowded.is_sound());
        let mut spent = sound;
        spent.counts[0] = MOST_TICKETS + 1;
        assert!(!spent.is_sound());
    }

    #[test]
    fn soundness_judges_a_filled_row_by_its_own_number() {
        let cases = [
            (10, 0, true),
            (10, 9, true),
            (10, 10, true),
            (10, 11, false),
            (39, 40, false),
            (40, 40, true),
            (40, 41, false),
            (49, 50, false),
            (50, 49, true),
            (50, 50, true),
            (50, 51, false),
            (50, u64::MAX, false),
            (0, 0, false),
            (9, 0, false),
            (9, 9, false),
            (51, 0, false),
            (51, 51, false),
            (u64::MAX, 0, false),
        ];
        let mut desk = Desk::new();
        desk.post(3, 2, 3.0, 500.0, 40).unwrap();
        for (number, halvings, sound) in cases {
            (desk.rows[0].number, desk.rows[0].halvings) = (number, halvings);
            assert_eq!(desk.is_sound(), sound, "{number} {halvings}");
            if !sound {
                assert_eq!(desk.turn(), Err(NOT_SOUND));
                assert_eq!(desk.peek(3, 0), Err(NOT_SOUND));
                assert_eq!(desk.collect(3, 0), Err(NOT_SOUND));
                assert_eq!(desk.withdraw(3, 0), Err(NOT_SOUND));
            }
        }
    }

    #[test]
    fn a_row_is_worked_from_its_own_bracket() {
        let mut desk = Desk::new();
        desk.post(0, 2, 3.0, 500.0, 40).unwrap();
        (desk.rows[0].lo, desk.rows[0].hi) = (300.0, 310.0);
        desk.turn().unwrap();
        assert_eq!(desk.peek(0, 0), Ok(Peeked { halvings: 1, lo: 305.0, hi: 310.0 }));
        desk.rows[0].y = f64::NAN;
        desk.turn().unwrap();
        assert_eq!(desk.peek(0, 0), Ok(Peeked { halvings: 2, lo: 305.0, hi: 307.5 }));
        desk.rows[0].halvings = 40;
        let collected = desk.collect(0, 0).unwrap();
        assert_eq!((collected.lo, collected.hi), (305.0, 307.5));
        assert_eq!(collected.state.t, 306.25);
        assert!(!collected.verified);
    }
}
