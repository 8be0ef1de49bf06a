//! Standard input for the program `replay`: pairs of runs from a new desk. In both runs
//! of a pair one model posts, collects and withdraws the same things in the same order,
//! and is patient: each of its collects that names an open ticket comes at least 32·n
//! turns after that ticket's post, n the halvings that it named. All else is drawn for each
//! run by itself: what the other callers do, who peeks at what, and where the turns fall.

use super::points::{py, Query};
use super::random::Random;
use super::runs::{any_number, number_within, Record, Run};
use crate::desk::{Desk, Row, CALLERS, MOST_HALVINGS, ROWS};

/// Turns after which any job is ready: 50 halvings for each of 32 rows.
const ENOUGH: u64 = MOST_HALVINGS * ROWS as u64;

/// The least number of turns that a model lets pass between a post for so many halvings and
/// its collect.
type Patience = fn(u64) -> u64;

/// Half of the models wait as long as their own job may take, each of its halvings a round
/// of 32 rows, and not a turn longer; the other half as long as any job may take, or longer.
/// Of 16 consecutive seeds, which go through all callers twice, each caller waits in both ways.
fn patience(seed: u64) -> Patience {
    if waits_just_enough(seed) {
        |number| number * ROWS as u64
    } else {
        |_| ENOUGH
    }
}

fn waits_just_enough(seed: u64) -> bool {
    (seed / CALLERS as u64).is_multiple_of(2)
}

/// The runs of a pair.
#[derive(Clone, Copy, Debug, PartialEq, Eq)]
pub enum Side {
    One,
    Other,
}

/// One of the two runs of the pair that the seed gives. Its model is caller `seed % 8`,
/// who makes about `count` calls and then collects what is still open.
pub fn records(seed: u64, count: usize, side: Side) -> Vec<u8> {
    woven(seed, side, &own_calls(seed, count), patience(seed))
}

fn model(seed: u64) -> u64 {
    seed % CALLERS as u64
}

/// A call of the model.
struct Own {
    record: Record,
    /// Of a collect that names an open ticket, the place of its post among the calls.
    posted: Option<usize>,
    /// Whether no turn falls before it.
    at_once: bool,
}

/// What the model does, refused calls included. One model in four begins with four posts
/// at once, none for fewer halvings than the last, and collects the last, which behind a
/// crowd takes a round of all rows for each of its halvings.
fn own_calls(seed: u64, count: usize) -> Vec<Own> {
    let mut random = Random::new(seed);
    let mut own = OwnCalls { model: model(seed), desk: Desk::new(), open: vec![], calls: vec![] };
    if random.below(4) == 0 {
        let mut numbers = [(); 4].map(|()| number_within(&mut random));
        numbers.sort_unstable_by(|one, other| other.cmp(one));
        for number in numbers {
            own.post(single_phase(&mut random), number);
        }
        own.calls.iter_mut().for_each(|call| call.at_once = true);
        own.collect(3);
    }
    for _ in own.calls.len()..count {
        match random.below(10) {
            0..=4 => own.post(any_query(&mut random), any_number(&mut random)),
            5 | 6 if !own.open.is_empty() => own.collect(random.below(own.open.len())),
            7 if !own.open.is_empty() => own.withdraw(random.below(own.open.len())),
            _ => own.name_a_closed_ticket(&mut random),
        }
    }
    while !own.open.is_empty() {
        own.collect(random.below(own.open.len()));
    }
    own.calls
}

/// The model's calls as they are drawn. What it is answered does not depend on others, so
/// that a desk of its own tells which of its tickets are open.
struct OwnCalls {
    model: u64,
    desk: Desk,
    /// The open tickets, each with the place of its post.
    open: Vec<(u64, usize)>,
    calls: Vec<Own>,
}

impl OwnCalls {
    fn call(&mut self, op: u64, [a, b, c, d]: [u64; 4], posted: Option<usize>) {
        self.calls.push(Own { record: [op, self.model, a, b, c, d], posted, at_once: false });
    }

    fn post(&mut self, (kind, p, y): Query, number: u64) {
        if let Ok(ticket) = self.desk.post(self.model, kind, p, y, number) {
            self.open.push((ticket, self.calls.len()));
        }
        self.call(1, [kind, p.to_bits(), y.to_bits(), number], None);
    }

    fn collect(&mut self, which: usize) {
        let (ticket, posted) = self.close(which);
        self.call(4, [ticket, 0, 0, 0], Some(posted));
    }

    fn withdraw(&mut self, which: usize) {
        let (ticket, _) = self.close(which);
        self.call(5, [ticket, 0, 0, 0], None);
    }

    /// Frees the row of an open ticket, as a collect and a withdraw do.
    fn close(&mut self, which: usize) -> (u64, usize) {
        let (ticket, posted) = self.open.swap_remove(which);
        let _ = self.desk.withdraw(self.model, ticket);
        (ticket, posted)
    }

    /// Collects or withdraws a ticket that is no longer open, or was never given.
    fn name_a_closed_ticket(&mut self, random: &mut Random) {
        let given = self.desk.counts[self.model as usize];
        let ticket = match random.below(4) {
            0 => random.pick(&[given, given + 1, u64::MAX]),
            _ => random.below(given as usize + 1) as u64,
        };
        if self.open.iter().all(|&(open, _)| open != ticket) {
            self.call(random.pick(&[4, 4, 5]), [ticket, 0, 0, 0], None);
        }
    }
}

/// A query to post, now and then one that is refused.
fn any_query(random: &mut Random) -> Query {
    let (kind, p, y) = some_query(random);
    match random.below(8) {
        0 => (random.pick(&[0, 1, 4, u64::MAX]), p, y),
        1 | 2 => (kind, p, y),
        _ => single_phase(random),
    }
}

/// A query of kind 2 or 3 that a new desk takes.
fn single_phase(random: &mut Random) -> Query {
    loop {
        let (kind, p, y) = some_query(random);
        if Desk::new().post(0, kind, p, y, MOST_HALVINGS).is_ok() {
            return (kind, p, y);
        }
    }
}

fn some_query(random: &mut Random) -> Query {
    let kind = 2 + random.below(2) as u64;
    py(random, kind)
}

/// The model's calls among everything else of one run.
fn woven(seed: u64, side: Side, own: &[Own], patience: Patience) -> Vec<u8> {
    let mut weave = Weave::new(seed, side);
    let mut turns_before = Vec::new();
    for call in own {
        if !call.at_once {
            weave.some_turns();
        }
        weave.others();
        if let Some(posted) = call.posted {
            let [.., number] = own[posted].record;
            weave.wait(turns_before[posted] + patience(number));
        }
        turns_before.push(weave.turns);
        weave.run.call(call.record);
    }
    weave.others();
    weave.run.bytes
}

/// Who else calls in a run.
#[derive(Clone, Copy)]
enum Company {
    Nobody,
    /// Others now and then.
    Some,
    /// Others who keep filled every row that they may, by posts for any number of halvings.
    Crowd,
    /// The same by posts for the most halvings, so that no row of theirs is soon ready.
    SlowCrowd,
}

/// A run as it is woven.
struct Weave {
    run: Run,
    model: u64,
    company: Company,
    turns: u64,
    /// Turns beyond those that the model's patience asks for.
    more_turns: &'static [u64],
}

impl Weave {
    fn new(seed: u64, side: Side) -> Weave {
        const ONE: [Company; 4] =
            [Company::Nobody, Company::Some, Company::Crowd, Company::SlowCrowd];
        const OTHER: [Company; 4] =
            [Company::Some, Company::Crowd, Company::SlowCrowd, Company::SlowCrowd];
        let mut random = Random::new(!seed);
        let one = (random.bits(), random.pick(&ONE));
        let other = (random.bits(), random.pick(&OTHER));
        let (drawn, company) = if side == Side::One { one } else { other };
        let more_turns: &[u64] = if waits_just_enough(seed) { &[0] } else { &[0, 0, 0, 1, 33] };
        Weave { run: Run::new(drawn), model: model(seed), company, turns: 0, more_turns }
    }

    fn turn(&mut self, turns: u64) {
        self.turns += turns;
        self.run.call([2, 0, turns, 0, 0, 0]);
    }

    /// Mostly few turns.
    fn some_turns(&mut self) {
        let turns = self.run.random.pick(&[0, 0, 1, 9, 70]);
        self.turn(turns);
    }

    /// Turns, in pieces with others' calls between them, until there have been so many in
    /// all; where the model waits longer than it must, now and then more.
    fn wait(&mut self, turns: u64) {
        let until = turns + self.run.random.pick(self.more_turns);
        while self.turns < until {
            let piece = self.run.random.pick(&[1, 13, 40, 160, 500, ENOUGH]);
            self.turn(piece.min(until - self.turns));
            self.others();
        }
    }

    /// What others do, and anybody's peek, the model's too.
    fn others(&mut self) {
        if self.run.random.below(4) == 0 {
            self.run.peek_or_withdraw(3);
        }
        let calls = match self.company {
            Company::Nobody => 0,
            Company::Some => self.run.random.below(5),
            Company::Crowd | Company::SlowCrowd => self.run.random.below(3),
        };
        for _ in 0..calls {
            self.call_of_another();
        }
        match self.company {
            Company::Nobody | Company::Some => {}
            Company::Crowd => self.fill(number_within),
            Company::SlowCrowd => self.fill(|_| MOST_HALVINGS),
        }
    }

    fn call_of_another(&mut self) {
        let model = self.model;
        match self.run.random.below(9) {
            0..=2 => {
                let (caller, query) = (self.run.caller(), any_query(&mut self.run.random));
                let number = any_number(&mut self.run.random);
                self.post(caller, query, number);
            }
            3 | 4 => {
                let named = self.run.ticket(|row| row.caller != model && !row.is_unfinished());
                self.close(4, named);
            }
            op @ (5 | 6) => {
                let named = self.run.ticket(|row| row.caller != model);
                self.close(op as u64 - 1, named);
            }
            _ => self.run.show(),
        }
    }

    /// Each of the others collects what is ready and posts until it has four open.
    fn fill(&mut self, number: fn(&mut Random) -> u64) {
        for caller in 0..CALLERS as u64 {
            let rows = self.run.desk.rows;
            let open = rows.iter().filter(|row| row.filled && row.caller == caller);
            let (busy, ready): (Vec<&Row>, Vec<&Row>) = open.partition(|row| row.is_unfinished());
            for row in ready {
                self.close(4, (caller, row.ticket));
            }
            for _ in busy.len()..4 {
                let query = single_phase(&mut self.run.random);
                let number = number(&mut self.run.random);
                self.post(caller, query, number);
            }
        }
    }

    /// A post of anybody but the model.
    fn post(&mut self, caller: u64, (kind, p, y): Query, number: u64) {
        self.call([1, caller, kind, p.to_bits(), y.to_bits(), number]);
    }

    /// A collect or withdraw of anybody but the model.
    fn close(&mut self, op: u64, (caller, ticket): (u64, u64)) {
        self.call([op, caller, ticket, 0, 0, 0]);
    }

    fn call(&mut self, record: Record) {
        if record[1] != self.model && !self.run.is_nearly_full() {
            self.run.call(record);
        }
    }
}

#[cfg(test)]
mod tests {
    use super::*;
    use crate::desk::Collected;
    use crate::outputs::most_bytes;
    use crate::refusals::{Refusal, FOUR_OPEN, NOT_OPEN};
    use crate::Program;
    use std::collections::BTreeSet;

    /// A call with its answer: the refusal's number, 0 if there is none, and the bits of
    /// what was handed out.
    type Entry = (Record, Vec<u64>);

    const SIDES: [Side; 2] = [Side::One, Side::Other];

    /// Faults through which others show.
    #[derive(Clone, Copy, Debug, PartialEq, Eq)]
    enum Fault {
        /// A ticket is a row's index.
        TicketIsRow,
        /// A ticket leads to its row for ever, and so to the next job there.
        TicketKeepsItsRow,
        /// The first row that has the ticket is taken for the caller's.
        FoundByTicketAlone,
        OneCountForAll,
        /// No post is taken where half of the rows are filled.
        HalfTheRows,
        /// A job starts from the bracket at which the last one in its row ended.
        BracketKept,
        /// A job is ready at the number of the last one in its row.
        NumberKept,
        TurnToTheFirstRow,
    }

    const FAULTS: [Fault; 8] = [
        Fault::TicketIsRow,
        Fault::TicketKeepsItsRow,
        Fault::FoundByTicketAlone,
        Fault::OneCountForAll,
        Fault::HalfTheRows,
        Fault::BracketKept,
        Fault::NumberKept,
        Fault::TurnToTheFirstRow,
    ];

    /// A desk, with a fault or without.
    struct Host {
        desk: Desk,
        fault: Option<Fault>,
        /// Of each row, what its last job left in it.
        left: [Option<Row>; ROWS],
        /// The row of each ticket given.
        given: Vec<((u64, u64), usize)>,
    }

    impl Host {
        fn new(fault: Option<Fault>) -> Host {
            Host { desk: Desk::new(), fault, left: [None; ROWS], given: vec![] }
        }

        fn answer(&mut self, [op, caller, a, b, c, d]: Record) -> Vec<u64> {
            let told = match op {
                1 => self.post(caller, (a, f64::from_bits(b), f64::from_bits(c)), d),
                2 => (0..a).try_for_each(|_| self.turn()).map(|()| vec![]),
                4 | 5 => self.close(op, caller, a),
                _ => Ok(vec![]),
            };
            told.map_or_else(|Refusal(number)| vec![number.into()], |told| [vec![0], told].concat())
        }

        fn post(&mut self, caller: u64, query: Query, number: u64) -> Result<Vec<u64>, Refusal> {
            let (kind, p, y) = query;
            if self.fault == Some(Fault::HalfTheRows) && self.filled() >= ROWS / 2 {
                return Err(FOUR_OPEN);
            }
            let free = self.desk.rows.iter().position(|row| !row.filled);
            let ticket = self.desk.post(caller, kind, p, y, number)?;
            let index = free.unwrap();
            self.given.push(((caller, ticket), index));
            match (self.fault, self.left[index]) {
                (Some(Fault::TicketIsRow), _) => return Ok(vec![index as u64]),
                (Some(Fault::BracketKept), Some(left)) => {
                    (self.desk.rows[index].lo, self.desk.rows[index].hi) = (left.lo, left.hi);
                }
                (Some(Fault::NumberKept), Some(left)) => {
                    self.desk.rows[index].number = left.number;
                }
                (Some(Fault::OneCountForAll), _) => self.desk.counts = [ticket + 1; CALLERS],
                _ => {}
            }
            Ok(vec![ticket])
        }

        fn turn(&mut self) -> Result<(), Refusal> {
            if self.fault == Some(Fault::TurnToTheFirstRow) {
                self.desk.pointer = 0;
            }
            self.desk.turn().map(|_| ())
        }

        /// A collect, 4, or a withdraw.
        fn close(&mut self, op: u64, caller: u64, named: u64) -> Result<Vec<u64>, Refusal> {
            let (caller, ticket) = self.meant(caller, named)?;
            let rows = self.desk.rows;
            let told = match op {
                4 => bits(&self.desk.collect(caller, ticket)?),
                _ => self.desk.withdraw(caller, ticket).map(|()| vec![])?,
            };
            let freed = |index: &usize| rows[*index].filled && !self.desk.rows[*index].filled;
            let index = (0..ROWS).find(freed).unwrap();
            self.left[index] = Some(rows[index]);
            Ok(told)
        }

        /// The caller and ticket of the row that is taken for the one named.
        fn meant(&self, caller: u64, named: u64) -> Result<(u64, u64), Refusal> {
            let mut rows = self.desk.rows.iter();
            let index = match self.fault {
                Some(Fault::TicketIsRow) => usize::try_from(named).ok(),
                Some(Fault::TicketKeepsItsRow) => {
                    let given = self.given.iter().find(|(ticket, _)| *ticket == (caller, named));
                    given.map(|&(_, index)| index)
                }
                Some(Fault::FoundByTicketAlone) => {
                    rows.position(|row| row.filled && row.ticket == named)
                }
                _ => return Ok((caller, named)),
            };
            let row = index.and_then(|index| self.desk.rows.get(index)).filter(|row| row.filled);
            row.map(|row| (row.caller, row.ticket)).ok_or(NOT_OPEN)
        }

        fn filled(&self) -> usize {
            self.desk.rows.iter().filter(|row| row.filled).count()
        }
    }

    /// Region, mark, number, and the bits of the eight values and of the bracket.
    fn bits(&Collected { state, verified, number, lo, hi }: &Collected) -> Vec<u64> {
        let of = &state.properties;
        let values = [state.p, state.t, of.v, of.u, of.h, of.s, of.cp, of.w, lo, hi];
        let told = [state.equation.region_number(), verified.into(), number];
        [&told[..], &values.map(f64::to_bits)].concat()
    }

    fn records_of(run: &[u8]) -> Vec<Record> {
        let word = |bytes: &[u8]| u64::from_le_bytes(bytes.try_into().unwrap());
        let record = |bytes: &[u8]| bytes.chunks_exact(8).map(word).collect::<Vec<u64>>();
        run.chunks_exact(48).map(|bytes| record(bytes).try_into().unwrap()).collect()
    }

    fn is_own(model: u64, [op, caller, ..]: Record) -> bool {
        caller == model && matches!(op, 1 | 4 | 5)
    }

    /// What the model calls in a run, with what it is answered.
    fn own_part(seed: u64, run: &[u8], fault: Option<Fault>) -> Vec<Entry> {
        let mut host = Host::new(fault);
        let entries = records_of(run).into_iter().map(|record| (record, host.answer(record)));
        entries.filter(|&(record, _)| is_own(model(seed), record)).collect()
    }

    /// Whether the model can tell the runs of a pair apart.
    fn differ(seed: u64, patience: Patience, fault: Option<Fault>) -> bool {
        let own = own_calls(seed, 8);
        let [one, other] =
            SIDES.map(|side| own_part(seed, &woven(seed, side, &own, patience), fault));
        one != other
    }

    #[test]
    fn the_model_cannot_tell_the_runs_of_a_pair_apart() {
        assert_eq!((0..200).find(|&seed| differ(seed, patience(seed), None)), None);
    }

    #[test]
    fn it_can_where_a_fault_lets_others_show() {
        for fault in FAULTS {
            let seen = (0..100).any(|seed| differ(seed, patience(seed), Some(fault)));
            assert!(seen, "{fault:?}");
        }
    }

    #[test]
    fn it_can_where_it_is_less_patient() {
        let impatient: [Patience; 4] =
            [|_| 40, |_| 320, |number| 31 * number, |number| 32 * number - 1];
        for (which, patience) in impatient.into_iter().enumerate() {
            assert!((0..100).any(|seed| differ(seed, patience, None)), "{which}");
        }
    }

    /// Of each collect of a ticket that a post gave, the turns between the two and the
    /// halvings posted for, told by the answers alone.
    fn waits(seed: u64, run: &[u8]) -> Vec<(u64, u64)> {
        let (mut host, mut turns) = (Host::new(None), 0);
        let (mut posted, mut waits) = (vec![], vec![]);
        for record in records_of(run) {
            let answer = host.answer(record);
            match record {
                [2, _, more, ..] => turns += more,
                [1, .., number] if is_own(model(seed), record) => {
                    posted.extend(answer.get(1).map(|&ticket| (ticket, turns, number)));
                }
                [4, _, named, ..] if is_own(model(seed), record) && answer != [11] => {
                    let post = posted.iter().find(|(ticket, ..)| *ticket == named);
                    waits.extend(post.map(|(_, then, number)| (turns - then, *number)));
                }
                _ => {}
            }
        }
        waits
    }

    /// What every model of the seeds with this patience waits in both runs.
    fn waits_of(just_enough: bool) -> Vec<(u64, u64)> {
        (0..32)
            .filter(|&seed| waits_just_enough(seed) == just_enough)
            .flat_map(|seed| SIDES.map(|side| waits(seed, &records(seed, 8, side))))
            .flatten()
            .collect()
    }

    #[test]
    fn the_model_is_patient_and_no_more_than_that() {
        let own_time = waits_of(true);
        assert!(own_time.iter().all(|(wait, number)| *wait >= 32 * number));
        let just: Vec<u64> =
            own_time.iter().filter(|(wait, n)| *wait == 32 * n).map(|&(_, n)| n).collect();
        assert!(just.len() > 20 && just.contains(&10) && just.contains(&50), "{just:?}");
        let any_time = waits_of(false);
        assert_eq!(any_time.iter().map(|&(wait, _)| wait).min(), Some(ENOUGH));
        assert!(any_time.iter().filter(|&&(wait, _)| wait == ENOUGH).count() > 10);
    }

    #[test]
    fn each_caller_waits_in_both_ways() {
        let ways: BTreeSet<(u64, bool)> =
            (1..17).map(|seed| (model(seed), waits_just_enough(seed))).collect();
        assert_eq!(ways.len(), 2 * CALLERS);
    }

    #[test]
    fn both_runs_fit_and_differ_in_all_but_the_model_s_calls() {
        for seed in 0..16 {
            let runs = SIDES.map(|side| records(seed, 20, side));
            assert!(runs.iter().all(|run| run.len() <= most_bytes(Program::Replay)));
            let split = |run: &Vec<u8>| -> (Vec<Record>, Vec<Record>) {
                records_of(run).into_iter().partition(|&record| is_own(model(seed), record))
            };
            let [(own, others), (own_again, different)] = [split(&runs[0]), split(&runs[1])];
            assert_eq!(own, own_again);
            assert_ne!(others, different);
        }
    }

    #[test]
    fn runs_reach_every_outcome_alone_and_on_full_desks() {
        let (mut own, mut others, mut filled) = (BTreeSet::new(), BTreeSet::new(), BTreeSet::new());
        for (seed, side) in (0..40).flat_map(|seed| SIDES.map(|side| (seed, side))) {
            let mut host = Host::new(None);
            for record in records_of(&records(seed, 8, side)) {
                let outcome = (record[0], host.answer(record)[0]);
                if is_own(model(seed), record) {
                    own.insert(outcome);
                    filled.insert(host.filled());
                } else {
                    others.insert(outcome);
                }
            }
        }
        let posts = [0, 1, 2, 5, 6, 8, 9, 10].map(|refusal| (1, refusal));
        let closed = [(4, 0), (4, 11), (5, 0), (5, 11)];
        assert_eq!(own, BTreeSet::from_iter(posts.into_iter().chain(closed)));
        assert!(own.is_subset(&others));
        assert!([(4, 9), (4, 12), (5, 9)].iter().all(|outcome| others.contains(outcome)));
        assert!([0, 1, ROWS].iter().all(|rows| filled.contains(rows)));
    }
}
