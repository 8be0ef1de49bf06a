//! Standard input for the program `replay`: a tour of the desk. Every tour shows the same
//! calls first, chosen so that each rule on the number of halvings shows: jobs for few and
//! for many of them, alone and on full desks, collected a turn too soon and in time, and
//! desks that are not sound by a number. Then come calls drawn at random. The stored run
//! of `replay` is a tour.

use super::points::Query;
use super::runs::{sound_desk, Run};
use crate::desk::{Desk, FEWEST_HALVINGS, MOST_HALVINGS, ROWS};

const LIQUID: Query = (2, 3.0, 500.0);
const VAPOUR: Query = (3, 0.1, 8.0);
const DENSE_VAPOUR: Query = (2, 20.0, 3000.0);
const COLD_LIQUID: Query = (3, 80.0, 1.0);

/// A tour with `count` calls drawn at random behind what every tour shows.
pub fn records(seed: u64, count: usize) -> Vec<u8> {
    let mut tour = Tour { run: Run::new(seed) };
    tour.jobs_alone();
    tour.full_desk();
    tour.fine_jobs();
    tour.given_desk();
    for (number, halvings) in [(9, 9), (51, 50), (10, 11)] {
        tour.unsound_desk(number, halvings);
    }
    for _ in 0..count {
        tour.run.step();
    }
    tour.run.bytes
}

struct Tour {
    run: Run,
}

impl Tour {
    fn post(&mut self, caller: u64, (kind, p, y): Query, number: u64) {
        self.run.call([1, caller, kind, p.to_bits(), y.to_bits(), number]);
    }

    fn turn(&mut self, turns: u64) {
        self.run.call([2, 0, turns, 0, 0, 0]);
    }

    fn peek(&mut self, caller: u64, ticket: u64) {
        self.run.call([3, caller, ticket, 0, 0, 0]);
    }

    fn collect(&mut self, caller: u64, ticket: u64) {
        self.run.call([4, caller, ticket, 0, 0, 0]);
    }

    fn withdraw(&mut self, caller: u64, ticket: u64) {
        self.run.call([5, caller, ticket, 0, 0, 0]);
    }

    fn show(&mut self) {
        self.run.call([7, 0, 0, 0, 0, 0]);
    }

    /// Three jobs on a new desk, and posts refused by their number, before and after what
    /// else is wrong with them. 29 turns are ten for the first two and nine for the third.
    fn jobs_alone(&mut self) {
        self.post(3, LIQUID, FEWEST_HALVINGS);
        self.post(5, VAPOUR, MOST_HALVINGS);
        self.post(3, DENSE_VAPOUR, 40);
        for number in [FEWEST_HALVINGS - 1, MOST_HALVINGS + 1, 0, u64::MAX] {
            self.post(3, LIQUID, number);
        }
        for number in [FEWEST_HALVINGS - 1, FEWEST_HALVINGS] {
            self.post(3, (2, f64::NAN, 500.0), number);
        }
        self.peek(3, 0);
        self.collect(3, 0);
        self.turn(29);
        self.peek(3, 0);
        self.peek(5, 0);
        self.show();
        self.collect(3, 0);
        self.collect(5, 0);
        self.collect(3, 1);
        self.withdraw(3, 1);
        self.withdraw(3, 1);
        self.turn(100);
        self.collect(5, 0);
        self.collect(5, 0);
        self.show();
    }

    /// Every row filled: the one that the turns reach last by a job for ten halvings, which
    /// takes 320 turns, the others by jobs for more.
    fn full_desk(&mut self) {
        const NUMBERS: [u64; 8] = [50, 49, 41, 40, 39, 30, 20, 11];
        let Desk { pointer, counts, .. } = self.run.desk;
        let last = (pointer as usize + ROWS - 1) % ROWS;
        for index in 0..ROWS {
            let query = [LIQUID, VAPOUR, DENSE_VAPOUR, COLD_LIQUID][index % 4];
            let number = if index == last { FEWEST_HALVINGS } else { NUMBERS[index % 8] };
            self.post(index as u64 / 4, query, number);
        }
        self.post(7, LIQUID, FEWEST_HALVINGS);
        self.post(7, LIQUID, FEWEST_HALVINGS - 1);
        let (caller, ticket) = (last as u64 / 4, counts[last / 4] + last as u64 % 4);
        self.turn(319);
        self.peek(caller, ticket);
        self.collect(caller, ticket);
        self.turn(1);
        self.collect(caller, ticket);
        self.turn(1280);
        for slot in 0..4 {
            self.collect(2, counts[2] + slot);
        }
        self.show();
    }

    /// A given desk whose 32 jobs are all for 50 halvings: the last takes 1,600 turns.
    fn fine_jobs(&mut self) {
        self.run.set_desk(|_| {
            let mut desk = Desk::new();
            for index in 0..ROWS {
                let (kind, p, y) = [COLD_LIQUID, DENSE_VAPOUR, VAPOUR, LIQUID][index % 4];
                let _ = desk.post(index as u64 / 4, kind, p, y, MOST_HALVINGS);
            }
            desk
        });
        self.turn(1599);
        self.peek(7, 3);
        self.collect(7, 3);
        self.turn(1);
        self.collect(7, 3);
        self.turn(1);
    }

    /// A sound desk with any numbers that such a desk may have.
    fn given_desk(&mut self) {
        self.run.set_desk(sound_desk);
        self.show();
        self.turn(100);
        for (caller, ticket) in self.jobs(true) {
            self.collect(caller, ticket);
        }
        for (caller, ticket) in self.jobs(false) {
            self.peek(caller, ticket);
        }
    }

    /// The callers and tickets of up to four jobs, finished or unfinished.
    fn jobs(&self, finished: bool) -> Vec<(u64, u64)> {
        let rows = self.run.desk.rows.iter().filter(|row| row.filled);
        let jobs = rows.filter(|row| row.is_unfinished() != finished);
        jobs.map(|row| (row.caller, row.ticket)).take(4).collect()
    }

    /// A desk whose one job has such a number and count, by which it is not sound.
    fn unsound_desk(&mut self, number: u64, halvings: u64) {
        self.run.set_desk(|_| {
            let mut desk = Desk::new();
            let (kind, p, y) = LIQUID;
            let _ = desk.post(6, kind, p, y, MOST_HALVINGS);
            (desk.rows[0].number, desk.rows[0].halvings) = (number, halvings);
            desk
        });
        self.turn(1);
        self.post(8, (1, f64::NAN, 0.0), MOST_HALVINGS + 1);
        self.peek(6, 0);
        self.collect(6, 0);
        self.withdraw(6, 0);
        self.show();
    }
}

#[cfg(test)]
mod tests {
    use super::*;
    use crate::outputs;
    use crate::Program;

    fn lines(count: usize) -> Vec<String> {
        let text = outputs::of(Program::Replay, &records(1, count));
        text.lines().map(String::from).collect()
    }

    /// The call, its refusal and, of a state, the number.
    fn outcome(line: &str) -> String {
        let columns: Vec<&str> = line.split(' ').collect();
        match columns[..] {
            [_, "collect", "0", .., number, _, _] => format!("collect 0 {number}"),
            [_, call @ ("collect" | "peek"), refusal, ..] => format!("{call} {refusal}"),
            _ => columns[1..].join(" "),
        }
    }

    /// Whether these outcomes stand one behind the other.
    fn shows(outcomes: &[String], wanted: &[&str]) -> bool {
        outcomes.windows(wanted.len()).any(|window| window == wanted)
    }

    #[test]
    fn a_tour_shows_jobs_ready_in_time_and_not_a_turn_sooner() {
        let outcomes: Vec<String> = lines(0).iter().map(|line| outcome(line)).collect();
        let rough = ["turn 0 319 0", "peek 0", "collect 12", "turn 0 1 0", "collect 0 10"];
        assert!(shows(&outcomes, &rough));
        let fine = ["turn 0 1599 0", "peek 0", "collect 12", "turn 0 1 0", "collect 0 50"];
        assert!(shows(&outcomes, &fine));
        let several = ["collect 0 50", "collect 0 49", "collect 0 41", "collect 0 40"];
        assert!(shows(&outcomes, &several));
        assert!(shows(&outcomes, &["withdraw 0", "withdraw 11"]));
    }

    #[test]
    fn a_tour_shows_posts_and_desks_refused_by_a_number() {
        let outcomes: Vec<String> = lines(0).iter().map(|line| outcome(line)).collect();
        let refused = ["post 9 -", "post 9 -", "post 9 -", "post 9 -", "post 9 -", "post 1 -"];
        assert!(shows(&outcomes, &refused));
        assert!(shows(&outcomes, &["post 0 3", "post 10 -", "post 9 -"]));
        let unsound = ["desk", "turn 15 0 0", "post 15 -", "peek 15", "collect 15", "withdraw 15"];
        let times = outcomes.windows(unsound.len()).filter(|&window| window == unsound).count();
        assert_eq!(times, 3);
    }

    #[test]
    fn a_tour_goes_on_at_random() {
        let (shown, longer) = (lines(0), lines(30));
        assert_eq!(longer[..shown.len()], shown);
        assert!(longer.len() >= shown.len() + 30);
    }
}
