//! The text of the program `desk_run`: a line for each call of a short run, with its
//! name, its refusal or 0, and the number that it handed out: a ticket, 1 for a turn
//! that halved, the halvings done, a region; 0 where there is none. Of turns in a row
//! only the last has a line. Posts are for 40 halvings, but for two that name too few and
//! too many.

use crate::desk::{Desk, Turned, FEWEST_HALVINGS, MOST_HALVINGS};
use crate::refusals::Refusal;

/// The halvings that a post names.
const NUMBER: u64 = 40;

pub fn listing() -> String {
    let mut run = Run { desk: Desk::new(), text: String::new() };
    run.posts();
    run.turns(199);
    run.peek(0, 0);
    run.peek(1, 0);
    run.collect(1, 0);
    run.turns(1);
    run.turns(1);
    run.collect(1, 0);
    run.collect(1, 0);
    run.withdraw(0, 1);
    run.withdraw(0, 1);
    run.post(0, 2, 1.0, 500.0, NUMBER);
    run.desk.pointer = 32;
    run.peek(0, 0);
    run.text
}

struct Run {
    desk: Desk,
    text: String,
}

impl Run {
    /// Five posts of one caller, then one of another, and what is refused at the post.
    fn posts(&mut self) {
        for (kind, y) in [(2, 500.0), (3, 1.5), (2, 500.0), (3, 1.5), (2, 500.0)] {
            self.post(0, kind, 1.0, y, NUMBER);
        }
        self.post(1, 2, 1.0, 500.0, NUMBER);
        self.post(8, 2, 1.0, 500.0, NUMBER);
        self.post(1, 4, 1.0, 1.5, NUMBER);
        for number in [FEWEST_HALVINGS - 1, MOST_HALVINGS + 1] {
            self.post(1, 2, 1.0, 500.0, number);
        }
        self.post(1, 2, 0.0006, 500.0, NUMBER);
        self.post(1, 2, 0.0006, -7.0e300, NUMBER);
    }

    fn post(&mut self, caller: u64, kind: u64, p: f64, y: f64, number: u64) {
        let ticket = self.desk.post(caller, kind, p, y, number);
        self.line("post", ticket);
    }

    fn turns(&mut self, turns: usize) {
        for _ in 1..turns {
            let _ = self.desk.turn();
        }
        let turned = self.desk.turn().map(|turned| u64::from(turned == Turned::Halved));
        self.line("turn", turned);
    }

    fn peek(&mut self, caller: u64, ticket: u64) {
        let halvings = self.desk.peek(caller, ticket).map(|peeked| peeked.halvings);
        self.line("peek", halvings);
    }

    fn collect(&mut self, caller: u64, ticket: u64) {
        let collected = self.desk.collect(caller, ticket);
        self.line("collect", collected.map(|collected| collected.state.equation.region_number()));
    }

    fn withdraw(&mut self, caller: u64, ticket: u64) {
        let freed = self.desk.withdraw(caller, ticket).map(|()| 0);
        self.line("withdraw", freed);
    }

    fn line(&mut self, call: &str, handed_out: Result<u64, Refusal>) {
        let (refusal, number) = match handed_out {
            Ok(number) => (0, number),
            Err(Refusal(refusal)) => (refusal, 0),
        };
        self.text.push_str(&format!("{call} {refusal} {number}\n"));
    }
}

#[cfg(test)]
mod tests {
    use super::*;

    #[test]
    fn every_refusal_of_the_run_is_met() {
        let text = listing();
        let refusals: Vec<&str> =
            text.lines().filter_map(|line| line.split(' ').nth(1)).filter(|&n| n != "0").collect();
        assert_eq!(refusals, ["10", "9", "9", "9", "9", "2", "2", "12", "11", "11", "15"]);
    }
}
