//! The text of the program `plant`: a turbine of three stages, which asks for fine states,
//! and a feedwater heater, which asks for rough ones, at one desk; then the turbine alone
//! with its turns dealt otherwise; then whether any of the turbine's lines or states changed.
//!
//! Pressures in MPa with 3 decimals, temperatures in K, printed in degC with 2, enthalpies
//! in kJ/kg with 2, flows in kg/s, power and heat in MW with 3. Lines stand in the order in
//! which what they say becomes known. With the numbers below no call is refused; one that
//! were would print `NAME: refused N` in place of its line, and its model would stop.

use crate::answers::{answer, Answer, Single};
use crate::desk::Desk;
use crate::refusals::{Refusal, NOT_SINGLE};

/// The kinds of queries.
const P_T: u64 = 1;
const P_H: u64 = 2;
const P_S: u64 = 3;

/// The halvings of a fine state, and the turns after which it is ready whatever others do:
/// so many for each of 32 rows.
const FINE: u64 = 50;
const FINE_READY: usize = 1600;
/// The same of a rough state.
const ROUGH: u64 = 10;
const ROUGH_READY: usize = 320;

const TURBINE: u64 = 2;
const STEAM_FLOW: f64 = 50.0;
const INLET: (f64, f64) = (8.0, 773.15);
const STAGE_PRESSURES: [f64; 3] = [4.0, 2.0, 1.0];
const EFFICIENCY: f64 = 0.88;

const HEATER: u64 = 5;
const WATER_FLOW: f64 = 50.0;
const WATER_IN: (f64, f64) = (9.0, 413.15);
const BLED_FLOW: f64 = 3.0;
const BLED_STEAM: (f64, f64) = (0.6, 2900.0);
const DRAIN: (f64, f64) = (0.6, 650.0);

const TOGETHER: &str = "turbine and heater at one desk: \
     the heater collects its rough states after 320 turns, the turbine its fine ones after 1600";
const ALONE: &str = "turbine alone: 7 turns before each post, 1620 between it and its collect";
const SAME: &str =
    "the turbine's lines are the same in both runs, and so is every bit of its states: \
     nothing of the heater's got into them";
const DIFFERENT: &str = "the turbine's lines differ";

/// Both runs, then whether the turbine could tell them apart.
pub fn listing() -> String {
    let (first_text, first) = together();
    let (second_text, second) = alone();
    let verdict = if first.had_the_same(&second) { SAME } else { DIFFERENT };
    format!("{first_text}{second_text}{verdict}\n")
}

fn together() -> (String, Turbine) {
    let mut plant = Plant::new(TOGETHER);
    let mut turbine = Turbine::at_inlet(&mut plant);
    let mut heater = Heater::at_inlet(&mut plant);
    turbine.post(&mut plant);
    heater.post(&mut plant);
    plant.turn(ROUGH_READY);
    heater.collect(&mut plant);
    plant.turn(FINE_READY - ROUGH_READY);
    turbine.collect(&mut plant);
    while turbine.goes_on() {
        turbine.post(&mut plant);
        plant.turn(FINE_READY);
        turbine.collect(&mut plant);
    }
    turbine.sum_up(&mut plant);
    (plant.text, turbine)
}

fn alone() -> (String, Turbine) {
    let mut plant = Plant::new(ALONE);
    let mut turbine = Turbine::at_inlet(&mut plant);
    while turbine.goes_on() {
        plant.turn(7);
        turbine.post(&mut plant);
        plant.turn(1620);
        turbine.collect(&mut plant);
    }
    turbine.sum_up(&mut plant);
    (plant.text, turbine)
}

/// A desk and what is printed beside it.
struct Plant {
    desk: Desk,
    text: String,
}

impl Plant {
    fn new(title: &str) -> Plant {
        Plant { desk: Desk::new(), text: format!("{title}\n") }
    }

    fn turn(&mut self, turns: usize) {
        for _ in 0..turns {
            let _ = self.desk.turn();
        }
    }
}

/// One caller at the desk and the lines it has printed. A refused call prints so in place
/// of its line and stops the model: it makes no further call and prints no further line.
struct Model {
    caller: u64,
    /// The halvings that each of its posts names.
    number: u64,
    lines: String,
    stopped: bool,
}

impl Model {
    fn new(caller: u64, number: u64) -> Model {
        Model { caller, number, lines: String::new(), stopped: false }
    }

    fn say(&mut self, plant: &mut Plant, line: &str) {
        let line = format!("  {line}\n");
        plant.text.push_str(&line);
        self.lines.push_str(&line);
    }

    /// The state at (p,T), asked directly.
    fn ask(&mut self, plant: &mut Plant, what: &str, (p, t): (f64, f64)) -> Option<Single> {
        let state = answer(P_T, p, t).and_then(|answer| match answer {
            Answer::Single { state, .. } => Ok(state),
            Answer::Wet { .. } => Err(NOT_SINGLE),
        });
        self.given(plant, what, state)
    }

    /// Posts a query, its kind and two numbers; gives the ticket.
    fn post(&mut self, plant: &mut Plant, what: &str, query: (u64, f64, f64)) -> Option<u64> {
        if self.stopped {
            return None;
        }
        let (kind, p, y) = query;
        let ticket = plant.desk.post(self.caller, kind, p, y, self.number);
        self.given(plant, what, ticket)
    }

    fn collect(&mut self, plant: &mut Plant, what: &str, ticket: u64) -> Option<Single> {
        if self.stopped {
            return None;
        }
        let state = plant.desk.collect(self.caller, ticket).map(|collected| collected.state);
        self.given(plant, what, state)
    }

    /// What a call gave, unless it was refused.
    fn given<T>(&mut self, plant: &mut Plant, what: &str, t: Result<T, Refusal>) -> Option<T> {
        if let Err(Refusal(number)) = t {
            self.say(plant, &format!("{what}: refused {number}"));
            self.stopped = true;
        }
        t.ok()
    }
}

/// The line of a state, without what a model adds to it.
fn line(what: &str, state: &Single) -> String {
    let (p, t) = (fixed(state.p, 3), fixed(state.t - 273.15, 2));
    format!("{what}: {p} MPa, {t} degC, {} kJ/kg", fixed(state.properties.h, 2))
}

/// A number with so many decimals, the nearest to its exact value. `format` takes the even
/// one of two that are equally near, this the one further from zero.
fn fixed(x: f64, decimals: usize) -> String {
    let exact = format!("{x:.1074}");
    let behind = exact.find('.').map_or("", |point| &exact[point + 1 + decimals..]);
    let halfway = behind.starts_with('5') && behind[1..].bytes().all(|digit| digit == b'0');
    let x = match halfway {
        true if x > 0.0 => x.next_up(),
        true => x.next_down(),
        false => x,
    };
    format!("{x:.decimals$}")
}

/// The turbine on its way through two queries a stage: by (p,s) the state in which the
/// steam would leave without losses, by (p,h) the state in which it leaves.
struct Turbine {
    model: Model,
    /// The inlet's state, then every state collected.
    states: Vec<Single>,
    ticket: Option<u64>,
    /// Of each stage passed.
    powers: Vec<f64>,
}

impl Turbine {
    fn at_inlet(plant: &mut Plant) -> Turbine {
        let mut model = Model::new(TURBINE, FINE);
        let inlet = model.ask(plant, "turbine inlet", INLET);
        if let Some(inlet) = &inlet {
            model.say(plant, &line("turbine inlet", inlet));
        }
        Turbine { model, states: inlet.into_iter().collect(), ticket: None, powers: Vec::new() }
    }

    fn goes_on(&self) -> bool {
        !self.model.stopped && self.powers.len() < STAGE_PRESSURES.len()
    }

    /// What the stage's next query asks for: its end without losses, then its end.
    fn end(&self) -> String {
        let ideal = if self.without_losses().is_none() { " ideal" } else { "" };
        format!("turbine stage {}{ideal}", self.powers.len() + 1)
    }

    /// The state in which the steam enters the stage.
    fn entering(&self) -> &Single {
        &self.states[2 * self.powers.len()]
    }

    /// The state without losses, once it is collected.
    fn without_losses(&self) -> Option<&Single> {
        self.states.get(2 * self.powers.len() + 1)
    }

    /// The stage's next query.
    fn query(&self) -> (u64, f64, f64) {
        let p = STAGE_PRESSURES[self.powers.len()];
        let entering = &self.entering().properties;
        match self.without_losses() {
            None => (P_S, p, entering.s),
            Some(state) => (P_H, p, entering.h - EFFICIENCY * (entering.h - state.properties.h)),
        }
    }

    fn post(&mut self, plant: &mut Plant) {
        if self.goes_on() {
            self.ticket = self.model.post(plant, &self.end(), self.query());
        }
    }

    fn collect(&mut self, plant: &mut Plant) {
        let Some(ticket) = self.ticket.take() else { return };
        let end = self.end();
        let Some(state) = self.model.collect(plant, &end, ticket) else { return };
        let mut line = line(&end, &state);
        if self.without_losses().is_some() {
            let power = (STEAM_FLOW * (self.entering().properties.h - state.properties.h)) / 1000.0;
            line.push_str(&format!(", shaft power {} MW", fixed(power, 3)));
            self.powers.push(power);
        }
        self.model.say(plant, &line);
        self.states.push(state);
    }

    fn sum_up(&mut self, plant: &mut Plant) {
        if let [first, second, third] = self.powers[..] {
            let power = fixed(first + second + third, 3);
            self.model.say(plant, &format!("turbine in all: shaft power {power} MW"));
        }
    }

    /// Whether two turbines printed the same bytes and had states of the same bits.
    fn had_the_same(&self, other: &Turbine) -> bool {
        let bits = |turbine: &Turbine| turbine.states.iter().map(bits).collect::<Vec<_>>();
        self.model.lines == other.model.lines && bits(self) == bits(other)
    }
}

/// The bits of p, T, v, u, h, s, cp and w.
fn bits(state: &Single) -> [u64; 8] {
    let of = &state.properties;
    [state.p, state.t, of.v, of.u, of.h, of.s, of.cp, of.w].map(f64::to_bits)
}

/// The heater: the feedwater takes up what the bled steam gives off down to its drain.
struct Heater {
    model: Model,
    /// Enthalpy of the water in.
    h_in: f64,
    tickets: Vec<u64>,
}

impl Heater {
    const POSTS: [&'static str; 3] = ["heater bled steam", "heater drain", "heater water out"];
    /// What the bled steam gives off, in kW.
    const GIVEN_OFF: f64 = BLED_FLOW * (BLED_STEAM.1 - DRAIN.1);

    fn at_inlet(plant: &mut Plant) -> Heater {
        let mut model = Model::new(HEATER, ROUGH);
        let water = model.ask(plant, "heater water in", WATER_IN);
        if let Some(water) = &water {
            model.say(plant, &line("heater water in", water));
        }
        let h_in = water.map_or(0.0, |water| water.properties.h);
        Heater { model, h_in, tickets: Vec::new() }
    }

    fn post(&mut self, plant: &mut Plant) {
        let water_out = (WATER_IN.0, self.h_in + Self::GIVEN_OFF / WATER_FLOW);
        for (what, (p, h)) in Self::POSTS.into_iter().zip([BLED_STEAM, DRAIN, water_out]) {
            self.tickets.extend(self.model.post(plant, what, (P_H, p, h)));
        }
    }

    fn collect(&mut self, plant: &mut Plant) {
        let heat = format!(", heat {} MW", fixed(Self::GIVEN_OFF / 1000.0, 3));
        for ((what, &ticket), added) in
            Self::POSTS.into_iter().zip(&self.tickets).zip(["", "", &heat])
        {
            if let Some(state) = self.model.collect(plant, what, ticket) {
                self.model.say(plant, &format!("{}{added}", line(what, &state)));
            }
        }
    }
}

#[cfg(test)]
mod tests {
    use super::*;

    fn lines_of(text: &str, model: &str) -> Vec<String> {
        let model = format!("  {model} ");
        text.lines().filter(|line| line.starts_with(&model)).map(String::from).collect()
    }

    /// The number before a unit in a line.
    fn number(line: &str, unit: &str) -> f64 {
        let (before, _) = line.split_once(unit).unwrap();
        before.rsplit(' ').next().unwrap().parse().unwrap()
    }

    /// The lines of a stage: that of its end without losses and that of its end.
    fn ends(lines: &[String], stage: usize) -> (&str, &str) {
        (&lines[2 * stage - 1], &lines[2 * stage])
    }

    #[test]
    fn lines_come_in_the_order_in_which_things_become_known() {
        let text = listing();
        let names: Vec<&str> = text
            .lines()
            .map(|line| if line.starts_with(' ') { line.split(':').next().unwrap() } else { line })
            .collect();
        let stages = [
            "  turbine stage 1",
            "  turbine stage 2 ideal",
            "  turbine stage 2",
            "  turbine stage 3 ideal",
            "  turbine stage 3",
            "  turbine in all",
        ];
        let expected = [
            &["turbine and heater at one desk: the heater collects its rough states after 320 \
                turns, the turbine its fine ones after 1600"][..],
            &["  turbine inlet", "  heater water in"],
            &["  heater bled steam", "  heater drain", "  heater water out"],
            &["  turbine stage 1 ideal"],
            &stages,
            &["turbine alone: 7 turns before each post, 1620 between it and its collect"],
            &["  turbine inlet", "  turbine stage 1 ideal"],
            &stages,
            &["the turbine's lines are the same in both runs, and so is every bit of its states: \
                nothing of the heater's got into them"],
        ]
        .concat();
        assert_eq!(names, expected);
        assert!(text.ends_with(" them\n"));
    }

    #[test]
    fn a_stage_falls_by_its_efficiency_of_the_fall_without_losses() {
        let lines = lines_of(&listing(), "turbine");
        let h = |line: &str| number(line, " kJ/kg");
        let mut entering = h(&lines[0]);
        for (stage, p) in [(1, 4.0), (2, 2.0), (3, 1.0)] {
            let (ideal, real) = ends(&lines, stage);
            assert!(ideal.starts_with(&format!("  turbine stage {stage} ideal: ")));
            assert!(ideal.ends_with(" kJ/kg"), "{ideal}");
            assert_eq!((number(ideal, " MPa"), number(real, " MPa")), (p, p));
            assert!((entering - h(real) - 0.88 * (entering - h(ideal))).abs() < 0.03);
            entering = h(real);
        }
    }

    #[test]
    fn the_turbine_cannot_tell_the_runs_apart() {
        let ((first_text, first), (second_text, second)) = (together(), alone());
        assert_eq!(lines_of(&first_text, "turbine"), lines_of(&second_text, "turbine"));
        assert_eq!(first.model.lines, second.model.lines);
        assert_eq!(first.states.len(), 7);
        assert!(first.had_the_same(&second));
    }

    #[test]
    fn one_bit_or_one_line_makes_the_runs_differ() {
        let (_, turbine) = together();
        let (_, mut other) = together();
        let w = &mut other.states[5].properties.w;
        *w = w.next_up();
        assert!(!turbine.had_the_same(&other));
        let (_, mut other) = together();
        other.model.lines.pop();
        assert!(!turbine.had_the_same(&other));
    }

    #[test]
    fn powers_add_up_and_the_heater_gains_about_what_the_steam_loses() {
        let text = listing();
        let lines = lines_of(&text, "turbine");
        let powers = [1, 2, 3].map(|stage| number(ends(&lines, stage).1, " MW"));
        let in_all = number(&lines[7], " MW");
        assert!((powers[0] + powers[1] + powers[2] - in_all).abs() < 0.002);
        let lost = number(&lines[0], " kJ/kg") - number(ends(&lines, 3).1, " kJ/kg");
        assert!((50.0 * lost / 1000.0 - in_all).abs() < 0.002);
        let lines = lines_of(&text, "heater");
        let gained = number(&lines[3], " kJ/kg") - number(&lines[0], " kJ/kg");
        // A rough state: its h is off by up to that of half the last bracket.
        assert!((50.0 * gained / 1000.0 - number(&lines[3], " MW")).abs() < 0.034);
    }

    #[test]
    fn temperatures_are_near_those_of_the_backward_equations() {
        for line in listing().lines().filter(|line| line.contains(" degC")) {
            let (p, h) = (number(line, " MPa"), number(line, " kJ/kg"));
            let Ok(Answer::Single { state, .. }) = answer(2, p, h) else { panic!("{line}") };
            assert!((state.t - 273.15 - number(line, " degC")).abs() < 0.025 + 0.01, "{line}");
        }
    }

    /// Rough: T within half the last of 10 brackets of what 50 halvings give, and h not the
    /// one asked, which that gives.
    #[test]
    fn the_heater_s_states_are_rough() {
        let lines = lines_of(&listing(), "heater");
        for (line, (p, h)) in lines[1..].iter().zip([BLED_STEAM, DRAIN]) {
            let mut desk = Desk::new();
            desk.post(0, P_H, p, h, FINE).unwrap();
            let bracket = desk.peek(0, 0).unwrap();
            for _ in 0..FINE {
                desk.turn().unwrap();
            }
            let fine = desk.collect(0, 0).unwrap().state;
            assert_eq!(fixed(fine.properties.h, 2), fixed(h, 2));
            let off = (number(line, " degC") + 273.15 - fine.t).abs();
            assert!(off < (bracket.hi - bracket.lo) / 2048.0 + 0.005, "{line}");
            assert!(number(line, " kJ/kg") != h, "{line}");
        }
    }

    #[test]
    fn every_state_is_a_single_phase_and_entropy_never_falls() {
        let (_, turbine) = together();
        let s: Vec<f64> = turbine.states.iter().map(|state| state.properties.s).collect();
        for stage in 0..3 {
            assert!((s[2 * stage + 1] - s[2 * stage]).abs() < 1e-6);
            assert!(s[2 * stage + 2] > s[2 * stage]);
        }
    }

    #[test]
    fn decimals_are_rounded_on_the_exact_value_and_a_tie_away_from_zero() {
        let cases = [
            (0.125, 2, "0.13"),
            (-0.125, 2, "-0.13"),
            (0.375, 2, "0.38"),
            (2.5, 0, "3"),
            (0.15, 1, "0.1"),
            (0.25, 1, "0.3"),
            (1.005, 2, "1.00"),
            (6.75, 3, "6.750"),
            (999.9996, 3, "1000.000"),
            (2251799813685248.5, 0, "2251799813685249"),
            (5e-324, 3, "0.000"),
        ];
        for (x, decimals, text) in cases {
            assert_eq!(fixed(x, decimals), text);
        }
    }

    #[test]
    fn a_refused_end_without_losses_is_named_so() {
        let mut plant = Plant::new("title");
        let mut turbine = Turbine::at_inlet(&mut plant);
        turbine.model.caller = 8;
        turbine.post(&mut plant);
        turbine.collect(&mut plant);
        assert!(plant.text.ends_with(" kJ/kg\n  turbine stage 1 ideal: refused 9\n"));
        assert!(!turbine.goes_on());
    }

    #[test]
    fn a_refused_call_is_said_and_stops_the_model() {
        let mut plant = Plant::new("title");
        let mut model = Model::new(8, ROUGH);
        assert_eq!(model.post(&mut plant, "stage", (P_H, 1.0, 3000.0)), None);
        assert_eq!(model.collect(&mut plant, "stage", 0), None);
        assert_eq!((plant.text.as_str(), model.stopped), ("title\n  stage: refused 9\n", true));
    }
}
