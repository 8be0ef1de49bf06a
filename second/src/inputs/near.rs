//! (p,h), (p,s) and (h,s) queries within 30 mK of the saturation line, where a temperature
//! past it is pulled to it (M-105 of 02): liquid and vapour on both sides of the line, over
//! all its pressures up to P = ps(623.15) and next to its ends.

use super::points::{around, around_all, Query};
use super::random::Random;
use crate::answers::{backward_temperature, candidate, past_saturation, PULLED};
use crate::basic::{Point, Region};
use crate::regions::{highest_saturation_pressure, Quantity, P_LOWEST_BACKWARD};
use crate::saturation::saturation_temperature;

/// Farthest from the line, in K.
const FARTHEST: f64 = 0.03;
/// The phases, by their regions.
const PHASES: [Region; 2] = [Region::One, Region::Two];
/// Pressures from all over the line, in MPa.
const INSIDE: [f64; 15] =
    [0.00062, 0.001, 0.01, 0.1, 0.5, 1.0, 2.0, 3.0, 5.0, 8.0, 10.0, 12.0, 15.0, 16.5, 16.52];
/// Distances past the line, in K, of (h,s) whose pressure is next to an end.
const DISTANCES: [f64; 4] = [0.004, 0.008, 0.012, 0.018];
/// How many pairs (h,s) are tried for a tie.
const TRIES_FOR_A_TIE: usize = 10_000;
/// How many are tried for any other query.
const TRIES: usize = 200;

/// Every tie of the rule: saturated states with the numbers next to them, and (h,s) whose
/// candidates lie next to where the rule turns. They are in no order, so that a few in a row
/// are of every kind, phase and pressure.
pub fn ties() -> Vec<Query> {
    let highest = highest_saturation_pressure();
    let pressures = [around_all(&[P_LOWEST_BACKWARD, 4.0, highest]), INSIDE.to_vec()].concat();
    let mut ties = Vec::new();
    for region in PHASES {
        ties.extend(pressures.iter().flat_map(|&p| saturated(region, p)));
        for (p, aim) in INSIDE.into_iter().flat_map(|p| [(p, 0.0), (p, PULLED)]) {
            ties.extend(at_distance(region, p, aim, TRIES_FOR_A_TIE).map(|(h, s)| (4, h, s)));
        }
    }
    for (region, end, apart) in ends() {
        let pairs = DISTANCES.into_iter().flat_map(|past| at_pressure(region, end, apart, past));
        ties.extend(pairs.map(|(h, s)| (4, h, s)));
    }
    shuffled(ties)
}

/// The ends of the line, the lowest pressure of the rule and P, and how many f64s apart the
/// nearest values of p(h,s) are that were found on its two sides. None of these is an end or
/// next to it but one, the f64 below the lowest pressure in region 2. There p(h,s) is a fourth
/// power; in region 1 it is a sum whose last term takes away nearly all of the others.
fn ends() -> [(Region, f64, f64); 4] {
    let highest = highest_saturation_pressure();
    [
        (Region::One, P_LOWEST_BACKWARD, 25.0),
        (Region::One, highest, 100.0),
        (Region::Two, P_LOWEST_BACKWARD, 4.0),
        (Region::Two, highest, 4.0),
    ]
}

/// (p,h), (p,s) and (h,s) of a saturated state, and up to 30 f64s from them.
fn saturated(region: Region, p: f64) -> Vec<Query> {
    let (h, s) = state(region, p, saturation_temperature(p));
    let steps = [-30, -3, -2, -1, 0, 1, 2, 3, 30];
    let beside_p = steps.into_iter().flat_map(|n| [(2, p, stepped(h, n)), (3, p, stepped(s, n))]);
    let both = around(h).map(|h| (4, h, s)).into_iter().chain(around(s).map(|s| (4, h, s)));
    beside_p.chain(both).collect()
}

/// h and s of a phase at (p,T).
fn state(region: Region, p: f64, t: f64) -> (f64, f64) {
    let point = Point::new(region, p, t);
    (point.h(), point.s())
}

/// So many f64s above a number, or below it.
fn stepped(x: f64, steps: i32) -> f64 {
    let step = if steps < 0 { f64::next_down } else { f64::next_up };
    (0..steps.abs()).fold(x, |x, _| step(x))
}

/// How far the candidate of (h,s) lies past the line.
fn distance(region: Region, h: f64, s: f64) -> f64 {
    let (p, t) = candidate(region, h, s);
    past_saturation(region, p, t)
}

/// Next to a saturated state, (h,s) whose candidate lies past the line as little below `aim`
/// as was found, or just so far, and as little above it. Nothing is nearer than one f64 of T.
fn at_distance(region: Region, p: f64, aim: f64, tries: usize) -> [(f64, f64); 2] {
    let t = saturation_temperature(p);
    let search = Search { aim, least: t.next_up() - t, tries };
    search.from(|h, s| distance(region, h, s), state(region, p, t))
}

/// (h,s) whose candidate lies so far past the line and has a pressure as little below an end
/// of the line as was found, or just that, and as little above it.
fn at_pressure(region: Region, end: f64, apart: f64, past: f64) -> [(f64, f64); 2] {
    let (h, s) = state(region, end, saturation_temperature(end));
    let past_at = |h| {
        let t = backward_temperature(region, Quantity::Enthalpy, end, h);
        past_saturation(region, end, t)
    };
    let h = crossing(past_at, past, h, H_STEP);
    let pressure = |h, s| candidate(region, h, s).0;
    let s = crossing(|s| pressure(h, s), end, s, S_STEP);
    let least = apart * (end.next_up() - end);
    Search { aim: end, least, tries: TRIES_FOR_A_TIE }.from(pressure, (h, s))
}

/// A search for (h,s) at which some value is next to `aim`. It ends when the two found are
/// `least` apart, or after so many tries.
struct Search {
    aim: f64,
    least: f64,
    tries: usize,
}

/// A step of h is at least an f64 of this number: a smaller one is lost where a backward
/// equation adds to h.
const H_STEP: f64 = 64.0;
/// A step of s is at least an f64 of this number.
const S_STEP: f64 = 0.25;

impl Search {
    /// Walks along where the value is about `aim`: h goes to it, and s goes on. At single
    /// f64 steps the value is rough, so that each pair is another try. The pair at or below
    /// `aim`, and the one above it.
    fn from(&self, value: impl Fn(f64, f64) -> f64, (h, s): (f64, f64)) -> [(f64, f64); 2] {
        let mut s = s;
        let mut h = crossing(|h| value(h, s), self.aim, h, H_STEP);
        let up_h = rise(|h| value(h, s), h, H_STEP);
        let up_s = rise(|s| value(h, s), s, S_STEP);
        let mut found = [(f64::NEG_INFINITY, (h, s)), (f64::INFINITY, (h, s))];
        for _ in 0..self.tries {
            let here = value(h, s);
            if here > self.aim {
                if here < found[1].0 {
                    found[1] = (here, (h, s));
                }
                h -= up_h;
            } else {
                if here > found[0].0 {
                    found[0] = (here, (h, s));
                }
                h += up_h;
                s += up_s;
            }
            if found[1].0 - found[0].0 <= self.least {
                break;
            }
        }
        found.map(|(_, pair)| pair)
    }
}

/// Where, next to `from`, a value is about `aim`; `from` if it is nowhere.
fn crossing(value: impl Fn(f64) -> f64, aim: f64, from: f64, least: f64) -> f64 {
    let above = |x: f64| value(x) > aim;
    let at_from = above(from);
    let step = rise(&value, from, least);
    let mut width = if at_from { -1024.0 * step } else { 1024.0 * step };
    while above(from + width) == at_from {
        width *= 2.0;
        if width.abs() > 10.0 {
            return from;
        }
    }
    let (mut near, mut far) = (from, from + width);
    loop {
        let middle = near.midpoint(far);
        if (far - near).abs() <= step.abs() || middle == near || middle == far {
            return near;
        }
        if above(middle) == at_from {
            near = middle;
        } else {
            far = middle;
        }
    }
}

/// An f64 step of x, or of `least` where that is larger, to the side to which a value rises.
fn rise(value: impl Fn(f64) -> f64, x: f64, least: f64) -> f64 {
    let size = x.abs().max(least);
    let step = size.next_up() - size;
    let far = 1e6 * step;
    if value(x + far) > value(x - far) {
        step
    } else {
        -step
    }
}

/// The same queries in an order that is always the same and means nothing.
fn shuffled(mut queries: Vec<Query>) -> Vec<Query> {
    let mut random = Random::new(0);
    for last in (1..queries.len()).rev() {
        queries.swap(last, random.below(last + 1));
    }
    queries
}

/// A query near the line.
pub fn any(random: &mut Random) -> Query {
    let (region, p) = (random.pick(&PHASES), pressure(random));
    match random.below(3) {
        0 => {
            let (h, s) = pair(random, region, p);
            (4, h, s)
        }
        which => {
            let (h, s) = match random.below(4) {
                0 => a_few_steps_off(random, state(region, p, saturation_temperature(p))),
                _ => state(region, p, temperature(random, region, p)),
            };
            [(2, p, h), (3, p, s)][which - 1]
        }
    }
}

/// A pressure all over the line, or next to one of its ends.
fn pressure(random: &mut Random) -> f64 {
    let highest = highest_saturation_pressure();
    match random.below(8) {
        0 => random.near(highest, -1e-2),
        1 => random.near(P_LOWEST_BACKWARD, 1e-5),
        2..=4 => random.between(P_LOWEST_BACKWARD, highest),
        _ => random.log_between(P_LOWEST_BACKWARD, highest),
    }
}

/// A temperature within 30 mK of the line, two in three on the phase's own side.
fn temperature(random: &mut Random, region: Region, p: f64) -> f64 {
    let own = if region == Region::One { -1.0 } else { 1.0 };
    let side = random.pick(&[own, own, -own]);
    let ts = saturation_temperature(p);
    match random.below(8) {
        0 => ts,
        1 => random.next_to(ts + side * PULLED),
        2..=4 => ts + side * random.log_between(1e-9, FARTHEST),
        _ => ts + side * random.between(0.0, FARTHEST),
    }
}

/// Numbers up to 40 f64s from those of a saturated state, many of them next to these.
fn a_few_steps_off(random: &mut Random, (h, s): (f64, f64)) -> (f64, f64) {
    let far = random.pick(&[1, 4, 40]);
    let mut off = |x| stepped(x, random.below(2 * far + 1) as i32 - far as i32);
    (off(h), off(s))
}

/// An (h,s) query: a state near the line, or numbers whose candidate lies near it, as the
/// rule takes the distance; of these some lie next to where the rule turns.
fn pair(random: &mut Random, region: Region, p: f64) -> (f64, f64) {
    match random.below(8) {
        0 => a_few_steps_off(random, state(region, p, saturation_temperature(p))),
        1 => {
            let aim = random.pick(&[0.0, PULLED, PULLED]);
            let found = at_distance(region, p, aim, TRIES);
            random.pick(&found)
        }
        2..=4 => {
            let past = random.between(-FARTHEST, FARTHEST);
            let (h, s) = state(region, p, saturation_temperature(p));
            (crossing(|h| distance(region, h, s), past, h, H_STEP), s)
        }
        _ => state(region, p, temperature(random, region, p)),
    }
}

#[cfg(test)]
mod tests {
    use super::*;
    use crate::answers::{answer, answer_with, Answer, Past};
    use crate::arithmetic::{fourth_root, power};
    use std::collections::BTreeMap;

    /// Ties and as many drawn queries as make 6,000.
    fn queries() -> Vec<Query> {
        let mut random = Random::new(8);
        let ties = ties();
        let drawn = 6000 - ties.len();
        ties.into_iter().chain((0..drawn).map(|_| any(&mut random))).collect()
    }

    /// Where f64s lie further apart than the steps of the number it starts from, too.
    #[test]
    fn a_crossing_is_found_beyond_a_power_of_two() {
        for aim in [511.99, 512.0, 512.01, 515.0] {
            let found = crossing(|x| x, aim, 511.9, H_STEP);
            assert!((found - aim).abs() < 1e-12, "{aim} {found}");
        }
        assert_eq!(crossing(|_| f64::NAN, 0.0, 3.0, H_STEP), 3.0);
    }

    /// The (p,T) at which a phase has h and s: T by h and p by s, each by halvings.
    fn solved(region: Region, h: f64, s: f64) -> (f64, f64) {
        let halved = |mut low: f64, mut high: f64, below: &dyn Fn(f64) -> bool| {
            for _ in 0..64 {
                let middle = low.midpoint(high);
                if below(middle) {
                    low = middle;
                } else {
                    high = middle;
                }
            }
            low
        };
        let t_at = |p| halved(270.0, 640.0, &|t| Point::new(region, p, t).h() < h);
        let p = halved(0.0006, 16.6, &|p| Point::new(region, p, t_at(p)).s() > s);
        (p, t_at(p))
    }

    /// The distances to the line that a query has, T − Ts(p) in K: of (p,h) and (p,s), of
    /// each phase, that of the T at which its basic equation gives h or s, to within the
    /// phase's slope; of (h,s), that of the p and T at which the basic equations give both,
    /// and that of the candidate.
    fn distances((kind, first, second): Query) -> Vec<f64> {
        let of_phase = |region| {
            if kind == 4 {
                let (p, t) = solved(region, first, second);
                let past = distance(region, first, second);
                let off = if region == Region::One { past } else { -past };
                return vec![t - saturation_temperature(p), off];
            }
            let quantity = if kind == 2 { Quantity::Enthalpy } else { Quantity::Entropy };
            let ts = saturation_temperature(first);
            let at = |t| quantity.at(region, first, t);
            vec![(second - at(ts)) / ((at(ts + FARTHEST) - at(ts - FARTHEST)) / (2.0 * FARTHEST))]
        };
        PHASES.into_iter().flat_map(of_phase).collect()
    }

    #[test]
    fn every_query_lies_within_30_mk_of_the_line() {
        let (mut below, mut above) = (0, 0);
        for query in queries().into_iter().step_by(5) {
            let nearest = distances(query).into_iter().min_by(|a, b| a.abs().total_cmp(&b.abs()));
            let nearest = nearest.unwrap();
            assert!(nearest.abs() < 1.01 * FARTHEST, "{query:?}: {nearest}");
            below += usize::from(nearest < 0.0);
            above += usize::from(nearest > 0.0);
        }
        assert!(below > 300 && above > 300, "{below} {above}");
    }

    /// The region of an answer in one phase, and whether without the pull it would have
    /// another temperature or be refused.
    fn pulled((kind, first, second): Query) -> Option<(u64, bool)> {
        let state = |past| match answer_with(past, kind, first, second) {
            Ok(Answer::Single { state, .. }) => Some(state),
            _ => None,
        };
        let pulled = state(Past::Pulled)?;
        Some((pulled.equation.region_number(), state(Past::Kept) != Some(pulled)))
    }

    #[test]
    fn many_of_every_kind_and_region_are_pulled_and_many_are_not() {
        let mut counts = BTreeMap::new();
        for query in queries() {
            if let Some((region, pulled)) = pulled(query) {
                *counts.entry((query.0, region, pulled)).or_insert(0) += 1;
            }
        }
        assert_eq!(counts.len(), 12, "{counts:?}");
        assert!(counts.values().all(|&count| count > 100), "{counts:?}");
    }

    #[test]
    fn pressures_lie_at_both_ends_and_all_over_the_line() {
        let highest = highest_saturation_pressure();
        let mut random = Random::new(9);
        let drawn: Vec<Query> = (0..6000).map(|_| any(&mut random)).collect();
        for (kind, queries) in [(2, &drawn), (3, &drawn), (2, &ties()), (3, &ties())] {
            let many = |test: &dyn Fn(f64) -> bool| {
                queries.iter().filter(|query| query.0 == kind && test(query.1)).count() >= 10
            };
            for end in [P_LOWEST_BACKWARD, highest] {
                assert!(around(end).into_iter().all(|p| many(&|of| of == p)), "{kind} {end}");
            }
            for (low, high) in [(0.0007, 0.005), (0.01, 0.1), (0.5, 3.0), (5.0, 9.0), (10.0, 16.5)]
            {
                assert!(many(&|p| p >= low && p <= high), "{kind} {low}");
            }
        }
    }

    /// On either side of 0.025 K and of the line itself with no f64 of T between them, but in
    /// region 1 at low pressures, where a step of h or s moves a candidate by hundreds.
    #[test]
    fn candidates_lie_next_to_where_the_rule_turns() {
        for (region, p) in PHASES.into_iter().flat_map(|region| INSIDE.map(|p| (region, p))) {
            let t = saturation_temperature(p);
            let f64s = if region == Region::One && p < 0.1 { 16.0 } else { 1.0 };
            for aim in [0.0, PULLED] {
                let pairs = at_distance(region, p, aim, TRIES_FOR_A_TIE);
                let [below, above] = pairs.map(|(h, s)| distance(region, h, s));
                assert!(below <= aim && aim < above);
                assert!(above - below <= f64s * (t.next_up() - t), "{region:?} {p} {aim}");
            }
        }
    }

    /// An (h,s) that is answered, whose neighbour a little further past the line is refused.
    #[test]
    fn answers_turn_at_25_mk() {
        for region in PHASES {
            let turn = |&p: &f64| {
                let pairs = at_distance(region, p, PULLED, TRIES_FOR_A_TIE);
                pairs.map(|(h, s)| answer(4, h, s).is_ok()) == [true, false]
            };
            assert!(INSIDE.iter().filter(|p| turn(p)).count() >= 9, "{region:?}");
        }
    }

    /// The pressures of candidates next to an end, in f64s from it.
    #[test]
    fn candidates_lie_next_to_the_ends_of_the_line() {
        let nearest = [[-18, 7], [-53, 47], [-1, 3], [-2, 2]];
        for ((region, end, apart), nearest) in ends().into_iter().zip(nearest) {
            let mut found = [i64::MIN, i64::MAX];
            for past in DISTANCES {
                let pairs = at_pressure(region, end, apart, past);
                let [below, above] = pairs.map(|(h, s)| candidate(region, h, s));
                let steps = |(p, _): (f64, f64)| p.to_bits() as i64 - end.to_bits() as i64;
                found = [found[0].max(steps(below)), found[1].min(steps(above))];
                for (p, t) in [below, above] {
                    assert!((past_saturation(region, p, t) - past).abs() < 1e-6);
                }
            }
            assert_eq!(found, nearest, "{region:?} {end}");
            assert_eq!((found[1] - found[0]) as f64, apart);
        }
    }

    /// Of region 2, no sum whose fourth power p(h,s) takes gives a pressure in between.
    #[test]
    fn fourth_powers_step_over_the_ends_of_the_line() {
        let gives = |factor: f64, p: f64| {
            let root = fourth_root(p / factor);
            (-9..=9).any(|steps| factor * power(stepped(root, steps), 4) == p)
        };
        for (end, factor, given) in
            [(P_LOWEST_BACKWARD, 4.0, [-1, 3]), (highest_saturation_pressure(), 100.0, [-2, 2])]
        {
            for steps in given[0]..=given[1] {
                assert_eq!(gives(factor, stepped(end, steps)), given.contains(&steps), "{steps}");
            }
        }
    }
}
