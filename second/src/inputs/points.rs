//! Queries of every kind: each tie and range end with the numbers next to it, points
//! spread over the regions, and numbers that are no points at all.

use super::random::Random;
use crate::answers::{answer_with, Answer, Past};
use crate::backward::S_2BC;
use crate::basic::{b23_pressure, b23_temperature, b2ab_enthalpy, b2bc_pressure, Point, Region};
use crate::regions::{
    highest_saturation_pressure, Quantity, P_HIGHEST, P_LOWEST, P_LOWEST_BACKWARD, P_REGION_5,
    T_25, T_B23, T_HIGHEST,
};
use crate::saturation::{
    curve, saturation_pressure, saturation_temperature, SaturationPressure, T_13, T_LOWEST,
};

/// A query: its kind and its two numbers.
pub type Query = (u64, f64, f64);

/// Numbers that no range holds or that stand at an end of the f64s; NaNs quiet and
/// signalling, of both signs.
pub const STRANGE: [f64; 16] = [
    f64::NAN,
    f64::from_bits(0xfff8_0000_0000_0000),
    f64::from_bits(0x7ff0_0000_0000_0001),
    f64::from_bits(0xffff_ffff_ffff_ffff),
    f64::INFINITY,
    f64::NEG_INFINITY,
    0.0,
    -0.0,
    5e-324,
    -5e-324,
    f64::from_bits(0x000f_ffff_ffff_ffff),
    f64::MIN_POSITIVE,
    f64::MAX,
    f64::MIN,
    -1.0,
    1e20,
];

pub fn around(x: f64) -> [f64; 3] {
    [x.next_down(), x, x.next_up()]
}

pub fn around_all(numbers: &[f64]) -> Vec<f64> {
    numbers.iter().copied().flat_map(around).collect()
}

/// Every tie and range end of 01 with the numbers next to it, and strange numbers.
pub fn ties() -> Vec<Query> {
    let mut ties = pt_ties();
    ties.extend(py_ties(2, Quantity::Enthalpy));
    ties.extend(py_ties(3, Quantity::Entropy));
    ties.extend(ph_subregion_ties());
    ties.extend(ps_subregion_ties());
    ties.extend(hs_ties());
    ties.extend(strange());
    ties
}

fn pt_ties() -> Vec<Query> {
    let ends = around_all(&[T_LOWEST, T_13, T_B23, T_25, T_HIGHEST]);
    let inside = [300.0, 373.124, 500.0, 622.0, 630.0, 700.0, 800.0, 862.0];
    let mut ties = Vec::new();
    for t in ends.into_iter().chain(inside) {
        let fixed = [P_LOWEST, P_LOWEST_BACKWARD, P_REGION_5, P_HIGHEST];
        let moving = [curve(t), b23_pressure(t)];
        let pressures = around_all(&[&fixed[..], &moving[..]].concat());
        ties.extend(pressures.into_iter().map(|p| (1, p, t)));
    }
    ties
}

fn py_ties(kind: u64, quantity: Quantity) -> Vec<Query> {
    let highest = highest_saturation_pressure();
    let ends = around_all(&[P_LOWEST_BACKWARD, 4.0, highest, P_HIGHEST]);
    let inside = [0.01, 0.1, 1.0, 10.0, 16.0, 16.529, 17.0, 25.0, 50.0, 90.0];
    let mut ties = Vec::new();
    for p in ends.into_iter().chain(inside) {
        let borders = around_all(&borders(quantity, p));
        ties.extend(borders.into_iter().map(|y| (kind, p, y)));
    }
    ties
}

/// The y at which the answer to (p,y) changes its region or is refused.
fn borders(quantity: Quantity, p: f64) -> Vec<f64> {
    let lowest = quantity.at(Region::One, p, T_LOWEST);
    let highest = quantity.at(Region::Two, p, T_25);
    let t = saturation_temperature(p);
    let inner = if p <= highest_saturation_pressure() {
        [quantity.at(Region::One, p, t), quantity.at(Region::Two, p, t)]
    } else {
        let t_b23 = b23_temperature(p);
        [quantity.at(Region::One, p, T_13), quantity.at(Region::Two, p, t_b23)]
    };
    vec![lowest, inner[0], inner[1], highest]
}

fn ph_subregion_ties() -> Vec<Query> {
    let enthalpies = [2779.0, 2800.0, 2900.0, 3000.0, 3200.0, 3400.0, 3500.0];
    let on_2bc = |h: f64| around(b2bc_pressure(h)).map(|p| (2, p, h));
    let at_4_mpa = |h: f64| around(4.0).map(|p| (2, p, h));
    enthalpies.into_iter().flat_map(|h| [on_2bc(h), at_4_mpa(h)].concat()).collect()
}

fn ps_subregion_ties() -> Vec<Query> {
    let at_5_85 = |p: f64| around(S_2BC).map(|s| (3, p, s));
    let at_4_mpa = |s: f64| around(4.0).map(|p| (3, p, s));
    let mut ties: Vec<Query> =
        [3.9, 4.1, 7.0, 10.0, 30.0, 60.0, 99.0].into_iter().flat_map(at_5_85).collect();
    ties.extend([6.1, 6.5, 7.0, 7.5].into_iter().flat_map(at_4_mpa));
    ties
}

fn hs_ties() -> Vec<Query> {
    let mut ties = Vec::new();
    for h in [2780.0, 2800.0, 3000.0, 3300.0, 3500.0] {
        ties.extend(around(S_2BC).map(|s| (4, h, s)));
    }
    for s in [6.07, 6.3, 6.5, 7.0, 7.5, 7.85] {
        ties.extend(around(b2ab_enthalpy(s)).map(|h| (4, h, s)));
    }
    for (region, p, t) in corners() {
        let point = Point::new(region, p, t);
        ties.extend(around(point.h()).map(|h| (4, h, point.s())));
        ties.extend(around(point.s()).map(|s| (4, point.h(), s)));
    }
    ties
}

/// Points on the borders of regions 1 and 2.
fn corners() -> Vec<(Region, f64, f64)> {
    let mut corners = Vec::new();
    for t in [T_LOWEST, 300.0, 400.0, 500.0, 600.0, T_13] {
        let ps = curve(t);
        corners.extend([ps, ps * 1.001, 50.0, P_HIGHEST].map(|p| (Region::One, p, t)));
        corners.extend([P_LOWEST_BACKWARD, ps, ps * 0.999].map(|p| (Region::Two, p, t)));
    }
    for t in [650.0, 750.0, T_B23] {
        corners.extend([1.0, 4.0, b23_pressure(t)].map(|p| (Region::Two, p, t)));
    }
    corners.extend([P_LOWEST_BACKWARD, 4.0, 50.0, P_HIGHEST].map(|p| (Region::Two, p, T_25)));
    corners
}

/// A strange number beside a sound one, and strange numbers in both places.
fn strange() -> Vec<Query> {
    let mut queries = Vec::new();
    for (kind, first, second) in [(1, 3.0, 300.0), (2, 3.0, 500.0), (3, 3.0, 0.5), (4, 500.0, 1.5)]
    {
        queries.extend(STRANGE.map(|x| (kind, x, second)));
        queries.extend(STRANGE.map(|y| (kind, first, y)));
        queries.extend(STRANGE.into_iter().flat_map(|x| STRANGE.map(|y| (kind, x, y))));
    }
    queries
}

/// A query of any kind; one in 32 lies where the outcome changes.
pub fn any(random: &mut Random) -> Query {
    match random.below(32) {
        0 => changing(random),
        _ => spread(random),
    }
}

fn spread(random: &mut Random) -> Query {
    match 1 + random.below(4) as u64 {
        1 => pt(random),
        4 => hs(random),
        kind => py(random, kind),
    }
}

/// A query next to one with another region, mark or refusal, found by halving between two
/// queries that differ in one number; the first of them if their outcomes are the same. Next
/// to the saturation line these are the outcomes of a program that pulls nothing to it; the
/// queries of `near` are for those of one that does.
fn changing(random: &mut Random) -> Query {
    let from = spread(random);
    let (kind, first, second) = from;
    let (_, other_first, other_second) = match kind {
        1 => pt(random),
        4 => {
            let far = random.pick(&[1.0, 100.0]);
            let off = random.between(-far, far);
            (4, first + off, second + 0.002 * off)
        }
        _ => py(random, kind),
    };
    if random.below(2) == 0 {
        (
            kind,
            change(first, other_first, |x| outcome(Past::Kept, (kind, x, second)), random),
            second,
        )
    } else {
        (
            kind,
            first,
            change(second, other_second, |y| outcome(Past::Kept, (kind, first, y)), random),
        )
    }
}

/// The refusal, or region and mark.
fn outcome(past: Past, (kind, first, second): Query) -> (u8, u64, bool) {
    match answer_with(past, kind, first, second) {
        Ok(Answer::Single { state, verified }) => (0, state.equation.region_number(), verified),
        Ok(Answer::Wet { verified, .. }) => (0, 4, verified),
        Err(refusal) => (refusal.0, 0, false),
    }
}

/// One of two neighbouring f64s from `low` to `high` between which the outcome changes;
/// `low` if its outcome is that of `high`.
fn change<T: PartialEq>(
    low: f64,
    high: f64,
    outcome: impl Fn(f64) -> T,
    random: &mut Random,
) -> f64 {
    let at_low = outcome(low);
    let (mut low, mut high) = (place(low), place(high));
    if at_low == outcome(at_place(high)) {
        return at_place(low);
    }
    while high.abs_diff(low) > 1 {
        let middle = low.midpoint(high);
        if outcome(at_place(middle)) == at_low {
            low = middle;
        } else {
            high = middle;
        }
    }
    at_place(random.pick(&[low, high]))
}

/// The place of a number among all f64s in their order: -0 is at -1, 0 at 0.
fn place(x: f64) -> i64 {
    let bits = x.to_bits() as i64;
    bits ^ (bits >> 63 & i64::MAX)
}

fn at_place(place: i64) -> f64 {
    f64::from_bits((place ^ (place >> 63 & i64::MAX)) as u64)
}

/// A (p,T) query.
fn pt(random: &mut Random) -> Query {
    let p = pressure(random, P_LOWEST);
    let t = match random.below(8) {
        0 => random.any(),
        1 => random.between(260.0, 2300.0),
        2 => saturation_temperature(p),
        3 => random.between(T_13, T_B23),
        4 => random.between(T_25, T_HIGHEST),
        _ => random.between(T_LOWEST, T_25),
    };
    if random.below(8) == 0 {
        let pressures = [curve(t), b23_pressure(t)];
        let p = random.pick(&pressures);
        return (1, random.next_to(p), t);
    }
    (1, p, random.next_to(t))
}

/// A pressure, mostly in range.
fn pressure(random: &mut Random, lowest: f64) -> f64 {
    match random.below(16) {
        0 => random.any(),
        1 => random.log_between(1e-9, 1e4),
        2..=8 => random.log_between(lowest, P_HIGHEST),
        9 => random.between(highest_saturation_pressure(), 23.0),
        _ => random.between(lowest, P_HIGHEST),
    }
}

/// A (p,h) query, kind 2, or a (p,s) query, kind 3.
pub fn py(random: &mut Random, kind: u64) -> Query {
    let quantity = if kind == 2 { Quantity::Enthalpy } else { Quantity::Entropy };
    let p = pressure(random, P_LOWEST_BACKWARD);
    let borders = borders(quantity, p);
    let y = match random.below(16) {
        0 => random.any(),
        1 | 2 => {
            let border = random.pick(&borders);
            random.next_to(border)
        }
        3 => random.between(borders[0] - 10.0, borders[3] + 10.0),
        4..=8 => random.between(borders[0], borders[1]),
        9..=13 => random.between(borders[2], borders[3]),
        14 => random.between(borders[1], borders[2]),
        _ => near_2bc(random, quantity, p),
    };
    (kind, p, y)
}

/// A y near the border between subregions 2b and 2c.
fn near_2bc(random: &mut Random, quantity: Quantity, p: f64) -> f64 {
    if quantity == Quantity::Entropy {
        return random.between(S_2BC - 0.01, S_2BC + 0.01);
    }
    let (mut low, mut high) = (2700.0, 4000.0);
    for _ in 0..60 {
        let middle = (low + high) / 2.0;
        if b2bc_pressure(middle) < p {
            low = middle;
        } else {
            high = middle;
        }
    }
    random.pick(&[low, high])
}

/// An (h,s) query: a state's own, one a little off, or numbers of any kind.
fn hs(random: &mut Random) -> Query {
    match random.below(16) {
        0 => {
            let (h, s) = state(random);
            let numbers = [(random.any(), s), (h, random.any()), (random.any(), random.any())];
            let (h, s) = random.pick(&numbers);
            (4, h, s)
        }
        1 => (4, random.between(-10.0, 4200.0), random.between(-0.1, 12.0)),
        2 => {
            let s = random.between(6.0, 7.9);
            let h = random.next_to(b2ab_enthalpy(s));
            (4, h, s)
        }
        3 => {
            let s = random.next_to(S_2BC);
            (4, random.between(2700.0, 3600.0), s)
        }
        4..=9 => {
            let (h, s) = state(random);
            (4, h, s)
        }
        _ => {
            let (h, s) = state(random);
            let spread = random.pick(&[1e-6, 1e-3, 0.1, 1.0]);
            let h = random.between(h - 0.5 * spread, h + 0.5 * spread);
            (4, h, random.between(s - 0.001 * spread, s + 0.001 * spread))
        }
    }
}

/// h and s of a state in region 1 or 2.
fn state(random: &mut Random) -> (f64, f64) {
    let point = if random.below(2) == 0 {
        let t = random.between(T_LOWEST, T_13);
        let p = random.log_between(curve(t), P_HIGHEST);
        Point::new(Region::One, p, t)
    } else {
        let t = random.between(T_LOWEST, T_25);
        let highest = match saturation_pressure(t) {
            SaturationPressure::To623(ps) => ps,
            // Above 863.15 K the boundary's equation goes on above all pressures.
            SaturationPressure::To647(_) | SaturationPressure::NoAnswer => {
                b23_pressure(t).min(P_HIGHEST)
            }
        };
        let p = random.log_between(P_LOWEST_BACKWARD.min(highest), highest);
        Point::new(Region::Two, p, t)
    };
    (point.h(), point.s())
}

/// The (p,T) of those queries that have a state in a region.
#[cfg(test)]
pub fn in_region(region: u64, queries: impl Iterator<Item = Query>) -> Vec<(f64, f64)> {
    let lies_there =
        |&query: &Query| matches!(outcome(Past::Pulled, query), (0, number, _) if number == region);
    queries.filter(lies_there).map(|(_, p, t)| (p, t)).collect()
}

/// Ten of the points or more pass a test.
#[cfg(test)]
pub fn many(points: &[(f64, f64)], what: &str, test: &dyn Fn(f64, f64) -> bool) {
    let count = points.iter().filter(|&&(p, t)| test(p, t)).count();
    assert!(count >= 10, "{what}: {count}");
}

#[cfg(test)]
mod tests {
    use super::*;
    use std::collections::BTreeSet;

    /// Each kind with each region and refusal that queries of it end in.
    fn outcomes(queries: impl Iterator<Item = Query>) -> BTreeSet<(u64, String)> {
        let named = |query: Query| match outcome(Past::Pulled, query) {
            (0, region, _) => (query.0, format!("region {region}")),
            (refusal, _, _) => (query.0, format!("refused {refusal}")),
        };
        queries.map(named).collect()
    }

    fn every_outcome(outcomes: &BTreeSet<(u64, String)>) {
        let expected = [
            (1, "region 1, region 2, region 3, region 5, refused 1, refused 2, refused 3, refused 4"),
            (2, "region 1, region 2, region 4, refused 1, refused 2, refused 5, refused 6"),
            (3, "region 1, region 2, region 4, refused 1, refused 2, refused 5, refused 6"),
            (4, "region 1, region 2, refused 1, refused 7"),
        ];
        for (kind, list) in expected {
            for outcome in list.split(", ") {
                assert!(outcomes.contains(&(kind, outcome.into())), "{kind} {outcome}");
            }
        }
    }

    #[test]
    fn ties_and_random_queries_reach_every_outcome() {
        every_outcome(&outcomes(ties().into_iter()));
        let mut random = Random::new(7);
        every_outcome(&outcomes((0..4000).map(|_| any(&mut random))));
    }

    /// The outcomes of the four queries next to one in a single number.
    fn next((kind, first, second): Query) -> [(u8, u64, bool); 4] {
        let [below, _, above] = around(first).map(|x| outcome(Past::Kept, (kind, x, second)));
        let [left, _, right] = around(second).map(|y| outcome(Past::Kept, (kind, first, y)));
        [below, above, left, right]
    }

    #[test]
    fn regions_refusals_and_marks_change_next_to_a_query() {
        let mut random = Random::new(3);
        let (mut changes, mut marks) = (0, BTreeSet::new());
        for _ in 0..2000 {
            let query = changing(&mut random);
            let here = outcome(Past::Kept, query);
            let other = next(query).into_iter().filter(|&other| other != here);
            changes += usize::from(other.clone().count() > 0);
            let mark = other.filter(|other| (here.0, here.1) == (other.0, other.1));
            marks.extend(mark.map(|(_, region, _)| (query.0, region)));
        }
        assert!(changes > 800, "{changes}");
        assert_eq!(marks, BTreeSet::from([(2, 1), (2, 2), (3, 1), (3, 2), (4, 1), (4, 2)]));
    }

    #[test]
    fn places_are_in_the_order_of_the_numbers() {
        let numbers = [f64::NEG_INFINITY, -1.0, -5e-324, -0.0, 0.0, 5e-324, 1.0, f64::INFINITY];
        assert!(numbers.map(place).is_sorted());
        assert_eq!(numbers.map(|x| at_place(place(x)).to_bits()), numbers.map(f64::to_bits));
        assert_eq!(place(1.0_f64.next_up()), place(1.0) + 1);
        let sign = |x: f64| x > 0.0;
        assert!([0.0, 5e-324].contains(&change(-3.0, 1e300, sign, &mut Random::new(0))));
    }
}
