//! The four queries and their answers, with marks and refusals. A temperature that a backward
//! equation puts past saturation is pulled to the line (M-105 of 02).

use crate::backward::{
    p1_hs, p2_hs, subregion_hs, subregion_ph, subregion_ps, t1_ph, t1_ps, t2_ph, t2_ps,
};
use crate::basic::{Point, Properties, Region};
use crate::helmholtz::DensePoint;
use crate::refusals::{Refusal, NOT_FINITE, NO_REGION, UNKNOWN};
use crate::regions::{
    from_pt, from_py, highest_saturation_pressure, Equation, Place, Quantity, P_LOWEST_BACKWARD,
};
use crate::saturation::saturation_temperature;

/// Largest difference in p, MPa, of a verified state of region 3.
const VERIFIED_P: f64 = 0.001;
/// Largest difference in h, kJ/kg, of a verified state.
const VERIFIED_H: f64 = 0.08;
/// Largest difference in s, kJ/(kg K), of a verified state.
const VERIFIED_S: f64 = 0.0001;
/// Largest difference in h, kJ/kg, of a candidate for (h,s).
const CANDIDATE_H: f64 = 0.2;
/// Largest difference in s, kJ/(kg K), of a candidate for (h,s).
const CANDIDATE_S: f64 = 0.0005;
/// Farthest past saturation, in K, from which a candidate for (h,s) is pulled to the line.
pub const PULLED: f64 = 0.025;

/// A single-phase state.
#[derive(Clone, Copy, Debug, PartialEq)]
pub struct Single {
    pub equation: Equation,
    pub p: f64,
    pub t: f64,
    pub properties: Properties,
}

impl Single {
    /// The state at (p,T) by g(p,T) of region 1, 2 or 5.
    pub fn at(region: Region, p: f64, t: f64) -> Single {
        let properties = Point::new(region, p, t).properties();
        Single { equation: Equation::Gibbs(region), p, t, properties }
    }
}

/// A wet state: a mixture of quality x at the saturation temperature.
#[derive(Clone, Copy, Debug, PartialEq)]
pub struct Wet {
    pub p: f64,
    pub t: f64,
    pub v: f64,
    pub u: f64,
    pub h: f64,
    pub s: f64,
    pub x: f64,
}

/// What a query that is not refused gives, with its mark.
#[derive(Clone, Copy, Debug, PartialEq)]
pub enum Answer {
    Single { state: Single, verified: bool },
    Wet { state: Wet, verified: bool },
}

/// What becomes of a temperature past saturation.
#[derive(Clone, Copy, Debug, PartialEq, Eq)]
pub enum Past {
    /// It becomes Ts(p): so it is in every answer.
    Pulled,
    /// It stays, as in 01 without M-105. Inputs alone ask so, some of which lie where a
    /// program that pulls nothing changes its answer.
    Kept,
}

/// The answer to a query of kind 1 (p,T), 2 (p,h), 3 (p,s) or 4 (h,s).
pub fn answer(kind: u64, first: f64, second: f64) -> Result<Answer, Refusal> {
    answer_with(Past::Pulled, kind, first, second)
}

/// The answer where temperatures past saturation are pulled or kept.
pub fn answer_with(past: Past, kind: u64, first: f64, second: f64) -> Result<Answer, Refusal> {
    match kind {
        1 => from_pressure_and_temperature(first, second),
        2 => from_pressure_and(past, Quantity::Enthalpy, first, second),
        3 => from_pressure_and(past, Quantity::Entropy, first, second),
        4 => from_enthalpy_and_entropy(past, first, second),
        _ => Err(UNKNOWN),
    }
}

/// (p,T): in regions 1, 2 and 5 nothing is asked back, so the state is verified.
fn from_pressure_and_temperature(p: f64, t: f64) -> Result<Answer, Refusal> {
    Ok(match from_pt(p, t)? {
        Equation::Gibbs(region) => {
            Answer::Single { state: Single::at(region, p, t), verified: true }
        }
        Equation::Helmholtz => dense(&DensePoint::found(p, t), p, t),
    })
}

/// A state of region 3: p and T are those asked, and the mark tells whether the
/// equation's pressure gives p back.
fn dense(point: &DensePoint, p: f64, t: f64) -> Answer {
    let properties = point.properties();
    let state = Single { equation: Equation::Helmholtz, p, t, properties };
    Answer::Single { state, verified: within(point.pressure(), p, VERIFIED_P) }
}

/// (p,h) or (p,s). However far past the line the temperature lies, it is pulled; for p > P
/// there is no line beside the place.
fn from_pressure_and(past: Past, quantity: Quantity, p: f64, y: f64) -> Result<Answer, Refusal> {
    let place = from_py(quantity, p, y)?;
    let single = |region| {
        let t = backward_temperature(region, quantity, p, y);
        let pulled = past == Past::Pulled
            && p <= highest_saturation_pressure()
            && past_saturation(region, p, t) > 0.0;
        let state = Single::at(region, p, if pulled { saturation_temperature(p) } else { t });
        let back = (state.properties.h, state.properties.s);
        Answer::Single { state, verified: verified(quantity, back, y) }
    };
    Ok(match place {
        Place::Liquid => single(Region::One),
        Place::Vapour => single(Region::Two),
        Place::Wet => wet(quantity, p, y),
    })
}

/// T(p,h) or T(p,s) of region 1 or 2 as its backward equation gives it.
pub fn backward_temperature(region: Region, quantity: Quantity, p: f64, y: f64) -> f64 {
    match (region, quantity) {
        (Region::One, Quantity::Enthalpy) => t1_ph(p, y),
        (Region::One, Quantity::Entropy) => t1_ps(p, y),
        (_, Quantity::Enthalpy) => t2_ph(subregion_ph(p, y), p, y),
        (_, Quantity::Entropy) => t2_ps(subregion_ps(p, y), p, y),
    }
}

/// How far a temperature lies past Ts(p), in K: above it in region 1, below it in region 2.
/// A NaN is nowhere past it.
pub fn past_saturation(region: Region, p: f64, t: f64) -> f64 {
    match region {
        Region::One => t - saturation_temperature(p),
        _ => saturation_temperature(p) - t,
    }
}

/// Whether a state's (h,s) gives back the h or s that was asked.
pub fn verified(quantity: Quantity, (h, s): (f64, f64), asked: f64) -> bool {
    match quantity {
        Quantity::Enthalpy => within(h, asked, VERIFIED_H),
        Quantity::Entropy => within(s, asked, VERIFIED_S),
    }
}

/// Whether two numbers differ by at most a margin; never for a NaN.
fn within(value: f64, asked: f64, margin: f64) -> bool {
    (value - asked).abs() <= margin
}

/// x = (y − y′)/(y″ − y′); v, u, h and s each a′ + x·(a″ − a′).
fn wet(quantity: Quantity, p: f64, y: f64) -> Answer {
    let t = saturation_temperature(p);
    let liquid = Point::new(Region::One, p, t).properties();
    let vapour = Point::new(Region::Two, p, t).properties();
    let (y_liquid, y_vapour) = match quantity {
        Quantity::Enthalpy => (liquid.h, vapour.h),
        Quantity::Entropy => (liquid.s, vapour.s),
    };
    let x = (y - y_liquid) / (y_vapour - y_liquid);
    let mixed = |liquid: f64, vapour: f64| liquid + x * (vapour - liquid);
    let state = Wet {
        p,
        t,
        v: mixed(liquid.v, vapour.v),
        u: mixed(liquid.u, vapour.u),
        h: mixed(liquid.h, vapour.h),
        s: mixed(liquid.s, vapour.s),
        x,
    };
    Answer::Wet { state, verified: verified(quantity, (state.h, state.s), y) }
}

/// (h,s): the first candidate that passes, region 1 before region 2.
fn from_enthalpy_and_entropy(past: Past, h: f64, s: f64) -> Result<Answer, Refusal> {
    if !(h.is_finite() && s.is_finite()) {
        return Err(NOT_FINITE);
    }
    let passing = |region| passing(past, region, h, s);
    let state = passing(Region::One).or_else(|| passing(Region::Two));
    let state = state.ok_or(NO_REGION)?;
    let back = &state.properties;
    let verified = within(back.h, h, VERIFIED_H) && within(back.s, s, VERIFIED_S);
    Ok(Answer::Single { state, verified })
}

/// A region's candidate, if it passes: p ≥ 0.000611213, the (p,T) table gives the region or
/// the candidate is pulled to the line, and h and s come back within 0.2 and 0.0005.
fn passing(past: Past, region: Region, h: f64, s: f64) -> Option<Single> {
    let (p, t) = candidate(region, h, s);
    let t = if past == Past::Pulled && a_little_past(region, p, t) {
        saturation_temperature(p)
    } else if p >= P_LOWEST_BACKWARD && from_pt(p, t) == Ok(Equation::Gibbs(region)) {
        t
    } else {
        return None;
    };
    let state = Single::at(region, p, t);
    let back = &state.properties;
    let passes = within(back.h, h, CANDIDATE_H) && within(back.s, s, CANDIDATE_S);
    passes.then_some(state)
}

/// Whether a candidate is pulled: p from 0.000611213 to P, and T past Ts(p) by at most
/// 0.025 K. At Ts(p) itself it is not past, and the table decides.
fn a_little_past(region: Region, p: f64, t: f64) -> bool {
    let past = past_saturation(region, p, t);
    (P_LOWEST_BACKWARD..=highest_saturation_pressure()).contains(&p) && past > 0.0 && past <= PULLED
}

/// p(h,s) and T(p,h); in region 2 the subregion of T is chosen anew by (p,h).
pub fn candidate(region: Region, h: f64, s: f64) -> (f64, f64) {
    if region == Region::One {
        let p = p1_hs(h, s);
        (p, t1_ph(p, h))
    } else {
        let p = p2_hs(subregion_hs(h, s), h, s);
        (p, t2_ph(subregion_ph(p, h), p, h))
    }
}

#[cfg(test)]
mod tests {
    use super::*;
    use crate::basic::b23_pressure;
    use crate::refusals::{OUT_OF_RANGE, REGION_3};
    use crate::saturation::{saturation_pressure, T_13};

    fn single(kind: u64, first: f64, second: f64) -> (Single, bool) {
        match answer(kind, first, second) {
            Ok(Answer::Single { state, verified }) => (state, verified),
            other => panic!("{other:?}"),
        }
    }

    #[test]
    fn backward_queries_find_the_forward_state() {
        for (region, p, t) in [
            (Region::One, 3.0, 300.0),
            (Region::One, 80.0, 500.0),
            (Region::Two, 0.1, 500.0),
            (Region::Two, 8.0, 900.0),
            (Region::Two, 60.0, 850.0),
        ] {
            let Properties { h, s, .. } = Point::new(region, p, t).properties();
            for (kind, first, second) in [(2, p, h), (3, p, s), (4, h, s)] {
                let (state, _) = single(kind, first, second);
                assert_eq!(state.equation, Equation::Gibbs(region));
                assert!((state.t - t).abs() < 0.05 && (state.p / p - 1.0).abs() < 0.01);
            }
        }
    }

    #[test]
    fn refusals_in_order() {
        assert_eq!(answer(2, f64::NAN, 500.0), Err(NOT_FINITE));
        assert_eq!(answer(2, 1.0, -1.0), Err(OUT_OF_RANGE));
        assert_eq!(answer(2, 25.0, 2100.0), Err(REGION_3));
        assert_eq!(answer(4, f64::INFINITY, 1.0), Err(NOT_FINITE));
        assert_eq!(answer(4, 2000.0, 5.0), Err(NO_REGION));
        assert_eq!(answer(4, 1e300, 1e300), Err(NO_REGION));
        assert_eq!(answer(5, f64::NAN, 1.0), Err(UNKNOWN));
    }

    #[test]
    fn a_state_of_region_3_has_what_was_asked_and_its_density() {
        for (p, t) in [(25.0, 650.0), (18.0, 625.0), (17.5, 630.0), (100.0, 640.0)] {
            let (state, verified) = single(1, p, t);
            let point = DensePoint::found(p, t);
            assert_eq!((state.equation, verified), (Equation::Helmholtz, true));
            assert_eq!((state.p, state.t), (p, t));
            assert_eq!(state.properties, point.properties());
            assert!((point.pressure() - p).abs() < 1e-9);
        }
    }

    #[test]
    fn region_3_begins_behind_its_ties() {
        let of = |p, t| single(1, p, t).0;
        for t in [624.0, 630.0, 640.0, 647.0] {
            let ps = saturation_pressure(t).given();
            assert!(1.0 / of(ps, t).properties.v > 322.0);
            assert!(1.0 / of(ps.next_down(), t).properties.v < 322.0);
        }
        for t in [630.0, 700.0, 850.0] {
            let b23 = b23_pressure(t);
            assert_eq!(of(b23, t).equation, Equation::Gibbs(Region::Two));
            assert_eq!(of(b23.next_up(), t).equation, Equation::Helmholtz);
        }
        for p in [17.0, 50.0, 100.0] {
            assert_eq!(of(p, 623.15).equation, Equation::Gibbs(Region::One));
            assert_eq!(of(p, 623.15_f64.next_up()).equation, Equation::Helmholtz);
        }
        assert_eq!(of(100.0, 863.15).equation, Equation::Gibbs(Region::Two));
        assert_eq!(of(100.0, 863.1499).equation, Equation::Helmholtz);
    }

    #[test]
    fn region_3_is_marked_by_the_pressure_at_its_density() {
        let point = DensePoint::new(500.0, 650.0);
        let own = point.pressure();
        let mark = |p: f64| match dense(&point, p, 650.0) {
            Answer::Single { verified, .. } => verified,
            wet => panic!("{wet:?}"),
        };
        assert!(mark(own) && mark(own + 0.00099) && mark(own - 0.00099));
        assert!(!mark(own + 0.00101) && !mark(own - 0.00101) && !mark(f64::NAN));
        let (p, t) = (saturation_pressure(647.09599).given() - 1e-10, 647.09599);
        let (state, verified) = single(1, p, t);
        assert!(verified && state.properties.v == 1.0 / 322.0 && state.properties.cp < 0.0);
    }

    #[test]
    fn backward_queries_do_not_reach_region_3() {
        for (p, t) in [(25.0, 650.0), (18.0, 630.0), (50.0, 700.0), (100.0, 640.0)] {
            let Properties { h, s, .. } = single(1, p, t).0.properties;
            assert_eq!(answer(2, p, h), Err(REGION_3));
            assert_eq!(answer(3, p, s), Err(REGION_3));
            assert_eq!(answer(4, h, s), Err(NO_REGION));
        }
    }

    /// (p,h) and (p,s) queries whose backward temperatures lie past saturation, as 002 warns.
    const PAST: [(u64, f64, f64, Region); 6] = [
        (2, 1.0, 762.68, Region::One),
        (2, 0.01, 191.81, Region::One),
        (3, 10.0, 3.3602, Region::One),
        (2, 1.0, 2777.12, Region::Two),
        (3, 10.0, 5.6159, Region::Two),
        (3, 0.01, 8.1489, Region::Two),
    ];

    fn quantity(kind: u64) -> Quantity {
        if kind == 2 {
            Quantity::Enthalpy
        } else {
            Quantity::Entropy
        }
    }

    #[test]
    fn a_temperature_past_saturation_becomes_that_of_saturation() {
        for (kind, p, y, region) in PAST {
            let ts = saturation_temperature(p);
            let t = backward_temperature(region, quantity(kind), p, y);
            assert!(if region == Region::One { t > ts } else { t < ts }, "{kind} {p} {y}");
            let (state, _) = single(kind, p, y);
            assert_eq!(state, Single::at(region, p, ts));
            let Ok(Answer::Single { state, .. }) = answer_with(Past::Kept, kind, p, y) else {
                panic!()
            };
            assert_eq!(state, Single::at(region, p, t));
        }
    }

    #[test]
    fn a_temperature_on_its_own_side_of_saturation_stays() {
        for (kind, p, y, region) in [
            (2, 3.0, 1008.37, Region::One),
            (3, 3.0, 2.6456, Region::One),
            (2, 0.1, 2674.95, Region::Two),
            (3, 0.1, 7.35881, Region::Two),
            (2, 1.0, 500.0, Region::One),
            (3, 1.0, 7.0, Region::Two),
        ] {
            let t = backward_temperature(region, quantity(kind), p, y);
            assert!(past_saturation(region, p, t) < 0.0, "{kind} {p} {y}");
            assert_eq!(single(kind, p, y).0, Single::at(region, p, t));
        }
    }

    #[test]
    fn nothing_is_pulled_above_p() {
        let highest = highest_saturation_pressure();
        for quantity in [Quantity::Enthalpy, Quantity::Entropy] {
            let kind = if quantity == Quantity::Enthalpy { 2 } else { 3 };
            let y = quantity.at(Region::One, highest, T_13).next_down();
            for (p, pulled) in [
                (highest.next_down(), true),
                (highest, true),
                (highest.next_up(), false),
                (16.6, false),
            ] {
                let y = if p == 16.6 { quantity.at(Region::One, p, T_13) } else { y };
                let t = backward_temperature(Region::One, quantity, p, y);
                assert!(t > T_13 + 0.001, "{quantity:?} {p}: {t}");
                let expected = if pulled { saturation_temperature(p) } else { t };
                assert_eq!(single(kind, p, y).0.t, expected, "{quantity:?} {p}");
            }
        }
    }

    #[test]
    fn a_nan_and_the_line_itself_are_not_past() {
        let ts = saturation_temperature(1.0);
        for region in [Region::One, Region::Two] {
            assert!(!a_little_past(region, 1.0, f64::NAN) && !a_little_past(region, 1.0, ts));
            assert!(past_saturation(region, 1.0, f64::NAN).is_nan());
        }
        assert!(a_little_past(Region::One, 1.0, ts.next_up()));
        assert!(a_little_past(Region::Two, 1.0, ts.next_down()));
        assert!(!a_little_past(Region::One, 1.0, ts.next_down()));
        assert!(!a_little_past(Region::Two, 1.0, ts.next_up()));
    }

    /// The least T past the line by more than 0.025 K is one f64 from the farthest pulled.
    #[test]
    fn a_candidate_is_pulled_up_to_25_mk_and_from_the_lowest_pressure_to_p() {
        let highest = highest_saturation_pressure();
        for (region, side) in [(Region::One, 1.0), (Region::Two, -1.0)] {
            for p in [P_LOWEST_BACKWARD, 0.01, 1.0, 10.0, highest] {
                let t = saturation_temperature(p) + side * PULLED;
                let around = [t.next_down(), t, t.next_up()];
                let pulled = around.map(|t| a_little_past(region, p, t));
                assert_eq!(pulled, around.map(|t| past_saturation(region, p, t) <= 0.025));
                assert!(pulled.contains(&true) && pulled.contains(&false), "{region:?} {p}");
            }
            for (p, pulled) in [
                (P_LOWEST_BACKWARD.next_down(), false),
                (P_LOWEST_BACKWARD, true),
                (highest, true),
                (highest.next_up(), false),
            ] {
                let t = saturation_temperature(p) + side * 0.01;
                assert_eq!(a_little_past(region, p, t), pulled, "{region:?} {p}");
            }
        }
    }

    #[test]
    fn a_candidate_a_little_past_saturation_is_pulled_and_not_refused() {
        for (region, h, s) in [
            (Region::One, 762.7, 2.13847),
            (Region::One, 1610.15, 3.68444),
            (Region::Two, 2777.12, 6.585),
        ] {
            let (p, t) = candidate(region, h, s);
            let past = past_saturation(region, p, t);
            assert!(past > 0.0 && past <= PULLED, "{past}");
            assert!(from_pt(p, t) != Ok(Equation::Gibbs(region)));
            assert_eq!(answer_with(Past::Kept, 4, h, s), Err(NO_REGION));
            assert_eq!(single(4, h, s).0, Single::at(region, p, saturation_temperature(p)));
        }
    }

    #[test]
    fn a_candidate_further_past_saturation_is_left_to_the_table() {
        for (region, h, s) in [(Region::One, 762.681, 2.13843), (Region::Two, 2777.0, 6.585)] {
            let (p, t) = candidate(region, h, s);
            let past = past_saturation(region, p, t);
            assert!(past > PULLED && past < 0.1, "{past}");
            assert_eq!(answer(4, h, s), Err(NO_REGION));
            let pulled = Single::at(region, p, saturation_temperature(p)).properties;
            assert!(within(pulled.h, h, CANDIDATE_H) && within(pulled.s, s, CANDIDATE_S));
        }
    }

    #[test]
    fn a_pulled_candidate_that_does_not_come_back_is_refused() {
        for (region, h, s) in [(Region::One, 1610.148, 3.68444), (Region::Two, 2564.47, 5.21286)] {
            let (p, t) = candidate(region, h, s);
            assert!(a_little_past(region, p, t));
            assert_eq!(answer(4, h, s), Err(NO_REGION));
        }
    }

    #[test]
    fn the_mark_is_that_of_the_pulled_state() {
        let mark = |past, kind, first, second| match answer_with(past, kind, first, second) {
            Ok(Answer::Single { verified, .. }) => verified,
            other => panic!("{other:?}"),
        };
        assert!(mark(Past::Pulled, 2, 1.0, 762.68) && !mark(Past::Kept, 2, 1.0, 762.68));
        for (h, s, back) in [(762.7, 2.138471, true), (762.7, 2.13847, false)] {
            let (state, verified) = single(4, h, s);
            assert_eq!(state.t, saturation_temperature(state.p));
            assert_eq!(verified, back);
            assert_eq!(within(state.properties.s, s, VERIFIED_S), back);
        }
    }

    #[test]
    fn a_wet_state_mixes_and_is_verified() {
        let Ok(Answer::Wet { state, verified }) = answer(2, 1.0, 2000.0) else { panic!() };
        assert!(verified && (state.h - 2000.0).abs() < 1e-9);
        assert!((0.0..1.0).contains(&state.x));
        let Ok(Answer::Wet { state: again, .. }) = answer(3, 1.0, state.s) else { panic!() };
        assert!((again.x - state.x).abs() < 1e-12);
    }

    #[test]
    fn ends_of_the_range_are_in_range() {
        for p in [0.000611213, 4.0, 20.0, 100.0] {
            let lowest = Quantity::Enthalpy.at(Region::One, p, 273.15);
            let highest = Quantity::Enthalpy.at(Region::Two, p, 1073.15);
            assert!(answer(2, p, lowest).is_ok() && answer(2, p, highest).is_ok());
            assert_eq!(answer(2, p, lowest.next_down()), Err(OUT_OF_RANGE));
            assert_eq!(answer(2, p, highest.next_up()), Err(OUT_OF_RANGE));
        }
    }
}
