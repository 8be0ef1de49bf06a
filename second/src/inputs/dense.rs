//! (p,T) queries in region 3 and next to it: at saturation up to the critical point, at the
//! boundary B23, at the ends of the region, and all over it.

use super::points::{around, around_all, Query};
use super::random::Random;
use crate::basic::{b23_pressure, b23_temperature};
use crate::regions::{highest_saturation_pressure, P_HIGHEST, T_B23};
use crate::saturation::{curve, T_13, T_CRITICAL};

/// The critical pressure, in MPa.
const P_CRITICAL: f64 = 22.064;

/// Every tie and end of the region with the numbers next to it.
pub fn ties() -> Vec<Query> {
    let ends = around_all(&[T_13, T_CRITICAL, b23_temperature(P_HIGHEST)]);
    let inside = [624.0, 630.0, 640.0, 647.0, 647.0959, 650.0, 700.0, 800.0, 860.0];
    let mut ties = Vec::new();
    for t in ends.into_iter().chain(inside) {
        let mut pressures = vec![b23_pressure(t), P_HIGHEST];
        if t <= T_CRITICAL.next_up() {
            pressures.extend([curve(t), P_CRITICAL]);
        }
        ties.extend(around_all(&pressures).into_iter().map(|p| (1, p, t)));
    }
    ties.extend(around(T_B23).map(|t| (1, P_HIGHEST, t)));
    ties
}

/// A query of any of these.
pub fn any(random: &mut Random) -> Query {
    let (p, t) = match random.below(16) {
        0..=3 => near_saturation(random),
        4 => near_the_end_of_saturation(random),
        5 | 6 => near_b23(random),
        7..=9 => near_the_critical_point(random),
        10 | 11 => near_an_end_in_temperature(random),
        12 => {
            let p = random.next_to(P_HIGHEST);
            (p, random.between(T_13, T_B23))
        }
        _ => within(random),
    };
    (1, p, t)
}

/// A pressure next to ps(T), T anywhere from 623.15 K to the critical temperature.
fn near_saturation(random: &mut Random) -> (f64, f64) {
    let t = match random.below(3) {
        0 => T_CRITICAL - random.log_between(1e-9, 1.0),
        _ => random.between(T_13, T_CRITICAL),
    };
    (random.near(curve(t), 1e-2), t)
}

/// So little below the critical temperature and below ps(T) that some of these have no
/// density in the bracket that is theirs.
fn near_the_end_of_saturation(random: &mut Random) -> (f64, f64) {
    let t = T_CRITICAL - random.log_between(1e-12, 1e-4);
    (curve(t) - random.log_between(1e-12, 1e-8), t)
}

/// A pressure next to B23's at T, or a temperature next to B23's at p; of those that are
/// not within one f64, two in three are in region 3.
fn near_b23(random: &mut Random) -> (f64, f64) {
    if random.below(2) == 0 {
        let t = random.between(T_13, T_B23);
        (random.near(b23_pressure(t), 1e-2), t)
    } else {
        let p = random.between(highest_saturation_pressure(), P_HIGHEST);
        (p, random.near(b23_temperature(p), -1e-2))
    }
}

fn near_the_critical_point(random: &mut Random) -> (f64, f64) {
    (random.near(P_CRITICAL, 0.1), random.near(T_CRITICAL, 0.1))
}

/// T next to 623.15 K or to the critical temperature, with any pressure of the region.
fn near_an_end_in_temperature(random: &mut Random) -> (f64, f64) {
    let t = random.pick(&[T_13, T_CRITICAL, T_CRITICAL]);
    let t = random.near(t, 1e-2);
    (pressure(random, t), t)
}

fn within(random: &mut Random) -> (f64, f64) {
    let t = match random.below(4) {
        0 => random.between(T_13, 660.0),
        _ => random.between(T_13, T_B23),
    };
    (pressure(random, t), t)
}

/// A pressure from B23's up; one in three is not far above it.
fn pressure(random: &mut Random, t: f64) -> f64 {
    let lowest = b23_pressure(t);
    match random.below(3) {
        0 => random.between(lowest, (lowest + 10.0).min(P_HIGHEST)),
        _ => random.between(lowest, P_HIGHEST),
    }
}

#[cfg(test)]
mod tests {
    use super::super::points::{in_region, many};
    use super::*;
    use crate::answers::{answer, Answer};

    #[test]
    fn queries_come_close_to_every_border_from_region_3() {
        let mut random = Random::new(6);
        let found = in_region(3, (0..4000).map(|_| any(&mut random)));
        let many = |what: &str, test: &dyn Fn(f64, f64) -> bool| many(&found, what, test);
        let off = |p: f64, t| p - curve(t);
        let above = |p: f64, t| p - b23_pressure(t);
        many("at ps", &|p, t| t < T_CRITICAL && around(curve(t)).contains(&p));
        many("on B23", &|p, t| {
            p == b23_pressure(t).next_up() || t == b23_temperature(p).next_down()
        });
        for far in [1e-8, 1e-6, 1e-4, 1e-2] {
            many("liquid", &|p, t| t < T_CRITICAL && off(p, t) > 0.1 * far && off(p, t) < far);
            many("vapour", &|p, t| t < T_CRITICAL && -off(p, t) > 0.1 * far && -off(p, t) < far);
            many("B23", &|p, t| above(p, t) > 0.1 * far && above(p, t) < far);
        }
        many("critical point", &|p, t| {
            (p - P_CRITICAL).abs() < 1e-5 && (t - T_CRITICAL).abs() < 1e-5
        });
        many("critical temperature", &|_, t| around(T_CRITICAL).contains(&t));
        many("623.15 K", &|_, t| t == T_13.next_up());
        many("100 MPa", &|p, _| p == P_HIGHEST || p == P_HIGHEST.next_down());
        many("hot", &|_, t| t > 850.0);
        many("no root", &|p, t| {
            let Ok(Answer::Single { state, .. }) = answer(1, p, t) else { panic!() };
            state.properties.v == 1.0 / 322.0
        });
    }
}
