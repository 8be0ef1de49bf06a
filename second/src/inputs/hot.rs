//! (p,T) queries in region 5 and next to it: at its ends in pressure and in temperature, at
//! the pressure that ends it in 002, and all over it.

use super::points::{around_all, Query};
use super::random::Random;
use crate::regions::{P_LOWEST, P_REGION_5, T_25, T_HIGHEST};

/// The pressure that ends the region in 002, in MPa: a program that goes by 002 refuses what
/// lies above it.
const P_002: f64 = 10.0;

/// Every end in pressure with every end in temperature, the numbers next to them, and some
/// of each from inside.
pub fn ties() -> Vec<Query> {
    let pressures = [around_all(&[P_LOWEST, P_002, P_REGION_5]), vec![0.5, 30.0]].concat();
    let temperatures = [around_all(&[T_25, T_HIGHEST]), vec![1100.0, 1500.0, 2000.0]].concat();
    let at = |p: f64| temperatures.iter().map(move |&t| (1, p, t));
    pressures.into_iter().flat_map(at).collect()
}

/// A query of any of these. Pressure and temperature are drawn by themselves, so that an end
/// of the one comes with the inside and with the ends of the other.
pub fn any(random: &mut Random) -> Query {
    let p = match random.below(8) {
        0 | 1 => random.near(P_REGION_5, -1e-2),
        2 => random.near(P_002, 1e-2),
        3 => random.log_between(P_LOWEST, P_002),
        4 => random.log_between(P_002, P_REGION_5),
        _ => random.between(P_002, P_REGION_5),
    };
    let t = match random.below(8) {
        0 | 1 => random.near(T_25, 1e-1),
        2 => random.near(T_HIGHEST, -1e-1),
        _ => random.between(T_25, T_HIGHEST),
    };
    (1, p, t)
}

#[cfg(test)]
mod tests {
    use super::super::points::{around, in_region, many};
    use super::*;

    #[test]
    fn queries_come_close_to_every_border_from_region_5() {
        let mut random = Random::new(7);
        let found = in_region(5, (0..4000).map(|_| any(&mut random)));
        let many = |what: &str, test: &dyn Fn(f64, f64) -> bool| many(&found, what, test);
        many("50 MPa", &|p, _| p == P_REGION_5);
        many("next below 50 MPa", &|p, _| p == P_REGION_5.next_down());
        many("10 MPa", &|p, _| around(P_002).contains(&p));
        many("next above 1073.15 K", &|_, t| t == T_25.next_up());
        many("2273.15 K", &|_, t| t == T_HIGHEST);
        for far in [1e-8, 1e-6, 1e-4, 1e-2] {
            let near = |off: f64| off > 0.1 * far && off < far;
            many("below 50 MPa", &|p, _| near(P_REGION_5 - p));
            many("above 10 MPa", &|p, _| near(p - P_002));
            many("above 1073.15 K", &|_, t| near(t - T_25));
            many("below 2273.15 K", &|_, t| near(T_HIGHEST - t));
        }
        many("the cool corner", &|p, t| P_REGION_5 - p < 1e-2 && t - T_25 < 1e-1);
        many("the hot corner", &|p, t| P_REGION_5 - p < 1e-2 && T_HIGHEST - t < 1e-1);
        many("thin", &|p, _| p < 1e-5);
    }
}
