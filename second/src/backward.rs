//! The backward equations: T(p,h) and T(p,s) of 002 for region 1 and the subregions
//! of region 2, p(h,s) of 003, and how a subregion is chosen. p in MPa, T in K, h in
//! kJ/kg, s in kJ/(kg K).

use crate::arithmetic::{fourth_root, power};
use crate::basic::{b2ab_enthalpy, b2bc_pressure};
use crate::sums::sum;
use crate::tables::{A16, A18, A21, A22, A23, A25, A26, A27, HS2, HS6, HS7, HS8};

/// Subregion of region 2.
#[derive(Clone, Copy, Debug, PartialEq, Eq)]
pub enum Subregion {
    A,
    B,
    C,
}

/// Pressure that parts 2a from 2b, in MPa.
const P_2AB: f64 = 4.0;

/// Entropy that parts 2b from 2c, in kJ/(kg K); it belongs to 2b.
pub const S_2BC: f64 = 5.85;

/// Subregion of region 2 from (p,h).
pub fn subregion_ph(p: f64, h: f64) -> Subregion {
    if p <= P_2AB {
        Subregion::A
    } else if p <= b2bc_pressure(h) {
        Subregion::B
    } else {
        Subregion::C
    }
}

/// Subregion of region 2 from (p,s).
pub fn subregion_ps(p: f64, s: f64) -> Subregion {
    if p <= P_2AB {
        Subregion::A
    } else if s >= S_2BC {
        Subregion::B
    } else {
        Subregion::C
    }
}

/// Subregion of region 2 from (h,s).
pub fn subregion_hs(h: f64, s: f64) -> Subregion {
    if s < S_2BC {
        Subregion::C
    } else if h > b2ab_enthalpy(s) {
        Subregion::B
    } else {
        Subregion::A
    }
}

/// T1(p,h), Eq. (37).
pub fn t1_ph(p: f64, h: f64) -> f64 {
    sum(&A16, p, h / 2500.0 + 1.0)
}

/// T1(p,s), Eq. (39).
pub fn t1_ps(p: f64, s: f64) -> f64 {
    sum(&A18, p, s + 2.0)
}

/// T2(p,h), Eqs. (43) to (45), in a given subregion.
pub fn t2_ph(subregion: Subregion, p: f64, h: f64) -> f64 {
    let eta = h / 2000.0;
    match subregion {
        Subregion::A => sum(&A21, p, eta - 2.1),
        Subregion::B => sum(&A22, p - 2.0, eta - 2.6),
        Subregion::C => sum(&A23, p + 25.0, eta - 1.8),
    }
}

/// T2(p,s), Eqs. (49) to (51), in a given subregion. In 2a every exponent of p is a
/// whole number of quarters, so the sum runs over powers of the fourth root.
pub fn t2_ps(subregion: Subregion, p: f64, s: f64) -> f64 {
    match subregion {
        Subregion::A => sum(&A25, fourth_root(p), s / 2.0 - 2.0),
        Subregion::B => sum(&A26, p, 10.0 - s / 0.7853),
        Subregion::C => sum(&A27, p, 2.0 - s / 2.9251),
    }
}

/// p1(h,s), Eq. (1) of 003.
pub fn p1_hs(h: f64, s: f64) -> f64 {
    100.0 * sum(&HS2, h / 3400.0 + 0.05, s / 7.6 + 0.05)
}

/// p2(h,s), Eqs. (3) to (5) of 003, in a given subregion.
pub fn p2_hs(subregion: Subregion, h: f64, s: f64) -> f64 {
    let (p_star, sum) = match subregion {
        Subregion::A => (4.0, sum(&HS6, h / 4200.0 - 0.5, s / 12.0 - 1.2)),
        Subregion::B => (100.0, sum(&HS7, h / 4100.0 - 0.6, s / 7.9 - 1.01)),
        Subregion::C => (100.0, sum(&HS8, h / 3500.0 - 0.7, s / 5.9 - 1.1)),
    };
    p_star * power(sum, 4)
}

#[cfg(test)]
mod tests {
    use super::*;

    #[test]
    fn marked_points_of_01() {
        assert_eq!(subregion_hs(2800.0, 5.8), Subregion::C);
        assert_eq!(subregion_hs(2800.0, 6.0), Subregion::B);
        assert_eq!(subregion_hs(2800.0, 6.5), Subregion::A);
        assert_eq!(subregion_hs(2800.0, 9.5), Subregion::A);
    }

    #[test]
    fn ties_between_subregions() {
        assert_eq!(subregion_ph(4.0, 1e9), Subregion::A);
        assert_eq!(subregion_ph(b2bc_pressure(3500.0), 3500.0), Subregion::B);
        assert_eq!(subregion_ps(5.0, 5.85), Subregion::B);
        assert_eq!(subregion_ps(5.0, 5.85_f64.next_down()), Subregion::C);
        assert_eq!(subregion_hs(b2ab_enthalpy(7.0), 7.0), Subregion::A);
        assert_eq!(subregion_hs(2800.0, 1e200), Subregion::A);
    }
}
