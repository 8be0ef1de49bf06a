//! The basic equation of region 3, Eq. (25) of 002: the Helmholtz free energy f(ρ,T),
//! its properties (Table 9), and the density that a pressure has by it (M-100 of 02).
//! Units as in `basic`, ρ in kg/m³. The association of each formula is fixed;
//! parentheses below are part of it.

use crate::arithmetic::{logarithm, root};
use crate::basic::{Properties, R};
use crate::saturation::{saturation_pressure, SaturationPressure, T_CRITICAL};
use crate::sums::derivative;
use crate::tables::{Term, A9};

/// The critical density, by which Eq. (25) reduces: ρ*.
pub const D_CRITICAL: f64 = 322.0;
/// Lowest density that is sought.
const D_LOWEST: f64 = 50.0;
/// Highest density that is sought.
const D_HIGHEST: f64 = 800.0;
/// Halvings after which the density is found.
const HALVINGS: usize = 60;

/// A point (ρ,T) at which the equation is evaluated.
#[derive(Clone, Copy)]
pub struct DensePoint {
    density: f64,
    t: f64,
    delta: f64,
    tau: f64,
}

impl DensePoint {
    /// δ = ρ/ρ* and τ = T*/T; T* is the critical temperature.
    pub fn new(density: f64, t: f64) -> DensePoint {
        DensePoint { density, t, delta: density / D_CRITICAL, tau: T_CRITICAL / t }
    }

    /// The point at the density that is found for (p,T).
    pub fn found(p: f64, t: f64) -> DensePoint {
        DensePoint::new(density(p, t), t)
    }

    /// All six properties.
    pub fn properties(&self) -> Properties {
        Properties {
            v: self.v(),
            u: self.u(),
            h: self.h(),
            s: self.s(),
            cp: self.cp(),
            w: self.w(),
        }
    }

    /// p/(ρ·RT) = δ·φδ, in MPa.
    pub fn pressure(&self) -> f64 {
        (((self.density * self.rt()) * self.delta) * self.f_delta()) / 1000.0
    }

    pub fn v(&self) -> f64 {
        1.0 / self.density
    }

    /// u/(RT) = τ·φτ.
    pub fn u(&self) -> f64 {
        (self.rt() * self.tau) * self.sum(0, 1)
    }

    /// h/(RT) = τ·φτ + δ·φδ.
    pub fn h(&self) -> f64 {
        self.rt() * (self.tau * self.sum(0, 1) + self.delta * self.f_delta())
    }

    /// s/R = τ·φτ − φ.
    pub fn s(&self) -> f64 {
        R * (self.tau * self.sum(0, 1) - self.f())
    }

    /// cp/R = −τ²·φττ + (δ·φδ − δ·τ·φδτ)²/(2·δ·φδ + δ²·φδδ).
    pub fn cp(&self) -> f64 {
        let (c, k) = (self.c(), self.k());
        R * ((-(self.tau * self.tau)) * self.sum(0, 2) + (c * c) / k)
    }

    /// w²/(RT) = 2·δ·φδ + δ²·φδδ − (δ·φδ − δ·τ·φδτ)²/(τ²·φττ).
    pub fn w(&self) -> f64 {
        let (c, k) = (self.c(), self.k());
        let quotient = (c * c) / ((self.tau * self.tau) * self.sum(0, 2));
        root((1000.0 * self.rt()) * (k - quotient))
    }

    /// Isochoric heat capacity: cv/R = −τ²·φττ.
    pub fn cv(&self) -> f64 {
        ((-R) * (self.tau * self.tau)) * self.sum(0, 2)
    }

    /// Relative pressure coefficient αp of 001, in 1/K.
    pub fn alpha(&self) -> f64 {
        (1.0 / self.t) * (1.0 - (self.tau * self.sum(1, 1)) / self.f_delta())
    }

    /// Isothermal stress coefficient βp of 001, in kg/m³.
    pub fn beta(&self) -> f64 {
        self.density * (2.0 + (self.delta * self.f_deltadelta()) / self.f_delta())
    }

    fn rt(&self) -> f64 {
        R * self.t
    }

    /// δ·φδ − δ·τ·φδτ.
    fn c(&self) -> f64 {
        self.delta * self.f_delta() - (self.delta * self.tau) * self.sum(1, 1)
    }

    /// 2·δ·φδ + δ²·φδδ.
    fn k(&self) -> f64 {
        let delta = self.delta;
        (2.0 * delta) * self.f_delta() + (delta * delta) * self.f_deltadelta()
    }

    /// φ.
    fn f(&self) -> f64 {
        let (n1, _) = parts();
        n1 * logarithm(self.delta) + self.sum(0, 0)
    }

    /// φδ.
    fn f_delta(&self) -> f64 {
        let (n1, _) = parts();
        n1 / self.delta + self.sum(1, 0)
    }

    /// φδδ.
    fn f_deltadelta(&self) -> f64 {
        let (n1, _) = parts();
        -(n1 / (self.delta * self.delta)) + self.sum(2, 0)
    }

    /// The sum of Eq. (25), differentiated in δ and τ; of φτ, φττ and φδτ it is all.
    fn sum(&self, in_delta: i32, in_tau: i32) -> f64 {
        let (_, terms) = parts();
        derivative(terms, self.delta, self.tau, in_delta, in_tau)
    }
}

/// The coefficient of ln δ and the terms of the sum.
fn parts() -> (f64, &'static [Term]) {
    let [(_, _, n1), terms @ ..] = &A9;
    (*n1, terms)
}

/// The density at (p,T): the middle of the last bracket.
fn density(p: f64, t: f64) -> f64 {
    let (mut lo, mut hi) = bracket(p, t);
    for _ in 0..HALVINGS {
        let middle = (lo + hi) / 2.0;
        if DensePoint::new(middle, t).pressure() < p {
            lo = middle;
        } else {
            hi = middle;
        }
    }
    (lo + hi) / 2.0
}

/// The densities between which that of (p,T) is sought. Below the critical temperature
/// the critical density parts liquid, which has p ≥ ps(T), from vapour; where ps has no
/// answer, p ≥ ps(T) does not hold.
fn bracket(p: f64, t: f64) -> (f64, f64) {
    if t >= T_CRITICAL {
        return (D_LOWEST, D_HIGHEST);
    }
    match saturation_pressure(t) {
        SaturationPressure::To623(ps) | SaturationPressure::To647(ps) => {
            if p >= ps {
                (D_CRITICAL, D_HIGHEST)
            } else {
                (D_LOWEST, D_CRITICAL)
            }
        }
        SaturationPressure::NoAnswer => (D_LOWEST, D_CRITICAL),
    }
}

#[cfg(test)]
mod tests {
    use super::*;
    use crate::basic::{b23_pressure, Point, Region};

    const P_CRITICAL: f64 = 22.064;

    #[test]
    fn the_critical_point_has_its_pressure_and_no_slope() {
        let point = DensePoint::new(D_CRITICAL, T_CRITICAL);
        assert_eq!((point.delta, point.tau), (1.0, 1.0));
        assert!((point.pressure() - P_CRITICAL).abs() < 1e-8);
        assert!(point.beta().abs() < 1e-3);
    }

    #[test]
    fn region_3_meets_regions_1_and_2() {
        let meets = |region, p, t| {
            let (here, there) = (DensePoint::found(p, t), Point::new(region, p, t));
            assert!(here.properties().meets(&there.properties()), "{p} {t}");
        };
        for p in [17.0, 25.0, 50.0, 100.0] {
            meets(Region::One, p, 623.15);
        }
        for t in [630.0, 650.0, 700.0, 800.0, 863.15] {
            meets(Region::Two, b23_pressure(t), t);
        }
    }

    #[test]
    fn brackets_at_their_ties() {
        for t in [623.15_f64.next_up(), 630.0, 647.0, T_CRITICAL.next_down()] {
            let ps = saturation_pressure(t).given();
            assert_eq!(bracket(ps, t), (322.0, 800.0));
            assert_eq!(bracket(ps.next_up(), t), (322.0, 800.0));
            assert_eq!(bracket(ps.next_down(), t), (50.0, 322.0));
        }
        for t in [T_CRITICAL, T_CRITICAL.next_up(), 863.0] {
            assert!([17.0, 22.0, P_CRITICAL, 100.0]
                .iter()
                .all(|&p| bracket(p, t) == (50.0, 800.0)));
        }
        assert_eq!(bracket(f64::NAN, 640.0), (50.0, 322.0));
    }

    /// ps has an answer at the critical temperature, and the bracket is whole all the same;
    /// below 273.15 K and for NaN, where no query comes from, it has none, and no p reaches it.
    #[test]
    fn brackets_at_and_off_the_ends_of_the_line() {
        let cold = [273.15_f64.next_down(), 200.0, 0.0, -1.0, f64::NEG_INFINITY, f64::NAN];
        for p in [0.0, 1.0, 22.0, 100.0, f64::INFINITY, f64::NAN] {
            assert_eq!(bracket(p, T_CRITICAL), (50.0, 800.0), "{p}");
            for t in cold {
                assert_eq!(bracket(p, t), (50.0, 322.0), "{p} {t}");
            }
        }
        assert_eq!(bracket(1.0, 273.15), (322.0, 800.0));
        assert_eq!(bracket(1e-4, 273.15), (50.0, 322.0));
    }

    #[test]
    fn the_density_found_gives_the_pressure_back() {
        for density in [120.0, 200.0, 322.0, 450.0, 600.0, 750.0] {
            for t in [648.0, 700.0, 860.0] {
                let p = DensePoint::new(density, t).pressure();
                let found = DensePoint::found(p, t);
                assert!((found.density / density - 1.0).abs() < 1e-9, "{density} {t}");
                assert!((found.pressure() - p).abs() < 1e-10, "{density} {t}");
            }
        }
    }

    #[test]
    fn liquid_and_vapour_lie_on_their_sides_of_the_critical_density() {
        for t in [630.0, 640.0, 646.0, 647.0] {
            let ps = saturation_pressure(t).given();
            let (liquid, vapour) = (density(ps, t), density(ps.next_down(), t));
            assert!(vapour < 322.0 && liquid > 322.0, "{t}");
        }
    }

    /// Just below ps(T) next to the critical point the equation's pressure stays below what
    /// is asked up to the critical density.
    #[test]
    fn without_a_root_the_density_is_the_end_of_the_bracket() {
        for (t, below) in [(647.09599, 1e-10), (647.09597, 3e-10), (647.0959999, 1e-12)] {
            let p = saturation_pressure(t).given() - below;
            let point = DensePoint::found(p, t);
            assert_eq!(point.density, 322.0);
            assert!(point.pressure() < p && p - point.pressure() < 1e-8);
            assert!(point.cp() < -1e7);
        }
    }

    /// Pressures that no density of the bracket has, and none at all: `<` says no to a NaN,
    /// so the upper end moves.
    #[test]
    fn densities_of_impossible_pressures() {
        assert_eq!(density(1e6, 700.0), 800.0);
        assert_eq!(density(-1.0, 700.0), 50.0);
        assert_eq!(density(f64::NAN, 700.0), 50.0);
        assert_eq!(density(50.0, f64::NAN), 50.0);
        assert_eq!(density(f64::INFINITY, 640.0), 800.0);
    }

    /// Before the last halving the bracket's ends are neighbours, and the middle is one of
    /// them.
    #[test]
    fn no_f64_lies_between_the_ends_of_the_last_bracket() {
        let (p, t) = (50.0, 700.0);
        let (mut lo, mut hi, mut halvings) = (50.0_f64, 800.0_f64, 0);
        while lo.next_up() < hi {
            let middle = (lo + hi) / 2.0;
            let low = DensePoint::new(middle, t).pressure() < p;
            (lo, hi) = if low { (middle, hi) } else { (lo, middle) };
            halvings += 1;
        }
        assert!((50..=HALVINGS).contains(&halvings));
        assert!([lo, hi].contains(&density(p, t)));
    }
}
