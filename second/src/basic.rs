//! The basic equations of 002 for regions 1, 2 and 5, and the boundaries B23, 2bc and 2ab.
//! Region 5 has the coefficients of R7-97 in 002's equation. Units: p in MPa, T in K, v in
//! m³/kg, u and h in kJ/kg, s and cp in kJ/(kg K), w in m/s. The association of each formula
//! is fixed; parentheses below are part of it.

use crate::arithmetic::{logarithm, root};
use crate::sums::derivative;
use crate::tables::{Term, A1, A2, A20, A4, A5, HS5, R7_37, R7_38};

/// The specific gas constant R, Eq. (1), in kJ/(kg K).
pub const R: f64 = 0.461526;

/// A region with a basic equation g(p,T).
#[derive(Clone, Copy, Debug, PartialEq, Eq)]
pub enum Region {
    One,
    Two,
    Five,
}

impl Region {
    /// The paper's number of the region.
    pub fn number(self) -> u64 {
        match self {
            Region::One => 1,
            Region::Two => 2,
            Region::Five => 5,
        }
    }

    /// Reducing pressure p* and temperature T*.
    fn reducing(self) -> (f64, f64) {
        match self {
            Region::One => (16.53, 1386.0),
            Region::Two => (1.0, 540.0),
            Region::Five => (1.0, 1000.0),
        }
    }

    /// The ideal-gas part's table; region 1 has no such part.
    fn ideal_terms(self) -> Option<&'static [Term]> {
        match self {
            Region::One => None,
            Region::Two => Some(&A4),
            Region::Five => Some(&R7_37),
        }
    }
}

/// The six properties of a single-phase state.
#[derive(Clone, Copy, Debug, PartialEq)]
pub struct Properties {
    pub v: f64,
    pub u: f64,
    pub h: f64,
    pub s: f64,
    pub cp: f64,
    pub w: f64,
}

#[cfg(test)]
impl Properties {
    /// Whether what two equations give at a border of their regions agrees within the Prague
    /// values of 002 (4.3).
    pub fn meets(&self, other: &Properties) -> bool {
        let (v, h, s) = (self.v / other.v - 1.0, self.h - other.h, self.s - other.s);
        v.abs() < 5e-4 && h.abs() < 0.2 && s.abs() < 2e-4
    }
}

/// A point (p,T) at which one region's basic equation is evaluated.
#[derive(Clone, Copy)]
pub struct Point {
    region: Region,
    p: f64,
    t: f64,
    pi: f64,
    tau: f64,
}

impl Point {
    /// π = p/p* and τ = T*/T.
    pub fn new(region: Region, p: f64, t: f64) -> Point {
        let (p_star, t_star) = region.reducing();
        let (pi, tau) = (p / p_star, t_star / t);
        Point { region, p, t, pi, tau }
    }

    /// All six properties.
    pub fn properties(&self) -> Properties {
        Properties {
            v: self.v(),
            u: self.u(),
            h: self.h(),
            s: self.s(),
            cp: self.cp(),
            w: self.w(),
        }
    }

    /// v·p/(RT) = π·γπ.
    pub fn v(&self) -> f64 {
        ((self.rt() * self.pi) * self.g_pi()) / (1000.0 * self.p)
    }

    /// u/(RT) = τ·γτ − π·γπ.
    pub fn u(&self) -> f64 {
        self.rt() * (self.tau * self.g_tau() - self.pi * self.g_pi())
    }

    /// h/(RT) = τ·γτ.
    pub fn h(&self) -> f64 {
        (self.rt() * self.tau) * self.g_tau()
    }

    /// s/R = τ·γτ − γ.
    pub fn s(&self) -> f64 {
        R * (self.tau * self.g_tau() - self.g())
    }

    /// cp/R = −τ²·γττ.
    pub fn cp(&self) -> f64 {
        ((-R) * (self.tau * self.tau)) * self.g_tautau()
    }

    /// w²/(RT), the quotient of Table 2 (region 1) or Table 4 (regions 2 and 5).
    pub fn w(&self) -> f64 {
        root((1000.0 * self.rt()) * self.w_quotient())
    }

    fn w_quotient(&self) -> f64 {
        let (pi, tau) = (self.pi, self.tau);
        let g = self.sum(1, 0);
        match self.region {
            Region::One => {
                let d = g - tau * self.sum(1, 1);
                (g * g) / ((d * d) / ((tau * tau) * self.sum(0, 2)) - self.sum(2, 0))
            }
            Region::Two | Region::Five => {
                let d = (1.0 + pi * g) - (tau * pi) * self.sum(1, 1);
                let numerator = (1.0 + (2.0 * pi) * g) + (pi * pi) * (g * g);
                let quotient = (d * d) / ((tau * tau) * self.g_tautau());
                numerator / ((1.0 - (pi * pi) * self.sum(2, 0)) + quotient)
            }
        }
    }

    /// Isobaric cubic expansion coefficient αv of 001, in 1/K.
    pub fn alpha(&self) -> f64 {
        let (pi, tau) = (self.pi, self.tau);
        let (g, g_pitau) = (self.sum(1, 0), self.sum(1, 1));
        let factor = match self.region {
            Region::One => 1.0 - (tau * g_pitau) / g,
            _ => ((1.0 + pi * g) - (tau * pi) * g_pitau) / (1.0 + pi * g),
        };
        (1.0 / self.t) * factor
    }

    /// Isothermal compressibility κT of 001, in 1/kPa.
    pub fn kappa(&self) -> f64 {
        let pi = self.pi;
        let (g, g_pipi) = (self.sum(1, 0), self.sum(2, 0));
        let factor = match self.region {
            Region::One => -((pi * g_pipi) / g),
            _ => (1.0 - (pi * pi) * g_pipi) / (1.0 + pi * g),
        };
        (1.0 / (1000.0 * self.p)) * factor
    }

    fn rt(&self) -> f64 {
        R * self.t
    }

    /// γ in region 1, γ° + γʳ in regions 2 and 5, where γ° = ln π + Σ n°·τᴶ.
    fn g(&self) -> f64 {
        match self.region.ideal_terms() {
            None => self.sum(0, 0),
            Some(terms) => (logarithm(self.pi) + self.ideal(terms, 0)) + self.sum(0, 0),
        }
    }

    /// γπ; the ideal-gas part is 1/π.
    fn g_pi(&self) -> f64 {
        match self.region.ideal_terms() {
            None => self.sum(1, 0),
            Some(_) => 1.0 / self.pi + self.sum(1, 0),
        }
    }

    /// γτ.
    fn g_tau(&self) -> f64 {
        match self.region.ideal_terms() {
            None => self.sum(0, 1),
            Some(terms) => self.ideal(terms, 1) + self.sum(0, 1),
        }
    }

    /// γττ.
    fn g_tautau(&self) -> f64 {
        match self.region.ideal_terms() {
            None => self.sum(0, 2),
            Some(terms) => self.ideal(terms, 2) + self.sum(0, 2),
        }
    }

    /// The sum of the ideal-gas part, differentiated in τ.
    fn ideal(&self, terms: &[Term], in_tau: i32) -> f64 {
        derivative(terms, self.pi, self.tau, 0, in_tau)
    }

    /// γ of region 1, Eq. (15), or γʳ of regions 2 and 5, Eqs. (21) and (31),
    /// differentiated in π and τ. The inner sign of 7.1 − π negates the finished sum
    /// for each derivative in π.
    fn sum(&self, in_pi: i32, in_tau: i32) -> f64 {
        let (pi, tau) = (self.pi, self.tau);
        match self.region {
            Region::One => {
                let sum = derivative(&A2, 7.1 - pi, tau - 1.222, in_pi, in_tau);
                (0..in_pi).fold(sum, |sum, _| -sum)
            }
            Region::Two => derivative(&A5, pi, tau - 0.5, in_pi, in_tau),
            Region::Five => derivative(&R7_38, pi, tau, in_pi, in_tau),
        }
    }
}

/// Boundary pressure pB23(T), Eq. (10).
pub fn b23_pressure(t: f64) -> f64 {
    let [n1, n2, n3, _, _] = A1;
    (n1 + n2 * t) + n3 * (t * t)
}

/// Boundary temperature TB23(p), Eq. (11).
pub fn b23_temperature(p: f64) -> f64 {
    let [_, _, n3, n4, n5] = A1;
    n4 + root((p - n5) / n3)
}

/// Pressure p2bc(h) between subregions 2b and 2c, Eq. (41).
pub fn b2bc_pressure(h: f64) -> f64 {
    let [n1, n2, n3] = A20;
    (n1 + n2 * h) + n3 * (h * h)
}

/// Enthalpy h2ab(s) between subregions 2a and 2b, Eq. (2) of 003.
pub fn b2ab_enthalpy(s: f64) -> f64 {
    let [n1, n2, n3, n4] = HS5;
    ((n1 + n2 * s) + n3 * (s * s)) + n4 * ((s * s) * s)
}

#[cfg(test)]
mod tests {
    use super::*;

    #[test]
    fn b23_ends_above_the_highest_pressure() {
        assert!(b23_pressure(863.15) > 100.0);
    }

    #[test]
    fn the_triple_point_is_the_zero_of_energy_and_entropy() {
        let point = Point::new(Region::One, 0.000611657, 273.16);
        assert!(point.u().abs() < 1e-8 && point.s().abs() < 1e-7);
        assert!((point.h() * 1000.0 - 0.611783).abs() < 1e-5);
    }

    #[test]
    fn expansion_and_compressibility_are_slopes_of_the_volume() {
        for (region, p, t) in [
            (Region::One, 20.0, 400.0),
            (Region::Two, 5.0, 700.0),
            (Region::Five, 5.0, 1500.0),
            (Region::Five, 45.0, 1100.0),
        ] {
            let point = Point::new(region, p, t);
            let v_at = |p, t| Point::new(region, p, t).v();
            let v_t = (v_at(p, t + 0.01) - v_at(p, t - 0.01)) / 0.02;
            let v_p = (v_at(p + 0.001, t) - v_at(p - 0.001, t)) / 2.0;
            assert!((point.alpha() * point.v() / v_t - 1.0).abs() < 1e-5);
            assert!((-point.kappa() * point.v() / v_p - 1.0).abs() < 1e-5);
        }
    }

    #[test]
    fn region_5_meets_region_2() {
        for p in [0.000001, 0.1, 1.0, 5.0, 10.0, 15.0, 20.0, 30.0, 40.0, 50.0] {
            let [here, there] =
                [Region::Five, Region::Two].map(|region| Point::new(region, p, 1073.15));
            assert!(here.properties().meets(&there.properties()), "{p}");
        }
    }
}
