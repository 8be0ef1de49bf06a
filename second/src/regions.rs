//! Which region a query lies in: "Regions from (p,T)" and "Regions from (p,h),
//! (p,s), (h,s)" of 01, with region 3 by M-100 and the end of region 5 by M-101 of 02.

use crate::basic::{b23_pressure, b23_temperature, Point, Region};
use crate::refusals::{
    Refusal, HOT_AND_HIGH, NOT_FINITE, OUT_OF_RANGE, PRESSURE, REGION_3, TEMPERATURE,
};
use crate::saturation::{
    saturation_pressure, saturation_temperature, SaturationPressure, T_13, T_LOWEST,
};

/// Temperature that ends the boundary between regions 2 and 3, in K.
pub const T_B23: f64 = 863.15;
/// Temperature that ends region 2, in K.
pub const T_25: f64 = 1073.15;
/// Temperature that ends region 5, in K.
pub const T_HIGHEST: f64 = 2273.15;
/// Lowest pressure of a (p,T) query, a house limit, in MPa.
pub const P_LOWEST: f64 = 0.000001;
/// Lowest pressure of the other queries, in MPa.
pub const P_LOWEST_BACKWARD: f64 = 0.000611213;
/// Highest pressure of region 5 as R7-97 has it, in MPa.
pub const P_REGION_5: f64 = 50.0;
/// Highest pressure, in MPa.
pub const P_HIGHEST: f64 = 100.0;

/// What a query gives beside the pressure: the y of 01.
#[derive(Clone, Copy, Debug, PartialEq, Eq)]
pub enum Quantity {
    Enthalpy,
    Entropy,
}

impl Quantity {
    /// y(p,T) by a region's basic equation.
    pub fn at(self, region: Region, p: f64, t: f64) -> f64 {
        let point = Point::new(region, p, t);
        match self {
            Quantity::Enthalpy => point.h(),
            Quantity::Entropy => point.s(),
        }
    }
}

/// The basic equation of a single phase.
#[derive(Clone, Copy, Debug, PartialEq, Eq)]
pub enum Equation {
    /// g(p,T) of region 1, 2 or 5.
    Gibbs(Region),
    /// f(ρ,T) of region 3.
    Helmholtz,
}

impl Equation {
    /// The paper's number of the region.
    pub fn region_number(self) -> u64 {
        match self {
            Equation::Gibbs(region) => region.number(),
            Equation::Helmholtz => 3,
        }
    }
}

/// Where a (p,h) or (p,s) query lies.
#[derive(Clone, Copy, Debug, PartialEq, Eq)]
pub enum Place {
    Liquid,
    Wet,
    Vapour,
}

/// P = ps(623.15), up to which a query of p and h or s can be wet.
pub fn highest_saturation_pressure() -> f64 {
    match saturation_pressure(T_13) {
        SaturationPressure::To623(ps) => ps,
        SaturationPressure::To647(_) | SaturationPressure::NoAnswer => {
            unreachable!("regions 1 and 2 meet up to 623.15 K")
        }
    }
}

/// The equation of the region of (p,T).
pub fn from_pt(p: f64, t: f64) -> Result<Equation, Refusal> {
    if !(p.is_finite() && t.is_finite()) {
        Err(NOT_FINITE)
    } else if !(P_LOWEST..=P_HIGHEST).contains(&p) {
        Err(PRESSURE)
    } else if !(T_LOWEST..=T_HIGHEST).contains(&t) {
        Err(TEMPERATURE)
    } else if t > T_25 {
        if p > P_REGION_5 {
            Err(HOT_AND_HIGH)
        } else {
            Ok(Equation::Gibbs(Region::Five))
        }
    } else {
        Ok(below_region_5(p, t))
    }
}

/// The equation of the region of an in-range (p,T) with T up to 1073.15. Above 623.15 K the
/// boundary B23 parts the regions, whether the line still goes on or has ended.
fn below_region_5(p: f64, t: f64) -> Equation {
    match saturation_pressure(t) {
        SaturationPressure::To623(ps) if p >= ps => Equation::Gibbs(Region::One),
        SaturationPressure::To623(_) => Equation::Gibbs(Region::Two),
        SaturationPressure::To647(_) | SaturationPressure::NoAnswer => beside_b23(p, t),
    }
}

fn beside_b23(p: f64, t: f64) -> Equation {
    if t > T_B23 || p <= b23_pressure(t) {
        Equation::Gibbs(Region::Two)
    } else {
        Equation::Helmholtz
    }
}

/// The place of (p,y).
pub fn from_py(quantity: Quantity, p: f64, y: f64) -> Result<Place, Refusal> {
    if !(p.is_finite() && y.is_finite()) {
        return Err(NOT_FINITE);
    }
    if !(P_LOWEST_BACKWARD..=P_HIGHEST).contains(&p) {
        return Err(PRESSURE);
    }
    let lowest = quantity.at(Region::One, p, T_LOWEST);
    let highest = quantity.at(Region::Two, p, T_25);
    if y < lowest || y > highest {
        Err(OUT_OF_RANGE)
    } else if p <= highest_saturation_pressure() {
        Ok(beside_saturation(quantity, p, y))
    } else {
        beside_region_3(quantity, p, y)
    }
}

/// For p ≤ P: liquid below y′, vapour above y″, wet between, both ends included.
fn beside_saturation(quantity: Quantity, p: f64, y: f64) -> Place {
    let t = saturation_temperature(p);
    if y < quantity.at(Region::One, p, t) {
        Place::Liquid
    } else if y <= quantity.at(Region::Two, p, t) {
        Place::Wet
    } else {
        Place::Vapour
    }
}

/// For p > P: liquid up to y1(p,623.15), vapour from y2(p,TB23(p)), else region 3.
fn beside_region_3(quantity: Quantity, p: f64, y: f64) -> Result<Place, Refusal> {
    if y <= quantity.at(Region::One, p, T_13) {
        Ok(Place::Liquid)
    } else if y >= quantity.at(Region::Two, p, b23_temperature(p)) {
        Ok(Place::Vapour)
    } else {
        Err(REGION_3)
    }
}

#[cfg(test)]
mod tests {
    use super::*;
    use crate::saturation::T_CRITICAL;

    /// (10.5,1500) as M-101 of 02 reads it.
    #[test]
    fn marked_points_of_01() {
        assert_eq!(from_pt(f64::NAN, 300.0), Err(NOT_FINITE));
        assert_eq!(from_pt(0.0, 300.0), Err(PRESSURE));
        assert_eq!(from_pt(100.0, 273.14), Err(TEMPERATURE));
        assert_eq!(from_pt(10.0, 1073.15), Ok(Equation::Gibbs(Region::Two)));
        assert_eq!(from_pt(10.0, 1500.0), Ok(Equation::Gibbs(Region::Five)));
        assert_eq!(from_pt(10.5, 1500.0), Ok(Equation::Gibbs(Region::Five)));
        assert_eq!(from_pt(100.5, 200.0), Err(PRESSURE));
        assert_eq!(from_pt(100.0, 900.0), Ok(Equation::Gibbs(Region::Two)));
    }

    #[test]
    fn ties_and_ends_of_pt() {
        assert_eq!(from_pt(50.0, 2300.0), Err(TEMPERATURE));
        assert_eq!(from_pt(-0.0, 300.0), Err(PRESSURE));
        assert_eq!(from_pt(100.0, 1073.15), Ok(Equation::Gibbs(Region::Two)));
        let ps = saturation_pressure(500.0).given();
        assert_eq!(from_pt(ps, 500.0), Ok(Equation::Gibbs(Region::One)));
        assert_eq!(from_pt(ps.next_down(), 500.0), Ok(Equation::Gibbs(Region::Two)));
        assert_eq!(from_pt(b23_pressure(700.0), 700.0), Ok(Equation::Gibbs(Region::Two)));
        assert_eq!(from_pt(b23_pressure(700.0).next_up(), 700.0), Ok(Equation::Helmholtz));
        assert_eq!(from_pt(50.0, T_13), Ok(Equation::Gibbs(Region::One)));
        assert_eq!(from_pt(50.0, T_13.next_up()), Ok(Equation::Helmholtz));
        assert_eq!(from_pt(P_LOWEST, T_HIGHEST), Ok(Equation::Gibbs(Region::Five)));
    }

    /// The answers turn at B23 alone, below the end of the line, at it and above.
    #[test]
    fn the_end_of_the_saturation_line_is_no_border() {
        for t in [T_13.next_up(), T_CRITICAL.next_down(), T_CRITICAL, T_CRITICAL.next_up()] {
            let boundary = b23_pressure(t);
            for p in [P_LOWEST, boundary.next_down(), boundary] {
                assert_eq!(from_pt(p, t), Ok(Equation::Gibbs(Region::Two)));
            }
            for p in [boundary.next_up(), 22.0, 22.064, 23.0, P_HIGHEST] {
                assert_eq!(from_pt(p, t), Ok(Equation::Helmholtz));
            }
        }
    }

    #[test]
    fn region_5_ends_at_50_mpa_and_begins_behind_1073_15_k() {
        for t in [T_25.next_up(), 1500.0, T_HIGHEST] {
            for p in [10.0_f64.next_up(), 50.0_f64.next_down(), 50.0] {
                assert_eq!(from_pt(p, t), Ok(Equation::Gibbs(Region::Five)));
            }
            assert_eq!(from_pt(50.0_f64.next_up(), t), Err(HOT_AND_HIGH));
            assert_eq!(from_pt(100.0, t), Err(HOT_AND_HIGH));
            assert_eq!(from_pt(100.0_f64.next_up(), t), Err(PRESSURE));
        }
        for p in [50.0, 50.0_f64.next_up(), 100.0] {
            assert_eq!(from_pt(p, T_25), Ok(Equation::Gibbs(Region::Two)));
            assert_eq!(from_pt(p, T_HIGHEST.next_up()), Err(TEMPERATURE));
        }
    }

    #[test]
    fn a_pressure_below_the_range_is_refused_with_any_finite_enthalpy() {
        for h in [-1e300, 0.0, 2000.0, 1e300] {
            assert_eq!(from_py(Quantity::Enthalpy, 0.0006, h), Err(PRESSURE));
        }
        assert_eq!(from_py(Quantity::Enthalpy, 0.0006, f64::NAN), Err(NOT_FINITE));
    }

    #[test]
    fn both_ends_of_the_wet_range_are_wet() {
        for quantity in [Quantity::Enthalpy, Quantity::Entropy] {
            let t = saturation_temperature(1.0);
            let liquid = quantity.at(Region::One, 1.0, t);
            let vapour = quantity.at(Region::Two, 1.0, t);
            assert_eq!(from_py(quantity, 1.0, liquid.next_down()), Ok(Place::Liquid));
            assert_eq!(from_py(quantity, 1.0, liquid), Ok(Place::Wet));
            assert_eq!(from_py(quantity, 1.0, vapour), Ok(Place::Wet));
            assert_eq!(from_py(quantity, 1.0, vapour.next_up()), Ok(Place::Vapour));
        }
    }

    #[test]
    fn both_borders_of_region_3_belong_to_its_neighbours() {
        for quantity in [Quantity::Enthalpy, Quantity::Entropy] {
            let liquid = quantity.at(Region::One, 30.0, T_13);
            let vapour = quantity.at(Region::Two, 30.0, b23_temperature(30.0));
            assert_eq!(from_py(quantity, 30.0, liquid), Ok(Place::Liquid));
            assert_eq!(from_py(quantity, 30.0, liquid.next_up()), Err(REGION_3));
            assert_eq!(from_py(quantity, 30.0, vapour.next_down()), Err(REGION_3));
            assert_eq!(from_py(quantity, 30.0, vapour), Ok(Place::Vapour));
        }
    }
}
