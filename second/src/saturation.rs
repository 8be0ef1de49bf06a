//! The saturation line, region 4 of 002: its pressure, which says where on the line it
//! stands (M-103 of 02), and its temperature. Units as in `basic`. The association of each
//! formula is fixed; parentheses below are part of it.

use crate::arithmetic::{fourth_root, power, root};
use crate::refusals::{Refusal, NOT_FINITE, TEMPERATURE};
use crate::tables::A11;
use SaturationPressure::{NoAnswer, To623, To647};

/// Lowest temperature, in K, of the line and of all regions.
pub const T_LOWEST: f64 = 273.15;
/// Temperature that ends region 1, in K: above it the line goes on into region 3.
pub const T_13: f64 = 623.15;
/// The critical temperature, in K, which ends the line.
pub const T_CRITICAL: f64 = 647.096;

/// What ps(T) answers. Which of the three it is, T alone tells.
#[derive(Clone, Copy, Debug, PartialEq)]
pub enum SaturationPressure {
    /// From 273.15 to 623.15 K: the pressure at which regions 1 and 2 meet.
    To623(f64),
    /// Above 623.15 up to 647.096 K: the pressure that parts liquid and vapour of region 3.
    To647(f64),
    /// At any other T, and for NaN.
    NoAnswer,
}

#[cfg(test)]
impl SaturationPressure {
    /// The pressure, at a T that has one.
    pub fn given(self) -> f64 {
        match self {
            To623(ps) | To647(ps) => ps,
            NoAnswer => panic!("no saturation pressure"),
        }
    }
}

/// Saturation pressure ps(T).
pub fn saturation_pressure(t: f64) -> SaturationPressure {
    if (T_LOWEST..=T_13).contains(&t) {
        To623(curve(t))
    } else if t > T_13 && t <= T_CRITICAL {
        To647(curve(t))
    } else {
        NoAnswer
    }
}

/// ps(T) as a direct call gives it: its place, 1 up to 623.15 K and 2 above that, and the
/// pressure.
pub fn placed_pressure(t: f64) -> Result<(u8, f64), Refusal> {
    if !t.is_finite() {
        return Err(NOT_FINITE);
    }
    match saturation_pressure(t) {
        To623(ps) => Ok((1, ps)),
        To647(ps) => Ok((2, ps)),
        NoAnswer => Err(TEMPERATURE),
    }
}

/// Eq. (28) as printed, at any T. Off the line its numbers mean nothing. Inputs alone take
/// them, to lie next to where a program that goes by the equation whatever T is would change
/// its answer; whoever wants a saturation pressure asks `saturation_pressure`.
pub fn curve(t: f64) -> f64 {
    let [n1, n2, n3, n4, n5, n6, n7, n8, n9, n10] = A11;
    let theta = t + n9 / (t - n10);
    let square = theta * theta;
    let a = (square + n1 * theta) + n2;
    let b = (n3 * square + n4 * theta) + n5;
    let c = (n6 * square + n7 * theta) + n8;
    power((2.0 * c) / (-b + root(b * b - (4.0 * a) * c)), 4)
}

/// Saturation temperature Ts(p), Eq. (55).
pub fn saturation_temperature(p: f64) -> f64 {
    let [n1, n2, n3, n4, n5, n6, n7, n8, n9, n10] = A11;
    let beta = fourth_root(p);
    let square = beta * beta;
    let e = (square + n3 * beta) + n6;
    let f = (n1 * square + n4 * beta) + n7;
    let g = (n2 * square + n5 * beta) + n8;
    let d = (2.0 * g) / (-f - root(f * f - (4.0 * e) * g));
    let c = n10 + d;
    (c - root(c * c - 4.0 * (n9 + n10 * d))) / 2.0
}

#[cfg(test)]
mod tests {
    use super::*;

    /// The place of an answer, 0 for none.
    fn place(t: f64) -> u8 {
        match saturation_pressure(t) {
            To623(_) => 1,
            To647(_) => 2,
            NoAnswer => 0,
        }
    }

    #[test]
    fn landmarks() {
        let highest = f64::from_bits(0x4030_8777_4ef7_2605);
        assert_eq!(saturation_pressure(T_13), To623(highest));
        assert_eq!(saturation_temperature(highest), 623.1500000000016);
        assert!(saturation_temperature(highest) > T_13);
        let To647(critical) = saturation_pressure(T_CRITICAL) else { panic!() };
        assert!((critical - 22.064).abs() < 1e-4);
    }

    #[test]
    fn points_of_table_a12_are_in_the_first_case() {
        let printed = [(300.0, "3.53658941e-3"), (500.0, "2.63889776e0"), (600.0, "1.23443146e1")];
        for (t, printed) in printed {
            let To623(ps) = saturation_pressure(t) else { panic!("{t}") };
            assert_eq!(format!("{ps:.8e}"), printed);
        }
    }

    #[test]
    fn each_end_belongs_to_the_case_below_it() {
        let around = |t: f64| [t.next_down(), t, t.next_up()].map(place);
        assert_eq!(around(T_LOWEST), [0, 1, 1]);
        assert_eq!(around(T_13), [1, 1, 2]);
        assert_eq!(around(T_CRITICAL), [2, 2, 0]);
        assert_eq!([300.0, 500.0, 600.0, 625.0, 640.0].map(place), [1, 1, 1, 2, 2]);
    }

    #[test]
    fn off_the_line_there_is_no_answer() {
        let [.., n10] = A11;
        for t in [0.0, -0.0, 5e-324, -300.0, n10, 700.0, 863.15, 2273.15, f64::MAX, f64::MIN] {
            assert_eq!(saturation_pressure(t), NoAnswer, "{t}");
            assert_eq!(placed_pressure(t), Err(TEMPERATURE), "{t}");
        }
        for t in [f64::NAN, -f64::NAN, f64::INFINITY, f64::NEG_INFINITY] {
            assert_eq!(saturation_pressure(t), NoAnswer, "{t}");
            assert_eq!(placed_pressure(t), Err(NOT_FINITE), "{t}");
        }
    }

    #[test]
    fn a_direct_call_tells_the_place_or_refuses() {
        for (t, place) in [
            (T_LOWEST, 1),
            (T_LOWEST.next_up(), 1),
            (T_13.next_down(), 1),
            (T_13, 1),
            (T_13.next_up(), 2),
            (T_CRITICAL.next_down(), 2),
            (T_CRITICAL, 2),
        ] {
            assert_eq!(placed_pressure(t), Ok((place, saturation_pressure(t).given())), "{t}");
        }
        for t in [T_LOWEST.next_down(), T_CRITICAL.next_up()] {
            assert_eq!(placed_pressure(t), Err(TEMPERATURE), "{t}");
        }
    }

    /// Eqs. (28) and (55) solve one equation between p and T, the one for p, the other for T.
    #[test]
    fn the_line_rises_and_its_two_equations_agree() {
        let line: Vec<f64> = (0..=7478).map(|step| T_LOWEST + f64::from(step) / 20.0).collect();
        let pressures: Vec<f64> = line.iter().map(|&t| saturation_pressure(t).given()).collect();
        assert!(pressures.is_sorted_by(|low, high| low < high));
        let back = |(t, ps): (&f64, &f64)| (saturation_temperature(*ps) - t).abs() < 1e-8;
        assert!(line.iter().zip(&pressures).all(back));
    }
}
