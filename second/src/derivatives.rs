//! Differential quotients (∂z/∂x)y of single-phase states, after 001. Pressure is
//! taken in kPa there, so that v·p is in kJ/kg.

use crate::answers::{answer, Answer, Single};
use crate::basic::Point;
use crate::helmholtz::DensePoint;
use crate::refusals::{Refusal, NOT_SINGLE, UNKNOWN};
use crate::regions::Equation;

/// A property by its number: p, T, v, u, h, s, g, f are 1 to 8.
#[derive(Clone, Copy, Debug, PartialEq, Eq)]
pub enum Property {
    P,
    T,
    V,
    U,
    H,
    S,
    G,
    F,
}

impl Property {
    const ALL: [Property; 8] = [
        Property::P,
        Property::T,
        Property::V,
        Property::U,
        Property::H,
        Property::S,
        Property::G,
        Property::F,
    ];

    fn numbered(number: u8) -> Result<Property, Refusal> {
        let index = usize::from(number).wrapping_sub(1);
        Property::ALL.get(index).copied().ok_or(UNKNOWN)
    }
}

/// (∂z/∂x)y at the state that a query gives.
pub fn quotient(kind: u64, first: f64, second: f64, zxy: [u8; 3]) -> Result<f64, Refusal> {
    if !(1..=4).contains(&kind) {
        return Err(UNKNOWN);
    }
    let [z, x, y] = zxy;
    let properties = (Property::numbered(z)?, Property::numbered(x)?, Property::numbered(y)?);
    match answer(kind, first, second)? {
        Answer::Single { state, .. } => quotient_at(&state, properties),
        Answer::Wet { .. } => Err(NOT_SINGLE),
    }
}

/// (z_p·y_T − z_T·y_p) / (x_p·y_T − x_T·y_p); in region 3 v stands in the place of p.
fn quotient_at(state: &Single, (z, x, y): (Property, Property, Property)) -> Result<f64, Refusal> {
    let slopes = Slopes::of(state);
    let numerator = slopes.determinant(z, y);
    let denominator = slopes.determinant(x, y);
    if denominator == 0.0 || !denominator.is_finite() {
        Err(NOT_SINGLE)
    } else {
        Ok(numerator / denominator)
    }
}

/// The derivatives of every property at a state by its equation's two variables.
enum Slopes {
    Gibbs(PressureAndTemperature),
    Helmholtz(VolumeAndTemperature),
}

impl Slopes {
    fn of(state: &Single) -> Slopes {
        let Single { p, t, .. } = *state;
        match state.equation {
            Equation::Gibbs(region) => {
                Slopes::Gibbs(PressureAndTemperature::of(&Point::new(region, p, t), p, t))
            }
            Equation::Helmholtz => {
                Slopes::Helmholtz(VolumeAndTemperature::of(&DensePoint::found(p, t), t))
            }
        }
    }

    /// a_1·b_2 − a_2·b_1.
    fn determinant(&self, a: Property, b: Property) -> f64 {
        let ((a_1, a_2), (b_1, b_2)) = (self.pair(a), self.pair(b));
        a_1 * b_2 - a_2 * b_1
    }

    /// The derivatives in p or v, and in T.
    fn pair(&self, property: Property) -> (f64, f64) {
        match self {
            Slopes::Gibbs(of) => (of.in_p(property), of.in_t(property)),
            Slopes::Helmholtz(of) => (of.in_v(property), of.in_t(property)),
        }
    }
}

/// What 001 forms every derivative from in regions 1, 2 and 5: p in kPa, T, v, s, cp,
/// the expansion coefficient αv and the compressibility κT.
struct PressureAndTemperature {
    p: f64,
    t: f64,
    v: f64,
    s: f64,
    cp: f64,
    alpha: f64,
    kappa: f64,
}

impl PressureAndTemperature {
    fn of(point: &Point, p: f64, t: f64) -> PressureAndTemperature {
        PressureAndTemperature {
            p: 1000.0 * p,
            t,
            v: point.v(),
            s: point.s(),
            cp: point.cp(),
            alpha: point.alpha(),
            kappa: point.kappa(),
        }
    }

    /// The derivative in T at constant p.
    fn in_t(&self, property: Property) -> f64 {
        match property {
            Property::P => 0.0,
            Property::T => 1.0,
            Property::V => self.v * self.alpha,
            Property::U => self.cp - (self.p * self.v) * self.alpha,
            Property::H => self.cp,
            Property::S => self.cp / self.t,
            Property::G => -self.s,
            Property::F => -((self.p * self.v) * self.alpha) - self.s,
        }
    }

    /// The derivative in p at constant T.
    fn in_p(&self, property: Property) -> f64 {
        match property {
            Property::P => 1.0,
            Property::T => 0.0,
            Property::V => -(self.v * self.kappa),
            Property::U => self.v * (self.p * self.kappa - self.t * self.alpha),
            Property::H => self.v * (1.0 - self.t * self.alpha),
            Property::S => -(self.v * self.alpha),
            Property::G => self.v,
            Property::F => (self.p * self.v) * self.kappa,
        }
    }
}

/// What 001 forms every derivative from in region 3: p in kPa, the equation's own at its
/// density, T, v, s, cv, the pressure coefficient αp and the stress coefficient βp. Where
/// 001 prints ρ in this table it is p: the slope of f in v is −p.
struct VolumeAndTemperature {
    p: f64,
    t: f64,
    v: f64,
    s: f64,
    cv: f64,
    alpha: f64,
    beta: f64,
}

impl VolumeAndTemperature {
    fn of(point: &DensePoint, t: f64) -> VolumeAndTemperature {
        VolumeAndTemperature {
            p: 1000.0 * point.pressure(),
            t,
            v: point.v(),
            s: point.s(),
            cv: point.cv(),
            alpha: point.alpha(),
            beta: point.beta(),
        }
    }

    /// The derivative in v at constant T.
    fn in_v(&self, property: Property) -> f64 {
        match property {
            Property::P => -(self.p * self.beta),
            Property::T => 0.0,
            Property::V => 1.0,
            Property::U => self.p * (self.t * self.alpha - 1.0),
            Property::H => self.p * (self.t * self.alpha - self.v * self.beta),
            Property::S => self.p * self.alpha,
            Property::G => -((self.p * self.v) * self.beta),
            Property::F => -self.p,
        }
    }

    /// The derivative in T at constant v.
    fn in_t(&self, property: Property) -> f64 {
        match property {
            Property::P => self.p * self.alpha,
            Property::T => 1.0,
            Property::V => 0.0,
            Property::U => self.cv,
            Property::H => self.cv + (self.p * self.v) * self.alpha,
            Property::S => self.cv / self.t,
            Property::G => (self.p * self.v) * self.alpha - self.s,
            Property::F => -self.s,
        }
    }
}

#[cfg(test)]
mod tests {
    use super::*;
    use crate::basic::{Properties, Region};
    use crate::refusals::NOT_FINITE;
    use crate::saturation::saturation_temperature;

    /// Regions 1 and 2, and region 5 at low and at high pressures.
    const POINTS: [(f64, f64); 7] = [
        (20.0, 400.0),
        (0.5, 600.0),
        (30.0, 900.0),
        (5.0, 1500.0),
        (30.0, 1500.0),
        (45.0, 1080.0),
        (49.0, 2200.0),
    ];
    /// Region 3: liquid and vapour beside saturation, beside B23 and region 1, and at
    /// supercritical pressures.
    const DENSE_POINTS: [(f64, f64); 6] =
        [(18.0, 625.0), (17.5, 630.0), (25.0, 650.0), (50.0, 700.0), (99.0, 640.0), (80.0, 800.0)];

    fn every_point() -> impl Iterator<Item = (f64, f64)> {
        POINTS.into_iter().chain(DENSE_POINTS)
    }

    fn state_at(p: f64, t: f64) -> Single {
        let Ok(Answer::Single { state, .. }) = answer(1, p, t) else { panic!("{p} {t}") };
        state
    }

    /// p in kPa, T, v, u, h, s, g and f.
    fn eight(p: f64, t: f64, of: Properties) -> [f64; 8] {
        let (g, f) = (of.h - t * of.s, of.u - t * of.s);
        [1000.0 * p, t, of.v, of.u, of.h, of.s, g, f]
    }

    /// Each property's pair beside the slopes of the eight between x − dx and x + dx at T
    /// and between T − dt and T + dt at x.
    fn slopes_are(state: &Single, at: impl Fn(f64, f64) -> [f64; 8], x: (f64, f64), dt: f64) {
        let (t, (x, dx)) = (state.t, x);
        let slopes = Slopes::of(state);
        for (index, property) in Property::ALL.into_iter().enumerate() {
            let in_x = (at(x + dx, t)[index] - at(x - dx, t)[index]) / (2.0 * dx);
            let in_t = (at(x, t + dt)[index] - at(x, t - dt)[index]) / (2.0 * dt);
            let close = |a: f64, b: f64| (a - b).abs() <= 1e-4 * b.abs().max(1e-6);
            let (first, second) = slopes.pair(property);
            assert!(close(first, in_x), "{property:?} in p or v at {state:?}: {first} {in_x}");
            assert!(close(second, in_t), "{property:?} in T at {state:?}: {second} {in_t}");
        }
    }

    #[test]
    fn every_derivative_is_a_slope() {
        for (p, t) in POINTS {
            let state = state_at(p, t);
            let Equation::Gibbs(region) = state.equation else { panic!("{p} {t}") };
            let at = |kilo: f64, t| {
                let p = kilo / 1000.0;
                eight(p, t, Point::new(region, p, t).properties())
            };
            slopes_are(&state, at, (1000.0 * p, p * 0.1), t * 1e-4);
        }
    }

    #[test]
    fn every_derivative_of_region_3_is_a_slope_in_volume_and_temperature() {
        for (p, t) in DENSE_POINTS {
            let state = state_at(p, t);
            assert_eq!(state.equation, Equation::Helmholtz);
            let at = |v: f64, t| {
                let point = DensePoint::new(1.0 / v, t);
                eight(point.pressure(), t, point.properties())
            };
            let v = state.properties.v;
            slopes_are(&state, at, (v, v * 1e-5), t * 1e-5);
        }
    }

    /// The states that (p,T) queries give, a little to each side, against the quotients at
    /// constant p and at constant T.
    #[test]
    fn quotients_of_region_3_are_slopes_of_its_answers() {
        for (p, t) in DENSE_POINTS {
            let at = |p, t| eight(p, t, state_at(p, t).properties);
            let (dp, dt) = (p * 1e-6, t * 1e-6);
            for z in 3..=8_u8 {
                let index = usize::from(z) - 1;
                let in_t = (at(p, t + dt)[index] - at(p, t - dt)[index]) / (2.0 * dt);
                let in_p = (at(p + dp, t)[index] - at(p - dp, t)[index]) / (2000.0 * dp);
                for (x, y, slope) in [(2, 1, in_t), (1, 2, in_p)] {
                    let quotient = quotient(1, p, t, [z, x, y]).unwrap();
                    let off = (quotient - slope).abs();
                    assert!(
                        off <= 1e-5 * slope.abs(),
                        "{z} {x} {y} at {p} {t}: {quotient} {slope}"
                    );
                }
            }
        }
    }

    /// w² = (∂p/∂ρ)s = −v²·(∂p/∂v)s, p in Pa.
    #[test]
    fn the_speed_of_sound_is_a_derivative_at_constant_entropy() {
        for (p, t) in every_point() {
            let Properties { v, w, .. } = state_at(p, t).properties;
            let square = -1000.0 * v * v * quotient(1, p, t, [1, 3, 6]).unwrap();
            assert!((square / (w * w) - 1.0).abs() < 1e-9, "{p} {t}");
        }
    }

    #[test]
    fn heat_capacity_is_the_slope_of_the_enthalpy() {
        for (p, t) in POINTS {
            assert_eq!(quotient(1, p, t, [5, 2, 1]), Ok(state_at(p, t).properties.cp));
        }
        for (p, t) in DENSE_POINTS {
            let slope = quotient(1, p, t, [5, 2, 1]).unwrap();
            assert!((slope / state_at(p, t).properties.cp - 1.0).abs() < 1e-9, "{p} {t}");
        }
    }

    /// There cp is the slope of the enthalpy, bit for bit.
    #[test]
    fn the_derivative_of_a_pulled_state_is_taken_on_the_saturation_line() {
        for (kind, first, second, region) in [
            (2, 1.0, 762.68, Region::One),
            (3, 10.0, 5.6159, Region::Two),
            (4, 2777.12, 6.585, Region::Two),
        ] {
            let Ok(Answer::Single { state, .. }) = answer(kind, first, second) else { panic!() };
            let ts = saturation_temperature(state.p);
            let cp = Point::new(region, state.p, ts).cp();
            assert_eq!(quotient(kind, first, second, [5, 2, 1]), Ok(cp));
        }
    }

    #[test]
    fn a_quotient_by_itself_is_one_and_by_what_is_held_is_refused() {
        for (p, t) in every_point() {
            for z in 1..=8 {
                for y in (1..=8).filter(|&y| y != z) {
                    assert_eq!(quotient(1, p, t, [z, z, y]), Ok(1.0));
                    assert_eq!(quotient(1, p, t, [z, y, y]), Err(NOT_SINGLE));
                }
            }
        }
    }

    #[test]
    fn refusals_in_order() {
        assert_eq!(quotient(0, f64::NAN, 300.0, [1, 2, 3]), Err(UNKNOWN));
        assert_eq!(quotient(1, f64::NAN, 300.0, [1, 2, 9]), Err(UNKNOWN));
        assert_eq!(quotient(1, f64::NAN, 300.0, [0, 2, 3]), Err(UNKNOWN));
        assert_eq!(quotient(1, f64::NAN, 300.0, [1, 2, 3]), Err(NOT_FINITE));
        assert_eq!(quotient(2, 1.0, 2000.0, [1, 2, 3]), Err(NOT_SINGLE));
    }
}
