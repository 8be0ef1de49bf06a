//! Arithmetic on f64 that the formulation leans on, worked exactly as document 01
//! writes it under "How a sum is worked". Each line is one rounded f64 operation;
//! nothing is fused, and no platform routine other than the square root is used.

/// The power xᵏ: x⁰ = 1, xᵏ = xᵏ⁻¹ · x, x⁻ᵏ = 1 / xᵏ.
pub fn power(x: f64, k: i32) -> f64 {
    let product = (0..k.unsigned_abs()).fold(1.0, |power, _| power * x);
    if k < 0 {
        1.0 / product
    } else {
        product
    }
}

/// The f64 nearest the exact root. Zeros and plus infinity give themselves,
/// negative numbers and NaN give a NaN.
pub fn root(x: f64) -> f64 {
    x.sqrt()
}

/// The fourth root: a root of a root.
pub fn fourth_root(x: f64) -> f64 {
    root(root(x))
}

/// ln 2, the f64 nearest its first twenty-one digits.
const LN_2: f64 = 0.693147180559945309417;

/// ln x = e·ln 2 + (2·z)·(1 + q/3 + q²/5 + .. + q¹¹/23), where x = m·2ᵉ with
/// 0.75 ≤ m < 1.5, z = (m − 1)/(m + 1) and q = z·z.
/// Zero, negative, subnormal, infinite and NaN x give a NaN.
pub fn logarithm(x: f64) -> f64 {
    if !(x.is_normal() && x > 0.0) {
        return f64::NAN;
    }
    let (m, e) = split(x);
    let z = (m - 1.0) / (m + 1.0);
    let q = z * z;
    let odd_denominators = (0..=10).rev().map(|half| 2 * half + 1);
    let t = odd_denominators.fold(1.0 / 23.0, |t, d| t * q + 1.0 / f64::from(d));
    f64::from(e) * LN_2 + (2.0 * z) * t
}

/// Splits a positive normal x into m and e with x = m·2ᵉ and 0.75 ≤ m < 1.5.
fn split(x: f64) -> (f64, i32) {
    const FRACTION: u64 = (1 << 52) - 1;
    let exponent = (x.to_bits() >> 52) as i32 - 1023;
    let mantissa = f64::from_bits((x.to_bits() & FRACTION) | 1.0_f64.to_bits());
    if mantissa < 1.5 {
        (mantissa, exponent)
    } else {
        (mantissa / 2.0, exponent + 1)
    }
}

#[cfg(test)]
mod tests {
    use super::*;

    #[test]
    fn powers_are_repeated_products() {
        assert_eq!(power(3.0, 4), 81.0);
        assert_eq!(power(2.0, -3), 0.125);
        assert_eq!(power(f64::NAN, 0), 1.0);
        assert_eq!(power(0.0, -1), f64::INFINITY);
        assert_eq!(power(-0.0, -3), f64::NEG_INFINITY);
        let x = 1.1_f64;
        assert_eq!(power(x, 5), (((x * x) * x) * x) * x);
        assert_eq!(power(1.0 + f64::EPSILON, -128), 1.0 / power(1.0 + f64::EPSILON, 128));
    }

    #[test]
    fn roots_at_the_ends() {
        assert_eq!(root(-0.0).to_bits(), (-0.0_f64).to_bits());
        assert_eq!(root(f64::INFINITY), f64::INFINITY);
        assert!(root(-1.0).is_nan());
        assert_eq!(fourth_root(81.0), 3.0);
    }

    #[test]
    fn splitting_keeps_the_number_and_the_range() {
        for x in [0.75, 1.0, 1.5, 1.5_f64.next_down(), 100.0, 1e-300, f64::MAX] {
            let (m, e) = split(x);
            assert!((0.75..1.5).contains(&m));
            let half = e / 2;
            assert_eq!(m * 2.0_f64.powi(half) * 2.0_f64.powi(e - half), x);
        }
    }

    #[test]
    fn logarithms_are_close_and_have_their_domain() {
        assert_eq!(logarithm(1.0), 0.0);
        assert_eq!(logarithm(2.0), LN_2);
        for x in [0.0035_f64, 0.5, 0.75, 1.4999, 1.5, 8.0, 30.0, 1e300, f64::MIN_POSITIVE] {
            assert!((logarithm(x) - x.ln()).abs() <= 1e-14 * x.ln().abs().max(1.0));
        }
        for x in [0.0, -0.0, -1.0, 1e-310, f64::INFINITY, f64::NAN] {
            assert!(logarithm(x).is_nan());
        }
    }
}
