//! The one way a table of terms is summed (01, "How a sum is worked").

use crate::arithmetic::power;
use crate::tables::Term;

/// Σ (n · Aᴵ) · Bᴶ in table order, from 0.
pub fn sum(terms: &[Term], a: f64, b: f64) -> f64 {
    derivative(terms, a, b, 0, 0)
}

/// The sum's derivative, `in_a` times in A and `in_b` times in B: n is multiplied by
/// I, I − 1, .. and then by J, J − 1, ..; a term whose factor is 0 is left out.
pub fn derivative(terms: &[Term], a: f64, b: f64, in_a: i32, in_b: i32) -> f64 {
    let mut total = 0.0;
    for &(i, j, n) in terms {
        let factors = || falling(i, in_a).chain(falling(j, in_b));
        if factors().all(|factor| factor != 0) {
            let n = factors().fold(n, |n, factor| n * f64::from(factor));
            total += (n * power(a, i - in_a)) * power(b, j - in_b);
        }
    }
    total
}

/// The first `count` of the factors k, k − 1, k − 2, ..
fn falling(k: i32, count: i32) -> impl Iterator<Item = i32> {
    (0..count).map(move |less| k - less)
}

#[cfg(test)]
mod tests {
    use super::*;

    const TERMS: [Term; 3] = [(0, 2, 3.0), (2, -1, 5.0), (3, 1, 7.0)];

    #[test]
    fn a_sum_and_its_derivatives() {
        let (a, b) = (2.0, 4.0);
        assert_eq!(sum(&TERMS, a, b), 48.0 + 5.0 + 224.0);
        assert_eq!(derivative(&TERMS, a, b, 1, 0), 5.0 + 336.0);
        assert_eq!(derivative(&TERMS, a, b, 0, 1), 24.0 - 1.25 + 56.0);
        assert_eq!(derivative(&TERMS, a, b, 2, 0), 2.5 + 336.0);
        assert_eq!(derivative(&TERMS, a, b, 0, 2), 6.0 + 0.625);
        assert_eq!(derivative(&TERMS, a, b, 1, 1), -1.25 + 84.0);
    }

    #[test]
    fn a_term_with_factor_zero_is_left_out() {
        assert_eq!(derivative(&[(1, 0, 1.0)], f64::NAN, f64::NAN, 2, 0), 0.0);
        assert_eq!(derivative(&[(1, 0, 1.0)], 2.0, f64::INFINITY, 0, 1), 0.0);
    }
}
