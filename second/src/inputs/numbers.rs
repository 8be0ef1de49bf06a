//! Standard input for the program `arithmetic`: records of two little-endian words,
//! the bits of x and an exponent k in the low byte of the second.

use super::random::Random;
use crate::arithmetic::power;

/// Exponents tried with every special number.
const EXPONENTS: [i8; 10] = [-128, -41, -3, -1, 0, 1, 2, 17, 58, 127];

/// Bit patterns of NaNs: quiet and signalling, both signs, lowest and highest payload.
pub const NANS: [u64; 6] = [
    0x7ff8_0000_0000_0000,
    0xfff8_0000_0000_0000,
    0x7ff0_0000_0000_0001,
    0xfff0_0000_0000_0001,
    0x7fff_ffff_ffff_ffff,
    0xffff_ffff_ffff_ffff,
];

/// Numbers at which an operation changes its manner, each tried with its neighbours.
const TURNING_POINTS: [f64; 22] = [
    0.0,
    -0.0,
    f64::MIN_POSITIVE,
    -f64::MIN_POSITIVE,
    1.0,
    -1.0,
    0.25,
    0.5,
    0.75,
    1.5,
    2.0,
    4.0,
    16.0,
    65536.0,
    9.0,
    1_522_756.0,
    9_007_199_136_250_225.0,
    1e-300,
    1e300,
    f64::MAX,
    f64::MIN,
    f64::INFINITY,
];

/// The special numbers crossed with the exponents, then `count` random records.
pub fn records(seed: u64, count: usize) -> Vec<u8> {
    let mut random = Random::new(seed);
    let mut bytes = Vec::new();
    for bits in special_bits() {
        for k in EXPONENTS {
            append(&mut bytes, bits, k as u8 as u64);
        }
    }
    for _ in 0..count {
        let (x, k) = match random.below(8) {
            0 => near_the_end_of_a_power(&mut random),
            _ => (number(&mut random), random.bits()),
        };
        append(&mut bytes, x.to_bits(), k);
    }
    bytes
}

fn append(bytes: &mut Vec<u8>, bits: u64, k: u64) {
    bytes.extend(bits.to_le_bytes());
    bytes.extend(k.to_le_bytes());
}

fn special_bits() -> Vec<u64> {
    let around = |x: f64| [x.next_down(), x, x.next_up()].map(f64::to_bits);
    let ends = [f64::NEG_INFINITY.to_bits(), 1 << 51, 0xc024_0000_0000_0000];
    let mut bits: Vec<u64> = TURNING_POINTS.into_iter().flat_map(around).collect();
    bits.extend(ends);
    bits.extend(NANS);
    bits
}

/// Any bits; a number near 1 whose powers stay finite; a square, a power of two or one and
/// a half times a power of two, each with its neighbours; a number whose root is hard to
/// round; a subnormal; or a number of everyday size.
fn number(random: &mut Random) -> f64 {
    match random.below(8) {
        0 => random.any(),
        1 => random.between(0.7, 1.6),
        2 => {
            let side = (random.bits() >> (38 + random.below(26))) as f64;
            random.next_to(side * side)
        }
        3 => {
            let exponent = 1 + random.below(2046) as u64;
            random.next_to(f64::from_bits(exponent << 52))
        }
        4 => {
            let exponent = 1 + random.below(2046) as u64;
            random.next_to(f64::from_bits(exponent << 52 | 1 << 51))
        }
        5 => square_of_a_middle(random),
        6 => f64::from_bits(random.bits() >> (12 + random.below(52))),
        _ => random.log_between(1e-6, 1e6),
    }
}

/// A number whose root is all but the middle between two f64s: m² − c for a small c and an
/// odd m of 54 binary digits such that m² − c has 53 digits and then zeros, times a power
/// of four.
fn square_of_a_middle(random: &mut Random) -> f64 {
    let small = random.bits() as i64 >> (24 + random.below(40));
    let c = 8 * i128::from(small) + 1;
    let mut m: i128 = 1;
    for digit in 3..55 {
        // Here 2^digit divides m² − c; adding half of that to m adds 2^digit to m².
        if (m * m - c) >> digit & 1 == 1 {
            m += 1 << (digit - 1);
        }
    }
    let m = if m < 1 << 53 { (1 << 54) - m } else { m };
    let exponent = 1023 - 800 + 2 * random.below(800) as u64;
    (m * m - c) as f64 * f64::from_bits(exponent << 52)
}

/// A number and an exponent whose power is about to overflow, to lose digits or to vanish.
fn near_the_end_of_a_power(random: &mut Random) -> (f64, u64) {
    let k = 2 + random.below(126) as i32;
    let k = random.pick(&[k, -k]);
    let end = random.pick(&[f64::MAX, f64::MIN_POSITIVE, 5e-324]);
    let (mut low, mut high) = (5e-324_f64.to_bits(), f64::MAX.to_bits());
    while low + 1 < high {
        let middle = low.midpoint(high);
        if (power(f64::from_bits(middle), k) < end) == (k > 0) {
            low = middle;
        } else {
            high = middle;
        }
    }
    let x = random.next_to(f64::from_bits(low));
    (random.pick(&[x, x, -x]), k as u8 as u64)
}

#[cfg(test)]
mod tests {
    use super::*;
    use crate::arithmetic::root;

    #[test]
    fn every_record_of_a_whole_input_is_looked_at() {
        assert!(records(1, 3000).len() <= 65_536);
        assert_eq!(records(1, 3000).len() % 16, 0);
    }

    #[test]
    fn roots_of_squares_of_middles_are_half_a_step_off() {
        let mut random = Random::new(5);
        for _ in 0..200 {
            let x = square_of_a_middle(&mut random);
            let found = root(x);
            let step = found.next_up() - found;
            let rest = (-found).mul_add(found, x).abs();
            assert!(x.is_normal());
            assert!((rest / (found * step) - 1.0).abs() < 1e-3, "{x:e}");
        }
    }

    #[test]
    fn powers_end_next_to_the_number_found() {
        let mut random = Random::new(6);
        let mut ends = [false; 3];
        for _ in 0..400 {
            let (x, k) = near_the_end_of_a_power(&mut random);
            let powers = [x.next_down(), x, x.next_up()].map(|x| power(x, k as u8 as i8 as i32));
            ends[0] |= powers.iter().any(|x| x.is_infinite());
            ends[1] |= powers.iter().any(|x| x.is_subnormal());
            ends[2] |= powers.contains(&0.0);
        }
        assert_eq!(ends, [true; 3]);
    }
}
