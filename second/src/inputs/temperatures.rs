//! Standard input for the program `saturation`: words of eight bytes, the bits of a
//! temperature each.

use super::damage;
use super::numbers::NANS;
use super::points::{around_all, STRANGE};
use super::random::Random;
use crate::outputs::MOST_TEMPERATURES;
use crate::saturation::{T_13, T_CRITICAL, T_LOWEST};
use crate::tables::A11;

/// Temperatures at which the answer turns, and the last number of Table A11, n10, at which
/// its equation divides by zero.
const ENDS: [f64; 4] = [T_LOWEST, T_13, T_CRITICAL, A11[9]];

/// How many f64s away from an end a temperature is tried.
const STEPS: [u64; 7] = [0, 1, 2, 3, 10, 100, 1000];

/// Temperatures on the line, above it, and at which regions end.
const OTHERS: [f64; 12] =
    [300.0, 500.0, 600.0, 625.0, 640.0, 645.0, 648.0, 650.0, 700.0, 863.15, 1073.15, 2273.15];

/// `count` temperatures, at most as many as the program takes. The special ones come first:
/// all of them or, in a short input, as many as are half of it, going on where those of the
/// seed before ended. The others are drawn.
pub fn words(seed: u64, count: usize) -> Vec<u8> {
    let mut random = Random::new(seed);
    let special = special_bits();
    let chosen = special.len().min(count / 2);
    let first = (seed % special.len() as u64) as usize * chosen;
    let mut bytes = Vec::new();
    for index in 0..count.min(MOST_TEMPERATURES) {
        let bits = if index < chosen {
            special[(first + index) % special.len()]
        } else {
            drawn(&mut random).to_bits()
        };
        bytes.extend(bits.to_le_bytes());
    }
    bytes
}

/// More than the program takes, in turn of the seeds: by a byte, by a word, by any number of
/// bytes from a word on.
pub fn too_many(seed: u64, count: usize, random: &mut Random) -> Vec<u8> {
    let most = 8 * MOST_TEMPERATURES;
    let mut bytes = damage::longer(words(seed, count), most + 7, random);
    bytes.truncate(match seed % 3 {
        0 => most + 1,
        1 => most + 8,
        _ => bytes.len(),
    });
    bytes
}

/// Every end with the f64s near it, and negated; other temperatures with those next to them;
/// numbers that are no temperatures.
fn special_bits() -> Vec<u64> {
    let near = |t: f64| STEPS.map(|step| [t.to_bits() - step, t.to_bits() + step]);
    let mut bits: Vec<u64> = ENDS.into_iter().flat_map(near).flatten().collect();
    bits.extend(ENDS.map(|t| (-t).to_bits()));
    bits.extend(around_all(&OTHERS).into_iter().map(f64::to_bits));
    bits.extend(STRANGE.map(f64::to_bits));
    bits.extend(NANS);
    bits
}

/// Anywhere on the line up to 623.15 K, or from there on; near an end; of any bits; or of
/// any size.
fn drawn(random: &mut Random) -> f64 {
    match random.below(8) {
        0 | 1 => random.between(T_LOWEST, T_13),
        2 | 3 => random.between(T_13, T_CRITICAL),
        4 | 5 => {
            let off = random.log_between(1e-12, 1e-1);
            random.pick(&ENDS) + random.pick(&[off, -off])
        }
        6 => random.any(),
        _ => random.log_between(1e-3, 1e6),
    }
}

#[cfg(test)]
mod tests {
    use super::*;
    use crate::outputs;
    use crate::Program;
    use std::collections::BTreeSet;

    fn temperatures(bytes: &[u8]) -> Vec<u64> {
        bytes.chunks_exact(8).map(|word| u64::from_le_bytes(word.try_into().unwrap())).collect()
    }

    #[test]
    fn there_are_as_many_as_asked_and_as_the_program_takes() {
        for count in [0, 1, 2, 30, 3000, 8191, 8192] {
            assert_eq!(words(1, count).len(), 8 * count);
        }
        assert_eq!(words(1, 8193), words(1, 8192));
        let text = outputs::of(Program::Saturation, &words(1, 8192));
        assert_eq!(text.lines().count(), 1 + 8192);
    }

    #[test]
    fn all_special_ones_are_in_a_long_input_and_in_consecutive_short_ones() {
        let all: BTreeSet<u64> = special_bits().into_iter().collect();
        let long: BTreeSet<u64> = temperatures(&words(5, 3000)).into_iter().collect();
        assert!(all.is_subset(&long));
        let seeds = 0..=all.len() as u64 / 10;
        let short: BTreeSet<u64> = seeds.flat_map(|seed| temperatures(&words(seed, 20))).collect();
        assert!(all.is_subset(&short));
    }

    /// A byte and a word above the limit are among the first six.
    #[test]
    fn too_many_are_so_by_a_byte_by_a_word_or_by_more() {
        let lengths: Vec<usize> =
            (1..=6).map(|seed| too_many(seed, 30, &mut Random::new(seed)).len()).collect();
        assert_eq!([lengths[2], lengths[5]], [65_537; 2]);
        assert_eq!([lengths[0], lengths[3]], [65_544; 2]);
        assert!(lengths.iter().all(|&length| length > 65_536));
    }

    #[test]
    fn drawn_ones_come_close_to_every_end_from_both_sides() {
        let mut random = Random::new(4);
        let drawn: Vec<f64> = (0..10_000).map(|_| drawn(&mut random)).collect();
        let many = |test: &dyn Fn(f64) -> bool| drawn.iter().filter(|&&t| test(t)).count() > 10;
        for end in ENDS {
            for far in [1e-11, 1e-9, 1e-7, 1e-5, 1e-3, 1e-1] {
                let near = |off: f64| off > 0.01 * far && off < far;
                assert!(many(&|t| near(t - end)) && many(&|t| near(end - t)), "{end} {far}");
            }
        }
        assert!(many(&f64::is_nan) && many(&f64::is_infinite) && many(&f64::is_subnormal));
        assert!(many(&|t| t > T_LOWEST && t < 400.0) && many(&|t| t > 640.0 && t < 646.0));
    }
}
