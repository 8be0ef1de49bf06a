//! The listing of the program `saturation`: what a direct call of ps(T) gives at each T.
//! Standard input is little-endian words of eight bytes, the bits of a T each, and has at
//! most 65,536 bytes; a longer one, or one that is no whole number of words, prints only
//! `bad input`. A line has four fields with one space between:
//!
//!     ROW ANSWER PLACE P
//!
//! ROW is the word's number from 1. ANSWER is the refusal, 0 if there is none. PLACE is 1 up
//! to 623.15 K, 2 above that, and 0 if refused. P is the pressure, `-` if refused.

use super::hex;
use crate::refusals::Refusal;
use crate::saturation::placed_pressure;

/// The most temperatures that the program takes.
pub const MOST_TEMPERATURES: usize = 8_192;
/// The most bytes of standard input that the program takes.
pub const LIMIT: usize = MOST_TEMPERATURES * WORD;
/// The bytes of a temperature.
const WORD: usize = 8;

/// Header, then a line for each word.
pub fn listing(input: &[u8]) -> String {
    if input.len() > LIMIT || !input.len().is_multiple_of(WORD) {
        return "bad input\n".into();
    }
    let mut text = String::from("row answer place p\n");
    for (number, word) in (1..).zip(input.chunks_exact(WORD)) {
        let t = f64::from_bits(u64::from_le_bytes(word.try_into().unwrap()));
        let (refusal, place, p) = match placed_pressure(t) {
            Ok((place, ps)) => (0, place, hex(ps)),
            Err(Refusal(number)) => (number, 0, "-".into()),
        };
        text.push_str(&format!("{number} {refusal} {place} {p}\n"));
    }
    text
}

#[cfg(test)]
mod tests {
    use super::*;

    fn words(temperatures: &[f64]) -> Vec<u8> {
        temperatures.iter().flat_map(|t| t.to_bits().to_le_bytes()).collect()
    }

    #[test]
    fn a_line_for_each_temperature() {
        let input = words(&[623.15, 623.15_f64.next_up(), 700.0, 0.0, f64::NAN, f64::INFINITY]);
        let expected = "row answer place p\n\
            1 0 1 403087774ef72605\n\
            2 0 2 403087774ef72626\n\
            3 3 0 -\n\
            4 3 0 -\n\
            5 1 0 -\n\
            6 1 0 -\n";
        assert_eq!(listing(&input), expected);
        assert_eq!(listing(&[]), "row answer place p\n");
    }

    #[test]
    fn only_whole_words_up_to_the_limit_are_taken() {
        for length in [1, 7, 9, 15, LIMIT - 1, LIMIT + 1, LIMIT + 8, 2 * LIMIT] {
            assert_eq!(listing(&vec![0; length]), "bad input\n", "{length}");
        }
        let longest = listing(&vec![0; 65_536]);
        assert_eq!(longest.lines().count(), 1 + 8192);
        assert!(longest.ends_with("\n8192 3 0 -\n"));
    }
}
