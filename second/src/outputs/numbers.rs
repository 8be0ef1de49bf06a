//! The listing of the program `arithmetic`.

use super::hex;
use crate::arithmetic::{fourth_root, logarithm, power, root};

/// The most bytes of standard input that the program looks at.
pub const LIMIT: usize = 65_536;

/// Header, then a line for each whole record of 16 bytes.
pub fn listing(input: &[u8]) -> String {
    let read = &input[..input.len().min(LIMIT)];
    let mut text = String::from("x k power root fourth log finite\n");
    for record in read.chunks_exact(16) {
        text.push_str(&line(record));
    }
    text
}

fn line(record: &[u8]) -> String {
    let word = |at: usize| u64::from_le_bytes(record[at..at + 8].try_into().unwrap());
    let x = f64::from_bits(word(0));
    let k = word(8) as u8 as i8;
    let values = [x, power(x, k.into()), root(x), fourth_root(x), logarithm(x)].map(hex);
    let [x_hex, power, root, fourth, log] = values;
    let finite = u8::from(x.is_finite());
    format!("{x_hex} {k} {power} {root} {fourth} {log} {finite}\n")
}

#[cfg(test)]
mod tests {
    use super::*;

    fn record(x: f64, k: i8) -> Vec<u8> {
        [x.to_bits().to_le_bytes(), (k as u8 as u64).to_le_bytes()].concat()
    }

    #[test]
    fn a_line_for_each_whole_record() {
        let mut input = record(4.0, -1);
        input.extend(record(f64::NAN, 0));
        input.extend([0; 15]);
        let expected = "x k power root fourth log finite\n\
            4010000000000000 -1 3fd0000000000000 4000000000000000 3ff6a09e667f3bcd 3ff62e42fefa39ef 1\n\
            nan 0 3ff0000000000000 nan nan nan 0\n";
        assert_eq!(listing(&input), expected);
    }

    #[test]
    fn only_the_low_byte_is_the_exponent_and_the_limit_holds() {
        let mut input = 2.0_f64.to_bits().to_le_bytes().to_vec();
        input.extend(0xffff_ffff_ffff_ff02_u64.to_le_bytes());
        assert!(listing(&input).contains("\n4000000000000000 2 4010000000000000 "));
        assert_eq!(listing(&vec![0; 70_000]).lines().count(), 1 + 4096);
    }
}
