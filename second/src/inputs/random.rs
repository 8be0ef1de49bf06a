//! Numbers that look random and are the same everywhere: the splitmix64 generator
//! and what is drawn from it. Only whole-number and plain f64 operations are used.

/// A generator with its own state; equal seeds give equal sequences.
pub struct Random(u64);

impl Random {
    pub fn new(seed: u64) -> Self {
        Random(seed)
    }

    /// The next 64 bits (splitmix64).
    pub fn bits(&mut self) -> u64 {
        self.0 = self.0.wrapping_add(0x9e37_79b9_7f4a_7c15);
        let mixed = (self.0 ^ (self.0 >> 30)).wrapping_mul(0xbf58_476d_1ce4_e5b9);
        let mixed = (mixed ^ (mixed >> 27)).wrapping_mul(0x94d0_49bb_1331_11eb);
        mixed ^ (mixed >> 31)
    }

    /// A whole number below `limit`.
    pub fn below(&mut self, limit: usize) -> usize {
        (self.bits() % limit as u64) as usize
    }

    /// So many bytes.
    pub fn bytes(&mut self, length: usize) -> Vec<u8> {
        (0..length).map(|_| self.bits() as u8).collect()
    }

    /// Any bits, the bits of any number, or a whole number that is small or a power of two.
    pub fn word(&mut self) -> u64 {
        match self.below(4) {
            0 => self.bits(),
            1 => self.any().to_bits(),
            2 => self.below(53) as u64,
            _ => 1 << self.below(64),
        }
    }

    /// One of the given things.
    pub fn pick<T: Copy>(&mut self, things: &[T]) -> T {
        things[self.below(things.len())]
    }

    /// Uniform in `low` to `high`.
    pub fn between(&mut self, low: f64, high: f64) -> f64 {
        let unit = (self.bits() >> 11) as f64 / (1_u64 << 53) as f64;
        low + (high - low) * unit
    }

    /// About log-uniform in `low` to `high`, both positive: uniform in the bits.
    pub fn log_between(&mut self, low: f64, high: f64) -> f64 {
        let (low, high) = (low.to_bits(), high.to_bits());
        f64::from_bits(low + self.bits() % (high - low + 1))
    }

    /// The number itself or one of the two next to it.
    pub fn next_to(&mut self, x: f64) -> f64 {
        self.pick(&[x.next_down(), x, x.next_up()])
    }

    /// The number itself, one of the two next to it, or one off by 10⁻⁹ to |far|; of these
    /// two in three lie to the side that the sign of `far` says.
    pub fn near(&mut self, x: f64, far: f64) -> f64 {
        match self.below(4) {
            0 => self.next_to(x),
            1 => x - self.log_between(1e-9, far.abs()).copysign(far),
            _ => x + self.log_between(1e-9, far.abs()).copysign(far),
        }
    }

    /// A number with any bits whatever; one in four is infinite or a NaN, one in four
    /// zero or subnormal.
    pub fn any(&mut self) -> f64 {
        const EXPONENT: u64 = 0x7ff << 52;
        let bits = self.bits();
        f64::from_bits(match self.below(8) {
            0 => bits | EXPONENT,
            1 => (bits | EXPONENT) & !(u64::MAX >> 12),
            2 => bits & !EXPONENT,
            3 => bits & !EXPONENT & !(u64::MAX >> 12),
            _ => bits,
        })
    }
}

#[cfg(test)]
mod tests {
    use super::*;

    #[test]
    fn the_sequence_is_splitmix64() {
        let mut random = Random::new(0);
        assert_eq!(random.bits(), 0xe220_a839_7b1d_cdaf);
        assert_eq!(random.bits(), 0x6e78_9e6a_a1b9_65f4);
    }

    #[test]
    fn more_of_the_numbers_near_another_lie_to_the_side_asked_for() {
        let mut random = Random::new(2);
        let near: Vec<f64> = (0..1200).map(|_| random.near(50.0, -0.01)).collect();
        assert!(near.iter().all(|x| (x - 50.0).abs() < 0.0101));
        let below = near.iter().filter(|&&x| x < 50.0).count();
        assert!((650..750).contains(&below), "{below}");
    }

    #[test]
    fn draws_stay_in_their_ranges() {
        let mut random = Random::new(1);
        let mut seen = [false; 4];
        for _ in 0..1000 {
            let any = random.any();
            seen[0] |= any.is_nan();
            seen[1] |= any.is_infinite();
            seen[2] |= any.is_subnormal();
            seen[3] |= any == 0.0;
            assert!((2.0..=3.0).contains(&random.between(2.0, 3.0)));
            assert!((1e-6..=100.0).contains(&random.log_between(1e-6, 100.0)));
            assert!(random.below(7) < 7);
        }
        assert_eq!(seen, [true; 4]);
    }
}
