//! Random numbers that are the same in every run.

/// The variable that names another seed.
const SEED_VARIABLE: &str = "WAKKEMOSUT_SEED";

/// The seed where none is named.
const USUAL_SEED: u64 = 20_260_101;

/// Numbers at which an answer may change, or a sum or product may overflow.
const LIMITS: [u64; 12] = [
    0,
    57,
    256,
    9 * 256,
    393_216,
    1 << 32,
    1 << 61,
    1 << 62,
    1 << 63,
    u64::MAX / 6,
    u64::MAX / 3,
    u64::MAX - 4,
];

/// Numbers at the limits of half a word.
const HALF_LIMITS: [u64; 4] = [0, 1, (1 << 32) - 2, (1 << 32) - 1];

/// The seed of this run.
pub fn seed() -> u64 {
    match std::env::var(SEED_VARIABLE) {
        Ok(text) => text
            .parse()
            .unwrap_or_else(|_| panic!("{SEED_VARIABLE} is not a number: {text}")),
        Err(_) => USUAL_SEED,
    }
}

/// A source of random numbers (splitmix64).
#[derive(Clone, Debug)]
pub struct Random {
    state: u64,
}

impl Random {
    /// The source that starts from this seed.
    pub fn new(seed: u64) -> Self {
        Self { state: seed }
    }

    /// The source that starts from the seed of this run, which is printed.
    pub fn of_this_run() -> Self {
        let seed = seed();
        println!("seed {seed}");
        Self::new(seed)
    }

    /// The next number.
    pub fn number(&mut self) -> u64 {
        self.state = self.state.wrapping_add(0x9E37_79B9_7F4A_7C15);
        let mixed = (self.state ^ (self.state >> 30)).wrapping_mul(0xBF58_476D_1CE4_E5B9);
        let mixed = (mixed ^ (mixed >> 27)).wrapping_mul(0x94D0_49BB_1331_11EB);
        mixed ^ (mixed >> 31)
    }

    /// The next number, under a bound.
    pub fn below(&mut self, bound: u64) -> u64 {
        self.number() % bound
    }

    /// The next one out of these.
    pub fn pick<T: Copy>(&mut self, items: &[T]) -> T {
        items[self.below(items.len() as u64) as usize]
    }

    /// The next word: small, near a limit, of any size, with each half at a limit of its own, or
    /// any number at all.
    pub fn word(&mut self) -> u64 {
        match self.below(5) {
            0 => self.below(12),
            1 => self
                .pick(&LIMITS)
                .wrapping_add(self.below(5))
                .wrapping_sub(2),
            2 => self.number() >> self.below(64),
            3 => self.pick(&HALF_LIMITS) + (self.pick(&HALF_LIMITS) << 32),
            _ => self.number(),
        }
    }

    /// The next octets, as many as asked for.
    pub fn octets(&mut self, count: usize) -> Vec<u8> {
        (0..count).map(|_| self.number().to_be_bytes()[0]).collect()
    }
}

#[cfg(test)]
mod tests {
    use super::*;

    #[test]
    fn the_numbers_are_those_of_splitmix64() {
        let mut random = Random::new(1_234_567);
        let numbers = [random.number(), random.number(), random.number()];
        let published = [
            6_457_827_717_110_365_317,
            3_203_168_211_198_807_973,
            9_817_491_932_198_370_423,
        ];
        assert_eq!(numbers, published);
    }

    #[test]
    fn octets_are_as_many_as_asked_for() {
        assert_eq!(Random::new(1).octets(17).len(), 17);
        assert_eq!(Random::new(1).octets(0), []);
    }

    #[test]
    fn a_number_below_a_bound_takes_every_value() {
        let mut random = Random::new(1);
        let mut met = [false; 5];
        (0..100).for_each(|_| met[random.below(5) as usize] = true);
        assert_eq!(met, [true; 5]);
    }

    #[test]
    fn words_come_near_both_ends() {
        let mut random = Random::new(1);
        let words: Vec<u64> = (0..1_000).map(|_| random.word()).collect();
        for word in [0, 1, 11, u64::MAX - 1, u64::MAX] {
            assert!(words.contains(&word), "{word}");
        }
    }

    #[test]
    fn both_halves_of_a_word_come_near_both_ends() {
        let mut random = Random::new(1);
        let words: Vec<u64> = (0..1_000).map(|_| random.word()).collect();
        for lower in [0, 1, 0xFFFF_FFFE, 0xFFFF_FFFF] {
            for upper in [0, 1, 0xFFFF_FFFE, 0xFFFF_FFFF] {
                assert!(words.contains(&(lower + (upper << 32))), "{lower} {upper}");
            }
        }
    }
}
