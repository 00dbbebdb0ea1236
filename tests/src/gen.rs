//! Random messages, texts, lists of cuts, numbers and books, the same ones for the same seed.

pub mod accepted;
pub mod books;
pub mod cuts;
pub mod damaged;
pub mod extreme;
pub mod lexicon;
pub mod noise;
pub mod numbers;
pub mod punctuated;
pub mod utf8;

pub use accepted::{message, message_of_any_length, word};
pub use cuts::{bad_cuts, every_list, good_cuts, BadCut};
pub use damaged::{damaged, Spot};
pub use extreme::extreme_messages;
pub use punctuated::punctuated;

/// A splitmix64 generator: short, and good enough for test material.
pub struct Rng(u64);

impl Rng {
    pub fn new(seed: u64) -> Self {
        Rng(seed)
    }

    /// A generator for a test: prints its seed, which the environment may replace.
    pub fn for_test(default_seed: u64) -> Self {
        let given = std::env::var("GOVORUN_SEED").ok();
        let seed = given
            .and_then(|text| text.parse().ok())
            .unwrap_or(default_seed);
        println!("seed {seed} (set GOVORUN_SEED to change it)");
        Rng::new(seed)
    }

    /// The next 64 random bits.
    pub fn bits(&mut self) -> u64 {
        self.0 = self.0.wrapping_add(0x9E37_79B9_7F4A_7C15);
        let mut mixed = self.0;
        mixed = (mixed ^ (mixed >> 30)).wrapping_mul(0xBF58_476D_1CE4_E5B9);
        mixed = (mixed ^ (mixed >> 27)).wrapping_mul(0x94D0_49BB_1331_11EB);
        mixed ^ (mixed >> 31)
    }

    /// A number below the bound, which must not be 0.
    pub fn below(&mut self, bound: usize) -> usize {
        (self.bits() % bound as u64) as usize
    }

    /// A number between the two bounds, both possible.
    pub fn between(&mut self, low: usize, high: usize) -> usize {
        low + self.below(high - low + 1)
    }

    /// True once in so many times.
    pub fn one_in(&mut self, times: usize) -> bool {
        self.below(times) == 0
    }

    pub fn pick<T: Copy>(&mut self, from: &[T]) -> T {
        from[self.below(from.len())]
    }
}
