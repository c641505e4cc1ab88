//! Searches over first-generation Pokémon link battles: exact values of small games, and a fair bot.
//!
//! | For | Look at |
//! |---|---|
//! | values of positions with few members, between two bounds | [`Solver`], [`SolveOptions`], [`Interval`] |
//! | a choice from what one side knows | [`think`], [`ThinkOptions`], [`Thought`] |
//! | what the foe may have | [`Prior`] |
//! | the value at the leaf of a search | [`leaf`], [`playout`] |
//! | how probable a choice is before it was tried | [`expected`] |
//! | one game of choices made at once | [`matrix`] |
//! | battles between bots, and their ratings | `league` |
//!
//! Nothing here is proved. The engine under it is that of the crate [`gen1`].
//!
//! # Features
//!
//! `league`, which is on by default, has battles between bots, and needs `threads`, which uses rayon. `std` alone has the time budget of [`think`].
//! Without these the crate needs only an
//! allocator. The results are the same with any number of threads.
#![no_std]
#![forbid(unsafe_code)]
#![warn(missing_docs, missing_debug_implementations)]

extern crate alloc;
#[cfg(feature = "std")]
extern crate std;

pub mod expected;
pub mod leaf;
#[cfg(feature = "league")]
pub mod league;
pub mod matrix;
pub mod playout;
mod positions;
mod prior;
mod solve;
mod think;
mod tree;

pub use positions::{Pp, TableFault};
pub use prior::{Prior, PriorFault};
pub use solve::{Interval, Progress, SolveFault, SolveOptions, Solver, Stopped};
pub use think::{Considered, LEVELS, ThinkFault, ThinkOptions, Thought, choice_words, think};

/// A generator of random numbers (SplitMix64), whose numbers depend only on its seed.
#[derive(Clone, Debug, PartialEq, Eq)]
pub struct Dice(u64);

impl Dice {
    /// A generator with a seed.
    #[must_use]
    pub const fn new(seed: u64) -> Self {
        Dice(seed)
    }

    /// The next 64 bits.
    pub fn bits(&mut self) -> u64 {
        self.0 = self.0.wrapping_add(0x9e37_79b9_7f4a_7c15);
        let mut bits = self.0;
        bits = (bits ^ (bits >> 30)).wrapping_mul(0xbf58_476d_1ce4_e5b9);
        bits = (bits ^ (bits >> 27)).wrapping_mul(0x94d0_49bb_1331_11eb);
        bits ^ (bits >> 31)
    }

    /// A number below another; 0 below 0.
    pub fn below(&mut self, bound: usize) -> usize {
        ((u128::from(self.bits()) * bound as u128) >> 64) as usize
    }

    /// A number from 0 up to, but not including, 1.
    pub fn share(&mut self) -> f64 {
        (self.bits() >> 11) as f64 / (1u64 << 53) as f64
    }

    /// The place of one of some weights, each as probable as its weight; of all with the same probability if none is above 0.
    pub fn pick(&mut self, weights: &[f64]) -> usize {
        let sum: f64 = weights.iter().sum();
        if sum <= 0.0 {
            return self.below(weights.len());
        }
        let mut left = self.share() * sum;
        let mut last = 0;
        for (at, weight) in weights
            .iter()
            .enumerate()
            .filter(|(_, weight)| **weight > 0.0)
        {
            last = at;
            left -= weight;
            if left < 0.0 {
                break;
            }
        }
        last
    }

    /// Ten numbers for a battle to draw.
    pub fn numbers(&mut self) -> [u8; 10] {
        let (one, two) = (self.bits().to_le_bytes(), self.bits().to_le_bytes());
        core::array::from_fn(|at| if at < 8 { one[at] } else { two[at - 8] })
    }
}

/// Runs the example of the README as a test.
#[cfg(doctest)]
#[doc = include_str!("../README.md")]
struct Readme;
