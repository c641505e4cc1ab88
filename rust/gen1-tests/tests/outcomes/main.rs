//! The outcomes of an update with their weights, against worked cases, against all strings of bytes, and against samples.
//!
//! The second and third play the updates by the ordinary engine, with the test's generators. `cargo test --release --test outcomes --
//! --ignored` takes more positions and samples.
mod positions;
mod worked;

use gen1::generated::events::LogBuf;
use gen1::generated::layout::Packed;
use gen1::generated::machine::{Choice, Side};
use gen1::generated::outcomes::{
    OutcomeOptions, Outcomes, OutcomesFault, Successor, Ways, list_outcomes,
};
use gen1::generated::rolls::{ByteTest, Look, Rolls};
use std::collections::HashMap;

pub const ONE: Side = Side::One;
pub const TWO: Side = Side::Two;
/// Each damage of a roll is a separate outcome, and nothing is left out.
pub const ALL: OutcomeOptions = OutcomeOptions {
    damage_classes: 0,
    least: 0,
};

/// Independent bytes: xoshiro256**, a word for eight of them.
#[derive(Clone)]
pub struct Bytes {
    state: [u64; 4],
    word: u64,
    /// How many bytes of the word are left.
    pub left: u32,
}

impl Bytes {
    pub fn new(seed: u64) -> Self {
        let mut x = seed;
        let state = [0; 4].map(|_: u64| {
            x = x.wrapping_add(0x9E37_79B9_7F4A_7C15);
            let mut z = x;
            z = (z ^ (z >> 30)).wrapping_mul(0xBF58_476D_1CE4_E5B9);
            z = (z ^ (z >> 27)).wrapping_mul(0x94D0_49BB_1331_11EB);
            z ^ (z >> 31)
        });
        Bytes {
            state,
            word: 0,
            left: 0,
        }
    }

    pub fn next(&mut self) -> u64 {
        let s = &mut self.state;
        let result = s[1].wrapping_mul(5).rotate_left(7).wrapping_mul(9);
        let t = s[1] << 17;
        s[2] ^= s[0];
        s[3] ^= s[1];
        s[1] ^= s[2];
        s[0] ^= s[3];
        s[2] ^= t;
        s[3] = s[3].rotate_left(45);
        result
    }

    pub fn below(&mut self, n: usize) -> usize {
        ((u128::from(self.next()) * n as u128) >> 64) as usize
    }
}

impl Rolls for Bytes {
    fn draw(&mut self) -> u8 {
        if self.left == 0 {
            self.word = self.next();
            self.left = 8;
        }
        let byte = self.word as u8;
        self.word >>= 8;
        self.left -= 1;
        byte
    }

    // No number of draws holds every byte for certain. No search of this many fails in practice.
    fn until_as(&mut self, test: ByteTest, _look: Look) -> Option<u8> {
        (0..1 << 20)
            .map(|_| self.draw())
            .find(|&byte| test.passes(byte))
    }
}

/// A list of outcomes, in memory that grows as it has to.
pub struct List {
    pub successors: Vec<Successor>,
    table: Vec<u32>,
    pub outcomes: Outcomes,
}

impl List {
    pub fn of(battle: &Packed, one: Choice, two: Choice) -> Self {
        List::with(ALL, battle, one, two)
    }

    pub fn with(options: OutcomeOptions, battle: &Packed, one: Choice, two: Choice) -> Self {
        let mut places = 1 << 8;
        loop {
            let mut successors: Vec<Successor> = (0..places)
                .map(|_| Successor::new(battle.clone(), 0))
                .collect();
            let mut table = vec![0; 2 * places];
            match list_outcomes(battle, (one, two), options, &mut successors, &mut table) {
                Ok(outcomes) => {
                    successors.truncate(outcomes.count);
                    return List {
                        successors,
                        table,
                        outcomes,
                    };
                }
                Err(OutcomesFault::Places) => places *= 4,
                Err(fault) => panic!("{fault}"),
            }
        }
    }

    /// The weights by the bytes of the battles, which all differ.
    pub fn weights(&self) -> HashMap<&[u8], u128> {
        let weights: HashMap<_, _> = self
            .successors
            .iter()
            .map(|it| (it.battle.as_bytes(), it.weight()))
            .collect();
        assert_eq!(
            weights.len(),
            self.outcomes.count,
            "each battle is there once"
        );
        assert_eq!(
            weights.values().sum::<u128>() + self.outcomes.left_out,
            self.outcomes.whole
        );
        assert!(self.table.len() >= self.outcomes.count);
        weights
    }
}

/// A list has the battles that single ways lead to, each with the sum of their probabilities. Each of those ways plays the whole update.
pub fn expect_sums_of_ways(options: OutcomeOptions, battle: &Packed, one: Choice, two: Choice) {
    let list = List::with(options, battle, one, two);
    let weights = list.weights();
    let mut ways = Ways::new(battle, one, two, options).unwrap();
    let mut sums: HashMap<Vec<u8>, u128> = HashMap::new();
    let mut next = battle.clone();
    let mut played = 0;
    while let Some(chance) = ways.next(&mut next, &mut LogBuf::new()).unwrap() {
        assert_eq!(list.outcomes.whole % chance.whole, 0);
        *sums.entry(next.as_bytes().to_vec()).or_default() +=
            chance.num * (list.outcomes.whole / chance.whole);
        played += 1;
    }
    // A list goes through a miss of the second action once, whatever it would roll.
    assert!(list.outcomes.ways <= played);
    assert_eq!(sums.len(), weights.len());
    for (bytes, sum) in sums {
        assert_eq!(Some(&sum), weights.get(&bytes[..]));
    }
}

/// A fraction in its lowest terms.
pub type Fraction = (u128, u128);

pub fn reduced(num: u128, whole: u128) -> Fraction {
    let divisor = common_divisor(num, whole);
    (num / divisor, whole / divisor)
}

pub fn common_divisor(a: u128, b: u128) -> u128 {
    if b == 0 { a } else { common_divisor(b, a % b) }
}
