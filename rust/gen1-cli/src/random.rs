//! Random numbers for players and measurements. A battle has its own.
use gen1::{DrawnFrom, Offered, OfferedMask, Team, random_team};
use gen1_search::Dice;
use std::hash::{BuildHasher, RandomState};

/// A generator with a seed, or with a different one in each run.
pub fn dice(seed: Option<u64>) -> Dice {
    Dice::new(seed.unwrap_or_else(|| RandomState::new().hash_one(())))
}

/// One of the items; `None` if there is none.
pub fn one_of<'a, T>(items: &'a [T], dice: &mut Dice) -> Option<&'a T> {
    items.get(dice.below(items.len()))
}

/// One of the choices that are offered; `None` once the battle is over.
pub fn choice(offered: OfferedMask, dice: &mut Dice) -> Option<Offered> {
    offered.get(dice.below(offered.len()))
}

/// A random team of 1 to 6 members, of all species and moves.
pub fn team(members: u8, dice: &mut Dice) -> Team {
    random_team(dice.bits(), members.clamp(1, 6), DrawnFrom::All).expect("one to six members")
}
