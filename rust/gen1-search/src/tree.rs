//! A search tree of choices that both sides make at once.
//!
//! Each pass draws numbers for a fork, and plays choices until it meets a position without a node, whose leaf value goes back along the
//! pass. Each side chooses by what its own choices got, as if the foe's choice were one of the draws: a node has numbers for each choice
//! and not for each pair, so few passes tell the choices apart. Battles that share a node have the same members out, with the same moves,
//! status, stages and conditions, and HP in the same eighth; which numbers were drawn on the way makes no difference otherwise.
use crate::Dice;
use crate::leaf;
use crate::matrix::CHOICES;
use crate::playout::{BITS, Policy, bits};
use alloc::vec::Vec;
use core::num::NonZeroUsize;
use core::ops::Range;
use gen1::layout::{self, active, member};
use gen1::{ArrayVec, Battle, OfferedMask, Side};

/// The most updates of one pass.
const DEPTH: usize = 64;
/// Up to so many nodes have their memory from the start. A search by time, which may have any number, takes it as it is needed.
const MOST_EXPECTED: u64 = 1 << 16;
/// How much a side explores: with less, the tree is deeper and narrower.
const EXPLORED: f32 = 0.4;

/// A choice of a side at a node: how much of the side's play it is expected to be, how often the side made it, and the sum of what the
/// side got.
#[derive(Clone, Copy, Debug, Default)]
struct Arm {
    expected: f32,
    made: f32,
    got: f32,
}

impl Arm {
    fn learn(&mut self, value: f32) {
        self.made += 1.0;
        self.got += value;
    }
}

/// Where the arms of a node begin, side 1's first, and how many choices each side has. A node gets arms when it is met again: most nodes
/// never are.
#[derive(Clone, Copy, Debug)]
struct Node {
    begin: Option<NonZeroUsize>,
    rows: u8,
    columns: u8,
}

impl Node {
    fn sizes(self) -> (usize, usize) {
        (usize::from(self.rows), usize::from(self.columns))
    }
}

/// A node on the way of a pass, with the choices made there.
#[derive(Clone, Copy)]
struct Step {
    node: usize,
    one: usize,
    two: usize,
}

/// Statistics of passes from the root.
#[derive(Clone, Copy, Debug, Default)]
pub struct Sum {
    pub count: u64,
    pub sum: f64,
}

impl Sum {
    pub fn add(&mut self, value: f64) {
        self.count += 1;
        self.sum += value;
    }

    pub fn mean(&self) -> Option<f64> {
        (self.count > 0).then(|| self.sum / self.count as f64)
    }
}

/// The numbers of the side that thinks at the root, which are the same for all guesses.
#[derive(Clone, Debug)]
pub struct Root {
    arms: Vec<Arm>,
    passes: f64,
    /// How often each choice was made, each time with the number of its pass as its weight: later passes know more.
    pub strategy: Vec<f64>,
    /// What the side that thinks got with each choice, in the second half of the passes.
    pub got: Vec<Sum>,
}

impl Root {
    /// Notes what the side that thinks got with a choice.
    fn learn(&mut self, choice: usize, value: f32) {
        self.arms[choice].learn(value);
        self.passes += 1.0;
        self.strategy[choice] += self.passes;
    }
}

/// A tree over some guesses of a battle.
///
/// The lists are dropped in the reverse of the order in which they are made, and the longest one is the last to be made: the module for
/// pages has an allocator that can free and extend only what it handed out last.
pub struct Tree<'a> {
    side: Side,
    guesses: &'a [Battle],
    arms: Vec<Arm>,
    /// Open addressing by the hash of a node: the hash, and the number of the node.
    slots: Vec<(u64, u32)>,
    nodes: Vec<Node>,
    pub root: Root,
    policies: Vec<Policy>,
    dice: Dice,
}

impl<'a> Tree<'a> {
    /// A tree without passes, with memory for so many nodes. In each guess `side` is offered the same number of choices.
    pub fn new(side: Side, guesses: &'a [Battle], seed: u64, nodes: u64) -> Self {
        let choices = guesses.first().map_or(0, |it| it.offered_mask(side).len());
        let expected = if nodes <= MOST_EXPECTED {
            nodes as usize
        } else {
            0
        };
        Tree {
            side,
            guesses,
            policies: guesses.iter().map(Policy::of).collect(),
            root: Root {
                arms: alloc::vec![Arm::default(); choices],
                passes: 0.0,
                strategy: alloc::vec![0.0; choices],
                got: alloc::vec![Sum::default(); choices],
            },
            nodes: Vec::with_capacity(expected),
            slots: alloc::vec![(0, 0); (2 * expected + 1).next_power_of_two().max(1 << 10)],
            // No node begins at 0.
            arms: alloc::vec![Arm::default()],
            dice: Dice::new(seed),
        }
    }

    /// One pass; what the side that thinks got. `counts` says whether that is part of what its choice got.
    pub fn pass(&mut self, counts: bool) -> f64 {
        let guess = self.dice.below(self.guesses.len());
        let mut battle = self.guesses[guess].clone();
        battle.reseed(self.dice.numbers());
        let steps = self.played(&mut battle, guess);
        let value = self.policies[guess].value(&battle, &mut self.dice);
        for (at, step) in steps.iter().enumerate().rev() {
            self.learn(*step, value as f32, at == 0);
        }
        let got = match self.side {
            Side::One => value,
            Side::Two => 1.0 - value,
        };
        if let Some(step) = steps.first().filter(|_| counts) {
            let choice = match self.side {
                Side::One => step.one,
                Side::Two => step.two,
            };
            self.root.got[choice].add(got);
        }
        got
    }

    /// Plays a battle of a guess from the root to its end, or to a position that had no node.
    fn played(&mut self, battle: &mut Battle, guess: usize) -> ArrayVec<Step, DEPTH> {
        let mut steps = ArrayVec::new();
        let mut way = 0;
        while !steps.is_full() {
            let [ones, twos] = Side::BOTH.map(|side| battle.offered_mask(side));
            if ones.is_empty() {
                break;
            }
            let class = class(battle, way, ones, twos);
            let Some(node) = self.node(class, ones.len(), twos.len()) else {
                break;
            };
            if self.nodes[node].begin.is_none() {
                let [first, second] = self.policies[guess].weights(battle);
                self.nodes[node].begin = NonZeroUsize::new(self.arms.len());
                self.arms.extend(begun(&first, ones));
                self.arms.extend(begun(&second, twos));
            }
            let [one, two] = self.chosen(node, steps.is_empty());
            steps.push(Step { node, one, two });
            let (Some(first), Some(second)) = (ones.get(one), twos.get(two)) else {
                break;
            };
            if battle.update_silent(first, second).is_err() {
                break;
            }
            way = way_from(node, one, two);
        }
        steps
    }

    /// The node of a class. A class that is met for the first time gets a node, and `None` is returned, unless it is the root.
    fn node(&mut self, class: u64, rows: usize, columns: usize) -> Option<usize> {
        let mask = self.slots.len() - 1;
        let mut slot = class as usize & mask;
        loop {
            let (hash, number) = self.slots[slot];
            if number == 0 {
                break;
            }
            let at = number as usize - 1;
            if hash == class && self.nodes[at].sizes() == (rows, columns) {
                return Some(at);
            }
            slot = (slot + 1) & mask;
        }
        let node = Node {
            begin: None,
            rows: rows as u8,
            columns: columns as u8,
        };
        self.nodes.push(node);
        self.slots[slot] = (class, self.nodes.len() as u32);
        if 2 * self.nodes.len() > self.slots.len() {
            self.grow();
        }
        None
    }

    fn grow(&mut self) {
        let more = alloc::vec![(0, 0); 2 * self.slots.len()];
        let old = core::mem::replace(&mut self.slots, more);
        let mask = self.slots.len() - 1;
        for (hash, number) in old.into_iter().filter(|(_, number)| *number > 0) {
            let mut slot = hash as usize & mask;
            while self.slots[slot].1 > 0 {
                slot = (slot + 1) & mask;
            }
            self.slots[slot] = (hash, number);
        }
    }

    /// The choice of each side. At the root that of the side that thinks is by the arms of all guesses.
    fn chosen(&mut self, node: usize, is_root: bool) -> [usize; 2] {
        if is_root && self.root.passes == 0.0 {
            let own = self.own_arms(node);
            self.root.arms.copy_from_slice(&self.arms[own]);
        }
        let [one, two] = self.arms_of(node);
        let both = match (is_root, self.side) {
            (false, _) => [one, two],
            (true, Side::One) => [&self.root.arms, two],
            (true, Side::Two) => [one, &self.root.arms],
        };
        both.map(picked)
    }

    /// Where the arms of the side that thinks are.
    fn own_arms(&self, node: usize) -> Range<usize> {
        let (rows, columns) = self.nodes[node].sizes();
        let begin = self.nodes[node].begin.map_or(0, NonZeroUsize::get);
        match self.side {
            Side::One => begin..begin + rows,
            Side::Two => begin + rows..begin + rows + columns,
        }
    }

    /// The arms of each side at a node.
    fn arms_of(&self, node: usize) -> [&[Arm]; 2] {
        let (rows, columns) = self.nodes[node].sizes();
        let begin = self.nodes[node].begin.map_or(0, NonZeroUsize::get);
        let (one, two) = self.arms[begin..][..rows + columns].split_at(rows);
        [one, two]
    }

    /// Notes what side 1 got by a pass through a node.
    fn learn(&mut self, step: Step, value: f32, is_root: bool) {
        let (rows, _) = self.nodes[step.node].sizes();
        let begin = self.nodes[step.node].begin.map_or(0, NonZeroUsize::get);
        self.arms[begin + step.one].learn(value);
        self.arms[begin + rows + step.two].learn(1.0 - value);
        if is_root {
            match self.side {
                Side::One => self.root.learn(step.one, value),
                Side::Two => self.root.learn(step.two, 1.0 - value),
            }
        }
    }

    /// The node of a battle that was reached by a way, and how often each side made each of its choices there; `None` without passes.
    pub fn made(&self, battle: &Battle, way: u64) -> Option<(usize, [Vec<f32>; 2])> {
        let [ones, twos] = Side::BOTH.map(|side| battle.offered_mask(side));
        let class = class(battle, way, ones, twos);
        let mask = self.slots.len() - 1;
        let mut slot = class as usize & mask;
        while self.slots[slot].0 != class || self.slots[slot].1 == 0 {
            if self.slots[slot].1 == 0 {
                return None;
            }
            slot = (slot + 1) & mask;
        }
        let at = self.slots[slot].1 as usize - 1;
        self.nodes[at].begin?;
        if self.nodes[at].sizes() != (ones.len(), twos.len()) {
            return None;
        }
        let made = |arms: &[Arm]| arms.iter().map(|it| it.made).collect();
        Some((at, self.arms_of(at).map(made)))
    }
}

/// The way from a node by a pair of choices.
pub fn way_from(node: usize, one: usize, two: usize) -> u64 {
    mixed(node as u64 + 1, (one * 16 + two) as u64)
}

/// The arms of a side at a node that is met again, with how probable choices are as weights by their bits.
fn begun(of_bits: &[f32; BITS], offered: OfferedMask) -> impl Iterator<Item = Arm> + use<> {
    /// How much of the expectation all choices have alike.
    const EVEN: f32 = 0.1;
    let mut weights: ArrayVec<f32, CHOICES> = ArrayVec::new();
    weights.extend(bits(offered).map(|at| of_bits[at]));
    let (sum, even) = (weights.iter().sum::<f32>(), EVEN / weights.len() as f32);
    weights.into_iter().map(move |weight| Arm {
        expected: even + (1.0 - EVEN) * weight / sum,
        ..Arm::default()
    })
}

/// The choice with the greatest sum of its mean value and its bound, which is the greater the more often it is expected and the less
/// often it was made. One that was never made has the mean of all.
fn picked(arms: &[Arm]) -> usize {
    if arms.len() < 2 {
        return 0;
    }
    let (made, got) = arms
        .iter()
        .fold((0.0, 0.0), |(made, got), it| (made + it.made, got + it.got));
    let mean = if made > 0.0 { got / made } else { 0.5 };
    let width = EXPLORED * root(made + 1.0);
    let (mut best, mut most) = (0, f32::NEG_INFINITY);
    for (at, arm) in arms.iter().enumerate() {
        let value = if arm.made > 0.0 {
            arm.got / arm.made
        } else {
            mean
        };
        let sum = value + width * arm.expected / (1.0 + arm.made);
        if sum > most {
            (best, most) = (at, sum);
        }
    }
    best
}

/// The square root of a number from 1, at most 0.2 % off: half of its exponent, and one of Newton's steps. There is none without std.
fn root(square: f32) -> f32 {
    let near = f32::from_bits((square.to_bits() + 0x3f80_0000) >> 1);
    0.5 * (near + square / near)
}

/// The class of a battle that was reached by a way: battles of one class share a node.
fn class(battle: &Battle, way: u64, ones: OfferedMask, twos: OfferedMask) -> u64 {
    let bytes = battle.as_bytes();
    let mut mixture = mixed(way, u64::from(ones.bits()) << 16 | u64::from(twos.bits()));
    for side in Side::BOTH {
        let (members, block) = bytes[layout::side(side)..][..layout::SIDE].split_at(layout::ACTIVE);
        let place = usize::from(block[active::PLACE]);
        // The place, types and stages, which are the first nine bytes; conditions without the Substitute's HP and hidden counts.
        mixture = mixed(mixture, word(&block[..8]) ^ u64::from(block[8]) << 56);
        mixture = mixed(mixture, u64::from(leaf::conditions(block)));
        if let Some(at) = place.checked_sub(1) {
            mixture = mixed(
                mixture,
                word_of(&members[layout::MEMBER * at..][..layout::MEMBER]),
            );
        }
    }
    mixture
}

/// The species, moves, status and eighth of HP of a member.
fn word_of(bytes: &[u8]) -> u64 {
    let number = |at: usize| u32::from(u16::from_le_bytes([bytes[at], bytes[at + 1]]));
    let eighth = (8 * number(member::HP)).div_ceil(number(member::MAX_HP).max(1));
    // All counts of sleep are one status.
    let status = match bytes[member::STATUS] {
        1..8 => 1,
        other => other,
    };
    let rest = u64::from(bytes[member::SPECIES]) << 16 | u64::from(status) << 8 | u64::from(eighth);
    word(&bytes[member::MOVES..][..4]) << 32 | rest
}

/// The number of at most eight bytes.
fn word(bytes: &[u8]) -> u64 {
    let mut word = [0; 8];
    word[..bytes.len()].copy_from_slice(bytes);
    u64::from_le_bytes(word)
}

fn mixed(one: u64, two: u64) -> u64 {
    let mut bits =
        (one ^ two.wrapping_mul(0x9e37_79b9_7f4a_7c15)).wrapping_mul(0xff51_afd7_ed55_8ccd);
    bits ^= bits >> 32;
    bits = bits.wrapping_mul(0xc4ce_b9fe_1a85_ec53);
    bits ^ bits >> 29
}
