//! Values of positions, between two bounds, by value iteration over all outcomes.
use crate::matrix::{Play, best_play};
use crate::positions::{Index, Keys, Pp, TableFault};
use alloc::vec::Vec;
use core::fmt;
use gen1::{Battle, Choice, Outcome, OutcomeOptions, OutcomesFault, Side};

/// Two bounds of a value: how often side 1 wins if both sides play as well as can be, where a tie or a fault counts as half a win.
#[derive(Clone, Copy, Debug, PartialEq)]
pub struct Interval {
    /// The lower bound, from 0.
    pub low: f64,
    /// The upper bound, to 1.
    pub high: f64,
}

impl Interval {
    /// The difference of the bounds.
    #[must_use]
    pub fn width(self) -> f64 {
        self.high - self.low
    }

    /// Whether a number is between the bounds.
    #[must_use]
    pub fn contains(self, value: f64) -> bool {
        (self.low..=self.high).contains(&value)
    }
}

/// The interval of a position that has not been searched.
const UNKNOWN: Interval = Interval {
    low: 0.0,
    high: 1.0,
};

/// Options of a [`Solver`].
#[derive(Clone, Copy, Debug, PartialEq)]
#[non_exhaustive]
pub struct SolveOptions {
    /// Whether positions hold PP. The default is [`Pp::Counted`].
    pub pp: Pp,
    /// How outcomes are listed. Outcomes that are left out are part of the interval. Classes of damage are not: with them the interval is
    /// that of a game whose damage has these classes.
    pub outcomes: OutcomeOptions,
    /// The width of the interval at which to stop. The default is 1e-6.
    pub tolerance: f64,
    /// The most bytes of memory for positions and their successors. The default is 2^30.
    pub memory: usize,
    /// The most sweeps. The default is 2,000.
    pub sweeps: u32,
}

impl Default for SolveOptions {
    fn default() -> Self {
        SolveOptions {
            pp: Pp::Counted,
            outcomes: OutcomeOptions::new(),
            tolerance: 1e-6,
            memory: 1 << 30,
            sweeps: 2000,
        }
    }
}

/// Why a battle is not solved.
#[derive(Clone, Copy, Debug, PartialEq, Eq)]
#[non_exhaustive]
pub enum SolveFault {
    /// The battle is over.
    Over,
    /// The outcomes of a pair of choices are not listed.
    Outcomes(OutcomesFault),
}

impl fmt::Display for SolveFault {
    fn fmt(&self, f: &mut fmt::Formatter<'_>) -> fmt::Result {
        match self {
            SolveFault::Over => f.write_str("the battle is over"),
            SolveFault::Outcomes(fault) => fault.fmt(f),
        }
    }
}

impl core::error::Error for SolveFault {}

/// How far a solver has come.
#[derive(Clone, Copy, Debug, PartialEq)]
#[non_exhaustive]
pub struct Progress {
    /// The positions that were met, without those in which the battle is over.
    pub positions: usize,
    /// The positions whose outcomes were listed.
    pub expanded: usize,
    /// The successors of all pairs of choices.
    pub successors: usize,
    /// The bytes of memory for them.
    pub bytes: usize,
    /// The sweeps so far.
    pub sweeps: u32,
    /// The interval of the start.
    pub start: Interval,
}

/// Why [`Solver::run`] returned.
#[derive(Clone, Copy, Debug, PartialEq, Eq)]
pub enum Stopped {
    /// The interval of the start is as narrow as was asked for.
    Solved,
    /// The memory is used up.
    Memory,
    /// Sweeps no longer change the interval: battles that never end are in it.
    Endless,
    /// The most sweeps were made. A battle that may reach its turn limit has no more.
    Sweeps,
    /// The caller of [`Solver::run`] said so.
    Asked,
}

/// The successors of a pair of choices.
#[derive(Clone, Copy, Debug)]
struct Pair {
    /// Where its successors end in the list of all; they begin where those of the pair before it end.
    end: usize,
    /// The value of the outcomes in which the battle is over.
    won: f64,
    /// The probability that was left out.
    unknown: f64,
    /// A bound of what rounding changes in the mean.
    rounding: f64,
}

/// The pairs of a position: `rows * columns` from `first` on.
#[derive(Clone, Copy, Debug)]
struct Node {
    first: usize,
    rows: u8,
    columns: u8,
}

/// A position as it is expanded: the pairs with the keys and probabilities of their successors.
struct Listed {
    rows: usize,
    columns: usize,
    pairs: Vec<ListedPair>,
}

struct ListedPair {
    won: f64,
    unknown: f64,
    rounding: f64,
    keys: Vec<u8>,
    probabilities: Vec<f64>,
}

/// The values of all positions that a battle can reach, or of those that fit into memory.
///
/// A position is the bytes of a battle without the numbers to be drawn, the turn and its limit; without the last damage and the moves picked
/// last, where no member has a move that reads them; and with [`Pp::Endless`] without PP. Draws are independent uniform bytes, as for
/// [`Battle::outcomes`].
///
/// A sweep computes the interval of each position from those of its successors before the sweep, by the game of both sides' choices. So
/// after n sweeps the interval holds for each battle of that position that has at least n turns left to its limit, and with
/// [`Pp::Endless`] at least n PP in each move, however the rest of it is played. [`Solver::run`] makes at most as many sweeps as the
/// battle has turns left.
#[derive(Clone, Debug)]
pub struct Solver {
    keys: Keys,
    options: SolveOptions,
    most_sweeps: u32,
    index: Index,
    values: Vec<Interval>,
    /// How probable it is to meet a position, summed over the ways to it that were expanded: the order in which positions are expanded.
    weights: Vec<f64>,
    nodes: Vec<Option<Node>>,
    pairs: Vec<Pair>,
    successors: Vec<u32>,
    probabilities: Vec<f64>,
    expanded: usize,
    sweeps: u32,
}

impl Solver {
    /// A solver that has met only its start.
    ///
    /// # Errors
    ///
    /// The battle is over.
    pub fn new(battle: &Battle, options: SolveOptions) -> Result<Self, SolveFault> {
        if battle.is_over() {
            return Err(SolveFault::Over);
        }
        let keys = Keys::new(battle, options.pp);
        let turns = battle.limit() - battle.state().turn;
        let mut solver = Solver {
            options,
            most_sweeps: options.sweeps.min(u32::from(turns)),
            index: Index::new(keys.width()),
            keys,
            values: Vec::new(),
            weights: Vec::new(),
            nodes: Vec::new(),
            pairs: Vec::new(),
            successors: Vec::new(),
            probabilities: Vec::new(),
            expanded: 0,
            sweeps: 0,
        };
        let mut key = Vec::new();
        solver.keys.write(battle, &mut key);
        let start = solver.number(&key);
        solver.weights[start] = 1.0;
        Ok(solver)
    }

    /// How far it has come.
    #[must_use]
    pub fn progress(&self) -> Progress {
        Progress {
            positions: self.index.len(),
            expanded: self.expanded,
            successors: self.successors.len(),
            bytes: self.bytes(),
            sweeps: self.sweeps,
            start: self.values[0],
        }
    }

    fn bytes(&self) -> usize {
        let positions =
            self.index.len() * (size_of::<Option<Node>>() + size_of::<Interval>() * 2 + 8);
        let pairs = self.pairs.len() * size_of::<Pair>();
        self.index.bytes() + positions + pairs + 12 * self.successors.len()
    }

    /// Whether another solver has the same start and the same form of positions.
    #[must_use]
    pub fn is_like(&self, other: &Solver) -> bool {
        self.keys == other.keys
    }

    /// The interval of a battle's position; `None` if it was not met.
    ///
    /// The battle must have the members of the start. Of one that is over the value is known.
    #[must_use]
    pub fn value(&self, battle: &Battle) -> Option<Interval> {
        if battle.is_over() {
            let value = value_of(battle.outcome());
            return Some(Interval {
                low: value,
                high: value,
            });
        }
        Some(self.values[self.index.find(&self.key(battle)?)?])
    }

    /// The bytes that distinguish the position of a battle from the others of this solver; `None` if the battle has other members than the start.
    #[must_use]
    pub fn key(&self, battle: &Battle) -> Option<Vec<u8>> {
        let mut key = Vec::new();
        self.keys.write(battle, &mut key);
        // The bytes outside a key are those of the start, or it is a battle of other members.
        let is_of_start = self.keys.battle(&key)?.as_bytes() == &self.keys.canonical(battle);
        is_of_start.then_some(key)
    }

    /// The best play of both sides in a battle, from the lower bounds for side 1 and the upper bounds for side 2, in the order of their
    /// choices; `None` if the battle is over, or no outcome of it was met.
    ///
    /// A position that was not met counts with the interval from 0 to 1. `low` of the play is a lower bound of the value, `high` an upper
    /// bound.
    ///
    /// # Errors
    ///
    /// The outcomes of a pair of choices are not listed.
    pub fn play(&self, battle: &Battle) -> Result<Option<Play>, SolveFault> {
        if battle.is_over() {
            return Ok(None);
        }
        let listed = listed(&self.keys, &self.options.outcomes, battle)?;
        let width = self.keys.width();
        let (mut lows, mut highs) = (Vec::new(), Vec::new());
        for pair in &listed.pairs {
            let mut mean = Mean::new(pair.won, pair.unknown, pair.rounding);
            for (key, probability) in pair.keys.chunks_exact(width).zip(&pair.probabilities) {
                let value = self.index.find(key).map_or(UNKNOWN, |at| self.values[at]);
                mean.add(value, *probability);
            }
            let Interval { low, high } = mean.interval();
            lows.push(low);
            highs.push(high);
        }
        let (low, high) = (
            best_play(&lows, listed.columns),
            best_play(&highs, listed.columns),
        );
        Ok(Some(Play {
            low: low.low,
            one: low.one,
            high: high.high,
            two: high.two,
        }))
    }

    /// Expands positions and sweeps until the interval of the start is narrow enough, or until memory or sweeps are used up.
    ///
    /// `progress` is called after each batch of positions and each sweep, and stops the run by returning `false`. Another call continues.
    ///
    /// # Errors
    ///
    /// The outcomes of a pair of choices are not listed.
    pub fn run(
        &mut self,
        mut progress: impl FnMut(&Progress) -> bool,
    ) -> Result<Stopped, SolveFault> {
        let mut batch = 256;
        while self.values[0].width() > self.options.tolerance {
            let is_full = self.bytes() >= self.options.memory;
            let is_whole = self.expanded == self.index.len();
            if !is_full && !is_whole && !self.expand_batch(batch, &mut progress)? {
                return Ok(Stopped::Asked);
            }
            batch *= 2;
            if let Some(stopped) = self.swept(is_whole || is_full, &mut progress) {
                return Ok(match stopped {
                    Stopped::Endless if !is_whole => Stopped::Memory,
                    stopped => stopped,
                });
            }
        }
        Ok(Stopped::Solved)
    }

    /// Sweeps until nothing changes; says why to stop, if there is a reason. `is_last` says that no position will be expanded.
    fn swept(
        &mut self,
        is_last: bool,
        progress: &mut dyn FnMut(&Progress) -> bool,
    ) -> Option<Stopped> {
        loop {
            if self.values[0].width() <= self.options.tolerance {
                return Some(Stopped::Solved);
            }
            if self.sweeps >= self.most_sweeps {
                return Some(Stopped::Sweeps);
            }
            let change = self.sweep();
            if !progress(&self.progress()) {
                return Some(Stopped::Asked);
            }
            // Before the last batch a sweep that changes little is not worth its time.
            let least = if is_last {
                self.options.tolerance / 1e3
            } else {
                1e-3
            };
            if change <= least {
                return is_last.then_some(Stopped::Endless);
            }
        }
    }

    /// Expands the most probable positions that are left. Returns whether to continue.
    fn expand_batch(
        &mut self,
        count: usize,
        progress: &mut dyn FnMut(&Progress) -> bool,
    ) -> Result<bool, SolveFault> {
        let mut left: Vec<u32> = (0..self.nodes.len() as u32)
            .filter(|at| self.nodes[*at as usize].is_none())
            .collect();
        left.sort_by(|a, b| {
            self.weights[*b as usize]
                .total_cmp(&self.weights[*a as usize])
                .then(a.cmp(b))
        });
        left.truncate(count);
        for some in left.chunks(64) {
            if self.bytes() >= self.options.memory {
                break;
            }
            for (at, listed) in some.iter().zip(self.listed(some)) {
                self.expand(*at as usize, listed?);
            }
            if !progress(&self.progress()) {
                return Ok(false);
            }
        }
        Ok(true)
    }

    #[cfg(feature = "threads")]
    fn listed(&self, some: &[u32]) -> Vec<Result<Listed, SolveFault>> {
        use rayon::prelude::*;
        some.par_iter().map(|at| self.listed_at(*at)).collect()
    }

    #[cfg(not(feature = "threads"))]
    fn listed(&self, some: &[u32]) -> Vec<Result<Listed, SolveFault>> {
        some.iter().map(|at| self.listed_at(*at)).collect()
    }

    fn listed_at(&self, at: u32) -> Result<Listed, SolveFault> {
        // A table of keys holds only battles: they come from battles, or were tested as they were loaded.
        let battle = self.keys.battle(self.index.key(at as usize));
        listed(
            &self.keys,
            &self.options.outcomes,
            &battle.ok_or(SolveFault::Over)?,
        )
    }

    /// Notes the successors of a position.
    fn expand(&mut self, at: usize, listed: Listed) {
        let share = self.weights[at] / listed.pairs.len() as f64;
        self.nodes[at] = Some(Node {
            first: self.pairs.len(),
            rows: listed.rows as u8,
            columns: listed.columns as u8,
        });
        self.expanded += 1;
        for pair in listed.pairs {
            let keys = pair.keys.chunks_exact(self.keys.width());
            for (key, probability) in keys.zip(pair.probabilities) {
                let number = self.number(key);
                self.weights[number] += share * probability;
                self.successors.push(number as u32);
                self.probabilities.push(probability);
            }
            self.pairs.push(Pair {
                end: self.successors.len(),
                won: pair.won,
                unknown: pair.unknown,
                rounding: pair.rounding,
            });
        }
    }

    /// The number of a key, which is that of a new position if it was not met.
    fn number(&mut self, key: &[u8]) -> usize {
        let number = self.index.insert(key);
        if number == self.values.len() {
            self.values.push(UNKNOWN);
            self.weights.push(0.0);
            self.nodes.push(None);
        }
        number
    }

    /// Computes each interval from those before the sweep, and returns the greatest change of a bound.
    fn sweep(&mut self) -> f64 {
        let values = self.swept_values();
        let changes = values.iter().zip(&self.values);
        let change = changes.map(|(new, old)| (new.low - old.low).max(old.high - new.high));
        let change = change.fold(0.0, f64::max);
        self.values = values;
        self.sweeps += 1;
        change
    }

    #[cfg(feature = "threads")]
    fn swept_values(&self) -> Vec<Interval> {
        use rayon::prelude::*;
        (0..self.nodes.len())
            .into_par_iter()
            .map(|at| self.swept_value(at))
            .collect()
    }

    #[cfg(not(feature = "threads"))]
    fn swept_values(&self) -> Vec<Interval> {
        (0..self.nodes.len())
            .map(|at| self.swept_value(at))
            .collect()
    }

    fn swept_value(&self, at: usize) -> Interval {
        let old = self.values[at];
        let Some(node) = self.nodes[at] else {
            return old;
        };
        // If no other interval is wider than this, that of the start is as narrow as was asked for.
        if old.width() <= self.options.tolerance / 4.0 {
            return old;
        }
        let (mut lows, mut highs) = ([0.0; 81], [0.0; 81]);
        let count = usize::from(node.rows) * usize::from(node.columns);
        for number in 0..count {
            let Interval { low, high } = self.mean(node.first + number);
            (lows[number], highs[number]) = (low, high);
        }
        let columns = usize::from(node.columns);
        let low = best_play(&lows[..count], columns).low - ROUNDING;
        let high = best_play(&highs[..count], columns).high + ROUNDING;
        // Both the old and the new bounds hold.
        Interval {
            low: low.max(old.low),
            high: high.min(old.high),
        }
    }

    /// The mean interval of a pair's outcomes.
    fn mean(&self, pair: usize) -> Interval {
        let begin = pair
            .checked_sub(1)
            .map_or(0, |before| self.pairs[before].end);
        let Pair {
            end,
            won,
            unknown,
            rounding,
        } = self.pairs[pair];
        let mut mean = Mean::new(won, unknown, rounding);
        for (at, probability) in self.successors[begin..end]
            .iter()
            .zip(&self.probabilities[begin..end])
        {
            mean.add(self.values[*at as usize], *probability);
        }
        mean.interval()
    }

    /// The table as bytes, to be stored: `gen1sol1`, the PP (0 counted, 1 endless), the number of sweeps (u32), the 384 bytes of the start, the
    /// number of positions (u64), the key of each, and the two bounds of each (f64). Numbers have the low byte first.
    ///
    /// Successors are not part of it; a solver that is loaded lists them again where it needs them.
    #[must_use]
    pub fn table(&self) -> Vec<u8> {
        let mut bytes = Vec::from(MAGIC);
        bytes.push(u8::from(self.keys.pp == Pp::Endless));
        bytes.extend(self.sweeps.to_le_bytes());
        bytes.extend(self.keys.start);
        bytes.extend((self.index.len() as u64).to_le_bytes());
        bytes.extend(self.index.keys());
        for value in &self.values {
            bytes.extend(value.low.to_le_bytes());
            bytes.extend(value.high.to_le_bytes());
        }
        bytes
    }

    /// A solver with the positions and bounds of a table. The PP are those of the table, the other options as given. It makes no more
    /// sweeps than the options allow, those before it was stored included.
    ///
    /// # Errors
    ///
    /// The bytes are not those of a table.
    pub fn load(table: &[u8], options: SolveOptions) -> Result<Self, TableFault> {
        let mut rest = table
            .strip_prefix(MAGIC.as_slice())
            .ok_or(TableFault::NoTable)?;
        let [pp] = taken(&mut rest)?;
        let sweeps = u32::from_le_bytes(taken(&mut rest)?);
        let start = Battle::from_bytes(&taken(&mut rest)?).map_err(|_| TableFault::Start)?;
        let count = u64::from_le_bytes(taken(&mut rest)?) as usize;
        let options = SolveOptions {
            pp: match pp {
                0 => Pp::Counted,
                1 => Pp::Endless,
                _ => return Err(TableFault::NoTable),
            },
            ..options
        };
        let mut solver = Solver::new(&start, options).map_err(|_| TableFault::Start)?;
        (solver.sweeps, solver.most_sweeps) = (sweeps, options.sweeps);
        solver.fill(count, rest)?;
        Ok(solver)
    }

    /// Takes the positions and bounds of a table.
    fn fill(&mut self, count: usize, rest: &[u8]) -> Result<(), TableFault> {
        let width = self.keys.width();
        let size = count.checked_mul(width + 16);
        if count == 0 || size != Some(rest.len()) {
            return Err(TableFault::Length);
        }
        let (keys, bounds) = rest.split_at(count * width);
        let bounds = bounds.chunks_exact(16);
        for (at, (key, bounds)) in keys.chunks_exact(width).zip(bounds).enumerate() {
            let (mut low, mut high) = ([0; 8], [0; 8]);
            low.copy_from_slice(&bounds[..8]);
            high.copy_from_slice(&bounds[8..]);
            let (low, high) = (f64::from_le_bytes(low), f64::from_le_bytes(high));
            let is_battle = self.keys.battle(key).is_some_and(|it| !it.is_over());
            if !(is_battle && 0.0 <= low && low <= high && high <= 1.0 && self.number(key) == at) {
                return Err(TableFault::Position(at));
            }
            self.values[at] = Interval { low, high };
        }
        Ok(())
    }
}

/// How the table of a solver begins.
const MAGIC: [u8; 8] = *b"gen1sol1";

/// The next bytes of a table.
fn taken<const N: usize>(rest: &mut &[u8]) -> Result<[u8; N], TableFault> {
    let (first, others) = rest.split_first_chunk().ok_or(TableFault::Length)?;
    *rest = others;
    Ok(*first)
}

/// A bound of what rounding changes in the value of a game of at most nine by nine choices.
const ROUNDING: f64 = 64.0 * f64::EPSILON;

/// A mean interval, widened by what rounding may have changed.
struct Mean {
    sums: Interval,
    rounding: f64,
}

impl Mean {
    fn new(won: f64, unknown: f64, rounding: f64) -> Self {
        let high = won + unknown;
        Mean {
            sums: Interval { low: won, high },
            rounding,
        }
    }

    fn add(&mut self, value: Interval, probability: f64) {
        self.sums.low += value.low * probability;
        self.sums.high += value.high * probability;
    }

    fn interval(self) -> Interval {
        Interval {
            low: (self.sums.low - self.rounding).max(0.0),
            high: (self.sums.high + self.rounding).min(1.0),
        }
    }
}

/// What side 1 gets at the end of a battle.
fn value_of(outcome: Outcome) -> f64 {
    match outcome.winner() {
        Some(Side::One) => 1.0,
        Some(Side::Two) => 0.0,
        None => 0.5,
    }
}

/// The pairs of choices in a battle, with the positions after each.
fn listed(keys: &Keys, options: &OutcomeOptions, battle: &Battle) -> Result<Listed, SolveFault> {
    let [ones, twos] = Side::BOTH.map(|side| battle.choices(side));
    let mut pairs = Vec::with_capacity(ones.len() * twos.len());
    for one in &ones {
        for two in &twos {
            pairs.push(listed_pair(keys, options, battle, (*one, *two))?);
        }
    }
    Ok(Listed {
        rows: ones.len(),
        columns: twos.len(),
        pairs,
    })
}

fn listed_pair(
    keys: &Keys,
    options: &OutcomeOptions,
    battle: &Battle,
    pair: (Choice, Choice),
) -> Result<ListedPair, SolveFault> {
    let list = battle
        .outcomes_with(pair.0, pair.1, options)
        .map_err(SolveFault::Outcomes)?;
    let whole = list.whole() as f64;
    let mut listed = ListedPair {
        won: 0.0,
        unknown: list.left_out() as f64 / whole,
        // Each outcome is in at most two sums, and its probability is rounded three times.
        rounding: (2.0 * list.successors().len() as f64 + 8.0) * f64::EPSILON,
        keys: Vec::new(),
        probabilities: Vec::new(),
    };
    let mut found = Index::new(keys.width());
    let mut key = Vec::new();
    for (after, probability) in list.iter() {
        if after.is_over() {
            listed.won += probability * value_of(after.outcome());
            continue;
        }
        key.clear();
        keys.write(&after, &mut key);
        let number = found.insert(&key);
        if number == listed.probabilities.len() {
            listed.probabilities.push(0.0);
        }
        listed.probabilities[number] += probability;
    }
    listed.keys = Vec::from(found.keys());
    Ok(listed)
}
