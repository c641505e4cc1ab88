//! A search from what one side knows, with guesses of the rest.
use crate::leaf::{self, MatchUps};
use crate::prior::with_drawn_counts;
use crate::tree::{Root, Sum, Tree, way_from};
use crate::{Dice, Prior};
use alloc::string::String;
use alloc::vec::Vec;
use core::fmt;
use gen1::{Battle, Choice, Choices, Guess, GuessFault, MoveId, Player, Side, TeamRefusal};

/// The nodes of the levels of play, 1 to 5.
pub const LEVELS: [u64; 5] = [200, 600, 1_500, 6_000, 30_000];

/// How many updates a line of play shows.
const SHOWN: usize = 4;
/// The passes whose values are averaged together for the standard error, in each tree.
const BATCHES: usize = 8;
/// How many guesses in a row may be refused.
const TRIES: usize = 64;

/// Options of [`think`].
#[derive(Clone, Copy)]
#[non_exhaustive]
pub struct ThinkOptions<'a> {
    /// How many nodes the search makes at most, over all trees. The default is 6,000.
    pub nodes: u64,
    /// How long it lasts at most. The default is `None`. A search that ends by time is not repeatable.
    #[cfg(feature = "std")]
    pub time: Option<core::time::Duration>,
    /// The seed of the search's own numbers. The same seed, nodes and trees give the same result.
    pub seed: u64,
    /// The number of independent trees, which are searched by as many threads at most. The default is 4.
    pub trees: usize,
    /// How many guesses of the foe's team each tree makes. The default is 16.
    pub guesses: usize,
    /// Asked now and then whether to stop. The default is `None`.
    pub stop: Option<&'a (dyn Fn() -> bool + Sync)>,
}

impl Default for ThinkOptions<'_> {
    fn default() -> Self {
        ThinkOptions {
            nodes: 6_000,
            #[cfg(feature = "std")]
            time: None,
            seed: 0,
            trees: 4,
            guesses: 16,
            stop: None,
        }
    }
}

impl fmt::Debug for ThinkOptions<'_> {
    fn fmt(&self, f: &mut fmt::Formatter<'_>) -> fmt::Result {
        f.debug_struct("ThinkOptions")
            .field("nodes", &self.nodes)
            .field("seed", &self.seed)
            .field("trees", &self.trees)
            .field("guesses", &self.guesses)
            .finish_non_exhaustive()
    }
}

impl ThinkOptions<'_> {
    /// The options of a level of play, 1 to 5, whose nodes are in [`LEVELS`]. A lower number counts as 1, a higher one as 5.
    #[must_use]
    pub fn level(level: u8) -> Self {
        ThinkOptions {
            nodes: LEVELS[usize::from(level.clamp(1, 5)) - 1],
            ..ThinkOptions::default()
        }
    }
}

/// Why there is nothing to think about.
#[derive(Clone, Copy, Debug, PartialEq, Eq)]
#[non_exhaustive]
pub enum ThinkFault {
    /// The player is offered no choice: it was not shown its side yet, or the battle is over.
    NoChoice,
    /// No guess of the foe's team fits what the player knows: why the last of them was refused.
    NoGuess(GuessFault),
    /// A guessed team isn't a valid team.
    Team(TeamRefusal),
}

impl fmt::Display for ThinkFault {
    fn fmt(&self, f: &mut fmt::Formatter<'_>) -> fmt::Result {
        match self {
            ThinkFault::NoChoice => f.write_str("the player is offered no choice"),
            ThinkFault::NoGuess(why) => write!(f, "no guess fits what the player knows: {why}"),
            ThinkFault::Team(why) => write!(f, "a guessed team is refused: {why}"),
        }
    }
}

impl core::error::Error for ThinkFault {}

/// A choice, and what the search found about it.
#[derive(Clone, Debug, PartialEq)]
#[non_exhaustive]
pub struct Considered {
    /// The choice.
    pub choice: Choice,
    /// The choice in words, such as `Body Slam` or `switch to Starmie`.
    pub words: String,
    /// How often to make it.
    pub probability: f64,
    /// How often the side wins after it, against the foe's play in the search; `None` if it was not tried in the second half.
    pub value: Option<f64>,
    /// How play may continue: for each update the choices of the side and of the foe in words, this one first.
    pub line: Vec<[String; 2]>,
}

/// The result of [`think`].
#[derive(Clone, Debug, PartialEq)]
#[non_exhaustive]
pub struct Thought {
    /// The offered choices, the most probable first. The probabilities sum to 1.
    pub choices: Vec<Considered>,
    /// How often the side is estimated to win, a tie counting as half.
    pub value: f64,
    /// The standard error of the value by its sampling alone: not that of the guesses, nor that of the leaf values.
    pub error: f64,
    /// The nodes of the search; 0 if only one choice was offered.
    pub nodes: u64,
}

impl Thought {
    /// The most probable choice.
    #[must_use]
    pub fn best(&self) -> Choice {
        self.choices.first().map_or(Choice::Pass, |it| it.choice)
    }

    /// A choice drawn by the probabilities, without those below nine tenths of the highest: they are mostly the noise of the search, and a
    /// bot that makes them loses more often.
    pub fn draw(&self, dice: &mut Dice) -> Choice {
        let most = self.choices.first().map_or(0.0, |it| it.probability);
        let weight = |it: &Considered| {
            if it.probability < 0.9 * most {
                0.0
            } else {
                it.probability
            }
        };
        let weights: Vec<f64> = self.choices.iter().map(weight).collect();
        match self.choices.is_empty() {
            true => Choice::Pass,
            false => self.choices[dice.pick(&weights)].choice,
        }
    }
}

/// Searches for a side's best choice, from its player's view alone.
///
/// The foe's team is guessed from the prior ([`Prior::guess`]), and [`Battle::from_player`] makes battles that fit. Each tree plays passes
/// through them: both sides choose at once, each by what its own choices got, each pass draws its own numbers, and ends at a position that
/// is new to the tree with its leaf value ([`Policy::value`](crate::playout::Policy::value)). At the root the side's sums are those of all
/// guesses together, so its strategy does not depend on what it doesn't know. Choices that searches often make are tried first
/// ([`expected`](crate::expected)). The strategies of the trees are averaged.
///
/// ```
/// use gen1::{Battle, Choice, Player, Side, Team, Teller, member};
/// use gen1_search::{Prior, ThinkOptions, think};
///
/// # fn main() -> Result<(), Box<dyn std::error::Error>> {
/// let one = Team::new(&[member("Gengar", &["Explosion", "Thunderbolt"])?])?;
/// let two = Team::new(&[member("Starmie", &["Surf"])?, member("Snorlax", &["Rest"])?])?;
/// let mut battle = Battle::new(&one, &two, [7; 10]);
/// let (mut teller, mut player) = (Teller::new(Side::One), Player::with_foes(Side::One, &one, 2));
/// let update = battle.update(Choice::Pass, Choice::Pass)?;
/// teller.report(&battle, &update.log(), &mut player)?;
///
/// let mut options = ThinkOptions::default();
/// options.nodes = 1000;
/// let thought = think(&player, &Prior::samples(), &options)?;
/// // Explosion loses the only member.
/// assert_eq!(thought.choices[0].words, "Thunderbolt");
/// # Ok(())
/// # }
/// ```
///
/// # Errors
///
/// The first [`ThinkFault`] that applies.
pub fn think(
    player: &Player,
    prior: &Prior,
    options: &ThinkOptions<'_>,
) -> Result<Thought, ThinkFault> {
    let offered = player.choices();
    let mut dice = Dice::new(options.seed);
    match offered.as_slice() {
        [] => return Err(ThinkFault::NoChoice),
        [only] => return Ok(forced(player, prior, *only, &mut dice)),
        _ => {}
    }
    let mut sets = Vec::new();
    for _ in 0..options.trees.max(1) {
        sets.push((
            guesses(player, prior, options, &offered, &mut dice)?,
            dice.bits(),
        ));
    }
    let searched = searched(player.side(), &sets, options);
    Ok(merged(player.side(), &offered, &sets[0].0, &searched))
}

/// The thought about an only choice.
fn forced(player: &Player, prior: &Prior, only: Choice, dice: &mut Dice) -> Thought {
    let guess = guess(player, prior, dice);
    let value = guess.as_ref().map_or(0.5, |it| {
        of_side(player.side(), leaf::value(it, &MatchUps::of(it)))
    });
    let words = guess.map_or_else(
        |_| String::from("pass"),
        |it| choice_words(&it, player.side(), only),
    );
    Thought {
        choices: alloc::vec![Considered {
            choice: only,
            words,
            probability: 1.0,
            value: Some(value),
            line: Vec::new(),
        }],
        value,
        error: 0.0,
        nodes: 0,
    }
}

fn of_side(side: Side, value: f64) -> f64 {
    match side {
        Side::One => value,
        Side::Two => 1.0 - value,
    }
}

/// A battle that fits what the player knows.
fn guess(player: &Player, prior: &Prior, dice: &mut Dice) -> Result<Battle, ThinkFault> {
    let team = prior.guess(player, dice).map_err(ThinkFault::Team)?;
    let guess = Guess::new(team, dice.numbers());
    let battle = Battle::from_player(player, &guess).map_err(ThinkFault::NoGuess)?;
    Ok(with_drawn_counts(&battle, player, dice))
}

/// Battles that fit what the player knows, in which it is offered the same choices.
fn guesses(
    player: &Player,
    prior: &Prior,
    options: &ThinkOptions<'_>,
    offered: &Choices,
    dice: &mut Dice,
) -> Result<Vec<Battle>, ThinkFault> {
    let (mut found, mut refused, mut last) = (Vec::new(), 0, ThinkFault::NoChoice);
    while found.len() < options.guesses.max(1) && refused < TRIES {
        match guess(player, prior, dice) {
            Ok(battle) if battle.choices(player.side()) == *offered => found.push(battle),
            Ok(_) => refused += 1,
            Err(why) => (refused, last) = (refused + 1, why),
        }
    }
    match found.is_empty() {
        true => Err(last),
        false => Ok(found),
    }
}

/// What is kept of a tree that was searched. The tree itself has up to 300 bytes for each node.
struct Searched {
    root: Root,
    nodes: u64,
    /// What the side got in the second half, in batches.
    batches: Vec<Sum>,
    /// How play continues after each choice, by the first tree; none by others.
    lines: Vec<Vec<[String; 2]>>,
}

type Guesses = (Vec<Battle>, u64);

#[cfg(feature = "threads")]
fn searched(side: Side, sets: &[Guesses], options: &ThinkOptions<'_>) -> Vec<Searched> {
    use rayon::prelude::*;
    // A single tree is searched by this thread, so that `stop` can ask how much of the processor the thread has used.
    if let [only] = sets {
        return alloc::vec![search(side, only, options, Share::new(options, 0, 1, 1))];
    }
    let threads = rayon::current_num_threads();
    let all = sets.par_iter().enumerate();
    all.map(|(at, set)| {
        search(
            side,
            set,
            options,
            Share::new(options, at, sets.len(), threads),
        )
    })
    .collect()
}

#[cfg(not(feature = "threads"))]
fn searched(side: Side, sets: &[Guesses], options: &ThinkOptions<'_>) -> Vec<Searched> {
    let all = sets.iter().enumerate();
    all.map(|(at, set)| search(side, set, options, Share::new(options, at, sets.len(), 1)))
        .collect()
}

/// The part of the budget that one tree has.
struct Share {
    nodes: u64,
    is_first: bool,
    #[cfg(feature = "std")]
    time: Option<core::time::Duration>,
    #[cfg(feature = "std")]
    begun: std::time::Instant,
}

impl Share {
    fn new(options: &ThinkOptions<'_>, at: usize, trees: usize, threads: usize) -> Self {
        // Trees that share a thread are searched one after the other.
        let rounds = trees.div_ceil(threads.max(1)) as u32;
        let _ = rounds;
        let more = u64::from((at as u64) < options.nodes % trees as u64);
        Share {
            nodes: options.nodes / trees as u64 + more,
            is_first: at == 0,
            #[cfg(feature = "std")]
            time: options.time.map(|time| time / rounds),
            #[cfg(feature = "std")]
            begun: std::time::Instant::now(),
        }
    }

    /// How much is used, as a share of 1.
    fn used(&self, nodes: u64) -> f64 {
        let used = nodes as f64 / self.nodes.max(1) as f64;
        #[cfg(feature = "std")]
        if let Some(time) = self.time {
            return used.max(self.begun.elapsed().as_secs_f64() / time.as_secs_f64().max(1e-9));
        }
        used
    }
}

fn search(side: Side, set: &Guesses, options: &ThinkOptions<'_>, share: Share) -> Searched {
    let mut batches = alloc::vec![Sum::default(); BATCHES];
    let mut tree = Tree::new(side, &set.0, set.1, share.nodes);
    let (mut nodes, mut used) = (0, 0.0);
    while nodes < share.nodes && used < 1.0 {
        let got = tree.pass(used >= 0.5);
        nodes += 1;
        if used >= 0.5 {
            let batch = (2.0 * (used - 0.5) * BATCHES as f64) as usize;
            batches[batch.min(BATCHES - 1)].add(got);
        }
        if nodes % 16 == 0 {
            used = share.used(nodes);
            if options.stop.is_some_and(|stop| stop()) {
                break;
            }
        }
    }
    let choices = if share.is_first {
        tree.root.strategy.len()
    } else {
        0
    };
    let lines = (0..choices).map(|at| line(&tree, &set.0[0], side, at));
    Searched {
        lines: lines.collect(),
        root: tree.root,
        nodes,
        batches,
    }
}

/// The result of all trees: sums in the order of the trees.
fn merged(side: Side, offered: &Choices, guesses: &[Battle], searched: &[Searched]) -> Thought {
    let weight = |at: usize| -> f64 { searched.iter().map(|it| it.root.strategy[at]).sum() };
    let sum: f64 = (0..offered.len()).map(weight).sum();
    let considered = |at: usize| {
        let mut got = Sum::default();
        for Searched { root, .. } in searched {
            got.count += root.got[at].count;
            got.sum += root.got[at].sum;
        }
        let even = 1.0 / offered.len() as f64;
        Considered {
            choice: offered[at],
            words: choice_words(&guesses[0], side, offered[at]),
            probability: if sum > 0.0 { weight(at) / sum } else { even },
            value: got.mean(),
            line: searched[0].lines[at].clone(),
        }
    };
    let mut choices: Vec<Considered> = (0..offered.len()).map(considered).collect();
    choices.sort_by(|one, two| two.probability.total_cmp(&one.probability));
    let batches = searched.iter().flat_map(|it| &it.batches);
    let means: Vec<f64> = batches.filter_map(Sum::mean).collect();
    let (value, error) = mean_and_error(&means);
    Thought {
        choices,
        value,
        error,
        nodes: searched.iter().map(|it| it.nodes).sum(),
    }
}

/// The mean of some means, and its standard error.
fn mean_and_error(means: &[f64]) -> (f64, f64) {
    let count = means.len() as f64;
    if count < 2.0 {
        return (means.first().copied().unwrap_or(0.5), 0.5);
    }
    let mean = means.iter().sum::<f64>() / count;
    let squares: f64 = means.iter().map(|it| (it - mean) * (it - mean)).sum();
    (mean, root(squares / (count - 1.0) / count))
}

/// The square root of a number up to 1, by Newton's steps: there is none without std.
fn root(square: f64) -> f64 {
    let mut root = 1.0;
    for _ in 0..60 {
        root = 0.5 * (root + square / root);
    }
    root
}

/// How play continues from a guess after a choice: each side's most frequent choice, and of some draws those that the tree knows.
fn line(tree: &Tree<'_>, guess: &Battle, side: Side, first: usize) -> Vec<[String; 2]> {
    let (mut battle, mut way, mut line) = (guess.clone(), 0, Vec::new());
    let mut dice = Dice::new(0);
    while let Some((node, [ones, twos])) = tree.made(&battle, way) {
        let (mut one, mut two) = (most(&ones), most(&twos));
        if line.is_empty() {
            match side {
                Side::One => one = first,
                Side::Two => two = first,
            }
        }
        let [ones, twos] = Side::BOTH.map(|side| battle.choices(side));
        let pair = [
            choice_words(&battle, Side::One, ones[one]),
            choice_words(&battle, Side::Two, twos[two]),
        ];
        line.push(match side {
            Side::One => pair,
            Side::Two => {
                let [one, two] = pair;
                [two, one]
            }
        });
        way = way_from(node, one, two);
        let after = (0..16).find_map(|_| {
            let mut after = battle.clone();
            after.reseed(dice.numbers());
            after.update_silent(ones[one], twos[two]).ok()?;
            tree.made(&after, way).map(|_| after)
        });
        match after {
            Some(after) if line.len() < SHOWN => battle = after,
            _ => break,
        }
    }
    line
}

fn most(weights: &[f32]) -> usize {
    let both = weights.iter().enumerate();
    both.max_by(|one, two| one.1.total_cmp(two.1))
        .map_or(0, |it| it.0)
}

/// A choice in words, such as `Body Slam`, `switch to Starmie`, `pass`, or `no choice` where a side continues or can't choose a move.
#[must_use]
pub fn choice_words(battle: &Battle, side: Side, choice: Choice) -> String {
    let state = battle.state();
    let state = state.side(side);
    match choice {
        Choice::Pass => "pass".into(),
        Choice::Switch(place) => match state.members.get(usize::from(place.number()) - 1) {
            Some(member) => alloc::format!("switch to {}", member.species),
            None => "switch".into(),
        },
        Choice::Move(slot) => {
            let known = usize::from(slot.number()).checked_sub(1);
            let member = state.member_out();
            let id = known
                .and_then(|at| member?.moves.get(at))
                .map(|known| known.id);
            id.map_or("no choice", MoveId::name).into()
        }
    }
}
