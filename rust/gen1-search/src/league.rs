//! Battles between bots, and their ratings. `gen1 league` is the program for it.
//!
//! Each bot chooses from what its own player knows. The milliseconds of a bot are those that its thread uses of the processor, on Linux; elsewhere
//! they are those of the clock. So on Linux a busy machine makes no bot weaker.
//!
//! ```
//! use gen1_search::league::{Bot, League, Results, Teams};
//!
//! let (league, bots) = (League::new(Teams::Samples, 7), [Bot::Greedy, Bot::Random]);
//! let mut results = Results::new(&bots);
//! for number in 0..20 {
//!     results.add((0, 1), number, league.score(bots[0], bots[1], number));
//! }
//! println!("{}", results.table());
//! ```
use crate::{Dice, LEVELS, Prior, ThinkOptions, think};
use alloc::collections::BTreeMap;
use alloc::format;
use alloc::string::String;
use alloc::vec::Vec;
use core::fmt;
use core::str::FromStr;
use core::time::Duration;
use gen1::{
    Battle, Choice, DrawnFrom, Guess, HpForm, MoveId, Outcome, Player, PlayoutOptions, Side, Team,
    Teller, random_team,
};

/// A player of a league. Its name is what `FromStr` reads: `random`, `greedy`, `monte:MS`, `think:MS`, `nodes:N` or `level:N`.
#[derive(Clone, Copy, Debug, PartialEq, Eq)]
#[non_exhaustive]
pub enum Bot {
    /// Any choice, all as probable.
    Random,
    /// The move with the greatest mean damage in one guess of the foe's team.
    Greedy,
    /// The choice that wins most random playouts, over guesses of the foe's team, for so long.
    Monte(Duration),
    /// [`think`] for so long, with one tree.
    Think(Duration),
    /// [`think`] with so many nodes, in one tree.
    Nodes(u64),
    /// [`think`] with the nodes of a level, 1 to 5, in one tree.
    Level(u8),
}

/// The longest time of a choice in milliseconds, an hour.
const LONGEST: u64 = 3_600_000;

/// A word that names no bot.
#[derive(Clone, Copy, Debug, PartialEq, Eq)]
pub struct NoBot;

impl fmt::Display for NoBot {
    fn fmt(&self, f: &mut fmt::Formatter<'_>) -> fmt::Result {
        f.write_str("a bot is random, greedy, monte:MS, think:MS, nodes:N or level:1 to level:5")
    }
}

impl core::error::Error for NoBot {}

impl FromStr for Bot {
    type Err = NoBot;

    fn from_str(word: &str) -> Result<Bot, NoBot> {
        let Some((name, number)) = word.split_once(':') else {
            return match word {
                "random" => Ok(Bot::Random),
                "greedy" => Ok(Bot::Greedy),
                _ => Err(NoBot),
            };
        };
        let number: u64 = number.parse().map_err(|_| NoBot)?;
        let time = Duration::from_millis(number);
        match (name, number) {
            ("monte", 1..=LONGEST) => Ok(Bot::Monte(time)),
            ("think", 1..=LONGEST) => Ok(Bot::Think(time)),
            ("nodes", 1..) => Ok(Bot::Nodes(number)),
            ("level", 1..=5) => Ok(Bot::Level(number as u8)),
            _ => Err(NoBot),
        }
    }
}

impl fmt::Display for Bot {
    fn fmt(&self, f: &mut fmt::Formatter<'_>) -> fmt::Result {
        match self {
            Bot::Random => f.write_str("random"),
            Bot::Greedy => f.write_str("greedy"),
            Bot::Monte(time) => write!(f, "monte:{}", time.as_millis()),
            Bot::Think(time) => write!(f, "think:{}", time.as_millis()),
            Bot::Nodes(nodes) => write!(f, "nodes:{nodes}"),
            Bot::Level(level) => write!(f, "level:{level}"),
        }
    }
}

impl Bot {
    /// Whether the bot's choices depend on the speed of the machine.
    #[must_use]
    pub fn has_time(self) -> bool {
        matches!(self, Bot::Monte(_) | Bot::Think(_))
    }

    /// A choice that the player is offered. Where no guess of the foe's team fits what the player knows, it is any.
    ///
    /// # Panics
    ///
    /// If the player is offered no choice.
    pub fn choice(self, player: &Player, prior: &Prior, dice: &mut Dice) -> Choice {
        let offered = player.choices();
        if offered.len() == 1 {
            return offered[0];
        }
        match self {
            Bot::Random => offered[dice.below(offered.len())],
            Bot::Greedy => greedy(player, prior, dice),
            Bot::Monte(time) => monte(player, prior, dice, time),
            Bot::Think(time) => {
                let begun = thread_time();
                let stop = move || thread_time().saturating_sub(begun) >= time;
                thought(player, prior, dice, u64::MAX, Some(&stop))
            }
            Bot::Nodes(nodes) => thought(player, prior, dice, nodes, None),
            Bot::Level(level) => {
                let nodes = LEVELS[usize::from(level.clamp(1, 5)) - 1];
                thought(player, prior, dice, nodes, None)
            }
        }
    }
}

/// The time that this thread has used of the processor.
#[cfg(target_os = "linux")]
fn thread_time() -> Duration {
    let time = rustix::time::clock_gettime(rustix::time::ClockId::ThreadCPUTime);
    Duration::new(time.tv_sec as u64, time.tv_nsec as u32)
}

/// The time since the first call.
#[cfg(not(target_os = "linux"))]
fn thread_time() -> Duration {
    static BEGUN: std::sync::OnceLock<std::time::Instant> = std::sync::OnceLock::new();
    BEGUN.get_or_init(std::time::Instant::now).elapsed()
}

fn thought(
    player: &Player,
    prior: &Prior,
    dice: &mut Dice,
    nodes: u64,
    stop: Option<&(dyn Fn() -> bool + Sync)>,
) -> Choice {
    let mut options = ThinkOptions::default();
    (options.seed, options.trees) = (dice.bits(), 1);
    (options.nodes, options.stop) = (nodes, stop);
    match think(player, prior, &options) {
        Ok(thought) => thought.draw(dice),
        Err(_) => any(player, dice),
    }
}

fn any(player: &Player, dice: &mut Dice) -> Choice {
    let offered = player.choices();
    offered[dice.below(offered.len())]
}

/// A battle that fits what a player knows.
fn guess(player: &Player, prior: &Prior, dice: &mut Dice) -> Option<Battle> {
    let team = prior.guess(player, dice).ok()?;
    Battle::from_player(player, &Guess::new(team, dice.numbers())).ok()
}

fn greedy(player: &Player, prior: &Prior, dice: &mut Dice) -> Choice {
    let any = any(player, dice);
    let Some(battle) = guess(player, prior, dice) else {
        return any;
    };
    let offered = player.choices();
    let damage = |choice: &Choice| mean_damage(&battle, player.side(), *choice);
    let best = offered
        .iter()
        .max_by(|one, two| damage(one).total_cmp(&damage(two)));
    best.copied().filter(|it| damage(it) > 0.0).unwrap_or(any)
}

/// The mean damage of a choice, a miss counting as 0; -1 for a switch.
fn mean_damage(battle: &Battle, side: Side, choice: Choice) -> f64 {
    let Choice::Move(slot) = choice else {
        return -1.0;
    };
    let known = usize::from(slot.number()).checked_sub(1);
    let state = battle.state();
    let moves = state.side(side).member_out().map(|it| it.moves.clone());
    let id: Option<MoveId> = known.and_then(|at| Some(moves?.get(at)?.id));
    let odds = id.and_then(|id| battle.odds(side, id).ok());
    odds.map_or(0.0, |odds| {
        let usual = odds
            .usual
            .map_or(0.0, |list| list.map(f64::from).iter().sum::<f64>() / 39.0);
        f64::from(odds.hit_draws) / 256.0 * usual.max(f64::from(odds.fixed[1]))
    })
}

fn monte(player: &Player, prior: &Prior, dice: &mut Dice, time: Duration) -> Choice {
    let (offered, begun, side) = (player.choices(), thread_time(), player.side());
    let mut won = alloc::vec![0.0; offered.len()];
    while thread_time().saturating_sub(begun) < time {
        let Some(start) = guess(player, prior, dice) else {
            continue;
        };
        for (at, choice) in offered.iter().enumerate() {
            let mut fork = start.clone();
            let theirs = fork.choices(side.other());
            let theirs = theirs[dice.below(theirs.len())];
            let pair = match side {
                Side::One => (*choice, theirs),
                Side::Two => (theirs, *choice),
            };
            if fork.update_silent(pair.0, pair.1).is_ok() {
                let ends = fork.playout(&PlayoutOptions::new(dice.bits(), 1));
                won[at] += f64::from(ends.wins(side)) + f64::from(ends.ties) / 2.0;
            }
        }
    }
    let best = (0..won.len()).max_by(|one, two| won[*one].total_cmp(&won[*two]));
    offered[best.unwrap_or(0)]
}

/// Plays a battle of two bots, shows each position to `see`, and returns the outcome.
///
/// # Panics
///
/// Never, for teams that [`Team::new`] made.
pub fn play(
    bots: [Bot; 2],
    teams: [&Team; 2],
    prior: &Prior,
    dice: &mut Dice,
    mut see: impl FnMut(&Battle),
) -> Outcome {
    let mut battle = Battle::new(teams[0], teams[1], dice.numbers());
    let mut tellers = Side::BOTH.map(|side| Teller::with_hp(side, HpForm::Exact));
    let mut players = [0, 1].map(|at| {
        let foes = teams[1 - at].members().len() as u8;
        Player::with_foes(Side::BOTH[at], teams[at], foes).with_hp(HpForm::Exact)
    });
    let mut pair = [Choice::Pass; 2];
    loop {
        let update = battle.update(pair[0], pair[1]);
        let log = update.expect("both choices are offered").log();
        for (teller, player) in tellers.iter_mut().zip(&mut players) {
            let done = teller.report(&battle, &log, player);
            done.expect("the log is that of an update");
        }
        see(&battle);
        if battle.is_over() {
            return battle.outcome();
        }
        pair = [0, 1].map(|at| bots[at].choice(&players[at], prior, dice));
    }
}

/// The teams of a league.
#[derive(Clone, Copy, Debug, PartialEq, Eq)]
#[non_exhaustive]
pub enum Teams {
    /// Two of the sample teams.
    Samples,
    /// Two teams of six species, each with four moves, drawn from all. The bots still guess that the foe has a sample team.
    Drawn,
}

/// Battles of bots: which teams meet in which battle, and with which numbers.
#[derive(Clone, Debug)]
pub struct League {
    teams: Teams,
    seed: u64,
    name: String,
    prior: Prior,
    samples: Vec<Team>,
}

/// A word that names no league.
#[derive(Clone, Copy, Debug, PartialEq, Eq)]
pub struct NoLeague;

impl fmt::Display for NoLeague {
    fn fmt(&self, f: &mut fmt::Formatter<'_>) -> fmt::Result {
        f.write_str("a league is samples:SEED or drawn:SEED")
    }
}

impl core::error::Error for NoLeague {}

impl FromStr for League {
    type Err = NoLeague;

    fn from_str(name: &str) -> Result<League, NoLeague> {
        let (teams, seed) = name.split_once(':').ok_or(NoLeague)?;
        let teams = match teams {
            "samples" => Teams::Samples,
            "drawn" => Teams::Drawn,
            _ => return Err(NoLeague),
        };
        Ok(League::new(teams, seed.parse().map_err(|_| NoLeague)?))
    }
}

impl League {
    /// A league whose battles depend on its teams, its seed and the bots. Only the low 31 bits of the seed count.
    #[must_use]
    pub fn new(teams: Teams, seed: u64) -> League {
        let prior = Prior::samples();
        let made = prior.teams().iter().map(|(specs, _)| Team::new(specs));
        let samples = made.filter_map(Result::ok).collect();
        let name = match teams {
            Teams::Samples => format!("samples:{seed}"),
            Teams::Drawn => format!("drawn:{seed}"),
        };
        League {
            teams,
            seed,
            name,
            prior,
            samples,
        }
    }

    /// The teams and the seed, such as `samples:7`.
    #[must_use]
    pub fn name(&self) -> &str {
        &self.name
    }

    /// A line of a file of results: the league, both bots, the number of the battle and its score, with tabs between them.
    #[must_use]
    pub fn line(&self, bots: [Bot; 2], number: u64, score: f64) -> String {
        let ([one, two], name) = (bots, &self.name);
        format!("{name}\t{one}\t{two}\t{number}\t{score}\n")
    }

    /// Plays a battle; returns 1 if the first bot won, 0 if the second did, and 0.5 for a tie.
    ///
    /// Battles `2 n` and `2 n + 1` have the same teams, and the bots swap sides. Without a budget of time the result is the same each time.
    #[must_use]
    pub fn score(&self, one: Bot, two: Bot, number: u64) -> f64 {
        let mut dice = Dice::new((self.seed << 32) | (number / 2));
        let teams = [self.team(&mut dice), self.team(&mut dice)];
        let mut dice = Dice::new((self.seed << 32) | (1 << 31) | number);
        let is_first = number % 2 == 0;
        let bots = if is_first { [one, two] } else { [two, one] };
        let outcome = play(bots, teams.each_ref(), &self.prior, &mut dice, |_| {});
        match outcome.winner() {
            Some(side) if (side == Side::One) == is_first => 1.0,
            Some(_) => 0.0,
            None => 0.5,
        }
    }

    fn team(&self, dice: &mut Dice) -> Team {
        match self.teams {
            Teams::Samples => self.samples[dice.below(self.samples.len())].clone(),
            Teams::Drawn => random_team(dice.bits(), 6, DrawnFrom::All).expect("six members"),
        }
    }
}

/// A pair of bots by their numbers, and the scores of the first.
pub type Pair = (usize, usize, Vec<f64>);

/// The scores of the battles of some bots, each against each other one, by the numbers of the battles: their order makes no difference.
#[derive(Clone, Debug)]
pub struct Results {
    bots: Vec<Bot>,
    scores: BTreeMap<(usize, usize, u64), f64>,
}

impl Results {
    /// No results, of these bots.
    #[must_use]
    pub fn new(bots: &[Bot]) -> Results {
        Results {
            bots: bots.to_vec(),
            scores: BTreeMap::new(),
        }
    }

    /// The pairs of bots, by their numbers.
    pub fn pairs(&self) -> impl Iterator<Item = (usize, usize)> + use<> {
        let count = self.bots.len();
        (0..count).flat_map(move |one| (one + 1..count).map(move |two| (one, two)))
    }

    /// Adds the score of a battle of a pair.
    pub fn add(&mut self, pair: (usize, usize), number: u64, score: f64) {
        self.scores.insert((pair.0, pair.1, number), score);
    }

    /// Whether the score of a battle of a pair is there.
    #[must_use]
    pub fn has(&self, pair: (usize, usize), number: u64) -> bool {
        self.scores.contains_key(&(pair.0, pair.1, number))
    }

    /// The results of the battles with numbers below one.
    #[must_use]
    pub fn up_to(mut self, number: u64) -> Results {
        self.scores.retain(|(_, _, at), _| *at < number);
        self
    }

    /// Adds the scores of a text with lines of [`League::line`]. Those of other leagues and bots are passed over.
    ///
    /// # Errors
    ///
    /// The number, from 1, of the first line that is not such a line.
    pub fn read(&mut self, league: &League, text: &str) -> Result<(), usize> {
        for (at, line) in text.lines().enumerate() {
            let (of, pair, battle, score) = read_line(line).ok_or(at + 1)?;
            let [one, two] = pair.map(|bot| self.bots.iter().position(|it| *it == bot));
            if let (Some(one), Some(two), true) = (one, two, of == league.name()) {
                self.add((one, two), battle, score);
            }
        }
        Ok(())
    }

    /// Two tables in Markdown. The first has the share of battles that the first bot of each pair won, a tie counting as half, with Wilson's
    /// 95 % interval. The second has [`ratings`], with the interval of 95 % of the ratings of 400 leagues that are drawn again from the scores.
    #[must_use]
    pub fn table(&self) -> String {
        let of_pair = |(one, two): (usize, usize)| {
            let scores = self.scores.range((one, two, 0)..=(one, two, u64::MAX));
            (one, two, scores.map(|(_, score)| *score).collect())
        };
        let pairs: Vec<Pair> = self.pairs().map(of_pair).collect();
        let mut text =
            String::from("| First | Second | Battles | Won | 95 % |\n|---|---|---:|---:|---|\n");
        for (one, two, scores) in pairs.iter().filter(|(_, _, scores)| !scores.is_empty()) {
            let (share, [low, high]) = wilson(scores);
            let ([one, two], count) = ([one, two].map(|at| self.bots[*at]), scores.len());
            text += &format!(
                "| `{one}` | `{two}` | {count} | {share:.1} % | {low:.1} to {high:.1} |\n"
            );
        }
        text + &self.ratings(&pairs)
    }

    fn ratings(&self, pairs: &[Pair]) -> String {
        const AGAIN: usize = 400;
        let (count, mut dice) = (self.bots.len(), Dice::new(1));
        let again: Vec<_> = (0..AGAIN)
            .map(|_| ratings(count, &drawn_again(pairs, &mut dice)))
            .collect();
        let mut text = String::from("\n| Bot | Elo | 95 % |\n|---|---:|---|\n");
        for (at, (bot, rating)) in self.bots.iter().zip(ratings(count, pairs)).enumerate() {
            let mut all: Vec<f64> = again.iter().map(|ratings| ratings[at]).collect();
            all.sort_by(f64::total_cmp);
            let (low, high) = (all[AGAIN / 40], all[AGAIN - 1 - AGAIN / 40]);
            text += &format!("| `{bot}` | {rating:.0} | {low:.0} to {high:.0} |\n");
        }
        text
    }
}

/// The league, the bots, the number and the score of a line.
fn read_line(line: &str) -> Option<(&str, [Bot; 2], u64, f64)> {
    let fields: Vec<&str> = line.split('\t').collect();
    let [league, one, two, number, score] = fields.as_slice() else {
        return None;
    };
    let score = match *score {
        "0" => 0.0,
        "0.5" => 0.5,
        "1" => 1.0,
        _ => return None,
    };
    let bots = [one.parse().ok()?, two.parse().ok()?];
    Some((league, bots, number.parse().ok()?, score))
}

/// As many scores of each pair, drawn from its own.
fn drawn_again(pairs: &[Pair], dice: &mut Dice) -> Vec<Pair> {
    let drawn = pairs.iter().map(|(one, two, scores)| {
        let scores = scores.iter().map(|_| scores[dice.below(scores.len())]);
        (*one, *two, scores.collect())
    });
    drawn.collect()
}

/// The mean of scores in percent, with Wilson's 95 % interval.
fn wilson(scores: &[f64]) -> (f64, [f64; 2]) {
    const Z: f64 = 1.959_964;
    let count = scores.len() as f64;
    let share = scores.iter().sum::<f64>() / count;
    let middle = share + Z * Z / (2.0 * count);
    let half = Z * (share * (1.0 - share) / count + Z * Z / (4.0 * count * count)).sqrt();
    let ends = [middle - half, middle + half];
    (
        100.0 * share,
        ends.map(|it| 100.0 * it / (1.0 + Z * Z / count)),
    )
}

/// The ratings of `count` bots by the model of Bradley and Terry: 400 for odds of 10 to 1, with the first bot at 0.
///
/// It is 200 steps of the iteration by minorization. Each pair has half a win for both more, so that no rating is without bound.
#[must_use]
pub fn ratings(count: usize, pairs: &[Pair]) -> Vec<f64> {
    let mut strengths = alloc::vec![1.0; count];
    for _ in 0..200 {
        let (mut won, mut met) = (alloc::vec![0.0; count], alloc::vec![0.0; count]);
        for (one, two, scores) in pairs {
            let games = scores.len() as f64 + 1.0;
            let wins = scores.iter().sum::<f64>() + 0.5;
            won[*one] += wins;
            won[*two] += games - wins;
            let each = games / (strengths[*one] + strengths[*two]);
            met[*one] += each;
            met[*two] += each;
        }
        strengths = won.iter().zip(&met).map(|(won, met)| won / met).collect();
    }
    let first = strengths.first().copied().unwrap_or(1.0);
    let rating = |it: &f64| 400.0 * f64::log10(it / first);
    strengths.iter().map(rating).collect()
}
