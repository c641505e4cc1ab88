//! A measurement of speed.
use crate::commands::text_of;
use crate::fault::Fault;
use crate::files::put;
use crate::random;
use clap::Args;
use gen1::{Battle, Choice, EventList, Offered, Side};
use gen1_search::Dice;
use std::hint::black_box;
use std::time::{Duration, Instant};

/// How many battles are drawn; each row plays them in turn.
const BATTLES: usize = 256;

/// The arguments of `bench`.
#[derive(Args)]
pub struct Measure {
    /// How many seconds to run
    #[arg(long, default_value_t = 3, value_parser = clap::value_parser!(u64).range(1..=3600))]
    seconds: u64,
    /// The seed for teams and choices
    #[arg(long, default_value_t = 1)]
    seed: u64,
}

/// A battle before its first update, and the choices of a random game of it.
struct Game {
    start: Battle,
    pairs: Vec<(Choice, Choice)>,
}

/// Plays random battles of full teams in four ways, and prints how long an update takes in each.
pub fn bench(measure: &Measure) -> Result<(), Fault> {
    let mut dice = Dice::new(measure.seed);
    let games: Vec<_> = (0..BATTLES).map(|_| game(&mut dice)).collect();
    let limit = Duration::from_secs(measure.seconds) / 4;
    let row = |name: &str, includes: &str, play: &mut dyn FnMut(&Game) -> usize| {
        let seconds = time_of_update(&games, limit, play);
        let (time, rate) = (seconds * 1e9, 1.0 / seconds);
        put(format!(
            "{name:<7}{time:>7.0} ns an update{rate:>12.0} a second  {includes}\n"
        ))
    };
    let mut events = EventList::new();
    put(format!(
        "gen1 {}, nothing of it proved\n",
        crate::words::version()
    ))?;
    row(
        "engine",
        "no events; choices recorded before",
        &mut recorded,
    )?;
    let includes = "no events; choices drawn from masks, not tested again";
    row("masks", includes, &mut |game| masked(game, &mut dice))?;
    let includes = "events in a list; choices drawn from lists";
    row("lists", includes, &mut |game| {
        listed(game, &mut dice, &mut events, |_| ())
    })?;
    let lines = |events: &EventList| drop(black_box(text_of(events)));
    let includes = "as lists, and each event as a line of text";
    row("lines", includes, &mut |game| {
        listed(game, &mut dice, &mut events, lines)
    })
}

/// Plays games in turn until the time is over, and returns the seconds that an update took.
fn time_of_update(games: &[Game], limit: Duration, play: &mut dyn FnMut(&Game) -> usize) -> f64 {
    let (begin, mut updates) = (Instant::now(), 0);
    for game in games.iter().cycle() {
        updates += play(game);
        if begin.elapsed() >= limit {
            break;
        }
    }
    begin.elapsed().as_secs_f64() / updates as f64
}

fn game(dice: &mut Dice) -> Game {
    let start = Battle::new(
        &random::team(6, dice),
        &random::team(6, dice),
        dice.numbers(),
    );
    let (mut battle, mut pairs) = (start.clone(), Vec::new());
    while let Some((one, two)) = drawn(&battle, dice) {
        pairs.push((one.choice(), two.choice()));
        // Choices from the mask are accepted.
        let _ = battle.update_silent(one, two);
    }
    Game { start, pairs }
}

/// A choice for each side; `None` once the battle is over.
fn drawn(battle: &Battle, dice: &mut Dice) -> Option<(Offered, Offered)> {
    let [one, two] = Side::BOTH.map(|side| random::choice(battle.offered_mask(side), dice));
    Some((one?, two?))
}

/// Plays the recorded choices of a game. Like the two functions below, it returns the number of updates.
fn recorded(game: &Game) -> usize {
    let mut battle = game.start.clone();
    for (one, two) in &game.pairs {
        // Choices of the same battle are accepted again.
        let _ = battle.update_silent(*one, *two);
    }
    black_box(battle);
    game.pairs.len()
}

fn masked(game: &Game, dice: &mut Dice) -> usize {
    let (mut battle, mut updates) = (game.start.clone(), 0);
    while let Some((one, two)) = drawn(&battle, dice) {
        let _ = battle.update_silent(one, two);
        updates += 1;
    }
    updates
}

fn listed(
    game: &Game,
    dice: &mut Dice,
    events: &mut EventList,
    then: impl Fn(&EventList),
) -> usize {
    let (mut battle, mut updates) = (game.start.clone(), 0);
    let mut choose = |battle: &Battle, side| random::one_of(&battle.choices(side), dice).copied();
    while let (Some(one), Some(two)) = (choose(&battle, Side::One), choose(&battle, Side::Two)) {
        if battle.update_with(one, two, events).is_err() {
            break;
        }
        then(events);
        updates += 1;
    }
    updates
}
