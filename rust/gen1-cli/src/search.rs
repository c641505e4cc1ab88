//! `gen1 think` and `gen1 solve`: searches over the battle of an input, by the crate gen1-search.
use crate::bot::levels;
use crate::commands::played;
use crate::fault::Fault;
use crate::files::{put, read_table, replace};
use crate::game;
use crate::input::{Given, Start, team, team_named};
use crate::json::{line_of, turn_of};
use crate::words;
use clap::Args;
use gen1::{Battle, Choice, LogBuf, OutcomeOptions, Player, Side, Teller, write_log};
use gen1_search::{
    Interval, Pp, Prior, Progress, SolveOptions, Solver, Stopped, ThinkOptions, Thought,
    choice_words,
};
use serde::Serialize;
use std::io::{IsTerminal, Write};
use std::path::PathBuf;
use std::time::Duration;

/// The arguments of `think`.
#[derive(Args)]
pub struct Think {
    #[command(flatten)]
    pub battle: words::Battle,
    /// The side that thinks, from what its player knows
    #[arg(long, default_value_t = 1, value_parser = clap::value_parser!(u8).range(1..=2))]
    side: u8,
    #[arg(long, default_value_t = 3, value_parser = clap::value_parser!(u8).range(1..=5), help = levels("The level and its nodes"))]
    level: u8,
    /// The nodes of the search, in place of a level
    #[arg(long, value_parser = clap::value_parser!(u64).range(1..=1_000_000_000), conflicts_with = "level")]
    nodes: Option<u64>,
    /// Ends the search after so many milliseconds; without --nodes nothing else ends it
    #[arg(long, value_parser = clap::value_parser!(u64).range(1..=3_600_000), conflicts_with = "level")]
    ms: Option<u64>,
    /// A seed of the search; the same seed and nodes give the same result
    #[arg(long, default_value_t = 1)]
    search_seed: u64,
    /// A team that the foe may have: a file with an export text, a packed line or JSON; or the text itself. May be given more than once;
    /// by default the sample teams
    #[arg(long, value_name = "TEAM")]
    foe: Vec<PathBuf>,
    /// Prints an object
    #[arg(long)]
    json: bool,
}

/// Prints what a side may choose, from what its player knows after the choices of an input.
pub fn think(asked: &Think, given: &Given) -> Result<(), Fault> {
    let side = if asked.side == 1 {
        Side::One
    } else {
        Side::Two
    };
    let (start, pairs) = given.start_and_choices()?;
    let mut options = match (asked.nodes, asked.ms) {
        (None, None) => ThinkOptions::level(asked.level),
        _ => ThinkOptions::default(),
    };
    options.nodes = match (asked.nodes, asked.ms) {
        (Some(nodes), _) => nodes,
        (None, Some(_)) => u64::MAX,
        (None, None) => options.nodes,
    };
    options.time = asked.ms.map(Duration::from_millis);
    options.seed = asked.search_seed;
    let mut battle = start.battle.clone();
    let player = player(side, &start, |then| game::play(&mut battle, &pairs, then))?;
    let thought = gen1_search::think(&player, &prior(&asked.foe)?, &options);
    let thought = thought.map_err(|why| Fault::search(&why.to_string()))?;
    put(match asked.json {
        true => thought_json(side, &battle, &thought),
        false => thought_text(side, &battle, &thought),
    })
}

/// The player of a side after the updates that `play` plays.
fn player(
    side: Side,
    start: &Start,
    play: impl FnOnce(&mut dyn FnMut(&game::Step) -> Result<(), Fault>) -> Result<(), Fault>,
) -> Result<Player, Fault> {
    let [one, two] = [
        team(1, &start.teams[0].specs)?,
        team(2, &start.teams[1].specs)?,
    ];
    let (own, foe) = if side == Side::One {
        (one, two)
    } else {
        (two, one)
    };
    let mut player = Player::with_foes(side, &own, foe.members().len() as u8);
    let mut teller = Teller::new(side);
    play(&mut |step| {
        let mut log = LogBuf::new();
        write_log(step.events, &mut log);
        let done = teller.report(step.after, &log, &mut player);
        done.map_err(|why| Fault::search(&why.to_string()))
    })?;
    Ok(player)
}

/// The teams that the foe may have, each as probable.
fn prior(teams: &[PathBuf]) -> Result<Prior, Fault> {
    if teams.is_empty() {
        return Ok(Prior::samples());
    }
    let mut read = Vec::new();
    for path in teams {
        read.push((team_named(path)?.specs.to_vec(), 1.0));
    }
    Prior::new(read).map_err(|why| Fault::search(&format!("--foe: {why}")))
}

fn thought_text(side: Side, battle: &Battle, thought: &Thought) -> String {
    let Thought {
        value,
        error,
        nodes,
        ..
    } = thought;
    let turn = turn_of(battle);
    let mut text =
        format!("side {side}, turn {turn}: value {value:.3} +- {error:.3}, {nodes} nodes\n");
    for it in &thought.choices {
        let value = it.value.map_or("-".into(), |value| format!("{value:.3}"));
        let percent = 100.0 * it.probability;
        text += &format!("{percent:5.1} %  {value:>5}  {}\n", it.words);
    }
    let line = thought.choices.first().map(|it| it.line.as_slice());
    for [own, foe] in line.unwrap_or_default() {
        text += &format!("  {own} (foe: {foe})\n");
    }
    text
}

fn thought_json(side: Side, battle: &Battle, thought: &Thought) -> String {
    #[derive(Serialize)]
    struct Considered<'a> {
        choice: Choice,
        words: &'a str,
        probability: f64,
        value: Option<f64>,
        line: &'a [[String; 2]],
    }
    #[derive(Serialize)]
    struct ThoughtObject<'a> {
        side: Side,
        turn: u16,
        value: f64,
        error: f64,
        nodes: u64,
        choices: Vec<Considered<'a>>,
    }
    let considered = thought.choices.iter().map(|it| Considered {
        choice: it.choice,
        words: &it.words,
        probability: it.probability,
        value: it.value,
        line: &it.line,
    });
    line_of(&ThoughtObject {
        side,
        turn: turn_of(battle),
        value: thought.value,
        error: thought.error,
        nodes: thought.nodes,
        choices: considered.collect(),
    })
}

/// The arguments of `solve`.
#[derive(Args)]
pub struct Solve {
    #[command(flatten)]
    pub battle: words::Battle,
    /// Each move keeps its PP: fewer positions
    #[arg(long)]
    endless: bool,
    /// The width of the interval at which to stop
    #[arg(long, default_value_t = 1e-6)]
    tolerance: f64,
    /// The megabytes for positions and their successors
    #[arg(long, default_value_t = 1024, value_parser = clap::value_parser!(u32).range(1..=1_000_000))]
    memory: u32,
    /// The classes of damage of each roll, from 1: fewer positions, of a game whose damage has these classes
    #[arg(long, value_parser = clap::value_parser!(u8).range(1..=39))]
    classes: Option<u8>,
    /// Leaves out draws that are less probable together; the interval holds them
    #[arg(long, default_value_t = 0.0)]
    least: f64,
    /// A file with positions and bounds: read if it is there, and written at the end
    #[arg(long, value_name = "NAME")]
    table: Option<PathBuf>,
    /// Prints an object
    #[arg(long)]
    json: bool,
}

/// Prints the value of the battle after the choices of an input, between two bounds, and how both sides play.
pub fn solve(asked: &Solve, given: &Given) -> Result<(), Fault> {
    let battle = played(given, |_| Ok(()))?;
    let mut solver = solver(asked, &battle)?;
    let shows = std::io::stderr().is_terminal();
    let run = solver.run(|progress| {
        if shows {
            show(progress);
        }
        true
    });
    if shows {
        // If standard error cannot be written, the progress is lost.
        let _ = writeln!(std::io::stderr());
    }
    let stopped = run.map_err(|why| Fault::search(&why.to_string()))?;
    if let Some(path) = &asked.table {
        replace(path, &solver.table())?;
    }
    put(solved(asked, &solver, &battle, stopped)?)
}

/// A new solver, or that of the table.
fn solver(asked: &Solve, battle: &Battle) -> Result<Solver, Fault> {
    let mut options = SolveOptions::default();
    options.pp = if asked.endless {
        Pp::Endless
    } else {
        Pp::Counted
    };
    options.outcomes = OutcomeOptions::new()
        .with_damage_classes(asked.classes.unwrap_or(0))
        .with_least_probability(asked.least)
        .map_err(|why| Fault::search(&why.to_string()))?;
    options.tolerance = asked.tolerance;
    options.memory = asked.memory as usize * 1_000_000;
    let new = Solver::new(battle, options).map_err(|why| Fault::search(&why.to_string()))?;
    let stored = asked.table.as_deref().map(read_table).transpose()?;
    let (Some(bytes), Some(path)) = (stored.flatten(), &asked.table) else {
        return Ok(new);
    };
    let fault = |why: String| Fault::search(&why).within(&path.display().to_string());
    let loaded = Solver::load(&bytes, options).map_err(|why| fault(why.to_string()))?;
    match loaded.is_like(&new) {
        true => Ok(loaded),
        false => Err(fault("the table is that of another battle".into())),
    }
}

fn show(progress: &Progress) {
    let Interval { low, high } = progress.start;
    let (positions, sweeps) = (progress.positions, progress.sweeps);
    let megabytes = progress.bytes / 1_000_000;
    let _ = write!(
        std::io::stderr(),
        "\r{low:.6} to {high:.6}: {positions} positions, {megabytes} MB, {sweeps} sweeps  "
    );
}

/// How often a side makes a choice.
#[derive(Serialize)]
struct Share {
    choice: Choice,
    words: String,
    probability: f64,
}

/// The value and the plays of both sides.
fn solved(
    asked: &Solve,
    solver: &Solver,
    battle: &Battle,
    stopped: Stopped,
) -> Result<String, Fault> {
    let play = solver
        .play(battle)
        .map_err(|why| Fault::search(&why.to_string()))?;
    let shares = |side: Side, of: &[f64]| -> Vec<Share> {
        let choices = battle.choices(side);
        let both = choices.iter().zip(of).filter(|(_, share)| **share > 1e-9);
        let shares = both.map(|(choice, probability)| Share {
            choice: *choice,
            words: choice_words(battle, side, *choice),
            probability: *probability,
        });
        shares.collect()
    };
    let plays = play.map_or([Vec::new(), Vec::new()], |play| {
        [shares(Side::One, &play.one), shares(Side::Two, &play.two)]
    });
    let progress = solver.progress();
    Ok(match asked.json {
        true => solved_json(&progress, stopped, plays),
        false => solved_text(&progress, stopped, &plays),
    })
}

fn reason(stopped: Stopped) -> &'static str {
    match stopped {
        Stopped::Solved => "solved",
        Stopped::Memory => "memory",
        Stopped::Endless => "endless",
        Stopped::Sweeps => "sweeps",
        Stopped::Asked => "asked",
    }
}

fn solved_text(progress: &Progress, stopped: Stopped, plays: &[Vec<Share>; 2]) -> String {
    let Interval { low, high } = progress.start;
    let (positions, sweeps, why) = (progress.positions, progress.sweeps, reason(stopped));
    let mut text = format!(
        "side 1 wins with probability {low:.6} to {high:.6}\n{why}: {positions} positions, {sweeps} sweeps\n"
    );
    for (side, shares) in Side::BOTH.into_iter().zip(plays) {
        for Share {
            words, probability, ..
        } in shares
        {
            text += &format!("side {side}: {:5.1} %  {words}\n", 100.0 * probability);
        }
    }
    text
}

fn solved_json(progress: &Progress, stopped: Stopped, plays: [Vec<Share>; 2]) -> String {
    #[derive(Serialize)]
    struct SolvedObject {
        low: f64,
        high: f64,
        stopped: &'static str,
        positions: usize,
        expanded: usize,
        sweeps: u32,
        bytes: usize,
        plays: [Vec<Share>; 2],
    }
    let Interval { low, high } = progress.start;
    line_of(&SolvedObject {
        low,
        high,
        stopped: reason(stopped),
        positions: progress.positions,
        expanded: progress.expanded,
        sweeps: progress.sweeps,
        bytes: progress.bytes,
        plays,
    })
}
