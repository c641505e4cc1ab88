//! The command line: subcommands and their arguments.
use crate::input::{Input, Terms};
use crate::{
    batch, bench, calc, explain, follow, help, league, play, replay, search, shell, showdown, team,
};
use clap::{Args, Parser, Subcommand};

/// The build of the engine.
const BUILD: &str = "plain build; docs/PLAIN.md";

/// The version and the build.
pub fn version() -> &'static str {
    format!("{} ({BUILD})", env!("CARGO_PKG_VERSION")).leak()
}

/// Plays link battles of the first generation
#[derive(Parser)]
#[command(name = "gen1", version = version(), after_help = help::PROGRAM)]
pub struct Words {
    #[command(subcommand)]
    pub command: Command,
}

#[derive(Subcommand)]
pub enum Command {
    /// Plays the choices of an input, and prints a line for each event of the battle
    #[command(after_help = help::RUN)]
    Run(Run),
    /// Plays the choices of an input, and writes the events as bytes, the log, which print reads
    #[command(after_help = help::RUN)]
    Log(Battle),
    /// Reads a log, and prints a line for each event
    #[command(after_help = help::PRINT)]
    Print(Input),
    /// Prints the possible damages of moves and the chances to knock out
    #[command(after_help = help::CALC)]
    Calc(calc::Calc),
    /// Plays a battle of two players who submit their choices separately, and prints each reply
    #[command(after_help = help::ROOM)]
    Room(Room),
    /// Plays the choices of an input, and prints the state of the battle after them
    #[command(after_help = help::RUN)]
    State(Look),
    /// Prints a battle in sentences, with each draw and its effect
    #[command(after_help = help::RUN)]
    Explain(explain::Explain),
    /// Converts a team between export text, packed line and JSON
    #[command(after_help = help::TEAM)]
    Team(team::Convert),
    /// Lists the names of species or moves
    Names(team::Names),
    /// Speaks the text protocol of Showdown's simulator over standard input and output
    #[command(after_help = help::SHOWDOWN)]
    Showdown(showdown::Showdown),
    /// Reads a battle log of Showdown, and prints what the player of a side knows after it
    #[command(after_help = help::FOLLOW)]
    Follow(follow::Follow),
    /// Searches for a side's best choice, from what its player knows
    #[command(after_help = help::THINK)]
    Think(search::Think),
    /// Prints how often side 1 wins if both sides play as well as can be
    #[command(after_help = help::SOLVE)]
    Solve(search::Solve),
    /// Plays bots against each other, and prints tables of their strength
    #[command(after_help = help::LEAGUE)]
    League(league::Asked),
    /// Plays against the computer, in the terminal
    #[command(after_help = help::PLAY)]
    Play(play::Game),
    /// Makes a page that replays a battle in a browser
    #[command(after_help = help::REPLAY)]
    Replay(replay::Replay),
    /// Plays random battles, and prints how long an update takes
    #[command(after_help = help::BENCH)]
    Bench(bench::Measure),
    /// Prints the completions of the command line for a shell
    Completions(shell::Completions),
    /// Prints the manual page gen1(1)
    Manual,
}

/// A battle: an input, or teams and seed on the command line and choices in the input.
#[derive(Args)]
pub struct Battle {
    #[command(flatten)]
    pub input: Input,
    #[command(flatten)]
    pub terms: Terms,
}

#[derive(Args)]
pub struct Run {
    #[command(flatten)]
    pub battle: Battle,
    /// Prints an object for each update in place of lines
    #[arg(long)]
    pub json: bool,
    /// Prints the battle as Showdown's battle log (docs/PROGRAM.md)
    #[arg(long, conflicts_with_all = ["json", "lines"])]
    pub showdown: bool,
    #[command(flatten)]
    pub batch: batch::Batch,
}

#[derive(Args)]
pub struct Room {
    #[command(flatten)]
    pub battle: Battle,
    /// Prints an object for each reply in place of lines
    #[arg(long)]
    pub json: bool,
}

#[derive(Args)]
pub struct Look {
    #[command(flatten)]
    pub battle: Battle,
    /// Prints the 384 bytes of the battle as hexadecimal digits
    #[arg(long)]
    pub bytes: bool,
    /// Prints an object with the state, the choices of both sides, and the bytes
    #[arg(long, conflicts_with = "bytes")]
    pub json: bool,
}

/// A number with a comma before each three digits.
pub fn thousands(number: u64) -> String {
    match number {
        0..1000 => number.to_string(),
        _ => format!("{},{:03}", thousands(number / 1000), number % 1000),
    }
}
