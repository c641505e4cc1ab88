//! A room of two players over pipes, with a third process as a spectator. Each gets only what it may know.
mod host;
mod pipes;
mod player;
mod protocol;
mod sheet;
mod spectator;

use clap::{Args, Parser, Subcommand};
use gen1::Side;
use host::{Host, Terms};
use pipes::{Mailbox, Process};
use player::Player;
use sheet::Sheet;
use std::io::{self, Write};
use std::path::PathBuf;
use std::process::ExitCode;
use std::time::Duration;

/// Plays a battle of two processes that choose independently, with a third one as a spectator
#[derive(Parser)]
#[command(
    name = "room",
    version,
    after_help = "Status: 0 done, 1 FILE is not a battle, 2 bad arguments, 3 a process, a read or a write failed."
)]
struct Words {
    #[command(subcommand)]
    role: Role,
}

#[derive(Subcommand)]
enum Role {
    /// Starts the players and the spectator, and plays the battle of FILE with them
    Host(Opening),
    /// A player: reads the lines of the room, and writes its choices
    Player {
        /// Its first choices, as bytes; after these it makes the first offered choice
        choices: Vec<u8>,
        /// After its first choices it chooses at random, with this seed
        #[arg(long)]
        seed: Option<u64>,
        /// Sends invalid lines and floods before each choice
        #[arg(long)]
        rude: bool,
    },
    /// The spectator: prints the lines of the log bytes that it reads
    Spectator {
        /// After each line of a turn, prints the active members and their state
        #[arg(long)]
        board: bool,
    },
}

#[derive(Args)]
struct Opening {
    /// A battle as the program's run takes it (docs/PROGRAM.md); its choices are ignored
    file: PathBuf,
    /// The command of player 1: words separated by white space. A first word `room` means this program
    #[arg(long, default_value = "room player --seed 1")]
    one: String,
    /// The command of player 2
    #[arg(long, default_value = "room player --seed 2")]
    two: String,
    /// The command of the spectator
    #[arg(long, default_value = "room spectator")]
    spectator: String,
    /// How many seconds a player may take for a choice before it is out
    #[arg(long, default_value_t = 10, value_parser = clap::value_parser!(u64).range(1..=86_400))]
    patience: u64,
    /// How many lines of a player are refused before it is out
    #[arg(long, default_value_t = 1000)]
    refusals: u32,
    /// Draws the numbers that follow from the seed of FILE, to play a battle again. Otherwise the operating system's are drawn
    #[arg(long)]
    replays: bool,
}

/// Plays the battle, and prints the report on each player to standard error.
fn host(opening: &Opening) -> Result<(), (u8, String)> {
    let text = std::fs::read_to_string(&opening.file)
        .map_err(|why| (3, format!("{}: {why}", opening.file.display())))?;
    let battle =
        Sheet::of(&text).map_err(|why| (1, format!("{}: {why}", opening.file.display())))?;
    let mailbox = Mailbox::default();
    let begin = |command, player| {
        Process::begin(command, player).map_err(|why| (3, format!("{command}: {why}")))
    };
    let one = begin(&opening.one, Some((Side::One, &mailbox)))?;
    let two = begin(&opening.two, Some((Side::Two, &mailbox)))?;
    let spectator = begin(&opening.spectator, None)?;
    let terms = Terms {
        patience: Duration::from_secs(opening.patience),
        refusals: opening.refusals,
        replays: opening.replays,
    };
    let report = Host::new(battle, [one, two], spectator, mailbox, terms).run();
    io::stderr()
        .write_all(report.as_bytes())
        .map_err(|why| (3, why.to_string()))
}

fn main() -> ExitCode {
    // A player that the host has stopped reading has nothing to add.
    let of_pipes = |done: io::Result<()>| match done {
        Err(why) if why.kind() != io::ErrorKind::BrokenPipe => Err((3, why.to_string())),
        _ => Ok(()),
    };
    let done = match Words::parse().role {
        Role::Host(opening) => host(&opening),
        Role::Player {
            choices,
            seed,
            rude,
        } => of_pipes(
            Player {
                choices,
                seed,
                is_rude: rude,
            }
            .run(io::stdin().lock(), io::stdout().lock()),
        ),
        Role::Spectator { board } => of_pipes(spectator::print_log(
            io::stdin().lock(),
            io::stdout().lock(),
            board,
        )),
    };
    done.map_or_else(
        |(status, why)| {
            // If standard error cannot be written, only the status reports the error.
            let _ = writeln!(io::stderr(), "error: {why}");
            ExitCode::from(status)
        },
        |()| ExitCode::SUCCESS,
    )
}
