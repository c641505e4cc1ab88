//! Pokémon Showdown's protocol for first-generation link battles.
//!
//! | For | Take |
//! |---|---|
//! | a whole simulator, commands in and messages out | [`Simulator`] |
//! | the lines of a battle that you run, or of a [`Host`](gen1::Host) | [`LineWriter`] |
//! | a player of a battle: its request, its choices read | [`Seat`] |
//! | a log read back, as the knowledge of a [`Player`](gen1::Player) or as a battle to search | [`Follower`] |
//! | teams as text, with nicknames | [`Members`] |
//! | teams checked by the rules of a format | [`Formats`] |
//! | a second sleep or freeze that loses the battle | [`EndingClauses`] |
//! | a seed and sides that neither player chooses | [`Agreement`] |
//!
//! The table of events and lines is in docs/PROGRAM.md, "Showdown's battle log". Showdown's forms are from memory of its public documents.
//!
//! ```
//! use gen1_showdown::{Options, Simulator};
//! let mut simulator = Simulator::new(Options::default());
//! for line in [
//!     r#">start {"formatid":"gen1customgame","seed":[1,2,3,4]}"#,
//!     r#">player p1 {"name":"Alice","team":"Tauros||||bodyslam|||||||"}"#,
//!     r#">player p2 {"name":"Bob","team":"Alakazam||||psychic|||||||"}"#,
//!     ">p1 move bodyslam",
//! ] {
//!     print!("{}", simulator.take(line).expect("a command").text);
//! }
//! assert!(simulator.take(">p2 move 1").expect("a command").text.contains("|turn|2\n"));
//! ```
#![forbid(unsafe_code)]

mod follow;
mod formats;
mod game;
mod lines;
mod members;
pub mod reading;
mod request;
mod seat;
mod simulator;
mod texts;
mod variants;
mod words;

pub use follow::{Chosen, Follower, Note};
pub use formats::{Complaint, Formats};
pub use lines::{Heading, LineWriter, Viewer};
pub use members::{Members, names_of, numbered};
pub use request::{choice_in, request};
pub use seat::{Seat, Slot};
pub use simulator::{Options, Reply, Simulator};
pub use variants::{Agreement, BrokenCommitment, EndingClauses, agree, commit};
pub use words::Hp;

use gen1::{LogFault, Refusal, Side, TeamRefusal};
use std::error::Error;
use std::fmt;

/// Why a command, a log or a guess is refused.
#[derive(Clone, Debug, PartialEq)]
#[non_exhaustive]
pub enum Fault {
    /// A line that is not a command, or that can't be part of the battle.
    Line {
        /// The number of the line, from 1.
        line: usize,
        /// What was expected, and what was found.
        why: String,
    },
    /// The team of a side is refused.
    Team {
        /// The side whose team it is.
        side: Side,
        /// The rule that it breaks.
        why: TeamRefusal,
    },
    /// The guess of a team does not fit the members that were seen.
    Guess(String),
    /// The battle refuses a pair of choices.
    Pair {
        /// The number of the pair, from 0.
        number: usize,
        /// The reason.
        why: Refusal,
    },
    /// The bytes of a log are not of this battle.
    Log(LogFault),
}

impl fmt::Display for Fault {
    fn fmt(&self, f: &mut fmt::Formatter<'_>) -> fmt::Result {
        match self {
            Fault::Line { line, why } => write!(f, "line {line}: {why}"),
            Fault::Team { side, why } => write!(f, "team {side}: {why}"),
            Fault::Guess(why) => f.write_str(why),
            Fault::Pair { number, why } => write!(f, "pair {number}: {why}"),
            Fault::Log(why) => why.fmt(f),
        }
    }
}

impl Error for Fault {}

impl From<LogFault> for Fault {
    fn from(why: LogFault) -> Fault {
        Fault::Log(why)
    }
}

/// `p1` or `p2`.
pub fn player_of(side: Side) -> &'static str {
    match side {
        Side::One => "p1",
        Side::Two => "p2",
    }
}

/// The side of `p1` or `p2`, with spaces around it.
fn side_in(text: &str) -> Result<Side, String> {
    match text.trim() {
        "p1" => Ok(Side::One),
        "p2" => Ok(Side::Two),
        other => Err(format!("expected p1 or p2, found \"{other}\"")),
    }
}

fn index(side: Side) -> usize {
    usize::from(side.number()) - 1
}

/// The letters and digits of a name, in lower case.
fn id_of(name: &str) -> String {
    let letters = name.chars().filter(char::is_ascii_alphanumeric);
    letters.map(|letter| letter.to_ascii_lowercase()).collect()
}

/// The team of a side.
fn team(side: Side, members: &Members) -> Result<gen1::Team, Fault> {
    gen1::Team::new(&members.specs).map_err(|why| Fault::Team { side, why })
}

/// The examples of README.md are tests.
#[cfg(doctest)]
#[doc = include_str!("../README.md")]
mod readme {}
