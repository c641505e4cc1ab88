//! Many battles in one process: a battle on each line in, and an object on each line out (docs/PROGRAM.md, "JSON Lines").
use crate::fault::Fault;
use crate::files::{LineReader, put_all};
use crate::game;
use crate::input::{Given, ReadTerms, Terms};
use crate::json::{UpdateObject, line_of, turn_of};
use clap::Args;
use gen1::{Line, Outcome};
use indicatif::{ProgressBar, ProgressStyle};
use rayon::ThreadPool;
use rayon::prelude::*;
use serde::Serialize;
use std::io::IsTerminal;
use std::path::Path;

/// The arguments of `run --lines`.
#[derive(Args)]
pub struct Batch {
    /// Reads a battle from each line, and prints an object for each
    #[arg(long)]
    pub lines: bool,
    /// How many battles of --lines are played at a time; 0 is one per core
    #[arg(long, value_name = "N", default_value_t = 0, requires = "lines", value_parser = clap::value_parser!(u16).range(0..=1024))]
    jobs: u16,
}

/// The result of a line of the input.
#[derive(Serialize)]
struct LineObject {
    /// The number of the line, from 1.
    line: u64,
    #[serde(skip_serializing_if = "Option::is_none")]
    outcome: Option<Outcome>,
    #[serde(skip_serializing_if = "Option::is_none")]
    turn: Option<u16>,
    #[serde(flatten)]
    played: Played,
    #[serde(skip_serializing_if = "Option::is_none")]
    error: Option<String>,
    #[serde(skip_serializing_if = "Option::is_none")]
    explanation: Option<String>,
}

/// The updates that were accepted, as lines of text or as objects.
#[derive(Serialize)]
#[serde(rename_all = "lowercase")]
enum Played {
    Lines(Vec<Line>),
    Updates(Vec<UpdateObject>),
}

/// How the lines of an input are played.
struct Player {
    terms: ReadTerms,
    strict: bool,
    json: bool,
}

/// `run --lines`: the lines are read in pieces, so that no more than one piece is in memory.
pub fn run(
    batch: &Batch,
    file: Option<&Path>,
    terms: &Terms,
    strict: bool,
    json: bool,
) -> Result<(), Fault> {
    let player = Player {
        terms: terms.read(file)?,
        strict,
        json,
    };
    let pool = pool_of(batch.jobs)?;
    let mut reader = LineReader::open(file)?;
    let bar = bar_for(reader.length());
    let (mut number, mut refused) = (0, 0);
    loop {
        let piece = reader.next_lines()?;
        if piece.is_empty() {
            break;
        }
        let done: Vec<_> = pool.install(|| {
            let lines = piece.par_iter().enumerate();
            lines
                .map(|(at, line)| player.play(number + at as u64 + 1, line))
                .collect()
        });
        number += piece.len() as u64;
        refused += done.iter().filter(|(_, is_refused)| *is_refused).count() as u64;
        bar.set_position(reader.taken());
        bar.set_message(format!("{number} battles"));
        put_all(done.into_iter().map(|(text, _)| text))?;
    }
    bar.finish_and_clear();
    match refused {
        0 => Ok(()),
        count => Err(Fault::lines(count)),
    }
}

/// Threads: as many as `--jobs` says, or one per core for 0.
pub fn pool_of(jobs: u16) -> Result<ThreadPool, Fault> {
    let pool = rayon::ThreadPoolBuilder::new()
        .num_threads(usize::from(jobs))
        .build();
    pool.map_err(|why| Fault::words("--jobs", &why.to_string()))
}

/// A progress bar on standard error, if that is a terminal and standard output is not.
fn bar_for(length: Option<u64>) -> ProgressBar {
    if !std::io::stderr().is_terminal() || std::io::stdout().is_terminal() {
        return ProgressBar::hidden();
    }
    let (bar, template) = match length {
        Some(length) => (
            ProgressBar::new(length),
            "{wide_bar} {percent}% {msg} {eta}",
        ),
        None => (ProgressBar::new_spinner(), "{spinner} {msg} {elapsed}"),
    };
    match ProgressStyle::with_template(template) {
        Ok(style) => bar.with_style(style),
        Err(_) => bar,
    }
}

impl Player {
    /// The object of a line, with its line feed, and whether it has an error.
    fn play(&self, number: u64, line: &[u8]) -> (String, bool) {
        let mut object = LineObject {
            line: number,
            outcome: None,
            turn: None,
            played: self.nothing(),
            error: None,
            explanation: None,
        };
        let refused = self.played(line, &mut object).err();
        if let Some(fault) = &refused {
            object.error = Some(fault.line().into());
            object.explanation = Some(fault.explanation().into());
        }
        (line_of(&object), refused.is_some())
    }

    fn nothing(&self) -> Played {
        match self.json {
            true => Played::Updates(Vec::new()),
            false => Played::Lines(Vec::new()),
        }
    }

    fn played(&self, line: &[u8], object: &mut LineObject) -> Result<(), Fault> {
        let given = Given::of_json(line, self.terms.clone(), self.strict)?;
        let (start, pairs) = given
            .start_and_choices()
            .map_err(|why| why.with_notes(&given.notes))?;
        let mut battle = start.battle;
        let played = &mut object.played;
        let done = game::play(&mut battle, &pairs, |step| {
            match played {
                Played::Lines(lines) => lines.extend(step.events.iter().map(Line::of)),
                Played::Updates(updates) => updates.push(UpdateObject::of(step)),
            }
            Ok(())
        });
        object.outcome = Some(battle.outcome());
        object.turn = Some(turn_of(&battle));
        done.map_err(|why| why.with_notes(&given.notes))
    }
}
