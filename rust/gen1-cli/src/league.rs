//! `gen1 league`: battles of bots side by side, and the tables of their strength.
use crate::batch::pool_of;
use crate::fault::Fault;
use crate::files::put;
use clap::{Args, ValueEnum};
use gen1_search::league::{Bot, League, Results, Teams};
use std::fs::{File, OpenOptions};
use std::io::{IsTerminal, Read, Write};
use std::path::{Path, PathBuf};
use std::sync::Mutex;
use std::sync::atomic::{AtomicUsize, Ordering};

/// The arguments of `league`.
#[derive(Args)]
pub struct Asked {
    /// Two or more bots: random, greedy, monte:MS, think:MS, nodes:N or level:N
    #[arg(value_name = "BOT", required = true, num_args = 2..)]
    bots: Vec<Bot>,
    /// The battles of each pair of bots
    #[arg(long, value_name = "N", default_value_t = 100, value_parser = clap::value_parser!(u64).range(1..=1_000_000))]
    battles: u64,
    /// The seed of teams and battles
    #[arg(long, value_name = "N", default_value_t = 1, value_parser = clap::value_parser!(u64).range(0..=0x7fff_ffff))]
    seed: u64,
    /// The sample teams, or six species with four moves each, drawn from all
    #[arg(long, value_enum, default_value_t = Kind::Samples)]
    teams: Kind,
    /// How many battles are played at a time; 0 is one per core
    #[arg(long, value_name = "N", default_value_t = 0, value_parser = clap::value_parser!(u16).range(0..=1024))]
    jobs: u16,
    /// A file of results: battles that are in it are not played again, and others are added as they end
    #[arg(long, value_name = "NAME")]
    file: Option<PathBuf>,
}

#[derive(Clone, Copy, ValueEnum)]
enum Kind {
    Samples,
    Drawn,
}

/// Plays the battles that the file does not have, and prints the tables.
pub fn league(asked: &Asked) -> Result<(), Fault> {
    let bots = &asked.bots;
    if let Some(twice) = (1..bots.len()).find(|at| bots[..*at].contains(&bots[*at])) {
        return Err(Fault::words(
            "BOT",
            &format!("{} is there twice", bots[twice]),
        ));
    }
    let teams = match asked.teams {
        Kind::Samples => Teams::Samples,
        Kind::Drawn => Teams::Drawn,
    };
    let league = League::new(teams, asked.seed);
    let mut results = Results::new(bots);
    let file = asked.file.as_deref();
    let file = file.map(|path| opened(path, &league, &mut results));
    let missing = missing(&results, asked.battles);
    let run = Run {
        league,
        bots,
        next: AtomicUsize::new(0),
        all: missing.len(),
        room: Mutex::new(Room {
            results,
            file: file.transpose()?,
            done: 0,
            failed: None,
        }),
    };
    pool_of(asked.jobs)?.broadcast(|_| run.play(&missing));
    let room = run.room.into_inner().unwrap_or_else(|it| it.into_inner());
    if std::io::stderr().is_terminal() {
        // If standard error cannot be written, the progress is lost.
        let _ = writeln!(std::io::stderr());
    }
    match room.failed {
        Some(fault) => Err(fault),
        None => put(room.results.up_to(asked.battles).table()),
    }
}

/// A battle to play: the numbers of its bots, and its own.
type Due = ((usize, usize), u64);

/// The battles without a result, all pairs side by side.
fn missing(results: &Results, battles: u64) -> Vec<Due> {
    let all = (0..battles).flat_map(|number| results.pairs().map(move |pair| (pair, number)));
    all.filter(|(pair, number)| !results.has(*pair, *number))
        .collect()
}

/// Reads the results of a file, and returns it to write at its end. An incomplete last line is removed.
fn opened(path: &Path, league: &League, results: &mut Results) -> Result<(PathBuf, File), Fault> {
    let name = path.display().to_string();
    let mut options = OpenOptions::new();
    let file = options.read(true).append(true).create(true);
    let mut file = file.open(path).map_err(|why| Fault::write(&name, &why))?;
    let mut text = String::new();
    file.read_to_string(&mut text)
        .map_err(|why| Fault::read(&name, &why))?;
    let whole = text.rfind('\n').map_or(0, |at| at + 1);
    results
        .read(league, &text[..whole])
        .map_err(|line| Fault::search(&format!("{name}: line {line} is not a result")))?;
    if whole < text.len() {
        let cut = file.set_len(whole as u64);
        cut.map_err(|why| Fault::write(&name, &why))?;
    }
    Ok((path.into(), file))
}

/// A league that is being played.
struct Run<'a> {
    league: League,
    bots: &'a [Bot],
    /// The place of the next battle to play.
    next: AtomicUsize,
    all: usize,
    room: Mutex<Room>,
}

/// The results so far.
struct Room {
    results: Results,
    file: Option<(PathBuf, File)>,
    done: usize,
    failed: Option<Fault>,
}

impl Run<'_> {
    /// Plays one battle after the other, until none is left or the file fails.
    fn play(&self, missing: &[Due]) {
        while let Some((pair, number)) = missing.get(self.next.fetch_add(1, Ordering::Relaxed)) {
            let bots = [self.bots[pair.0], self.bots[pair.1]];
            let score = self.league.score(bots[0], bots[1], *number);
            let line = self.league.line(bots, *number, score);
            let mut room = self.room.lock().unwrap_or_else(|it| it.into_inner());
            if room.failed.is_some() {
                return;
            }
            room.add(*pair, *number, score, &line);
            if std::io::stderr().is_terminal() {
                let _ = write!(std::io::stderr(), "\r{} of {} battles", room.done, self.all);
            }
        }
    }
}

impl Room {
    fn add(&mut self, pair: (usize, usize), number: u64, score: f64, line: &str) {
        self.results.add(pair, number, score);
        self.done += 1;
        if let Some((path, file)) = &mut self.file {
            let written = file.write_all(line.as_bytes());
            self.failed = written
                .map_err(|why| Fault::write(&path.display().to_string(), &why))
                .err();
        }
    }
}
