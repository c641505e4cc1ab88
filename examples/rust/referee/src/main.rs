//! A referee: it plays the battles of a file, and names the first pair whose result differs from the file.
mod check;
mod sheet;

use check::{Difference, check};
use clap::Parser;
use sheet::Expected;
use std::fs::File;
use std::io::{self, BufRead, BufReader, IsTerminal, Read, Write};
use std::path::{Path, PathBuf};
use std::process::ExitCode;
use std::time::{Duration, Instant};

/// Plays the battles of a file, and names the first pair whose result differs from the file
///
/// FILE has a battle in each line, as JSON. It is the object of the program's run with `lines` (as run prints them) or `log`
/// (hexadecimal digits); or a recorded run (`args`, `input`, `stdout`, `stderr`); or a battle in `object` with `updates`, each of which
/// has any of `refused`, `result`, `offered`, `log`, `draws` and `bytes`. With --log, FILE is one battle, and its log bytes are in a
/// separate file, as the program's print reads them.
#[derive(Parser)]
#[command(
    name = "referee",
    version,
    after_help = "Status: 0 replay matches FILE, 1 a pair differs, 2 FILE cannot be read or is not a file of battles, or bad arguments."
)]
struct Words {
    /// The file; - is standard input
    file: PathBuf,
    /// The log bytes of the one battle in FILE
    #[arg(long, value_name = "FILE")]
    log: Option<PathBuf>,
    /// Continues after a difference, and counts the battles that differ
    #[arg(long)]
    all: bool,
    /// Prints the progress to standard error once a second; by default only if that is a terminal
    #[arg(long)]
    progress: bool,
}

/// The maximum length of a line.
const LINE_MOST: u64 = 64 << 20;

/// Counts of what was played.
#[derive(Default)]
struct Count {
    battles: u64,
    pairs: usize,
    wrong: u64,
}

/// The battles of a file, line by line.
struct Referee {
    name: String,
    from: Box<dyn BufRead>,
    size: Option<u64>,
    is_shown: bool,
    goes_on: bool,
    said: Instant,
    read: u64,
    count: Count,
}

impl Referee {
    fn open(words: &Words) -> io::Result<Referee> {
        let is_standard = words.file == Path::new("-");
        let (from, size): (Box<dyn BufRead>, _) = if is_standard {
            (Box::new(io::stdin().lock()), None)
        } else {
            let file = File::open(&words.file)?;
            let size = file.metadata()?.len();
            (
                Box::new(BufReader::with_capacity(1 << 20, file)),
                Some(size),
            )
        };
        Ok(Referee {
            name: name_of(&words.file),
            from,
            size,
            is_shown: words.progress || io::stderr().is_terminal(),
            goes_on: words.all,
            said: Instant::now(),
            read: 0,
            count: Count::default(),
        })
    }

    /// Checks all lines, and prints the differences.
    fn lines(&mut self) -> Result<(), String> {
        let mut text = String::new();
        for number in 1_u64.. {
            text.clear();
            let at = format!("{}: line {number}", self.name);
            let count = self
                .from
                .by_ref()
                .take(LINE_MOST)
                .read_line(&mut text)
                .map_err(|why| format!("{at}: {why}"))?;
            if count == 0 {
                break;
            }
            self.read += count as u64;
            if count as u64 == LINE_MOST {
                return Err(format!(
                    "{at}: expected a line of less than {LINE_MOST} bytes"
                ));
            }
            if !text.trim().is_empty() {
                let (name, sheet, expected) =
                    sheet::read(&text).map_err(|why| format!("{at}: {why}"))?;
                let done = check(&sheet, &expected).map_err(|why| format!("{at}: {why}"))?;
                let at = if name.is_empty() {
                    at
                } else {
                    format!("{at} ({name})")
                };
                if self.found(&at, done) {
                    break;
                }
            }
            self.progress();
        }
        Ok(())
    }

    /// Counts a battle, prints its first difference, and returns whether to stop.
    fn found(&mut self, at: &str, done: Result<usize, Difference>) -> bool {
        self.count.battles += 1;
        match done {
            Ok(pairs) => self.count.pairs += pairs,
            Err(why) => {
                self.count.wrong += 1;
                put(&format!("{at}: {}\n", told(&why)));
                return !self.goes_on;
            }
        }
        false
    }

    /// Prints the progress, at most once a second.
    fn progress(&mut self) {
        if !self.is_shown || self.said.elapsed() < Duration::from_secs(1) {
            return;
        }
        self.said = Instant::now();
        let share = self
            .size
            .filter(|&size| size > 0)
            .map(|size| format!(", {} %", 100 * self.read / size));
        // If standard error cannot be written, the progress is dropped.
        let _ = writeln!(
            io::stderr(),
            "{} battles{}",
            self.count.battles,
            share.unwrap_or_default()
        );
    }
}

/// A difference as three lines.
fn told(it: &Difference) -> String {
    let pair = it.pair.map_or("its teams".into(), |(number, pair)| {
        format!("pair {number} {pair:?}")
    });
    let text = |text: &str| {
        if text.is_empty() {
            "nothing".into()
        } else {
            text.trim_end().to_string()
        }
    };
    format!(
        "{pair}: {}\n  expected: {}\n  found:    {}",
        it.what,
        text(&it.expected),
        text(&it.came)
    )
}

/// Prints a text; if that fails, only the status reports the result.
fn put(text: &str) {
    let _ = io::stdout().write_all(text.as_bytes());
}

/// Compares the one battle of FILE with a log file.
fn with_log(words: &Words, log: &Path) -> Result<Count, String> {
    let text = std::fs::read_to_string(&words.file)
        .map_err(|why| format!("{}: {why}", words.file.display()))?;
    let log = std::fs::read(log).map_err(|why| format!("{}: {why}", log.display()))?;
    let at = words.file.display().to_string();
    let sheet = serde_json::from_str(&text).map_err(|why| format!("{at}: {why}"))?;
    let expected = Expected {
        updates: None,
        lines: None,
        told: None,
        log: Some(log),
    };
    let mut referee = Referee::open(words).map_err(|why| format!("{at}: {why}"))?;
    referee.found(
        &at,
        check(&sheet, &expected).map_err(|why| format!("{at}: {why}"))?,
    );
    Ok(referee.count)
}

fn checked(words: &Words) -> Result<Count, String> {
    if let Some(log) = &words.log {
        return with_log(words, log);
    }
    let mut referee =
        Referee::open(words).map_err(|why| format!("{}: {why}", words.file.display()))?;
    referee.lines()?;
    Ok(referee.count)
}

/// The name of the file in messages.
fn name_of(file: &Path) -> String {
    if file == Path::new("-") {
        "standard input".into()
    } else {
        file.display().to_string()
    }
}

fn main() -> ExitCode {
    let words = Words::parse();
    let name = name_of(&words.file);
    match checked(&words) {
        Ok(Count {
            battles,
            pairs,
            wrong: 0,
        }) => {
            put(&format!(
                "{battles} battles, {pairs} pairs: all match {name}\n"
            ));
            ExitCode::SUCCESS
        }
        Ok(Count { battles, wrong, .. }) => {
            put(&format!(
                "{wrong} of the {battles} battles that were played differ from {name}\n"
            ));
            ExitCode::from(1)
        }
        Err(why) => {
            // As in `put`.
            let _ = writeln!(io::stderr(), "error: {why}");
            ExitCode::from(2)
        }
    }
}
