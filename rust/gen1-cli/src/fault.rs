//! Errors of the program (docs/PROGRAM.md, "Faults and statuses", "Explanations").
use crate::input::Misfit;
use gen1::{LogFault, Refusal, TeamRefusal};
use std::io::{Error, ErrorKind, Write};
use std::process::ExitCode;

/// An error of the program: the exit status, the line that is printed and its explanation.
#[derive(Debug)]
pub struct Fault {
    status: u8,
    /// If it is empty, nothing is printed.
    line: String,
    explanation: String,
}

impl Fault {
    fn new(status: u8, line: impl Into<String>, explanation: impl Into<String>) -> Fault {
        let (line, explanation) = (line.into(), explanation.into());
        Fault {
            status,
            line,
            explanation,
        }
    }

    /// An input with this name is longer than a limit in bytes.
    pub fn too_long(name: &str, limit: u64) -> Fault {
        let why = format!("{name}: expected at most {limit} bytes");
        Fault::new(1, "too long", why)
    }

    /// The team of a side, 1 or 2, is refused.
    pub fn team(side: u8, why: TeamRefusal) -> Fault {
        let (place, number) = (why.place(), why.number());
        let comma = if place == 0 { ":" } else { "," };
        let line = format!("team {side} place {place} refusal {number}");
        Fault::new(1, line, format!("team {side}{comma} {why}"))
    }

    /// The pair with this number, from 0, is refused; `more` has the choice and the offered choices.
    pub fn pair(pair: usize, why: Refusal, more: &str) -> Fault {
        let line = format!("pair {pair} refused {}", why.number());
        Fault::new(1, line, format!("at .choices[{pair}]: {why}{more}"))
    }

    /// An unknown key, refused because of `--strict`.
    pub fn unknown_key(why: &str) -> Fault {
        Fault::new(1, "json", why)
    }

    /// A text is not a team.
    pub fn text(why: &str) -> Fault {
        Fault::new(1, "text", why)
    }

    /// A text is not a list of choices.
    pub fn choices(why: &str) -> Fault {
        Fault::new(1, "choices", why)
    }

    /// A line of the protocol of Showdown's simulator is not a command.
    pub fn protocol(line: usize, why: &str) -> Fault {
        Fault::new(1, "showdown", format!("line {line}: {why}"))
    }

    /// The guess of a team does not fit the members that were seen.
    pub fn guess(why: &str) -> Fault {
        Fault::new(1, "guess", why)
    }

    /// A team breaks the rules of a format, or the format doesn't exist.
    pub fn format(why: &str) -> Fault {
        Fault::new(1, "format", why)
    }

    /// A search has nothing to do, or its table does not fit.
    pub fn search(why: &str) -> Fault {
        Fault::new(1, "search", why)
    }

    /// No name has the pattern.
    pub fn names(why: &str) -> Fault {
        Fault::new(1, "names", why)
    }

    /// A missing option that is needed if FILE is a text of choices.
    pub fn missing(option: &str) -> Fault {
        let why = "the input is not a JSON object, so --one, --two and --seed are needed";
        Fault::new(2, format!("{option} is missing"), why)
    }

    /// No page is named, and none is installed with the program.
    pub fn no_page() -> Fault {
        let why = "no page is installed with the program; name one that web/build made";
        Fault::new(2, "--page is missing", why)
    }

    /// Two inputs would be standard input.
    pub fn one_standard_input() -> Fault {
        let why = "give the other inputs as files; without FILE the input is standard input too";
        Fault::new(2, "only one input can be standard input", why)
    }

    /// The arguments or options of a calculation do not fit together.
    pub fn words(line: &str, why: &str) -> Fault {
        Fault::new(2, line, why)
    }

    /// Some lines of an input have errors, which are in the output.
    pub fn lines(count: u64) -> Fault {
        let why = "the output has an object with the key \"error\" for each of them";
        Fault::new(1, format!("lines refused {count}"), why)
    }

    /// The bytes are not a log: the event with this number, from 1, begins at this byte, from 0.
    pub fn log(event: usize, byte: usize, why: LogFault) -> Fault {
        let line = format!("log {}", why.number());
        Fault::new(1, line, format!("at byte {byte}, event {event}: {why}"))
    }

    /// The move has no damage numbers.
    pub fn calc() -> Fault {
        Fault::new(1, "calc", "at .move: expected a move with the usual damage")
    }

    /// The page does not have exactly one place for a battle.
    pub fn page() -> Fault {
        Fault::new(
            1,
            "page",
            "expected a page with one place for a battle, as web/build makes it",
        )
    }

    /// The file to write is also read.
    pub fn out() -> Fault {
        Fault::new(
            2,
            "--out is a file that is read too",
            "it would be overwritten: give --out another name",
        )
    }

    /// A read of the input with this name failed.
    pub fn read(name: &str, why: &Error) -> Fault {
        Fault::new(3, "read", format!("{name}: {why}"))
    }

    /// A write failed. A reader that stops early, such as `head`, is not an error to report.
    pub fn write(name: &str, why: &Error) -> Fault {
        let line = if why.kind() == ErrorKind::BrokenPipe {
            ""
        } else {
            "write"
        };
        Fault::new(3, line, format!("{name}: {why}"))
    }

    /// This error with the name of the file in which it occurred.
    pub fn within(self, name: &str) -> Fault {
        Fault {
            explanation: format!("{name}: {}", self.explanation),
            ..self
        }
    }

    /// This error with further notes on its input.
    pub fn with_notes(mut self, notes: &[String]) -> Fault {
        for note in notes {
            self.explanation += "; ";
            self.explanation += note;
        }
        self
    }

    /// The line of the error without `error: `.
    pub fn line(&self) -> &str {
        &self.line
    }

    /// The place of the error, and what was expected there.
    pub fn explanation(&self) -> &str {
        &self.explanation
    }

    /// Whether only this program has errors of this form, so that the explanation is always printed.
    fn is_own(&self) -> bool {
        let own = [
            "text", "choices", "format", "names", "page", "showdown", "guess", "search",
        ];
        self.status == 2 || own.contains(&self.line.as_str()) || self.line.starts_with("lines ")
    }

    /// Prints the error to standard error, followed by its explanation if `explains` is true, and returns the exit status.
    pub fn report(&self, explains: bool) -> ExitCode {
        let text = match (self.line.as_str(), explains || self.is_own()) {
            ("", _) => String::new(),
            (line, true) => format!("error: {line}\n{}\n", self.explanation),
            (line, false) => format!("error: {line}\n"),
        };
        // If standard error cannot be written, only the status reports the error.
        let _ = std::io::stderr().write_all(text.as_bytes());
        ExitCode::from(self.status)
    }
}

/// An error of Showdown's protocol.
impl From<gen1_showdown::Fault> for Fault {
    fn from(why: gen1_showdown::Fault) -> Fault {
        use gen1_showdown::Fault::{Guess, Line, Log, Pair, Team};
        match why {
            Line { line, why } => Fault::protocol(line, &why),
            Team { side, why } => Fault::team(side.number(), why),
            Guess(why) => Fault::guess(&why),
            Pair { number, why } => Fault::pair(number, why, ""),
            Log(why) => Fault::log(1, 0, why),
            other => Fault::guess(&other.to_string()),
        }
    }
}

/// A value of the input is not of the expected form.
impl From<Misfit> for Fault {
    fn from(misfit: Misfit) -> Fault {
        Fault::new(1, "json", misfit.to_string())
    }
}

/// The input is not JSON.
impl From<serde_json::Error> for Fault {
    fn from(why: serde_json::Error) -> Fault {
        let place = format!("at line {} column {}", why.line(), why.column());
        let text = why.to_string();
        let text = text.strip_suffix(&place).unwrap_or(&text).trim_end();
        Fault::new(1, "json", format!("{place}: {text}"))
    }
}

/// Prints a note to standard error.
pub fn note(text: &str) {
    // If standard error cannot be written, the note is lost.
    let _ = std::io::stderr().write_all(format!("note: {text}\n").as_bytes());
}
