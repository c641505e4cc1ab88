//! `gen1 team`: teams between export text, packed line and JSON (docs/TEAM_TEXT.md). `gen1 names`: the names of species and moves.
use crate::fault::Fault;
use crate::files::{name_of, put, read};
use crate::input::near::{did_you_mean, nearest_name};
use crate::input::{Members, shown, team, team_in};
use crate::json::line_of;
use clap::{Args, ValueEnum};
use gen1::{MoveId, Species};
use gen1_showdown::Formats;
use std::path::{Path, PathBuf};

/// The arguments of `team`.
#[derive(Args)]
pub struct Convert {
    /// An export text, a packed line, or a JSON list of members; without FILE, or with -, standard input
    pub file: Option<PathBuf>,
    /// Prints the list of members that `run` takes as "one" and "two"
    #[arg(long)]
    json: bool,
    /// Prints a packed line
    #[arg(long, conflicts_with = "json")]
    packed: bool,
    /// Refuses a team that the rules of this format don't allow, such as gen1ou
    #[arg(long, value_name = "ID")]
    format: Option<String>,
    /// The formats, in the form of rust/gen1-showdown/formats.json; without it those of that file
    #[arg(long, value_name = "FILE", requires = "format")]
    formats: Option<PathBuf>,
}

/// Reads a team in any form, and prints it in the requested form, which is the export text by default.
pub fn convert(asked: &Convert) -> Result<(), Fault> {
    let members = team_in(asked.file.as_deref())?;
    team(1, &members.specs)?;
    if let Some(id) = &asked.format {
        let formats = formats_in(asked.formats.as_deref())?;
        check(&formats, id, &members)?;
    }
    put(match (asked.json, asked.packed) {
        (true, _) => line_of(&members.specs),
        (_, true) => packed(&members)?,
        _ => text(&members)?,
    })
}

/// The formats in a file, or those of the library.
pub fn formats_in(file: Option<&Path>) -> Result<Formats, Fault> {
    let Some(path) = file else {
        return Ok(Formats::default());
    };
    let text = read(Some(path))?;
    let text = std::str::from_utf8(&text).map_err(|_| "expected text in UTF-8".to_string());
    let formats = text.and_then(Formats::read);
    formats.map_err(|why| Fault::format(&why).within(&name_of(Some(path))))
}

/// Refuses a team that a format does not allow.
fn check(formats: &Formats, id: &str, members: &Members) -> Result<(), Fault> {
    let Some(broken) = formats.complaints(id, members) else {
        let known = formats.ids().collect::<Vec<_>>().join(", ");
        let found = shown(id);
        return Err(Fault::format(&format!(
            "expected one of {known}, found {found}"
        )));
    };
    let broken: Vec<_> = broken.iter().map(ToString::to_string).collect();
    match broken.is_empty() {
        true => Ok(()),
        false => Err(Fault::format(&broken.join("; "))),
    }
}

/// The export text of a team.
pub fn text(members: &Members) -> Result<String, Fault> {
    written(members.export())
}

/// The packed line of a team.
pub fn packed(members: &Members) -> Result<String, Fault> {
    written(members.packed())
}

fn written(text: Result<String, String>) -> Result<String, Fault> {
    text.map_err(|why| Fault::text(&format!("{why} (--json keeps them)")))
}

/// The arguments of `names`.
#[derive(Args)]
pub struct Names {
    /// What to list
    #[arg(value_enum)]
    kind: Named,
    /// Prints only names that contain this text; only letters and digits are compared, ignoring case
    pattern: Option<String>,
    /// Prints types and base stats (HP, Attack, Defense, Speed, Special), or type, power, accuracy (of 255) and PP
    #[arg(long)]
    long: bool,
}

#[derive(Clone, Copy, ValueEnum)]
enum Named {
    Species,
    Moves,
}

/// Prints the names that contain a pattern.
pub fn names(asked: &Names) -> Result<(), Fault> {
    let pattern = asked.pattern.as_deref().unwrap_or_default();
    let (lines, meant) = match asked.kind {
        Named::Species => {
            let all = Species::all().filter(|it| fits(it.name(), pattern));
            (
                all.map(|it| species(it, asked.long)).collect::<String>(),
                nearest_name::<Species>(pattern),
            )
        }
        Named::Moves => {
            let all = MoveId::all().filter(|it| fits(it.name(), pattern));
            (
                all.map(|it| a_move(it, asked.long)).collect(),
                nearest_name::<MoveId>(pattern),
            )
        }
    };
    if lines.is_empty() {
        let why = format!("no name contains {}{}", shown(pattern), did_you_mean(meant));
        return Err(Fault::names(&why));
    }
    put(lines)
}

/// The letters and digits of a text, in lower case.
fn letters(text: &str) -> String {
    let kept = text.chars().filter(char::is_ascii_alphanumeric);
    kept.map(|letter| letter.to_ascii_lowercase()).collect()
}

fn fits(name: &str, pattern: &str) -> bool {
    let wanted = letters(pattern);
    letters(name).contains(&wanted) && (pattern.is_empty() || !wanted.is_empty())
}

fn species(it: Species, long: bool) -> String {
    if !long {
        return format!("{it}\n");
    }
    let [one, two] = it.types();
    let types = if one == two {
        one.to_string()
    } else {
        format!("{one}/{two}")
    };
    let base = it.base().map(|stat| format!("{stat:>4}")).concat();
    format!("{it:<12} {types:<16}{base}\n")
}

fn a_move(it: MoveId, long: bool) -> String {
    if !long {
        return format!("{it}\n");
    }
    let (kind, power, accuracy, pp) = (it.kind(), it.power(), it.accuracy_byte(), it.pp());
    format!("{it:<14} {kind:<10}{power:>4}{accuracy:>5}{pp:>4}\n")
}
