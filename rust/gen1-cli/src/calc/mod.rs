//! `gen1 calc`: the damage of moves between two members, and the chances to knock out (docs/PROGRAM.md, "Damage in words").
mod field;
mod knockouts;
mod report;

use crate::commands::{self, Calculation};
use crate::fault::{self, Fault};
use crate::files::{self, put};
use crate::input::near::{did_you_mean, nearest_name};
use crate::input::{Members, shown, team, team_named};
use clap::Args;
use gen1::{MemberSpec, MoveId, Species, Team, member};
use std::io::IsTerminal;
use std::path::{Path, PathBuf};

/// The arguments of `calc`.
#[derive(Args)]
pub struct Calc {
    /// FILE, a JSON object; or words: ATTACKER [MOVE] vs DEFENDER. Without words and without --attacker, FILE is standard input
    #[arg(value_name = "WORDS")]
    words: Vec<PathBuf>,
    /// A species; or a file with a team, or its text, whose first member attacks
    #[arg(long, value_name = "MEMBER")]
    attacker: Option<PathBuf>,
    /// A species; or a file with a team, or its text, whose first member defends
    #[arg(long, value_name = "MEMBER")]
    defender: Option<PathBuf>,
    /// A move; may be repeated. Without it, the moves in the attacker's team text
    #[arg(long = "move", value_name = "MOVE")]
    moves: Vec<String>,
    /// The attacker's level, in place of that of its team text
    #[arg(long, value_name = "LEVEL", value_parser = clap::value_parser!(u8).range(1..=100))]
    attacker_level: Option<u8>,
    /// The defender's level
    #[arg(long, value_name = "LEVEL", value_parser = clap::value_parser!(u8).range(1..=100))]
    defender_level: Option<u8>,
    #[command(flatten)]
    field: field::Field,
    /// Prints only critical hits
    #[arg(long)]
    critical: bool,
    /// Prints the 39 numbers below each line
    #[arg(long)]
    all: bool,
    /// Prints an object with all numbers and chances
    #[arg(long)]
    json: bool,
    /// After the line of an error, says where it is and what was expected; the default in a terminal
    #[arg(long)]
    explain: bool,
    /// Refuses unknown keys of the input; without it they are ignored
    #[arg(long)]
    strict: bool,
}

/// The calculation that was asked for.
struct Asked {
    attacker: MemberSpec,
    defender: MemberSpec,
    moves: Vec<MoveId>,
}

impl Calc {
    /// Whether an error is explained: if `--explain` is given, and always for words.
    pub fn asks(&self) -> bool {
        self.explain || self.is_in_words()
    }

    /// Whether the calculation is not in a JSON object.
    fn is_in_words(&self) -> bool {
        self.words.len() > 1 || self.has_members()
    }

    fn has_members(&self) -> bool {
        self.attacker.is_some() || self.defender.is_some()
    }
}

/// `calc`
pub fn calc(asked: &Calc) -> Result<(), Fault> {
    if !asked.is_in_words() {
        return of_file(asked, asked.words.first().map(PathBuf::as_path));
    }
    let mut what = match asked.has_members() {
        true => of_options(asked)?,
        false => of_words(asked)?,
    };
    what.attacker.level = asked.attacker_level.unwrap_or(what.attacker.level);
    what.defender.level = asked.defender_level.unwrap_or(what.defender.level);
    let [one, two] = [team_of(1, &what.attacker)?, team_of(2, &what.defender)?];
    put(text(asked, &what, [&one, &two])?)
}

/// The text that is printed for a calculation.
fn text(asked: &Calc, what: &Asked, teams: [&Team; 2]) -> Result<String, Fault> {
    let battle = asked.field.battle(teams[0], teams[1]);
    let battle = battle.map_err(|why| Fault::words("the options do not fit the members", &why))?;
    Ok(match asked.json {
        true => report::json(&battle, &what.moves, asked.field.change()),
        false => {
            let words = report::Words::of(&battle, &asked.field);
            let lines = what
                .moves
                .iter()
                .map(|id| words.line(*id, asked.critical, asked.all));
            lines.collect()
        }
    })
}

/// The calculation of a JSON object: the 39 numbers, or with `--json` the object.
fn of_file(asked: &Calc, file: Option<&Path>) -> Result<(), Fault> {
    let given = Calculation::read(&files::read(file)?, asked.strict)?;
    let done = match asked.json {
        false => commands::calc(&given),
        true => json_of(asked, &given),
    };
    if done.is_ok() && (asked.explain || std::io::stderr().is_terminal()) {
        given.notes.iter().for_each(|note| fault::note(note));
    }
    done.map_err(|why| why.with_notes(&given.notes))
}

fn json_of(asked: &Calc, given: &Calculation) -> Result<(), Fault> {
    let [one, two] = [
        team(1, &given.members[0].specs)?,
        team(2, &given.members[1].specs)?,
    ];
    let battle = asked.field.battle(&one, &two);
    let battle = battle.map_err(|why| Fault::words("the options do not fit the members", &why))?;
    put(report::json(&battle, &[given.id], asked.field.change()))
}

/// The calculation of `--attacker`, `--defender` and `--move`.
fn of_options(asked: &Calc) -> Result<Asked, Fault> {
    if let Some(word) = asked.words.first() {
        let why = format!(
            "found \"{}\"; give the members by words or by options",
            word.display()
        );
        return Err(Fault::words(
            "words and --attacker or --defender are given",
            &why,
        ));
    }
    let missing = |option| Fault::words(&format!("{option} is missing"), "both members are needed");
    let attacker = asked
        .attacker
        .as_deref()
        .ok_or_else(|| missing("--attacker"))?;
    let defender = asked
        .defender
        .as_deref()
        .ok_or_else(|| missing("--defender"))?;
    if [attacker, defender]
        .iter()
        .all(|path| files::named(Some(path)).is_none())
    {
        return Err(Fault::one_standard_input());
    }
    of_members(
        member_named(attacker)?,
        member_named(defender)?,
        named_moves(asked)?,
    )
}

fn named_moves(asked: &Calc) -> Result<Vec<MoveId>, Fault> {
    asked.moves.iter().map(|name| move_called(name)).collect()
}

fn move_called(name: &str) -> Result<MoveId, Fault> {
    name.parse().map_err(|_| {
        let meant = did_you_mean(nearest_name::<MoveId>(name));
        Fault::words(
            "no such move",
            &format!("expected the name of a move, found {}{meant}", shown(name)),
        )
    })
}

/// The members with these moves, or with those that the attacker's text has.
fn of_members(
    attacker: MemberSpec,
    defender: MemberSpec,
    moves: Vec<MoveId>,
) -> Result<Asked, Fault> {
    let moves = match moves.is_empty() {
        true => attacker.moves.iter().map(|(id, _)| *id).collect(),
        false => moves,
    };
    if moves.is_empty() {
        let why = "name a move, as in: gen1 calc Tauros Body Slam vs Alakazam";
        return Err(Fault::words("no move is given", why));
    }
    Ok(Asked {
        attacker,
        defender,
        moves,
    })
}

/// The first member of a team text, or a member of a species at level 100 with maximum DVs and experience.
fn member_named(name: &Path) -> Result<MemberSpec, Fault> {
    let text = name.display().to_string();
    let is_text = text.contains(['|', '\n']);
    let is_file = name.exists() || files::named(Some(name)).is_none();
    if !is_text && !is_file {
        return member(&text, &[]).map_err(|_| {
            let meant = did_you_mean(nearest_name::<Species>(&text));
            let found = shown(&text);
            let why = format!("expected a species or a file, found {found}{meant}");
            Fault::words("no such species or file", &why)
        });
    }
    let mut members = team_named(name)?;
    match members.specs.is_empty() {
        true => Err(Fault::text("expected a member, found an empty text")),
        false => Ok(members.specs.remove(0)),
    }
}

fn species_called(text: &str) -> Result<MemberSpec, Fault> {
    member(text, &[]).map_err(|_| {
        let meant = did_you_mean(nearest_name::<Species>(text));
        Fault::words(
            "no such species",
            &format!(
                "expected the name of a species, found {}{meant}",
                shown(text)
            ),
        )
    })
}

/// The calculation of `ATTACKER [MOVE] vs DEFENDER`.
fn of_words(asked: &Calc) -> Result<Asked, Fault> {
    let words: Option<Vec<&str>> = asked.words.iter().map(|word| word.to_str()).collect();
    let words = words.ok_or_else(|| {
        Fault::words(
            "an argument is not UTF-8",
            "names have only letters and digits",
        )
    })?;
    let words = words.join(" ");
    let words: Vec<_> = words.split_whitespace().collect();
    let between = words.iter().position(|word| matches!(*word, "vs" | "vs."));
    let Some(between) = between else {
        let why = format!(
            "expected ATTACKER [MOVE] vs DEFENDER, found \"{}\"",
            words.join(" ")
        );
        return Err(Fault::words("too many words", &why));
    };
    let (attack, defender) = (&words[..between], words[between + 1..].join(" "));
    let (attacker, id) = attack_in(attack)?;
    let mut moves = named_moves(asked)?;
    moves.extend(id);
    of_members(attacker, species_called(&defender)?, moves)
}

/// A species and a move, of which the species may have several words.
fn attack_in(words: &[&str]) -> Result<(MemberSpec, Option<MoveId>), Fault> {
    for count in (1..=words.len()).rev() {
        if let Ok(attacker) = species_called(&words[..count].join(" ")) {
            let name = words[count..].join(" ");
            let id = (!name.is_empty()).then(|| move_called(&name)).transpose()?;
            return Ok((attacker, id));
        }
    }
    Err(species_called(words.first().copied().unwrap_or_default())
        .err()
        .unwrap_or_else(|| {
            Fault::words(
                "no such species",
                "expected the name of a species before \"vs\"",
            )
        }))
}

/// The team of one member. The attacker need not know a move for a calculation, but a team must.
fn team_of(side: u8, spec: &MemberSpec) -> Result<Team, Fault> {
    let mut spec = spec.clone();
    if spec.moves.is_empty() {
        spec.moves.push((MoveId::POUND, 3));
    }
    let members = Members {
        specs: vec![spec],
        nicknames: vec![None],
    };
    team(side, &members.specs)
}
