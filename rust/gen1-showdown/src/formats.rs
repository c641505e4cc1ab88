//! Named rule sets, and teams checked by them (formats.json; docs/TEAM_TEXT.md has the forms of teams).
use crate::Members;
use gen1::{MemberSpec, MoveId, Rules, Species};
use serde::Deserialize;
use std::collections::BTreeMap;
use std::fmt;

/// The formats of a file. [`Formats::default`] has those of formats.json.
#[derive(Clone, Debug, Deserialize)]
#[serde(deny_unknown_fields)]
pub struct Formats {
    /// Where the rules are from.
    pub source: String,
    /// When they were written down.
    pub date: String,
    clauses: Vec<Clause>,
    formats: Vec<Format>,
    /// The moves that a species may have. A species without a list may have any move.
    #[serde(default)]
    learnsets: BTreeMap<String, Vec<MoveId>>,
}

/// A clause, which formats name.
#[derive(Clone, Debug, Deserialize)]
#[serde(deny_unknown_fields)]
struct Clause {
    id: String,
    /// Its line in a battle log after `|rule|`.
    line: String,
    /// Its bits in the rules of a battle.
    #[serde(default)]
    rules: u8,
    /// The moves that it bans.
    #[serde(default)]
    moves: Vec<MoveId>,
    /// Whether no two members of a team may be of one species.
    #[serde(default)]
    one_of_each: bool,
}

/// A format: its clauses, and the teams that it allows.
#[derive(Clone, Debug, Deserialize)]
#[serde(deny_unknown_fields)]
struct Format {
    id: String,
    name: String,
    #[serde(default = "one_to_six")]
    members: [u32; 2],
    #[serde(default = "any_level")]
    levels: [u32; 2],
    /// The least and the most of a member's moves, of each DV but that of HP, which follows from the others, and of each stat experience.
    #[serde(default = "one_to_four")]
    moves: [u32; 2],
    #[serde(default = "any_dv")]
    dvs: [u32; 2],
    #[serde(default = "any_experience")]
    exp: [u32; 2],
    #[serde(default)]
    banned: Vec<Species>,
    clauses: Vec<String>,
}

fn one_to_six() -> [u32; 2] {
    [1, 6]
}

fn any_level() -> [u32; 2] {
    [1, 100]
}

fn one_to_four() -> [u32; 2] {
    [1, 4]
}

fn any_dv() -> [u32; 2] {
    [0, 15]
}

fn any_experience() -> [u32; 2] {
    [0, 65535]
}

/// A complaint about a number that is out of a range.
fn beyond(
    what: &str,
    [least, most]: [u32; 2],
    found: impl Into<u32>,
    of: &str,
) -> Option<(String, String)> {
    let found = found.into();
    let is_within = (least..=most).contains(&found);
    (!is_within).then(|| (format!("{what} {least} to {most}"), format!("{found}{of}")))
}

const DVS: [&str; 4] = [" of Attack", " of Defense", " of Speed", " of Special"];
const EXPERIENCES: [&str; 5] = [
    " of HP",
    " of Attack",
    " of Defense",
    " of Speed",
    " of Special",
];

impl Format {
    /// The numbers of a member that are out of their ranges.
    fn beyond(&self, spec: &MemberSpec) -> Vec<(String, String)> {
        let numbers = [
            beyond("level", self.levels, spec.level, ""),
            beyond("moves", self.moves, spec.moves.len() as u32, ""),
        ];
        let dvs = spec.dvs.into_iter().zip(DVS);
        let dvs = dvs.map(|(dv, of)| beyond("DV", self.dvs, dv, of));
        let exp = spec.exp.into_iter().zip(EXPERIENCES);
        let exp = exp.map(|(exp, of)| beyond("stat experience", self.exp, exp, of));
        numbers
            .into_iter()
            .chain(dvs)
            .chain(exp)
            .flatten()
            .collect()
    }
}

/// A rule that a team breaks.
#[derive(Clone, Debug, PartialEq, Eq)]
pub struct Complaint {
    /// The number of the member, from 1, and its species; `None` if it is about the whole team.
    pub member: Option<(usize, Species)>,
    /// The rule.
    pub rule: String,
    /// What breaks it.
    pub value: String,
}

impl fmt::Display for Complaint {
    fn fmt(&self, f: &mut fmt::Formatter<'_>) -> fmt::Result {
        match self.member {
            Some((number, species)) => write!(f, "member {number} ({species}): ")?,
            None => write!(f, "team: ")?,
        }
        write!(f, "{}; found {}", self.rule, self.value)
    }
}

impl Default for Formats {
    fn default() -> Formats {
        let text = include_str!("../formats.json");
        // The file is part of the program, and a test reads it.
        Formats::read(text).unwrap_or_else(|why| unreachable!("formats.json: {why}"))
    }
}

impl Formats {
    /// Reads a file of formats, in the form of formats.json. It may also have `learnsets`, an object of lists of moves by species, such as
    /// `{"Tauros": ["Body Slam"]}`. Like `levels`, a format may have the least and the most of a member's `moves`, `dvs` and `exp`.
    ///
    /// # Errors
    ///
    /// The text is not JSON of this form, or a format names an unknown clause.
    pub fn read(text: &str) -> Result<Formats, String> {
        let formats: Formats = serde_json::from_str(text).map_err(|why| why.to_string())?;
        for format in &formats.formats {
            let known = |id: &String| formats.clauses.iter().any(|clause| clause.id == *id);
            if let Some(id) = format.clauses.iter().find(|id| !known(id)) {
                return Err(format!("{}: unknown clause \"{id}\"", format.id));
            }
        }
        for name in formats.learnsets.keys() {
            name.parse::<Species>()
                .map_err(|_| format!("learnsets: unknown species \"{name}\""))?;
        }
        Ok(formats)
    }

    fn format(&self, id: &str) -> Option<&Format> {
        self.formats.iter().find(|format| format.id == id)
    }

    fn clauses<'a>(&'a self, format: &'a Format) -> impl Iterator<Item = &'a Clause> {
        let ids = format.clauses.iter();
        ids.filter_map(|id| self.clauses.iter().find(|clause| clause.id == *id))
    }

    /// The names of the formats.
    pub fn ids(&self) -> impl Iterator<Item = &str> {
        self.formats.iter().map(|format| format.id.as_str())
    }

    /// The name of a format in the lines of a battle; `None` if the file does not have it.
    #[must_use]
    pub fn tier(&self, id: &str) -> Option<&str> {
        self.format(id).map(|format| format.name.as_str())
    }

    /// The rules of a battle of a format.
    #[must_use]
    pub fn rules(&self, id: &str) -> Option<Rules> {
        let format = self.format(id)?;
        Rules::new(
            self.clauses(format)
                .fold(0, |all, clause| all | clause.rules),
        )
    }

    /// The lines of a format's clauses, for [`Heading`](crate::Heading).
    #[must_use]
    pub fn lines(&self, id: &str) -> Option<Vec<String>> {
        let format = self.format(id)?;
        Some(self.clauses(format).map(|it| it.line.clone()).collect())
    }

    /// The rules of a format that a team breaks: by members, and then of the whole team. `None` if the file does not have the format.
    #[must_use]
    pub fn complaints(&self, id: &str, members: &Members) -> Option<Vec<Complaint>> {
        let format = self.format(id)?;
        let mut found = Vec::new();
        for (at, spec) in members.specs.iter().enumerate() {
            let member = Some((at + 1, spec.species));
            let broken = self.of_member(format, spec, &members.specs[..at]);
            found.extend(broken.into_iter().map(|(rule, value)| Complaint {
                member,
                rule,
                value,
            }));
        }
        let ([least, most], count) = (format.members, members.specs.len() as u32);
        if !(least..=most).contains(&count) {
            found.push(Complaint {
                member: None,
                rule: format!("{least} to {most} members"),
                value: count.to_string(),
            });
        }
        Some(found)
    }

    /// The rules that a member breaks, with what breaks them.
    fn of_member(
        &self,
        format: &Format,
        spec: &MemberSpec,
        before: &[MemberSpec],
    ) -> Vec<(String, String)> {
        let mut found = Vec::new();
        let species = spec.species;
        if format.banned.contains(&species) {
            found.push(("species that are not banned".into(), species.to_string()));
        }
        found.extend(format.beyond(spec));
        let same = before.iter().any(|it| it.species == species);
        for clause in self.clauses(format) {
            if clause.one_of_each && same {
                found.push((clause.line.clone(), format!("another {species}")));
            }
            let banned = spec
                .moves
                .iter()
                .filter(|(id, _)| clause.moves.contains(id));
            found.extend(banned.map(|(id, _)| (clause.line.clone(), id.to_string())));
        }
        let learnset = self
            .learnsets
            .iter()
            .find(|(name, _)| name.parse() == Ok(species));
        if let Some((_, known)) = learnset {
            let other = spec.moves.iter().filter(|(id, _)| !known.contains(id));
            found.extend(other.map(|(id, _)| ("a move of the learnset".into(), id.to_string())));
        }
        found
    }
}
