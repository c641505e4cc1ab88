//! The program's inputs (docs/PROGRAM.md, "Input", "Text in place of JSON").
pub mod chosen;
mod options;

use crate::fault::Fault;
use crate::files;
use chosen::Chosen;
use gen1::{Battle, MemberSpec, Rules, Team, TurnLimit};
pub use gen1_showdown::Members;
pub use gen1_showdown::reading::{self as near, Misfit, Typed, key, optional_key, shown};
use near::{did_you_mean, nearest_word};
pub use options::{Input, ReadTerms, Seed, Terms, seed_in};
use serde_json::Value;
use std::path::Path;

/// An input before it is read: a JSON object, or a text of choices; and the command line's values in place of its keys.
pub struct Given {
    value: Value,
    pairs: Option<Vec<[Chosen; 2]>>,
    terms: ReadTerms,
    /// A sentence for each unknown key.
    pub notes: Vec<String>,
}

/// A battle before its first update, with its teams and terms.
pub struct Start {
    pub battle: Battle,
    pub teams: [Members; 2],
    pub rules: Rules,
}

impl Given {
    /// The input of a subcommand that plays a battle.
    pub fn read(input: &Input, terms: &Terms) -> Result<Given, Fault> {
        let terms_read = terms.read(input.file.as_deref())?;
        let bytes = input.read()?;
        if terms.is_given() && bytes.trim_ascii_start().first() != Some(&b'{') {
            let pairs = pairs_in(&bytes, &files::name_of(input.file.as_deref()))?;
            return Given::of_pairs(pairs, terms_read);
        }
        Given::of_json(&bytes, terms_read, input.strict)
    }

    /// A JSON object.
    pub fn of_json(bytes: &[u8], terms: ReadTerms, strict: bool) -> Result<Given, Fault> {
        let value = serde_json::from_slice(bytes)?;
        let notes = noted(&value, BATTLE_KEYS, strict)?;
        let pairs = None;
        Ok(Given {
            value,
            pairs,
            terms,
            notes,
        })
    }

    fn of_pairs(pairs: Vec<[Chosen; 2]>, terms: ReadTerms) -> Result<Given, Fault> {
        let missing = match &terms {
            ReadTerms {
                teams: [None, _], ..
            } => Some("--one"),
            ReadTerms {
                teams: [_, None], ..
            } => Some("--two"),
            ReadTerms { seed: None, .. } => Some("--seed"),
            _ => None,
        };
        match missing {
            Some(option) => Err(Fault::missing(option)),
            None => Ok(Given {
                value: Value::Object(Default::default()),
                pairs: Some(pairs),
                terms,
                notes: Vec::new(),
            }),
        }
    }

    /// The battle, and what `rest` reads of the input. All of the input is read before a team is checked, side 1's first.
    pub fn start<T>(
        &self,
        rest: impl FnOnce(&Value) -> Result<T, Misfit>,
    ) -> Result<(Start, T), Fault> {
        let value = &self.value;
        let seed = self.terms.seed.map_or_else(|| key(value, "seed"), Ok)?;
        let of_side = |side: usize, name| match &self.terms.teams[side] {
            Some(team) => Ok(team.clone()),
            None => key::<Members>(value, name),
        };
        let teams = [of_side(0, "one")?, of_side(1, "two")?];
        let rules = match self.terms.rules.and_then(Rules::new) {
            Some(rules) => rules,
            None => optional_key(value, "rules")?,
        };
        let limit = match self.terms.limit.and_then(TurnLimit::new) {
            Some(limit) => limit,
            None => optional_key(value, "limit")?,
        };
        let rest = rest(value)?;
        let [one, two] = [team(1, &teams[0].specs)?, team(2, &teams[1].specs)?];
        let battle = Battle::with_limit(&one, &two, seed, rules, limit);
        Ok((
            Start {
                battle,
                teams,
                rules,
            },
            rest,
        ))
    }

    /// Whether a team is text.
    pub fn has_text(&self) -> bool {
        ["one", "two"]
            .into_iter()
            .any(|side| self.value.get(side).is_some_and(Value::is_string))
    }

    /// The battle with a pair of choices for each update.
    pub fn start_and_choices(&self) -> Result<(Start, Vec<[Chosen; 2]>), Fault> {
        self.start(|value| match &self.pairs {
            Some(pairs) => Ok(pairs.clone()),
            None => key(value, "choices"),
        })
    }
}

/// The unknown keys of an object, or with `strict` the error for the first of them.
pub fn noted(value: &Value, known: &[&str], strict: bool) -> Result<Vec<String>, Fault> {
    let notes = unknown_keys(value, known);
    match notes.first() {
        Some(first) if strict => Err(Fault::unknown_key(first)),
        _ => Ok(notes),
    }
}

/// The pairs of a text: on each line the choices of both sides, separated by a comma.
fn pairs_in(bytes: &[u8], name: &str) -> Result<Vec<[Chosen; 2]>, Fault> {
    let refused = |line: usize, why: &str| Fault::choices(&format!("{name}, line {line}: {why}"));
    let text = std::str::from_utf8(bytes).map_err(|why| {
        let line = bytes[..why.valid_up_to()]
            .split(|byte| *byte == b'\n')
            .count();
        refused(line, "expected text in UTF-8")
    })?;
    let mut pairs = Vec::new();
    for (number, line) in text
        .lines()
        .enumerate()
        .filter(|(_, line)| !line.trim().is_empty())
    {
        let fault = |why: String| refused(number + 1, &why);
        let Some((one, two)) = line.split_once(',') else {
            let found = shown(line.trim());
            return Err(fault(format!(
                "expected two choices separated by a comma, found {found}"
            )));
        };
        pairs.push([
            Chosen::in_text(one).map_err(fault)?,
            Chosen::in_text(two).map_err(fault)?,
        ]);
    }
    Ok(pairs)
}

/// The team that an option names: a text, which has a bar or a line feed, or a file.
pub fn team_named(name: &Path) -> Result<Members, Fault> {
    match name.to_str().filter(|text| text.contains(['|', '\n'])) {
        Some(text) => Members::in_text(text).map_err(|why| Fault::text(&why)),
        None => team_in(Some(name)),
    }
}

/// The team in a file: an export text, a packed line, or a JSON list of members.
pub fn team_in(file: Option<&Path>) -> Result<Members, Fault> {
    let (bytes, name) = (files::read(file)?, files::name_of(file));
    if matches!(bytes.trim_ascii_start().first(), Some(b'[' | b'{')) {
        let value: Value =
            serde_json::from_slice(&bytes).map_err(|why| Fault::from(why).within(&name))?;
        return Members::of(&value).map_err(|why| Fault::from(why).within(&name));
    }
    let text = std::str::from_utf8(&bytes);
    let read = text
        .map_err(|_| "expected text in UTF-8".into())
        .and_then(Members::in_text);
    read.map_err(|why| Fault::text(&why).within(&name))
}

/// The team of a side, 1 or 2.
pub fn team(side: u8, members: &[MemberSpec]) -> Result<Team, Fault> {
    Team::new(members).map_err(|why| Fault::team(side, why))
}

/// The keys of an object of `run` and of `room`.
pub const BATTLE_KEYS: &[&str] = &[
    "seed",
    "one",
    "two",
    "rules",
    "limit",
    "choices",
    "submissions",
];
/// The keys of an object of `calc`.
pub const CALCULATION_KEYS: &[&str] = &["attacker", "defender", "move", "critical"];
const MEMBER_KEYS: &[&str] = &["species", "level", "dvs", "exp", "moves"];

/// How many keys are listed.
const LISTED: usize = 3;

/// The keys that were found: a sentence for each of the first, and how many more there are.
#[derive(Default)]
struct Found {
    listed: Vec<String>,
    more: usize,
}

/// A sentence for each unknown key of an input, with the key that may be meant. Only the first are listed.
fn unknown_keys(value: &Value, known: &[&str]) -> Vec<String> {
    let mut found = Found::default();
    found.collect(value, known, ".");
    for key in ["one", "two"] {
        let members = value.get(key).and_then(Value::as_array);
        for (number, member) in members.into_iter().flatten().enumerate() {
            found.collect(member, MEMBER_KEYS, &format!(".{key}[{number}]"));
        }
    }
    let members = ["attacker", "defender"].into_iter();
    for key in members.filter(|key| known.contains(key)) {
        if let Some(member) = value.get(key) {
            found.collect(member, MEMBER_KEYS, &format!(".{key}"));
        }
    }
    let mut listed = found.listed;
    if found.more > 0 {
        listed.push(format!("{} more unknown keys", found.more));
    }
    listed
}

impl Found {
    fn collect(&mut self, value: &Value, known: &[&str], path: &str) {
        let Some(object) = value.as_object() else {
            return;
        };
        for key in object.keys().filter(|key| !known.contains(&key.as_str())) {
            if self.listed.len() == LISTED {
                self.more += 1;
                continue;
            }
            let meant = did_you_mean(nearest_word(key, known.iter().copied()));
            let sentence = format!("at {path}: unknown key {}{meant}", shown(key));
            self.listed.push(sentence);
        }
    }
}
