//! Teams as text: an export text or a packed line (docs/TEAM_TEXT.md), or JSON.
use crate::reading::{Misfit, Typed, did_you_mean, nearest_name, shown};
use gen1::text::{MemberFault, PackedFault, TextFault, members_in_packed, members_in_text};
use gen1::{MemberSpec, MoveId, Species};
use serde_json::Value;

/// The members of a team before they are checked, and their nicknames as far as a text has them.
#[derive(Clone, Debug, Default)]
pub struct Members {
    pub specs: Vec<MemberSpec>,
    pub nicknames: Vec<Option<String>>,
}

impl Members {
    fn without_names(specs: Vec<MemberSpec>) -> Members {
        let nicknames = vec![None; specs.len()];
        Members { specs, nicknames }
    }

    /// The members in a text, which is a packed line if its first line has a bar.
    pub fn in_text(text: &str) -> Result<Members, String> {
        let (specs, nicknames) = if is_packed(text) {
            let specs =
                members_in_packed(text.as_bytes()).map_err(|why| packed_fault(text, why))?;
            (specs, packed_members(text).map(packed_nickname).collect())
        } else {
            let specs = members_in_text(text.as_bytes()).map_err(|why| text_fault(text, why))?;
            (specs, nicknames_in(text))
        };
        let mut members = Members::without_names(specs.to_vec());
        for (place, name) in members.nicknames.iter_mut().zip(nicknames) {
            *place = name;
        }
        Ok(members)
    }
}

/// A team in JSON: a list of members, or a team text.
impl Typed for Members {
    fn of(value: &Value) -> Result<Self, Misfit> {
        match value {
            Value::String(text) => Members::in_text(text).map_err(Misfit::because),
            _ => Vec::of(value).map(Members::without_names),
        }
    }
}

/// Whether a text is a packed line.
fn is_packed(text: &str) -> bool {
    let first = text.lines().map(str::trim).find(|line| !line.is_empty());
    first.is_some_and(|line| line.contains('|') && !line.starts_with("==="))
}

fn packed_members(text: &str) -> impl Iterator<Item = &str> {
    text.trim().split(']')
}

/// The nickname of a packed member, unless it is the species.
fn packed_nickname(member: &str) -> Option<String> {
    let mut fields = member.split('|').map(str::trim);
    let (name, species) = (fields.next()?, fields.next()?);
    (!species.is_empty() && !name.is_empty()).then(|| name.to_string())
}

/// The nickname of each member of an export text.
fn nicknames_in(text: &str) -> Vec<Option<String>> {
    let mut names = Vec::new();
    let mut begins = true;
    for line in text.lines().map(str::trim) {
        let separates = line.is_empty() || line.starts_with("===");
        if begins && !separates {
            names.push(nickname_in(line));
        }
        begins = separates;
    }
    names
}

/// The nickname in the first line of a member, as `Bob (Tauros) (M)`.
fn nickname_in(line: &str) -> Option<String> {
    let line = line
        .strip_suffix("(M)")
        .or(line.strip_suffix("(F)"))
        .unwrap_or(line)
        .trim();
    let (name, _) = line.strip_suffix(')')?.rsplit_once('(')?;
    let name = name.trim();
    (!name.is_empty()).then(|| name.to_string())
}

/// The error in an export text, with the line and its content.
fn text_fault(text: &str, why: TextFault) -> String {
    let TextFault::Line { line, fault } = why else {
        return why.to_string();
    };
    let found = text.lines().nth(line - 1).unwrap_or_default().trim();
    let meant = match fault {
        MemberFault::Move => nearest_name::<MoveId>(found.trim_start_matches('-')),
        MemberFault::Species => nearest_name::<Species>(species_in(found)),
        _ => None,
    };
    format!(
        "line {line}: {fault}, found {}{}",
        shown(found),
        did_you_mean(meant)
    )
}

/// The species in the first line of a member.
fn species_in(line: &str) -> &str {
    let line = line
        .strip_suffix("(M)")
        .or(line.strip_suffix("(F)"))
        .unwrap_or(line)
        .trim();
    let inner = line
        .strip_suffix(')')
        .and_then(|rest| rest.rsplit_once('('));
    inner.map_or(line, |(_, species)| species)
}

/// The error in a packed line, with the field and its content.
fn packed_fault(text: &str, why: PackedFault) -> String {
    match why {
        PackedFault::Fields { member } => {
            let found = packed_members(text).nth(member - 1).unwrap_or_default();
            let count = found.split('|').count();
            format!("member {member}: expected twelve fields separated by bars, found {count}")
        }
        PackedFault::Field {
            member,
            field,
            fault,
        } => {
            let whole = packed_members(text).nth(member - 1).unwrap_or_default();
            let of = |field: usize| whole.split('|').nth(field - 1).unwrap_or_default().trim();
            // Without a second field the first is the species.
            let is_first = fault == MemberFault::Species && of(field).is_empty();
            let field = if is_first { 1 } else { field };
            let found = of(field);
            let (found, meant) = match fault {
                MemberFault::Move => wrong_move(found),
                MemberFault::Species => (found, nearest_name::<Species>(found)),
                _ => (found, None),
            };
            let (found, meant) = (shown(found), did_you_mean(meant));
            format!("member {member}, field {field}: {fault}, found {found}{meant}")
        }
        other => other.to_string(),
    }
}

/// The first name of a list that no move has, and the name that may be meant.
fn wrong_move(names: &str) -> (&str, Option<&'static str>) {
    let mut wrong = names.split(',').map(str::trim);
    let wrong = wrong.find(|name| !name.is_empty() && name.parse::<MoveId>().is_err());
    let wrong = wrong.unwrap_or(names);
    (wrong, nearest_name::<MoveId>(wrong))
}

/// The names of a team's members: the nickname, or the species.
pub fn names_of(members: &Members) -> Vec<String> {
    let both = members.specs.iter().zip(&members.nicknames);
    let named = both.map(|(spec, nickname)| {
        let name = nickname.as_deref().map(clean).unwrap_or_default();
        match name.is_empty() {
            true => spec.species.to_string(),
            false => name,
        }
    });
    named.collect()
}

/// The names of a team's members, with a number where others have the same name.
pub fn numbered(members: &Members) -> Vec<String> {
    let mut names: Vec<String> = Vec::new();
    for base in names_of(members) {
        let is_taken = |name: &String| names.contains(name);
        let numbers = (2..).map(|number| format!("{base} {number}"));
        let name = std::iter::once(base.clone())
            .chain(numbers)
            .find(|name| !is_taken(name));
        names.push(name.unwrap_or(base));
    }
    names
}

/// A name without characters that end a field or a line.
pub fn clean(name: &str) -> String {
    name.chars()
        .filter(|letter| *letter != '|' && !letter.is_control())
        .collect()
}
