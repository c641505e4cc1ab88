//! Teams written as text: an export text, or a packed line (docs/TEAM_TEXT.md), with nicknames, which `gen1::text::team_to_text` does not know.
use crate::{Members, id_of};
use gen1::MemberSpec;

/// The stats of a text, with the index of the experience in a member: the Special is both SpA and SpD.
const STATS: [(&str, usize); 6] = [
    ("HP", 0),
    ("Atk", 1),
    ("Def", 2),
    ("SpA", 4),
    ("SpD", 4),
    ("Spe", 3),
];
/// The highest EV that is written. Higher EVs give the same stats.
const HIGHEST: u8 = 252;

impl Members {
    /// The export text of a team, as Showdown's team builder shows it.
    ///
    /// # Errors
    ///
    /// A move has other than three PP ups, which a text can't say.
    pub fn export(&self) -> Result<String, String> {
        Ok(self.each(block)?.join("\n"))
    }

    /// The packed line of a team, with a line feed.
    ///
    /// # Errors
    ///
    /// A move has other than three PP ups, which a text can't say.
    pub fn packed(&self) -> Result<String, String> {
        Ok(self.each(fields)?.join("]") + "\n")
    }

    /// The results of `write` for each member.
    fn each(&self, write: fn(&MemberSpec, Option<&str>) -> String) -> Result<Vec<String>, String> {
        let both = self.specs.iter().zip(&self.nicknames).enumerate();
        both.map(|(number, (spec, name))| {
            match spec.moves.iter().find(|(_, ups)| *ups != 3) {
                None => Ok(write(spec, name.as_deref())),
                Some((id, ups)) => Err(format!(
                    "member {}: expected three PP ups for each move, since a text has none; {id} has {ups}",
                    number + 1
                )),
            }
        })
        .collect()
    }
}

fn block(spec: &MemberSpec, nickname: Option<&str>) -> String {
    let mut lines = vec![match nickname {
        Some(name) => format!("{name} ({})", spec.species),
        None => spec.species.to_string(),
    }];
    if spec.level != 100 {
        lines.push(format!("Level: {}", spec.level));
    }
    let (evs, ivs) = (evs_of(spec), ivs_of(spec));
    if evs != [HIGHEST; 6] {
        lines.push(format!("EVs: {}", listed(evs, |_| true)));
    }
    if ivs != [31; 6] {
        lines.push(format!("IVs: {}", listed(ivs, |iv| iv != 31)));
    }
    lines.extend(spec.moves.iter().map(|(id, _)| format!("- {id}")));
    lines.join("\n") + "\n"
}

/// Numbers with the names of their stats.
fn listed(numbers: [u8; 6], is_listed: fn(u8) -> bool) -> String {
    let both = STATS
        .iter()
        .zip(numbers)
        .filter(|(_, number)| is_listed(*number));
    let texts: Vec<_> = both
        .map(|((name, _), number)| format!("{number} {name}"))
        .collect();
    texts.join(" / ")
}

fn fields(spec: &MemberSpec, nickname: Option<&str>) -> String {
    let species = spec.species.to_string();
    let (name, species) = match nickname {
        Some(name) => (name, species.as_str()),
        None => (species.as_str(), ""),
    };
    let moves: Vec<_> = spec.moves.iter().map(|(id, _)| id_of(id.name())).collect();
    let moves = moves.join(",");
    let (evs, ivs) = (evs_of(spec), ivs_of(spec));
    let evs = match evs {
        [HIGHEST, HIGHEST, HIGHEST, HIGHEST, HIGHEST, HIGHEST] => String::new(),
        [0, 0, 0, 0, 0, 0] => "0".into(),
        _ => evs.map(|ev| ev.to_string()).join(","),
    };
    let ivs = match ivs {
        [31, 31, 31, 31, 31, 31] => String::new(),
        _ => ivs
            .map(|iv| {
                if iv == 31 {
                    String::new()
                } else {
                    iv.to_string()
                }
            })
            .join(","),
    };
    let level = if spec.level == 100 {
        String::new()
    } else {
        spec.level.to_string()
    };
    format!("{name}|{species}|||{moves}||{evs}||{ivs}||{level}|")
}

/// The EVs that give the same stats as the experience: its root (docs/MECHANICS.md, "Stats"), at most 252.
fn evs_of(spec: &MemberSpec) -> [u8; 6] {
    STATS.map(|(_, at)| {
        let exp = u32::from(spec.exp[at]);
        (0..HIGHEST)
            .find(|root| u32::from(*root).pow(2) >= exp)
            .unwrap_or(HIGHEST)
    })
}

/// The IVs that give the DVs; 31 for a DV of 15.
fn ivs_of(spec: &MemberSpec) -> [u8; 6] {
    let [attack, defense, speed, special] = spec.dvs;
    let low = |dv: u8| dv & 1;
    let hp = 8 * low(attack) + 4 * low(defense) + 2 * low(speed) + low(special);
    [hp, attack, defense, special, special, speed].map(|dv| if dv == 15 { 31 } else { 2 * dv })
}
