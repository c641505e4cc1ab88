//! A request of a player, read back (docs/PROGRAM.md, "Requests").
use super::fields::{details_in, health_in, member_in, move_in};
use crate::player_of;
use crate::reading::{Misfit, Typed, key, optional_key};
use gen1::{Health, Level, MoveId, Side, Species};
use serde_json::Value;

/// The maximum length of a request in bytes.
const LIMIT: usize = 16_384;

/// The request to a player, and its members as they are shown to it.
pub struct Request {
    pub asked: Asked,
    /// The active member first.
    pub members: Vec<Listed>,
}

pub enum Asked {
    Nothing,
    Switch,
    Move {
        moves: Vec<ListedMove>,
        is_trapped: bool,
        /// Whether the foe's trapping move holds the member, which only this program writes.
        is_held: bool,
    },
}

/// A member that a request lists.
pub struct Listed {
    pub name: String,
    pub species: Species,
    pub level: Level,
    /// `None` if it has fallen.
    pub health: Option<Health>,
    pub is_active: bool,
    /// Attack, Defense, Speed and Special without stages.
    pub stats: [u16; 4],
    pub moves: Vec<MoveId>,
}

/// A move that a request lists.
pub struct ListedMove {
    pub name: ListedName,
    /// `None` for a move that is not one of the four.
    pub pp: Option<u8>,
    pub is_disabled: bool,
}

#[derive(Clone, Copy, PartialEq, Eq)]
pub enum ListedName {
    Recharge,
    Fight,
    Move(MoveId),
}

/// The request of a side in the text after `|request|`; `None` if there is none, or if it is the other side's.
pub fn request_in(side: Side, text: &str) -> Result<Option<Request>, String> {
    if text.len() > LIMIT {
        let length = text.len();
        return Err(format!("expected at most {LIMIT} bytes, found {length}"));
    }
    if text.is_empty() {
        return Ok(None);
    }
    let value: Value = serde_json::from_str(text).map_err(|why| format!("expected JSON: {why}"))?;
    if value.is_null() {
        return Ok(None);
    }
    read(side, &value).map_err(|why| why.to_string())
}

fn read(side: Side, value: &Value) -> Result<Option<Request>, Misfit> {
    let Sided(owner, members) = key(value, "side")?;
    if owner != player_of(side) {
        return Ok(None);
    }
    let asked = if optional_key::<bool>(value, "wait")? {
        Asked::Nothing
    } else if value.get("forceSwitch").is_some() {
        let [switches] = key::<[bool; 1]>(value, "forceSwitch")?;
        if switches {
            Asked::Switch
        } else {
            Asked::Nothing
        }
    } else {
        let [active] = <[Active; 1]>::try_from(key::<Vec<Active>>(value, "active")?)
            .map_err(|_| misfit(value, "active", "a list of 1 item"))?;
        Asked::Move {
            moves: active.moves,
            is_trapped: active.is_trapped,
            is_held: active.is_held,
        }
    };
    Ok(Some(Request { asked, members }))
}

/// The error for the value under a key.
fn misfit(value: &Value, name: &str, expected: &str) -> Misfit {
    Misfit::new(&value[name], expected).under(&format!(".{name}"))
}

/// The text under a key, converted by a function.
fn parsed<T>(
    value: &Value,
    name: &str,
    read: impl FnOnce(&str) -> Result<T, String>,
) -> Result<T, Misfit> {
    let text: String = key(value, name)?;
    read(&text).map_err(|why| Misfit::because(why).under(&format!(".{name}")))
}

/// The player's name for its side, and its members.
struct Sided(String, Vec<Listed>);

impl Typed for Sided {
    fn of(value: &Value) -> Result<Self, Misfit> {
        let members: Vec<Listed> = key(value, "pokemon")?;
        match members.len() {
            1..=6 => Ok(Sided(key(value, "id")?, members)),
            _ => Err(misfit(value, "pokemon", "a list of 1 to 6 members")),
        }
    }
}

struct Active {
    moves: Vec<ListedMove>,
    is_trapped: bool,
    is_held: bool,
}

impl Typed for Active {
    fn of(value: &Value) -> Result<Self, Misfit> {
        let moves: Vec<ListedMove> = key(value, "moves")?;
        let is_trapped = optional_key(value, "trapped")?;
        let is_held = optional_key(value, "held")?;
        match moves.len() {
            1..=4 => Ok(Active {
                moves,
                is_trapped,
                is_held,
            }),
            _ => Err(misfit(value, "moves", "a list of 1 to 4 moves")),
        }
    }
}

impl Typed for ListedMove {
    fn of(value: &Value) -> Result<Self, Misfit> {
        let pp = match value.get("pp") {
            Some(_) => Some(key::<u8>(value, "pp")?),
            None => None,
        };
        if pp.is_some_and(|pp| pp > 63) {
            return Err(misfit(value, "pp", "a whole number from 0 to 63"));
        }
        Ok(ListedMove {
            name: parsed(value, "id", listed_name)?,
            pp,
            is_disabled: optional_key(value, "disabled")?,
        })
    }
}

fn listed_name(text: &str) -> Result<ListedName, String> {
    match text {
        "recharge" => Ok(ListedName::Recharge),
        "fight" => Ok(ListedName::Fight),
        _ => move_in(text).map(ListedName::Move),
    }
}

impl Typed for Listed {
    fn of(value: &Value) -> Result<Self, Misfit> {
        let (species, level) = parsed(value, "details", details_in)?;
        let name = |text: &str| member_in(text).map(|(_, name)| name.to_string());
        let moves: Vec<String> = key(value, "moves")?;
        let moves: Result<_, _> = moves.iter().map(|text| move_in(text)).collect();
        Ok(Listed {
            name: parsed(value, "ident", name)?,
            species,
            level,
            health: parsed(value, "condition", condition)?,
            is_active: key(value, "active")?,
            stats: stats_in(value)?,
            moves: moves.map_err(|why| Misfit::because(why).under(".moves"))?,
        })
    }
}

fn condition(text: &str) -> Result<Option<Health>, String> {
    match text {
        "0 fnt" => Ok(None),
        _ => health_in(text, None).map(Some),
    }
}

/// The stats of a member, in the order of the library.
fn stats_in(value: &Value) -> Result<[u16; 4], Misfit> {
    let Some(stats) = value.get("stats") else {
        return Err(misfit(value, "stats", "an object"));
    };
    let stat = |name| {
        let found: u16 = key(stats, name)?;
        match found {
            5..=999 => Ok(found),
            _ => Err(misfit(stats, name, "a whole number from 5 to 999")),
        }
    };
    let all = || Ok([stat("atk")?, stat("def")?, stat("spe")?, stat("spa")?]);
    all().map_err(|why: Misfit| why.under(".stats"))
}
