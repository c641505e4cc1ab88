//! The fields of a line, as values.
use crate::reading::{did_you_mean, nearest_word, shown};
use gen1::{CantReason, DamageSource, Health, Kind, Level, MoveId, Side, Species, Stat, Volatile};

/// Words with their values.
pub type Words<T> = [(&'static str, T)];

pub const KINDS: &Words<Kind> = &[
    ("slp", Kind::Sleep),
    ("psn", Kind::Poison),
    ("tox", Kind::Poison),
    ("brn", Kind::Burn),
    ("frz", Kind::Freeze),
    ("par", Kind::Paralysis),
];
/// Showdown has two stats for the Special, and reports a change of it for both. A change of `spd` is therefore ignored.
pub const STATS: &Words<Option<Stat>> = &[
    ("atk", Some(Stat::Attack)),
    ("def", Some(Stat::Defense)),
    ("spe", Some(Stat::Speed)),
    ("spa", Some(Stat::Special)),
    ("spc", Some(Stat::Special)),
    ("spd", None),
    ("accuracy", Some(Stat::Accuracy)),
    ("acc", Some(Stat::Accuracy)),
    ("evasion", Some(Stat::Evasion)),
    ("eva", Some(Stat::Evasion)),
];
pub const REASONS: &Words<CantReason> = &[
    ("slp", CantReason::Asleep),
    ("frz", CantReason::Frozen),
    ("partiallytrapped", CantReason::PartiallyTrapped),
    ("flinch", CantReason::Flinched),
    ("recharge", CantReason::Recharging),
    ("Disable", CantReason::Disabled),
    ("par", CantReason::Paralysed),
];
pub const SOURCES: &Words<DamageSource> = &[
    ("psn", DamageSource::Poison),
    ("tox", DamageSource::Poison),
    ("brn", DamageSource::Burn),
    ("Leech Seed", DamageSource::LeechSeed),
    ("Recoil", DamageSource::Recoil),
    ("confusion", DamageSource::Confusion),
];
pub const VOLATILES: &Words<Volatile> = &[
    ("confusion", Volatile::Confusion),
    ("Bide", Volatile::Bide),
    ("Substitute", Volatile::Substitute),
    ("Leech Seed", Volatile::LeechSeed),
    ("Mist", Volatile::Mist),
    ("Focus Energy", Volatile::FocusEnergy),
    ("Light Screen", Volatile::LightScreen),
    ("Reflect", Volatile::Reflect),
    ("Disable", Volatile::Disable),
    ("typechange", Volatile::TypeChange),
    ("trapped", Volatile::Trapped),
    ("Rage", Volatile::Rage),
    ("Splash", Volatile::Splash),
];

/// The error text for a field.
pub fn unexpected(expected: &str, found: &str) -> String {
    format!("expected {expected}, found {}", shown(found))
}

/// The value of a word, ignoring case, with or without `move: ` before it.
pub fn value_of<T: Copy>(words: &Words<T>, text: &str) -> Option<T> {
    let word = text.strip_prefix("move: ").unwrap_or(text);
    let found = words
        .iter()
        .find(|(known, _)| known.eq_ignore_ascii_case(word));
    found.map(|(_, value)| *value)
}

/// The value of a word, or an error that lists the words.
pub fn known_value<T: Copy>(words: &Words<T>, text: &str) -> Result<T, String> {
    let names = || words.iter().map(|(name, _)| *name);
    value_of(words, text).ok_or_else(|| {
        let list = names().collect::<Vec<_>>().join(", ");
        let meant = did_you_mean(nearest_word(text, names()));
        unexpected(&format!("one of {list}"), text) + &meant
    })
}

pub fn side_in(text: &str) -> Result<Side, String> {
    match text {
        "p1" => Ok(Side::One),
        "p2" => Ok(Side::Two),
        _ => Err(unexpected("p1 or p2", text)),
    }
}

/// The side and the name in a field such as `p1a: Bob`.
pub fn member_in(field: &str) -> Result<(Side, &str), String> {
    let expected = || unexpected("a member, such as p1a: Tauros", field);
    let (place, name) = field.split_once(": ").ok_or_else(expected)?;
    let side = place.strip_suffix('a').unwrap_or(place);
    let side = side_in(side).map_err(|_| expected())?;
    Ok((side, name))
}

/// The species and the level in a field such as `Tauros, L88, M`.
pub fn details_in(field: &str) -> Result<(Species, Level), String> {
    let mut parts = field.split(", ");
    let name = parts.next().unwrap_or_default();
    let species = name
        .parse::<Species>()
        .map_err(|unknown| unexpected("a species", name) + &did_you_mean(unknown.suggestion()))?;
    let level = parts.find_map(|part| part.strip_prefix('L'));
    let number = level.map_or(Some(100), |text| text.parse().ok());
    let level = number.and_then(Level::new);
    let level = level.ok_or_else(|| unexpected("a level from L1 to L100", field))?;
    Ok((species, level))
}

pub fn move_in(field: &str) -> Result<MoveId, String> {
    let unknown = field.parse::<MoveId>();
    unknown.map_err(|why| unexpected("a move", field) + &did_you_mean(why.suggestion()))
}

/// The health in a field such as `120/353 par`. For `0 fnt` the maximum is the one that was there before.
pub fn health_in(field: &str, before: Option<Health>) -> Result<Health, String> {
    let expected = || {
        let forms = "HP as 120/353 or 120/353 par, with a maximum from 11 to 999, or 0 fnt";
        unexpected(forms, field)
    };
    let (numbers, status) = field.split_once(' ').unwrap_or((field, ""));
    if status == "fnt" {
        let fallen = before.and_then(|it| Health::new(0, it.max(), None));
        return fallen.filter(|_| numbers == "0").ok_or_else(expected);
    }
    let kind = match status {
        "" => None,
        _ => Some(known_value(KINDS, status)?),
    };
    let (hp, max) = numbers.split_once('/').ok_or_else(expected)?;
    // Showdown adds the color of the bar to some 48ths.
    let max = max.strip_suffix(['g', 'y', 'r']).unwrap_or(max);
    let both = hp.parse().ok().zip(max.parse().ok());
    let health = both.and_then(|(hp, max)| Health::new(hp, max, kind));
    health.ok_or_else(expected)
}

/// A whole number from a field.
pub fn number_in(field: &str, low: u16, high: u16) -> Result<u16, String> {
    let number = field.parse().ok().filter(|it| (low..=high).contains(it));
    number.ok_or_else(|| unexpected(&format!("a number from {low} to {high}"), field))
}
