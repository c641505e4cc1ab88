//! Added to the sources (docs/PLAIN.md, "What is added"): names as text, numbers, and types that can be keys of maps and be sorted.
use crate::generated::tables::{Element, MoveId, Species, Stat};
use crate::generated::text::{move_called, species_called};
use arrayvec::{ArrayString, ArrayVec};
use core::fmt;
use core::str::FromStr;

/// How many letters and digits of a text are compared with names. No name has more.
const LETTERS: usize = 24;

/// A text that names no species or no move, with the nearest name.
///
/// In names only ASCII letters and digits are compared, ignoring case: `body slam`, `BodySlam` and `Body-Slam` name the same move.
///
/// ```
/// let fault = "Body Slap".parse::<gen1::MoveId>().unwrap_err();
/// assert_eq!(fault.to_string(), "no move is called 'Body Slap'; did you mean Body Slam?");
/// ```
#[derive(Clone, Copy, Debug, PartialEq, Eq)]
pub struct UnknownName {
    kind: &'static str,
    text: ArrayString<32>,
    nearest: Option<&'static str>,
}

impl UnknownName {
    fn new(kind: &'static str, text: &str, names: impl Iterator<Item = &'static str>) -> Self {
        let mut shown = ArrayString::new();
        for letter in text.chars() {
            if shown.try_push(letter).is_err() {
                break;
            }
        }
        let wanted = letters(text);
        let distances = names.map(|name| (distance(&wanted, &letters(name)), name));
        let nearest = distances.min_by_key(|(distance, _)| *distance);
        UnknownName {
            kind,
            text: shown,
            nearest: nearest
                .filter(|(distance, _)| distance * 3 <= wanted.len())
                .map(|(_, name)| name),
        }
    }

    /// The name nearest to the text; `None` if a third of its letters differ from every name.
    #[must_use]
    pub fn suggestion(&self) -> Option<&'static str> {
        self.nearest
    }
}

impl fmt::Display for UnknownName {
    fn fmt(&self, f: &mut fmt::Formatter<'_>) -> fmt::Result {
        write!(f, "no {} is called '{}'", self.kind, self.text)?;
        match self.nearest {
            Some(name) => write!(f, "; did you mean {name}?"),
            None => Ok(()),
        }
    }
}

impl core::error::Error for UnknownName {}

/// The letters and digits of a text that are compared.
fn letters(text: &str) -> ArrayVec<u8, LETTERS> {
    let bytes = text.bytes().filter(u8::is_ascii_alphanumeric);
    bytes
        .take(LETTERS)
        .map(|byte| byte.to_ascii_lowercase())
        .collect()
}

/// The edit distance of two texts: how many letters must be inserted, removed or replaced.
fn distance(one: &[u8], two: &[u8]) -> usize {
    let mut row: [usize; LETTERS + 1] = core::array::from_fn(|place| place);
    for (place, letter) in one.iter().enumerate() {
        let mut diagonal = row[0];
        row[0] = place + 1;
        for (at, other) in two.iter().enumerate() {
            let replaced = diagonal + usize::from(letter != other);
            diagonal = row[at + 1];
            row[at + 1] = replaced.min(diagonal + 1).min(row[at] + 1);
        }
    }
    row[two.len()]
}

/// The name without spaces and punctuation, such as `BodySlam`.
fn debug_name(name: &str, f: &mut fmt::Formatter<'_>) -> fmt::Result {
    let mut parts = name.split(|letter: char| !letter.is_ascii_alphanumeric());
    parts.try_for_each(|part| f.write_str(part))
}

/// The name.
impl fmt::Display for Species {
    fn fmt(&self, f: &mut fmt::Formatter<'_>) -> fmt::Result {
        f.pad(self.name())
    }
}

/// The name without spaces and punctuation, such as `MrMime`.
impl fmt::Debug for Species {
    fn fmt(&self, f: &mut fmt::Formatter<'_>) -> fmt::Result {
        debug_name(self.name(), f)
    }
}

impl FromStr for Species {
    type Err = UnknownName;

    /// Reads a name, of which only letters and digits are compared, ignoring case.
    fn from_str(text: &str) -> Result<Self, UnknownName> {
        let unknown = || UnknownName::new("species", text, Species::all().map(Species::name));
        species_called(text.as_bytes()).ok_or_else(unknown)
    }
}

/// The name.
impl fmt::Display for MoveId {
    fn fmt(&self, f: &mut fmt::Formatter<'_>) -> fmt::Result {
        f.pad(self.name())
    }
}

/// The name without spaces and punctuation, such as `BodySlam`.
impl fmt::Debug for MoveId {
    fn fmt(&self, f: &mut fmt::Formatter<'_>) -> fmt::Result {
        debug_name(self.name(), f)
    }
}

impl FromStr for MoveId {
    type Err = UnknownName;

    /// Reads a name, of which only letters and digits are compared, ignoring case. `Vise Grip` and `Hi Jump Kick`, the names of two moves
    /// in other generations, are accepted too.
    fn from_str(text: &str) -> Result<Self, UnknownName> {
        let unknown = || UnknownName::new("move", text, MoveId::all().map(MoveId::name));
        move_called(text.as_bytes()).ok_or_else(unknown)
    }
}

impl Element {
    /// The type with a number. Returns `None` outside 0 to 14.
    #[must_use]
    pub fn new(number: u8) -> Option<Self> {
        const ELEMENTS: [Element; 15] = [
            Element::Normal,
            Element::Fighting,
            Element::Flying,
            Element::Poison,
            Element::Ground,
            Element::Rock,
            Element::Bug,
            Element::Ghost,
            Element::Fire,
            Element::Water,
            Element::Grass,
            Element::Electric,
            Element::Psychic,
            Element::Ice,
            Element::Dragon,
        ];
        ELEMENTS.get(usize::from(number)).copied()
    }
}

impl fmt::Display for Element {
    fn fmt(&self, f: &mut fmt::Formatter<'_>) -> fmt::Result {
        f.pad(match self {
            Element::Normal => "Normal",
            Element::Fighting => "Fighting",
            Element::Flying => "Flying",
            Element::Poison => "Poison",
            Element::Ground => "Ground",
            Element::Rock => "Rock",
            Element::Bug => "Bug",
            Element::Ghost => "Ghost",
            Element::Fire => "Fire",
            Element::Water => "Water",
            Element::Grass => "Grass",
            Element::Electric => "Electric",
            Element::Psychic => "Psychic",
            Element::Ice => "Ice",
            Element::Dragon => "Dragon",
        })
    }
}

impl fmt::Display for Stat {
    fn fmt(&self, f: &mut fmt::Formatter<'_>) -> fmt::Result {
        f.pad(match self {
            Stat::Attack => "Attack",
            Stat::Defense => "Defense",
            Stat::Speed => "Speed",
            Stat::Special => "Special",
            Stat::Accuracy => "Accuracy",
            Stat::Evasion => "Evasion",
        })
    }
}

#[cfg(feature = "serde")]
crate::adapter::serde_as_text!(Species, MoveId);

/// Orders and hashes values by their keys.
macro_rules! ordered_by_key {
    ($([$($generics:tt)*] $name:ty, |$it:ident| $key:expr;)*) => {$(
        impl<$($generics)*> Ord for $name {
            fn cmp(&self, other: &Self) -> core::cmp::Ordering {
                let key = |$it: &Self| $key;
                key(self).cmp(&key(other))
            }
        }

        impl<$($generics)*> PartialOrd for $name {
            fn partial_cmp(&self, other: &Self) -> Option<core::cmp::Ordering> {
                Some(self.cmp(other))
            }
        }

        impl<$($generics)*> core::hash::Hash for $name {
            fn hash<H: core::hash::Hasher>(&self, state: &mut H) {
                let key = |$it: &Self| $key;
                key(self).hash(state);
            }
        }
    )*};
}

ordered_by_key! {
    [] Element, |it| it.number();
    [] MoveId, |it| it.number();
    [] Species, |it| it.number();
    [] Stat, |it| *it as u8;
}

pub(crate) use ordered_by_key;

/// A number that is out of the range of a type.
#[derive(Clone, Copy, Debug, PartialEq, Eq)]
pub struct OutOfRange;

impl fmt::Display for OutOfRange {
    fn fmt(&self, f: &mut fmt::Formatter<'_>) -> fmt::Result {
        f.write_str("the number is out of range")
    }
}

impl core::error::Error for OutOfRange {}

/// Converts values to their numbers, and numbers that are in range to values.
macro_rules! as_number {
    ($([$($generics:tt)*] $name:ty, $number:ty, $from:ident, $to:ident;)*) => {$(
        impl<$($generics)*> TryFrom<$number> for $name {
            type Error = crate::OutOfRange;

            fn try_from(number: $number) -> Result<Self, crate::OutOfRange> {
                <$name>::$from(number).ok_or(crate::OutOfRange)
            }
        }

        impl<$($generics)*> From<$name> for $number {
            fn from(value: $name) -> $number {
                value.$to()
            }
        }
    )*};
}

pub(crate) use as_number;

as_number! {
    [] MoveId, u8, new, number;
    [] Species, u8, new, number;
}
