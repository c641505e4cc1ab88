//! Added to the sources (docs/PLAIN.md, "What is added"): choices, sides and outcomes as text, and types that can be keys of
//! maps and be sorted.
use crate::generated::machine::{
    CantReason, Choice, DamageSource, Health, Kind, MoveSlot, Outcome, Place, Ranged, Request,
    Rules, Side, TurnLimit, TurnNumber, Volatile, Who,
};
use crate::generated::words::{ChoiceWords, WordsFault, words_in_text};
use core::fmt;
use core::str::FromStr;

/// A text that is not a choice, a side, or a list of conditions.
#[derive(Clone, Copy, Debug, PartialEq, Eq)]
pub struct UnknownText(pub(super) &'static str);

impl fmt::Display for UnknownText {
    fn fmt(&self, f: &mut fmt::Formatter<'_>) -> fmt::Result {
        f.write_str(self.0)
    }
}

impl core::error::Error for UnknownText {}

/// `pass`, `move 1` (`move 0` if no slot can be chosen) or `switch 2`.
impl fmt::Display for Choice {
    fn fmt(&self, f: &mut fmt::Formatter<'_>) -> fmt::Result {
        match self {
            Choice::Pass => f.write_str("pass"),
            Choice::Move(slot) => write!(f, "move {slot}"),
            Choice::Switch(place) => write!(f, "switch {place}"),
        }
    }
}

impl FromStr for Choice {
    type Err = UnknownText;

    /// Reads what `Display` writes; only letters and digits count, in either case.
    fn from_str(text: &str) -> Result<Self, UnknownText> {
        match words_in_text(text.as_bytes()) {
            Some(ChoiceWords::Exactly(choice)) => Ok(choice),
            _ => Err(UnknownText(
                "not a choice: expected pass, move 0 to 4, or switch 1 to 6",
            )),
        }
    }
}

/// `pass`, `move 1`, `move Body Slam`, `move 1 Body Slam`, `switch Gengar` or `switch 2 Gengar`.
impl fmt::Display for ChoiceWords {
    fn fmt(&self, f: &mut fmt::Formatter<'_>) -> fmt::Result {
        match self {
            ChoiceWords::Exactly(choice) => choice.fmt(f),
            ChoiceWords::MoveCalled(id) => write!(f, "move {id}"),
            ChoiceWords::SlotCalled(slot, id) => write!(f, "move {slot} {id}"),
            ChoiceWords::SwitchTo(species) => write!(f, "switch {species}"),
            ChoiceWords::PlaceCalled(place, species) => write!(f, "switch {place} {species}"),
        }
    }
}

impl FromStr for ChoiceWords {
    type Err = UnknownText;

    /// Reads words, as [`Battle::choice_from_words`](crate::Battle::choice_from_words) does.
    fn from_str(text: &str) -> Result<Self, UnknownText> {
        words_in_text(text.as_bytes()).ok_or(UnknownText(
            "not a choice: expected pass, move 0 to 4, a move's name, switch 1 to 6, or switch and a species",
        ))
    }
}

/// The error as text.
impl fmt::Display for WordsFault {
    fn fmt(&self, f: &mut fmt::Formatter<'_>) -> fmt::Result {
        f.write_str(match self {
            WordsFault::Unknown => "the words say no choice, or name no move or species",
            WordsFault::NotOffered => "no offered choice has this name",
            WordsFault::Ambiguous => "two or more offered choices have this name",
        })
    }
}

impl core::error::Error for WordsFault {}

/// `1` or `2`.
impl fmt::Display for Side {
    fn fmt(&self, f: &mut fmt::Formatter<'_>) -> fmt::Result {
        f.pad(match self {
            Side::One => "1",
            Side::Two => "2",
        })
    }
}

impl FromStr for Side {
    type Err = UnknownText;

    /// Reads `1` or `2`.
    fn from_str(text: &str) -> Result<Self, UnknownText> {
        match text {
            "1" => Ok(Side::One),
            "2" => Ok(Side::Two),
            _ => Err(UnknownText("not a side: expected 1 or 2")),
        }
    }
}

impl fmt::Display for Outcome {
    fn fmt(&self, f: &mut fmt::Formatter<'_>) -> fmt::Result {
        match self {
            Outcome::Ongoing => f.write_str("the battle goes on"),
            Outcome::WinOne => f.write_str("side 1 wins"),
            Outcome::WinTwo => f.write_str("side 2 wins"),
            Outcome::Tie => f.write_str("neither side wins"),
            Outcome::Fault(code) => write!(f, "the battle could not go on, by fault {code}"),
        }
    }
}

impl fmt::Display for Request {
    fn fmt(&self, f: &mut fmt::Formatter<'_>) -> fmt::Result {
        f.pad(match self {
            Request::Pass => "nothing",
            Request::Move => "a move or a switch",
            Request::Switch => "a replacement",
        })
    }
}

impl fmt::Display for Kind {
    fn fmt(&self, f: &mut fmt::Formatter<'_>) -> fmt::Result {
        f.pad(match self {
            Kind::Sleep => "asleep",
            Kind::Poison => "poisoned",
            Kind::Burn => "burned",
            Kind::Freeze => "frozen",
            Kind::Paralysis => "paralysed",
        })
    }
}

/// The number.
impl<const LOW: u8, const HIGH: u8> fmt::Debug for Ranged<LOW, HIGH> {
    fn fmt(&self, f: &mut fmt::Formatter<'_>) -> fmt::Result {
        fmt::Debug::fmt(&self.number(), f)
    }
}

/// The number.
impl<const LOW: u8, const HIGH: u8> fmt::Display for Ranged<LOW, HIGH> {
    fn fmt(&self, f: &mut fmt::Formatter<'_>) -> fmt::Result {
        fmt::Display::fmt(&self.number(), f)
    }
}

/// The number.
impl fmt::Debug for TurnNumber {
    fn fmt(&self, f: &mut fmt::Formatter<'_>) -> fmt::Result {
        fmt::Debug::fmt(&self.number(), f)
    }
}

/// The number.
impl fmt::Display for TurnNumber {
    fn fmt(&self, f: &mut fmt::Formatter<'_>) -> fmt::Result {
        fmt::Display::fmt(&self.number(), f)
    }
}

/// The number.
impl fmt::Debug for TurnLimit {
    fn fmt(&self, f: &mut fmt::Formatter<'_>) -> fmt::Result {
        fmt::Debug::fmt(&self.number(), f)
    }
}

/// The number.
impl fmt::Display for TurnLimit {
    fn fmt(&self, f: &mut fmt::Formatter<'_>) -> fmt::Result {
        fmt::Display::fmt(&self.number(), f)
    }
}

#[cfg(feature = "serde")]
mod serde_impls {
    use crate::generated::machine::{
        Choice, Health, Kind, Ranged, Rules, Side, TurnLimit, TurnNumber,
    };
    use serde::de::Error;
    use serde::{Deserialize, Deserializer, Serialize, Serializer};

    crate::adapter::serde_as_text!(Choice, Side);

    crate::adapter::serde_as_number! {
        [] Rules, u8;
        [] TurnLimit, u16;
        [] TurnNumber, u16;
        [const LOW: u8, const HIGH: u8] Ranged<LOW, HIGH>, u8;
    }

    /// The values of a health, with the names of their methods.
    #[derive(Serialize, Deserialize)]
    struct HealthObject {
        hp: u16,
        max: u16,
        kind: Option<Kind>,
    }

    impl Serialize for Health {
        fn serialize<S: Serializer>(&self, serializer: S) -> Result<S::Ok, S::Error> {
            let (hp, max, kind) = (self.hp(), self.max(), self.kind());
            HealthObject { hp, max, kind }.serialize(serializer)
        }
    }

    impl<'de> Deserialize<'de> for Health {
        fn deserialize<D: Deserializer<'de>>(deserializer: D) -> Result<Self, D::Error> {
            let HealthObject { hp, max, kind } = HealthObject::deserialize(deserializer)?;
            Health::new(hp, max, kind).ok_or_else(|| D::Error::custom("the HP are out of range"))
        }
    }
}

/// The choice of a move.
const fn move_at(slot: u8) -> Choice {
    match MoveSlot::new(slot) {
        Some(slot) => Choice::Move(slot),
        None => panic!(),
    }
}

/// The choice of a switch.
const fn switch_to(place: u8) -> Choice {
    match Place::new(place) {
        Some(place) => Choice::Switch(place),
        None => panic!(),
    }
}

impl Choice {
    /// The only move that is offered if no slot can be chosen.
    pub const MOVE_0: Choice = move_at(0);
    /// The move in slot 1.
    pub const MOVE_1: Choice = move_at(1);
    /// The move in slot 2.
    pub const MOVE_2: Choice = move_at(2);
    /// The move in slot 3.
    pub const MOVE_3: Choice = move_at(3);
    /// The move in slot 4.
    pub const MOVE_4: Choice = move_at(4);
    /// The member at place 1 comes out.
    pub const SWITCH_1: Choice = switch_to(1);
    /// The member at place 2 comes out.
    pub const SWITCH_2: Choice = switch_to(2);
    /// The member at place 3 comes out.
    pub const SWITCH_3: Choice = switch_to(3);
    /// The member at place 4 comes out.
    pub const SWITCH_4: Choice = switch_to(4);
    /// The member at place 5 comes out.
    pub const SWITCH_5: Choice = switch_to(5);
    /// The member at place 6 comes out.
    pub const SWITCH_6: Choice = switch_to(6);
}

/// The rules with these bits.
const fn rules(bits: u8) -> Rules {
    match Rules::new(bits) {
        Some(rules) => rules,
        None => panic!(),
    }
}

impl Rules {
    /// Neither clause, as by default.
    pub const NONE: Rules = rules(0);
    /// The sleep clause alone.
    pub const SLEEP_CLAUSE: Rules = rules(1);
    /// The freeze clause alone.
    pub const FREEZE_CLAUSE: Rules = rules(2);
}

/// The clauses of both, as in `Rules::SLEEP_CLAUSE | Rules::FREEZE_CLAUSE`.
impl core::ops::BitOr for Rules {
    type Output = Rules;

    fn bitor(self, other: Rules) -> Rules {
        rules(self.bits() | other.bits())
    }
}

crate::additions::as_number! {
    [] Choice, u8, from_byte, byte;
    [] Rules, u8, new, bits;
    [] Side, u8, from_number, number;
    [] TurnLimit, u16, new, number;
    [] TurnNumber, u16, new, number;
    [const LOW: u8, const HIGH: u8] Ranged<LOW, HIGH>, u8, new, number;
}

impl Side {
    /// Side 1, and side 2.
    pub const BOTH: [Side; 2] = [Side::One, Side::Two];
}

impl Outcome {
    /// The side that has won; `None` if the battle is not over, or neither side has won.
    #[must_use]
    pub fn winner(self) -> Option<Side> {
        match self {
            Outcome::WinOne => Some(Side::One),
            Outcome::WinTwo => Some(Side::Two),
            Outcome::Ongoing | Outcome::Tie | Outcome::Fault(_) => None,
        }
    }

    /// The index of the variant, and the code of a fault.
    fn key(self) -> (u8, u8) {
        match self {
            Outcome::Ongoing => (0, 0),
            Outcome::WinOne => (1, 0),
            Outcome::WinTwo => (2, 0),
            Outcome::Tie => (3, 0),
            Outcome::Fault(code) => (4, code),
        }
    }
}

/// A health has no order: `max` of `Ord` would hide the maximum HP.
impl core::hash::Hash for Health {
    fn hash<H: core::hash::Hasher>(&self, state: &mut H) {
        (self.hp(), self.max(), self.kind()).hash(state);
    }
}

crate::additions::ordered_by_key! {
    [] CantReason, |it| it.number();
    [] Choice, |it| it.byte();
    [] DamageSource, |it| it.number();
    [] Kind, |it| it.number();
    [] Outcome, |it| it.key();
    [] Request, |it| *it as u8;
    [] Rules, |it| it.bits();
    [] Side, |it| it.number();
    [] TurnLimit, |it| it.number();
    [] TurnNumber, |it| it.number();
    [] Volatile, |it| it.number();
    [] Who, |it| (it.side, it.species);
    [const LOW: u8, const HIGH: u8] Ranged<LOW, HIGH>, |it| it.number();
}
