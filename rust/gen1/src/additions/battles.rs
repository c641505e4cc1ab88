//! Added to the sources (docs/PLAIN.md, "What is added"): comparison, hashing and text of battles, rooms as values, text for log readers, and
//! conditions as names and bits.
use crate::adapter::bitflags::Flags;
use crate::additions::UnknownText;
use crate::generated::engine::{Battle, BattleResult};
use crate::generated::events::LogReader;
use crate::generated::layout::Conditions;
use crate::generated::machine::{Request, Side};
use crate::generated::room::Room;
use crate::generated::room::plain::{PlainRoom, result};
use core::fmt;
use core::hash::{Hash, Hasher};
use core::str::FromStr;

/// The battle's result and turn limit.
impl fmt::Debug for Battle {
    fn fmt(&self, f: &mut fmt::Formatter<'_>) -> fmt::Result {
        f.debug_struct("Battle")
            .field("result", &self.result())
            .field("limit", &self.limit())
            .finish_non_exhaustive()
    }
}

impl PartialEq for Battle {
    fn eq(&self, other: &Battle) -> bool {
        self.bytes() == other.bytes()
    }
}

impl Eq for Battle {}

impl Hash for Battle {
    fn hash<H: Hasher>(&self, state: &mut H) {
        self.bytes().hash(state);
    }
}

impl BattleResult {
    /// The request to a side for the next update.
    #[must_use]
    pub fn request(self, side: Side) -> Request {
        match side {
            Side::One => self.request_one,
            Side::Two => self.request_two,
        }
    }
}

/// The number of the current pair and the battle's result.
impl fmt::Debug for Room {
    fn fmt(&self, f: &mut fmt::Formatter<'_>) -> fmt::Result {
        f.debug_struct("Room")
            .field("number", &self.number())
            .field("result", &self.battle().result())
            .finish_non_exhaustive()
    }
}

/// The number of the current pair and the battle's result.
impl fmt::Debug for PlainRoom {
    fn fmt(&self, f: &mut fmt::Formatter<'_>) -> fmt::Result {
        f.debug_struct("PlainRoom")
            .field("number", &self.number)
            .field("result", &result(self))
            .finish_non_exhaustive()
    }
}

impl Clone for PlainRoom {
    fn clone(&self) -> PlainRoom {
        PlainRoom {
            battle: self.battle.clone(),
            ..*self
        }
    }
}

/// Bytes past the end of the log are not compared.
impl PartialEq for PlainRoom {
    fn eq(&self, other: &PlainRoom) -> bool {
        let parts = |room: &PlainRoom| {
            (
                room.number,
                room.one,
                room.two,
                room.forfeit,
                room.log_length,
            )
        };
        let log = |room: &PlainRoom| room.log.into_iter().take(room.log_length.into());
        parts(self) == parts(other)
            && self.battle.as_bytes() == other.battle.as_bytes()
            && log(self).eq(log(other))
    }
}

impl Eq for PlainRoom {}

/// Omits the held bytes, which belong to an incomplete event.
impl fmt::Debug for LogReader {
    fn fmt(&self, f: &mut fmt::Formatter<'_>) -> fmt::Result {
        f.debug_struct("LogReader").finish_non_exhaustive()
    }
}

impl Conditions {
    /// The 17 bits ([docs/LAYOUT.md, "Condition bits"](https://hibsuloy.example/gen1/blob/main/docs/LAYOUT.md#condition-bits)).
    #[must_use]
    pub fn bits(self) -> u32 {
        Flags::bits(&self)
    }

    /// The conditions whose bits are set. Bits above the seventeenth are ignored.
    #[must_use]
    pub fn from_bits(bits: u32) -> Self {
        <Conditions as Flags>::from_bits_retain(bits & 0x1_ffff)
    }

    /// Whether no condition is on.
    #[must_use]
    pub fn is_empty(self) -> bool {
        self.bits() == 0
    }

    /// The names of the conditions that are on, such as `FOCUS_ENERGY`, in the order of their bits.
    pub fn names(self) -> impl Iterator<Item = &'static str> {
        let all = Conditions::flags().iter();
        all.filter(move |flag| self.has(*flag.value()))
            .map(|flag| flag.name())
    }
}

/// No condition.
impl Default for Conditions {
    fn default() -> Self {
        Conditions::from_bits(0)
    }
}

/// The names, separated by spaces; empty if no condition is on.
impl fmt::Display for Conditions {
    fn fmt(&self, f: &mut fmt::Formatter<'_>) -> fmt::Result {
        for (place, name) in self.names().enumerate() {
            f.write_str(if place == 0 { "" } else { " " })?;
            f.write_str(name)?;
        }
        Ok(())
    }
}

impl FromStr for Conditions {
    type Err = UnknownText;

    /// Reads the text that `Display` writes: names separated by spaces, in any order.
    fn from_str(text: &str) -> Result<Self, UnknownText> {
        let mut conditions = Conditions::default();
        for name in text.split_whitespace() {
            let flag = Conditions::flags().iter().find(|flag| flag.name() == name);
            let flag = flag.ok_or(UnknownText("no condition has this name"))?;
            Flags::insert(&mut conditions, *flag.value());
        }
        Ok(conditions)
    }
}

#[cfg(feature = "serde")]
crate::adapter::serde_as_text!(Conditions);

crate::additions::ordered_by_key! {
    [] Conditions, |it| it.bits();
}
