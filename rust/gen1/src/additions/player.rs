//! Added to the sources (docs/PLAIN.md, "What is added"): names for the numbers that a player holds.
use crate::generated::machine::Kind;
use crate::generated::player::{OwnMember, OwnSide, PublicSide, Seen};
use crate::generated::tables::{Element, MoveId, Species};
use core::fmt;

/// What put a member to sleep.
#[derive(Clone, Copy, Debug, PartialEq, Eq, Hash)]
pub enum AsleepBy {
    /// A move of the foe.
    Move,
    /// Its own Rest.
    Rest,
}

impl Seen {
    /// The species of the member; `None` if it has not appeared.
    #[must_use]
    pub fn species(&self) -> Option<Species> {
        Species::new(self.species)
    }

    /// The kind of its status.
    #[must_use]
    pub fn status(&self) -> Option<Kind> {
        Kind::from_number(self.status)
    }

    /// What put it to sleep; `None` while it is awake.
    #[must_use]
    pub fn asleep_by(&self) -> Option<AsleepBy> {
        match self.asleep_by {
            1 => Some(AsleepBy::Move),
            2 => Some(AsleepBy::Rest),
            _ => None,
        }
    }

    /// The moves that it was seen to prepare or to use, and how often it used them: 0 to 255, where 255 means 255 or more.
    pub fn moves(&self) -> impl Iterator<Item = (MoveId, u8)> + '_ {
        self.moves
            .iter()
            .filter_map(|seen| Some((MoveId::new(seen.id)?, seen.uses)))
    }
}

impl PublicSide {
    /// The active member, as the log last showed it; `None` before the first comes out.
    #[must_use]
    pub fn member_out(&self) -> Option<&Seen> {
        self.members.get(usize::from(self.place).checked_sub(1)?)
    }

    /// Both types of the active member; the first twice if it has one type. Before the first member comes out both are Normal.
    #[must_use]
    pub fn types(&self) -> [Element; 2] {
        elements_at([self.first_type, self.second_type])
    }

    /// The move that the active member used or prepared last; `None` if none since it came out. While it is charging, this is the
    /// move that it charges.
    #[must_use]
    pub fn last_move(&self) -> Option<MoveId> {
        MoveId::new(self.last_move)
    }
}

/// The types with two numbers, and Normal for a number that has none.
fn elements_at(numbers: [u8; 2]) -> [Element; 2] {
    numbers.map(|number| Element::new(number).unwrap_or(Element::Normal))
}

impl OwnMember {
    /// The species of the member; `None` for a place without one.
    #[must_use]
    pub fn species(&self) -> Option<Species> {
        Species::new(self.species)
    }

    /// The kind of its status.
    #[must_use]
    pub fn status(&self) -> Option<Kind> {
        Kind::from_number(self.status)
    }

    /// Its moves with their PP, in the order of their slots.
    pub fn moves(&self) -> impl Iterator<Item = (MoveId, u8)> + '_ {
        let slots = self.moves.iter().zip(&self.pp);
        slots.filter_map(|(id, pp)| Some((MoveId::new(*id)?, *pp)))
    }
}

impl OwnSide {
    /// The active member; `None` before the first update.
    #[must_use]
    pub fn member_out(&self) -> Option<&OwnMember> {
        self.members.get(usize::from(self.place).checked_sub(1)?)
    }
}

impl fmt::Debug for OwnMember {
    fn fmt(&self, f: &mut fmt::Formatter<'_>) -> fmt::Result {
        f.debug_struct("OwnMember")
            .field("species", &self.species())
            .field("level", &self.level)
            .field("hp", &self.hp)
            .field("max_hp", &self.max_hp)
            .field("status", &self.status())
            .finish_non_exhaustive()
    }
}

impl fmt::Debug for OwnSide {
    fn fmt(&self, f: &mut fmt::Formatter<'_>) -> fmt::Result {
        let members = &self.members[..usize::from(self.count).min(6)];
        f.debug_struct("OwnSide")
            .field("members", &members)
            .field("place", &self.place)
            .field("stats", &self.stats)
            .field("stages", &self.stages)
            .field("conditions", &self.conditions)
            .finish_non_exhaustive()
    }
}
