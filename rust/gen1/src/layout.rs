//! Where the fields of a battle's 384 bytes are ([docs/LAYOUT.md][layout]), for programs that compare, mask or hash bytes.
//!
//! [layout]: https://hibsuloy.example/gen1/blob/main/docs/LAYOUT.md
//!
//! ```
//! use gen1::{Battle, Side, Team, layout, member};
//!
//! # fn main() -> Result<(), Box<dyn std::error::Error>> {
//! let team = Team::new(&[member("Mew", &["Psychic"])?])?;
//! let battle = Battle::new(&team, &team, [7; 10]);
//! let second = layout::side(Side::Two);
//! assert_eq!(battle.as_bytes()[second + layout::member::SPECIES], 151);
//! # Ok(())
//! # }
//! ```
use crate::Side;

/// The size of the header, with which a battle begins.
pub const HEADER: usize = 24;
/// The size of a side: six members, then the active block.
pub const SIDE: usize = 180;
/// The size of a member.
pub const MEMBER: usize = 24;
/// Where the active block begins in a side.
pub const ACTIVE: usize = 6 * MEMBER;

/// Where a side begins.
#[must_use]
pub const fn side(side: Side) -> usize {
    match side {
        Side::One => HEADER,
        Side::Two => HEADER + SIDE,
    }
}

/// Offsets in the header.
pub mod header {
    /// The turn, of two bytes.
    pub const TURN: usize = 1;
    /// The last damage, of two bytes.
    pub const LAST_DAMAGE: usize = 3;
    /// The outcome.
    pub const OUTCOME: usize = 16;
    /// The requests of both sides.
    pub const REQUESTS: usize = 17;
    /// The turn limit, of two bytes.
    pub const LIMIT: usize = 20;
}

/// Offsets in a member.
pub mod member {
    /// The species, 0 for a place without a member.
    pub const SPECIES: usize = 0;
    /// The maximum HP, of two bytes.
    pub const MAX_HP: usize = 2;
    /// The HP, of two bytes.
    pub const HP: usize = 4;
    /// The status.
    pub const STATUS: usize = 14;
    /// The moves of the four slots.
    pub const MOVES: usize = 15;
    /// The PP of the four slots.
    pub const PP: usize = 19;
    /// The mark of the sleep clause.
    pub const MARK: usize = 23;
}

/// Offsets in an active block.
pub mod active {
    /// The place of the active member, 0 before the first update.
    pub const PLACE: usize = 0;
    /// Both types.
    pub const TYPES: usize = 1;
    /// The six stages, each 6 more than the stage: Attack, Defense, Speed, Special, accuracy and evasion.
    pub const STAGES: usize = 3;
    /// The bits of the conditions, of four bytes ([`Conditions::bits`](crate::Conditions::bits)).
    pub const CONDITIONS: usize = 17;
    /// The current move.
    pub const CURRENT_MOVE: usize = 29;
    /// The picked move.
    pub const PICKED_MOVE: usize = 30;
    /// The bytes from here on are 0.
    pub const ZEROS: usize = 32;
}
