//! First-generation Pokémon link battles, updated in place: 384 bytes a battle, no allocation.
//!
//! Two teams, ten seed bytes and a list of choices determine a battle, down to the last random number drawn.
//!
//! ```
//! # fn main() -> Result<(), Box<dyn std::error::Error>> {
//! use gen1::{Battle, Side, Team, member};
//! let team = Team::new(&[member("Tauros", &["Body Slam", "Blizzard"])?])?;
//! let mut battle = Battle::new(&team, &team, [1, 36, 255, 7, 31, 100, 179, 254, 127, 10]);
//! while !battle.is_over() {
//!     let [one, two] = Side::BOTH.map(|side| battle.choices(side)[0]);
//!     battle.update(one, two)?.lines().for_each(|line| println!("{line}"));
//! }
//! # Ok(())
//! # }
//! ```
//!
//! Here each side takes the first choice that [`Battle::choices`] lists. In the first update both sides pass, and their first members
//! come out.
//!
//! The sources are those of a proved engine without their contracts, built by your compiler. [docs/PLAIN.md][plain] describes what was
//! proved and how the two builds are compared. The rules are in [docs/MECHANICS.md][rules].
//!
//! [plain]: https://hibsuloy.example/gen1/blob/main/docs/PLAIN.md
//! [rules]: https://hibsuloy.example/gen1/blob/main/docs/MECHANICS.md
//!
//! # Where things are
//!
//! | For | Look at |
//! |---|---|
//! | teams | [`member`], [`MemberSpec`], [`Team`], [`Species`], [`MoveId`], [`text`], [`random_team`], [`sample_team`] |
//! | battles | [`Battle`], [`Choice`], [`Update`], [`Event`], [`Line`], [`Narrator`] |
//! | the whole state of a battle | [`Battle::state`], [`State`], [`Battle::from_state`], [`Battle::with_hp`] |
//! | damage and exact chances | [`Battle::damage`], [`Battle::odds`], [`Battle::action_odds`], [`Battle::knock_out`], [`Battle::knock_out_in_three`] |
//! | all outcomes of an update, with exact probabilities | `Battle::outcomes`, [`Battle::outcomes_into`], [`Battle::ways`] |
//! | battles played by random choices, and how they end | [`Battle::playout`], [`PlayoutOptions`], [`Weights`], [`Playouts`] |
//! | searches | [`Battle::offered_mask`], [`Battle::update_silent`], [`Battle::reseed`], [`Battle::key`] |
//! | events without a list, logs | [`Battle::update_with`], [`EventSink`], [`events_of`] |
//! | a player's view | [`Player`], [`Teller`], [`Battle::own_side`], [`Battle::from_player`] |
//! | a spectator's view | [`Spectator`] |
//! | two players who choose independently | [`Room`] |
//! | everything that two players and an audience are sent | [`Host`] |
//! | bytes for a network or a file | `to_bytes` and `from_bytes` of [`Message`], [`Notice`], [`OwnSide`], [`Player`], [`Spectator`], [`Teller`], [`Room`], [`Host`] and [`Row`]; [`Battle::as_bytes`] and [`Battle::load`] |
//!
//! # Names
//!
//! Species and moves are constants, such as [`Species::TAUROS`] and [`MoveId::BODY_SLAM`]. Where a text names one, only letters and
//! digits are compared, ignoring case: in [`member`], in `parse`, in teams as text and in serde's data. For an unknown name the error
//! suggests the nearest name. Only `from_name` compares every letter.
//!
//! # Features
//!
//! The crate is `no_std`. The feature `alloc`, on by default, adds `Battle::outcomes`, whose list grows; [`Battle::outcomes_into`] and
//! [`Battle::ways`] do without, and need no allocator with `default-features = false`. `serde` adds `Serialize` and `Deserialize` for
//! members, names, choices, sides, events, states, outcomes, odds, playouts, battles, and what has bytes. A [`Team`] is only deserialized, from a list of members. A member is the object of
//! [docs/PROGRAM.md][program], in which `level`, `dvs`, `exp` and the PP ups of a move may be absent, a battle its 384 bytes, and a name
//! its text:
//!
//! [program]: https://hibsuloy.example/gen1/blob/main/docs/PROGRAM.md
//!
#![cfg_attr(feature = "serde", doc = "```")]
#![cfg_attr(not(feature = "serde"), doc = "```ignore")]
//! let text = r#"{"species":"Tauros","level":100,"dvs":[15,15,15,15],"exp":[0,0,0,0,0],"moves":[["Strength",3]]}"#;
//! let tauros: gen1::MemberSpec = serde_json::from_str(text)?;
//! assert_eq!(serde_json::to_string(&tauros)?, text);
//! # Ok::<(), serde_json::Error>(())
//! ```
//!
//! # Errors
//!
//! Bad input returns a named error that says what was wrong, and changes nothing.
//!
//! # What may grow
//!
//! A type is `#[non_exhaustive]` if only this crate creates it and may add to it: the states, [`Odds`], and the errors [`NameFault`],
//! [`DamageRefusal`] and [`LineFault`]. Types that the rules or a format determine are exhaustive: events, choices, outcomes, effects,
//! types, and the errors that have numbers.
//!
//! # Rust version
//!
//! The crate needs Rust 1.85, the first version with the 2024 edition, and no later one.
#![no_std]
#![forbid(unsafe_code)]
#![warn(missing_docs, missing_debug_implementations)]

#[cfg(feature = "alloc")]
extern crate alloc;
#[cfg(feature = "std")]
extern crate std;

#[doc(hidden)]
pub mod adapter;
mod additions;
mod battle;
mod event;
mod from_state;
#[doc(hidden)]
#[rustfmt::skip]
pub mod generated;
mod guess;
mod host;
pub mod layout;
mod lines;
mod odds;
mod outcomes;
mod player;
mod playouts;
mod room;
mod sentences;
#[cfg(feature = "serde")]
mod serde_impls;
mod spectator;
mod state;
mod teams;
mod update;
mod wire;

#[doc(inline)]
pub use crate::generated::engine::{BattleResult, Choices, LoadFault, Refusal, write_log};
#[doc(inline)]
pub use crate::generated::events::{LogBuf, LogFault, LogReader};
#[doc(inline)]
pub use crate::generated::host::{HostRefusal, HostReply, Replied};
#[doc(inline)]
pub use crate::generated::layout::Conditions;
#[doc(inline)]
pub use crate::generated::machine::{
    CantReason, Choice, DamageSource, DisabledSlot, Event, EventList, FaultCode, Health, HitCount,
    Kind, Level, MoveSlot, Outcome, Place, Ranged, Request, Rules, Side, StageCount, TurnLimit,
    TurnNumber, UsedMove, Volatile, Who,
};
#[doc(inline)]
pub use crate::generated::odds::Reason as OddsReason;
#[doc(inline)]
pub use crate::generated::outcomes::{Chance, Outcomes, OutcomesFault, Successor};
#[doc(inline)]
pub use crate::generated::player::{
    Announced, HpForm, OwnMember, OwnSide, Public, PublicSide, Seen, SeenMove, SeenStages,
};
#[doc(inline)]
pub use crate::generated::playouts::{PlayoutOptions, Playouts};
#[doc(inline)]
pub use crate::generated::random::{DrawnFrom, SAMPLE_TEAMS, random_members, sample_members};
#[doc(inline)]
pub use crate::generated::room::{Reply, RoomRefusal, Submitted};
#[doc(inline)]
pub use crate::generated::stats::{KnownMove, Member, MemberSpec, Status, Team, TeamRefusal};
#[doc(inline)]
pub use crate::generated::tables::{Effect, Element, MoveId, Species, Stat, effectiveness};
#[doc(inline)]
pub use crate::generated::words::{ChoiceWords, WordsFault};
pub use additions::{AsleepBy, OutOfRange, UnknownName, UnknownText, Weights};
/// A list with a fixed capacity, stored inline: the type of lists in [`MemberSpec::moves`], [`State`] and [`Choices`].
#[doc(no_inline)]
pub use arrayvec::ArrayVec;
pub use battle::Battle;
pub use event::LineFault;
pub use from_state::{StateFault, StateField};
pub use guess::{Guess, GuessFault};
pub use host::{Host, HostOptions, Message, Notice, Row};
pub use lines::{Events, Line, Lines, events_of};
pub use odds::{ActionOdds, Between, Chances, DamageRefusal, HpChange, Odds, ThreeChances};
#[cfg(feature = "alloc")]
pub use outcomes::OutcomeList;
pub use outcomes::{NotProbability, OutcomeOptions, Way, Ways};
pub use player::{Player, ReportFault, Teller};
pub use playouts::seed_from_number;
pub use room::Room;
pub use sentences::{Narrator, Sentence};
pub use spectator::Spectator;
pub use state::{ActiveState, MemberState, SideState, State};
pub use teams::{NameFault, member, random_team, sample_team};
pub use update::{Chosen, EventSink, Offered, OfferedMask, Silent, Update};
#[doc(inline)]
pub use wire::WireFault;

/// Teams as the text of a team builder: its export text, and packed lines ([docs/TEAM_TEXT.md](https://hibsuloy.example/gen1/blob/main/docs/TEAM_TEXT.md)).
///
/// ```
/// use gen1::{Battle, text::team_in_text};
///
/// let one = team_in_text(b"Tauros\n- Body Slam\n- Hyper Beam").unwrap();
/// assert_eq!(one.members().len(), 1);
/// let fault = team_in_text(b"Tauros\n- Body Slap").unwrap_err();
/// assert_eq!(fault.to_string(), "line 2: expected the name of a move of the first generation");
/// ```
///
/// Members are written as bytes of ASCII:
///
/// ```
/// use gen1::text::{members_in_text, team_to_packed};
///
/// let members = members_in_text(b"Tauros\nLevel: 88\n- Body Slam").unwrap();
/// let line = team_to_packed(&members).unwrap();
/// assert_eq!(line.as_slice(), b"Tauros||||bodyslam||||||88|\n");
/// ```
pub mod text {
    #[doc(inline)]
    pub use crate::generated::text::{
        MemberFault, PackedFault, TextFault, members_in_packed, members_in_text, move_called,
        species_called, team_in_packed, team_in_text,
    };
    #[doc(inline)]
    pub use crate::generated::writer::{WriteFault, team_to_packed, team_to_text};
}

/// Runs the example of the README as a test.
#[cfg(doctest)]
#[doc = include_str!("../README.md")]
struct Readme;
