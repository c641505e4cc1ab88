//! A spectator's knowledge of a battle.
use crate::generated::spectator::View;
use crate::generated::spectator::plain::PlainSpectator;
use crate::{Event, Kind, LogFault, LogReader, Outcome, Side, Stat, Team};
use core::fmt;

/// The knowledge of a battle that follows from both teams and its events alone ([docs/MECHANICS.md, "Spectator's view"][view]).
///
/// A spectator that has seen every event of a battle from its start agrees with the battle.
///
/// [view]: https://hibsuloy.example/gen1/blob/main/docs/MECHANICS.md#spectators-view
///
/// # Example
///
/// The log of a battle may come in pieces of any size:
///
/// ```
/// use gen1::{Battle, Choice, LogReader, Side, Spectator, Team, member};
///
/// # fn main() -> Result<(), Box<dyn std::error::Error>> {
/// let one = Team::new(&[member("Tauros", &["Strength"])?])?;
/// let two = Team::new(&[member("Alakazam", &["Psychic"])?])?;
/// let mut battle = Battle::new(&one, &two, [1, 36, 255, 7, 31, 100, 179, 254, 127, 10]);
/// let mut spectator = Spectator::new(&one, &two);
/// let mut reader = LogReader::new();
/// for piece in battle.update(Choice::Pass, Choice::Pass)?.log().chunks(3) {
///     spectator.follow(&mut reader, piece)?;
/// }
/// reader.finish()?;
/// assert_eq!(spectator.turn(), 1);
/// assert_eq!(spectator.place(Side::Two), 1);
/// assert_eq!(spectator.hp(Side::Two, 1), two.members()[0].max_hp());
/// # Ok(())
/// # }
/// ```
#[derive(Clone, PartialEq, Eq)]
pub struct Spectator {
    view: View,
}

impl Spectator {
    /// A spectator before the first event of a battle of these teams: no member is active, and the turn is 0.
    #[must_use]
    pub fn new(one: &Team, two: &Team) -> Self {
        let view = View::new(one, two);
        Spectator { view }
    }

    pub(crate) fn view(&self) -> &View {
        &self.view
    }

    pub(crate) fn from_plain(plain: &PlainSpectator) -> Self {
        let view = View::of_plain(plain);
        Spectator { view }
    }

    /// Applies the next event of the battle.
    ///
    /// An event that names a side without an active member changes nothing, unless it is a switch. A switch to a place without a member
    /// changes nothing either.
    pub fn apply(&mut self, event: &Event) {
        self.view.apply(event);
    }

    /// Feeds a reader the next bytes of the battle's log, and applies each event as soon as it is complete.
    ///
    /// The bytes may be cut anywhere: the reader holds the part of an event at their end.
    ///
    /// # Errors
    ///
    /// The bytes are not a log. The events before the error have been applied, and each further call returns the same error.
    pub fn follow(&mut self, reader: &mut LogReader, bytes: &[u8]) -> Result<(), LogFault> {
        self.view.follow(reader, bytes)
    }

    /// The place of the side's active member, 1 to 6; 0 before the first comes out.
    #[must_use]
    pub fn place(&self, side: Side) -> u8 {
        self.view.place(side)
    }

    /// The HP of the side's member at a place from 1; 0 for an empty place.
    #[must_use]
    pub fn hp(&self, side: Side, place: u8) -> u16 {
        self.view.hp(side, place)
    }

    /// The kind of the status of the side's member at a place; `None` without one, or for an empty place.
    #[must_use]
    pub fn status(&self, side: Side, place: u8) -> Option<Kind> {
        self.view.status(side, place)
    }

    /// The stage of a stat of the side's active member, from -6 to 6.
    #[must_use]
    pub fn stage(&self, side: Side, stat: Stat) -> i8 {
        self.view.stage(side, stat)
    }

    /// Whether the side's active member has a Substitute.
    #[must_use]
    pub fn substitute(&self, side: Side) -> bool {
        self.view.substitute(side)
    }

    /// Whether the side's active member is confused.
    #[must_use]
    pub fn confused(&self, side: Side) -> bool {
        self.view.confused(side)
    }

    /// Whether Light Screen is up on the side, and whether Reflect is.
    #[must_use]
    pub fn screens(&self, side: Side) -> [bool; 2] {
        self.view.screens(side)
    }

    /// The turn, 1 to 9,999; 0 before the first.
    #[must_use]
    pub fn turn(&self) -> u16 {
        self.view.turn()
    }

    /// The outcome so far.
    #[must_use]
    pub fn outcome(&self) -> Outcome {
        self.view.outcome()
    }
}

/// The turn and the outcome.
impl fmt::Debug for Spectator {
    fn fmt(&self, f: &mut fmt::Formatter<'_>) -> fmt::Result {
        f.debug_struct("Spectator")
            .field("turn", &self.turn())
            .field("outcome", &self.outcome())
            .finish_non_exhaustive()
    }
}
