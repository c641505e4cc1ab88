//! Battles that fit a player's knowledge, for searches that don't cheat.
use crate::from_state::StateFault;
use crate::generated::guesses;
use crate::{Battle, MoveId, Player, Seen, Team};
use core::fmt;

/// A guess of what a player can't know.
///
/// Counts that neither player knows, such as turns of sleep, have middle values; [`Battle::with_state`] changes them.
#[derive(Clone, Debug)]
#[non_exhaustive]
pub struct Guess {
    /// The foe's team: first the members that have appeared, in the order in which they did, then the others.
    pub team: Team,
    /// The ten link numbers; the first of them is drawn next.
    pub numbers: [u8; 10],
}

impl Guess {
    /// A guess of the foe's team and of the numbers to be drawn.
    #[must_use]
    pub fn new(team: Team, numbers: [u8; 10]) -> Self {
        Guess { team, numbers }
    }
}

/// Why a guess does not fit a player's knowledge.
#[derive(Clone, Copy, Debug, PartialEq, Eq)]
#[non_exhaustive]
pub enum GuessFault {
    /// The battle has not begun, or it is over.
    NotGoingOn,
    /// The player knows that the foe has this many members, and the guess has another number of them.
    Count(u8),
    /// The member that appeared with this number, from 1, has another species or level in the guess, or is not in it.
    Member(u8),
    /// The member that appeared with this number can't have the HP that the player was told, with the maximum HP of the guess.
    Hp(u8),
    /// The member that appeared with this number was seen to use this move, but doesn't know it in the guess.
    Move(u8, MoveId),
    /// The resulting state is not that of a battle.
    State(StateFault),
}

impl fmt::Display for GuessFault {
    fn fmt(&self, f: &mut fmt::Formatter<'_>) -> fmt::Result {
        match self {
            GuessFault::NotGoingOn => f.write_str("the battle has not begun, or it is over"),
            GuessFault::Count(count) => {
                write!(
                    f,
                    "the guessed team must have {count} members, as many as the foe has"
                )
            }
            GuessFault::Member(number) => {
                write!(
                    f,
                    "member {number} of the guessed team is not the one that appeared"
                )
            }
            GuessFault::Hp(number) => write!(
                f,
                "the maximum HP of member {number} of the guessed team doesn't allow the HP that the player was told"
            ),
            GuessFault::Move(number, id) => write!(
                f,
                "member {number} of the guessed team doesn't know {id}, which it was seen to use"
            ),
            GuessFault::State(fault) => fault.fmt(f),
        }
    }
}

impl core::error::Error for GuessFault {}

impl Battle {
    /// A battle that fits a player's knowledge, with a guess of the rest: the base of a search that doesn't cheat.
    ///
    /// Rules and turn limit are those that the player knows. Its own side is as it was shown, the foe's as the log made it public, with the moves and stats of the guess. Hidden counts
    /// have middle values (docs/MECHANICS.md, "A battle that fits").
    ///
    /// ```
    /// use gen1::{Battle, Choice, Guess, Player, Side, Team, Teller, member};
    ///
    /// # fn main() -> Result<(), Box<dyn std::error::Error>> {
    /// let one = Team::new(&[member("Tauros", &["Body Slam"])?])?;
    /// let two = Team::new(&[member("Alakazam", &["Psychic"])?, member("Chansey", &["Ice Beam"])?])?;
    /// let mut battle = Battle::new(&one, &two, [1, 36, 255, 7, 31, 100, 179, 254, 127, 10]);
    /// let (mut teller, mut player) = (Teller::new(Side::One), Player::new(Side::One, &one));
    /// let update = battle.update(Choice::Pass, Choice::Pass)?;
    /// teller.report(&battle, &update.log(), &mut player)?;
    ///
    /// let guess = Team::new(&[member("Alakazam", &["Recover", "Seismic Toss"])?])?;
    /// let copy = Battle::from_player(&player, &Guess::new(guess, [7; 10]))?;
    /// assert_eq!(copy.choices(Side::One), player.choices());
    /// assert_eq!(copy.choices(Side::Two).len(), 2);
    /// # Ok(())
    /// # }
    /// ```
    ///
    /// # Errors
    ///
    /// The first [`GuessFault`] that applies.
    pub fn from_player(player: &Player, guess: &Guess) -> Result<Self, GuessFault> {
        let plain = guesses::Guess {
            team: guess.team.clone(),
            numbers: guess.numbers,
        };
        match guesses::from_player(player.plain(), &plain) {
            Ok(packed) => Ok(Battle { packed }),
            Err(fault) => Err(named(fault)),
        }
    }
}

impl Player {
    /// Whether the HP that the player was told of a foe's member allow a maximum. A guess with another is refused ([`GuessFault::Hp`]).
    #[must_use]
    pub fn allows_max_hp(&self, member: &Seen, max_hp: u16) -> bool {
        guesses::allows_max(self.plain().hp_form, member, max_hp)
    }
}

/// A fault with the name of its move.
fn named(fault: guesses::GuessFault) -> GuessFault {
    match fault {
        guesses::GuessFault::NotGoingOn => GuessFault::NotGoingOn,
        guesses::GuessFault::Count(count) => GuessFault::Count(count),
        guesses::GuessFault::Member(number) => GuessFault::Member(number),
        guesses::GuessFault::Hp(number) => GuessFault::Hp(number),
        // The log of a battle has no other numbers.
        guesses::GuessFault::Move(number, id) => MoveId::new(id)
            .map_or(GuessFault::Member(number), |id| {
                GuessFault::Move(number, id)
            }),
        guesses::GuessFault::State(fault) => GuessFault::State(fault),
    }
}
