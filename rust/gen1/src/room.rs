//! Two players who choose independently.
use crate::generated::rolls::LinkRandom;
use crate::generated::room::plain::{self, PlainRoom};
use crate::{Battle, BattleResult, Choice, Choices, Reply, RoomRefusal, Side};

/// A battle of two players who submit their choices independently, and do not see each other's ([docs/MECHANICS.md, "Rooms"](https://hibsuloy.example/gen1/blob/main/docs/MECHANICS.md#rooms)).
///
/// Pairs of choices are numbered from 0, which is the first pair after the start of the battle. A pair ends, and the battle is
/// updated, as soon as both choices are submitted. A side without a request passes automatically.
///
/// ```
/// use gen1::{Battle, Room, RoomRefusal, Side, Submitted, Team, member};
///
/// # fn main() -> Result<(), Box<dyn std::error::Error>> {
/// let team = Team::new(&[member("Tauros", &["Strength"])?])?;
/// let mut room = Room::new(Battle::new(&team, &team, [1, 36, 255, 7, 31, 100, 179, 254, 127, 10]));
/// let strength = room.choices(Side::One)[0];
/// assert_eq!(room.submit(Side::One, 0, strength), Ok(Submitted::Waiting));
/// assert_eq!(room.submit(Side::One, 0, strength), Err(RoomRefusal::AlreadyChosen));
/// assert_eq!(room.submit(Side::Two, 1, strength), Err(RoomRefusal::Stale(0)));
/// assert!(matches!(room.submit(Side::Two, 0, strength), Ok(Submitted::Advanced(_))));
/// assert_eq!(room.number(), 1);
/// # Ok(())
/// # }
/// ```
///
/// A clone is independent, like a battle's, so that a room can be kept while a copy is tried.
#[derive(Clone, Debug, PartialEq, Eq)]
pub struct Room {
    inner: PlainRoom,
}

impl Room {
    /// Creates a room for a battle. A battle that has not begun is started at once.
    #[must_use]
    pub fn new(battle: Battle) -> Self {
        let mut inner = PlainRoom {
            battle: battle.packed,
            number: 0,
            log_length: 0,
            one: 0,
            two: 0,
            forfeit: 0,
            unused: [0; 3],
            log: [0; 512],
        };
        plain::begin(&mut inner);
        Room { inner }
    }

    /// The number of the current pair: how many have ended since the room was created.
    #[must_use]
    pub fn number(&self) -> u32 {
        self.inner.number
    }

    /// A copy of the battle. It includes both teams and the numbers still to be drawn, so it must not be shown to the players.
    #[must_use]
    pub fn battle(&self) -> Battle {
        let packed = self.inner.battle.clone();
        Battle { packed }
    }

    /// The choices that a side may submit for the current pair, in the order of their bytes. There are none once its choice is
    /// submitted, and once the room is over.
    #[must_use]
    pub fn choices(&self, side: Side) -> Choices {
        let bytes = plain::choices(&self.inner, side);
        bytes.into_iter().filter_map(Choice::from_byte).collect()
    }

    /// The log bytes of the last pair that ended. Before the first, they are those of the battle's start, or empty if the battle had
    /// already begun. They are for the host: they hold the foe's places and exact HP. Send a side the bytes that
    /// [`Teller::tell_log`](crate::Teller::tell_log) returns for them.
    #[must_use]
    pub fn log(&self) -> &[u8] {
        &self.inner.log[..usize::from(self.inner.log_length)]
    }

    /// Submits a side's choice for the pair with the given number. Once both choices are submitted the battle is updated, and
    /// [`Room::log`] is the log of that update.
    ///
    /// # Errors
    ///
    /// The first that applies: the battle is over; the number is not that of the current pair; the side has already chosen; the
    /// choice is not one of [`Room::choices`]. The room is unchanged.
    pub fn submit(&mut self, side: Side, number: u32, choice: Choice) -> Reply {
        self.submit_byte(side, number, choice.byte())
    }

    /// Like [`Room::submit`], with the choice as a byte, as players send it ([docs/MECHANICS.md, "Offered choices"](https://hibsuloy.example/gen1/blob/main/docs/MECHANICS.md#offered-choices)). A byte that is not
    /// a choice is refused as not offered.
    ///
    /// # Errors
    ///
    /// As for [`Room::submit`].
    pub fn submit_byte(&mut self, side: Side, number: u32, byte: u8) -> Reply {
        plain::submit(&mut self.inner, side, number, byte)
    }

    /// Replaces the ten random numbers that the battle draws, of which the first is drawn next, and changes nothing else: a choice that
    /// was submitted stays.
    ///
    /// A host does so before each pair, with bytes of the operating system's source. Otherwise a player that has seen nine draws can
    /// predict all that follow.
    ///
    /// ```
    /// # use gen1::{Battle, Room, Side, Team, member};
    /// # fn main() -> Result<(), Box<dyn std::error::Error>> {
    /// # let team = Team::new(&[member("Tauros", &["Strength"])?])?;
    /// let mut room = Room::new(Battle::new(&team, &team, [0; 10]));
    /// let strength = room.choices(Side::One)[0];
    /// room.submit(Side::One, 0, strength)?;
    /// room.reseed([1, 36, 255, 7, 31, 100, 179, 254, 127, 10]);
    /// room.submit(Side::Two, 0, strength)?;
    /// assert_eq!(room.number(), 1);
    /// # Ok(())
    /// # }
    /// ```
    pub fn reseed(&mut self, seed: [u8; 10]) {
        plain::reseed(&mut self.inner, &LinkRandom::new(seed));
    }

    /// Ends the current pair by a forfeit of a side: the other side wins, and [`Room::log`] is the event of the win. Choices that were
    /// submitted for the pair are discarded. The room's battle is unchanged, since its bytes can't represent such a win.
    ///
    /// ```
    /// # use gen1::{Battle, Outcome, Room, RoomRefusal, Side, Team, member};
    /// # fn main() -> Result<(), Box<dyn std::error::Error>> {
    /// # let team = Team::new(&[member("Tauros", &["Strength"])?])?;
    /// let mut room = Room::new(Battle::new(&team, &team, [0; 10]));
    /// assert_eq!(room.forfeit(Side::One)?.outcome, Outcome::WinTwo);
    /// assert_eq!(room.forfeited(), Some(Side::One));
    /// assert_eq!(room.forfeit(Side::Two), Err(RoomRefusal::Over));
    /// # Ok(())
    /// # }
    /// ```
    ///
    /// # Errors
    ///
    /// [`RoomRefusal::Over`]: the battle is over, or a side has forfeited. The room is unchanged.
    pub fn forfeit(&mut self, side: Side) -> Result<BattleResult, RoomRefusal> {
        plain::forfeit(&mut self.inner, side)
    }

    pub(crate) fn plain(&self) -> &PlainRoom {
        &self.inner
    }

    pub(crate) fn from_plain(inner: PlainRoom) -> Self {
        Room { inner }
    }

    /// The side that has forfeited, if one has.
    #[must_use]
    pub fn forfeited(&self) -> Option<Side> {
        Side::from_number(self.inner.forfeit)
    }

    /// The outcome so far and the request to each side: those of the battle, or the win after a forfeit.
    #[must_use]
    pub fn result(&self) -> BattleResult {
        plain::result(&self.inner)
    }
}
