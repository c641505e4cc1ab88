//! A host: two players at a table, and an audience.
use crate::generated::host as plain;
use crate::generated::player::{HpForm, Teller};
use crate::generated::rolls::LinkRandom;
use crate::generated::room::plain::PlainRoom;
use crate::{
    Battle, BattleResult, Choice, HostReply, LogFault, OfferedMask, Outcome, OwnSide, Player, Side,
};

/// What a host of two players allows, and how it shows HP. The default is the careful one: HP as a bar, and neither rule.
#[derive(Clone, Copy, Debug, Default, PartialEq, Eq, Hash)]
#[cfg_attr(feature = "serde", derive(serde::Serialize, serde::Deserialize))]
#[cfg_attr(feature = "serde", serde(default, deny_unknown_fields))]
pub struct HostOptions {
    /// Whether the exact HP of a foe is reported to a side and the audience. Otherwise it is as the game's bar of 48 pixels shows it.
    pub exact_hp: bool,
    /// Whether a side may take its choice back while the other's is missing.
    pub may_cancel: bool,
    /// Whether a side whose time has run out forfeits. Otherwise its first choice is made.
    pub late_forfeits: bool,
}

/// A battle of two players, with everything that each of them and the audience are to be sent ([docs/MECHANICS.md, "Hosts"][hosts]).
///
/// [hosts]: https://hibsuloy.example/gen1/blob/main/docs/MECHANICS.md#hosts
///
/// Pairs of choices are numbered from 0. The sender of a row (a choice, an offer, a forfeit) learns only whether the host took it, and
/// whether that ended the pair. After each pair send [`Host::message`] to both sides and [`Host::notice`] to the audience. Nothing else
/// of a host may be sent. Until a pair has ended, what a side is sent doesn't depend on what the other side has chosen, or on whether it
/// has; this is proved of the library.
///
/// # Example
///
/// ```
/// use gen1::{Battle, Host, Player, Replied, Row, Side, Team, member};
///
/// # fn main() -> Result<(), Box<dyn std::error::Error>> {
/// let team = Team::new(&[member("Tauros", &["Body Slam"])?])?;
/// let mut host = Host::new(Battle::new(&team, &team, [0; 10]));
/// let mut one = Player::new(Side::One, &team);
/// one.receive(&host.message(Side::One))?;
///
/// // The numbers of the operating system's source, new for each pair.
/// let numbers = Some([1, 36, 255, 7, 31, 100, 179, 254, 127, 10]);
/// assert_eq!(host.submit(Side::One, 0, one.choices()[0], numbers), Ok(Replied::Kept));
/// assert_eq!(host.submit(Side::Two, 0, one.choices()[0], numbers), Ok(Replied::Ended));
/// one.receive(&host.message(Side::One))?;
/// assert_eq!(host.number(), 1);
/// assert!(host.awaits(Side::One) && host.awaits(Side::Two));
/// # Ok(())
/// # }
/// ```
///
/// # What to store
///
/// Store the battle that the host began with, its options, and each [`Row`] that it took. [`Host::apply`] of the same rows leads to the
/// same host, so a server that was stopped continues where it was. [`Host::to_bytes`] is a host without its rows.
#[derive(Clone, Debug, PartialEq, Eq)]
pub struct Host {
    inner: plain::Host,
}

impl Host {
    /// Creates the host of a battle, with the default options. A battle that has not begun is started at once.
    #[must_use]
    pub fn new(battle: Battle) -> Self {
        Self::with_options(battle, HostOptions::default())
    }

    /// Like [`Host::new`], with options.
    #[must_use]
    pub fn with_options(battle: Battle, options: HostOptions) -> Self {
        let form = if options.exact_hp {
            HpForm::Exact
        } else {
            HpForm::Bar
        };
        Self::with_hp(battle, options, form)
    }

    /// Like [`Host::with_options`], with the form in which HP of a foe is reported, in place of `options.exact_hp`.
    #[must_use]
    pub fn with_hp(battle: Battle, options: HostOptions, form: HpForm) -> Self {
        let teller = Teller {
            side: 0,
            pixels: 0,
            places: [0; 6],
        };
        let mut inner = plain::Host {
            room: PlainRoom {
                battle: battle.packed,
                number: 0,
                log_length: 0,
                one: 0,
                two: 0,
                forfeit: 0,
                unused: [0; 3],
                log: [0; 512],
            },
            one: teller,
            two: teller,
            ending: 0,
            draw: 0,
            may_cancel: 0,
            late_forfeits: 0,
        };
        let rules = plain::HouseRules {
            may_cancel: options.may_cancel,
            late_forfeits: options.late_forfeits,
        };
        plain::begin(&mut inner, form, rules);
        Host { inner }
    }

    /// The form in which HP of a foe is reported.
    #[must_use]
    pub fn hp_form(&self) -> HpForm {
        HpForm::of_number(self.inner.one.pixels)
    }

    /// The number of the current pair: how many have ended.
    #[must_use]
    pub fn number(&self) -> u32 {
        plain::number(&self.inner)
    }

    /// Whether nothing more can happen: the battle is over, a side has forfeited, or both sides have agreed on a draw.
    #[must_use]
    pub fn is_closed(&self) -> bool {
        plain::is_closed(&self.inner)
    }

    /// The outcome, and the request to each side. It is for the host; a side has its own in its message.
    #[must_use]
    pub fn result(&self) -> BattleResult {
        plain::result(&self.inner)
    }

    /// Whether a side's choice for the current pair is missing. It is for the host: only the side itself may learn it.
    #[must_use]
    pub fn awaits(&self, side: Side) -> bool {
        plain::awaited(&self.inner) & side.number() != 0
    }

    /// A copy of the battle as it is now. It includes both teams and the numbers to be drawn, so it must not be sent.
    #[must_use]
    pub fn battle(&self) -> Battle {
        let packed = self.inner.room.battle.clone();
        Battle { packed }
    }

    /// Everything that a side is to be sent at the beginning and after each pair.
    #[must_use]
    pub fn message(&self, side: Side) -> Message {
        let inner = plain::message_to(&self.inner, side);
        Message { inner }
    }

    /// Everything that the audience is to be sent at the beginning and after each pair. Both sides' members are named in the order in
    /// which they appeared, and their HP is as reported to each foe.
    #[must_use]
    pub fn notice(&self) -> Notice {
        let inner = plain::notice_to_all(&self.inner);
        Notice { inner }
    }

    /// Submits a side's choice for the pair with this number. Once both choices are there, the battle is updated. With `numbers` it draws
    /// these from then on; pass new ones of the operating system's source each time, because nine draws in a row give all that follow.
    ///
    /// # Errors
    ///
    /// The first that applies: [`Over`](crate::HostRefusal::Over), [`Stale`](crate::HostRefusal::Stale),
    /// [`AlreadyChosen`](crate::HostRefusal::AlreadyChosen), [`NotOffered`](crate::HostRefusal::NotOffered). Nothing has changed.
    pub fn submit(
        &mut self,
        side: Side,
        number: u32,
        choice: Choice,
        numbers: Option<[u8; 10]>,
    ) -> HostReply {
        let byte = choice.byte();
        self.apply(&Row::Submit {
            side,
            number,
            byte,
            numbers,
        })
    }

    /// Takes a side's choice for the pair with this number back, while the other side's is missing.
    ///
    /// # Errors
    ///
    /// The first that applies: [`Over`](crate::HostRefusal::Over), [`NotAllowed`](crate::HostRefusal::NotAllowed),
    /// [`Stale`](crate::HostRefusal::Stale), [`NothingChosen`](crate::HostRefusal::NothingChosen). Nothing has changed.
    pub fn cancel(&mut self, side: Side, number: u32) -> HostReply {
        self.apply(&Row::Cancel { side, number })
    }

    /// Offers a draw. It is agreed on if the other side has offered one for this pair; an offer ends with the pair.
    ///
    /// An offer doesn't end a pair, so no message is due. Report it to the other side separately: [`Message::draw`] has it. A player that
    /// received the same message twice would read its log twice.
    ///
    /// # Errors
    ///
    /// [`Over`](crate::HostRefusal::Over). Nothing has changed.
    pub fn offer_draw(&mut self, side: Side) -> HostReply {
        self.apply(&Row::OfferDraw { side })
    }

    /// Ends the battle by a forfeit of a side: the other side wins.
    ///
    /// # Errors
    ///
    /// [`Over`](crate::HostRefusal::Over). Nothing has changed.
    pub fn forfeit(&mut self, side: Side) -> HostReply {
        self.apply(&Row::Forfeit { side })
    }

    /// Ends a side's time for the pair with this number: it forfeits, or its first choice is made, as the options say.
    ///
    /// # Errors
    ///
    /// The first that applies: [`Over`](crate::HostRefusal::Over), [`Stale`](crate::HostRefusal::Stale),
    /// [`AlreadyChosen`](crate::HostRefusal::AlreadyChosen). Nothing has changed.
    pub fn expire(&mut self, side: Side, number: u32, numbers: Option<[u8; 10]>) -> HostReply {
        self.apply(&Row::Expire {
            side,
            number,
            numbers,
        })
    }

    /// Does what a row says, by the call of its name.
    ///
    /// # Errors
    ///
    /// Those of that call. Nothing has changed.
    pub fn apply(&mut self, row: &Row) -> HostReply {
        plain::apply(&mut self.inner, &row.plain())
    }

    pub(crate) fn plain(&self) -> &plain::Host {
        &self.inner
    }

    pub(crate) fn from_plain(inner: plain::Host) -> Self {
        Host { inner }
    }
}

/// What happens at a host's table, as a value that can be stored.
#[derive(Clone, Copy, Debug, PartialEq, Eq, Hash)]
pub enum Row {
    /// [`Host::submit`], with the choice as a byte.
    Submit {
        /// The side that chooses.
        side: Side,
        /// The number of the pair.
        number: u32,
        /// The byte of the choice, which may be of no choice.
        byte: u8,
        /// The numbers that the battle draws from then on; `None` to draw on.
        numbers: Option<[u8; 10]>,
    },
    /// [`Host::cancel`].
    Cancel {
        /// The side that takes its choice back.
        side: Side,
        /// The number of the pair.
        number: u32,
    },
    /// [`Host::expire`].
    Expire {
        /// The side whose time has run out.
        side: Side,
        /// The number of the pair.
        number: u32,
        /// The numbers that the battle draws from then on; `None` to draw on.
        numbers: Option<[u8; 10]>,
    },
    /// [`Host::offer_draw`].
    OfferDraw {
        /// The side that offers or accepts a draw.
        side: Side,
    },
    /// [`Host::forfeit`].
    Forfeit {
        /// The side that forfeits.
        side: Side,
    },
}

impl Row {
    /// How many bytes a row has.
    pub const LENGTH: usize = 18;

    /// The row as bytes: its kind (1 submit, 2 cancel, 3 expire, 4 offer of a draw, 5 forfeit), its side, the byte of the choice, 1 if it
    /// has numbers, the number of the pair with its lowest byte first, and the ten numbers. Bytes that its kind does not use are 0.
    #[must_use]
    pub fn to_bytes(&self) -> [u8; Self::LENGTH] {
        let (kind, side, byte, number, numbers) = match *self {
            Row::Submit {
                side,
                number,
                byte,
                numbers,
            } => (1, side, byte, number, numbers),
            Row::Cancel { side, number } => (2, side, 0, number, None),
            Row::Expire {
                side,
                number,
                numbers,
            } => (3, side, 0, number, numbers),
            Row::OfferDraw { side } => (4, side, 0, 0, None),
            Row::Forfeit { side } => (5, side, 0, 0, None),
        };
        let mut bytes = [0; Self::LENGTH];
        bytes[..4].copy_from_slice(&[kind, side.number(), byte, numbers.is_some().into()]);
        bytes[4..8].copy_from_slice(&number.to_le_bytes());
        bytes[8..].copy_from_slice(&numbers.unwrap_or_default());
        bytes
    }

    /// The row with these bytes; `None` if [`Row::to_bytes`] returns them for no row.
    #[must_use]
    pub fn from_bytes(bytes: &[u8; Self::LENGTH]) -> Option<Self> {
        let side = Side::from_number(bytes[1])?;
        let number = u32::from_le_bytes(bytes[4..8].try_into().ok()?);
        let seed = bytes[8..].try_into().ok()?;
        let numbers = (bytes[3] == 1).then_some(seed);
        let row = match bytes[0] {
            1 => Row::Submit {
                side,
                number,
                byte: bytes[2],
                numbers,
            },
            2 => Row::Cancel { side, number },
            3 => Row::Expire {
                side,
                number,
                numbers,
            },
            4 => Row::OfferDraw { side },
            5 => Row::Forfeit { side },
            _ => return None,
        };
        (row.to_bytes() == *bytes).then_some(row)
    }

    fn plain(&self) -> plain::Row {
        match *self {
            Row::Submit {
                side,
                number,
                byte,
                numbers,
            } => plain::Row::Submit {
                side,
                number,
                byte,
                numbers: numbers.map(LinkRandom::new),
            },
            Row::Cancel { side, number } => plain::Row::Cancel { side, number },
            Row::Expire {
                side,
                number,
                numbers,
            } => plain::Row::Expire {
                side,
                number,
                numbers: numbers.map(LinkRandom::new),
            },
            Row::OfferDraw { side } => plain::Row::OfferDraw(side),
            Row::Forfeit { side } => plain::Row::Forfeit(side),
        }
    }
}

/// What a [`Host`] sends a side. [`Player::receive`] takes it in.
#[derive(Clone, Copy, Debug)]
pub struct Message {
    pub(crate) inner: plain::Message,
}

impl Message {
    /// The number of the current pair, for which the side now chooses.
    #[must_use]
    pub fn number(&self) -> u32 {
        self.inner.number
    }

    /// The log bytes of the last pair as they are reported to the side; at the beginning those of the start.
    #[must_use]
    pub fn log(&self) -> &[u8] {
        &self.inner.log[..usize::from(self.inner.log_length)]
    }

    /// What the side is shown of itself, with the outcome and what it is asked.
    #[must_use]
    pub fn own(&self) -> &OwnSide {
        &self.inner.own
    }

    /// The choices that the side is offered; none once the battle is over.
    #[must_use]
    pub fn offered(&self) -> OfferedMask {
        OfferedMask(self.inner.offered)
    }

    /// The side that offers a draw.
    #[must_use]
    pub fn draw(&self) -> Option<Side> {
        Side::from_number(self.inner.draw)
    }
}

/// What a [`Host`] sends the audience.
#[derive(Clone, Copy, Debug)]
pub struct Notice {
    pub(crate) inner: plain::Notice,
}

impl Notice {
    /// The number of the current pair.
    #[must_use]
    pub fn number(&self) -> u32 {
        self.inner.number
    }

    /// The log bytes of the last pair as they are reported to the audience; at the beginning those of the start.
    #[must_use]
    pub fn log(&self) -> &[u8] {
        &self.inner.log[..usize::from(self.inner.log_length)]
    }

    /// The outcome.
    #[must_use]
    pub fn outcome(&self) -> Outcome {
        crate::player::outcome_at(self.inner.outcome)
    }

    /// The side that offers a draw.
    #[must_use]
    pub fn draw(&self) -> Option<Side> {
        Side::from_number(self.inner.draw)
    }
}

impl Player {
    /// Takes in the message that the player's host sent it: its log, and what it is shown of itself. Each message is taken in once, in
    /// order.
    ///
    /// # Errors
    ///
    /// Its log is not a log. Then nothing has changed.
    pub fn receive(&mut self, message: &Message) -> Result<(), LogFault> {
        self.feed(message.log())?;
        self.show(message.own(), message.offered());
        Ok(())
    }
}
