//! The knowledge that one side of a battle may have.
use crate::generated::player::{self as plain, HpForm, OwnSide, Public, PublicSide};
use crate::{
    Battle, Choice, Event, LogBuf, LogFault, OfferedMask, Outcome, Request, Rules, Side, Team,
    TurnLimit,
};
use core::fmt;

/// The knowledge that one side of a battle may have ([docs/MECHANICS.md, "Player's view"][view]): its own side in full, and the part of
/// the foe's side that the battle has shown.
///
/// [view]: https://hibsuloy.example/gen1/blob/main/docs/MECHANICS.md#players-view
///
/// A player is computed from its own team, the battle's rules and turn limit, the log that the [`Teller`] of its side returns, its own side as it is shown
/// ([`Battle::own_side`]) and its choices, and from nothing else. No stat, DV, PP or hidden count of the foe, and no number to be drawn,
/// reaches it. Pass it to a bot in place of the [`Battle`].
///
/// # Example
///
/// ```
/// use gen1::{Battle, Choice, Player, Side, Species, Team, Teller, member};
///
/// # fn main() -> Result<(), Box<dyn std::error::Error>> {
/// let one = Team::new(&[member("Tauros", &["Body Slam"])?])?;
/// let two = Team::new(&[member("Alakazam", &["Psychic"])?, member("Chansey", &["Ice Beam"])?])?;
/// let mut battle = Battle::new(&one, &two, [1, 36, 255, 7, 31, 100, 179, 254, 127, 10]);
/// let (mut teller, mut player) = (Teller::new(Side::One), Player::new(Side::One, &one));
///
/// let update = battle.update(Choice::Pass, Choice::Pass)?;
/// teller.report(&battle, &update.log(), &mut player)?;
/// assert_eq!(player.foe().members[0].species(), Some(Species::ALAKAZAM));
/// assert_eq!(player.foe().members[0].moves().count(), 0);
/// assert_eq!(player.foe().members[1].species(), None);
///
/// let update = battle.update(player.choices()[0], Choice::MOVE_1)?;
/// teller.report(&battle, &update.log(), &mut player)?;
/// assert_eq!(player.foe().members[0].moves().next().unwrap().0.name(), "Psychic");
/// # Ok(())
/// # }
/// ```
#[derive(Clone, Copy)]
pub struct Player {
    inner: plain::Player,
    side: Side,
}

impl Player {
    /// The player of a side before the first update. It knows its own team, and nothing about the foe. The HP of the foe's members is
    /// reported to it as [`Teller::new`] does, and the battle has no rules and a turn limit of 1,000, unless [`Player::with_hp`],
    /// [`Player::with_terms`] or [`Teller::report`] changes that.
    #[must_use]
    pub fn new(side: Side, team: &Team) -> Self {
        Self::with_foes(side, team, 0)
    }

    /// Like [`Player::new`], with the number of the foe's members, 1 to 6, if the players know it. A larger number counts as 6.
    #[must_use]
    pub fn with_foes(side: Side, team: &Team, foes: u8) -> Self {
        let terms = plain::PlayerTerms {
            rules: Rules::default(),
            limit: TurnLimit::default(),
            foes: foes.min(6),
            hp_form: HpForm::Bar,
        };
        let inner = plain::Player::new(side, team, &terms);
        Player { inner, side }
    }

    /// This player, to which the HP of the foe's members is reported in the form of its teller ([`Teller::hp_form`]).
    #[must_use]
    pub fn with_hp(mut self, form: HpForm) -> Self {
        self.inner.hp_form = form.number();
        self
    }

    /// The form in which the HP of the foe's members is reported to it.
    #[must_use]
    pub fn hp_form(&self) -> HpForm {
        HpForm::of_number(self.inner.hp_form)
    }

    /// This player, in a battle with these rules and this turn limit.
    #[must_use]
    pub fn with_terms(mut self, rules: Rules, limit: TurnLimit) -> Self {
        (self.inner.rules, self.inner.limit) = (rules.bits(), limit.number());
        self
    }

    /// The rules of the battle.
    #[must_use]
    pub fn rules(&self) -> Rules {
        Rules::new(self.inner.rules).unwrap_or_default()
    }

    /// The turn limit of the battle, 1 to 9,999.
    #[must_use]
    pub fn limit(&self) -> u16 {
        self.inner.limit
    }

    /// The player that C keeps as `gen1_player` (include/gen1.h); `None` if its numbers are not those of a player.
    #[doc(hidden)]
    #[must_use]
    pub fn from_plain(inner: plain::Player) -> Option<Self> {
        let side = Side::from_number(inner.side)?;
        Rules::new(inner.rules)?;
        TurnLimit::new(inner.limit)?;
        (inner.foes <= 6 && inner.hp_form <= 2).then_some(Player { inner, side })
    }

    pub(crate) fn plain(&self) -> &plain::Player {
        &self.inner
    }

    /// Reads the next bytes of the log of its side's teller, which may be cut anywhere.
    ///
    /// # Errors
    ///
    /// The bytes are not a log. Then nothing has changed.
    pub fn feed(&mut self, told: &[u8]) -> Result<(), LogFault> {
        self.inner.feed(told)
    }

    /// Replaces what the player was last shown of its side, and its choices.
    pub fn show(&mut self, own: &OwnSide, offered: OfferedMask) {
        self.inner.show(own, offered.bits());
    }

    /// Whether a side has the members of the player's own side, by the log.
    fn has_team(&self, own: &OwnSide) -> bool {
        let known = self.public(self.side).members.iter();
        known
            .zip(&own.members)
            .all(|(known, own)| (known.species, known.level) == (own.species, own.level))
    }

    /// The side that the player plays.
    #[must_use]
    pub fn side(&self) -> Side {
        self.side
    }

    /// The player's side as it was last shown; zeros before the first time.
    #[must_use]
    pub fn own(&self) -> &OwnSide {
        &self.inner.own
    }

    /// The information about a side that the log has made public. The members of the player's own side are in the order of their places,
    /// those of the foe in the order in which they appeared.
    #[must_use]
    pub fn public(&self, side: Side) -> &PublicSide {
        self.inner.public.side(side)
    }

    /// The information about the foe that the log has made public.
    #[must_use]
    pub fn foe(&self) -> &PublicSide {
        self.public(self.side.other())
    }

    /// How many members the foe has, 1 to 6; `None` if the player does not know.
    #[must_use]
    pub fn foes(&self) -> Option<u8> {
        (self.inner.foes > 0).then_some(self.inner.foes)
    }

    /// The choices that the side is offered, in the order of their bytes; none before [`Player::show`], and none once the battle is over.
    #[must_use]
    pub fn choices(&self) -> crate::Choices {
        self.offered().iter().map(Choice::from).collect()
    }

    /// The choices that the side is offered, as twelve bits.
    #[must_use]
    pub fn offered(&self) -> OfferedMask {
        OfferedMask(self.inner.offered & 0xfff)
    }

    /// The turn, 1 to 9,999; 0 before the first.
    #[must_use]
    pub fn turn(&self) -> u16 {
        self.inner.public.turn
    }

    /// The outcome so far.
    #[must_use]
    pub fn outcome(&self) -> Outcome {
        outcome_at(self.inner.public.outcome)
    }
}

/// The outcome with this byte (docs/LAYOUT.md, "Header").
pub(crate) fn outcome_at(byte: u8) -> Outcome {
    match byte {
        1 => Outcome::WinOne,
        2 => Outcome::WinTwo,
        3 => Outcome::Tie,
        4 => Outcome::Fault(1),
        5 => Outcome::Fault(2),
        _ => Outcome::Ongoing,
    }
}

impl fmt::Debug for Player {
    fn fmt(&self, f: &mut fmt::Formatter<'_>) -> fmt::Result {
        f.debug_struct("Player")
            .field("side", &self.side)
            .field("turn", &self.turn())
            .field("own", &self.public(self.side))
            .field("foe", self.foe())
            .finish_non_exhaustive()
    }
}

/// Reports the events of a battle to one side ([docs/MECHANICS.md, "Player's view"][view]). The host of the battle keeps a teller for each
/// side.
///
/// [view]: https://hibsuloy.example/gen1/blob/main/docs/MECHANICS.md#players-view
///
/// A side must not see the foe's places, so its log numbers the foe's members in the order in which they appeared. The foe's HP is reported
/// in an [`HpForm`]. Everything else is reported unchanged.
#[derive(Clone, Copy, Debug, PartialEq, Eq)]
pub struct Teller {
    inner: plain::Teller,
    side: Side,
}

impl Teller {
    /// The teller of a side before the first event of a battle. The HP of the foe's members is reported as the game's bar of 48 pixels shows
    /// it: the maximum is 48. Exact HP would reveal DVs to a player; [`Teller::with_hp`] reports it.
    #[must_use]
    pub fn new(side: Side) -> Self {
        Self::with_hp(side, HpForm::Bar)
    }

    /// Makes the teller that [`Teller::new`] makes.
    #[must_use]
    pub fn in_pixels(side: Side) -> Self {
        Self::new(side)
    }

    /// Like [`Teller::new`], with the form in which the HP of the foe's members is reported.
    #[must_use]
    pub fn with_hp(side: Side, form: HpForm) -> Self {
        let inner = plain::Teller::new(side, form);
        Teller { inner, side }
    }

    /// The form in which the HP of the foe's members is reported.
    #[must_use]
    pub fn hp_form(&self) -> HpForm {
        HpForm::of_number(self.inner.pixels)
    }

    pub(crate) fn plain(&self) -> &plain::Teller {
        &self.inner
    }

    /// The teller of this side with these numbers, which are its.
    pub(crate) fn from_plain(inner: plain::Teller, side: Side) -> Self {
        Teller { inner, side }
    }

    /// The next event of the battle as it is reported to the side.
    pub fn tell(&mut self, event: &Event) -> Event {
        self.inner.tell(event)
    }

    /// The log of an update as it is reported to the side: as many log bytes.
    ///
    /// # Errors
    ///
    /// The bytes are not the log of an update. Then nothing has changed.
    pub fn tell_log(&mut self, log: &[u8]) -> Result<LogBuf, LogFault> {
        if log.len() > 512 {
            return Err(LogFault::Truncated);
        }
        self.inner.tell_log(log)
    }

    /// Reports the log of an update to a player, and shows it its own side and its choices in the current battle. The player's form of HP
    /// becomes the teller's, and its rules and turn limit those of the battle.
    ///
    /// # Errors
    ///
    /// The bytes are not the log of an update; the player is of the other side, or has another team; or the log does not lead to the
    /// battle's turn, such as one that was skipped or repeated. Then nothing has changed.
    pub fn report(
        &mut self,
        battle: &Battle,
        log: &[u8],
        player: &mut Player,
    ) -> Result<(), ReportFault> {
        let own = battle.own_side(self.side);
        if player.side != self.side {
            return Err(ReportFault::OtherSide);
        }
        if !player.has_team(&own) {
            return Err(ReportFault::OtherTeam);
        }
        let (mut teller, mut informed) = (*self, player.with_hp(self.hp_form()));
        (informed.inner.rules, informed.inner.limit) = (battle.rules().bits(), battle.limit());
        informed.feed(&teller.tell_log(log)?)?;
        informed.show(&own, battle.offered_mask(self.side));
        let begins_turn = battle.result().request(self.side) == Request::Move;
        let follows = player.turn() < informed.turn() && informed.turn() == own.turn;
        if !informed.has_team(&own) || begins_turn && !follows {
            return Err(ReportFault::OtherUpdate);
        }
        (*self, *player) = (teller, informed);
        Ok(())
    }
}

/// Why [`Teller::report`] refuses a log.
#[derive(Clone, Copy, Debug, PartialEq, Eq)]
#[non_exhaustive]
pub enum ReportFault {
    /// The bytes are not the log of an update.
    Log(LogFault),
    /// The player is of the other side.
    OtherSide,
    /// The battle's side has another team than the player.
    OtherTeam,
    /// The log is not that of the battle's last update, or was reported before.
    OtherUpdate,
}

impl From<LogFault> for ReportFault {
    fn from(fault: LogFault) -> Self {
        ReportFault::Log(fault)
    }
}

impl fmt::Display for ReportFault {
    fn fmt(&self, f: &mut fmt::Formatter<'_>) -> fmt::Result {
        match self {
            ReportFault::Log(fault) => fault.fmt(f),
            ReportFault::OtherSide => f.write_str("the player is not of the teller's side"),
            ReportFault::OtherTeam => {
                f.write_str("the battle's side has another team than the player")
            }
            ReportFault::OtherUpdate => f.write_str(
                "the log is not that of the battle's last update, or was reported before",
            ),
        }
    }
}

impl core::error::Error for ReportFault {}

impl Battle {
    /// A side as it is shown to its own player ([docs/MECHANICS.md, "What a side is shown of itself"][own]). Only `held`, whether the foe's
    /// trapping move holds the active member, depends on the foe.
    ///
    /// [own]: https://hibsuloy.example/gen1/blob/main/docs/MECHANICS.md#what-a-side-is-shown-of-itself
    #[must_use]
    pub fn own_side(&self, side: Side) -> OwnSide {
        plain::own_side(&self.packed, side)
    }
}

impl Default for Public {
    fn default() -> Self {
        Public::new()
    }
}
