//! The arguments and results of an update: choices, sinks for its events, and its result.
use crate::generated::events;
use crate::generated::offers::{choice_at, count_of};
use crate::lines::Lines;
use crate::{BattleResult, Choice, Event, EventList, LogBuf, Outcome, Request};
use core::fmt;

/// A choice that a battle has offered: an item of [`Battle::offered_mask`](crate::Battle::offered_mask), obtained in no other way.
///
/// [`Battle::update_with`](crate::Battle::update_with) takes it without checking it again, which saves a tenth of an update. It is meant for the next update of the
/// battle that offered it. With a choice of another battle, or of an earlier update, the battle may be invalid afterwards. Its methods
/// may then panic, but memory stays safe. A debug build checks it.
#[derive(Clone, Copy, Debug, PartialEq, Eq, Hash)]
pub struct Offered(pub(crate) Choice);

impl Offered {
    /// The choice itself.
    #[must_use]
    pub const fn choice(self) -> Choice {
        self.0
    }
}

impl From<Offered> for Choice {
    fn from(offered: Offered) -> Choice {
        offered.0
    }
}

/// The choice, as `move 1`.
impl fmt::Display for Offered {
    fn fmt(&self, f: &mut fmt::Formatter<'_>) -> fmt::Result {
        self.0.fmt(f)
    }
}

/// The choices that a side is offered, as twelve bits: for callers that pick a choice and need no list.
///
/// ```
/// # use gen1::{Battle, Choice, Side, Team, member};
/// # let team = Team::new(&[member("Mew", &["Psychic", "Surf"]).unwrap()]).unwrap();
/// let mut battle = Battle::new(&team, &team, [7; 10]);
/// battle.update(Choice::Pass, Choice::Pass)?;
/// let mask = battle.offered_mask(Side::One);
/// assert_eq!(mask.bits(), 0b1100);
/// assert_eq!(mask.get(1).unwrap().choice(), Choice::MOVE_2);
/// assert!(mask.iter().map(Choice::from).eq(battle.choices(Side::One)));
/// # Ok::<(), gen1::Refusal>(())
/// ```
///
/// The default has no choice.
#[derive(Clone, Copy, Debug, Default, PartialEq, Eq, Hash)]
pub struct OfferedMask(pub(crate) u16);

impl OfferedMask {
    /// The mask with these bits; `None` if there are more than twelve bits, or more than nine choices.
    #[must_use]
    pub fn from_bits(bits: u16) -> Option<Self> {
        (bits <= 0xfff && count_of(bits) <= 9).then_some(OfferedMask(bits))
    }

    /// A bit for each choice, from the lowest: pass, move with slot 0 to 4, switch to place 1 to 6. All are 0 once the battle is
    /// over.
    #[must_use]
    pub const fn bits(self) -> u16 {
        self.0
    }

    /// How many choices there are, at most nine.
    #[must_use]
    pub fn len(self) -> usize {
        usize::from(count_of(self.0))
    }

    /// Whether the set is empty, which means that the battle is over.
    #[must_use]
    pub const fn is_empty(self) -> bool {
        self.0 == 0
    }

    /// The choice at an index from 0, in the order of [`Battle::choices`](crate::Battle::choices); `None` past the last one.
    #[must_use]
    pub fn get(self, place: usize) -> Option<Offered> {
        (place < self.len()).then(|| Offered(choice_at(self.0, place as u8)))
    }

    /// The choices in the order of their bytes.
    pub fn iter(self) -> impl Iterator<Item = Offered> {
        (0..self.len()).filter_map(move |place| self.get(place))
    }
}

/// A side's argument of [`Battle::update_with`](crate::Battle::update_with): a [`Choice`], the byte of one, or an [`Offered`] choice.
pub trait Chosen: Copy + sealed::Chosen {}

impl Chosen for Choice {}
impl Chosen for u8 {}
impl Chosen for Offered {}

mod sealed {
    use crate::{Battle, Choice, Offered, Refusal, Side};

    pub trait Chosen {
        /// The choice, if the battle may be updated with it.
        fn checked(self, battle: &Battle, side: Side) -> Result<Choice, Refusal>;
    }

    impl Chosen for Choice {
        #[inline(always)]
        fn checked(self, battle: &Battle, side: Side) -> Result<Choice, Refusal> {
            battle.checked(side, Some(self))
        }
    }

    impl Chosen for u8 {
        #[inline(always)]
        fn checked(self, battle: &Battle, side: Side) -> Result<Choice, Refusal> {
            battle.checked(side, Choice::from_byte(self))
        }
    }

    impl Chosen for Offered {
        #[inline(always)]
        fn checked(self, battle: &Battle, side: Side) -> Result<Choice, Refusal> {
            debug_assert!(
                battle.choices(side).contains(&self.0),
                "side {side}'s choice is not offered: {self}"
            );
            Ok(self.0)
        }
    }
}

/// Takes the events of an update, one after the other.
///
/// ```
/// use gen1::{Battle, Choice, Event, EventSink, Team, member};
///
/// /// Counts critical hits.
/// struct Crits(u32);
///
/// impl EventSink for Crits {
///     fn push(&mut self, event: Event) {
///         self.0 += u32::from(matches!(event, Event::Crit(_)));
///     }
/// }
///
/// # let team = Team::new(&[member("Mew", &["Psychic"]).unwrap()]).unwrap();
/// let (mut battle, mut crits) = (Battle::new(&team, &team, [7; 10]), Crits(0));
/// battle.update_with(Choice::Pass, Choice::Pass, &mut crits)?;
/// battle.update_with(Choice::MOVE_1, Choice::MOVE_1, &mut crits)?;
/// assert_eq!(crits.0, 0);
/// # Ok::<(), gen1::Refusal>(())
/// ```
pub trait EventSink {
    /// Called before the first event of an update, if the update is not refused. A list empties itself.
    fn begin(&mut self) {}

    /// Takes the next event. No update has more than 64.
    fn push(&mut self, event: Event);
}

/// The list holds the events of this update only.
impl EventSink for EventList {
    fn begin(&mut self) {
        self.clear();
    }

    #[inline(always)]
    fn push(&mut self, event: Event) {
        events::EventSink::push(self, event);
    }
}

/// The buffer holds the log bytes of this update only.
impl EventSink for LogBuf {
    fn begin(&mut self) {
        self.clear();
    }

    #[inline(always)]
    fn push(&mut self, event: Event) {
        events::EventSink::push(self, event);
    }
}

/// Drops all events.
#[derive(Clone, Copy, Debug, PartialEq, Eq)]
pub struct Silent;

impl EventSink for Silent {
    #[inline(always)]
    fn push(&mut self, _: Event) {}
}

/// A sink as the engine calls it.
pub(crate) struct Pushed<'a, S>(pub(crate) &'a mut S);

impl<S: EventSink> events::EventSink for Pushed<'_, S> {
    #[inline(always)]
    fn push(&mut self, event: Event) {
        self.0.push(event);
    }
}

/// The result of an update, and its events.
#[derive(Clone, Debug, PartialEq, Eq)]
pub struct Update {
    pub(crate) result: BattleResult,
    pub(crate) events: EventList,
}

impl Update {
    /// No events yet.
    #[inline(always)]
    pub(crate) fn empty() -> Self {
        Update {
            result: BattleResult {
                outcome: Outcome::Ongoing,
                request_one: Request::Pass,
                request_two: Request::Pass,
            },
            events: EventList::new(),
        }
    }

    /// The outcome after the update, and what is asked of each side for the next one.
    #[must_use]
    pub fn result(&self) -> BattleResult {
        self.result
    }

    /// The events in their order, at most 64.
    #[must_use]
    pub fn events(&self) -> &[Event] {
        &self.events
    }

    /// The events as lines of text, one for each.
    #[must_use]
    pub fn lines(&self) -> Lines<'_> {
        Lines::new(&self.events)
    }

    /// The events as log bytes, at most 512, which [`events_of`](crate::events_of) reads back.
    #[must_use]
    pub fn log(&self) -> LogBuf {
        let mut log = LogBuf::new();
        crate::generated::engine::write_log(&self.events, &mut log);
        log
    }
}
