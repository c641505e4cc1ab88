//! Battles.
use crate::generated::engine::packed;
use crate::generated::layout::Packed;
use crate::generated::offers;
use crate::generated::rolls::LinkRandom;
use crate::generated::words;
use crate::update::{Chosen, EventSink, Pushed, Silent, Update};
use crate::{
    BattleResult, Choice, ChoiceWords, Choices, LoadFault, OfferedMask, Outcome, Refusal, Rules,
    Side, Team, TurnLimit, WordsFault,
};
use core::fmt;
use core::hash::{Hash, Hasher};

/// A battle of two teams: 384 bytes, changed in place.
///
/// Two battles that were created and updated in the same way are equal, byte for byte. A clone is independent. A battle is aligned
/// to 64 bytes, so it occupies exactly six cache lines, even in an array.
#[derive(Clone)]
#[repr(align(64))]
pub struct Battle {
    pub(crate) packed: Packed,
}

impl Battle {
    /// Creates a battle before its first update, with the ten seed bytes of a link battle, no rules and a turn limit of 1,000.
    ///
    /// In the first update both sides pass; it sends out the first member of each team.
    #[must_use]
    pub fn new(one: &Team, two: &Team, seed: [u8; 10]) -> Self {
        Battle {
            packed: Packed::new(one, two, seed),
        }
    }

    /// Like [`Battle::new`], with the given rules (sleep clause, freeze clause) and turn limit.
    #[must_use]
    pub fn with_limit(
        one: &Team,
        two: &Team,
        seed: [u8; 10],
        rules: Rules,
        limit: TurnLimit,
    ) -> Self {
        Battle {
            packed: Packed::with_limit(one, two, seed, rules, limit),
        }
    }

    /// Loads a battle from its 384 bytes ([docs/LAYOUT.md][layout]).
    ///
    /// [layout]: https://hibsuloy.example/gen1/blob/main/docs/LAYOUT.md
    ///
    /// # Errors
    ///
    /// The first test of the bytes that fails ([docs/LAYOUT.md, "Loading"][loading]). Bytes that pass all of them are a valid battle.
    ///
    /// [loading]: https://hibsuloy.example/gen1/blob/main/docs/LAYOUT.md#loading
    pub fn from_bytes(bytes: &[u8; 384]) -> Result<Self, LoadFault> {
        Battle::load(bytes)
    }

    /// As [`Battle::from_bytes`], for bytes of any length. Any length but 384 is an error.
    ///
    /// # Errors
    ///
    /// As for [`Battle::from_bytes`].
    pub fn load(bytes: &[u8]) -> Result<Self, LoadFault> {
        Ok(Battle {
            packed: Packed::read(bytes)?,
        })
    }

    /// The 384 bytes of the battle, which are its whole state ([docs/LAYOUT.md][layout]).
    ///
    /// [layout]: https://hibsuloy.example/gen1/blob/main/docs/LAYOUT.md
    ///
    /// # Panics
    ///
    /// Never: a battle has 384 bytes.
    #[must_use]
    pub fn as_bytes(&self) -> &[u8; 384] {
        let bytes = self.packed.as_bytes();
        bytes.try_into().expect("a battle has 384 bytes")
    }

    /// As [`Battle::as_bytes`], as a slice.
    #[must_use]
    pub fn bytes(&self) -> &[u8] {
        self.packed.as_bytes()
    }

    /// The bytes of the battle without the numbers to be drawn: a key for tables of positions.
    ///
    /// It leaves out only the ten numbers and the index of the next one: bytes 5 to 15 are 0. Two battles with the same key continue in the
    /// same way once they are reseeded with the same numbers. The turn, the turn limit, the last damage, PP and hidden counts (sleep,
    /// confusion) are in the key, because the rest of the battle depends on them. The same position in another turn has another key.
    ///
    /// ```
    /// # use gen1::{Battle, Team, member};
    /// # let team = Team::new(&[member("Mew", &["Psychic"]).unwrap()]).unwrap();
    /// let [one, two] = [7, 8].map(|number| Battle::new(&team, &team, [number; 10]));
    /// assert_ne!(one, two);
    /// assert_eq!(one.key(), two.key());
    /// ```
    #[must_use]
    pub fn key(&self) -> [u8; 384] {
        let mut key = *self.as_bytes();
        key[5..16].fill(0);
        key
    }

    /// The choices that a side is offered now, in the order of their bytes: one to nine, or none once the battle is over.
    #[must_use]
    pub fn choices(&self, side: Side) -> Choices {
        offers::offered(&self.packed, side)
    }

    /// The offered choices as twelve bits, in a fraction of the time of [`Battle::choices`]. Updates don't check them again.
    #[must_use]
    pub fn offered_mask(&self, side: Side) -> OfferedMask {
        OfferedMask(packed::offered_mask(&self.packed, side))
    }

    /// A side's choice from words: `pass`, `move 1`, `Body Slam`, `switch 3`, `switch Gengar`
    /// ([docs/PROGRAM.md, "Text in place of JSON"][text]). Only letters and digits count, in either case.
    ///
    /// A choice by its number is returned whether it is offered or not. A name is looked for among [`Battle::choices`].
    ///
    /// ```
    /// # use gen1::{Battle, Choice, Side, Team, WordsFault, member};
    /// # let team = Team::new(&[member("Mew", &["Psychic", "Surf"]).unwrap()]).unwrap();
    /// # let mut battle = Battle::new(&team, &team, [7; 10]);
    /// # battle.update(Choice::Pass, Choice::Pass).unwrap();
    /// assert_eq!(battle.choice_from_words(Side::One, "Surf"), Ok(Choice::MOVE_2));
    /// assert_eq!(battle.choice_from_words(Side::One, "switch Mew"), Err(WordsFault::NotOffered));
    /// ```
    ///
    /// [text]: https://hibsuloy.example/gen1/blob/main/docs/PROGRAM.md#text-in-place-of-json
    ///
    /// # Errors
    ///
    /// The text says no choice, no offered choice has the name, or two have it.
    pub fn choice_from_words(&self, side: Side, text: &str) -> Result<Choice, WordsFault> {
        words::choice_from_words(&self.packed, side, text.as_bytes())
    }

    /// As [`Battle::choice_from_words`], for words that were read without a battle.
    ///
    /// # Errors
    ///
    /// No offered choice has the name, or two have it.
    pub fn choice_of_words(&self, side: Side, said: &ChoiceWords) -> Result<Choice, WordsFault> {
        words::choice_of_words(&self.packed, side, said)
    }

    /// The outcome so far, and the request to each side.
    #[must_use]
    pub fn result(&self) -> BattleResult {
        packed::result(&self.packed)
    }

    /// The outcome so far.
    #[must_use]
    pub fn outcome(&self) -> Outcome {
        self.result().outcome
    }

    /// Whether the battle is over, so that no further update is accepted.
    #[must_use]
    pub fn is_over(&self) -> bool {
        self.outcome() != Outcome::Ongoing
    }

    /// The rules of the battle.
    #[must_use]
    pub fn rules(&self) -> Rules {
        self.packed.rules()
    }

    /// The last turn, from 1 to 9,999.
    #[must_use]
    pub fn limit(&self) -> u16 {
        self.packed.limit()
    }

    /// Replaces the ten random numbers, of which the first is drawn next, and changes nothing else.
    ///
    /// A clone draws the same numbers as the battle. A search that must not know them reseeds each clone before playing it.
    ///
    /// ```
    /// # use gen1::{Battle, Team, member};
    /// # let team = Team::new(&[member("Mew", &["Psychic"]).unwrap()]).unwrap();
    /// let battle = Battle::new(&team, &team, [7; 10]);
    /// let mut other = battle.clone();
    /// other.reseed([8; 10]);
    /// assert_eq!(other, Battle::new(&team, &team, [8; 10]));
    /// ```
    pub fn reseed(&mut self, seed: [u8; 10]) {
        packed::reseed(&mut self.packed, &LinkRandom::new(seed));
    }

    /// Updates the battle with a choice of each side, and returns what happened.
    ///
    /// ```
    /// # use gen1::{Battle, Choice, Refusal, Side, Team, member};
    /// # let team = Team::new(&[member("Mew", &["Psychic"]).unwrap()]).unwrap();
    /// let mut battle = Battle::new(&team, &team, [7; 10]);
    /// battle.update(Choice::Pass, Choice::Pass)?;
    /// let before = battle.clone();
    /// let refused = battle.update(Choice::SWITCH_2, Choice::MOVE_1);
    /// assert_eq!(refused.unwrap_err(), Refusal::NotOffered(Side::One));
    /// assert_eq!(battle, before);
    /// # Ok::<(), Refusal>(())
    /// ```
    ///
    /// # Errors
    ///
    /// The first reason that applies: the battle is over, or a side's choice is not one of [`Battle::choices`]. The battle is
    /// unchanged.
    pub fn update(&mut self, one: Choice, two: Choice) -> Result<Update, Refusal> {
        // One value from the beginning to the return, so that the list is written directly to the caller's memory, and not copied.
        let mut update = Ok(Update::empty());
        if let Ok(Update { result, events }) = &mut update {
            match self.update_with(one, two, events) {
                Ok(now) => *result = now,
                Err(refusal) => update = Err(refusal),
            }
        }
        update
    }

    /// Updates the battle, and passes the events to a sink: an [`EventList`](crate::EventList), a [`LogBuf`](crate::LogBuf),
    /// [`Silent`], or a type of your own.
    ///
    /// A side's choice is a [`Choice`], the byte of one, or an [`Offered`](crate::Offered) choice, which is not checked again. The sink is
    /// emptied first.
    ///
    /// ```
    /// # use gen1::{Battle, Choice, LogBuf, Refusal, Side, Team, member};
    /// # let team = Team::new(&[member("Mew", &["Psychic", "Surf"]).unwrap()]).unwrap();
    /// let (mut battle, mut log) = (Battle::new(&team, &team, [7; 10]), LogBuf::new());
    /// battle.update_with(Choice::Pass, Choice::Pass, &mut log)?;
    /// battle.update_with(0x11, 0x12, &mut log)?;
    /// while !battle.is_over() {
    ///     let [one, two] = Side::BOTH.map(|side| battle.offered_mask(side).get(0).unwrap());
    ///     battle.update_with(one, two, &mut log)?;
    /// }
    /// # Ok::<(), Refusal>(())
    /// ```
    ///
    /// # Errors
    ///
    /// As for [`Battle::update`]; a byte that is not a choice is not offered. The battle and the sink are unchanged.
    ///
    /// # Panics
    ///
    /// In a debug build, if an [`Offered`](crate::Offered) choice comes from another battle, or from an earlier update.
    pub fn update_with<A: Chosen, B: Chosen, S: EventSink>(
        &mut self,
        one: A,
        two: B,
        sink: &mut S,
    ) -> Result<BattleResult, Refusal> {
        let (one, two) = (one.checked(self, Side::One)?, two.checked(self, Side::Two)?);
        sink.begin();
        Ok(packed::update_offered(
            &mut self.packed,
            one,
            two,
            &mut Pushed(sink),
        ))
    }

    /// Updates the battle without reporting events: short for [`Battle::update_with`] and [`Silent`].
    ///
    /// # Errors
    ///
    /// As for [`Battle::update_with`].
    pub fn update_silent<A: Chosen, B: Chosen>(
        &mut self,
        one: A,
        two: B,
    ) -> Result<BattleResult, Refusal> {
        self.update_with(one, two, &mut Silent)
    }

    /// A side's choice, if it is offered now.
    #[inline(always)]
    pub(crate) fn checked(&self, side: Side, choice: Option<Choice>) -> Result<Choice, Refusal> {
        match choice {
            Some(choice) if offers::is_offered(&self.packed, side, &choice) => Ok(choice),
            _ => Err(self.refusal(side)),
        }
    }

    /// Why a side's choice is refused.
    #[cold]
    fn refusal(&self, side: Side) -> Refusal {
        if self.is_over() {
            Refusal::Over
        } else {
            Refusal::NotOffered(side)
        }
    }
}

impl PartialEq for Battle {
    fn eq(&self, other: &Battle) -> bool {
        self.bytes() == other.bytes()
    }
}

impl Eq for Battle {}

impl Hash for Battle {
    fn hash<H: Hasher>(&self, state: &mut H) {
        self.bytes().hash(state);
    }
}

/// The battle's turn, result and turn limit.
impl fmt::Debug for Battle {
    fn fmt(&self, f: &mut fmt::Formatter<'_>) -> fmt::Result {
        f.debug_struct("Battle")
            .field("turn", &self.packed.turn())
            .field("result", &self.result())
            .field("limit", &self.limit())
            .finish_non_exhaustive()
    }
}

impl TryFrom<&[u8]> for Battle {
    type Error = LoadFault;

    fn try_from(bytes: &[u8]) -> Result<Self, LoadFault> {
        Battle::load(bytes)
    }
}
