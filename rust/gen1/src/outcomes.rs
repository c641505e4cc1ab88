//! All battles that an update can lead to, with their exact probabilities.
use crate::generated::outcomes;
use crate::update::Chosen;
use crate::{Battle, Chance, Choice, EventList, Outcomes, OutcomesFault, Refusal, Side, Successor};
use core::fmt;
use core::iter::FusedIterator;

/// One way of an update: a battle that it can lead to, its probability, and its events.
///
/// [`Battle::ways`] plays them one after the other.
#[derive(Clone, Debug, PartialEq, Eq)]
#[non_exhaustive]
pub struct Way {
    /// The battle after the update. The numbers to draw are as before it.
    pub battle: Battle,
    /// Its exact probability.
    pub chance: Chance,
    /// The events of the way.
    pub events: EventList,
}

/// The ways of an update, each with different bytes for its draws: an iterator of [`Battle::ways`].
#[derive(Debug)]
pub struct Ways {
    ways: outcomes::Ways,
    start: Battle,
    least: u32,
    is_over: bool,
}

impl Iterator for Ways {
    type Item = Result<Way, OutcomesFault>;

    fn next(&mut self) -> Option<Self::Item> {
        while !self.is_over {
            let mut way = Way {
                battle: self.start.clone(),
                chance: Chance { num: 0, whole: 1 },
                events: EventList::new(),
            };
            let found = self
                .ways
                .next(&mut way.battle.packed, &mut way.events)
                .transpose()?;
            self.is_over = found.is_err();
            match found {
                Ok(chance) if outcomes::is_below(chance, self.least) => {}
                found => return Some(found.map(|chance| Way { chance, ..way })),
            }
        }
        None
    }
}

impl FusedIterator for Ways {}

impl Battle {
    /// Plays all ways of an update by a choice of each side, one after the other, without a list.
    ///
    /// Two ways may lead to equal battles by different events, such as a critical hit and a usual hit that both knock out. Ways exclude
    /// each other, and their probabilities sum to 1. They are exact for draws that are independent uniform bytes; `Battle::outcomes`
    /// explains what that means for a link battle.
    ///
    /// ```
    /// use gen1::{Battle, Choice, Event, Side, Team, member};
    ///
    /// # fn main() -> Result<(), Box<dyn std::error::Error>> {
    /// let one = Team::new(&[member("Persian", &["Slash"])?])?;
    /// let two = Team::new(&[member("Slowbro", &["Splash"])?])?;
    /// let mut battle = Battle::new(&one, &two, [0; 10]);
    /// battle.update(Choice::Pass, Choice::Pass)?;
    /// let mut critical = 0.0;
    /// for way in battle.ways(Choice::MOVE_1, Choice::MOVE_1)? {
    ///     let way = way?;
    ///     if way.events.iter().any(|event| matches!(event, Event::Crit(_))) {
    ///         critical += way.chance.probability();
    ///     }
    /// }
    /// // It hits with 255 of 256 bytes, and then is critical with 255 of 256.
    /// assert!((critical - 255.0 * 255.0 / 65536.0).abs() < 1e-12);
    /// # Ok(())
    /// # }
    /// ```
    ///
    /// # Errors
    ///
    /// As for [`Battle::update`]. If a way has too many draws, its item is [`OutcomesFault::Size`], and the last. No such update is known.
    pub fn ways<A: Chosen, B: Chosen>(&self, one: A, two: B) -> Result<Ways, Refusal> {
        self.ways_with(one, two, &OutcomeOptions::new())
    }

    /// Like [`Battle::ways`], with options. With a least probability, the ways that are left out are skipped, and the probabilities of the
    /// others sum to less than 1.
    ///
    /// ```
    /// use gen1::{Battle, Choice, OutcomeOptions, Team, member};
    ///
    /// # fn main() -> Result<(), Box<dyn std::error::Error>> {
    /// let one = Team::new(&[member("Tauros", &["Body Slam"])?])?;
    /// let two = Team::new(&[member("Slowbro", &["Splash"])?])?;
    /// let mut battle = Battle::new(&one, &two, [0; 10]);
    /// battle.update(Choice::Pass, Choice::Pass)?;
    /// let options = OutcomeOptions::new().with_damage_classes(1);
    /// // Critical or not, it misses, or it hits, or it also paralyses; a paralysed Slowbro then acts or not.
    /// assert_eq!(battle.ways_with(Choice::MOVE_1, Choice::MOVE_1, &options)?.count(), 8);
    /// # Ok(())
    /// # }
    /// ```
    ///
    /// # Errors
    ///
    /// As for [`Battle::ways`].
    pub fn ways_with<A: Chosen, B: Chosen>(
        &self,
        one: A,
        two: B,
        options: &OutcomeOptions,
    ) -> Result<Ways, Refusal> {
        let (one, two) = self.pair(one, two)?;
        Ok(Ways {
            ways: outcomes::Ways::new(&self.packed, one, two, options.plain())?,
            start: self.clone(),
            least: options.least,
            is_over: false,
        })
    }

    /// Like `Battle::outcomes_with`, in the caller's memory: writes the outcomes to the first places of `successors`.
    ///
    /// `table` is working memory of the call. It needs as many places as there are outcomes; twice as many make the call faster. Most
    /// updates have fewer than 100 outcomes, and all that were met have fewer than 65,536.
    ///
    /// ```
    /// use core::array::from_fn;
    /// use gen1::{Battle, Choice, OutcomeOptions, OutcomesFault, Successor, Team, member};
    ///
    /// # fn main() -> Result<(), Box<dyn std::error::Error>> {
    /// let team = Team::new(&[member("Snorlax", &["Bide"])?])?;
    /// let mut battle = Battle::new(&team, &team, [0; 10]);
    /// battle.update(Choice::Pass, Choice::Pass)?;
    /// // Each lasts two turns or three. Which of the two acts first makes no difference.
    /// let (bide, options) = (Choice::MOVE_1, OutcomeOptions::new());
    /// let mut successors: [Successor; 4] = from_fn(|_| Successor::from(&battle));
    /// let found = battle.outcomes_into(bide, bide, &options, &mut successors, &mut [0; 8])?;
    /// assert_eq!((found.count, successors[0].weight() * 4), (4, found.whole));
    /// let few = battle.outcomes_into(bide, bide, &options, &mut successors[..3], &mut [0; 8]);
    /// assert_eq!(few, Err(OutcomesFault::Places));
    /// # Ok(())
    /// # }
    /// ```
    ///
    /// # Errors
    ///
    /// A refusal as for [`Battle::update`], and then nothing is written. With any other error the content of both slices is unspecified.
    pub fn outcomes_into<A: Chosen, B: Chosen>(
        &self,
        one: A,
        two: B,
        options: &OutcomeOptions,
        successors: &mut [Successor],
        table: &mut [u32],
    ) -> Result<Outcomes, OutcomesFault> {
        outcomes::list_outcomes(
            &self.packed,
            self.pair(one, two)?,
            options.plain(),
            successors,
            table,
        )
    }

    /// The choices of both sides, if they are offered now.
    fn pair<A: Chosen, B: Chosen>(&self, one: A, two: B) -> Result<(Choice, Choice), Refusal> {
        Ok((one.checked(self, Side::One)?, two.checked(self, Side::Two)?))
    }
}

/// Options of lists of outcomes and of ways. By default each damage of a roll is a separate outcome, and nothing is left out.
///
/// `Battle::outcomes_with`, [`Battle::outcomes_into`] and [`Battle::ways_with`] take it.
#[derive(Clone, Copy, Debug, Default, PartialEq, Eq, Hash)]
pub struct OutcomeOptions {
    damage_classes: u8,
    least: u32,
}

impl OutcomeOptions {
    /// Each damage of a roll is listed separately, and nothing is left out.
    #[must_use]
    pub const fn new() -> Self {
        OutcomeOptions {
            damage_classes: 0,
            least: 0,
        }
    }

    /// These options with at most that many classes of damage for each roll: for a search that wants fewer outcomes.
    ///
    /// The 39 factors from 217 to 255 are divided into that many ranges, and the damages of one range are a class. One damage near the
    /// middle of each class is listed, with the weight of the whole class. All damages that reach the HP of the target are one more class.
    /// No class holds both damages that break a substitute and damages that don't. So the chance that the first hit of a move knocks out or
    /// breaks a substitute stays exact, and so does everything other than damage rolls. Only what depends on the amount of damage is that of
    /// the listed one: later hits of a move, recoil, residual damage. 0 lists each damage, and so does any number from 39 on.
    #[must_use]
    pub const fn with_damage_classes(self, damage_classes: u8) -> Self {
        OutcomeOptions {
            damage_classes,
            ..self
        }
    }

    /// These options without courses of the update that are less probable than this: for a search that saves the time to play them.
    ///
    /// A course is left out as soon as its draws so far are less probable together. The weight of an outcome is then that of its ways that
    /// are not left out: at most its full weight. `left_out` of the list is the exact weight of the rest. An outcome without a draw is
    /// always listed. An update with draws may have no outcome left.
    ///
    /// The probability is rounded down to a multiple of 2^-32. 0 leaves nothing out, and 1 counts as 1 - 2^-32.
    ///
    /// ```
    /// use gen1::{Battle, Choice, OutcomeOptions, Team, member};
    ///
    /// # fn main() -> Result<(), Box<dyn std::error::Error>> {
    /// let one = Team::new(&[member("Tauros", &["Thunder Wave"])?])?;
    /// let two = Team::new(&[member("Slowbro", &["Amnesia"])?])?;
    /// let mut battle = Battle::new(&one, &two, [0; 10]);
    /// battle.update(Choice::Pass, Choice::Pass)?;
    /// let options = OutcomeOptions::new().with_least_probability(0.01)?;
    /// let ways = battle.ways_with(Choice::MOVE_1, Choice::MOVE_1, &options)?;
    /// let chances = ways.map(|way| way.map(|way| way.chance.probability())).collect::<Result<Vec<f64>, _>>()?;
    /// // It misses with 1 of 256 bytes: that is left out. A paralysed Slowbro then acts or not.
    /// assert_eq!((chances.len(), chances.iter().sum()), (2, 255.0 / 256.0));
    /// # Ok(())
    /// # }
    /// ```
    ///
    /// # Errors
    ///
    /// The probability is not 0 to 1, or is NaN.
    pub fn with_least_probability(self, probability: f64) -> Result<Self, NotProbability> {
        if !(0.0..=1.0).contains(&probability) {
            return Err(NotProbability(probability));
        }
        // A cast takes the nearest number for 1, which is out of range.
        let least = (probability * 4_294_967_296.0) as u32;
        Ok(OutcomeOptions { least, ..self })
    }

    const fn plain(&self) -> outcomes::OutcomeOptions {
        outcomes::OutcomeOptions {
            damage_classes: self.damage_classes,
            least: self.least,
        }
    }
}

/// A number that is not a probability, 0 to 1.
#[derive(Clone, Copy, Debug, PartialEq)]
pub struct NotProbability(pub f64);

impl fmt::Display for NotProbability {
    fn fmt(&self, f: &mut fmt::Formatter<'_>) -> fmt::Result {
        write!(f, "the probability is {}, not 0 to 1", self.0)
    }
}

impl core::error::Error for NotProbability {}

/// The list of [`Battle::outcomes`].
#[cfg(feature = "alloc")]
#[derive(Clone, Debug, PartialEq, Eq)]
pub struct OutcomeList {
    successors: alloc::vec::Vec<Successor>,
    whole: u128,
    left_out: u128,
}

#[cfg(feature = "alloc")]
impl OutcomeList {
    /// The outcomes with their exact weights, in no particular order. There is at least one if nothing is left out.
    #[must_use]
    pub fn successors(&self) -> &[Successor] {
        &self.successors
    }

    /// The sum of all weights and of the weight left out. A weight divided by it is the probability of its outcome.
    #[must_use]
    pub const fn whole(&self) -> u128 {
        self.whole
    }

    /// The weight left out: 0 without [`OutcomeOptions::with_least_probability`].
    ///
    /// ```
    /// use gen1::{Battle, Choice, OutcomeOptions, Successor, Team, member};
    ///
    /// # fn main() -> Result<(), Box<dyn std::error::Error>> {
    /// let one = Team::new(&[member("Tauros", &["Body Slam"])?])?;
    /// let two = Team::new(&[member("Slowbro", &["Amnesia"])?])?;
    /// let mut battle = Battle::new(&one, &two, [0; 10]);
    /// battle.update(Choice::Pass, Choice::Pass)?;
    /// let options = OutcomeOptions::new().with_least_probability(0.01)?;
    /// let list = battle.outcomes_with(Choice::MOVE_1, Choice::MOVE_1, &options)?;
    /// let listed: u128 = list.successors().iter().map(Successor::weight).sum();
    /// assert_eq!(listed + list.left_out(), list.whole());
    /// # Ok(())
    /// # }
    /// ```
    #[must_use]
    pub const fn left_out(&self) -> u128 {
        self.left_out
    }

    /// Each outcome with its probability. The probabilities sum to 1 if nothing is left out.
    pub fn iter(&self) -> impl ExactSizeIterator<Item = (Battle, f64)> + '_ {
        let whole = self.whole as f64;
        self.successors
            .iter()
            .map(move |it| (it.battle(), it.weight() as f64 / whole))
    }
}

#[cfg(feature = "alloc")]
impl Battle {
    /// All battles that an update by a choice of each side can lead to, each once, with its exact probability. Needs the feature `alloc`.
    ///
    /// The probabilities are exact for draws that are independent uniform bytes. A link battle draws other numbers
    /// ([docs/MECHANICS.md, "Link numbers"](https://hibsuloy.example/gen1/blob/main/docs/MECHANICS.md#link-numbers)). If its seed is
    /// unknown, they are an approximation, off by about 0.01 in total variation; if its seed is known, there is one outcome, that of
    /// [`Battle::update`]. The numbers to draw are not used, and the outcomes keep them: reseed an outcome before you play it further.
    ///
    /// ```
    /// use gen1::{Battle, Choice, Side, Team, member};
    ///
    /// # fn main() -> Result<(), Box<dyn std::error::Error>> {
    /// let team = Team::new(&[member("Tauros", &["Body Slam"])?])?;
    /// let mut battle = Battle::new(&team, &team, [0; 10]);
    /// battle.update(Choice::Pass, Choice::Pass)?;
    /// let outcomes = battle.outcomes(Choice::MOVE_1, Choice::MOVE_1)?;
    /// let hp = |next: &Battle| f64::from(next.state().side(Side::One).members[0].hp);
    /// let expected: f64 = outcomes.iter().map(|(next, probability)| probability * hp(&next)).sum();
    /// assert!(hp(&battle) > expected);
    /// # Ok(())
    /// # }
    /// ```
    ///
    /// # Errors
    ///
    /// A refusal as for [`Battle::update`], or [`OutcomesFault::Size`], for which no update is known.
    pub fn outcomes<A: Chosen, B: Chosen>(
        &self,
        one: A,
        two: B,
    ) -> Result<OutcomeList, OutcomesFault> {
        self.outcomes_with(one, two, &OutcomeOptions::new())
    }

    /// Like [`Battle::outcomes`], with options. Needs the feature `alloc`.
    ///
    /// ```
    /// use gen1::{Battle, Choice, OutcomeOptions, Team, member};
    ///
    /// # fn main() -> Result<(), Box<dyn std::error::Error>> {
    /// let team = Team::new(&[member("Tauros", &["Body Slam"])?])?;
    /// let mut battle = Battle::new(&team, &team, [0; 10]);
    /// battle.update(Choice::Pass, Choice::Pass)?;
    /// let all = battle.outcomes(Choice::MOVE_1, Choice::MOVE_1)?;
    /// let options = OutcomeOptions::new().with_damage_classes(3);
    /// let few = battle.outcomes_with(Choice::MOVE_1, Choice::MOVE_1, &options)?;
    /// assert!(10 * few.successors().len() < all.successors().len());
    /// # Ok(())
    /// # }
    /// ```
    ///
    /// # Errors
    ///
    /// As for [`Battle::outcomes`].
    pub fn outcomes_with<A: Chosen, B: Chosen>(
        &self,
        one: A,
        two: B,
        options: &OutcomeOptions,
    ) -> Result<OutcomeList, OutcomesFault> {
        let pair = self.pair(one, two)?;
        let mut places = 256;
        loop {
            let mut successors = alloc::vec![Successor::from(self); places];
            let mut table = alloc::vec![0; 2 * places];
            match outcomes::list_outcomes(
                &self.packed,
                pair,
                options.plain(),
                &mut successors,
                &mut table,
            ) {
                Ok(found) => {
                    successors.truncate(found.count);
                    successors.shrink_to_fit();
                    let Outcomes {
                        whole, left_out, ..
                    } = found;
                    return Ok(OutcomeList {
                        successors,
                        whole,
                        left_out,
                    });
                }
                Err(OutcomesFault::Places | OutcomesFault::Table) => places *= 8,
                Err(fault) => return Err(fault),
            }
        }
    }
}
