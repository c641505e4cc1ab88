//! The damage of a move and its odds, in the current state of a battle.
use crate::generated::layout::Packed;
use crate::generated::odds::{self, Damages};
use crate::{Battle, MoveId, OddsReason, Side};
use core::fmt;

/// Why a use of a move has no damage numbers.
#[derive(Clone, Copy, Debug, PartialEq, Eq)]
#[cfg_attr(feature = "serde", derive(serde::Serialize, serde::Deserialize))]
#[non_exhaustive]
pub enum DamageRefusal {
    /// The move doesn't use the usual damage formula: it has no power, a fixed damage, or its own damage rule.
    NoUsualDamage(MoveId),
    /// No member is out yet: the battle has had no update.
    NobodyOut,
    /// The damage would be divided by 0.
    DividedByZero,
}

impl fmt::Display for DamageRefusal {
    fn fmt(&self, f: &mut fmt::Formatter<'_>) -> fmt::Result {
        match self {
            DamageRefusal::NoUsualDamage(id) => write!(f, "{id} does not have the usual damage"),
            DamageRefusal::NobodyOut => f.write_str("no member is out before the first update"),
            DamageRefusal::DividedByZero => f.write_str("the damage would be divided by 0"),
        }
    }
}

impl core::error::Error for DamageRefusal {}

/// The chance that one use of a move knocks out the foe, or two uses in a row, for independent draws.
///
/// A chance is a number of ways out of all of them, which are equally likely.
#[derive(Clone, Copy, Debug, PartialEq, Eq)]
#[cfg_attr(feature = "serde", derive(serde::Serialize, serde::Deserialize))]
#[non_exhaustive]
pub struct Chances {
    /// In how many ways the foe has no HP left after one use.
    pub once: u64,
    /// The ways of one use, at most 20,447,232.
    pub once_of: u64,
    /// In how many ways the foe has no HP left after two uses.
    pub twice: u64,
    /// The ways of two uses.
    pub twice_of: u64,
    /// Whether the foe has a Substitute. The chances are then those of breaking it.
    pub breaks_substitute: bool,
}

/// The change of the foe's HP between two uses of a move, if it has any left. By default they stay as they are.
#[derive(Clone, Copy, Debug, Default, PartialEq, Eq)]
#[cfg_attr(feature = "serde", derive(serde::Serialize, serde::Deserialize))]
pub struct HpChange {
    /// The HP that it gains first, up to its maximum.
    pub gained: u16,
    /// The HP that it then loses.
    pub lost: u16,
}

/// The changes of the foe's HP after the first use of a move and after the second. By default they stay as they are.
#[derive(Clone, Copy, Debug, Default, PartialEq, Eq)]
#[cfg_attr(feature = "serde", derive(serde::Serialize, serde::Deserialize))]
pub struct Between {
    /// After the first use.
    pub after_first: HpChange,
    /// After the second use.
    pub after_second: HpChange,
}

/// The chance that one use of a move knocks out the foe, or two or three in a row, for independent draws.
///
/// A chance is a number of ways out of all of them, which are equally likely.
#[derive(Clone, Copy, Debug, PartialEq, Eq)]
#[cfg_attr(feature = "serde", derive(serde::Serialize, serde::Deserialize))]
#[non_exhaustive]
pub struct ThreeChances {
    /// In how many ways the foe has no HP left after one use.
    pub once: u64,
    /// The ways of one use, at most 20,447,232.
    pub once_of: u64,
    /// In how many ways the foe has no HP left after two uses.
    pub twice: u64,
    /// The ways of two uses.
    pub twice_of: u64,
    /// In how many ways the foe has no HP left after three uses.
    pub thrice: u128,
    /// The ways of three uses.
    pub thrice_of: u128,
    /// Whether the foe has a Substitute. The chances are then those of breaking it.
    pub breaks_substitute: bool,
}

/// The odds of the action by which a side uses a move in the turn that begins, for independent draws.
///
/// A chance is a number of ways out of all of them, which are equally likely.
#[derive(Clone, Copy, Debug, PartialEq, Eq)]
#[cfg_attr(feature = "serde", derive(serde::Serialize, serde::Deserialize))]
#[non_exhaustive]
pub struct ActionOdds {
    /// In how many ways the member acts.
    pub acts: u64,
    /// All ways: the 65,536 pairs of a draw for confusion and one for paralysis.
    pub acts_of: u64,
    /// In how many ways it acts and its move hits, or works.
    pub hits: u64,
    /// All ways: these pairs, each with a critical draw and a draw of the hit test.
    pub hits_of: u64,
    /// How many of 256 draws give a hit its side effect: 0 if the foe is guarded, 256 if the effect is sure.
    pub side_effect: u16,
    /// How many of 256 draws of the hit test hold the foe, if the member acts. It is 0 unless the move traps.
    pub holds: u16,
}

/// The odds of a use of a move: its damage, and its chances of a critical hit and of a hit.
///
/// Chances are exact: each is the count of the 256 possible numbers of a draw that have the result.
#[derive(Clone, Debug, PartialEq, Eq)]
#[cfg_attr(feature = "serde", derive(serde::Serialize, serde::Deserialize))]
#[non_exhaustive]
pub struct Odds {
    /// The damage of a hit that is not critical, at each factor from 217 to 255, which are equally likely; or why there is none.
    #[cfg_attr(feature = "serde", serde(with = "crate::serde_impls::damages"))]
    pub usual: Result<[u16; 39], DamageRefusal>,
    /// The damage of a critical hit, in the same form.
    #[cfg_attr(feature = "serde", serde(with = "crate::serde_impls::damages"))]
    pub critical: Result<[u16; 39], DamageRefusal>,
    /// The least and the most damage of a use without the usual damage, such as Night Shade, Psywave and Counter. The numbers from the
    /// least to the most are equally likely. Both are 0 for any other use.
    pub fixed: [u16; 2],
    /// How many of 256 draws make the hit critical, from 0 to 255; 0 without the usual damage.
    pub critical_draws: u16,
    /// How many of 256 draws of the hit test make the use hit, from 0 to 256. A use that hits without a test has 256.
    pub hit_draws: u16,
    /// Why the use can't hit; `None` if it can.
    pub reason: Option<OddsReason>,
    /// In how many of 8 cases a use that hits makes 0 to 5 hits. Each hit deals the same damage.
    pub hits: [u8; 6],
    /// Whether the user would only charge now. The odds are then those of its strike.
    pub charges_first: bool,
    /// Whether the move takes the hit test when it is used. Moves that fail, or that affect only their user, take none.
    pub takes_hit_test: bool,
}

impl Battle {
    /// The damage of a side's move at each factor from 217 to 255, in the current state of both active members
    /// ([docs/MECHANICS.md, "Damage numbers"](https://hibsuloy.example/gen1/blob/main/docs/MECHANICS.md#damage-numbers) to "Factors"). The member need not know the move.
    ///
    /// ```
    /// use gen1::{Battle, Choice, Side, Team, member};
    ///
    /// # fn main() -> Result<(), Box<dyn std::error::Error>> {
    /// let team = Team::new(&[member("Tauros", &["Strength"])?])?;
    /// let mut battle = Battle::new(&team, &team, [0; 10]);
    /// battle.update(Choice::Pass, Choice::Pass)?;
    /// let damages = battle.damage(Side::One, "Body Slam".parse()?, false)?;
    /// assert_eq!((damages[0], damages[38]), (95, 112));
    /// # Ok(())
    /// # }
    /// ```
    ///
    /// # Errors
    ///
    /// The first variant of [`DamageRefusal`] that applies, in their order.
    pub fn damage(
        &self,
        side: Side,
        id: MoveId,
        critical: bool,
    ) -> Result<[u16; 39], DamageRefusal> {
        if !crate::generated::hits::has_usual_damage(id) {
            return Err(DamageRefusal::NoUsualDamage(id));
        }
        let packed = self.out()?;
        let numbers = crate::generated::hits::numbers(packed, side, id, critical);
        crate::generated::hits::damage_list(&numbers).ok_or(DamageRefusal::DividedByZero)
    }

    /// The odds of a side's move, in the current state of both active members ([docs/MECHANICS.md, "Critical hits"](https://hibsuloy.example/gen1/blob/main/docs/MECHANICS.md#critical-hits), "Hit test").
    ///
    /// The member need not know the move. If Thrash or Rage continues, the hit test uses the kept accuracy. Conditions that may keep the
    /// member from acting at all, such as paralysis, are not counted.
    ///
    /// ```
    /// use gen1::{Battle, Choice, Side, Team, member};
    ///
    /// # fn main() -> Result<(), Box<dyn std::error::Error>> {
    /// let team = Team::new(&[member("Persian", &["Slash"])?])?;
    /// let mut battle = Battle::new(&team, &team, [0; 10]);
    /// battle.update(Choice::Pass, Choice::Pass)?;
    /// let odds = battle.odds(Side::One, "Strength".parse()?)?;
    /// assert_eq!((odds.critical_draws, odds.hit_draws), (57, 255));
    /// assert_eq!(odds.usual, battle.damage(Side::One, "Strength".parse()?, false));
    /// # Ok(())
    /// # }
    /// ```
    ///
    /// # Errors
    ///
    /// [`DamageRefusal::NobodyOut`] only. If a move has no damage, [`Odds::usual`] and [`Odds::critical`] say why.
    pub fn odds(&self, side: Side, id: MoveId) -> Result<Odds, DamageRefusal> {
        let packed = self.out()?;
        let odds = odds::odds_of(packed, side, id);
        let damages = |of: Damages| match of.code {
            0 => Ok(of.numbers),
            48 => Err(DamageRefusal::NoUsualDamage(id)),
            _ => Err(DamageRefusal::DividedByZero),
        };
        let numbered = |reason: &OddsReason| reason.number() == odds.reason;
        Ok(Odds {
            usual: damages(odds.usual),
            critical: damages(odds.critical),
            fixed: [odds.least, odds.most],
            critical_draws: odds.critical_draws,
            hit_draws: odds.hit_draws,
            reason: OddsReason::ALL.into_iter().find(numbered),
            hits: odds.hits,
            charges_first: odds.charges_first != 0,
            takes_hit_test: odds::takes_hit_test(id),
        })
    }

    /// The odds of the action by which a side uses a move in the turn that begins, in the current state of both active members
    /// ([docs/MECHANICS.md, "Gate"](https://hibsuloy.example/gen1/blob/main/docs/MECHANICS.md#gate), "Hit test", "Side effects").
    ///
    /// Sleep, a freeze, the foe's trapping, recharging, a disabled move, confusion and paralysis count as they are now. What the foe does
    /// first does not count, such as a flinch. The member need not know the move. It does not act if it has to continue another one.
    ///
    /// ```
    /// use gen1::{Battle, Choice, Side, Team, member};
    ///
    /// # fn main() -> Result<(), Box<dyn std::error::Error>> {
    /// let one = Team::new(&[member("Snorlax", &["Body Slam"])?])?;
    /// let two = Team::new(&[member("Alakazam", &["Psychic"])?])?;
    /// let mut battle = Battle::new(&one, &two, [0; 10]);
    /// battle.update(Choice::Pass, Choice::Pass)?;
    /// let odds = battle.action_odds(Side::One, "Body Slam".parse()?)?;
    /// assert_eq!((odds.acts, odds.side_effect), (odds.acts_of, 77));
    /// assert_eq!(odds.hits * 256, odds.hits_of * 255);
    /// # Ok(())
    /// # }
    /// ```
    ///
    /// # Errors
    ///
    /// [`DamageRefusal::NobodyOut`] only.
    pub fn action_odds(&self, side: Side, id: MoveId) -> Result<ActionOdds, DamageRefusal> {
        let odds = odds::action_odds_of(self.out()?, side, id);
        Ok(ActionOdds {
            acts: odds.acts,
            acts_of: odds.acts_of,
            hits: odds.hits,
            hits_of: odds.hits_of,
            side_effect: odds.side_effect,
            holds: odds.holds,
        })
    }

    /// The exact chance that a side's move knocks out the foe, with one use and with two in a row, in the current state of both active
    /// members. Against a Substitute it is the chance to break it.
    ///
    /// The draws are taken as independent. A trapping move that hits continues: the second use deals the same damage again. Nothing else that
    /// happens between the two uses counts, such as residual damage.
    ///
    /// ```
    /// use gen1::{Battle, Choice, MoveId, Side, Team, member};
    ///
    /// # fn main() -> Result<(), Box<dyn std::error::Error>> {
    /// let one = Team::new(&[member("Tauros", &["Hyper Beam"])?])?;
    /// let two = Team::new(&[member("Alakazam", &["Psychic"])?])?;
    /// let mut battle = Battle::new(&one, &two, [0; 10]);
    /// battle.update(Choice::Pass, Choice::Pass)?;
    /// let chances = battle.knock_out(Side::One, MoveId::HYPER_BEAM)?;
    /// assert!(chances.once < chances.once_of);
    /// assert_eq!(chances.twice_of, chances.once_of * chances.once_of);
    /// # Ok(())
    /// # }
    /// ```
    ///
    /// # Errors
    ///
    /// [`DamageRefusal::NobodyOut`] only.
    pub fn knock_out(&self, side: Side, id: MoveId) -> Result<Chances, DamageRefusal> {
        let chances = odds::knock_out(self.out()?, side, id);
        Ok(Chances {
            once: chances.once,
            once_of: chances.once_of,
            twice: chances.twice,
            twice_of: chances.twice_of,
            breaks_substitute: chances.breaks_substitute != 0,
        })
    }

    /// The exact chance that a side's move knocks out the foe, with one use and with two or three in a row, in the current state of both
    /// active members. Against a Substitute it is the chance to break it, and `between` does not count.
    ///
    /// The draws are taken as independent. Between two uses the foe's HP change as `between` says. Nothing else that happens then counts.
    ///
    /// ```
    /// use gen1::{Battle, Between, Choice, HpChange, MoveId, Side, Team, member};
    ///
    /// # fn main() -> Result<(), Box<dyn std::error::Error>> {
    /// let one = Team::new(&[member("Gengar", &["Night Shade"])?])?;
    /// let two = Team::new(&[member("Alakazam", &["Psychic"])?])?;
    /// let mut battle = Battle::new(&one, &two, [0; 10]);
    /// battle.update(Choice::Pass, Choice::Pass)?;
    /// // Night Shade takes 100 of the 313 HP, and a burn takes 19 after each use.
    /// let burn = HpChange { gained: 0, lost: 19 };
    /// let burned = Between { after_first: burn, after_second: burn };
    /// let night_shade = MoveId::NIGHT_SHADE;
    /// assert_eq!(battle.knock_out_in_three(Side::One, night_shade, &Between::default())?.thrice, 0);
    /// assert!(battle.knock_out_in_three(Side::One, night_shade, &burned)?.thrice > 0);
    /// # Ok(())
    /// # }
    /// ```
    ///
    /// # Errors
    ///
    /// [`DamageRefusal::NobodyOut`] only.
    pub fn knock_out_in_three(
        &self,
        side: Side,
        id: MoveId,
        between: &Between,
    ) -> Result<ThreeChances, DamageRefusal> {
        let changed = |it: HpChange| odds::HpChange {
            gained: it.gained,
            lost: it.lost,
        };
        let between = odds::Between {
            after_first: changed(between.after_first),
            after_second: changed(between.after_second),
        };
        let chances = odds::knock_out_in_three(self.out()?, side, id, &between);
        let whole = |it: odds::Wide| u128::from(it.high) << 64 | u128::from(it.low);
        Ok(ThreeChances {
            once: chances.once,
            once_of: chances.once_of,
            twice: chances.twice,
            twice_of: chances.twice_of,
            thrice: whole(chances.thrice),
            thrice_of: whole(chances.thrice_of),
            breaks_substitute: chances.breaks_substitute != 0,
        })
    }

    /// The bytes of the battle, if members are out.
    fn out(&self) -> Result<&Packed, DamageRefusal> {
        match self.packed.turn() {
            0 => Err(DamageRefusal::NobodyOut),
            _ => Ok(&self.packed),
        }
    }
}
