//! The chances that uses of a move knock out a member, or break its Substitute.
use gen1::{Battle, Between, Effect, HpChange, MoveId, Odds, Side, ThreeChances};
use serde::Serialize;
use std::collections::BTreeMap;

/// The maximum number of uses.
pub const MOST: usize = 9;

/// An exact chance.
#[derive(Clone, Copy, Debug, PartialEq, Serialize)]
pub struct Fraction {
    pub numerator: u64,
    pub denominator: u64,
}

impl Fraction {
    pub fn value(self) -> f64 {
        self.numerator as f64 / self.denominator as f64
    }
}

/// The chances of 1, 2, .. up to nine uses in the same state. Each includes those of fewer uses.
#[derive(Debug, PartialEq, Serialize)]
pub struct KnockOuts {
    /// The HP that are taken: those of the defender, or one more than its Substitute has.
    pub hp: u16,
    /// Whether the defender has a Substitute, so that the chances are those of breaking it.
    pub breaks_substitute: bool,
    /// The chance of one use, from the library.
    pub once: Fraction,
    /// The chance of two uses, from the library.
    pub twice: Fraction,
    /// The chance of three uses, from the library, rounded.
    #[serde(skip)]
    pub thrice: f64,
    /// The chances of 1, 2, .. uses, rounded. The list ends with the first use that takes the HP for certain, or with the ninth.
    pub uses: Vec<f64>,
}

/// A defender's HP, and their change between two uses.
#[derive(Clone, Copy)]
pub struct Target {
    pub hp: u16,
    pub max: u16,
    pub change: HpChange,
}

impl Target {
    /// The HP before the next use, if that many are left.
    fn before_next(&self, left: usize) -> usize {
        let gained = (left + usize::from(self.change.gained)).min(usize::from(self.max));
        gained
            .max(left)
            .saturating_sub(usize::from(self.change.lost))
    }
}

impl KnockOuts {
    /// The chances of 1, 2, .. uses; those of up to three are exact before they are rounded.
    pub fn chances(&self) -> Vec<f64> {
        let mut chances = self.uses.clone();
        let exact = [self.once.value(), self.twice.value(), self.thrice];
        for (place, exact) in chances.iter_mut().zip(exact) {
            *place = exact;
        }
        chances
    }
}

/// The chances of a side 1's move to take the target's HP; `None` for a move without damage.
pub fn knock_outs(battle: &Battle, id: MoveId, odds: &Odds, target: Target) -> Option<KnockOuts> {
    if odds.usual.is_err() && odds.fixed == [0, 0] {
        return None;
    }
    let between = Between {
        after_first: target.change,
        after_second: target.change,
    };
    let chances = battle.knock_out_in_three(Side::One, id, &between).ok()?;
    Some(of_chances(&chances, id, odds, target))
}

fn of_chances(chances: &ThreeChances, id: MoveId, odds: &Odds, target: Target) -> KnockOuts {
    let breaks_substitute = chances.breaks_substitute;
    let change = match breaks_substitute {
        true => HpChange::default(),
        false => target.change,
    };
    let fraction = |numerator, denominator| Fraction {
        numerator,
        denominator,
    };
    KnockOuts {
        hp: target.hp,
        breaks_substitute,
        once: fraction(chances.once, chances.once_of),
        twice: fraction(chances.twice, chances.twice_of),
        thrice: chances.thrice as f64 / chances.thrice_of as f64,
        uses: in_turn(
            &damages(odds),
            Target { change, ..target },
            Rule::of(id, breaks_substitute),
        ),
    }
}

/// The damage of one use with its chances. Each hit of a use deals the same damage.
fn damages(odds: &Odds) -> Vec<(u16, f64)> {
    let lands = f64::from(odds.hit_draws) / 256.0;
    let mut used = vec![(0, 1.0 - lands)];
    let critical = f64::from(odds.critical_draws) / 256.0;
    let [least, most] = odds.fixed;
    let of_hit: Vec<(u16, f64)> = match (&odds.usual, &odds.critical) {
        (Ok(usual), Ok(above)) => {
            let each = |numbers: &[u16; 39], chance: f64| numbers.map(|it| (it, chance / 39.0));
            [each(usual, 1.0 - critical), each(above, critical)].concat()
        }
        _ => (least..=most)
            .map(|number| (number, 1.0 / (f64::from(most - least) + 1.0)))
            .collect(),
    };
    for (count, cases) in (0u16..).zip(odds.hits).filter(|(_, cases)| *cases > 0) {
        let part = lands * f64::from(cases) / 8.0;
        let of_use = |(number, chance): &(u16, f64)| (number.saturating_mul(count), chance * part);
        used.extend(of_hit.iter().map(of_use));
    }
    used.retain(|(_, chance)| *chance > 0.0);
    used
}

/// How a use of a move changes those after it.
#[derive(Clone, Copy, PartialEq)]
enum Rule {
    /// It changes none.
    Alone,
    /// Each damage but 0 is half of the HP that are left.
    Halving,
    /// One that hits continues: the next ones deal its damage again.
    Trapping,
}

impl Rule {
    fn of(id: MoveId, breaks_substitute: bool) -> Rule {
        match id.effect() {
            Effect::SuperFang if !breaks_substitute => Rule::Halving,
            Effect::Trapping => Rule::Trapping,
            _ => Rule::Alone,
        }
    }
}

/// In how many more uses trapping continues, and the chance of it.
const GOES_ON: [(u8, f64); 4] = [(1, 0.375), (2, 0.375), (3, 0.125), (4, 0.125)];

/// The chances of what uses have left.
struct Left {
    /// Of each number of HP, before a new use.
    free: Vec<f64>,
    /// Of a number of HP, a damage, and how many uses deal it again.
    held: BTreeMap<(usize, usize, u8), f64>,
    /// Of no HP.
    none: f64,
}

impl Left {
    fn new(most: usize, none: f64) -> Left {
        Left {
            free: vec![0.0; most + 1],
            held: BTreeMap::new(),
            none,
        }
    }

    fn add(&mut self, hp: usize, damage: usize, uses: u8, chance: f64) {
        match (hp, uses) {
            (0, _) => self.none += chance,
            (_, 0) => self.free[hp] += chance,
            _ => *self.held.entry((hp, damage, uses)).or_default() += chance,
        }
    }

    /// After one use more.
    fn after_use(&self, each: &[(u16, f64)], rule: Rule) -> Left {
        let mut next = Left::new(self.free.len() - 1, self.none);
        let free = self.free.iter().enumerate().rev();
        for (hp, chance) in free.filter(|(_, chance)| **chance > 0.0) {
            for (damage, of_damage) in each {
                let (damage, chance) = (usize::from(*damage), chance * of_damage);
                match rule {
                    Rule::Trapping if damage > 0 => GOES_ON.iter().for_each(|(uses, part)| {
                        next.add(hp.saturating_sub(damage), damage, *uses, chance * part);
                    }),
                    Rule::Halving if damage > 0 => next.add(hp - (hp / 2).max(1), 0, 0, chance),
                    _ => next.add(hp.saturating_sub(damage), 0, 0, chance),
                }
            }
        }
        for ((hp, damage, uses), chance) in &self.held {
            next.add(hp.saturating_sub(*damage), *damage, uses - 1, *chance);
        }
        next
    }

    /// After the change of HP between two uses.
    fn before_next(&self, target: Target) -> Left {
        let mut next = Left::new(self.free.len() - 1, self.none);
        for (hp, chance) in self.free.iter().enumerate().filter(|(_, it)| **it > 0.0) {
            next.add(target.before_next(hp), 0, 0, *chance);
        }
        for ((hp, damage, uses), chance) in &self.held {
            next.add(target.before_next(*hp), *damage, *uses, *chance);
        }
        next
    }
}

/// The chances that 1, 2, .. uses with these damages take all HP.
fn in_turn(each: &[(u16, f64)], target: Target, rule: Rule) -> Vec<f64> {
    let mut left = Left::new(usize::from(target.hp.max(target.max)), 0.0);
    left.free[usize::from(target.hp)] = 1.0;
    let mut chances = Vec::new();
    while chances.len() < MOST && chances.last() != Some(&1.0) {
        left = left.after_use(each, rule);
        // If no HP can be left, all are taken for certain, and the rounded sum is ignored.
        let is_certain = left.held.is_empty() && left.free.iter().all(|chance| *chance == 0.0);
        chances.push(if is_certain { 1.0 } else { left.none.min(1.0) });
        left = left.before_next(target);
    }
    chances
}

#[cfg(test)]
mod tests {
    use super::{Rule, Target, in_turn};
    use gen1::HpChange;

    fn target(hp: u16, gained: u16, lost: u16) -> Target {
        let change = HpChange { gained, lost };
        Target { hp, max: 6, change }
    }

    #[test]
    fn chances_of_two_numbers() {
        // Two throws of a coin with 1 and 3: at least 4 in all but one of four cases, and always with three.
        let coin = [(1, 0.5), (3, 0.5)];
        assert_eq!(
            in_turn(&coin, target(4, 0, 0), Rule::Alone),
            [0.0, 0.75, 0.875, 1.0]
        );
        assert_eq!(in_turn(&coin, target(1, 0, 0), Rule::Alone), [1.0]);
        assert_eq!(in_turn(&[(0, 1.0)], target(1, 0, 0), Rule::Alone), [0.0; 9]);
        // 5 HP are halved to 3, 2, 1 and 0.
        assert_eq!(
            in_turn(&[(2, 1.0)], target(5, 0, 0), Rule::Halving),
            [0.0, 0.0, 0.0, 1.0]
        );
    }

    #[test]
    fn trapping_deals_a_damage_again() {
        // Half of the uses hit for 1. One that hits takes 2 in two uses, and in the third 1 more in 5 of 8 cases, or else if a new one hits.
        let uses = in_turn(&[(0, 0.5), (1, 0.5)], target(3, 0, 0), Rule::Trapping);
        assert_eq!(uses[..3], [0.0, 0.0, 0.5 * (0.625 + 0.375 * 0.5)]);
    }

    #[test]
    fn hp_change_between_uses() {
        // From 4 HP the coin leaves 3 or 1. Of these 2 are lost: 1 or 0.
        let coin = [(1, 0.5), (3, 0.5)];
        assert_eq!(in_turn(&coin, target(4, 0, 2), Rule::Alone), [0.0, 1.0]);
        // With 2 gained, at most 6 in all, 5 or 3 are left; these become 4, 2, 2 and 0.
        assert_eq!(
            in_turn(&coin, target(4, 2, 0), Rule::Alone)[..2],
            [0.0, 0.25]
        );
        // 1 HP and a hit of 1: a defender that has fallen gains nothing.
        assert_eq!(
            in_turn(&[(1, 0.5), (0, 0.5)], target(1, 5, 0), Rule::Alone)[..2],
            [0.5, 0.5]
        );
        // 5 gained of 6 at most, then 6 lost.
        assert_eq!(
            in_turn(&[(1, 1.0)], target(5, 5, 6), Rule::Alone),
            [0.0, 1.0]
        );
    }
}
