//! A calculation as lines for people and as an object for programs.
use super::field::Field;
use super::knockouts::{KnockOuts, Target, knock_outs};
use crate::json::line_of;
use gen1::{
    Battle, DamageRefusal, Effect, HpChange, MemberState, MoveId, Odds, OddsReason, Side, Species,
};
use serde::Serialize;

/// The least chance that is not printed as 0 per cent, and the least distance from 1 that is not printed as 100 per cent.
const VISIBLE: f64 = 0.0005;
/// The maximum number of chances in a line, each for a number of uses.
const NAMED: usize = 3;

/// The common parts of the lines of a calculation.
pub struct Words<'a> {
    battle: &'a Battle,
    attacker: String,
    defender: String,
    hp: u16,
    max: u16,
    substitute: Option<u8>,
    change: HpChange,
}

/// The HP that uses have to take: those of the Substitute, which breaks above its HP, or of the defender.
fn target(battle: &Battle) -> (u16, Option<u8>) {
    let state = battle.state();
    let side = state.side(Side::Two);
    let substitute = side.active.as_ref().and_then(|active| active.substitute);
    match substitute {
        Some(hp) => (u16::from(hp) + 1, substitute),
        None => (side.member_out().map_or(0, |it| it.hp), None),
    }
}

fn out(battle: &Battle, side: Side) -> MemberState {
    battle.state().side(side).members[0].clone()
}

/// The odds of the attacker's move; members are out, so that there are odds.
fn odds_of(battle: &Battle, id: MoveId) -> Option<Odds> {
    battle.odds(Side::One, id).ok()
}

/// A member's name with its level, if that is not 100.
fn named(it: &MemberState) -> String {
    match it.level {
        100 => it.species.to_string(),
        level => format!("L{level} {}", it.species),
    }
}

impl<'a> Words<'a> {
    pub fn of(battle: &'a Battle, field: &Field) -> Words<'a> {
        let [before, of_defender] = field.words();
        let (attacker, defender) = (out(battle, Side::One), out(battle, Side::Two));
        let (_, substitute) = target(battle);
        Words {
            battle,
            attacker: format!("{before}{}", named(&attacker)),
            defender: format!("{of_defender}{}{}", named(&defender), field.conditions()),
            hp: defender.hp,
            max: defender.max_hp,
            substitute,
            change: field.change(),
        }
    }

    /// The line of a move: damage, chances of a critical hit and a miss, and of a knock-out.
    pub fn line(&self, id: MoveId, only_critical: bool, all: bool) -> String {
        let mut head = format!("{} {id} vs. {}", self.attacker, self.defender);
        if let Some(hp) = self.substitute {
            head += &format!(" behind a Substitute with {hp} HP");
        } else if self.hp < self.max {
            head += &format!(" at {} HP", self.hp);
        }
        let Some(odds) = odds_of(self.battle, id) else {
            return format!("{head}: nobody is out\n");
        };
        let numbers = match only_critical {
            true => odds.critical.as_ref().ok(),
            false => odds.usual.as_ref().ok(),
        };
        let mut line = match odds.reason {
            Some(reason) => format!("{head}: can't hit: {reason}\n"),
            None => format!("{head}: {}\n", self.hit(&odds, numbers, id, only_critical)),
        };
        if let Some(numbers) = numbers.filter(|_| all) {
            line += &numbers.map(|number| number.to_string()).join(" ");
            line.push('\n');
        }
        line
    }

    /// A use that may hit: its damage and its chances.
    fn hit(
        &self,
        odds: &Odds,
        numbers: Option<&[u16; 39]>,
        id: MoveId,
        only_critical: bool,
    ) -> String {
        let mut text = match numbers {
            Some(numbers) => self.range([numbers[0], numbers[38]]) + &hits_of(odds.hits),
            None if id.effect() == Effect::OneHitKnockOut => "all HP".into(),
            None if odds.fixed != [0, 0] => self.range(odds.fixed),
            None => without(odds).into(),
        };
        if !only_critical {
            text += &critical(odds);
        }
        if odds.hit_draws < 256 {
            text += &format!(", {} miss", percent(1.0 - part_of(odds.hit_draws)));
        }
        if odds.charges_first {
            text += ", after a turn of charging";
        }
        if !only_critical {
            text += &self.chances(odds, id);
        }
        text
    }

    /// The lowest and highest damage, in HP and per cent of the maximum.
    fn range(&self, [low, high]: [u16; 2]) -> String {
        let part = |number: u16| 100.0 * f64::from(number) / f64::from(self.max.max(1));
        match low == high {
            true => format!("{low} ({:.1}%)", part(low)),
            false => format!("{low}-{high} ({:.1} - {:.1}%)", part(low), part(high)),
        }
    }

    /// The chances to knock out, from the first number of uses that may.
    fn chances(&self, odds: &Odds, id: MoveId) -> String {
        let (hp, _) = target(self.battle);
        let taken = Target {
            hp,
            max: self.max,
            change: self.change,
        };
        let Some(found) = knock_outs(self.battle, id, odds, taken) else {
            return String::new();
        };
        let what = match found.breaks_substitute {
            true => "to break it",
            false => "to KO",
        };
        let chances = found.chances();
        let visible = chances.iter().enumerate();
        let visible = visible.filter(|(_, chance)| **chance >= VISIBLE);
        let mut texts = Vec::new();
        for (number, chance) in visible.take(NAMED) {
            let word = match texts.is_empty() {
                true => format!("{what} in "),
                false => "in ".into(),
            };
            let plural = if number == 0 { "use" } else { "uses" };
            let chance_text = percent(*chance);
            texts.push(format!("{chance_text} {word}{} {plural}", number + 1));
            if *chance >= 1.0 - VISIBLE {
                break;
            }
        }
        match texts.is_empty() {
            true => format!("; no chance {what} in {} uses", chances.len()),
            false => format!("; {}{}", texts.join(", "), self.between()),
        }
    }

    /// The change of the defender's HP between the uses, if it counts.
    fn between(&self) -> String {
        let HpChange { gained, lost } = self.change;
        match (gained, lost, self.substitute) {
            (0, 0, _) | (_, _, Some(_)) => String::new(),
            (0, lost, None) => format!(", with {lost} HP lost between uses"),
            (gained, 0, None) => format!(", with {gained} HP gained between uses"),
            (gained, lost, None) => {
                format!(", with {gained} HP gained and {lost} lost between uses")
            }
        }
    }
}

/// How often a use hits, if not once.
fn hits_of(hits: [u8; 6]) -> String {
    let counts: Vec<_> = (0..6).filter(|count| hits[*count] > 0).collect();
    match counts.as_slice() {
        [] | [0 | 1] => String::new(),
        [only] => format!(" each of {only} hits"),
        [first, .., last] => format!(" each of {first} to {last} hits"),
    }
}

/// The chance of a critical hit and its damage.
fn critical(odds: &Odds) -> String {
    match &odds.critical {
        Ok(numbers) if odds.critical_draws > 0 => {
            let chance = percent(part_of(odds.critical_draws));
            format!(", {chance} critical {}-{}", numbers[0], numbers[38])
        }
        _ => String::new(),
    }
}

/// The reason why a move has no damage.
fn without(odds: &Odds) -> &'static str {
    match odds.usual {
        Err(DamageRefusal::DividedByZero) => "the damage would be divided by 0",
        _ => "no damage",
    }
}

/// The share of 256 draws.
fn part_of(draws: u16) -> f64 {
    f64::from(draws) / 256.0
}

/// A chance in per cent. A chance below 1 is not printed as 100%.
fn percent(chance: f64) -> String {
    match chance {
        1.0 => "100%".into(),
        most if most > 1.0 - VISIBLE => "over 99.9%".into(),
        other => format!("{:.1}%", 100.0 * other),
    }
}

/// The odds of a move for a program.
#[derive(Serialize)]
struct MoveObject {
    #[serde(rename = "move")]
    id: MoveId,
    /// The damage of a usual hit at each factor, or null.
    usual: Option<Vec<u16>>,
    critical: Option<Vec<u16>>,
    /// The least and the most damage of a use without the usual damage.
    fixed: [u16; 2],
    critical_draws: u16,
    hit_draws: u16,
    takes_hit_test: bool,
    /// Why the use can't hit.
    #[serde(skip_serializing_if = "Option::is_none")]
    reason: Option<OddsReason>,
    /// In how many of 8 cases a use that hits makes 0 to 5 hits.
    hits: [u8; 6],
    charges_first: bool,
    knock_out: Option<KnockOuts>,
}

#[derive(Serialize)]
struct MemberObject {
    species: Species,
    level: u8,
    hp: u16,
    max_hp: u16,
    #[serde(skip_serializing_if = "Option::is_none")]
    substitute: Option<u8>,
}

#[derive(Serialize)]
struct CalculationObject {
    attacker: MemberObject,
    defender: MemberObject,
    moves: Vec<MoveObject>,
}

/// A calculation as one object.
pub fn json(battle: &Battle, moves: &[MoveId], change: HpChange) -> String {
    let (hp, substitute) = target(battle);
    let max = out(battle, Side::Two).max_hp;
    let member = |side, substitute| {
        let MemberState {
            species,
            level,
            hp,
            max_hp,
            ..
        } = out(battle, side);
        MemberObject {
            species,
            level,
            hp,
            max_hp,
            substitute,
        }
    };
    let listed = moves.iter().filter_map(|id| {
        let odds = odds_of(battle, *id)?;
        let list = |of: &Result<[u16; 39], DamageRefusal>| of.as_ref().ok().map(|it| it.to_vec());
        Some(MoveObject {
            id: *id,
            usual: list(&odds.usual),
            critical: list(&odds.critical),
            fixed: odds.fixed,
            critical_draws: odds.critical_draws,
            hit_draws: odds.hit_draws,
            takes_hit_test: odds.takes_hit_test,
            reason: odds.reason,
            hits: odds.hits,
            charges_first: odds.charges_first,
            knock_out: knock_outs(battle, *id, &odds, Target { hp, max, change }),
        })
    });
    line_of(&CalculationObject {
        attacker: member(Side::One, None),
        defender: member(Side::Two, substitute),
        moves: listed.collect(),
    })
}
