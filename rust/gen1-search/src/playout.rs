//! The value of a leaf of the search, by a playout in which both sides choose as searches mostly do.
//!
//! A playout needs the odds of all choices at each update. They are those of [`expected`](crate::expected): a [`Policy`] computes once what
//! stays the same through a battle, and the rest for all choices of a side together.
use crate::Dice;
use crate::expected::{
    Damage, LEAST, NEARLY_ALL, STATS, WEIGHTS, exponential, fresh_factor, one_if,
};
use crate::leaf::{self, Lives, MatchUps, conditions, each, number};
use gen1::layout::{ACTIVE, MEMBER, SIDE, active, member};
use gen1::{Battle, Conditions, Effect, MoveId, Offered, OfferedMask, Side, layout};

/// How many updates a playout lasts at most.
const LENGTH: usize = 64;
/// How much of a leaf's value is that after a playout.
const SHARE: f64 = 0.5;
/// The power of the odds in a playout: with more than 1 it has fewer choices that searches seldom make.
const POWER: f32 = 1.5;

/// The number of bits of a set of offered choices.
pub(crate) const BITS: usize = 12;
/// The bits of the moves of slots 1 to 4, and of switches.
const SLOTS: usize = 2;
const SWITCHES: usize = 6;
/// The number of facts whose weighted sum is the score of a slot: 0 one, 1 to 5 these features of its move, 6 the user's HP as a share, 7 one
/// if it is the faster one, one if 8 the foe is healthy and 9 the user is not, 10 the share of its HP that the foe's best move takes, and 11
/// the stages that are raised.
const FACTS: usize = 12;

/// What stays the same through a battle, and counts for how probable choices are. Types are those with which a member comes out, also after
/// its Conversion.
///
/// ```
/// use gen1::{Battle, Choice, Team, member};
/// use gen1_search::{Dice, playout::Policy};
///
/// # fn main() -> Result<(), Box<dyn std::error::Error>> {
/// let [one, two] = [member("Persian", &["Slash"])?, member("Magikarp", &["Splash"])?];
/// let [one, two] = [Team::new(&[one])?, Team::new(&[two])?];
/// let mut battle = Battle::new(&one, &two, [7; 10]);
/// battle.update_silent(Choice::Pass, Choice::Pass)?;
/// // Splash does no damage.
/// assert_eq!(Policy::of(&battle).played(&battle, &mut Dice::new(1)), 1.0);
/// # Ok(())
/// # }
/// ```
#[derive(Clone, Debug)]
pub struct Policy {
    match_ups: MatchUps,
    members: [[Known; 6]; 2],
}

impl Policy {
    /// The policy for a battle and all later positions of it.
    #[must_use]
    pub fn of(battle: &Battle) -> Self {
        let bytes = battle.as_bytes();
        let of_side = |side: Side| {
            let members = |side| bytes[layout::side(side)..][..ACTIVE].chunks_exact(MEMBER);
            let mut all = [Known::default(); 6];
            for (known, own) in all.iter_mut().zip(members(side)) {
                for slot in 0..4 {
                    known.learn(slot, own, members(side.other()));
                }
                known.speed = number(own, STATS + 4);
            }
            all
        };
        Policy {
            match_ups: MatchUps::of(battle),
            members: Side::BOTH.map(of_side),
        }
    }

    /// How often side 1 is estimated to win: between [`leaf::value`] of the battle and [`Policy::played`].
    #[must_use]
    pub fn value(&self, battle: &Battle, dice: &mut Dice) -> f64 {
        let value = leaf::value(battle, &self.match_ups);
        if battle.is_over() {
            return value;
        }
        value + SHARE * (self.played(battle, dice) - value)
    }

    /// The value after a playout of a battle: 1 if side 1 won it, 0 if side 2 did, and [`leaf::value`] if it did not end.
    ///
    /// Both sides' choices are drawn, each as probable as searches make it probable. The numbers of the battle are those that it has.
    #[must_use]
    pub fn played(&self, battle: &Battle, dice: &mut Dice) -> f64 {
        let mut battle = battle.clone();
        let mut lives = Lives::both(&battle);
        for _ in 0..LENGTH {
            let offered = Side::BOTH.map(|side| battle.offered_mask(side));
            if offered[0].is_empty() {
                break;
            }
            let [Some(one), Some(two)] = self.drawn(&battle, &lives, offered, dice) else {
                break;
            };
            if battle.update_silent(one, two).is_err() {
                break;
            }
            let bytes = battle.as_bytes();
            for (side, lives) in Side::BOTH.into_iter().zip(&mut lives) {
                lives.update(&bytes[layout::side(side)..][..SIDE]);
            }
        }
        leaf::value(&battle, &self.match_ups)
    }

    /// A choice of each side.
    #[inline(always)]
    fn drawn(
        &self,
        battle: &Battle,
        lives: &[Lives; 2],
        offered: [OfferedMask; 2],
        dice: &mut Dice,
    ) -> [Option<Offered>; 2] {
        let is_only = offered.map(|it| it.bits() & (it.bits() - 1) == 0);
        let mut drawn = offered.map(|it| it.get(0));
        if is_only == [true; 2] {
            return drawn;
        }
        let (moment, bits) = (Moment::of(self, battle, lives), dice.bits());
        for side in (0..2).filter(|side| !is_only[*side]) {
            let scores = moment.scores(side);
            let weights = each(|at| exponential(POWER * scores[at]));
            drawn[side] = picked(&weights, offered[side], (bits >> (32 * side)) as u32);
        }
        drawn
    }

    /// How probable each offered choice of a side is before it was tried, as a weight, by its bit.
    pub(crate) fn weights(&self, battle: &Battle) -> [[f32; BITS]; 2] {
        let lives = Lives::both(battle);
        let moment = Moment::of(self, battle, &lives);
        [0, 1].map(|side| moment.scores(side).map(exponential))
    }
}

/// The places of the bits of offered choices, from the lowest.
pub(crate) fn bits(offered: OfferedMask) -> impl Iterator<Item = usize> {
    let mut left = offered.bits();
    core::iter::from_fn(move || {
        let at = left.trailing_zeros() as usize;
        left &= left.wrapping_sub(1);
        (at < BITS).then_some(at)
    })
}

/// One of some choices, each as probable as its weight, by a number that is drawn.
#[inline(always)]
fn picked(weights: &[f32; BITS], offered: OfferedMask, draw: u32) -> Option<Offered> {
    let (mut sums, mut sum, mut count) = ([0.0; BITS], 0.0, 0);
    for at in bits(offered) {
        sum += weights[at];
        sums[count] = sum;
        count += 1;
    }
    let due = (draw >> 8) as f32 / (1 << 24) as f32 * sum;
    let below = sums[..count].iter().take_while(|sum| **sum <= due);
    offered.get(below.count().min(count - 1))
}

/// What stays the same of a member: its score and its damage in each slot, and its Speed.
///
/// The damage of a slot is `physical` times a quotient of stats, `special` times another, and [`LEAST`] more, times its factor for the foe.
#[derive(Clone, Copy, Debug, Default)]
struct Known {
    /// By fact and slot.
    weights: [[f32; 4]; FACTS],
    physical: [f32; 4],
    special: [f32; 4],
    /// By foe and slot.
    factors: [[f32; 4]; 6],
    /// The share of the foe's HP that is added.
    of_hp: [f32; 4],
    is_for_sleepers: [bool; 4],
    speed: u16,
}

impl Known {
    /// Notes the move in a slot of a member, with all foes.
    fn learn<'a>(&mut self, slot: usize, own: &[u8], foes: impl Iterator<Item = &'a [u8]>) {
        let Some(id) = MoveId::new(own[member::MOVES + slot]) else {
            return;
        };
        let damage = Damage::of(own, id);
        let weights = match damage {
            Some(_) => weights_of_damage(id),
            None => weights_of_other(id),
        };
        for (all, weight) in self.weights.iter_mut().zip(weights) {
            all[slot] = weight;
        }
        self.is_for_sleepers[slot] = id.effect() == Effect::DreamEater;
        match damage {
            Some(Damage::Usual { base }) if id.kind().is_special() => self.special[slot] = base,
            Some(Damage::Usual { base }) => self.physical[slot] = base,
            Some(Damage::OfHp(share)) => self.of_hp[slot] = share,
            _ => {}
        }
        for (factors, foe) in self.factors.iter_mut().zip(foes) {
            factors[slot] = match damage {
                Some(Damage::Usual { .. }) => fresh_factor(own, foe, id),
                Some(Damage::Fixed(damage)) => damage / LEAST,
                _ => 0.0,
            };
        }
    }
}

/// What each fact adds to the score of a move of damage.
fn weights_of_damage(id: MoveId) -> [f32; FACTS] {
    let weights = &WEIGHTS;
    let mut all = [0.0; FACTS];
    all[..6].copy_from_slice(&weights[..6]);
    match id.effect() {
        Effect::Explode => (all[0], all[6]) = (all[0] + weights[6], weights[7]),
        Effect::Trapping => (all[0], all[7]) = (all[0] + weights[8] / 2.0, weights[8] / 2.0),
        Effect::Recharge => {
            all[0] += weights[9];
            all[2] += weights[10];
        }
        _ => {}
    }
    all
}

/// What each fact adds to the score of another move.
fn weights_of_other(id: MoveId) -> [f32; FACTS] {
    let weights = &WEIGHTS;
    let mut all = [0.0; FACTS];
    match id.effect() {
        Effect::InflictSleep => all[8] = weights[11],
        Effect::InflictParalysis => all[8] = weights[12],
        Effect::InflictConfusion => all[0] = weights[13],
        Effect::Heal if id == MoveId::REST => {
            (all[0], all[6]) = (weights[16] + weights[17], -weights[17]);
            all[9] = weights[18];
        }
        Effect::Heal => (all[0], all[6]) = (weights[14] + weights[15], -weights[15]),
        Effect::StatUp(..) => {
            all[0] = weights[19];
            all[10..].copy_from_slice(&weights[20..22]);
        }
        Effect::Screen => all[0] = weights[22],
        Effect::Substitute => all[0] = weights[23],
        _ => {}
    }
    all
}

/// A position, as far as it says how probable choices are.
struct Moment<'a> {
    policy: &'a Policy,
    sides: [&'a [u8]; 2],
    lives: &'a [Lives; 2],
    /// The share of the foe's HP that each slot is expected to take.
    shares: [[f32; 4]; 2],
    greatest: [f32; 2],
}

impl<'a> Moment<'a> {
    #[inline(always)]
    fn of(policy: &'a Policy, battle: &'a Battle, lives: &'a [Lives; 2]) -> Self {
        let bytes = battle.as_bytes();
        let mut moment = Moment {
            policy,
            sides: Side::BOTH.map(|it| &bytes[layout::side(it)..][..SIDE]),
            lives,
            shares: [[0.0; 4]; 2],
            greatest: [0.0; 2],
        };
        if let [Some(one), Some(two)] = lives.each_ref().map(|it| it.out) {
            moment.shares = [moment.shares_of(0, one, two), moment.shares_of(1, two, one)];
            let greatest = |it: [f32; 4]| it[0].max(it[1]).max(it[2]).max(it[3]);
            moment.greatest = moment.shares.map(greatest);
        }
        moment
    }

    #[inline(always)]
    fn block(&self, side: usize) -> &'a [u8] {
        &self.sides[side][ACTIVE..]
    }

    #[inline(always)]
    fn member(&self, side: usize, at: usize) -> &'a [u8] {
        &self.sides[side][MEMBER * at..][..MEMBER]
    }

    /// The share of the foe's HP that each slot of the member that is out is expected to take.
    #[inline(always)]
    fn shares_of(&self, side: usize, own: usize, foe: usize) -> [f32; 4] {
        let blocks = [self.block(side), self.block(1 - side)];
        let stat = |side: usize, at: usize| {
            f32::from(number(blocks[side], active::STAGES + 6 + 2 * at).max(1))
        };
        let screens = conditions(blocks[1]);
        let half = |which: Conditions| {
            if screens & which.bits() != 0 {
                0.5
            } else {
                1.0
            }
        };
        let physical = half(Conditions::REFLECT) * stat(0, 0) / stat(1, 1);
        let special = half(Conditions::LIGHT_SCREEN) * stat(0, 3) / stat(1, 3);
        let known = &self.policy.members[side][own];
        let [own, other] = [self.member(side, own), self.member(1 - side, foe)];
        let hp = f32::from(number(other, member::HP));
        let sleeps = (1..8).contains(&other[member::STATUS]);
        each(|slot| {
            let base = known.physical[slot] * physical + known.special[slot] * special + LEAST;
            let share = base * known.factors[foe][slot] / hp + known.of_hp[slot];
            let is_idle = own[member::PP + slot] == 0 || (known.is_for_sleepers[slot] && !sleeps);
            if is_idle { 0.0 } else { share.min(1.0) }
        })
    }

    /// The scores of a side's choices by their bits, of which only those of offered ones have a meaning.
    #[inline(always)]
    fn scores(&self, side: usize) -> [f32; BITS] {
        let mut all = [0.0; BITS];
        match [self.lives[side].out, self.lives[1 - side].out] {
            [Some(own), Some(foe)] => {
                all[SLOTS..SWITCHES].copy_from_slice(&self.moves(side, own, foe));
                all[SWITCHES..].copy_from_slice(&self.switches(side, own, foe));
            }
            [None, Some(foe)] => all[SWITCHES..].copy_from_slice(&self.after_a_fall(side, foe)),
            _ => {}
        }
        all
    }

    #[inline(always)]
    fn moves(&self, side: usize, own: usize, foe: usize) -> [f32; 4] {
        let [lives, other] = [&self.lives[side], &self.lives[1 - side]];
        let healthy = |side, at| one_if(self.member(side, at)[member::STATUS] == 0);
        let is_faster = one_if(lives.speed > other.speed);
        let facts = [
            one_if(other.is_idle(foe)),
            lives.shares[own],
            is_faster,
            healthy(1 - side, foe),
            1.0 - healthy(side, own),
            self.greatest[1 - side],
            self.stages(side).map(|it| it.max(0.0)).sum(),
        ];
        let weights = &self.policy.members[side][own].weights;
        each(|slot| {
            let share = self.shares[side][slot];
            let nearly = one_if(share >= NEARLY_ALL);
            let best = one_if(share >= self.greatest[side]);
            let mut score = weights[0][slot] + weights[1][slot] * share;
            score += weights[2][slot] * nearly + weights[3][slot] * (nearly * is_faster);
            score += weights[4][slot] * best;
            for (weights, fact) in weights[5..].iter().zip(facts) {
                score += weights[slot] * fact;
            }
            score
        })
    }

    #[inline(always)]
    fn switches(&self, side: usize, own: usize, foe: usize) -> [f32; 6] {
        let [lives, other] = [&self.lives[side], &self.lives[1 - side]];
        let match_ups = &self.policy.match_ups;
        let with = match_ups.with(side, foe, [lives, other]);
        let hits = match_ups.hits(1 - side, foe, lives);
        let which = (Conditions::CONFUSED | Conditions::SEEDED).bits();
        let alike = WEIGHTS[24]
            + WEIGHTS[26] * with[own]
            + WEIGHTS[30] * one_if(other.is_idle(foe))
            + WEIGHTS[31] * one_if(lives.is_idle(own))
            + WEIGHTS[32] * self.stages(side).sum::<f32>()
            + WEIGHTS[33] * one_if(conditions(self.block(side)) & which != 0);
        each(|to| {
            alike
                + WEIGHTS[25] * with[to]
                + WEIGHTS[27] * lives.shares[to]
                + WEIGHTS[28] * one_if(lives.is_idle(to))
                + WEIGHTS[29] * (hits[to] * other.acts[foe])
        })
    }

    #[inline(always)]
    fn after_a_fall(&self, side: usize, foe: usize) -> [f32; 6] {
        let [lives, other] = [&self.lives[side], &self.lives[1 - side]];
        let match_ups = &self.policy.match_ups;
        let with = match_ups.with(side, foe, [lives, other]);
        let hits = match_ups.hits(1 - side, foe, lives);
        each(|to| {
            let hit = match_ups.hit(side, to, (foe, other)) * lives.acts[to];
            let speed = self.policy.members[side][to].speed;
            WEIGHTS[34] * lives.shares[to]
                + WEIGHTS[35] * with[to]
                + WEIGHTS[36] * one_if(lives.is_idle(to))
                + WEIGHTS[37] * one_if(speed > other.speed)
                + WEIGHTS[38] * hit
                + WEIGHTS[39] * (hits[to] * other.acts[foe])
        })
    }

    /// The stages of Attack, Defense, Speed and Special.
    #[inline(always)]
    fn stages(&self, side: usize) -> impl Iterator<Item = f32> + use<'_, 'a> {
        let stages = self.block(side)[active::STAGES..][..4].iter();
        stages.map(|stage| f32::from(*stage) - 6.0)
    }
}

#[cfg(test)]
mod tests {
    use super::{Moment, Policy, SLOTS, bits, picked};
    use crate::Dice;
    use crate::expected::{Scene, WEIGHTS};
    use crate::leaf::{Lives, MatchUps};
    use gen1::layout::{self, ACTIVE, MEMBER, active, member};
    use gen1::{
        Battle, Choice, DrawnFrom, Element, OfferedMask, Side, Species, Team, random_team,
        sample_members,
    };

    /// A battle of sample teams, or of drawn ones, after its first update.
    fn begun(dice: &mut Dice, is_drawn: bool) -> Battle {
        let [one, two] = [(); 2].map(|()| {
            if is_drawn {
                return random_team(dice.bits(), 6, DrawnFrom::All).unwrap();
            }
            Team::new(&sample_members(1 + dice.below(12) as u8).unwrap()).unwrap()
        });
        let mut battle = Battle::new(&one, &two, dice.numbers());
        battle.update_silent(Choice::Pass, Choice::Pass).unwrap();
        battle
    }

    /// Whether both members that are out have the types of their species.
    fn has_own_types(battle: &Battle) -> bool {
        Side::BOTH.into_iter().all(|side| {
            let (members, block) = battle.as_bytes()[layout::side(side)..].split_at(ACTIVE);
            let at = MEMBER * (usize::from(block[active::PLACE]) - 1);
            let types = Species::new(members[at + member::SPECIES]).unwrap().types();
            types.map(Element::number) == block[active::TYPES..][..2]
        })
    }

    /// The scores of a position are the weighted features of its choices.
    fn compare(battle: &Battle, policy: &Policy, match_ups: &MatchUps) {
        let (scene, lives) = (Scene::of(battle, match_ups), Lives::both(battle));
        let moment = Moment::of(policy, battle, &lives);
        for (at, side) in Side::BOTH.into_iter().enumerate() {
            let (scores, offered) = (moment.scores(at), battle.offered_mask(side));
            for (bit, choice) in bits(offered).zip(offered.iter()) {
                let features = scene.features(side, choice);
                let due: f32 = features.iter().zip(WEIGHTS).map(|(it, by)| it * by).sum();
                let found = scores[bit];
                assert!((found - due).abs() < 1e-3, "{choice:?} {found} {due}");
            }
        }
    }

    #[test]
    fn scores_are_the_weighted_features() {
        let mut dice = Dice::new(3);
        for number in 0..60 {
            let mut battle = begun(&mut dice, number % 2 == 0);
            let (policy, match_ups) = (Policy::of(&battle), MatchUps::of(&battle));
            while !battle.is_over() {
                if has_own_types(&battle) {
                    compare(&battle, &policy, &match_ups);
                }
                let [one, two] = Side::BOTH.map(|side| {
                    let offered = battle.offered_mask(side);
                    offered.get(dice.below(offered.len())).unwrap()
                });
                battle.update_silent(one, two).unwrap();
            }
        }
    }

    /// Lives that look only at the active members are those that look at all.
    #[test]
    fn lives_follow_a_battle() {
        let mut dice = Dice::new(4);
        for number in 0..20 {
            let mut battle = begun(&mut dice, number % 2 == 0);
            let mut lives = Lives::both(&battle);
            while !battle.is_over() {
                let [one, two] = Side::BOTH.map(|side| {
                    let offered = battle.offered_mask(side);
                    offered.get(dice.below(offered.len())).unwrap()
                });
                battle.update_silent(one, two).unwrap();
                for (side, found) in Side::BOTH.into_iter().zip(&mut lives) {
                    found.update(&battle.as_bytes()[layout::side(side)..]);
                    let due = Lives::of(&battle.as_bytes()[layout::side(side)..]);
                    assert_eq!((found.shares, found.acts), (due.shares, due.acts));
                    assert_eq!((found.out, found.speed), (due.out, due.speed));
                }
            }
        }
    }

    /// Of weights 1 and 3 the lowest quarter of the draws picks the first.
    #[test]
    fn choices_are_picked_by_their_weights() {
        let offered = OfferedMask::from_bits(0b10_0100).unwrap();
        let mut weights = [9.0; super::BITS];
        (weights[SLOTS], weights[SLOTS + 3]) = (1.0, 3.0);
        for (draw, due) in [(0, 0), ((1 << 30) - 1, 0), (1 << 30, 1), (u32::MAX, 1)] {
            assert_eq!(picked(&weights, offered, draw), offered.get(due), "{draw}");
        }
    }
}
