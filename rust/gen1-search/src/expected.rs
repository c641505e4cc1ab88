//! What is expected of choices: the damage of moves, by the usual formula without its rounding, and how often a search comes to make each
//! choice. A search needs both for many positions, so they are quick and not exact; `Battle::odds` is exact.
use crate::leaf::{Lives, MatchUps, conditions, number};
use gen1::layout::{ACTIVE, MEMBER, SIDE, active, member};
use gen1::{
    Battle, Choice, Conditions, Effect, Element, MoveId, Offered, Side, Species, effectiveness,
    layout,
};

/// The number of features of a choice.
pub const COUNT: usize = 40;

/// The weights of the features of a choice, in the order of [`Scene::features`].
///
/// Before it was tried a choice is as probable as e to the sum of its weighted features. They are those of a multinomial logistic regression
/// on 16,528 searches with 1,000 nodes. `cargo run --release --example fit -- 200 2 choices` fits them to new ones.
pub const WEIGHTS: [f32; COUNT] = [
    -0.58, 3.03, -0.94, 0.72, 0.86, -1.03, -0.15, -2.55, 1.32, -1.05, 0.98, 3.04, 1.91, 0.55, 0.09,
    4.17, -1.64, 3.33, 0.59, 1.39, -0.87, -0.14, -0.64, -0.35, 0.86, 1.93, -0.88, -1.52, 1.28,
    -0.74, -1.50, -2.88, -0.53, 0.96, -0.78, 0.95, -0.51, 1.60, 1.98, -1.96,
];

/// Where the level is in a member (docs/LAYOUT.md).
const LEVEL: usize = 1;
/// Where the stats are in a member.
pub(crate) const STATS: usize = 6;

/// The mean of the factors that the damage draws.
const MEAN: f32 = 0.925;

/// From this share on a move is taken to take all of the foe's HP.
pub(crate) const NEARLY_ALL: f32 = 0.9;

/// One hit in five is taken to be critical.
const CRITICAL: f32 = 1.2;

/// What the usual formula adds, whatever the stats are.
pub(crate) const LEAST: f32 = 2.0;

/// A member with the stats, types and conditions that count for damage.
#[derive(Clone, Copy)]
struct Fighter<'a> {
    member: &'a [u8],
    /// Two bytes each: Attack, Defense, Speed, Special.
    stats: &'a [u8],
    types: [Element; 2],
    conditions: u32,
}

impl<'a> Fighter<'a> {
    /// The living active member of a side.
    fn out(bytes: &'a [u8]) -> Option<Self> {
        let (members, block) = bytes.split_at(ACTIVE);
        let at = usize::from(block[active::PLACE]).checked_sub(1)?;
        let member = &members[MEMBER * at..][..MEMBER];
        // The bytes of a battle are types.
        let kind = |at| Element::new(block[active::TYPES + at]).unwrap_or(Element::Normal);
        (number(member, member::HP) > 0).then_some(Fighter {
            member,
            stats: &block[active::STAGES + 6..],
            types: [kind(0), kind(1)],
            conditions: conditions(block),
        })
    }

    /// A member as it comes out.
    fn fresh(member: &'a [u8]) -> Option<Self> {
        let species = Species::new(member[member::SPECIES])?;
        Some(Fighter {
            member,
            stats: &member[STATS..],
            types: species.types(),
            conditions: 0,
        })
    }

    fn stat(self, at: usize) -> u16 {
        number(self.stats, 2 * at)
    }

    fn hp(self) -> f32 {
        f32::from(number(self.member, member::HP))
    }

    fn is_asleep(self) -> bool {
        (1..8).contains(&self.member[member::STATUS])
    }

    /// The move of a slot with PP.
    fn usable(self, slot: usize) -> Option<MoveId> {
        let has_pp = self.member[member::PP + slot] > 0;
        MoveId::new(self.member[member::MOVES + slot]).filter(|_| has_pp)
    }

    /// The expected damage of a move to a foe, a miss counting as 0; `None` if the move does no damage.
    fn damage(self, foe: Fighter<'_>, id: MoveId) -> Option<f32> {
        let base = match Damage::of(self.member, id)? {
            Damage::Fixed(damage) => return Some(damage),
            Damage::OfHp(share) => return Some(share * foe.hp()),
            Damage::Usual { base } => base,
        };
        if id.effect() == Effect::DreamEater && !foe.is_asleep() {
            return Some(0.0);
        }
        let base = base * self.quotient(foe, id.kind()) + LEAST;
        Some(base * self.factor(foe, id))
    }

    /// The user's attacking stat over the foe's defending one, halved by a screen.
    fn quotient(self, foe: Fighter<'_>, kind: Element) -> f32 {
        let (attack, defense, screen) = if kind.is_special() {
            (3, 3, Conditions::LIGHT_SCREEN)
        } else {
            (0, 1, Conditions::REFLECT)
        };
        let screened = foe.conditions & screen.bits() != 0;
        let screen = if screened { 0.5 } else { 1.0 };
        screen * f32::from(self.stat(attack)) / f32::from(foe.stat(defense).max(1))
    }

    /// What multiplies the damage of a move: its type's factor, for its user's types and the foe's, and the means of what is drawn.
    fn factor(self, foe: Fighter<'_>, id: MoveId) -> f32 {
        let [first, second] = foe.types;
        let (one, two) = effectiveness(id.kind(), first, second);
        let is_own = self.types.contains(&id.kind());
        let own = if is_own { 0.015 } else { 0.01 };
        f32::from(one) * f32::from(two) * own * MEAN * CRITICAL * hits(id)
    }
}

/// The expected damage of a move, a miss counting as 0, as far as it depends on its user alone.
#[derive(Clone, Copy)]
pub(crate) enum Damage {
    /// Always so much.
    Fixed(f32),
    /// A share of the foe's HP.
    OfHp(f32),
    /// By the usual formula: `base` times the quotient of the stats, and [`LEAST`] more, times a factor by the foe's types.
    Usual { base: f32 },
}

impl Damage {
    /// The damage of a member's move; `None` if the move isn't one of damage.
    pub fn of(member: &[u8], id: MoveId) -> Option<Self> {
        let level = f32::from(member[LEVEL]);
        match id.effect() {
            Effect::FixedDamage => Some(Damage::Fixed(level * hits(id))),
            Effect::SuperFang => Some(Damage::OfHp(hits(id) / 2.0)),
            Effect::OneHitKnockOut | Effect::Counter | Effect::Bide => Some(Damage::Fixed(0.0)),
            _ if id.power() < 2 => None,
            effect => {
                let power = f32::from(id.power()) * times(effect);
                let base = (0.4 * level + 2.0) * power / 50.0;
                Some(Damage::Usual { base })
            }
        }
    }
}

/// How probably a move hits.
fn hits(id: MoveId) -> f32 {
    match id.effect() {
        Effect::NeverMisses => 1.0,
        _ => f32::from(id.accuracy_byte()) / 256.0,
    }
}

/// The factor of a move of the usual formula, of a member against a foe as both come out.
pub(crate) fn fresh_factor(own: &[u8], foe: &[u8], id: MoveId) -> f32 {
    match (Fighter::fresh(own), Fighter::fresh(foe)) {
        (Some(own), Some(foe)) => own.factor(foe, id),
        _ => 0.0,
    }
}

/// How many turns' worth of hits a use is.
fn times(effect: Effect) -> f32 {
    match effect {
        Effect::MultiHit => 3.0,
        Effect::DoubleHit | Effect::Twineedle | Effect::Explode => 2.0,
        Effect::Charge | Effect::ChargeInvulnerable => 0.5,
        Effect::Recharge => 0.75,
        _ => 1.0,
    }
}

/// For each side and slot the share of the foe's HP that its move is expected to take, at most 1; `None` for a move without damage, without
/// PP, and if a member that is out has no HP.
fn shares(battle: &Battle) -> [[Option<f32>; 4]; 2] {
    let bytes = battle.as_bytes();
    let [one, two] = Side::BOTH.map(|it| Fighter::out(&bytes[layout::side(it)..][..SIDE]));
    let (Some(one), Some(two)) = (one, two) else {
        return [[None; 4]; 2];
    };
    [(one, two), (two, one)].map(|(own, foe)| {
        core::array::from_fn(|slot| {
            let damage = own.damage(foe, own.usable(slot)?)?;
            Some((damage / foe.hp()).min(1.0))
        })
    })
}

/// A position, as far as it says how probable choices are.
#[derive(Clone, Copy)]
pub struct Scene<'a> {
    bytes: &'a [u8; 384],
    match_ups: &'a MatchUps,
    seen: [Lives; 2],
    shares: [[Option<f32>; 4]; 2],
}

impl core::fmt::Debug for Scene<'_> {
    fn fmt(&self, f: &mut core::fmt::Formatter<'_>) -> core::fmt::Result {
        f.debug_struct("Scene").finish_non_exhaustive()
    }
}

impl<'a> Scene<'a> {
    /// The scene of a battle. The match-ups are those of the battle, or of one of its earlier positions.
    #[must_use]
    pub fn of(battle: &'a Battle, match_ups: &'a MatchUps) -> Self {
        let bytes = battle.as_bytes();
        Scene {
            bytes,
            match_ups,
            seen: Lives::both(battle),
            shares: shares(battle),
        }
    }

    /// The features of a choice that a side is offered. Most are 0.
    ///
    /// A move that deals damage has 0 one, 1 the share of the foe's HP that it is expected to take, one if that is 2 nearly all, 3 and its user
    /// is the faster one, 4 the greatest of the user's, 5 and the foe sleeps or is frozen; 6 one for Explosion, 7 its user's HP as a share, 8
    /// one for a trapping move, half if its user is not the faster one, 9 one for Hyper Beam, 10 one if it takes nearly all. Other moves have
    /// one if they put a healthy foe to 11 sleep or 12 paralysis, or 13 confuse; 14 one and 15 the missing HP if they heal the user; of Rest 16
    /// one, 17 the missing HP, 18 one if the user has a status; if they raise a stat 19 one, 20 the share that the foe's best move takes, 21
    /// the stages that are raised; one for 22 a screen and 23 Substitute. A switch has 24 one, 25 the match-up of the member that comes, 26 that
    /// of the one that leaves, and of the one that comes 27 the HP, 28 one if it sleeps or is frozen, 29 the share that the foe takes; one if
    /// 30 the foe or 31 the one that leaves sleeps or is frozen; of the one that leaves 32 the stages, 33 one if it is confused or seeded. After
    /// a fall the member that comes has 34 its HP, 35 its match-up, 36 one if it sleeps or is frozen, 37 one if it is faster, 38 the share of the
    /// foe's HP that it takes, and 39 what the foe takes.
    #[must_use]
    pub fn features(&self, side: Side, choice: Offered) -> [f32; COUNT] {
        let mut all = [0.0; COUNT];
        self.tell(index(side), choice.choice(), &mut |at, value| {
            all[at] += value;
        });
        all
    }

    /// Tells the features of a choice that are not 0.
    fn tell(&self, side: usize, choice: Choice, tell: &mut impl FnMut(usize, f32)) {
        let [own, foe] = [self.seen[side].out, self.seen[1 - side].out];
        match (choice, own, foe) {
            (Choice::Move(slot), Some(own), Some(foe)) => {
                if let Some(slot) = usize::from(slot.number()).checked_sub(1) {
                    match self.shares[side][slot] {
                        Some(share) => self.tell_damage(side, slot, share, tell),
                        None => self.tell_other(side, [own, foe], slot, tell),
                    }
                }
            }
            (Choice::Switch(place), Some(own), Some(foe)) => {
                let to = usize::from(place.number()) - 1;
                self.tell_switch(side, [own, foe], to, tell);
            }
            (Choice::Switch(place), None, Some(foe)) => {
                let to = usize::from(place.number()) - 1;
                self.tell_next(side, foe, to, tell);
            }
            _ => {}
        }
    }

    /// A move that deals damage, which is expected to take this share of the foe's HP.
    fn tell_damage(&self, side: usize, slot: usize, share: f32, tell: &mut impl FnMut(usize, f32)) {
        let [own, foe] = [&self.seen[side], &self.seen[1 - side]];
        let is_faster = own.speed > foe.speed;
        tell(0, 1.0);
        tell(1, share);
        tell(2, one_if(share >= NEARLY_ALL));
        tell(3, one_if(share >= NEARLY_ALL && is_faster));
        tell(4, one_if(share >= self.greatest(side)));
        tell(5, one_if(foe.is_kept()));
        match self.known(side, slot).map(MoveId::effect) {
            Some(Effect::Explode) => {
                tell(6, 1.0);
                tell(7, own.share());
            }
            Some(Effect::Trapping) => tell(8, if is_faster { 1.0 } else { 0.5 }),
            Some(Effect::Recharge) => {
                tell(9, 1.0);
                tell(10, one_if(share >= NEARLY_ALL));
            }
            _ => {}
        }
    }

    /// A move without damage. The members that are out are at these indices.
    fn tell_other(
        &self,
        side: usize,
        out: [usize; 2],
        slot: usize,
        tell: &mut impl FnMut(usize, f32),
    ) {
        let Some(id) = self.known(side, slot) else {
            return;
        };
        let missing = 1.0 - self.seen[side].share();
        let is_healthy = self.status(1 - side, out[1]) == 0;
        match id.effect() {
            Effect::InflictSleep => tell(11, one_if(is_healthy)),
            Effect::InflictParalysis => tell(12, one_if(is_healthy)),
            Effect::InflictConfusion => tell(13, 1.0),
            Effect::Heal if id == MoveId::REST => {
                tell(16, 1.0);
                tell(17, missing);
                tell(18, one_if(self.status(side, out[0]) != 0));
            }
            Effect::Heal => {
                tell(14, 1.0);
                tell(15, missing);
            }
            Effect::StatUp(..) => {
                tell(19, 1.0);
                tell(20, self.greatest(1 - side));
                tell(21, self.stages(side).map(|it| it.max(0.0)).sum());
            }
            Effect::Screen => tell(22, 1.0),
            Effect::Substitute => tell(23, 1.0),
            _ => {}
        }
    }

    /// A switch to a member. The members that are out are at these indices.
    fn tell_switch(
        &self,
        side: usize,
        [own, foe]: [usize; 2],
        to: usize,
        tell: &mut impl FnMut(usize, f32),
    ) {
        let next = &self.seen[side];
        tell(24, 1.0);
        tell(25, self.match_up(side, to, foe));
        tell(26, self.match_up(side, own, foe));
        tell(27, next.shares[to]);
        tell(28, one_if(next.is_idle(to)));
        tell(29, self.hit(1 - side, foe, to));
        tell(30, one_if(self.seen[1 - side].is_kept()));
        tell(31, one_if(self.seen[side].is_kept()));
        tell(32, self.stages(side).sum());
        let which = (Conditions::CONFUSED | Conditions::SEEDED).bits();
        tell(33, one_if(conditions(self.block(side)) & which != 0));
    }

    /// A member that comes after a fall.
    fn tell_next(&self, side: usize, foe: usize, to: usize, tell: &mut impl FnMut(usize, f32)) {
        let next = &self.seen[side];
        let speed = number(self.member(side, to), STATS + 4);
        tell(34, next.shares[to]);
        tell(35, self.match_up(side, to, foe));
        tell(36, one_if(next.is_idle(to)));
        tell(37, one_if(speed > self.seen[1 - side].speed));
        tell(38, self.hit(side, to, foe));
        tell(39, self.hit(1 - side, foe, to));
    }

    fn member(&self, side: usize, at: usize) -> &[u8] {
        &self.bytes[layout::side(Side::BOTH[side]) + MEMBER * at..][..MEMBER]
    }

    fn block(&self, side: usize) -> &[u8] {
        &self.bytes[layout::side(Side::BOTH[side])..][ACTIVE..SIDE]
    }

    fn status(&self, side: usize, at: usize) -> u8 {
        self.member(side, at)[member::STATUS]
    }

    /// The move in a slot of the member that is out.
    fn known(&self, side: usize, slot: usize) -> Option<MoveId> {
        let out = self.seen[side].out?;
        MoveId::new(self.member(side, out)[member::MOVES + slot])
    }

    /// The stages of Attack, Defense, Speed and Special.
    fn stages(&self, side: usize) -> impl Iterator<Item = f32> + '_ {
        let stages = self.block(side)[active::STAGES..][..4].iter();
        stages.map(|stage| f32::from(*stage) - 6.0)
    }

    /// The greatest share of the foe's HP that a move of the member that is out is expected to take.
    fn greatest(&self, side: usize) -> f32 {
        self.shares[side]
            .iter()
            .flatten()
            .copied()
            .fold(0.0, f32::max)
    }

    fn match_up(&self, side: usize, own: usize, foe: usize) -> f32 {
        let lives = [&self.seen[side], &self.seen[1 - side]];
        self.match_ups.with(side, foe, lives)[own]
    }

    /// The share of the HP of a foe that a member's best move is expected to take.
    fn hit(&self, side: usize, own: usize, foe: usize) -> f32 {
        let hit = self.match_ups.hit(side, own, (foe, &self.seen[1 - side]));
        hit * self.seen[side].acts[own]
    }
}

fn index(side: Side) -> usize {
    match side {
        Side::One => 0,
        Side::Two => 1,
    }
}

pub(crate) fn one_if(holds: bool) -> f32 {
    f32::from(u8::from(holds))
}

/// The number e to a power, at most 3 % off for powers from -4 to 4. There is none without std. Inlined, several are computed at once.
#[inline(always)]
pub(crate) fn exponential(power: f32) -> f32 {
    let mut factor = 1.0 + power.clamp(-20.0, 20.0) / 256.0;
    for _ in 0..8 {
        factor *= factor;
    }
    factor
}

/// The share of the maximum HP of a foe that the best move of a member that comes out is expected to take, at most 1. Explosion, after which
/// there is no match-up, is left out.
pub(crate) fn best_share(own: &[u8], foe: &[u8]) -> f32 {
    let (Some(own), Some(foe)) = (Fighter::fresh(own), Fighter::fresh(foe)) else {
        return 0.0;
    };
    let usable = (0..4).filter_map(|slot| own.usable(slot));
    let usable = usable.filter(|id| id.effect() != Effect::Explode);
    let best = usable
        .filter_map(|id| own.damage(foe, id))
        .fold(0.0, f32::max);
    (best / f32::from(number(foe.member, member::MAX_HP))).min(1.0)
}

#[cfg(test)]
mod tests {
    use super::{CRITICAL, Scene, best_share, exponential, shares, times};
    use crate::leaf::MatchUps;
    use alloc::{vec, vec::Vec};
    use gen1::{Battle, Choice, Effect, Kind, MoveId, Side, Species, Team, layout, member};

    /// The mean share of the foe's HP by the exact odds of a move that is not critical, for a move of one hit.
    fn exact(battle: &Battle, id: MoveId) -> Option<f64> {
        let usual = battle.odds(Side::One, id).ok()?;
        let list = usual.usual.ok()?.map(f64::from);
        let foe = &battle.as_bytes()[layout::side(Side::Two)..];
        let hp = f64::from(u16::from_le_bytes([foe[4], foe[5]]));
        Some(f64::from(usual.hit_draws) / 256.0 * list.iter().sum::<f64>() / 39.0 / hp)
    }

    /// The moves whose damage is one hit by the usual formula.
    fn moves() -> Vec<MoveId> {
        let is_usual = |id: &MoveId| {
            times(id.effect()) == 1.0
                && !matches!(id.effect(), Effect::DreamEater | Effect::LeftOut)
        };
        MoveId::all().filter(is_usual).collect()
    }

    /// As two members come out, the best share of one is that of its slots, but for Explosion.
    #[test]
    fn the_best_share_is_that_of_a_member_that_is_out() {
        let of = |at: u8| gen1::sample_members(at).unwrap().to_vec();
        for (own, foe) in (1..=12).flat_map(|own| (1..=12).map(move |foe| (of(own), of(foe)))) {
            let [one, two] = [&own, &foe].map(|specs| Team::new(specs).unwrap());
            let mut battle = Battle::new(&one, &two, [7; 10]);
            battle.update_silent(Choice::Pass, Choice::Pass).unwrap();
            let slots = own[0].moves.iter().zip(shares(&battle)[0]);
            let slots = slots.filter(|((id, _), _)| id.effect() != Effect::Explode);
            let due = slots.filter_map(|(_, share)| share).fold(0.0, f32::max);
            let member = |side| &battle.as_bytes()[layout::side(side)..][..layout::MEMBER];
            let best = best_share(member(Side::One), member(Side::Two));
            assert!((best - due).abs() < 1e-6, "{best} {due}");
        }
    }

    /// It differs from the exact odds of the engine by their rounding only.
    #[test]
    fn expected_damage_is_that_of_the_odds() {
        let (moves, mut compared) = (moves(), 0);
        for (own, foe) in ["Mew", "Tauros"]
            .into_iter()
            .flat_map(|own| Species::all().map(move |foe| (own, foe)))
        {
            for ids in moves.chunks(4) {
                let names: Vec<&str> = ids.iter().map(|id| id.name()).collect();
                let specs = [member(own, &names), member(foe.name(), &["Splash"])];
                let teams = specs.map(|it| it.and_then(|it| Ok(Team::new(&[it]))));
                let [Ok(Ok(one)), Ok(Ok(two))] = teams else {
                    continue;
                };
                let mut battle = Battle::new(&one, &two, [7; 10]);
                battle.update_silent(Choice::Pass, Choice::Pass).unwrap();
                for (slot, id) in ids.iter().enumerate() {
                    let Some(due) = exact(&battle, *id) else {
                        continue;
                    };
                    let due = (due * f64::from(CRITICAL)).min(1.0);
                    let found = shares(&battle)[0][slot].map_or(-1.0, f64::from);
                    assert!(
                        (found - due).abs() < 0.012 + 0.03 * due,
                        "{id:?} {foe:?} {due} {found}"
                    );
                    compared += 1;
                }
            }
        }
        assert!(compared > 10_000, "{compared}");
    }

    /// The features that are not 0 of side 1's choices, in their order, against a fresh Tauros.
    #[test]
    fn features_of_moves_and_a_switch() {
        let own = [
            member("Starmie", &["Thunder Wave", "Recover", "Splash"]).unwrap(),
            member("Chansey", &["Soft-Boiled"]).unwrap(),
        ];
        let foe = [member("Tauros", &["Splash"]).unwrap()];
        let [one, two] = [Team::new(&own).unwrap(), Team::new(&foe).unwrap()];
        let mut battle = Battle::new(&one, &two, [7; 10]);
        battle.update_silent(Choice::Pass, Choice::Pass).unwrap();
        let match_ups = MatchUps::of(&battle);
        let found = |battle: &Battle| -> Vec<Vec<(usize, f32)>> {
            let scene = Scene::of(battle, &match_ups);
            let of = |it| {
                let all = scene.features(Side::One, it).into_iter().enumerate();
                all.filter(|(_, value)| *value != 0.0).collect()
            };
            battle.offered_mask(Side::One).iter().map(of).collect()
        };
        // No member has a move of damage, so no match-up is better than another.
        let switch = [(24, 1.0), (27, 1.0)];
        let fresh = [vec![(12, 1.0)], vec![(14, 1.0)], vec![], switch.to_vec()];
        assert_eq!(found(&battle), fresh);
        // With a quarter of 323 HP missing Recover is worth more; a paralysed foe is not paralysed again.
        let place = gen1::Place::new(1).unwrap();
        let hurt = battle.with_hp(Side::One, place, 242).unwrap();
        let hurt = hurt.with_status(Side::Two, place, Some(Kind::Paralysis), 0);
        let found = found(&hurt.unwrap());
        assert!(found[0].is_empty());
        assert_eq!(found[1][0], (14, 1.0));
        assert!((found[1][1].1 - 81.0 / 323.0).abs() < 1e-6);
    }

    #[test]
    fn the_exponential_is_near() {
        for (power, due) in [
            (0.0, 1.0),
            (1.0, 2.718_282),
            (-1.0, 0.367_879),
            (4.0, 54.598),
            (-4.0, 0.018_316),
        ] {
            assert!((exponential(power) / due - 1.0f32).abs() < 0.032);
        }
    }
}
