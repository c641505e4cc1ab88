//! The odds of each move against actions that are played, in situations at random, with independent bytes.
//!
//! Every usable move, Struggle among them, is tried in 30 situations. In each, an action of the user is played many times, and what
//! happens is compared with the odds: how often it hits, makes each number of hits, and knocks out by one use or by two;
//! and in each action, the damage, and what it gives back or costs. A frequency has to be within six standard deviations.
//!
//! `SAMPLES=20000 cargo test --release -p gen1-tests --test sampled_odds` plays more than the usual number.
use gen1::generated::engine::packed::update_events;
use gen1::generated::hits::Known;
use gen1::generated::layout::{Conditions, Packed};
use gen1::generated::machine::{
    Choice, DisabledSlot, Event, EventList, Pick, Rules, Side, UsedMove, now,
};
use gen1::generated::odds::{
    Between, HpChange, Odds, Reason, ThreeChances, Wide, drained, knock_out, knock_out_in_three,
    odds_of, recoil,
};
use gen1::generated::rolls::{ByteTest, Look, Rolls};
use gen1::generated::stats::{MemberSpec, Status, Team};
use gen1::generated::tables::{Effect, Element, MoveId, STRUGGLE, Species, Stat};
use gen1::generated::turn::act;

const USER: Side = Side::One;
const FOE: Side = Side::Two;
const SITUATIONS: usize = 30;
const USUAL_SAMPLES: u32 = 400;

/// Independent bytes: splitmix64.
#[derive(Clone)]
struct Bytes(u64);

impl Bytes {
    fn next(&mut self) -> u64 {
        self.0 = self.0.wrapping_add(0x9E37_79B9_7F4A_7C15);
        let mut z = self.0;
        z = (z ^ (z >> 30)).wrapping_mul(0xBF58_476D_1CE4_E5B9);
        z = (z ^ (z >> 27)).wrapping_mul(0x94D0_49BB_1331_11EB);
        z ^ (z >> 31)
    }

    fn below(&mut self, bound: u64) -> u64 {
        (self.next() >> 11) % bound
    }

    fn one_in(&mut self, n: u64) -> bool {
        self.below(n) == 0
    }
}

impl Rolls for Bytes {
    fn draw(&mut self) -> u8 {
        (self.next() >> 56) as u8
    }

    // So many that no search for a byte ends before.
    fn until_as(&mut self, test: ByteTest, _look: Look) -> Option<u8> {
        (0..1_000_000)
            .map(|_| self.draw())
            .find(|&byte| test.passes(byte))
    }
}

/// What an action of the user did.
#[derive(Default)]
struct Outcome {
    hit: bool,
    over: bool,
    hits: Option<u8>,
    lost: u16,
    gained: i32,
    charged: bool,
}

struct Situation {
    battle: Packed,
    id: MoveId,
    pick: Pick,
}

fn team_of(random: &mut Bytes, id: MoveId, level: u8) -> Team {
    let second = MoveId::from_name("Strength").unwrap();
    let first = if id.number() == STRUGGLE || id.number() == second.number() {
        MoveId::from_name("Dig").unwrap()
    } else {
        id
    };
    let mut moves = arrayvec::ArrayVec::new();
    moves.push((first, 0));
    moves.push((second, 0));
    let spec = MemberSpec {
        species: Species::new(1 + random.below(151) as u8).unwrap(),
        level,
        dvs: [random.below(16) as u8; 4],
        exp: [random.below(65536) as u16; 5],
        moves,
    };
    Team::new(&[spec]).unwrap()
}

fn shift_stages(random: &mut Bytes, battle: &mut Packed, side: Side) {
    let stat_at = |battle: &Packed, stat, stage: u8| {
        now(battle.unmodified(side, stat), stage as i8 - 6, stat, 0)
    };
    let stage = random.below(13) as u8;
    match random.below(6) {
        0 => battle.put_attack(side, stage, stat_at(battle, Stat::Attack, stage)),
        1 => battle.put_defense(side, stage, stat_at(battle, Stat::Defense, stage)),
        2 => battle.put_speed(side, stage, stat_at(battle, Stat::Speed, stage)),
        3 => battle.put_special(side, stage, stat_at(battle, Stat::Special, stage)),
        4 => battle.put_accuracy(side, stage),
        _ => battle.put_evasion(side, stage),
    }
}

fn status(random: &mut Bytes) -> Status {
    match random.below(12) {
        0 => Status::Poisoned,
        1 => Status::Burned,
        2 => Status::Frozen,
        3 => Status::Paralysed,
        4..7 => Status::Asleep {
            turns: 3,
            marked: random.one_in(2),
        },
        _ => Status::Healthy,
    }
}

fn prepare_foe(random: &mut Bytes, battle: &mut Packed) {
    let status = status(random);
    battle.put_status(FOE, status);
    for (flag, n) in [
        (Conditions::INVULNERABLE, 12),
        (Conditions::MIST, 5),
        (Conditions::SEEDED, 4),
        (Conditions::LIGHT_SCREEN, 3),
        (Conditions::REFLECT, 3),
        (Conditions::RECHARGE, 4),
    ] {
        let on = random.one_in(n);
        battle.put_flag(FOE, flag, on);
    }
    if random.one_in(4) {
        battle.put_substitute(FOE, Some(random.below(120) as u8));
    }
    if random.one_in(4) {
        battle.put_confused(FOE, Some(3));
    }
    if random.one_in(4) {
        battle.put_disabled(FOE, Some(DisabledSlot { slot: 1, turns: 2 }));
    }
    if random.one_in(6) {
        battle.put_pp(FOE, 1, 0);
        battle.put_pp(FOE, 2, 0);
    }
    if random.one_in(3) {
        let types = [
            Element::Ghost,
            Element::Poison,
            Element::Grass,
            Element::Ground,
        ];
        let [first, second] = [(); 2].map(|()| types[random.below(4) as usize]);
        battle.put_types(FOE, first, second);
    }
    let picked = [
        UsedMove::Nothing,
        UsedMove::Slot(1),
        UsedMove::Slot(2),
        UsedMove::Struggle,
    ];
    battle.put_picked_move(FOE, picked[random.below(4) as usize]);
}

/// Sets what continues for the user, and returns what it picks.
fn prepare_move(random: &mut Bytes, battle: &mut Packed, id: MoveId, slot: UsedMove) -> Pick {
    let effect = id.effect();
    if effect.charges() && !random.one_in(4) {
        battle.put_flag(USER, Conditions::CHARGING, true);
    } else if effect.thrashes() && random.one_in(2) {
        battle.put_thrash(USER, 2);
    } else if effect.traps() && random.one_in(2) {
        battle.put_trapping(USER, 2);
    } else if effect.bides() && random.one_in(2) {
        let (turns, energy) = (1 + u8::from(random.one_in(3)), random.below(2) as u16 * 40);
        battle.put_bide(USER, turns, energy);
    } else if effect.rages() && random.one_in(2) {
        battle.put_flag(USER, Conditions::RAGE, true);
    } else {
        return Pick::Use(slot);
    }
    battle.put_current_move(USER, slot);
    battle.put_kept_accuracy(USER, random.below(256) as u8);
    Pick::Continue
}

fn prepare_user(random: &mut Bytes, battle: &mut Packed) {
    for (flag, n) in [
        (Conditions::MIST, 3),
        (Conditions::FOCUS_ENERGY, 3),
        (Conditions::LIGHT_SCREEN, 3),
        (Conditions::REFLECT, 3),
    ] {
        let on = random.one_in(n);
        battle.put_flag(USER, flag, on);
    }
    if random.one_in(4) {
        battle.put_substitute(USER, Some(20));
    }
}

fn hp_of(random: &mut Bytes, battle: &Packed, side: Side) -> u16 {
    let most = battle.max_hp(side);
    match random.below(6) {
        0 => 1 + random.below(u64::from(most / 4)) as u16,
        1 => most,
        2 if most > 255 => most - 255,
        _ => 1 + random.below(u64::from(most)) as u16,
    }
}

fn situation(random: &mut Bytes, id: MoveId) -> Situation {
    // Psywave at level 1 ends a battle with a fault.
    let low = if id.number() == 149 { 1 } else { 12 };
    let level = |random: &mut Bytes| match random.below(5) {
        0 => 1 + random.below(low) as u8,
        _ => 60 + random.below(41) as u8,
    };
    let (one, two) = (level(random), level(random));
    let strength = MoveId::from_name("Strength").unwrap();
    let (user, foe) = (team_of(random, id, one), team_of(random, strength, two));
    let rules = Rules::new(random.below(2) as u8).unwrap();
    let mut battle = Packed::with_rules(&user, &foe, [0; 10], rules);
    update_events(
        &mut battle,
        Choice::Pass,
        Choice::Pass,
        &mut EventList::new(),
    )
    .unwrap();
    for _ in 0..random.below(5) {
        shift_stages(random, &mut battle, USER);
        shift_stages(random, &mut battle, FOE);
    }
    prepare_foe(random, &mut battle);
    prepare_user(random, &mut battle);
    let slot = match id.number() {
        STRUGGLE => UsedMove::Struggle,
        number => UsedMove::Slot(1 + u8::from(number == strength.number())),
    };
    let pick = prepare_move(random, &mut battle, id, slot);
    for side in [USER, FOE] {
        let hp = hp_of(random, &battle, side);
        battle.put_hp(side, hp);
    }
    battle.put_last_damage([0, 30, 90, 400][random.below(4) as usize]);
    if random.one_in(40) {
        battle.put_hp(FOE, 0);
    }
    Situation { battle, id, pick }
}

fn play(battle: &mut Packed, pick: Pick, random: &mut Bytes) -> Outcome {
    let (hp, own) = (battle.hp(FOE), battle.hp(USER));
    let covered = battle.substitute(FOE).is_some();
    let (mut known, mut events) = (Known::new(), EventList::new());
    let faults = act(battle, USER, pick, &mut known, random, &mut events);
    let failed =
        |event: &Event| matches!(event, Event::Fail(_) | Event::Miss(_) | Event::Immune(_));
    Outcome {
        hit: !known.missed && !faults && !events.iter().any(failed),
        over: if covered {
            battle.substitute(FOE).is_none()
        } else {
            battle.hp(FOE) == 0
        },
        hits: known.hits_planned.map(|_| known.hits_made),
        lost: hp - battle.hp(FOE),
        gained: i32::from(battle.hp(USER)) - i32::from(own),
        charged: events
            .iter()
            .any(|event| matches!(event, Event::Prepare(..))),
    }
}

/// Whether a count fits this part of a number of samples, within six standard deviations.
fn fits(count: u32, samples: u32, part: f64) -> bool {
    let mean = f64::from(samples) * part;
    let deviation = (mean * (1.0 - part)).max(0.0).sqrt();
    let apart = (f64::from(count) - mean).abs();
    if part == 0.0 || part == 1.0 {
        apart < 0.5
    } else {
        apart <= 6.0 * deviation + 1.0
    }
}

/// The part of uses that hit: by the hit test, and with damage.
fn part_that_hits(odds: &Odds) -> f64 {
    let test = f64::from(odds.hit_draws) / 256.0;
    if odds.usual.code == 48 {
        return test;
    }
    let critical = f64::from(odds.critical_draws) / 256.0;
    let hurts = |first: u16, part: f64| if first > 0 { part } else { 0.0 };
    test * (hurts(odds.usual.numbers[0], 1.0 - critical)
        + hurts(odds.critical.numbers[0], critical))
}

/// Whether a hit may have taken this many HP.
fn may_lose(odds: &Odds, hp: u16, lost: u16) -> bool {
    if odds.usual.code == 48 {
        return odds.least.min(hp) <= lost && lost <= odds.most.min(hp);
    }
    [odds.usual, odds.critical]
        .iter()
        .any(|it| it.numbers.iter().any(|n| (*n).min(hp) == lost))
}

/// What a hit gives and costs the user, for the HP that the foe lost.
fn may_gain(battle: &Packed, id: MoveId, lost: u16, gained: i32) -> bool {
    let (own, most) = (i32::from(battle.hp(USER)), i32::from(battle.max_hp(USER)));
    let given = i32::from(drained(id, lost)).min(most - own);
    let cost = i32::from(recoil(id, lost)).min(own);
    gained == given - cost
}

/// Whether nothing but damage comes of the move, so that all uses have the same odds.
fn is_steady(id: MoveId) -> bool {
    matches!(
        id.effect(),
        Effect::DamageOnly
            | Effect::PayDay
            | Effect::MultiHit
            | Effect::DoubleHit
            | Effect::FixedDamage
            | Effect::SuperFang
            | Effect::OneHitKnockOut
            | Effect::NeverMisses
    )
}

/// What happens to the foe's HP between uses.
fn some_between(random: &mut Bytes) -> Between {
    let mut change = || HpChange {
        gained: [0, 0, 60, 400][random.below(4) as usize],
        lost: [0, 22, 44, 90][random.below(4) as usize],
    };
    Between {
        after_first: change(),
        after_second: change(),
    }
}

/// Changes the foe's HP, and returns whether it has none left.
fn change_hp(battle: &mut Packed, change: HpChange) -> bool {
    if battle.substitute(FOE).is_some() {
        return false;
    }
    let gained = (battle.hp(FOE) + change.gained).min(battle.max_hp(FOE));
    battle.put_hp(FOE, gained.saturating_sub(change.lost));
    battle.hp(FOE) == 0
}

#[derive(Default)]
struct Counts {
    hits: u32,
    once: u32,
    twice: u32,
    thrice: u32,
    numbers: [u32; 6],
}

fn sampled(
    it: &Situation,
    odds: &Odds,
    between: &Between,
    random: &mut Bytes,
    samples: u32,
) -> Counts {
    let mut counts = Counts::default();
    let covered = it.battle.substitute(FOE).is_some();
    let single = odds.hits == [0, 8, 0, 0, 0, 0];
    for _ in 0..samples {
        let mut battle = it.battle.clone();
        let outcome = play(&mut battle, it.pick, random);
        counts.hits += u32::from(outcome.hit);
        counts.once += u32::from(outcome.over);
        if outcome.hit && !covered && single {
            assert!(
                may_lose(odds, it.battle.hp(FOE), outcome.lost),
                "{} took {}",
                it.id,
                outcome.lost
            );
            if matches!(
                it.id.effect(),
                Effect::Drain | Effect::DreamEater | Effect::Recoil
            ) {
                assert!(
                    may_gain(&it.battle, it.id, outcome.lost, outcome.gained),
                    "{}",
                    it.id
                );
            }
        }
        if let (true, Some(made)) = (outcome.hit, outcome.hits) {
            counts.numbers[usize::from(made)] += 1;
        }
        let mut over = outcome.over;
        for (count, change) in [
            (&mut counts.twice, between.after_first),
            (&mut counts.thrice, between.after_second),
        ] {
            if !over && is_steady(it.id) {
                over = change_hp(&mut battle, change) || play(&mut battle, it.pick, random).over;
            }
            *count += u32::from(over);
        }
    }
    counts
}

fn compare(
    it: &Situation,
    odds: &Odds,
    chances: &ThreeChances,
    counts: &Counts,
    samples: u32,
    at: &str,
) {
    let part = part_that_hits(odds);
    assert!(
        fits(counts.hits, samples, part),
        "{at}: {} of {samples} hit, and not {part}",
        counts.hits
    );
    let once = chances.once as f64 / chances.once_of as f64;
    assert!(
        fits(counts.once, samples, once),
        "{at}: {} of {samples} knock out, and not {once}",
        counts.once
    );
    if is_steady(it.id) {
        let twice = chances.twice as f64 / chances.twice_of as f64;
        assert!(
            fits(counts.twice, samples, twice),
            "{at}: {} of {samples} by two, and not {twice}",
            counts.twice
        );
        let whole = |it: Wide| u128::from(it.high) << 64 | u128::from(it.low);
        let thrice = whole(chances.thrice) as f64 / whole(chances.thrice_of) as f64;
        assert!(
            fits(counts.thrice, samples, thrice),
            "{at}: {} of {samples} by three, and not {thrice}",
            counts.thrice
        );
    }
    // A fall or a break would cut the number of hits.
    if odds.hits[1] == 0 && chances.once == 0 {
        for (made, eighths) in counts.numbers.iter().zip(odds.hits) {
            let part = part * f64::from(eighths) / 8.0;
            assert!(
                fits(*made, samples, part),
                "{at}: {made} of {samples} make so many hits, and not {part}"
            );
        }
    }
}

/// Tries a move in its situations, and returns the reasons that came up.
fn try_move(id: MoveId, samples: u32, seen: &mut [u32; 24]) {
    // The situations do not depend on the number of samples.
    let mut situations = Bytes(u64::from(id.number()) << 32);
    let mut random = Bytes(u64::from(id.number()) << 48);
    let mut changes = Bytes(u64::from(id.number()) << 40);
    for number in 0..SITUATIONS {
        let it = situation(&mut situations, id);
        let odds = odds_of(&it.battle, USER, id);
        let between = some_between(&mut changes);
        let chances = knock_out_in_three(&it.battle, USER, id, &between);
        let none = HpChange { gained: 0, lost: 0 };
        let at_once = knock_out_in_three(
            &it.battle,
            USER,
            id,
            &Between {
                after_first: none,
                after_second: none,
            },
        );
        let two = knock_out(&it.battle, USER, id);
        assert_eq!(
            [two.once, two.twice, two.twice_of],
            [at_once.once, at_once.twice, at_once.twice_of],
            "{id}"
        );
        let at = format!("{id}, situation {number}, reason {}", odds.reason);
        seen[usize::from(odds.reason)] += 1;
        if odds.reason == Reason::Fallen.number() {
            assert_eq!(odds.hit_draws, 0, "{at}");
            continue;
        }
        if odds.charges_first == 1 {
            assert!(
                play(&mut it.battle.clone(), it.pick, &mut random).charged,
                "{at}"
            );
            continue;
        }
        let counts = sampled(&it, &odds, &between, &mut random, samples);
        compare(&it, &odds, &chances, &counts, samples, &at);
    }
}

#[test]
fn odds_are_what_is_played() {
    let samples = std::env::var("SAMPLES").map_or(USUAL_SAMPLES, |n| n.parse().unwrap());
    let mut seen = [0; 24];
    let mut moves = 0;
    for id in (1..=165).filter_map(MoveId::new) {
        if !matches!(id.effect(), Effect::LeftOut) {
            try_move(id, samples, &mut seen);
            moves += 1;
        }
    }
    assert_eq!(moves, 161);
    // Each reason came up, but for that of a move that is left out.
    let missing: Vec<usize> = (0..24).filter(|why| seen[*why] == 0).collect();
    assert_eq!(missing, [usize::from(Reason::LeftOut.number())]);
}
