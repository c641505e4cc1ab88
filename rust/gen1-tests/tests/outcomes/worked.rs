//! Outcomes of updates that were worked out without the engine.
use crate::{ALL, Fraction, List, ONE, TWO, expect_sums_of_ways, reduced};
use gen1::generated::engine::Refusal;
use gen1::generated::events::Silent;
use gen1::generated::layout::{Conditions, Packed};
use gen1::generated::machine::{Choice, Side, UsedMove};
use gen1::generated::odds::odds_of;
use gen1::generated::outcomes::{
    OutcomeOptions, Outcomes, OutcomesFault, Successor, list_outcomes,
};
use gen1::generated::stats::{MemberSpec, Status, Team};
use gen1::generated::switching::start;
use gen1::generated::tables::{MoveId, Species};
use std::collections::BTreeMap;
use std::fmt::Debug;

/// The probability of each value of `of` after an update, in lowest terms.
fn chances<T: Ord>(
    battle: &Packed,
    one: Choice,
    two: Choice,
    of: impl Fn(&Packed) -> T,
) -> BTreeMap<T, Fraction> {
    let list = List::of(battle, one, two);
    let mut found: BTreeMap<T, u128> = BTreeMap::new();
    for successor in &list.successors {
        *found.entry(of(&successor.battle)).or_default() += successor.weight();
    }
    assert_eq!(found.values().sum::<u128>(), list.outcomes.whole);
    found
        .into_iter()
        .map(|(value, num)| (value, reduced(num, list.outcomes.whole)))
        .collect()
}

/// Side 1 and side 2 use their first move: what of the battle afterwards has which probability.
fn expect<T: Ord + Debug>(
    battle: &Packed,
    of: impl Fn(&Packed) -> T,
    wanted: impl IntoIterator<Item = (T, Fraction)>,
) {
    expect_of(battle, (slot(1), slot(1)), of, wanted);
}

fn expect_of<T: Ord + Debug>(
    battle: &Packed,
    (one, two): (Choice, Choice),
    of: impl Fn(&Packed) -> T,
    wanted: impl IntoIterator<Item = (T, Fraction)>,
) {
    let wanted: BTreeMap<T, Fraction> = wanted
        .into_iter()
        .map(|(value, (num, whole))| (value, reduced(num, whole)))
        .collect();
    assert_eq!(chances(battle, one, two, of), wanted);
}

fn slot(number: u8) -> Choice {
    Choice::from_byte(0x10 + number).unwrap()
}

/// A member at level 100 with the best stats.
fn member(species: &str, moves: &[&str]) -> MemberSpec {
    let mut spec = MemberSpec {
        species: Species::from_name(species).unwrap(),
        level: 100,
        dvs: [15; 4],
        exp: [65535; 5],
        ..Default::default()
    };
    for name in moves {
        spec.moves.push((
            MoveId::from_name(name).unwrap_or_else(|| panic!("{name}")),
            3,
        ));
    }
    spec
}

/// A battle after its first update, of one member each.
fn begun(one: MemberSpec, two: MemberSpec) -> Packed {
    let mut battle = Packed::new(
        &Team::new(&[one]).unwrap(),
        &Team::new(&[two]).unwrap(),
        [0; 10],
    );
    start(&mut battle, &mut Silent);
    battle
}

fn uses(species: &str, name: &str, foe: &str) -> Packed {
    begun(member(species, &[name]), member(foe, &["Splash"]))
}

#[test]
fn full_paralysis() {
    let mut battle = uses("Tauros", "Splash", "Snorlax");
    battle.put_status(ONE, Status::Paralysed);
    expect(
        &battle,
        |next| next.pp(ONE, 1) < battle.pp(ONE, 1),
        [(false, (63, 256)), (true, (193, 256))],
    );
}

#[test]
fn the_best_accuracy_misses_once_in_256() {
    let battle = uses("Tauros", "Thunder Wave", "Snorlax");
    expect(
        &battle,
        |next| next.status(TWO) == Status::Paralysed,
        [(false, (1, 256)), (true, (255, 256))],
    );
}

#[test]
fn one_hit_moves_hit_by_their_accuracy() {
    // 30 % is 76.
    expect(
        &uses("Tauros", "Horn Drill", "Snorlax"),
        |next| next.hp(TWO) == 0,
        [(false, (180, 256)), (true, (76, 256))],
    );
}

#[test]
fn critical_hits() {
    // Of a Persian: Strength 57, Slash 255.
    for (name, bound) in [("Strength", 57), ("Slash", 255)] {
        let battle = uses("Persian", name, "Chansey");
        let odds = odds_of(&battle, ONE, MoveId::from_name(name).unwrap());
        let most = odds.usual.numbers[38];
        assert!(most < odds.critical.numbers[0]);
        let hit = |next: &Packed| match battle.hp(TWO) - next.hp(TWO) {
            0 => "miss",
            damage if damage <= most => "usual",
            _ => "critical",
        };
        expect(
            &battle,
            hit,
            [
                ("miss", (1, 256)),
                ("usual", (255 * (256 - bound), 65536)),
                ("critical", (255 * bound, 65536)),
            ],
        );
    }
}

#[test]
fn damage_by_its_39_factors() {
    // Body Slam of Tauros on Tauros: 112 at most, 217 if critical, for which the bound is 55.
    let battle = uses("Tauros", "Body Slam", "Tauros");
    let mut wanted: BTreeMap<u16, u128> = BTreeMap::new();
    *wanted.entry(0).or_default() += 256 * 39;
    for factor in 217..=255 {
        *wanted.entry((112 * factor / 255) as u16).or_default() += 255 * (256 - 55);
        *wanted.entry((217 * factor / 255) as u16).or_default() += 255 * 55;
    }
    expect(
        &battle,
        |next| 353 - next.hp(TWO),
        wanted
            .into_iter()
            .map(|(damage, num)| (damage, (num, 65536 * 39))),
    );
}

#[test]
fn sleep_of_one_to_seven_turns() {
    let turns = |next: &Packed| match next.status(TWO) {
        Status::Asleep { turns, .. } => turns,
        _ => 0,
    };
    // The slower foe then counts one turn. So 0 is a miss, or a count of 1.
    let wanted = (1..=6).map(|turns| (turns, (255, 1792)));
    expect(
        &uses("Tauros", "Spore", "Snorlax"),
        turns,
        wanted.chain([(0, (7 + 255, 1792))]),
    );
}

#[test]
fn disable() {
    // 55 % is 140. Of three moves one has no PP. Counts are 1 to 8, and the slower foe counts one: 1 ends.
    let mut battle = begun(
        member("Tauros", &["Disable"]),
        member("Snorlax", &["Splash", "Growl", "Tackle"]),
    );
    battle.put_pp(TWO, 3, 0);
    let disabled = |next: &Packed| next.disabled(TWO).map(|it| (it.slot, it.turns));
    let lasting =
        (1..=2).flat_map(|slot| (1..=7).map(move |turns| (Some((slot, turns)), (140, 256 * 16))));
    expect(
        &battle,
        disabled,
        lasting.chain([(None, ((256 - 140) * 8 + 140, 2048))]),
    );
    // No move has PP.
    for slot in 1..=3 {
        battle.put_pp(TWO, slot, 0);
    }
    expect_of(
        &battle,
        (slot(1), slot(0)),
        |next| next.disabled(TWO).is_some(),
        [(false, (1, 1))],
    );
}

#[test]
fn two_to_five_hits() {
    // 85 % is 216; at stage +6 it is 255 at most.
    let mut battle = uses("Tauros", "Fury Attack", "Chansey");
    battle.put_accuracy(ONE, 12);
    let hits = |next: &Packed| match (703 - next.hp(TWO), next.last_damage()) {
        (_, 0) => 0,
        (all, each) => all / each,
    };
    let wanted = [
        (0, (1, 256)),
        (2, (255 * 3, 2048)),
        (3, (255 * 3, 2048)),
        (4, (255, 2048)),
        (5, (255, 2048)),
    ];
    expect(&battle, hits, wanted);
}

#[test]
fn equal_speed() {
    // The first that hits wins, and both miss once in 65,536.
    let mut battle = begun(
        member("Tauros", &["Seismic Toss"]),
        member("Tauros", &["Seismic Toss"]),
    );
    battle.put_hp(ONE, 50);
    battle.put_hp(TWO, 50);
    let standing = |next: &Packed| (next.hp(ONE) > 0, next.hp(TWO) > 0);
    let wins = (255 * 257, 131072);
    expect(
        &battle,
        standing,
        [
            ((true, true), (1, 65536)),
            ((true, false), wins),
            ((false, true), wins),
        ],
    );
}

/// What may keep a Snorlax from using Splash, the slot that it chooses, and in how many of 512 cases it uses Splash.
type Hindrance = (fn(&mut Packed, Side), u8, u128);

fn paralyse(battle: &mut Packed, side: Side) {
    battle.put_status(side, Status::Paralysed);
}

fn confuse(battle: &mut Packed, side: Side) {
    battle.put_confused(side, Some(3));
}

fn put_to_sleep(battle: &mut Packed, side: Side) {
    let asleep = Status::Asleep {
        turns: 3,
        marked: false,
    };
    battle.put_status(side, asleep);
}

#[test]
fn equal_speed_of_two_that_may_not_act() {
    let hindrances: [Hindrance; 4] = [
        (paralyse, 1, 386),
        (confuse, 1, 256),
        (put_to_sleep, 0, 0),
        (|battle, side| battle.put_status(side, Status::Frozen), 0, 0),
    ];
    for (hinder, slot_one, mine) in hindrances {
        for (hinder_other, slot_two, others) in hindrances {
            let mut battle = uses("Snorlax", "Splash", "Snorlax");
            hinder(&mut battle, ONE);
            hinder_other(&mut battle, TWO);
            // Both paralysed: one acts and the other does not by 386 * 126 of 262,144 each, which is 18.55 %.
            let wanted = [(true, mine), (false, 512 - mine)]
                .into_iter()
                .flat_map(|(one, cases)| {
                    [(true, others), (false, 512 - others)]
                        .map(|(two, more)| ([one, two], (cases * more, 512 * 512)))
                })
                .filter(|(_, (num, _))| *num > 0);
            let choices = (slot(slot_one), slot(slot_two));
            expect_of(
                &battle,
                choices,
                |next| [ONE, TWO].map(|side| next.pp(side, 1) < battle.pp(side, 1)),
                wanted,
            );
            expect_sums_of_ways(ALL, &battle, choices.0, choices.1);
        }
    }
}

#[test]
fn a_flinch_from_the_turn_before_has_ended() {
    // Snorlax flinches after its Quick Attack. Then Bite, which hits with 255 of 256, makes it flinch with 26 of 256.
    let jolteon = member("Jolteon", &["Bite"]);
    let snorlax = member("Snorlax", &["Quick Attack", "Splash"]);
    let flinching = (255 * 26, 65536);
    for (biter, bitten) in [(ONE, TWO), (TWO, ONE)] {
        let (start, choices) = if biter == ONE {
            (begun(jolteon.clone(), snorlax.clone()), (slot(1), slot(2)))
        } else {
            (begun(snorlax.clone(), jolteon.clone()), (slot(2), slot(1)))
        };
        let flinched = List::of(&start, slot(1), slot(1))
            .successors
            .into_iter()
            .find(|next| next.battle.is_on(bitten, Conditions::FLINCH))
            .unwrap()
            .battle;
        expect_of(
            &flinched,
            choices,
            |next| next.pp(bitten, 2) == flinched.pp(bitten, 2),
            [(true, flinching), (false, (65536 - flinching.0, 65536))],
        );
        expect_sums_of_ways(ALL, &flinched, choices.0, choices.1);
    }
}

#[test]
fn psywave() {
    // 80 % is 204. At level 100 the damage is 1 to 149.
    let wanted = (1..=149)
        .map(|damage| (damage, (204, 256 * 149)))
        .chain([(0, (52, 256))]);
    expect(
        &uses("Tauros", "Psywave", "Chansey"),
        |next| 703 - next.hp(TWO),
        wanted,
    );
}

#[test]
fn classes_of_damage_after_a_search() {
    // A search that rejects the byte of a draw that is not known comes before a roll of damage.
    for name in ["Psywave", "Disable"] {
        let battle = begun(
            member("Alakazam", &[name]),
            member("Snorlax", &["Body Slam"]),
        );
        for damage_classes in [1, 3] {
            let options = OutcomeOptions {
                damage_classes,
                ..ALL
            };
            expect_sums_of_ways(options, &battle, slot(1), slot(1));
        }
    }
}

/// The probability that the update of both first moves breaks the Substitute of side 2.
fn breaks(options: OutcomeOptions, battle: &Packed) -> Fraction {
    let list = List::with(options, battle, slot(1), slot(1));
    let broken = list
        .successors
        .iter()
        .filter(|next| next.battle.substitute(TWO).is_none());
    reduced(broken.map(Successor::weight).sum(), list.outcomes.whole)
}

#[test]
fn a_substitute_breaks_as_often_with_classes_of_damage() {
    // Headbutt of Tauros on Tauros is 93 at most. It breaks a Substitute of 88 HP by 89 or more: by the factors from 245 on, or
    // if it is critical, for which the bound is 55.
    let mut battle = uses("Tauros", "Headbutt", "Tauros");
    battle.put_substitute(TWO, Some(88));
    let wanted = reduced(255 * (201 * 11 + 55 * 39), 65536 * 39);
    for damage_classes in 0..=39 {
        let options = OutcomeOptions {
            damage_classes,
            ..ALL
        };
        assert_eq!(breaks(options, &battle), wanted, "{damage_classes}");
        expect_sums_of_ways(options, &battle, slot(1), slot(1));
    }
}

#[test]
fn confusion() {
    // Counts are 2 to 5. The slower foe counts one, and hits itself one time in two.
    let battle = uses("Tauros", "Confuse Ray", "Snorlax");
    let confused = |next: &Packed| (next.confused(TWO), next.hp(TWO) < battle.hp(TWO));
    let wanted =
        (1..=4).flat_map(|left| [false, true].map(|hurt| ((Some(left), hurt), (255, 256 * 8))));
    expect(&battle, confused, wanted.chain([((None, false), (1, 256))]));
}

#[test]
fn bide_and_thrash() {
    let wanted = [(Some(2), (1, 2)), (Some(3), (1, 2))];
    expect(
        &uses("Tauros", "Bide", "Snorlax"),
        |next| next.bide(ONE),
        wanted,
    );
    expect(
        &uses("Tauros", "Thrash", "Chansey"),
        |next| next.thrash(ONE),
        wanted,
    );
}

#[test]
fn thrash_ends_in_confusion() {
    let mut battle = uses("Tauros", "Thrash", "Chansey");
    battle.put_thrash(ONE, 1);
    battle.put_kept_accuracy(ONE, 255);
    battle.put_current_move(ONE, UsedMove::Slot(1));
    expect_of(
        &battle,
        (slot(0), slot(1)),
        |next| next.confused(ONE),
        (2..=5).map(|turns| (Some(turns), (1, 4))),
    );
}

#[test]
fn wrap() {
    // 85 % is 216.
    let wanted = [
        (None, (40, 256)),
        (Some(1), (216 * 3, 2048)),
        (Some(2), (216 * 3, 2048)),
        (Some(3), (216, 2048)),
        (Some(4), (216, 2048)),
    ];
    expect(
        &uses("Tauros", "Wrap", "Chansey"),
        |next| next.trapping(ONE),
        wanted,
    );
}

#[test]
fn side_effects() {
    let of = |bound: u128| {
        [
            (false, (65536 - 255 * bound, 65536)),
            (true, (255 * bound, 65536)),
        ]
    };
    expect(
        &uses("Tauros", "Ice Beam", "Chansey"),
        |next| next.status(TWO) == Status::Frozen,
        of(26),
    );
    expect(
        &uses("Beedrill", "Twineedle", "Chansey"),
        |next| next.status(TWO) == Status::Poisoned,
        of(52),
    );
    let battle = uses("Tauros", "Stomp", "Chansey");
    expect(&battle, |next| next.pp(TWO, 1) == battle.pp(TWO, 1), of(77));
}

#[test]
fn updates_without_draws_have_one_outcome() {
    let team = Team::new(&[
        member("Tauros", &["Splash"]),
        member("Snorlax", &["Splash"]),
    ])
    .unwrap();
    let mut battle = Packed::new(&team, &team, [0; 10]);
    let list = List::of(&battle, Choice::Pass, Choice::Pass);
    assert_eq!(
        list.outcomes,
        Outcomes {
            count: 1,
            whole: 1,
            left_out: 0,
            ways: 1
        }
    );
    start(&mut battle, &mut Silent);
    assert!(list.successors[0].battle.as_bytes() == battle.as_bytes());
}

/// What is left out with a least probability of `least` / 2^32: its part, and how many outcomes are listed.
fn left_out(battle: &Packed, least: u32) -> (Fraction, usize) {
    let list = List::with(OutcomeOptions { least, ..ALL }, battle, slot(1), slot(1));
    assert_eq!(list.weights().len(), list.outcomes.count);
    (
        reduced(list.outcomes.left_out, list.outcomes.whole),
        list.outcomes.count,
    )
}

#[test]
fn what_is_less_probable_is_left_out() {
    let hundredth = 42_949_672;
    // A paralysed Tauros can't act with 63 of 256 bytes, and else misses with 1 of 256. Snorlax acts after it, Starmie before it.
    for foe in ["Snorlax", "Starmie"] {
        let mut battle = uses("Tauros", "Thunder Wave", foe);
        battle.put_status(ONE, Status::Paralysed);
        assert_eq!(left_out(&battle, hundredth).0, (193, 65536), "{foe}");
    }
    // Only what is below is left out: a miss has 1 of 256.
    let wave = uses("Starmie", "Thunder Wave", "Snorlax");
    assert_eq!(left_out(&wave, 1 << 24), ((0, 1), 3));
    assert_eq!(left_out(&wave, (1 << 24) + 1), ((1, 256), 2));
    // Paralysed, Snorlax can't act with 63 of 256: 255 * 63 of 65,536 in all.
    assert_eq!(left_out(&wave, 255 * 63 << 16), ((1, 256), 2));
    assert_eq!(
        left_out(&wave, (255 * 63 << 16) + 1),
        ((256 + 255 * 63, 65536), 1)
    );
    // Nothing may be left, unless the update draws nothing.
    assert_eq!(left_out(&wave, u32::MAX), ((1, 1), 0));
    assert_eq!(
        left_out(&uses("Tauros", "Splash", "Snorlax"), u32::MAX),
        ((0, 1), 1)
    );
}

#[test]
fn faults() {
    let battle = uses("Tauros", "Body Slam", "Tauros");
    let places = |count: usize| {
        (0..count)
            .map(|_| Successor::new(battle.clone(), 0))
            .collect::<Vec<_>>()
    };
    let ask = |one, two, places: &mut [Successor], table: usize| {
        list_outcomes(&battle, (one, two), ALL, places, &mut vec![0; table])
    };
    let refused = |side| Err(OutcomesFault::Refused(Refusal::NotOffered(side)));
    assert_eq!(ask(slot(2), slot(3), &mut places(1), 1), refused(ONE));
    assert_eq!(ask(slot(1), Choice::Pass, &mut places(1), 1), refused(TWO));
    let count = List::of(&battle, slot(1), slot(1)).outcomes.count;
    assert!(ask(slot(1), slot(1), &mut places(count), count).is_ok());
    assert_eq!(
        ask(slot(1), slot(1), &mut places(count - 1), count),
        Err(OutcomesFault::Places)
    );
    assert_eq!(
        ask(slot(1), slot(1), &mut places(count), count - 1),
        Err(OutcomesFault::Table)
    );
    assert_eq!(
        ask(slot(1), slot(1), &mut places(count), 0),
        Err(OutcomesFault::Table)
    );
    let mut over = battle.clone();
    over.put_hp(TWO, 1);
    let over = List::of(&over, slot(1), slot(1))
        .successors
        .into_iter()
        .find(|next| next.battle.outcome().is_over())
        .unwrap();
    let fault = list_outcomes(
        &over.battle,
        (slot(1), slot(1)),
        ALL,
        &mut places(1),
        &mut [0],
    );
    assert_eq!(fault, Err(OutcomesFault::Refused(Refusal::Over)));
    assert_eq!(fault.unwrap_err().number(), 1);
}
