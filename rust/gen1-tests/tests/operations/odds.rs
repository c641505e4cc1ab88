//! The odds of a use of a move, and its chances to knock out, worked out on paper or by another program (docs/MECHANICS.md,
//! "Critical hits", "Hit test", "Early effects", "Late effects", "Side effects", "Landing", "Many hits", "Recoil, drain and
//! explosion").
use crate::comparing::{FOE, USER, named};
use crate::script::{play, play_each, set_up};
use gen1::generated::layout::{Conditions, Packed};
use gen1::generated::odds::{
    Between, HpChange, Odds, drained, knock_out, knock_out_in_three, odds_of, recoil,
    takes_hit_test,
};
use std::error::Error;

fn odds(battle: &Packed, name: &str) -> Result<Odds, Box<dyn Error>> {
    Ok(odds_of(battle, USER, named(name)?))
}

// Persian's base Speed is 115, so 57 of 256 draws are critical, and 255 with Slash. With Focus Energy they are 14 and 112.
#[test]
fn chances_of_persian() -> Result<(), Box<dyn Error>> {
    for (begins, few, many) in [
        ("duel Persian Tauros", 57, 255),
        ("duel Persian Tauros; one.flag focus", 14, 112),
    ] {
        let battle = set_up(begins)?;
        assert_eq!(odds(&battle, "Strength")?.critical_draws, few);
        assert_eq!(odds(&battle, "Slash")?.critical_draws, many);
    }
    Ok(())
}

// 100, 70, 60, 55 and 30 percent in 255ths. Swift hits without a draw.
#[test]
fn accuracies() {
    play_each(
        "move         | draws
         Strength     | 255
         Thunder      | 178
         Hypnosis     | 153
         Sing         | 140
         Fissure      | 76
         Swift        | 256
         Rage         | 255
         Swords Dance | 256
         Splash       | 256
         Bide         | 256
         Haze         | 256",
        "duel Persian Tauros; odds one $move; gives $draws",
    );
}

// Persian's Speed is 328, and that of Tauros 318.
#[test]
fn one_hit_moves() -> Result<(), Box<dyn Error>> {
    play(
        "duel Persian Tauros; odds one Fissure; gives 76; odds two Fissure; gives slower 0
         two.types Ghost Poison; odds one Guillotine; gives immune 0",
    );
    let fissure = odds(&set_up("duel Persian Tauros")?, "Fissure")?;
    assert_eq!((fissure.least, fissure.most), (65535, 65535));
    Ok(())
}

// Swift is of type Normal. Fixed damage knows no types.
#[test]
fn the_foes_types() {
    play_each(
        "types        | move         | gives
         Rock Ground  | Thunderbolt  | immune 0
         Rock Ground  | Thunder Wave | own_type 0
         Rock Ground  | Stun Spore   | 191
         Grass Poison | Leech Seed   | own_type 0
         Grass Poison | Toxic        | own_type 0
         Ghost Ghost  | Swift        | immune 0
         Ghost Ghost  | Seismic Toss | 255",
        "duel Tauros Tauros; two.types $types; odds one $move; gives $gives",
    );
}

// A foe that has to recharge falls asleep in any case.
#[test]
fn the_foes_status() {
    play(
        "duel Tauros Tauros; odds one Dream Eater; gives awake 0
         two.status slp 3; odds one Dream Eater; gives 255
         odds one Spore; gives has_status 0; odds one Toxic; gives has_status 0; odds one Thunder Wave; gives has_status 0
         two.flag recharge; odds one Sing; gives 256",
    );
}

#[test]
fn the_foes_conditions() {
    play(
        "duel Tauros Tauros; two.flag mist; odds one Growl; gives mist 0
         two.flag mist off; two.flag seeded; odds one Leech Seed; gives seeded 0
         two.confused 2; odds one Confuse Ray; gives confused 0
         two.disabled 1 3; odds one Disable; gives disabled 0
         two.flag invulnerable; odds one Strength; gives invulnerable 0; odds one Sing; gives invulnerable 0
         odds one Disable; gives invulnerable 0; odds one Growl; gives invulnerable 0; odds one Conversion; gives invulnerable 0
         odds one Swift; gives 256",
    );
}

#[test]
fn behind_a_substitute() {
    play_each(
        "side | move         | gives
         one  | Toxic        | substitute 0
         one  | Supersonic   | substitute 0
         one  | Growl        | substitute 0
         one  | Strength     | 255
         one  | Thunder Wave | 255
         one  | Spore        | 255
         two  | Substitute   | already_up 0",
        "duel Tauros Tauros; two.substitute 88; odds $side $move; gives $gives",
    );
}

// 353 - 98 is 255. A quarter of 353 is 88.
#[test]
fn what_concerns_the_user_alone() {
    play(
        "duel Tauros Tauros; odds one Recover; gives health 0
         one.hp 98; odds one Rest; gives health 0
         one.hp 87; odds one Rest; gives 256; odds one Substitute; gives health 0
         one.hp 88; odds one Substitute; gives 256
         one.flag reflect; odds one Reflect; gives already_up 0; odds one Light Screen; gives 256
         one.evasion 12; odds one Double Team; gives stage 0
         two.accuracy 0; odds one Sand Attack; gives stage 0; odds one Roar; gives always_fails 0
         two.hp 0; odds one Swift; gives fallen 0",
    );
}

// Rage with Strength in slot 1 as the current move, whose accuracy byte has become 10. Dig would be a new use.
#[test]
fn a_kept_accuracy() {
    play(
        "duel Tauros Tauros; one.flag rage; one.current 1; one.kept 10; odds one Strength; gives 10; odds one Dig; gives 255",
    );
}

// Dig is of type Ground.
#[test]
fn counters() {
    play(
        "duel Tauros Tauros; last 75; two.picked 2; odds one Counter; gives nothing_to_counter 0
         two.picked struggle; odds one Counter; gives 255
         last 0; odds one Counter; gives nothing_to_counter 0",
    );
}

#[test]
fn damage_by_rules_of_their_own() -> Result<(), Box<dyn Error>> {
    let battle = set_up("duel Tauros Tauros; last 75; two.picked 1")?;
    let damages = [
        ("Sonic Boom", 20, 20),
        ("Dragon Rage", 40, 40),
        ("Night Shade", 100, 100),
        ("Seismic Toss", 100, 100),
        // Half of 353.
        ("Super Fang", 176, 176),
        // One and a half times 100.
        ("Psywave", 1, 149),
        ("Counter", 150, 150),
        ("Strength", 0, 0),
        ("Growl", 0, 0),
    ];
    for (name, least, most) in damages {
        let odds = odds(&battle, name)?;
        assert_eq!((name, odds.least, odds.most), (name, least, most));
        let code = if name == "Strength" { 0 } else { 48 };
        assert_eq!((name, odds.usual.code), (name, code));
    }
    Ok(())
}

// A number above 0 and below one and a half times the level. At level 1 there is none, and a hit ends the battle.
#[test]
fn psywave_at_low_levels() -> Result<(), Box<dyn Error>> {
    let levels = [
        ("teams Tauros 3 Psywave / Tauros 100 Strength", 1, 3),
        ("teams Tauros 2 Psywave / Tauros 100 Strength", 1, 2),
        ("teams Tauros 1 Psywave / Tauros 100 Strength", 0, 0),
    ];
    for (begins, least, most) in levels {
        let odds = odds(&set_up(begins)?, "Psywave")?;
        assert_eq!((begins, odds.least, odds.most), (begins, least, most));
    }
    Ok(())
}

#[test]
fn numbers_of_hits() -> Result<(), Box<dyn Error>> {
    let battle = set_up("duel Tauros Tauros")?;
    let several = [0, 0, 3, 3, 1, 1];
    let hits = [
        ("Fury Attack", several),
        ("Pin Missile", several),
        ("Double Kick", [0, 0, 8, 0, 0, 0]),
        ("Twineedle", [0, 0, 8, 0, 0, 0]),
        ("Strength", [0, 8, 0, 0, 0, 0]),
    ];
    for (name, expected) in hits {
        let odds = odds(&battle, name)?;
        assert_eq!((name, odds.hits), (name, expected));
    }
    assert_eq!(odds(&battle, "Dig")?.charges_first, 1);
    assert_eq!(odds(&battle, "Strength")?.charges_first, 0);
    Ok(())
}

fn all_take(names: &[&str], expected: bool) -> Result<(), Box<dyn Error>> {
    for name in names {
        assert_eq!((*name, takes_hit_test(named(name)?)), (*name, expected));
    }
    Ok(())
}

#[test]
fn moves_that_take_the_hit_test() -> Result<(), Box<dyn Error>> {
    let without = [
        "Whirlwind",
        "Roar",
        "Teleport",
        "Conversion",
        "Mist",
        "Focus Energy",
        "Light Screen",
        "Reflect",
        "Haze",
        "Recover",
        "Soft-Boiled",
        "Rest",
        "Substitute",
        "Splash",
        "Swords Dance",
        "Agility",
        "Amnesia",
        "Double Team",
        "Bide",
    ];
    all_take(&without, false)?;
    let with = [
        "Strength",
        "Swift",
        "Thunder Wave",
        "Toxic",
        "Leech Seed",
        "Confuse Ray",
        "Spore",
        "Growl",
        "Disable",
        "Seismic Toss",
        "Super Fang",
        "Counter",
        "Fissure",
        "Explosion",
        "Dig",
        "Hyper Beam",
    ];
    all_take(&with, true)
}

fn ways(battle: &Packed, name: &str) -> Result<[u64; 4], Box<dyn Error>> {
    let chances = knock_out(battle, USER, named(name)?);
    Ok([
        chances.once,
        chances.once_of,
        chances.twice,
        chances.twice_of,
    ])
}

// Body Slam of a Tauros deals 95 to 112 to another, and 184 to 217 if it is critical, as 55 of 256 draws are. 255 of 256
// draws hit. With 100 HP left, 28 of the 39 factors are enough: 255 * 8 * (55 * 39 + 201 * 28) ways. The other numbers
// are from a sum over all pairs of uses in fractions, in Python.
#[test]
fn body_slam() -> Result<(), Box<dyn Error>> {
    let mut battle = set_up("duel Tauros Tauros")?;
    let all = 20_447_232;
    let numbers = [
        (100, 15_856_920, 417_362_401_198_080),
        (207, 1_346_400, 284_909_644_252_800),
        (220, 0, 166_329_072_604_800),
    ];
    for (hp, once, twice) in numbers {
        battle.put_hp(FOE, hp);
        assert_eq!(ways(&battle, "Body Slam")?, [once, all, twice, all * all],);
    }
    Ok(())
}

#[test]
fn fixed_damage() -> Result<(), Box<dyn Error>> {
    let mut battle = set_up("duel Tauros Tauros")?;
    battle.put_hp(FOE, 100);
    let [hit, all] = [255, 256];
    let twice = all * all - 1;
    assert_eq!(ways(&battle, "Night Shade")?, [hit, all, twice, all * all],);
    battle.put_hp(FOE, 101);
    assert_eq!(
        ways(&battle, "Night Shade")?,
        [0, all, hit * hit, all * all],
    );
    // 204 of 256 draws hit. 49 of the numbers 1 to 149 are at least 101. Exactly 100 * 99 / 2 of their pairs have a sum of
    // 100 or less.
    let chances = ways(&battle, "Psywave")?;
    let both = 204 * 204 * (149 * 149 - 4950);
    let one = 2 * 204 * 52 * 149 * 49;
    assert_eq!(
        chances,
        [204 * 49, 256 * 149, both + one, 256 * 149 * 256 * 149],
    );
    Ok(())
}

// Super Fang leaves at least 1 HP, and halves what is left: 4, 2, 1. At 2 HP the second use is enough. It hits with 229 of
// 256 draws.
#[test]
fn super_fang() -> Result<(), Box<dyn Error>> {
    let mut battle = set_up("duel Tauros Tauros")?;
    battle.put_hp(FOE, 4);
    assert_eq!(ways(&battle, "Super Fang")?, [0, 256, 0, 65_536]);
    battle.put_hp(FOE, 2);
    assert_eq!(ways(&battle, "Super Fang")?, [0, 256, 229 * 229, 65_536],);
    // It takes 2 of a substitute, which is half of the HP, and 4 by two uses.
    battle.put_hp(FOE, 4);
    battle.put_substitute(FOE, Some(3));
    let chances = knock_out(&battle, USER, named("Super Fang")?);
    assert_eq!(
        (chances.once, chances.twice, chances.breaks_substitute),
        (0, 229 * 229, 1),
    );
    Ok(())
}

// A damage equal to its HP leaves a substitute at 0 HP.
#[test]
fn substitutes() -> Result<(), Box<dyn Error>> {
    let mut battle = set_up("duel Tauros Tauros")?;
    for (hp, once) in [(99, 255), (100, 0)] {
        battle.put_substitute(FOE, Some(hp));
        assert_eq!(ways(&battle, "Seismic Toss")?[0], once);
    }
    // 76 of 256 draws hit, and Persian is the faster.
    let mut battle = set_up("duel Persian Tauros")?;
    assert_eq!(ways(&battle, "Fissure")?[0], 76);
    battle.put_substitute(FOE, Some(88));
    assert_eq!(ways(&battle, "Fissure")?[0], 76);
    battle.put_flag(FOE, Conditions::INVULNERABLE, true);
    assert_eq!(ways(&battle, "Fissure")?, [0, 256, 0, 65_536]);
    Ok(())
}

// The ways of one use and of two, and the two words of those of three.
fn three_ways(
    battle: &Packed,
    name: &str,
    changes: [(u16, u16); 2],
) -> Result<[u64; 4], Box<dyn Error>> {
    let [first, second] = changes;
    let between = Between {
        after_first: HpChange {
            gained: first.0,
            lost: first.1,
        },
        after_second: HpChange {
            gained: second.0,
            lost: second.1,
        },
    };
    let chances = knock_out_in_three(battle, USER, named(name)?, &between);
    Ok([
        chances.once,
        chances.twice,
        chances.thrice.low,
        chances.thrice.high,
    ])
}

// The numbers are from a recursion over the HP that are left after each use, in fractions, in Python.
#[test]
fn three_body_slams() -> Result<(), Box<dyn Error>> {
    let mut battle = set_up("duel Tauros Tauros")?;
    let numbers = [
        (
            100,
            [(0, 0), (0, 0)],
            [
                15_856_920,
                417_362_401_198_080,
                7_839_502_249_578_463_232,
                463,
            ],
        ),
        (
            353,
            [(0, 0), (0, 0)],
            [0, 19_147_625_640_000, 10_613_756_104_167_898_624, 236],
        ),
        (
            353,
            [(0, 22), (0, 44)],
            [0, 19_147_625_640_000, 15_877_631_471_881_568_256, 459],
        ),
        (
            300,
            [(176, 0), (0, 22)],
            [0, 0, 7_792_572_289_109_492_736, 54],
        ),
    ];
    for (hp, changes, ways) in numbers {
        battle.put_hp(FOE, hp);
        assert_eq!(three_ways(&battle, "Body Slam", changes)?, ways);
    }
    Ok(())
}

// Night Shade takes 100. With 22 HP lost after the first use, two hits of three take 222 HP. Without HP a foe gains none.
#[test]
fn three_fixed_damages() -> Result<(), Box<dyn Error>> {
    let mut battle = set_up("duel Tauros Tauros")?;
    let two_of_three = 255 * 255 * 255 + 3 * 255 * 255;
    let numbers = [
        (
            "Night Shade",
            222,
            [(0, 22), (0, 0)],
            [0, 255 * 255, two_of_three, 0],
        ),
        (
            "Night Shade",
            222,
            [(0, 11), (0, 11)],
            [0, 0, two_of_three, 0],
        ),
        ("Night Shade", 300, [(176, 0), (0, 23)], [0, 0, 0, 0]),
        (
            "Night Shade",
            100,
            [(353, 0), (0, 0)],
            [255, 255 * 256, 255 * 65_536, 0],
        ),
        (
            "Psywave",
            101,
            [(0, 10), (0, 10)],
            [9_996, 943_754_592, 48_339_659_086_272, 0],
        ),
        ("Super Fang", 8, [(0, 1), (0, 2)], [0, 0, 14_840_803, 0]),
        ("Super Fang", 3, [(100, 0), (0, 60)], [0, 0, 15_007_744, 0]),
    ];
    for (name, hp, changes, ways) in numbers {
        battle.put_hp(FOE, hp);
        assert_eq!(three_ways(&battle, name, changes)?, ways);
    }
    // A substitute loses nothing between the uses.
    battle.put_substitute(FOE, Some(221));
    let ways = three_ways(&battle, "Night Shade", [(0, 22), (0, 22)])?;
    assert_eq!(ways, [0, 0, 255 * 255 * 255, 0]);
    Ok(())
}

#[test]
fn drain_and_recoil() -> Result<(), Box<dyn Error>> {
    for (name, damage, gain, cost) in [
        ("Mega Drain", 75, 37, 0),
        ("Absorb", 1, 1, 0),
        ("Dream Eater", 200, 100, 0),
        ("Double-Edge", 75, 0, 18),
        ("Take Down", 3, 0, 1),
        ("Struggle", 75, 0, 37),
        ("Strength", 75, 0, 0),
    ] {
        let id = named(name)?;
        assert_eq!(
            (name, drained(id, damage), recoil(id, damage)),
            (name, gain, cost),
        );
    }
    Ok(())
}
