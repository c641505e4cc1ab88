//! Damage: its numbers, its formula, types and factors, with worked values, and where it lands (docs/MECHANICS.md, "Damage
//! formula", "Types", "Factors", "Landing").
use crate::comparing::named;
use crate::script::{play, set_up};
use arrayvec::ArrayVec;
use gen1::generated::hits::{
    Numbers, critical, damage, damage_list, factor, has_usual_damage, hit_test, is_factor, numbers,
    type_steps,
};
use gen1::generated::layout::Packed;
use gen1::generated::machine::Side;
use gen1::generated::rolls::{LinkRandom, Sweep};
use gen1::generated::stats::{MemberSpec, Team};
use gen1::generated::tables::{Element, MoveId, Species};
use std::error::Error;

// All 39 factors (docs/MECHANICS.md, "Damage numbers", "Damage formula", "Factors").
#[test]
fn body_slam() -> Result<(), Box<dyn Error>> {
    let battle = set_up("duel Tauros Tauros")?;
    let slam = named("Body Slam")?;
    let plain = numbers(&battle, Side::One, slam, false);
    let expected = Numbers {
        level: 100,
        power: 85,
        attack: 74,
        defense: 72,
        kind: Element::Normal,
        own: [Element::Normal; 2],
        foe: [Element::Normal; 2],
        halved: false,
    };
    assert_eq!(plain, expected);
    assert_eq!(damage(&plain), Some(75));
    assert_eq!(type_steps(75, &plain), 112);
    let list = damage_list(&plain).ok_or("no damage")?;
    let worked = [
        95, 95, 96, 96, 97, 97, 97, 98, 98, 99, 99, 100, 100, 101, 101, 101, 102, 102, 103, 103,
        104, 104, 104, 105, 105, 106, 106, 107, 107, 108, 108, 108, 109, 109, 110, 110, 111, 111,
        112,
    ];
    assert_eq!(list, worked);
    let critical = numbers(&battle, Side::Two, slam, true);
    assert_eq!(critical.level, 200);
    let list = damage_list(&critical).ok_or("no damage")?;
    assert_eq!((list[0], list[38]), (184, 217));
    Ok(())
}

// 75, then 37, then 74 (docs/MECHANICS.md, "Types").
#[test]
fn ice_on_gyarados() {
    let ice = Numbers {
        level: 100,
        power: 95,
        attack: 100,
        defense: 100,
        kind: Element::Ice,
        own: [Element::Normal; 2],
        foe: [Element::Water, Element::Flying],
        halved: false,
    };
    assert_eq!(type_steps(75, &ice), 74);
    let water = Numbers {
        foe: [Element::Water; 2],
        ..ice
    };
    assert_eq!(type_steps(75, &water), 37);
}

// A Defense of 512 with Reflect is 1024. Divided by 4 it is 256, whose low byte is 0. An explosion halves it first, and a
// critical hit takes 288 / 4 (docs/MECHANICS.md, "Damage formula").
#[test]
fn a_divisor_of_0() {
    play(
        "duel Tauros Tauros; two.defense 10 512; two.flag reflect; usual Strength; gives none; usual Explosion; gives 999; against_critical Strength; gives 72",
    );
}

// 42 * 40 * 74 / 72 / 50 + 2 is 36. With the foe's Reflect the 72 is 144 (docs/MECHANICS.md, "Hit on itself").
#[test]
fn a_hit_on_itself() {
    play(
        "duel Tauros Tauros; own; gives 36
         one.flag reflect; own; gives 36
         two.flag reflect; own; gives 19",
    );
}

// Rotated right by 1 bit, 179 is 217, 178 is 89, 177 is 216 and 255 is 255 (docs/MECHANICS.md, "Factors").
#[test]
fn bytes_that_are_factors() {
    for (byte, taken) in [(179, true), (178, false), (177, false), (255, true)] {
        assert_eq!((byte, is_factor(byte)), (byte, taken));
    }
}

// Draws until 217 (docs/MECHANICS.md, "Factors").
#[test]
fn factors_are_drawn() {
    let mut sweep = Sweep::new(0);
    assert_eq!(factor(255, &mut sweep), 217);
    assert_eq!(sweep, Sweep::new(180));
    let mut late = Sweep::new(254);
    assert_eq!(factor(255, &mut late), 255);
    assert_eq!(late, Sweep::new(0));
    assert_eq!((factor(0, &mut late), factor(1, &mut late)), (0, 1));
    assert_eq!(late, Sweep::new(0));
    let seed = [1, 255, 0, 0, 0, 0, 0, 0, 0, 0];
    let mut random = LinkRandom::new(seed);
    assert_eq!(factor(1, &mut random), 1);
    assert_eq!(random.index(), 0);
    assert_eq!(factor(999, &mut random), 999);
    assert_eq!(random.index(), 2);
}

// Power alone isn't enough (docs/MECHANICS.md, "Fixed damage and one-hit moves", "Counter").
#[test]
fn moves_with_the_usual_damage() -> Result<(), Box<dyn Error>> {
    let usual = [
        has_usual_damage(named("Body Slam")?),
        has_usual_damage(named("Growl")?),
        has_usual_damage(named("Counter")?),
        has_usual_damage(named("Seismic Toss")?),
        has_usual_damage(named("Super Fang")?),
        has_usual_damage(named("Guillotine")?),
    ];
    assert_eq!(usual, [true, false, false, false, false, false]);
    Ok(())
}

// HP of the foe, which has 353 (docs/MECHANICS.md, "Order of events").
#[test]
fn hp_is_lost_and_gained() {
    play(
        "duel Persian Tauros; gain 1; told; lose 0 recoil; told
         lose 53 recoil; told damage two 300/353 by recoil; is two.hp 300
         gain 54; told heal two 353/353; is two.hp 353
         lose 65535 brn; told damage two 0/353 by brn; lose 1 brn; told",
    );
}

// On HP the last damage becomes at most the HP that were there (docs/MECHANICS.md, "Landing").
#[test]
fn damage_lands_on_hp() {
    play(
        "duel Persian Tauros; last 9; land 0; gives hp; told; is last 9, two.hp 353
         land 75; gives hp; told damage two 278/353; is last 75, two.hp 278
         land_on_hp 279 confusion; told damage two 0/353 by confusion; is last 278, two.hp 0",
    );
}

// A Substitute holds damage of its HP, and then has none (docs/MECHANICS.md, "Landing").
#[test]
fn damage_lands_on_a_substitute() {
    play(
        "duel Persian Tauros; last 9; two.substitute 88; land 88; gives kept; told activate two Substitute; is two.substitute 0
         land 0; gives hp; told
         two.substitute 88; land 89; gives broke; told end two Substitute; is two.substitute none
         two.substitute 249; land_on_substitute 256 249; gives true; told end two Substitute; is last 9, two.hp 353",
    );
}

// The example of crates/gen1_hits/CALLING.md: a hit, from the teams to its damage (docs/MECHANICS.md, "Damage formula").
#[test]
fn a_hit_of_body_slam() -> Result<(), Box<dyn Error>> {
    let slam = MoveId::from_name("Body Slam").ok_or("no such move")?;
    let mut moves = ArrayVec::new();
    moves.push((slam, 3));
    let tauros = MemberSpec {
        species: Species::from_name("Tauros").ok_or("no such species")?,
        level: 100,
        dvs: [15; 4],
        exp: [65535; 5],
        moves,
    };
    let team = Team::new(&[tauros])?;

    let mut battle = Packed::new(&team, &team, [0; 10]);
    for side in [Side::One, Side::Two] {
        let normal = Element::Normal;
        battle.put_sent_out(side, 1, normal, normal, [298, 288, 318, 238]);
    }

    let mut random = LinkRandom::new([1, 36, 255, 7, 31, 100, 179, 254, 127, 10]);
    let critical = critical(&battle, Side::One, slam, &mut random);
    let numbers = numbers(&battle, Side::One, slam, critical);
    let most = type_steps(damage(&numbers).ok_or("divided by 0")?, &numbers);
    let dealt = factor(most, &mut random);
    let accuracy = slam.accuracy_byte();
    let hits = hit_test(&mut battle, Side::One, slam, accuracy, &mut random).hit;
    // Rotated, the draw 1 is 8, below the bound of 55. 36 isn't a factor, and 255 is the greatest. 7 is below 255.
    assert_eq!((critical, dealt, hits), (true, 217, true));
    Ok(())
}
