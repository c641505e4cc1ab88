//! A battle at turn 0 (docs/LAYOUT.md), each read and write function once, members by their places, and several conditions at once.
use crate::comparing::{SEED, tauros};
use gen1::generated::layout::{Conditions, Packed, in_two};
use gen1::generated::machine::{
    DisabledSlot, Health, Kind, Level, Outcome, Request, Rules, Side, TurnLimit, UsedMove,
};
use gen1::generated::rolls::{LinkRandom, Rolls};
use gen1::generated::stats::{Status, Team};
use gen1::generated::tables::{Element, Species, Stat};
use std::error::Error;

// A team of one Tauros.
fn team() -> Result<Team, Box<dyn Error>> {
    Ok(Team::new(&[tauros()?])?)
}

// The bytes of that Tauros: 128, level 100, HP 353 of 353, Attack 298, Defense 288, Speed 318, Special 238, healthy,
// moves 70 and 35 with 24 and 20 PP.
const TAUROS: [u8; 24] = [
    128, 100, 97, 1, 97, 1, 42, 1, 32, 1, 62, 1, 238, 0, 0, 70, 35, 0, 0, 24, 20, 0, 0, 0,
];

// Both Tauros are out, each at place 1.
fn begun() -> Result<Packed, Box<dyn Error>> {
    let mut packed = Packed::new(&team()?, &team()?, SEED);
    packed.active_mut(Side::One)[0] = 1;
    packed.active_mut(Side::Two)[0] = 1;
    Ok(packed)
}

// The bytes of two teams (docs/LAYOUT.md, "Header", "Member", "Turn, outcome and requests").
#[test]
fn a_battle_at_turn_0() -> Result<(), Box<dyn Error>> {
    let packed = Packed::new(&team()?, &team()?, SEED);
    assert_eq!(packed.as_bytes().len(), 384);
    let header = [
        3, 0, 0, 0, 0, 0, 1, 2, 3, 4, 5, 6, 7, 8, 9, 10, 0, 0, 0, 0, 232, 3, 0, 0,
    ];
    assert_eq!(packed.header(), &header[..]);
    assert_eq!(packed.member(Side::One, 1), &TAUROS[..]);
    assert_eq!(packed.member(Side::Two, 1), &TAUROS[..]);
    assert_eq!(packed.member(Side::One, 2), &[0; 24][..]);
    assert_eq!(packed.active(Side::Two), &[0; 36][..]);
    assert_eq!(packed.side(Side::One).len(), 180);
    assert_eq!(packed.species_at(Side::One, 1), 128);
    assert_eq!(packed.hp_at(Side::Two, 1), 353);
    assert_eq!(packed.hp_at(Side::Two, 2), 0);
    assert_eq!(packed.status_at(Side::Two, 1), Status::Healthy);
    Ok(())
}

// Side 1 begins at offset 24, and side 2 at 204.
#[test]
fn both_sides_at_once() -> Result<(), Box<dyn Error>> {
    let mut packed = begun()?;
    assert_eq!(packed.sides_mut().len(), 360);
    let (own, others) = packed.both_mut(Side::Two);
    own[0] = 7;
    others[179] = 9;
    assert_eq!(packed.as_bytes()[204], 7);
    assert_eq!(packed.as_bytes()[203], 9);
    take_over(&mut packed, Side::One);
    assert_eq!(packed.as_bytes()[24], 7);
    Ok(())
}

// What a caller knows of the battle after the two calls that `both_mut` makes.
fn take_over(packed: &mut Packed, side: Side) {
    let (own, others) = in_two(packed.sides_mut(), side);
    own[0] = others[0];
}

// Rules and turn limit in the bytes (docs/LAYOUT.md, "Header").
#[test]
fn rules_and_limit() -> Result<(), Box<dyn Error>> {
    let rules = Rules::new(3).ok_or("no such rules")?;
    let limit = TurnLimit::new(300).ok_or("no such limit")?;
    let plain = Packed::with_rules(&team()?, &team()?, SEED, rules);
    assert_eq!(plain.limit(), 1000);
    let packed = Packed::with_limit(&team()?, &team()?, SEED, rules, limit);
    assert_eq!(packed.limit(), 300);
    assert_eq!(
        (packed.sleep_clause(), packed.freeze_clause()),
        (true, true),
    );
    Ok(())
}

// Reads and writes of the header (docs/LAYOUT.md, "Header").
#[test]
fn the_header() -> Result<(), Box<dyn Error>> {
    let mut packed = begun()?;
    packed.put_last_damage(513);
    packed.put_outcome(Outcome::Fault(2));
    packed.put_requests(Request::Move, Request::Switch);
    packed.put_next_turn();
    assert_eq!(packed.last_damage(), 513);
    assert_eq!(packed.outcome(), Outcome::Fault(2));
    assert_eq!(packed.request(Side::One), Request::Move);
    assert_eq!(packed.request(Side::Two), Request::Switch);
    assert_eq!(packed.turn(), 1);
    let mut random = LinkRandom::new(SEED);
    assert_eq!(packed.generator(), Some(random));
    for _ in 0..11 {
        random.draw();
    }
    packed.put_generator(&random);
    assert_eq!(packed.generator(), Some(random));
    assert_eq!(packed.header()[5], 2);
    packed.header_mut()[0] = 3;
    Ok(())
}

// Reads and writes of a member (docs/LAYOUT.md, "Member").
#[test]
fn a_member() -> Result<(), Box<dyn Error>> {
    let mut packed = begun()?;
    let side = Side::Two;
    assert_eq!(packed.place(side), 1);
    assert_eq!(packed.species(side).name(), "Tauros");
    assert_eq!(packed.who(side).species.number(), 128);
    assert_eq!(packed.species_number(side), 128);
    assert_eq!(packed.level(side), 100);
    assert_eq!(packed.unmodified(side, Stat::Speed), 318);
    assert_eq!((packed.move_in(side, 1), packed.pp(side, 2)), (70, 20));
    packed.put_hp(side, 300);
    packed.put_status(
        side,
        Status::Asleep {
            turns: 7,
            marked: true,
        },
    );
    packed.put_pp(side, 2, 19);
    assert_eq!((packed.hp(side), packed.max_hp(side)), (300, 353));
    assert_eq!(
        packed.status(side),
        Status::Asleep {
            turns: 7,
            marked: true,
        },
    );
    assert_eq!(packed.kind(side), Some(Kind::Sleep));
    assert_eq!(packed.health(side).map(|health| health.hp()), Some(300),);
    assert_eq!(packed.pp(side, 2), 19);
    assert_eq!(packed.member(Side::One, 1), &TAUROS[..]);
    assert_eq!(packed.member_out(Side::One), &TAUROS[..]);
    packed.member_mut(side, 6)[0] = 1;
    packed.side_mut(side)[120] = 2;
    assert_eq!(packed.species_at(side, 6), 2);
    Ok(())
}

// Reads and writes of an active block (docs/LAYOUT.md, "Active block").
#[test]
fn an_active_block() -> Result<(), Box<dyn Error>> {
    let mut packed = begun()?;
    let side = Side::One;
    packed.put_types(side, Element::Ghost, Element::Dragon);
    packed.put_attack(side, 7, 447);
    packed.put_defense(side, 6, 288);
    packed.put_speed(side, 6, 79);
    packed.put_special(side, 5, 157);
    packed.put_accuracy(side, 4);
    packed.put_evasion(side, 12);
    packed.put_current_move(side, UsedMove::Slot(2));
    packed.put_picked_move(side, UsedMove::Struggle);
    packed.put_kept_accuracy(side, 229);
    assert_eq!(packed.first_type(side), Element::Ghost);
    assert_eq!(packed.second_type(side), Element::Dragon);
    assert_eq!(packed.stage(side, Stat::Evasion), 12);
    assert_eq!(packed.current_stat(side, Stat::Attack), 447);
    assert_eq!(packed.current_move(side), UsedMove::Slot(2));
    assert_eq!(packed.picked_move(side), UsedMove::Struggle);
    assert_eq!(packed.kept_accuracy(side), 229);
    let block = [
        1, 7, 14, 7, 6, 6, 5, 4, 12, 191, 1, 32, 1, 79, 0, 157, 0, 0, 0, 0, 0, 0, 0, 0, 0, 0, 0, 0,
        0, 2, 5, 229, 0, 0, 0, 0,
    ];
    assert_eq!(packed.active(side), &block[..]);
    packed.put_sent_out(
        side,
        1,
        Element::Fire,
        Element::Flying,
        [149, 288, 318, 238],
    );
    let block = [
        1, 8, 2, 6, 6, 6, 6, 6, 6, 149, 0, 32, 1, 62, 1, 238, 0, 0, 0, 0, 0, 0, 0, 0, 0, 0, 0, 0,
        0, 0, 0, 0, 0, 0, 0, 0,
    ];
    assert_eq!(packed.active(side), &block[..]);
    Ok(())
}

// A number belongs to its condition. Haze ends all of these but the Substitute (docs/MECHANICS.md, "Conditions").
#[test]
fn conditions_with_numbers() -> Result<(), Box<dyn Error>> {
    let mut packed = begun()?;
    let side = Side::One;
    packed.put_substitute(side, Some(89));
    packed.put_confused(side, Some(5));
    packed.put_bad_poison(side, Some(64));
    let disabled = DisabledSlot { slot: 2, turns: 8 };
    packed.put_disabled(side, Some(disabled));
    packed.put_flag(side, Conditions::MIST, true);
    assert_eq!(packed.substitute(side), Some(89));
    assert_eq!(packed.confused(side), Some(5));
    assert_eq!(packed.bad_poison(side), Some(64));
    assert_eq!(packed.disabled(side), Some(disabled));
    assert!(packed.is_on(side, Conditions::MIST));
    // Bits 6, 7, 9, 13 and 16.
    assert_eq!(
        &packed.active(side)[17..26],
        &[192, 34, 1, 0, 89, 5, 2, 8, 64][..],
    );
    packed.clear_by_haze(side);
    assert_eq!(packed.conditions(side), Conditions::SUBSTITUTE);
    assert!(packed.conditions(side).has(Conditions::SUBSTITUTE),);
    assert_eq!(
        Conditions::MIST.with(Conditions::RAGE, true),
        Conditions::MIST | Conditions::RAGE,
    );
    Ok(())
}

// Bide, Thrash and Trapping, one at a time, each with its numbers. What ends them ends Charging too
// (docs/MECHANICS.md, "Conditions").
#[test]
fn what_goes_on() -> Result<(), Box<dyn Error>> {
    let mut packed = begun()?;
    let side = Side::Two;
    packed.put_bide(side, 3, 513);
    assert_eq!((packed.bide(side), packed.energy(side)), (Some(3), 513),);
    packed.end_bide(side);
    assert_eq!((packed.bide(side), packed.energy(side)), (None, 0));
    packed.put_thrash(side, 2);
    assert_eq!(packed.thrash(side), Some(2));
    packed.end_thrash(side);
    packed.put_trapping(side, 4);
    assert_eq!(
        (packed.thrash(side), packed.trapping(side)),
        (None, Some(4)),
    );
    packed.end_trapping(side);
    assert_eq!(packed.trapping(side), None);
    packed.put_flag(side, Conditions::CHARGING, true);
    packed.break_off(side);
    assert!(packed.active(side)[17..29].iter().all(|byte| *byte == 0),);
    Ok(())
}

// Its size in memory (docs/LAYOUT.md, "The 384 bytes of a battle").
#[test]
fn a_packed_battle_is_384_bytes() {
    assert_eq!(core::mem::size_of::<Packed>(), 384);
}

// One Tauros against two, with both clauses, for at most 300 turns.
fn at_turn_0() -> Result<Packed, Box<dyn Error>> {
    Ok(Packed::with_limit(
        &Team::new(&[tauros()?])?,
        &Team::new(&[tauros()?, tauros()?])?,
        SEED,
        Rules::new(3).ok_or("no such rules")?,
        TurnLimit::new(300).ok_or("no such limit")?,
    ))
}

// The battle of `at_turn_0` with the first member of each side out.
fn both_out() -> Result<Packed, Box<dyn Error>> {
    let mut packed = at_turn_0()?;
    packed.active_mut(Side::One)[0] = 1;
    packed.active_mut(Side::Two)[0] = 1;
    Ok(packed)
}

// Place 2 of side 1 is empty.
#[test]
fn members_by_their_places() -> Result<(), Box<dyn Error>> {
    let packed = at_turn_0()?;
    for place in 1..3 {
        let side = Side::Two;
        assert_eq!(
            packed.species_from(side, place),
            Species::from_name("Tauros"),
        );
        assert_eq!(packed.level_at(side, place), 100);
        assert_eq!(packed.level_from(side, place), Level::new(100));
        assert_eq!(packed.max_hp_at(side, place), 353);
        assert_eq!(packed.kind_at(side, place), None);
        assert_eq!(packed.own_stats_at(side, place), [298, 288, 318, 238]);
        assert_eq!(packed.health_from(side, place), Health::new(353, 353, None),);
        assert_eq!(
            (packed.move_at(side, place, 1), packed.pp_at(side, place, 1)),
            (70, 24),
        );
        assert_eq!(
            (packed.move_at(side, place, 2), packed.pp_at(side, place, 2)),
            (35, 20),
        );
        assert_eq!(
            (packed.move_at(side, place, 3), packed.pp_at(side, place, 3)),
            (0, 0),
        );
    }
    assert_eq!(packed.species_from(Side::One, 2), None);
    assert_eq!(packed.level_from(Side::One, 2), None);
    assert_eq!(packed.health_from(Side::One, 2), None);
    assert_eq!(packed.own_stats_at(Side::One, 2), [0; 4]);
    Ok(())
}

// Byte 19 of the header has the rules, and bytes 20 and 21 the limit: 300 is 44 + 256.
#[test]
fn the_terms_and_a_battle_at_turn_0() -> Result<(), Box<dyn Error>> {
    let mut packed = at_turn_0()?;
    assert_eq!(&packed.header()[19..22], &[3, 44, 1][..]);
    assert_eq!(Some(packed.rules()), Rules::new(3));
    assert_eq!(
        (packed.sleep_clause(), packed.freeze_clause()),
        (true, true),
    );
    assert_eq!(
        (packed.limit(), packed.turn(), packed.last_damage()),
        (300, 0, 0),
    );
    assert_eq!(packed.outcome(), Outcome::Ongoing);
    assert_eq!(packed.request(Side::Two), Request::Pass);
    assert!(packed.generator().is_some());
    packed.put_next_turn();
    packed.put_requests(Request::Move, Request::Pass);
    assert_eq!(
        (packed.turn(), packed.request(Side::One)),
        (1, Request::Move),
    );
    Ok(())
}

#[test]
fn a_marked_sleeper_falls() -> Result<(), Box<dyn Error>> {
    let mut packed = both_out()?;
    let status = Status::Asleep {
        turns: 3,
        marked: true,
    };
    packed.put_status(Side::One, status);
    packed.put_status(Side::Two, status);
    assert_eq!(
        (packed.mark(Side::One, 1), packed.mark(Side::Two, 2)),
        (true, false),
    );
    assert!(!packed.has_fallen(Side::One));
    packed.put_fallen(Side::One);
    packed.put_fallen(Side::Two);
    assert!(packed.has_fallen(Side::One));
    assert_eq!(
        (packed.hp(Side::One), packed.status(Side::One)),
        (0, Status::Healthy),
    );
    assert!(!packed.mark(Side::One, 1));
    // The bytes of HP, status and mark.
    let member = packed.member(Side::One, 1);
    assert_eq!([member[4], member[5], member[14], member[23]], [0; 4]);
    assert_eq!(
        (packed.has_living(Side::One), packed.has_living(Side::Two)),
        (false, true),
    );
    Ok(())
}

// Conditions that have no number, and the six of the current move (docs/MECHANICS.md, "Conditions"). Bits 0, 1, 2, 4, 10 and 11
// are 1, 2, 4, 16, 1024 and 2048.
#[test]
fn several_conditions_at_once() -> Result<(), Box<dyn Error>> {
    let mut packed = both_out()?;
    let side = Side::Two;
    let either = Conditions::MIST | Conditions::SEEDED;
    packed.put_flag(side, Conditions::SEEDED, true);
    assert!(packed.has_any(side, either));
    assert!(!packed.has_any(side, Conditions::CONTINUES));
    assert!(!packed.has_any(Side::One, either));
    packed.put_flag(side, Conditions::RAGE, true);
    assert!(packed.has_any(side, Conditions::CONTINUES));
    assert!(!Conditions::CONTINUES.has_any(either));
    packed.put_flag(side, Conditions::BIDE, true);
    assert!(packed.conditions(side).has_any(Conditions::BIDE));
    Ok(())
}

#[test]
fn accuracy_and_evasion_have_no_number() -> Result<(), Box<dyn Error>> {
    let mut packed = both_out()?;
    packed.put_accuracy(Side::One, 12);
    assert_eq!(packed.current_stat(Side::One, Stat::Accuracy), 1);
    assert_eq!(packed.current_stat(Side::One, Stat::Evasion), 1);
    Ok(())
}
