//! A player's knowledge (docs/MECHANICS.md, "Player's view", "What a side is told", "What a side is shown of itself"): what is reported
//! to a side, a player that is fed log bytes, and what a side is shown of itself. Side 1 sends out Tauros (128, Normal), side 2 Starmie
//! (121, Water and Psychic).
use crate::events::Tell::{ClearAll, Damage, Heal, Move, Switch, Turn};
use crate::events::{CHANSEY, ONE, STARMIE, TAUROS, TWO, Tell, event};
use crate::public::OUT;
use crate::teams::{lead_and_chansey, member, terms_in};
use gen1::generated::events::{LogBuf, LogFault, write};
use gen1::generated::layout::{Conditions, Packed};
use gen1::generated::machine::{
    DamageSource, DisabledSlot, Kind, Request, Rules, Side, TurnLimit, UsedMove,
};
use gen1::generated::player::{HpForm, OwnSide, Player, Seen, Teller, own_side};
use gen1::generated::stats::{MemberSpec, Status, Team};
use std::error::Error;

/// An event, and the event that is reported to side 1.
type Telling = (Tell, Tell);

// The places of side 2 are counted in the order in which they appear.
static BY_APPEARANCE: [Telling; 10] = [
    (
        Switch(TWO, STARMIE, 3, 323, 323, None),
        Switch(TWO, STARMIE, 1, 323, 323, None),
    ),
    (
        Switch(TWO, STARMIE, 5, 323, 323, None),
        Switch(TWO, STARMIE, 2, 323, 323, None),
    ),
    (
        Switch(TWO, STARMIE, 3, 323, 323, None),
        Switch(TWO, STARMIE, 1, 323, 323, None),
    ),
    (
        Switch(TWO, STARMIE, 1, 323, 323, None),
        Switch(TWO, STARMIE, 3, 323, 323, None),
    ),
    (
        Switch(TWO, STARMIE, 5, 323, 323, None),
        Switch(TWO, STARMIE, 2, 323, 323, None),
    ),
    (
        Switch(TWO, STARMIE, 6, 323, 323, None),
        Switch(TWO, STARMIE, 4, 323, 323, None),
    ),
    (
        Switch(TWO, STARMIE, 2, 323, 323, None),
        Switch(TWO, STARMIE, 5, 323, 323, None),
    ),
    (
        Switch(TWO, STARMIE, 4, 323, 323, None),
        Switch(TWO, STARMIE, 6, 323, 323, None),
    ),
    (
        Switch(TWO, STARMIE, 1, 323, 323, None),
        Switch(TWO, STARMIE, 3, 323, 323, None),
    ),
    (
        Switch(ONE, TAUROS, 4, 323, 323, None),
        Switch(ONE, TAUROS, 4, 323, 323, None),
    ),
];

// Above 255 both are divided by 4 first: 12 * 322 / 80 is 48.3, 12 * 266 / 80 is 39.9, 12 * 6 / 80 is 0.9. 48 * 254 / 255 is 47.8.
static BAR: [Telling; 12] = [
    (
        Damage(TWO, 323, 323, DamageSource::Direct),
        Damage(TWO, 48, 48, DamageSource::Direct),
    ),
    (
        Damage(TWO, 322, 323, DamageSource::Direct),
        Damage(TWO, 48, 48, DamageSource::Direct),
    ),
    (
        Damage(TWO, 266, 323, DamageSource::Direct),
        Damage(TWO, 39, 48, DamageSource::Direct),
    ),
    (
        Damage(TWO, 254, 255, DamageSource::Direct),
        Damage(TWO, 47, 48, DamageSource::Direct),
    ),
    (
        Damage(TWO, 162, 323, DamageSource::Direct),
        Damage(TWO, 24, 48, DamageSource::Direct),
    ),
    (
        Damage(TWO, 7, 323, DamageSource::Direct),
        Damage(TWO, 1, 48, DamageSource::Direct),
    ),
    (
        Damage(TWO, 6, 323, DamageSource::Direct),
        Damage(TWO, 1, 48, DamageSource::Direct),
    ),
    (
        Damage(TWO, 1, 323, DamageSource::Direct),
        Damage(TWO, 1, 48, DamageSource::Direct),
    ),
    (
        Damage(TWO, 0, 323, DamageSource::Direct),
        Damage(TWO, 0, 48, DamageSource::Direct),
    ),
    (
        Damage(ONE, 100, 353, DamageSource::Direct),
        Damage(ONE, 100, 353, DamageSource::Direct),
    ),
    (
        Heal(TWO, 161, 323, Some(Kind::Sleep)),
        Heal(TWO, 24, 48, Some(Kind::Sleep)),
    ),
    (
        Switch(TWO, STARMIE, 6, 7, 703, None),
        Switch(TWO, STARMIE, 1, 1, 48, None),
    ),
];

// 100 * 322 / 323 is 99.7, 100 * 162 / 323 is 50.2, 100 * 1 / 323 is 0.3, 100 * 161 / 323 is 49.8.
static HUNDREDTHS: [Telling; 7] = [
    (
        Damage(TWO, 323, 323, DamageSource::Direct),
        Damage(TWO, 100, 100, DamageSource::Direct),
    ),
    (
        Damage(TWO, 322, 323, DamageSource::Direct),
        Damage(TWO, 99, 100, DamageSource::Direct),
    ),
    (
        Damage(TWO, 162, 323, DamageSource::Direct),
        Damage(TWO, 51, 100, DamageSource::Direct),
    ),
    (
        Damage(TWO, 1, 323, DamageSource::Direct),
        Damage(TWO, 1, 100, DamageSource::Direct),
    ),
    (
        Damage(TWO, 0, 323, DamageSource::Direct),
        Damage(TWO, 0, 100, DamageSource::Direct),
    ),
    (
        Damage(ONE, 100, 353, DamageSource::Direct),
        Damage(ONE, 100, 353, DamageSource::Direct),
    ),
    (
        Heal(TWO, 161, 323, Some(Kind::Sleep)),
        Heal(TWO, 50, 100, Some(Kind::Sleep)),
    ),
];

// Tells each event, and returns the places that have appeared.
fn tell(form: HpForm, rows: &[Telling]) -> Result<[u8; 6], Box<dyn Error>> {
    let mut teller = Teller::new(ONE, form);
    for (number, (whole, told)) in rows.iter().enumerate() {
        let found = teller.tell(&event(*whole, OUT)?);
        assert_eq!(found, event(*told, OUT)?, "at {number}");
    }
    Ok(teller.places)
}

#[test]
fn what_a_side_is_told() -> Result<(), Box<dyn Error>> {
    assert_eq!(tell(HpForm::Exact, &BY_APPEARANCE)?, [3, 5, 1, 6, 2, 4],);
    tell(HpForm::Bar, &BAR)?;
    tell(HpForm::Hundredths, &HUNDREDTHS)?;
    Ok(())
}

// The log bytes of some events.
fn log_of(tells: &[Tell]) -> Result<LogBuf, Box<dyn Error>> {
    let mut log = LogBuf::new();
    for tell in tells {
        let _fits = write(&event(*tell, OUT)?, &mut log);
    }
    Ok(log)
}

#[test]
fn an_update_is_told_in_log_bytes() -> Result<(), Box<dyn Error>> {
    let mut teller = Teller::new(ONE, HpForm::Bar);
    let log = log_of(&[
        Switch(ONE, TAUROS, 2, 353, 353, None),
        Switch(TWO, STARMIE, 5, 323, 323, None),
        Damage(TWO, 6, 323, DamageSource::Direct),
        ClearAll,
    ])?;
    let told = log_of(&[
        Switch(ONE, TAUROS, 2, 353, 353, None),
        Switch(TWO, STARMIE, 1, 48, 48, None),
        Damage(TWO, 1, 48, DamageSource::Direct),
        ClearAll,
    ])?;
    assert_eq!(teller.tell_log(log.as_slice()), Ok(told));
    assert_eq!(teller.places, [5, 0, 0, 0, 0, 0]);
    Ok(())
}

#[test]
fn what_is_not_a_log_is_not_told() -> Result<(), Box<dyn Error>> {
    let mut teller = Teller::new(TWO, HpForm::Exact);
    // A switch of side 1 to its Tauros at place 4, level 100, with 353 of 353 HP, without the byte of its status.
    let cut = [2, 1, 128, 4, 100, 0x61, 1, 0x61, 1];
    assert_eq!(teller.tell_log(&cut), Err(LogFault::Truncated));
    assert_eq!(teller.tell_log(&[0x1B, 0x1D]), Err(LogFault::UnknownTag),);
    assert_eq!(teller, Teller::new(TWO, HpForm::Exact));
    Ok(())
}

#[test]
fn a_player_knows_its_own_team_and_nothing_of_the_foe() -> Result<(), Box<dyn Error>> {
    let terms = terms_in(HpForm::Hundredths, 0)?;
    let player = Player::new(ONE, &lead_and_chansey(&["Strength"])?, &terms);
    let lead = player.public.one.member(1);
    assert_eq!((lead.species, lead.hp, lead.max), (TAUROS, 353, 353));
    let other: Seen = player.public.one.member(2);
    assert_eq!((other.species, other.hp, other.level), (CHANSEY, 703, 100),);
    assert_eq!(player.public.one.member(3).species, 0);
    assert_eq!(player.public.two.member(1).species, 0);
    assert_eq!((player.side, player.foes, player.offered), (1, 0, 0));
    assert_eq!((player.rules, player.limit, player.hp_form), (1, 250, 2),);
    Ok(())
}

#[test]
fn a_player_is_fed_however_its_log_is_cut() -> Result<(), Box<dyn Error>> {
    let team = lead_and_chansey(&["Strength"])?;
    let log = log_of(&[
        Switch(ONE, TAUROS, 1, 353, 353, None),
        Switch(TWO, STARMIE, 1, 48, 48, None),
        Turn(1),
        Move(TWO, 57),
    ])?;
    let terms = terms_in(HpForm::Bar, 6)?;
    for cut in 0..=log.len() {
        let mut player = Player::new(ONE, &team, &terms);
        assert_eq!(player.feed(&log.as_slice()[..cut]), Ok(()));
        assert_eq!(player.feed(&log.as_slice()[cut..]), Ok(()));
        assert_eq!((player.public.turn, player.public.two.last_move), (1, 57),);
        assert_eq!(
            (player.public.two.member(1).max, player.held_count),
            (48, 0),
        );
    }
    Ok(())
}

#[test]
fn a_fault_changes_nothing_of_a_player() -> Result<(), Box<dyn Error>> {
    let terms = terms_in(HpForm::Bar, 0)?;
    let mut player = Player::new(TWO, &lead_and_chansey(&["Strength"])?, &terms);
    assert_eq!(player.feed(&[0x01, 7]), Ok(()));
    assert_eq!(player.feed(&[0, 0x1C, 2, 0xFF]), Err(LogFault::UnknownTag),);
    assert_eq!((player.public.turn, player.held_count), (0, 2));
    assert_eq!(player.feed(&[0]), Ok(()));
    assert_eq!((player.public.turn, player.held_count), (7, 0));
    Ok(())
}

// A Tauros with HP 353, Attack 298, Defense 288, Speed 318 and Special 238. It knows Strength, which is move 70, with 15 PP and
// three PP ups of 3, so 24, and Wrap, move 35, with 20 PP and three of 4, so 32.
fn tauros() -> Result<MemberSpec, Box<dyn Error>> {
    member("Tauros", &["Strength", "Wrap"])
}

// One Tauros against two.
fn at_turn_0() -> Result<Packed, Box<dyn Error>> {
    Ok(Packed::with_limit(
        &Team::new(&[tauros()?])?,
        &Team::new(&[tauros()?, tauros()?])?,
        [1, 2, 3, 4, 5, 6, 7, 8, 9, 10],
        Rules::new(3).ok_or("no such rules")?,
        TurnLimit::new(300).ok_or("no such limit")?,
    ))
}

// The battle of `at_turn_0` at turn 1, with the first member of each side out.
fn begun() -> Result<Packed, Box<dyn Error>> {
    let mut packed = at_turn_0()?;
    for side in [Side::One, Side::Two] {
        packed.active_mut(side).copy_from_slice(&[
            1, 0, 0, 6, 6, 6, 6, 6, 6, 42, 1, 32, 1, 62, 1, 238, 0, 0, 0, 0, 0, 0, 0, 0, 0, 0, 0,
            0, 0, 0, 0, 0, 0, 0, 0, 0,
        ]);
    }
    packed.put_next_turn();
    packed.put_requests(Request::Move, Request::Move);
    Ok(packed)
}

// Place, conditions, slot of Disable, whether it is held, request, outcome, and the number of members.
fn shown(own: &OwnSide) -> (u8, u32, u8, u8, u8, u8, u8) {
    (
        own.place,
        own.conditions,
        own.disabled_slot,
        own.held,
        own.request,
        own.outcome,
        own.count,
    )
}

#[test]
fn a_side_before_the_first_update() -> Result<(), Box<dyn Error>> {
    let own = own_side(&at_turn_0()?, Side::Two);
    assert_eq!(shown(&own), (0, 0, 0, 0, 0, 0, 2));
    assert_eq!(own.stats, [0; 4]);
    assert_eq!(own.stages, [0; 6]);
    assert_eq!(own.turn, 0);
    let member = own.members[1];
    assert_eq!([member.species, member.level, member.status], [128, 100, 0],);
    assert_eq!(member.moves, [70, 35, 0, 0]);
    assert_eq!(member.pp, [24, 32, 0, 0]);
    assert_eq!([member.hp, member.max_hp], [353; 2]);
    assert_eq!(member.stats, [298, 288, 318, 238]);
    let nobody = own.members[2];
    assert_eq!([nobody.species, nobody.moves[0], nobody.pp[0]], [0; 3]);
    Ok(())
}

// Speed 318 at stage 7 is 318 * 15 / 10 = 477, and a quarter of it is 119. The member's own Speed stays 318.
#[test]
fn a_paralysed_tauros_at_plus_1_speed() -> Result<(), Box<dyn Error>> {
    let mut packed = begun()?;
    packed.put_speed(Side::One, 7, 119);
    packed.put_status(Side::One, Status::Paralysed);
    packed.put_hp(Side::One, 17);
    let own = own_side(&packed, Side::One);
    assert_eq!(own.stats, [298, 288, 119, 238]);
    assert_eq!(own.stages, [6, 6, 7, 6, 6, 6]);
    assert_eq!(own.members[0].status, 5);
    assert_eq!(own.members[0].stats, [298, 288, 318, 238]);
    assert_eq!([own.members[0].hp, own.members[0].max_hp], [17, 353]);
    assert_eq!(own.turn, 1);
    assert_eq!(shown(&own), (1, 0, 0, 0, 1, 0, 1));
    let foe = own_side(&packed, Side::Two);
    assert_eq!(foe.stats, [298, 288, 318, 238]);
    assert_eq!([foe.members[0].hp, foe.members[1].hp], [353; 2]);
    Ok(())
}

// Asleep for 1 turn or for 7, by the foe or by Rest, it shows the kind 1 alone.
#[test]
fn a_sleeper_shows_no_turns() -> Result<(), Box<dyn Error>> {
    let mut packed = begun()?;
    for (turns, marked) in [(1, false), (7, true)] {
        packed.put_status(Side::Two, Status::Asleep { turns, marked });
        let own = own_side(&packed, Side::Two);
        assert_eq!([own.members[0].status, own.members[1].status], [1, 0]);
    }
    Ok(())
}

// The foe's Wrap, with any number of turns left, holds side 1. Side 2 is not held: it sees that it traps, which is bit 2.
#[test]
fn a_side_that_is_held() -> Result<(), Box<dyn Error>> {
    let mut packed = begun()?;
    packed.put_current_move(Side::Two, UsedMove::Slot(2));
    for turns in [0, 1, 4] {
        packed.put_trapping(Side::Two, turns);
        let held = own_side(&packed, Side::One);
        assert_eq!(shown(&held), (1, 0, 0, 1, 1, 0, 1));
        let trapping = own_side(&packed, Side::Two);
        assert_eq!(shown(&trapping), (1, 4, 0, 0, 1, 0, 2));
    }
    Ok(())
}

// Confusion is bit 6, a Substitute bit 9, Disable bit 16: 64 + 512 + 65536 = 66112. The bit of Flinch is not shown, nor is a count.
#[test]
fn conditions_without_counts() -> Result<(), Box<dyn Error>> {
    let mut packed = begun()?;
    for (number, turns) in [(1, 8), (5, 2)] {
        packed.put_confused(Side::One, Some(number));
        packed.put_substitute(Side::One, Some(number));
        packed.put_disabled(Side::One, Some(DisabledSlot { slot: 2, turns }));
        packed.put_flag(Side::One, Conditions::FLINCH, turns == 8);
        packed.put_last_damage(u16::from(turns));
        packed.put_picked_move(Side::One, UsedMove::Slot(number.min(2)));
        let own = own_side(&packed, Side::One);
        assert_eq!(shown(&own), (1, 66112, 2, 0, 1, 0, 1));
    }
    Ok(())
}
