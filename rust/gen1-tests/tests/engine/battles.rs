//! The calls of a battle, with the stored run of crates/battle_tool (stdin, stdout): two Tauros, two turns, and side 1 wins.
//! Each side has one Tauros at level 100, with the greatest DVs and experience, which knows Strength (docs/MECHANICS.md,
//! "Stats", "Log bytes").
use crate::rows::{Block, SEED, member_of, with};
use arrayvec::ArrayVec;
use gen1::generated::engine::packed::{choice_at, count_of};
use gen1::generated::engine::{Battle, BattleResult, Refusal, write_log};
use gen1::generated::events::LogBuf;
use gen1::generated::machine::{Choice, EventList, Outcome, Request, Rules, Side, TurnLimit};
use gen1::generated::stats::Team;
use std::error::Error;

// Both come out with 353 of 353 HP, and turn 1 begins. A critical Strength leaves 149 HP, a Strength leaves 263, and turn 2
// begins. A critical Strength leaves 0 HP, side 2's member falls, and side 1 wins.
pub(crate) static LOG: [u8; 82] = [
    0x02, 1, 128, 1, 100, 97, 1, 97, 1, 0, 0x02, 2, 128, 1, 100, 97, 1, 97, 1, 0, 0x01, 1, 0, 0x03,
    1, 128, 70, 2, 128, 0x07, 2, 128, 0x05, 2, 128, 149, 0, 97, 1, 0, 0, 0x03, 2, 128, 70, 1, 128,
    0x05, 1, 128, 7, 1, 97, 1, 0, 0, 0x01, 2, 0, 0x03, 1, 128, 70, 2, 128, 0x07, 2, 128, 0x05, 2,
    128, 0, 0, 97, 1, 0, 0, 0x19, 2, 128, 0x1A, 1,
];

pub(crate) const PAIRS: [(u8, u8); 3] = [(0x00, 0x00), (0x11, 0x11), (0x11, 0x11)];

/// Where the log of each pair ends: 23, 36 and 23 more bytes.
pub(crate) const ENDS: [usize; 3] = [23, 59, 82];

pub(crate) const WON: BattleResult = BattleResult {
    outcome: Outcome::WinOne,
    request_one: Request::Pass,
    request_two: Request::Pass,
};

// The team of each side. Strength has three PP ups.
pub(crate) fn tauros() -> Result<Team, Box<dyn Error>> {
    let tauros = member_of("Tauros", 100, [15; 4], [65535; 5], &[("Strength", 3)])?;
    Ok(Team::new(&[tauros])?)
}

pub(crate) fn two_tauros() -> Result<Battle, Box<dyn Error>> {
    let team = tauros()?;
    Ok(Battle::new(&team, &team, SEED))
}

// All bytes of a battle.
pub(crate) fn bytes_of(battle: &Battle) -> [u8; 384] {
    let mut bytes = [0; 384];
    for (place, byte) in bytes.iter_mut().zip(battle.bytes()) {
        *place = *byte;
    }
    bytes
}

// HP 353, Attack 298, Defense 288, Speed 318, Special 238, and Strength with 24 PP.
const TAUROS: [u8; 24] = [
    128, 100, 97, 1, 97, 1, 42, 1, 32, 1, 62, 1, 238, 0, 0, 70, 0, 0, 0, 24, 0, 0, 0, 0,
];

// Some bytes of the battle of two teams.
static FIRST_BYTES: [Block; 4] = [
    (
        0,
        // Version 3, turn 0, the seed, and a limit of 1,000.
        &[
            3, 0, 0, 0, 0, 0, 1, 36, 255, 7, 31, 100, 179, 254, 127, 10, 0, 0, 0, 0, 232, 3, 0, 0,
        ],
    ),
    (24, &TAUROS),
    (204, &TAUROS),
    (348, &[0; 36]),
];

#[test]
fn the_bytes_of_two_teams() -> Result<(), Box<dyn Error>> {
    let bytes = bytes_of(&two_tauros()?);
    assert_eq!(with(bytes, &FIRST_BYTES), bytes);
    Ok(())
}

fn offered(battle: &Battle, side: Side) -> ArrayVec<u8, 9> {
    let mut bytes = ArrayVec::new();
    for choice in battle.choices(side).as_slice() {
        let _ = bytes.try_push(choice.byte());
    }
    bytes
}

#[test]
fn both_pass_first() -> Result<(), Box<dyn Error>> {
    let battle = two_tauros()?;
    let asked = BattleResult {
        outcome: Outcome::Ongoing,
        request_one: Request::Pass,
        request_two: Request::Pass,
    };
    assert_eq!(battle.result(), asked);
    assert_eq!(offered(&battle, Side::One).as_slice(), [0x00].as_slice(),);
    assert_eq!(offered(&battle, Side::Two).as_slice(), [0x00].as_slice(),);
    assert_eq!(battle.offered_mask(Side::Two), 1);
    Ok(())
}

// A mask, a place, and the choice there as a byte. Digit 0 is Pass. Digits 2 and 11 are the first move and the switch to the
// last place.
static MASKS: [(u16, u8, Option<u8>); 6] = [
    (1, 0, Some(0x00)),
    (1, 1, None),
    (0x804, 0, Some(0x11)),
    (0x804, 1, Some(0x26)),
    (0x804, 2, None),
    (0, 0, None),
];

// The choice at a place of a mask, if the mask has that many.
fn chosen(mask: u16, place: u8) -> Option<u8> {
    if mask >= 4096 {
        return None;
    }
    if place >= count_of(mask) {
        return None;
    }
    Some(choice_at(mask, place).byte())
}

// Choices as bits (docs/MECHANICS.md, "Offered choices").
#[test]
fn choices_of_masks() {
    for (mask, place, byte) in MASKS {
        assert_eq!((mask, place, chosen(mask, place)), (mask, place, byte));
    }
}

#[test]
fn rules_and_limit_are_kept() -> Result<(), Box<dyn Error>> {
    let team = tauros()?;
    let rules = Rules::new(2).ok_or("no such rules")?;
    let limit = TurnLimit::new(9999).ok_or("no such limit")?;
    assert_terms(&two_tauros()?, (Rules::default(), 1000));
    assert_terms(
        &Battle::with_rules(&team, &team, SEED, rules),
        (rules, 1000),
    );
    assert_terms(
        &Battle::with_limit(&team, &team, SEED, rules, limit),
        (rules, 9999),
    );
    Ok(())
}

fn assert_terms(battle: &Battle, terms: (Rules, u16)) {
    assert_eq!((battle.rules(), battle.limit()), terms);
}

// Turn 1. Both sides are asked for a move, and side 1's Tauros is paralysed: its Speed of 318 is now 79, in bytes 181
// and 182.
static PARALYSED: [Block; 5] = [
    (
        0,
        &[
            3, 1, 0, 0, 0, 0, 1, 36, 255, 7, 31, 100, 179, 254, 127, 10, 0, 1, 1, 0, 232, 3, 0, 0,
        ],
    ),
    (24, &TAUROS),
    (168, &[1, 0, 0, 6, 6, 6, 6, 6, 6, 42, 1, 32, 1, 79, 0, 238]),
    (204, &TAUROS),
    (348, &[1, 0, 0, 6, 6, 6, 6, 6, 6, 42, 1, 32, 1, 62, 1, 238]),
];

// Bytes that are replaced, and the error: 0 if the bytes are read.
static LOADED: [(&[Block], u8); 4] = [
    (&[], 0),
    (&[(0, &[0])], 2),
    // HP of 354 with a maximum of 353.
    (&[(28, &[98])], 4),
    (&[(181, &[80])], 6),
];

// The number of the error, or 0 if the bytes are read.
fn fault(bytes: &[u8]) -> u8 {
    match Battle::load(bytes) {
        Ok(_) => 0,
        Err(fault) => fault.number(),
    }
}

// The first error (docs/LAYOUT.md, "Loading").
#[test]
fn the_first_fault_is_told() -> Result<(), Box<dyn Error>> {
    let bytes = with([0; 384], &PARALYSED);
    for (blocks, number) in LOADED {
        assert_eq!(fault(&with(bytes, blocks)), number);
    }
    let (_, cut) = bytes.as_slice().split_last().ok_or("no byte")?;
    assert_eq!(fault(cut), 1);
    Ok(())
}

// A loaded battle has the bytes that it was read from (docs/LAYOUT.md, "Loading").
#[test]
fn bytes_are_loaded_as_they_are() -> Result<(), Box<dyn Error>> {
    let bytes = with([0; 384], &PARALYSED);
    let battle = Battle::load(&bytes)?;
    assert_eq!(bytes_of(&battle), bytes);
    let found = battle.result();
    assert_eq!(
        (found.outcome, found.request_two),
        (Outcome::Ongoing, Request::Move),
    );
    assert_eq!(offered(&battle, Side::One).len(), 1);
    Ok(())
}

// The part of `LOG` that is written for a pair.
fn part(pair: usize) -> &'static [u8] {
    match pair {
        0 => &LOG[..23],
        1 => &LOG[23..59],
        _ => &LOG[59..],
    }
}

fn choice(byte: u8) -> Result<Choice, Box<dyn Error>> {
    Ok(Choice::from_byte(byte).ok_or("no such choice")?)
}

#[test]
fn the_log_of_each_update() -> Result<(), Box<dyn Error>> {
    let mut battle = two_tauros()?;
    let mut log = LogBuf::new();
    for (pair, (one, two)) in PAIRS.into_iter().enumerate() {
        let _ = battle.update(choice(one)?, choice(two)?, &mut log)?;
        assert_eq!(log.as_slice(), part(pair));
    }
    assert_eq!(battle.result(), WON);
    Ok(())
}

#[test]
fn the_events_of_an_update() -> Result<(), Box<dyn Error>> {
    let mut battle = played(1)?;
    let mut events = EventList::new();
    let mut log = LogBuf::new();
    battle.update_events(choice(0x11)?, choice(0x11)?, &mut events)?;
    assert_eq!(events.len(), 6);
    write_log(&events, &mut log);
    assert_eq!(log.as_slice(), part(1));
    Ok(())
}

/// The battle after this many of the pairs.
pub(crate) fn played(count: usize) -> Result<Battle, Box<dyn Error>> {
    let mut battle = two_tauros()?;
    for (one, two) in PAIRS.iter().take(count) {
        update(&mut battle, *one, *two)?;
    }
    Ok(battle)
}

// Plays a pair, or returns why it is refused.
fn update(battle: &mut Battle, one: u8, two: u8) -> Result<BattleResult, Refusal> {
    battle.update_by_bytes(one, two, &mut LogBuf::new())
}

// How many pairs are played before it, a pair, and why it is refused.
static REFUSED: [(usize, u8, u8, Refusal); 3] = [
    (1, 0x14, 0x11, Refusal::NotOffered(Side::One)),
    (1, 0x11, 0xff, Refusal::NotOffered(Side::Two)),
    (3, 0x00, 0x00, Refusal::Over),
];

#[test]
fn a_refused_pair_changes_nothing() -> Result<(), Box<dyn Error>> {
    for (count, one, two, refusal) in REFUSED {
        let mut battle = played(count)?;
        let before = bytes_of(&battle);
        let mut log = LogBuf::new();
        log.push(7);
        let found = battle.update_by_bytes(one, two, &mut log);
        assert_eq!(found, Err(refusal));
        assert_eq!(bytes_of(&battle), before);
        assert_eq!(log.as_slice(), [7].as_slice());
    }
    Ok(())
}

#[test]
fn a_clone_plays_on_alone() -> Result<(), Box<dyn Error>> {
    let mut battle = played(1)?;
    let before = bytes_of(&battle);
    let mut copy = battle.clone();
    assert_eq!(bytes_of(&copy), before);
    update(&mut copy, 0x11, 0x11)?;
    assert_eq!(bytes_of(&battle), before);
    update(&mut battle, 0x11, 0x11)?;
    assert_eq!(bytes_of(&battle), bytes_of(&copy));
    Ok(())
}
