//! Whole battles that an independent program recorded, played by `start`, `turn` and `replace`. After each update all
//! 384 bytes and the log are as recorded. `tools/gen` writes them.
use crate::recorded_battles::BATTLES;
use crate::rows::member_of;
use arrayvec::ArrayVec;
use gen1::generated::events::{LogBuf, write};
use gen1::generated::layout::Packed;
use gen1::generated::machine::{Choice, EventList, Request, Rules, Side, TurnLimit};
use gen1::generated::stats::{MemberSpec, Team};
use gen1::generated::turn::{replace, start, turn};
use std::error::Error;

/// A species, its level, DVs and experience, and its moves with their PP ups.
pub(crate) type Member = (
    &'static str,
    u8,
    [u8; 4],
    [u16; 5],
    &'static [(&'static str, u8)],
);

#[derive(Clone, Copy)]
pub(crate) struct Recorded {
    pub(crate) name: &'static str,
    pub(crate) seed: [u8; 10],
    pub(crate) rules: u8,
    pub(crate) limit: u16,
    pub(crate) one: &'static [Member],
    pub(crate) two: &'static [Member],
    pub(crate) updates: &'static [Update],
}

/// An update: the bytes of both choices, and in hex the log, the header, and three lines for each side.
#[derive(Clone, Copy)]
pub(crate) struct Update {
    pub(crate) choices: (u8, u8),
    pub(crate) log: &'static str,
    pub(crate) bytes: [&'static str; 7],
}

#[test]
fn battles_are_played_as_they_were_recorded() -> Result<(), Box<dyn Error>> {
    for recorded in BATTLES {
        let as_recorded = played(&recorded)?;
        assert_eq!(
            (recorded.name, as_recorded),
            (recorded.name, recorded.updates.len())
        );
    }
    Ok(())
}

// How many updates came out as recorded, up to the first that didn't.
fn played(recorded: &Recorded) -> Result<usize, Box<dyn Error>> {
    let (one, two) = (team(recorded.one)?, team(recorded.two)?);
    let rules = Rules::new(recorded.rules).ok_or("no such rules")?;
    let limit = TurnLimit::new(recorded.limit).ok_or("no such limit")?;
    let mut battle = Packed::with_limit(&one, &two, recorded.seed, rules, limit);
    for (number, update) in recorded.updates.iter().enumerate() {
        let first = Choice::from_byte(update.choices.0).ok_or("no such choice")?;
        let second = Choice::from_byte(update.choices.1).ok_or("no such choice")?;
        let events = run_update(&mut battle, first, second);
        let log = log_of(&events);
        if !is_written(&log, &[update.log]) || !is_written(battle.as_bytes(), &update.bytes) {
            return Ok(number);
        }
    }
    Ok(recorded.updates.len())
}

fn team(members: &[Member]) -> Result<Team, Box<dyn Error>> {
    let mut specs = ArrayVec::<MemberSpec, 6>::new();
    for (species, level, dvs, exp, moves) in members {
        if specs
            .try_push(member_of(species, *level, *dvs, *exp, moves)?)
            .is_err()
        {
            return Err("more than six members".into());
        }
    }
    Ok(Team::new(specs.as_slice())?)
}

// Plays the update that was asked for. A turn draws from the generator in the bytes, and writes it back.
fn run_update(battle: &mut Packed, one: Choice, two: Choice) -> EventList {
    let mut events = EventList::new();
    match (battle.request(Side::One), battle.request(Side::Two)) {
        (Request::Pass, Request::Pass) => start(battle, &mut events),
        (Request::Move, Request::Move) => {
            if let Some(random) = battle.generator() {
                let left = turn(battle, one, two, random, &mut events);
                battle.put_generator(&left);
            }
        }
        _ => replace(battle, one, two, &mut events),
    }
    events
}

fn log_of(events: &EventList) -> LogBuf {
    let mut log = LogBuf::new();
    for event in events {
        write(event, &mut log);
    }
    log
}

// Whether these are the bytes, two digits each, line after line.
fn is_written(bytes: &[u8], lines: &[&'static str]) -> bool {
    let mut left = bytes.iter();
    for line in lines {
        for pair in line.as_bytes().chunks_exact(2) {
            match left.next() {
                Some(byte) if is_pair(*byte, pair) => {}
                _ => return false,
            }
        }
    }
    left.next().is_none()
}

fn is_pair(byte: u8, pair: &[u8]) -> bool {
    match pair {
        [high, low] => *high == digit(byte >> 4) && *low == digit(byte & 15),
        _ => false,
    }
}

fn digit(value: u8) -> u8 {
    match value {
        0..=9 => b'0' + value,
        10..=15 => b'a' + (value - 10),
        _ => b'?',
    }
}
