//! Whole battles: after each update the view that followed the logs shows what the bytes of the battle say.
use crate::events::{ONE, TWO};
use crate::teams::{SEED, lead_and_chansey, tauros};
use crate::views::{Shown, expect};
use gen1::generated::engine::Battle;
use gen1::generated::events::{LogBuf, LogReader};
use gen1::generated::machine::{Choice, Kind, Outcome, Side};
use gen1::generated::spectator::View;
use gen1::generated::stats::Team;
use gen1::generated::tables::Stat;
use std::error::Error;

// The offsets of the parts of a battle in its bytes (docs/LAYOUT.md).
const SIDES: usize = 24;

const SIDE_LENGTH: usize = 180;

const MEMBER_LENGTH: usize = 24;

const ACTIVE: usize = 144;

fn byte(bytes: &[u8], at: usize) -> u8 {
    bytes.get(at).copied().unwrap_or(0)
}

fn number(bytes: &[u8], at: usize) -> u16 {
    u16::from_le_bytes([byte(bytes, at), byte(bytes, at.saturating_add(1))])
}

fn kind(status: u8) -> Option<Kind> {
    match status {
        0 => None,
        8 => Some(Kind::Poison),
        16 => Some(Kind::Burn),
        32 => Some(Kind::Freeze),
        64 => Some(Kind::Paralysis),
        _ => Some(Kind::Sleep),
    }
}

fn outcome(number: u8) -> Outcome {
    match number {
        0 => Outcome::Ongoing,
        1 => Outcome::WinOne,
        2 => Outcome::WinTwo,
        3 => Outcome::Tie,
        fault => Outcome::Fault(fault - 3),
    }
}

fn shows_members(view: &View, side: Side, bytes: &[u8]) -> bool {
    for place in 1..7u8 {
        let member = (usize::from(place) - 1) * MEMBER_LENGTH;
        let hp = view.hp(side, place) == number(bytes, member + 4);
        if !hp || view.status(side, place) != kind(byte(bytes, member + 14)) {
            return false;
        }
    }
    true
}

fn shows_stages(view: &View, side: Side, bytes: &[u8]) -> bool {
    let stats = [
        Stat::Attack,
        Stat::Defense,
        Stat::Speed,
        Stat::Special,
        Stat::Accuracy,
        Stat::Evasion,
    ];
    for (index, stat) in stats.into_iter().enumerate() {
        let stage = i16::from(view.stage(side, stat)).saturating_add(6);
        if stage != i16::from(byte(bytes, ACTIVE + 3 + index)) {
            return false;
        }
    }
    true
}

fn shows_conditions(view: &View, side: Side, bytes: &[u8]) -> bool {
    let low = number(bytes, ACTIVE + 17);
    view.confused(side) == (low & 64 != 0)
        && view.substitute(side) == (low & 512 != 0)
        && view.screens(side) == [low & 16384 != 0, low & 32768 != 0]
}

fn shows_side(view: &View, side: Side, bytes: &[u8]) -> bool {
    view.place(side) == byte(bytes, ACTIVE)
        && shows_members(view, side, bytes)
        && shows_stages(view, side, bytes)
        && shows_conditions(view, side, bytes)
}

fn shows(view: &View, bytes: &[u8]) -> bool {
    let one = bytes.get(SIDES..SIDES + SIDE_LENGTH).unwrap_or(&[]);
    let two = bytes.get(SIDES + SIDE_LENGTH..).unwrap_or(&[]);
    view.turn() == number(bytes, 1)
        && view.outcome() == outcome(byte(bytes, 16))
        && shows_side(view, Side::One, one)
        && shows_side(view, Side::Two, two)
}

// The choice of this byte if it is offered, otherwise the first that is.
fn choice(battle: &Battle, side: Side, wish: u8) -> Result<Choice, Box<dyn Error>> {
    let offered = battle.choices(side);
    for choice in offered.as_slice() {
        if choice.byte() == wish {
            return Ok(*choice);
        }
    }
    Ok(offered.first().copied().ok_or("nothing is offered")?)
}

// Starts a battle, and plays one pair of bytes in each further update.
fn watch(one: &Team, two: &Team, wishes: &[(u8, u8)]) -> Result<View, Box<dyn Error>> {
    let mut battle = Battle::new(one, two, SEED);
    let mut view = View::new(one, two);
    let mut reader = LogReader::new();
    let mut log = LogBuf::new();
    for wish in [(0, 0)].iter().chain(wishes) {
        let first = choice(&battle, Side::One, wish.0)?;
        let second = choice(&battle, Side::Two, wish.1)?;
        battle.update(first, second, &mut log)?;
        view.follow(&mut reader, log.as_slice())?;
        if !shows(&view, battle.bytes()) {
            return Err("the view is not what the battle shows".into());
        }
    }
    Ok(view)
}

/// A battle of a Tauros that knows these moves and a Chansey on each side. The choices are bytes; where one isn't offered, the first
/// that is offered is taken.
#[derive(Clone, Copy)]
struct Row {
    name: &'static str,
    one: &'static [&'static str],
    two: &'static [&'static str],
    choices: &'static [(u8, u8)],
    shown: &'static [Shown],
}

static BATTLES: [Row; 8] = [
    Row {
        name: "Haze, before it",
        one: &["Swords Dance", "Reflect", "Haze", "Light Screen"],
        two: &["Amnesia", "Light Screen", "Barrier", "Strength"],
        choices: &[(0x11, 0x11), (0x12, 0x12)],
        shown: &[
            Shown::Stage(ONE, Stat::Attack, 2),
            Shown::Stage(TWO, Stat::Special, 2),
            Shown::Screens(TWO, [true, false]),
        ],
    },
    Row {
        name: "Haze, after it",
        one: &["Swords Dance", "Reflect", "Haze", "Light Screen"],
        two: &["Amnesia", "Light Screen", "Barrier", "Strength"],
        choices: &[(0x11, 0x11), (0x12, 0x12), (0x13, 0x14)],
        shown: &[
            Shown::Stage(TWO, Stat::Special, 0),
            Shown::Screens(TWO, [false, false]),
        ],
    },
    Row {
        name: "a substitute is made",
        one: &["Substitute", "Recover"],
        two: &["Strength", "Splash"],
        choices: &[(0x11, 0x12)],
        shown: &[Shown::Substitute(ONE, true), Shown::Hp(ONE, 1, 265)],
    },
    Row {
        name: "a substitute is hit",
        one: &["Substitute", "Recover"],
        two: &["Strength", "Splash"],
        choices: &[(0x11, 0x12), (0x12, 0x11), (0x12, 0x11), (0x11, 0x11)],
        shown: &[Shown::Turn(5)],
    },
    Row {
        name: "Rest",
        one: &["Splash", "Rest"],
        two: &["Strength", "Splash"],
        choices: &[(0x11, 0x11), (0x12, 0x12)],
        shown: &[
            Shown::Status(ONE, 1, Some(Kind::Sleep)),
            Shown::Hp(ONE, 1, 353),
        ],
    },
    Row {
        name: "switches",
        one: &["Confuse Ray", "Thunder Wave"],
        two: &["Double Team", "Toxic"],
        choices: &[(0x11, 0x11), (0x12, 0x12), (0x22, 0x22), (0x11, 0x21)],
        shown: &[
            Shown::Place(ONE, 2),
            Shown::Place(TWO, 1),
            Shown::Stage(TWO, Stat::Evasion, 0),
            Shown::Confused(TWO, false),
        ],
    },
    Row {
        name: "Explosion",
        one: &["Explosion"],
        two: &["Splash", "Swords Dance"],
        choices: &[(0x11, 0x12)],
        shown: &[Shown::Hp(ONE, 1, 0), Shown::Place(ONE, 1)],
    },
    Row {
        name: "Explosion, and a replacement",
        one: &["Explosion"],
        two: &["Splash", "Swords Dance"],
        choices: &[(0x11, 0x12), (0x22, 0x22), (0x11, 0x11)],
        shown: &[Shown::Place(ONE, 2)],
    },
];

#[test]
fn battles_are_shown() -> Result<(), Box<dyn Error>> {
    for row in BATTLES {
        let view = watch(
            &lead_and_chansey(row.one)?,
            &lead_and_chansey(row.two)?,
            row.choices,
        )?;
        for (number, shown) in row.shown.iter().enumerate() {
            expect(&view, *shown, (row.name, number));
        }
    }
    Ok(())
}

#[test]
fn the_stored_battle_is_shown() -> Result<(), Box<dyn Error>> {
    let view = watch(&tauros()?, &tauros()?, &[(0x11, 0x11), (0x11, 0x11)])?;
    for shown in [
        Shown::Place(ONE, 1),
        Shown::Place(TWO, 1),
        Shown::Hp(ONE, 1, 263),
        Shown::Hp(TWO, 1, 0),
        Shown::Turn(2),
        Shown::Outcome(Outcome::WinOne),
    ] {
        expect(&view, shown, ("the stored battle", 0));
    }
    Ok(())
}

// Leech Seed drains some HP each turn.
#[test]
fn a_battle_with_leech_seed() -> Result<(), Box<dyn Error>> {
    let one = lead_and_chansey(&["Leech Seed", "Strength"])?;
    let two = lead_and_chansey(&["Strength", "Splash"])?;
    let choices = [(0x11, 0x11), (0x11, 0x12), (0x12, 0x11), (0x12, 0x12)];
    let view = watch(&one, &two, &choices)?;
    assert!(view.hp(TWO, 1) < 353);
    Ok(())
}
