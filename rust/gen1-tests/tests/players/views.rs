//! What each event changes, by the table of docs/MECHANICS.md, "Spectator's view", and a view that follows log bytes
//! (docs/MECHANICS.md, "Log bytes"). In the first tests each side has a Tauros of 353 HP at place 1 and a Chansey of 703 at place 2.
use crate::events::Tell::{
    Activate, Boost, ClearAll, Cure, Damage, End, Faint, Fault, Heal, Start, Status, Switch, Tie,
    Turn, Unboost, Win,
};
use crate::events::{ONE, TAUROS, TWO, Tell, event};
use crate::teams::{lead_and_chansey, tauros};
use gen1::generated::events::{LogFault, LogReader};
use gen1::generated::machine::{DamageSource, Kind, Outcome, Side, Volatile};
use gen1::generated::spectator::View;
use gen1::generated::tables::Stat;
use std::error::Error;

// Which member is named doesn't depend on the species.
const OUT: [u8; 2] = [TAUROS, TAUROS];

/// A name, and events with what is shown after them.
#[derive(Clone, Copy)]
struct Row {
    name: &'static str,
    steps: &'static [Step],
}

#[derive(Clone, Copy)]
enum Step {
    /// Each side's place 1 comes out.
    Begin,
    Tells(Tell),
    Shows(Shown),
}

/// What a view shows.
#[derive(Clone, Copy, Debug, PartialEq)]
pub(crate) enum Shown {
    Turn(u16),
    Outcome(Outcome),
    Place(Side, u8),
    Hp(Side, u8, u16),
    Status(Side, u8, Option<Kind>),
    Stage(Side, Stat, i8),
    Substitute(Side, bool),
    Confused(Side, bool),
    Screens(Side, [bool; 2]),
}

/// The fact with the values that the view shows.
fn found(view: &View, shown: Shown) -> Shown {
    match shown {
        Shown::Turn(_) => Shown::Turn(view.turn()),
        Shown::Outcome(_) => Shown::Outcome(view.outcome()),
        Shown::Place(side, _) => Shown::Place(side, view.place(side)),
        Shown::Hp(side, place, _) => Shown::Hp(side, place, view.hp(side, place)),
        Shown::Status(side, place, _) => Shown::Status(side, place, view.status(side, place)),
        Shown::Stage(side, stat, _) => Shown::Stage(side, stat, view.stage(side, stat)),
        Shown::Substitute(side, _) => Shown::Substitute(side, view.substitute(side)),
        Shown::Confused(side, _) => Shown::Confused(side, view.confused(side)),
        Shown::Screens(side, _) => Shown::Screens(side, view.screens(side)),
    }
}

static EVENTS: [Row; 17] = [
    Row {
        name: "before the start all are unhurt and nobody is out",
        steps: &[
            Step::Shows(Shown::Place(ONE, 0)),
            Step::Shows(Shown::Hp(ONE, 1, 353)),
            Step::Shows(Shown::Hp(ONE, 2, 703)),
            Step::Shows(Shown::Status(ONE, 2, None)),
            Step::Shows(Shown::Stage(ONE, Stat::Speed, 0)),
            Step::Shows(Shown::Screens(ONE, [false, false])),
            Step::Shows(Shown::Place(TWO, 0)),
            Step::Shows(Shown::Hp(TWO, 1, 353)),
            Step::Shows(Shown::Hp(TWO, 2, 703)),
            Step::Shows(Shown::Status(TWO, 2, None)),
            Step::Shows(Shown::Stage(TWO, Stat::Speed, 0)),
            Step::Shows(Shown::Screens(TWO, [false, false])),
            Step::Shows(Shown::Turn(0)),
            Step::Shows(Shown::Outcome(Outcome::Ongoing)),
        ],
    },
    Row {
        name: "there is nobody at place 0 and past the last",
        steps: &[
            Step::Begin,
            Step::Shows(Shown::Hp(ONE, 0, 0)),
            Step::Shows(Shown::Status(ONE, 0, None)),
            Step::Shows(Shown::Hp(ONE, 3, 0)),
            Step::Shows(Shown::Status(ONE, 3, None)),
            Step::Shows(Shown::Hp(ONE, 6, 0)),
            Step::Shows(Shown::Status(ONE, 6, None)),
            Step::Shows(Shown::Hp(ONE, 255, 0)),
            Step::Shows(Shown::Status(ONE, 255, None)),
        ],
    },
    Row {
        name: "nothing but a switch changes a side with nobody out",
        steps: &[
            Step::Tells(Damage(ONE, 12, 353, DamageSource::Direct)),
            Step::Tells(Boost(ONE, Stat::Attack, 2)),
            Step::Tells(Start(ONE, Volatile::Substitute)),
            Step::Shows(Shown::Hp(ONE, 1, 353)),
            Step::Shows(Shown::Stage(ONE, Stat::Attack, 0)),
            Step::Shows(Shown::Substitute(ONE, false)),
        ],
    },
    Row {
        name: "a switch shows who comes out",
        steps: &[
            Step::Begin,
            Step::Tells(Switch(ONE, TAUROS, 2, 500, 703, Some(Kind::Paralysis))),
            Step::Shows(Shown::Place(ONE, 2)),
            Step::Shows(Shown::Place(TWO, 1)),
            Step::Shows(Shown::Hp(ONE, 1, 353)),
            Step::Shows(Shown::Hp(ONE, 2, 500)),
            Step::Shows(Shown::Status(ONE, 2, Some(Kind::Paralysis))),
            Step::Shows(Shown::Status(ONE, 1, None)),
        ],
    },
    Row {
        name: "a switch clears stages and conditions",
        steps: &[
            Step::Begin,
            Step::Tells(Boost(ONE, Stat::Attack, 2)),
            Step::Tells(Start(ONE, Volatile::Substitute)),
            Step::Tells(Start(ONE, Volatile::Confusion)),
            Step::Tells(Start(ONE, Volatile::Reflect)),
            Step::Tells(Switch(ONE, TAUROS, 2, 703, 703, None)),
            Step::Shows(Shown::Stage(ONE, Stat::Attack, 0)),
            Step::Shows(Shown::Substitute(ONE, false)),
            Step::Shows(Shown::Confused(ONE, false)),
            Step::Shows(Shown::Screens(ONE, [false, false])),
        ],
    },
    Row {
        name: "a switch to a place without a member changes nothing",
        steps: &[
            Step::Begin,
            Step::Tells(Boost(ONE, Stat::Attack, 1)),
            Step::Tells(Switch(ONE, TAUROS, 3, 11, 11, None)),
            Step::Shows(Shown::Place(ONE, 1)),
            Step::Shows(Shown::Hp(ONE, 1, 353)),
            Step::Shows(Shown::Hp(ONE, 3, 0)),
            Step::Shows(Shown::Stage(ONE, Stat::Attack, 1)),
        ],
    },
    Row {
        name: "Damage and Heal change HP alone",
        steps: &[
            Step::Begin,
            Step::Tells(Status(TWO, Kind::Burn)),
            Step::Tells(Damage(TWO, 12, 353, DamageSource::Direct)),
            Step::Shows(Shown::Hp(TWO, 1, 12)),
            Step::Shows(Shown::Hp(ONE, 1, 353)),
            Step::Shows(Shown::Status(TWO, 1, Some(Kind::Burn))),
            Step::Tells(Heal(TWO, 188, 353, None)),
            Step::Shows(Shown::Hp(TWO, 1, 188)),
            Step::Shows(Shown::Status(TWO, 1, Some(Kind::Burn))),
        ],
    },
    Row {
        name: "a status comes and is cured",
        steps: &[
            Step::Begin,
            Step::Tells(Status(ONE, Kind::Freeze)),
            Step::Shows(Shown::Status(ONE, 1, Some(Kind::Freeze))),
            Step::Shows(Shown::Status(TWO, 1, None)),
            Step::Tells(Cure(ONE, Kind::Freeze)),
            Step::Shows(Shown::Status(ONE, 1, None)),
        ],
    },
    Row {
        name: "Rest is sleep at full HP: it writes Status, then Heal",
        steps: &[
            Step::Begin,
            Step::Tells(Status(ONE, Kind::Poison)),
            Step::Tells(Damage(ONE, 40, 353, DamageSource::Direct)),
            Step::Tells(Status(ONE, Kind::Sleep)),
            Step::Tells(Heal(ONE, 353, 353, Some(Kind::Sleep))),
            Step::Shows(Shown::Hp(ONE, 1, 353)),
            Step::Shows(Shown::Status(ONE, 1, Some(Kind::Sleep))),
        ],
    },
    Row {
        name: "who faints has no HP and no status",
        steps: &[
            Step::Begin,
            Step::Tells(Status(TWO, Kind::Paralysis)),
            Step::Tells(Faint(TWO)),
            Step::Shows(Shown::Place(TWO, 1)),
            Step::Shows(Shown::Hp(TWO, 1, 0)),
            Step::Shows(Shown::Status(TWO, 1, None)),
        ],
    },
    Row {
        name: "stages are cut at six",
        steps: &[
            Step::Begin,
            Step::Tells(Boost(ONE, Stat::Evasion, 2)),
            Step::Shows(Shown::Stage(ONE, Stat::Evasion, 2)),
            Step::Tells(Boost(ONE, Stat::Evasion, 2)),
            Step::Shows(Shown::Stage(ONE, Stat::Evasion, 4)),
            Step::Tells(Boost(ONE, Stat::Evasion, 2)),
            Step::Shows(Shown::Stage(ONE, Stat::Evasion, 6)),
            Step::Tells(Boost(ONE, Stat::Evasion, 2)),
            Step::Shows(Shown::Stage(ONE, Stat::Evasion, 6)),
            Step::Tells(Unboost(TWO, Stat::Special, 1)),
            Step::Shows(Shown::Stage(TWO, Stat::Special, -1)),
            Step::Tells(Unboost(TWO, Stat::Special, 1)),
            Step::Shows(Shown::Stage(TWO, Stat::Special, -2)),
            Step::Tells(Unboost(TWO, Stat::Special, 2)),
            Step::Shows(Shown::Stage(TWO, Stat::Special, -4)),
            Step::Tells(Unboost(TWO, Stat::Special, 2)),
            Step::Shows(Shown::Stage(TWO, Stat::Special, -6)),
            Step::Tells(Unboost(TWO, Stat::Special, 2)),
            Step::Shows(Shown::Stage(TWO, Stat::Special, -6)),
            Step::Shows(Shown::Stage(ONE, Stat::Accuracy, 0)),
            Step::Shows(Shown::Stage(TWO, Stat::Evasion, 0)),
        ],
    },
    Row {
        name: "Haze clears both sides",
        steps: &[
            // Haze writes ClearAll for both sides. It ends no substitute, and a separate Cure reports the foe's status.
            Step::Begin,
            Step::Tells(Start(ONE, Volatile::Confusion)),
            Step::Tells(Start(ONE, Volatile::LightScreen)),
            Step::Tells(Start(ONE, Volatile::Substitute)),
            Step::Tells(Status(ONE, Kind::Burn)),
            Step::Tells(Unboost(ONE, Stat::Defense, 1)),
            Step::Tells(Start(TWO, Volatile::Confusion)),
            Step::Tells(Start(TWO, Volatile::LightScreen)),
            Step::Tells(Start(TWO, Volatile::Substitute)),
            Step::Tells(Status(TWO, Kind::Burn)),
            Step::Tells(Unboost(TWO, Stat::Defense, 1)),
            Step::Tells(ClearAll),
            Step::Shows(Shown::Confused(ONE, false)),
            Step::Shows(Shown::Substitute(ONE, true)),
            Step::Shows(Shown::Screens(ONE, [false, false])),
            Step::Shows(Shown::Stage(ONE, Stat::Defense, 0)),
            Step::Shows(Shown::Status(ONE, 1, Some(Kind::Burn))),
            Step::Shows(Shown::Confused(TWO, false)),
            Step::Shows(Shown::Substitute(TWO, true)),
            Step::Shows(Shown::Screens(TWO, [false, false])),
            Step::Shows(Shown::Stage(TWO, Stat::Defense, 0)),
            Step::Shows(Shown::Status(TWO, 1, Some(Kind::Burn))),
        ],
    },
    Row {
        name: "a substitute starts and ends",
        steps: &[
            Step::Begin,
            Step::Tells(Start(ONE, Volatile::Substitute)),
            Step::Tells(Damage(ONE, 265, 353, DamageSource::Direct)),
            Step::Shows(Shown::Substitute(ONE, true)),
            Step::Shows(Shown::Substitute(TWO, false)),
            Step::Shows(Shown::Hp(ONE, 1, 265)),
            Step::Tells(Activate(ONE, Volatile::Substitute)),
            Step::Shows(Shown::Substitute(ONE, true)),
            Step::Tells(End(ONE, Volatile::Substitute)),
            Step::Shows(Shown::Substitute(ONE, false)),
        ],
    },
    Row {
        name: "confusion starts and ends",
        steps: &[
            Step::Begin,
            Step::Tells(Start(TWO, Volatile::Confusion)),
            Step::Shows(Shown::Confused(TWO, true)),
            Step::Shows(Shown::Confused(ONE, false)),
            Step::Tells(End(TWO, Volatile::Confusion)),
            Step::Shows(Shown::Confused(TWO, false)),
        ],
    },
    Row {
        name: "screens are told apart",
        steps: &[
            Step::Begin,
            Step::Tells(Start(ONE, Volatile::LightScreen)),
            Step::Tells(Start(TWO, Volatile::Reflect)),
            Step::Shows(Shown::Screens(ONE, [true, false])),
            Step::Shows(Shown::Screens(TWO, [false, true])),
        ],
    },
    Row {
        name: "Leech Seed shows in HP alone",
        steps: &[
            Step::Begin,
            Step::Tells(Damage(ONE, 300, 353, DamageSource::Direct)),
            Step::Tells(Start(TWO, Volatile::LeechSeed)),
            Step::Shows(Shown::Substitute(TWO, false)),
            Step::Shows(Shown::Confused(TWO, false)),
            Step::Shows(Shown::Screens(TWO, [false, false])),
            Step::Tells(Damage(TWO, 331, 353, DamageSource::LeechSeed)),
            Step::Tells(Heal(ONE, 322, 353, None)),
            Step::Shows(Shown::Hp(TWO, 1, 331)),
            Step::Shows(Shown::Hp(ONE, 1, 322)),
        ],
    },
    Row {
        name: "turns and ends are those that they name",
        steps: &[
            Step::Begin,
            Step::Tells(Turn(9999)),
            Step::Shows(Shown::Turn(9999)),
            Step::Shows(Shown::Outcome(Outcome::Ongoing)),
            Step::Tells(Win(ONE)),
            Step::Shows(Shown::Outcome(Outcome::WinOne)),
            Step::Tells(Win(TWO)),
            Step::Shows(Shown::Outcome(Outcome::WinTwo)),
            Step::Tells(Tie),
            Step::Shows(Shown::Outcome(Outcome::Tie)),
            Step::Tells(Fault(2)),
            Step::Shows(Shown::Outcome(Outcome::Fault(2))),
        ],
    },
];

#[test]
fn what_each_event_shows() -> Result<(), Box<dyn Error>> {
    let team = lead_and_chansey(&["Strength", "Wrap"])?;
    for row in EVENTS {
        let mut view = View::new(&team, &team);
        for (number, step) in row.steps.iter().enumerate() {
            take(&mut view, *step, (row.name, number))?;
        }
    }
    Ok(())
}

fn take(view: &mut View, step: Step, at: (&str, usize)) -> Result<(), Box<dyn Error>> {
    match step {
        Step::Begin => {
            view.apply(&event(Switch(ONE, TAUROS, 1, 353, 353, None), OUT)?);
            view.apply(&event(Switch(TWO, TAUROS, 1, 353, 353, None), OUT)?);
        }
        Step::Tells(tell) => view.apply(&event(tell, OUT)?),
        Step::Shows(shown) => expect(view, shown, at),
    }
    Ok(())
}

/// Asserts that the view shows this. A failure names the row and the number of the step, from 0.
pub(crate) fn expect(view: &View, shown: Shown, at: (&str, usize)) {
    assert_eq!(found(view, shown), shown, "in {at:?}");
}

// The log of the battle that is stored in crates/battle_tool (stdin, stdout): both come out, the first turn hits
// each, and the second makes side 2 fall.
static LOG: [u8; 82] = [
    0x02, 1, 128, 1, 100, 97, 1, 97, 1, 0, 0x02, 2, 128, 1, 100, 97, 1, 97, 1, 0, 0x01, 1, 0, 0x03,
    1, 128, 70, 2, 128, 0x07, 2, 128, 0x05, 2, 128, 149, 0, 97, 1, 0, 0, 0x03, 2, 128, 70, 1, 128,
    0x05, 1, 128, 7, 1, 97, 1, 0, 0, 0x01, 2, 0, 0x03, 1, 128, 70, 2, 128, 0x07, 2, 128, 0x05, 2,
    128, 0, 0, 97, 1, 0, 0, 0x19, 2, 128, 0x1A, 1,
];

fn new_view() -> Result<View, Box<dyn Error>> {
    let team = tauros()?;
    Ok(View::new(&team, &team))
}

// Whether the view shows the end of that battle.
fn shows_the_end(view: &View) -> bool {
    view.place(Side::One) == 1
        && view.place(Side::Two) == 1
        && view.hp(Side::One, 1) == 263
        && view.hp(Side::Two, 1) == 0
        && view.turn() == 2
        && view.outcome() == Outcome::WinOne
}

#[test]
fn the_stored_battle_is_seen_to_its_end() -> Result<(), Box<dyn Error>> {
    let mut view = new_view()?;
    let mut reader = LogReader::new();
    assert_eq!(view.follow(&mut reader, &LOG), Ok(()));
    assert!(shows_the_end(&view));
    assert_eq!(reader.finish(), Ok(()));
    Ok(())
}

#[test]
fn each_update_is_seen_by_itself() -> Result<(), Box<dyn Error>> {
    let mut view = new_view()?;
    let mut reader = LogReader::new();
    assert_eq!(view.follow(&mut reader, &LOG[..23]), Ok(()));
    assert_eq!((view.turn(), view.hp(Side::Two, 1)), (1, 353));
    assert_eq!(view.follow(&mut reader, &LOG[23..59]), Ok(()));
    assert_eq!((view.turn(), view.hp(Side::Two, 1)), (2, 149));
    assert_eq!(view.follow(&mut reader, &LOG[59..]), Ok(()));
    assert!(shows_the_end(&view));
    Ok(())
}

#[test]
fn a_log_is_followed_byte_by_byte() -> Result<(), Box<dyn Error>> {
    let mut view = new_view()?;
    let mut reader = LogReader::new();
    for byte in LOG {
        assert_eq!(view.follow(&mut reader, &[byte]), Ok(()));
    }
    assert!(shows_the_end(&view));
    Ok(())
}

#[test]
fn a_log_is_followed_however_it_is_cut() -> Result<(), Box<dyn Error>> {
    for cut in 0..=LOG.len() {
        let mut view = new_view()?;
        let mut reader = LogReader::new();
        assert_eq!(view.follow(&mut reader, &LOG[..cut]), Ok(()));
        assert_eq!(view.follow(&mut reader, &LOG[cut..]), Ok(()));
        assert_eq!((cut, shows_the_end(&view)), (cut, true));
    }
    Ok(())
}

#[test]
fn an_event_that_waits_is_taken_in_first() -> Result<(), Box<dyn Error>> {
    let mut view = new_view()?;
    let mut reader = LogReader::new();
    assert_eq!(reader.feed(&LOG), Ok(10));
    assert_eq!(view.follow(&mut reader, &[]), Ok(()));
    assert_eq!((view.place(Side::One), view.place(Side::Two)), (1, 0));
    assert_eq!(view.follow(&mut reader, &LOG[10..]), Ok(()));
    assert!(shows_the_end(&view));
    Ok(())
}

#[test]
fn what_comes_before_a_fault_is_taken_in() -> Result<(), Box<dyn Error>> {
    let mut view = new_view()?;
    let mut reader = LogReader::new();
    assert_eq!(view.follow(&mut reader, &LOG[..20]), Ok(()));
    assert_eq!(
        view.follow(&mut reader, &[0x01, 7, 0, 0xFF]),
        Err(LogFault::UnknownTag),
    );
    assert_eq!(view.turn(), 7);
    assert_eq!(
        view.follow(&mut reader, &LOG[20..]),
        Err(LogFault::UnknownTag),
    );
    assert_eq!(view.turn(), 7);
    Ok(())
}
