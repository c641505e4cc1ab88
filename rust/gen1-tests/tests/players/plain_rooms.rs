//! Rooms that their caller keeps, and forfeits (docs/MECHANICS.md, "Rooms").
use crate::events::{ONE, TWO};
use crate::rooms::{Answer, GOES_ON, answer_to};
use crate::teams::{SEED, tauros};
use gen1::generated::engine::BattleResult;
use gen1::generated::layout::Packed;
use gen1::generated::machine::{Outcome, Request, Side};
use gen1::generated::rolls::LinkRandom;
use gen1::generated::room::RoomRefusal;
use gen1::generated::room::plain::{PlainRoom, begin, choices, forfeit, reseed, result, submit};
use std::error::Error;

// A room with an old log, choices and a forfeit, which are gone once it begins.
fn two_tauros() -> Result<PlainRoom, Box<dyn Error>> {
    let team = tauros()?;
    let mut room = PlainRoom {
        battle: Packed::new(&team, &team, SEED),
        number: 7,
        log_length: 9,
        one: 17,
        two: 17,
        forfeit: 2,
        unused: [1, 2, 3],
        log: [170; 512],
    };
    begin(&mut room);
    Ok(room)
}

/// A step of a room, and its answer.
#[derive(Clone, Copy)]
enum Step {
    /// The side, the number of the pair, and the choice as a byte.
    Submits(Side, u32, u8, Answer),
    Forfeits(Side, Answer),
}

const OVER: Answer = Answer::Refuses(RoomRefusal::Over);

// How a battle ends that a side has won.
const ONE_HAS_WON: Answer = Answer::Advances(Outcome::WinOne, Request::Pass, Request::Pass);

const TWO_HAS_WON: Answer = Answer::Advances(Outcome::WinTwo, Request::Pass, Request::Pass);

// Side 2's choice, which was there, is gone.
static FORFEIT: [Step; 2] = [
    Step::Submits(TWO, 0, 17, Answer::Waits),
    Step::Forfeits(ONE, TWO_HAS_WON),
];

static ONE_HAS_CHOSEN: [Step; 1] = [Step::Submits(ONE, 0, 17, Answer::Waits)];

static AFTER_A_FORFEIT: [Step; 5] = [
    Step::Forfeits(TWO, ONE_HAS_WON),
    Step::Submits(ONE, 1, 17, OVER),
    Step::Submits(ONE, 0, 17, OVER),
    Step::Forfeits(TWO, OVER),
    Step::Forfeits(ONE, OVER),
];

// Side 1 wins in the second turn (README.md, "The example").
static AFTER_THE_END: [Step; 5] = [
    Step::Submits(ONE, 0, 17, Answer::Waits),
    Step::Submits(TWO, 0, 17, GOES_ON),
    Step::Submits(ONE, 1, 17, Answer::Waits),
    Step::Submits(TWO, 1, 17, ONE_HAS_WON),
    Step::Forfeits(ONE, OVER),
];

// Plays the steps from the start, and asserts each answer. Returns the room.
fn play(steps: &[Step]) -> Result<PlainRoom, Box<dyn Error>> {
    let mut room = two_tauros()?;
    for (at, step) in steps.iter().enumerate() {
        let (found, expected) = match *step {
            Step::Submits(side, number, byte, expected) => {
                (answer_to(&submit(&mut room, side, number, byte)), expected)
            }
            Step::Forfeits(side, expected) => match forfeit(&mut room, side) {
                Ok(result) => (result_of(&result), expected),
                Err(refusal) => (Answer::Refuses(refusal), expected),
            },
        };
        assert_eq!(found, expected, "at {at}");
    }
    Ok(room)
}

fn result_of(it: &BattleResult) -> Answer {
    Answer::Advances(it.outcome, it.request_one, it.request_two)
}

#[test]
fn a_room_begins_with_a_clear_log() -> Result<(), Box<dyn Error>> {
    let room = two_tauros()?;
    assert_eq!((room.number, room.log_length), (0, 23));
    assert_eq!((room.one, room.two), (255, 255));
    assert_eq!((room.forfeit, room.unused), (0, [0; 3]));
    assert_eq!(&room.log[20..24], [0x01, 1, 0, 0].as_slice());
    assert_eq!(room.log[511], 0);
    assert_eq!(choices(&room, ONE).as_slice(), [17].as_slice());
    assert_eq!(result(&room).request_one, Request::Move);
    Ok(())
}

// Bytes 5 to 15 of a battle are the index and the numbers (docs/LAYOUT.md, "Header").
#[test]
fn a_reseeded_room_keeps_the_choice() -> Result<(), Box<dyn Error>> {
    let mut room = play(&ONE_HAS_CHOSEN)?;
    reseed(&mut room, &LinkRandom::new([9, 8, 7, 6, 5, 4, 3, 2, 1, 0]));
    let header = [0, 9, 8, 7, 6, 5, 4, 3, 2, 1, 0];
    assert_eq!(&room.battle.header()[5..16], header.as_slice());
    assert_eq!((room.one, room.two, room.number), (17, 255, 0));
    Ok(())
}

// The log of a win is the byte 26 and the side.
#[test]
fn the_other_side_of_a_forfeit_wins() -> Result<(), Box<dyn Error>> {
    let turn = two_tauros()?.battle.turn();
    let room = play(&FORFEIT)?;
    assert_eq!(result_of(&result(&room)), TWO_HAS_WON);
    assert_eq!((room.number, room.forfeit), (1, 1));
    assert_eq!(room.log_length, 2);
    assert_eq!(&room.log[..3], [26, 2, 128].as_slice());
    assert_eq!(
        (room.battle.turn(), room.battle.outcome()),
        (turn, Outcome::Ongoing),
    );
    Ok(())
}

#[test]
fn a_forfeit_ends_the_room() -> Result<(), Box<dyn Error>> {
    let room = play(&AFTER_A_FORFEIT)?;
    assert_eq!(
        (choices(&room, ONE).len(), choices(&room, TWO).len()),
        (0, 0),
    );
    assert_eq!((room.number, room.forfeit), (1, 2));
    assert_eq!(result_of(&result(&room)), ONE_HAS_WON);
    Ok(())
}

#[test]
fn a_battle_that_is_over_is_not_forfeited() -> Result<(), Box<dyn Error>> {
    let room = play(&AFTER_THE_END)?;
    assert_eq!((room.number, room.forfeit), (2, 0));
    assert_eq!(result_of(&result(&room)), ONE_HAS_WON);
    Ok(())
}
