//! Rooms, with the table and the example of docs/MECHANICS.md, "Rooms".
use crate::events::{ONE, TWO};
use crate::teams::{SEED, chansey, gengar, lead_and_chansey, tauros};
use gen1::generated::engine::Battle;
use gen1::generated::machine::{Outcome, Request, Side};
use gen1::generated::rolls::LinkRandom;
use gen1::generated::room::Reply;
use gen1::generated::room::Room;
use gen1::generated::room::RoomRefusal;
use gen1::generated::room::Submitted;
use std::error::Error;

// The first update of the battle that is stored in crates/battle_tool: both come out, and turn 1 begins.
static START: [u8; 23] = [
    0x02, 1, 128, 1, 100, 97, 1, 97, 1, 0, 0x02, 2, 128, 1, 100, 97, 1, 97, 1, 0, 0x01, 1, 0,
];

fn two_tauros() -> Result<Room, Box<dyn Error>> {
    let team = tauros()?;
    Ok(Room::new(Battle::new(&team, &team, SEED)))
}

fn two_chanseys() -> Result<Room, Box<dyn Error>> {
    let team = chansey()?;
    Ok(Room::new(Battle::new(&team, &team, SEED)))
}

/// A reply in words.
#[derive(Clone, Copy, Debug, PartialEq)]
pub(crate) enum Answer {
    Waits,
    /// A pair was completed: the outcome, and what each side is asked for.
    Advances(Outcome, Request, Request),
    Refuses(RoomRefusal),
}

/// A pair was completed, and the battle continues with a turn.
pub(crate) const GOES_ON: Answer = Answer::Advances(Outcome::Ongoing, Request::Move, Request::Move);

pub(crate) fn answer_to(reply: &Reply) -> Answer {
    match *reply {
        Ok(Submitted::Waiting) => Answer::Waits,
        Ok(Submitted::Advanced(result)) => {
            Answer::Advances(result.outcome, result.request_one, result.request_two)
        }
        Err(refusal) => Answer::Refuses(refusal),
    }
}

/// A submission and its reply: the side, the number of the pair, the choice as a byte, and the answer.
type Submission = (Side, u32, u8, Answer);

static BY_REASONS: [Submission; 7] = [
    (ONE, 0, 17, Answer::Waits),
    (ONE, 0, 17, Answer::Refuses(RoomRefusal::AlreadyChosen)),
    (ONE, 0, 99, Answer::Refuses(RoomRefusal::AlreadyChosen)),
    (TWO, 1, 17, Answer::Refuses(RoomRefusal::Stale(0))),
    (TWO, 0, 17, GOES_ON),
    (TWO, 0, 17, Answer::Refuses(RoomRefusal::Stale(1))),
    (ONE, 1, 0x14, Answer::Refuses(RoomRefusal::NotOffered)),
];

static TO_THE_END: [Submission; 6] = [
    (ONE, 0, 17, Answer::Waits),
    (TWO, 0, 17, GOES_ON),
    (ONE, 1, 17, Answer::Waits),
    (
        TWO,
        1,
        17,
        Answer::Advances(Outcome::WinOne, Request::Pass, Request::Pass),
    ),
    (ONE, 2, 17, Answer::Refuses(RoomRefusal::Over)),
    (TWO, 0, 0, Answer::Refuses(RoomRefusal::Over)),
];

// Gengar is immune to Explosion, so only the user falls, and only its side is asked for something.
static EXPLOSION: [Submission; 5] = [
    (ONE, 0, 17, Answer::Waits),
    (
        TWO,
        0,
        17,
        Answer::Advances(Outcome::Ongoing, Request::Switch, Request::Pass),
    ),
    (TWO, 1, 0, Answer::Refuses(RoomRefusal::AlreadyChosen)),
    (ONE, 1, 17, Answer::Refuses(RoomRefusal::NotOffered)),
    (ONE, 1, 0x22, GOES_ON),
];

static ONE_FIRST: [Submission; 2] = [(ONE, 0, 17, Answer::Waits), (TWO, 0, 17, GOES_ON)];

static TWO_FIRST: [Submission; 2] = [(TWO, 0, 17, Answer::Waits), (ONE, 0, 17, GOES_ON)];

// Makes the submissions, and asserts each reply. Returns the room.
fn play(mut room: Room, submissions: &[Submission]) -> Room {
    for (at, (side, number, byte, expected)) in submissions.iter().enumerate() {
        let reply = room.submit(*side, *number, *byte);
        assert_eq!(answer_to(&reply), *expected, "at {at}");
    }
    room
}

#[test]
fn a_battle_is_started_with_its_room() -> Result<(), Box<dyn Error>> {
    let room = two_tauros()?;
    assert_eq!(room.number(), 0);
    assert_eq!(room.log(), START.as_slice());
    assert_eq!(room.battle().result().request_one, Request::Move);
    Ok(())
}

// Bytes 5 to 15 of a battle are the index and the numbers (docs/LAYOUT.md, "Header").
#[test]
fn a_reseeded_room_keeps_the_choice() -> Result<(), Box<dyn Error>> {
    let mut room = play(two_tauros()?, &[ONE_FIRST[0]]);
    room.reseed(&LinkRandom::new([9, 8, 7, 6, 5, 4, 3, 2, 1, 0]));
    let header = [0, 9, 8, 7, 6, 5, 4, 3, 2, 1, 0];
    assert_eq!(&room.battle().bytes()[5..16], header.as_slice());
    play(room, &[ONE_FIRST[1]]);
    Ok(())
}

#[test]
fn submissions_are_answered_in_the_order_of_the_reasons() -> Result<(), Box<dyn Error>> {
    let room = play(two_tauros()?, &BY_REASONS);
    assert_eq!(room.number(), 1);
    Ok(())
}

#[test]
fn a_battle_that_is_over_takes_nothing() -> Result<(), Box<dyn Error>> {
    let room = play(two_tauros()?, &TO_THE_END);
    assert_eq!((room.number(), room.log().last().copied()), (2, Some(1)),);
    Ok(())
}

#[test]
fn a_side_of_which_nothing_is_asked_passes_by_itself() -> Result<(), Box<dyn Error>> {
    let one = lead_and_chansey(&["Explosion"])?;
    let room = play(Room::new(Battle::new(&one, &gengar()?, SEED)), &EXPLOSION);
    assert_eq!(room.number(), 2);
    Ok(())
}

#[test]
fn who_submits_first_changes_nothing() -> Result<(), Box<dyn Error>> {
    let first = play(two_tauros()?, &ONE_FIRST);
    let second = play(two_tauros()?, &TWO_FIRST);
    assert_eq!(first.battle().bytes(), second.battle().bytes());
    assert_eq!(first.log(), second.log());
    Ok(())
}

#[test]
fn refusals_have_numbers() -> Result<(), Box<dyn Error>> {
    assert_eq!(RoomRefusal::Over.number(), 1);
    assert_eq!(RoomRefusal::Stale(7).number(), 2);
    assert_eq!(RoomRefusal::AlreadyChosen.number(), 3);
    assert_eq!(RoomRefusal::NotOffered.number(), 4);
    Ok(())
}

// Three pairs. Six times a player submits for the current pair: side 2 if the bit of the order is set. Then each side
// that is still due submits.
fn interleaved(order: u8) -> Result<Room, Box<dyn Error>> {
    let mut room = two_chanseys()?;
    for bit in [1, 2, 4, 8, 16, 32] {
        let side = if order & bit == 0 { ONE } else { TWO };
        let _ = room.submit(side, room.number(), 17);
    }
    for side in [ONE, TWO, ONE, TWO, ONE, TWO] {
        if room.number() < 3 {
            let _ = room.submit(side, room.number(), 17);
        }
    }
    Ok(room)
}

#[test]
fn every_order_of_two_players_comes_to_the_same() -> Result<(), Box<dyn Error>> {
    let expected = interleaved(0b101010)?;
    assert_eq!(expected.number(), 3);
    for order in 0..64 {
        let room = interleaved(order)?;
        assert_eq!(room.number(), 3);
        assert_eq!(
            (order, room.battle().bytes()),
            (order, expected.battle().bytes()),
        );
        assert_eq!((order, room.log()), (order, expected.log()));
    }
    Ok(())
}

#[test]
fn a_run_is_submission_after_submission() -> Result<(), Box<dyn Error>> {
    let team = tauros()?;
    let submissions = [
        (ONE, 0, 17),
        (ONE, 0, 17),
        (TWO, 1, 17),
        (TWO, 0, 17),
        (TWO, 0, 17),
    ];
    let mut replies = [Ok(Submitted::Waiting); 5];
    let room = Room::run(Battle::new(&team, &team, SEED), &submissions, &mut replies);
    assert_eq!(room.number(), 1);
    let expected = [
        Answer::Waits,
        Answer::Refuses(RoomRefusal::AlreadyChosen),
        Answer::Refuses(RoomRefusal::Stale(0)),
        GOES_ON,
        Answer::Refuses(RoomRefusal::Stale(1)),
    ];
    assert_eq!(replies.map(|reply| answer_to(&reply)), expected);
    Ok(())
}
