//! Members that come out: the first update, a switch and replacements; and the end of an update (docs/MECHANICS.md, "Switching in",
//! "Falls and requests", "Turn limit"). Tauros has 298 Attack, 288 Defense, 318 Speed and 238 Special, and Gengar 228, 218, 318
//! and 358.
use crate::rows::Step::{
    Changed, Close, CloseUncut, Is, Load, Mark, Put, Replace, SendBothFirst, SendOut, Start, Told,
    ToldSome,
};
use crate::rows::Teams::{Alone, Pairs};
use crate::rows::{FOE, Fact, Row, USER, play};
use gen1::generated::layout::Conditions;
use gen1::generated::machine::{DisabledSlot, Outcome, Request, UsedMove};
use gen1::generated::stats::Status;
use std::error::Error;

// Their active blocks after they come out: place, types, stages of 6, Attack, Defense, Speed and Special, and nothing
// else.
const TAUROS_OUT: [u8; 36] = [
    1, 0, 0, 6, 6, 6, 6, 6, 6, 42, 1, 32, 1, 62, 1, 238, 0, 0, 0, 0, 0, 0, 0, 0, 0, 0, 0, 0, 0, 0,
    0, 0, 0, 0, 0, 0,
];

const GENGAR_OUT: [u8; 36] = [
    2, 7, 3, 6, 6, 6, 6, 6, 6, 228, 0, 218, 0, 62, 1, 102, 1, 0, 0, 0, 0, 0, 0, 0, 0, 0, 0, 0, 0,
    0, 0, 0, 0, 0, 0, 0,
];

static FIRST_UPDATES: [Row; 4] = [
    Row {
        name: "a battle begins with turn 1",
        teams: Alone("Strength", 100),
        steps: &[
            Mark,
            Start,
            Told(&[
                "|switch|p1a: Tauros|Tauros|353/353 at place 1",
                "|switch|p2a: Tauros|Tauros|353/353 at place 1",
                "|turn|1",
            ]),
            // The turn is 1, both are asked for moves, and both members are out. Nothing was drawn.
            Changed(&[
                (1, &[1, 0]),
                (17, &[1, 1]),
                (168, &TAUROS_OUT),
                (348, &TAUROS_OUT),
            ]),
        ],
    },
    Row {
        name: "the first members come out",
        teams: Pairs(1),
        steps: &[
            Start,
            Is(Fact::Place(USER, 1)),
            Is(Fact::Place(FOE, 1)),
            ToldSome(3, &[]),
            // Turn 1 is still to be played, even if it is the last.
            Is(Fact::Turn(1)),
            Is(Fact::Outcome(Outcome::Ongoing)),
            Is(Fact::Requests(Request::Move, Request::Move)),
        ],
    },
    Row {
        name: "two members face each other before turn 1",
        teams: Alone("Strength", 100),
        steps: &[
            Mark,
            SendBothFirst,
            Told(&[
                "|switch|p1a: Tauros|Tauros|353/353 at place 1",
                "|switch|p2a: Tauros|Tauros|353/353 at place 1",
            ]),
            // Both members are out, and nothing else has changed: the turn is 0, and nothing is asked for.
            Changed(&[(168, &TAUROS_OUT), (348, &TAUROS_OUT)]),
        ],
    },
    Row {
        name: "a hurt and burned member comes out first",
        teams: Pairs(1000),
        steps: &[
            // The foe's first member is burned and has 100 HP, which a loaded battle may have at turn 0.
            Load(&[(208, &[100, 0]), (218, &[16])]),
            Mark,
            Start,
            Told(&[
                "|switch|p1a: Tauros|Tauros|353/353 at place 1",
                "|switch|p2a: Tauros|Tauros|100/353 brn at place 1",
                "|turn|1",
            ]),
            // Half of 298 is 149.
            Changed(&[
                (1, &[1, 0]),
                (17, &[1, 1]),
                (168, &TAUROS_OUT),
                (348, &TAUROS_OUT),
                (357, &[149, 0]),
            ]),
        ],
    },
];

static SWITCHES: [Row; 8] = [
    Row {
        name: "a switch resets stages and moves",
        teams: Pairs(1000),
        steps: &[
            Start,
            Put(Fact::LastDamage(75)),
            Mark,
            Put(Fact::Attack(USER, 12, 999)),
            Put(Fact::Special(USER, 0, 59)),
            Put(Fact::Evasion(USER, 12)),
            Put(Fact::CurrentMove(USER, UsedMove::Slot(1))),
            Put(Fact::PickedMove(USER, UsedMove::Struggle)),
            Put(Fact::KeptAccuracy(USER, 255)),
            SendOut(USER, 2),
            Changed(&[(168, &GENGAR_OUT)]),
            Told(&["|switch|p1a: Gengar|Gengar|323/323 at place 2"]),
        ],
    },
    Row {
        name: "a switch leaves no condition",
        teams: Pairs(1000),
        steps: &[
            Start,
            Mark,
            Put(Fact::Condition(FOE, Conditions::SEEDED, true)),
            Put(Fact::Substitute(FOE, Some(88))),
            Put(Fact::Confused(FOE, Some(5))),
            Put(Fact::Disabled(
                FOE,
                Some(DisabledSlot { slot: 1, turns: 8 }),
            )),
            Put(Fact::Thrash(FOE, Some(3))),
            SendOut(FOE, 2),
            Changed(&[(348, &GENGAR_OUT)]),
            Told(&["|switch|p2a: Gengar|Gengar|323/323 at place 2"]),
        ],
    },
    Row {
        name: "a switch of side 1 ends the trapping by side 2",
        teams: Pairs(1000),
        steps: &[
            Start,
            Put(Fact::Confused(FOE, Some(2))),
            Mark,
            Put(Fact::Trapping(FOE, Some(3))),
            SendOut(USER, 2),
            Changed(&[(168, &GENGAR_OUT)]),
        ],
    },
    Row {
        name: "a switch of side 2 ends the trapping by side 1",
        teams: Pairs(1000),
        steps: &[
            Start,
            Put(Fact::Confused(USER, Some(2))),
            Mark,
            Put(Fact::Trapping(USER, Some(3))),
            SendOut(FOE, 2),
            Changed(&[(348, &GENGAR_OUT)]),
        ],
    },
    Row {
        name: "bad poison becomes plain poison",
        teams: Pairs(1000),
        steps: &[
            Start,
            Put(Fact::Status(USER, Status::Poisoned)),
            Put(Fact::BadPoison(USER, Some(3))),
            SendOut(USER, 2),
            SendOut(USER, 1),
            Is(Fact::Status(USER, Status::Poisoned)),
            Is(Fact::BadPoison(USER, None)),
            Is(Fact::Condition(USER, Conditions::BAD_POISON, false)),
        ],
    },
    Row {
        name: "a replacement comes out",
        teams: Pairs(1000),
        steps: &[
            Start,
            Put(Fact::Attack(FOE, 12, 999)),
            Put(Fact::Hp(FOE, 0)),
            Close(USER),
            Mark,
            Replace(0x00, 0x22),
            Told(&["|switch|p2a: Gengar|Gengar|323/323 at place 2", "|turn|2"]),
            // The turn is 2, and both are asked for moves.
            Changed(&[(1, &[2, 0]), (17, &[1, 1]), (348, &GENGAR_OUT)]),
        ],
    },
    Row {
        name: "of two replacements side 1's is first",
        teams: Pairs(1000),
        steps: &[
            Start,
            Put(Fact::Attack(USER, 12, 999)),
            Put(Fact::Hp(USER, 0)),
            Put(Fact::Attack(FOE, 12, 999)),
            Put(Fact::Hp(FOE, 0)),
            Close(USER),
            Mark,
            Replace(0x22, 0x22),
            Told(&[
                "|switch|p1a: Gengar|Gengar|323/323 at place 2",
                "|switch|p2a: Gengar|Gengar|323/323 at place 2",
                "|turn|2",
            ]),
            Changed(&[
                (1, &[2, 0]),
                (17, &[1, 1]),
                (168, &GENGAR_OUT),
                (348, &GENGAR_OUT),
            ]),
        ],
    },
    Row {
        name: "who stays keeps its stages",
        teams: Pairs(1000),
        steps: &[
            Start,
            Put(Fact::Evasion(USER, 12)),
            Mark,
            Put(Fact::Hp(FOE, 0)),
            Close(USER),
            Replace(0x00, 0x22),
            Changed(&[
                (1, &[2, 0]),
                (17, &[1, 1]),
                (208, &[0, 0]),
                (348, &GENGAR_OUT),
            ]),
        ],
    },
];

// A member with a status leaves and comes back. Half of 298 is 149, and a quarter of 318 is 79.
static PENALTIES: [Row; 6] = [
    Row {
        name: "a healthy member comes back unchanged",
        teams: Pairs(1000),
        steps: &[
            Start,
            Put(Fact::Hp(USER, 41)),
            Put(Fact::Status(USER, Status::Healthy)),
            SendOut(USER, 2),
            SendOut(USER, 1),
            Told(&["|switch|p1a: Tauros|Tauros|41/353 at place 1"]),
            Is(Fact::Stats(USER, [298, 288, 318, 238])),
            Is(Fact::Status(USER, Status::Healthy)),
        ],
    },
    Row {
        name: "a burned member has half its Attack",
        teams: Pairs(1000),
        steps: &[
            Start,
            Put(Fact::Hp(USER, 41)),
            Put(Fact::Status(USER, Status::Burned)),
            SendOut(USER, 2),
            SendOut(USER, 1),
            Told(&["|switch|p1a: Tauros|Tauros|41/353 brn at place 1"]),
            Is(Fact::Stats(USER, [149, 288, 318, 238])),
            Is(Fact::Status(USER, Status::Burned)),
        ],
    },
    Row {
        name: "a paralysed member has a quarter of its Speed",
        teams: Pairs(1000),
        steps: &[
            Start,
            Put(Fact::Hp(USER, 41)),
            Put(Fact::Status(USER, Status::Paralysed)),
            SendOut(USER, 2),
            SendOut(USER, 1),
            Told(&["|switch|p1a: Tauros|Tauros|41/353 par at place 1"]),
            Is(Fact::Stats(USER, [298, 288, 79, 238])),
            Is(Fact::Status(USER, Status::Paralysed)),
        ],
    },
    Row {
        name: "a poisoned member has its stats",
        teams: Pairs(1000),
        steps: &[
            Start,
            Put(Fact::Hp(USER, 41)),
            Put(Fact::Status(USER, Status::Poisoned)),
            SendOut(USER, 2),
            SendOut(USER, 1),
            Told(&["|switch|p1a: Tauros|Tauros|41/353 psn at place 1"]),
            Is(Fact::Stats(USER, [298, 288, 318, 238])),
            Is(Fact::Status(USER, Status::Poisoned)),
        ],
    },
    Row {
        name: "a frozen member has its stats",
        teams: Pairs(1000),
        steps: &[
            Start,
            Put(Fact::Hp(USER, 41)),
            Put(Fact::Status(USER, Status::Frozen)),
            SendOut(USER, 2),
            SendOut(USER, 1),
            Told(&["|switch|p1a: Tauros|Tauros|41/353 frz at place 1"]),
            Is(Fact::Stats(USER, [298, 288, 318, 238])),
            Is(Fact::Status(USER, Status::Frozen)),
        ],
    },
    Row {
        name: "a sleeper has its stats",
        teams: Pairs(1000),
        steps: &[
            Start,
            Put(Fact::Hp(USER, 41)),
            Put(Fact::Status(
                USER,
                Status::Asleep {
                    turns: 7,
                    marked: false,
                },
            )),
            SendOut(USER, 2),
            SendOut(USER, 1),
            Told(&["|switch|p1a: Tauros|Tauros|41/353 slp at place 1"]),
            Is(Fact::Stats(USER, [298, 288, 318, 238])),
            Is(Fact::Status(
                USER,
                Status::Asleep {
                    turns: 7,
                    marked: false,
                },
            )),
        ],
    },
];

#[test]
fn the_first_update() -> Result<(), Box<dyn Error>> {
    play(&FIRST_UPDATES)
}

#[test]
fn switches_and_replacements() -> Result<(), Box<dyn Error>> {
    play(&SWITCHES)
}

#[test]
fn a_status_brings_its_penalty() -> Result<(), Box<dyn Error>> {
    play(&PENALTIES)
}

static FALLS: [Row; 12] = [
    Row {
        name: "no member has fallen, so the next turn begins",
        teams: Pairs(1000),
        steps: &[
            Start,
            Mark,
            Close(USER),
            Told(&["|turn|2"]),
            Changed(&[(1, &[2, 0])]),
            Is(Fact::Requests(Request::Move, Request::Move)),
        ],
    },
    Row {
        name: "side 1 fell, and is asked for a switch",
        teams: Pairs(1000),
        steps: &[
            Start,
            Put(Fact::Status(USER, Status::Frozen)),
            Put(Fact::Hp(USER, 0)),
            Close(USER),
            Told(&["|faint|p1a: Tauros"]),
            Is(Fact::Requests(Request::Switch, Request::Pass)),
            Is(Fact::Status(USER, Status::Healthy)),
            Is(Fact::Turn(1)),
            Is(Fact::Outcome(Outcome::Ongoing)),
        ],
    },
    Row {
        name: "side 2 fell, and is asked for a switch",
        teams: Pairs(1000),
        steps: &[
            Start,
            Put(Fact::Status(FOE, Status::Frozen)),
            Put(Fact::Hp(FOE, 0)),
            Close(USER),
            Told(&["|faint|p2a: Tauros"]),
            Is(Fact::Requests(Request::Pass, Request::Switch)),
            Is(Fact::Status(FOE, Status::Healthy)),
            Is(Fact::Turn(1)),
            Is(Fact::Outcome(Outcome::Ongoing)),
        ],
    },
    Row {
        name: "the rest of the fallen stays",
        teams: Pairs(1000),
        steps: &[
            Start,
            Put(Fact::Attack(FOE, 12, 999)),
            Put(Fact::Confused(FOE, Some(2))),
            Mark,
            Put(Fact::Hp(FOE, 0)),
            Close(USER),
            // HP are at 208, and the requests at 17.
            Changed(&[(208, &[0, 0]), (17, &[0, 2])]),
        ],
    },
    Row {
        name: "side 2 faints first where side 1 acted last",
        teams: Pairs(1000),
        steps: &[
            Start,
            Put(Fact::Hp(USER, 0)),
            Put(Fact::Hp(FOE, 0)),
            Close(USER),
            Told(&["|faint|p2a: Tauros", "|faint|p1a: Tauros"]),
            Is(Fact::Requests(Request::Switch, Request::Switch)),
        ],
    },
    Row {
        name: "side 1 faints first where side 2 acted last",
        teams: Pairs(1000),
        steps: &[
            Start,
            Put(Fact::Hp(USER, 0)),
            Put(Fact::Hp(FOE, 0)),
            Close(FOE),
            Told(&["|faint|p1a: Tauros", "|faint|p2a: Tauros"]),
            Is(Fact::Requests(Request::Switch, Request::Switch)),
        ],
    },
    Row {
        name: "side 2 has no member left",
        teams: Alone("Strength", 100),
        steps: &[
            Start,
            Put(Fact::Hp(FOE, 0)),
            Close(USER),
            Told(&["|faint|p2a: Tauros", "|win|p1"]),
            Is(Fact::Turn(1)),
            Is(Fact::Outcome(Outcome::WinOne)),
            Is(Fact::Requests(Request::Pass, Request::Pass)),
        ],
    },
    Row {
        name: "side 1 has no member left",
        teams: Alone("Strength", 100),
        steps: &[
            Start,
            Put(Fact::Hp(USER, 0)),
            Close(USER),
            Told(&["|faint|p1a: Tauros", "|win|p2"]),
            Is(Fact::Turn(1)),
            Is(Fact::Outcome(Outcome::WinTwo)),
            Is(Fact::Requests(Request::Pass, Request::Pass)),
        ],
    },
    Row {
        name: "neither side has a member left",
        teams: Alone("Strength", 100),
        steps: &[
            Start,
            Put(Fact::Hp(USER, 0)),
            Put(Fact::Hp(FOE, 0)),
            Close(USER),
            Told(&["|faint|p2a: Tauros", "|faint|p1a: Tauros", "|tie"]),
            Is(Fact::Outcome(Outcome::Tie)),
            Is(Fact::Requests(Request::Pass, Request::Pass)),
        ],
    },
    Row {
        name: "nobody faints at fault 1",
        teams: Pairs(1000),
        steps: &[
            Start,
            Put(Fact::Outcome(Outcome::Fault(1))),
            Put(Fact::Status(FOE, Status::Burned)),
            Put(Fact::Hp(FOE, 0)),
            Mark,
            Close(USER),
            Told(&["|fault|1"]),
            Changed(&[(17, &[0, 0])]),
        ],
    },
    Row {
        name: "nobody faints at fault 2",
        teams: Pairs(1000),
        steps: &[
            Start,
            Put(Fact::Outcome(Outcome::Fault(2))),
            Put(Fact::Status(FOE, Status::Burned)),
            Put(Fact::Hp(FOE, 0)),
            Mark,
            Close(USER),
            Told(&["|fault|2"]),
            Changed(&[(17, &[0, 0])]),
        ],
    },
    Row {
        name: "no member has fallen, which is not tested",
        teams: Pairs(2),
        steps: &[
            Start,
            Mark,
            CloseUncut,
            Told(&["|turn|2"]),
            Changed(&[(1, &[2, 0])]),
            CloseUncut,
            Told(&["|tie"]),
            Is(Fact::Turn(2)),
            Is(Fact::Outcome(Outcome::Tie)),
            Is(Fact::Requests(Request::Pass, Request::Pass)),
        ],
    },
];

static LAST_TURNS: [Row; 3] = [
    Row {
        name: "turn 1000 ends in a tie",
        teams: Pairs(1000),
        steps: &[
            Start,
            Put(Fact::Turn(999)),
            Close(USER),
            Told(&["|turn|1000"]),
            Close(USER),
            Told(&["|tie"]),
            Is(Fact::Turn(1000)),
            Is(Fact::Outcome(Outcome::Tie)),
            Is(Fact::Requests(Request::Pass, Request::Pass)),
        ],
    },
    Row {
        name: "no replacement follows the last turn",
        teams: Pairs(1),
        steps: &[
            Start,
            Put(Fact::Hp(FOE, 0)),
            Close(USER),
            Told(&["|faint|p2a: Tauros", "|tie"]),
            Is(Fact::Outcome(Outcome::Tie)),
            Is(Fact::Requests(Request::Pass, Request::Pass)),
        ],
    },
    Row {
        name: "a win in the last turn is a win",
        teams: Alone("Strength", 100),
        steps: &[
            Start,
            Put(Fact::Turn(1000)),
            Put(Fact::Hp(USER, 0)),
            Close(USER),
            Told(&["|faint|p1a: Tauros", "|win|p2"]),
            Is(Fact::Turn(1000)),
            Is(Fact::Outcome(Outcome::WinTwo)),
        ],
    },
];

#[test]
fn falls_and_requests() -> Result<(), Box<dyn Error>> {
    play(&FALLS)
}

#[test]
fn the_turn_limit() -> Result<(), Box<dyn Error>> {
    play(&LAST_TURNS)
}
