//! Turns (docs/MECHANICS.md, "Order of a turn", "Falls and requests"). Tauros has 353 HP and a Speed of 318, and Snorlax
//! 523 HP and a Speed of 158.
use crate::rows::Step::{
    Is, Link, LinkTurn, Load, Next, NextLink, Put, Start, Told, ToldSome, Turn,
};
use crate::rows::Teams::{Alone, Facing, Members};
use crate::rows::{FOE, Fact, Row, SEED, USER, play};
use gen1::generated::layout::Conditions;
use gen1::generated::machine::{Outcome, Request, UsedMove};
use gen1::generated::stats::Status;
use std::error::Error;

const SIDE_1_SPLASHES_FIRST: [&str; 5] = [
    "|move|p1a: Tauros|Splash|p2a: Tauros",
    "|-activate|p1a: Tauros|Splash",
    "|move|p2a: Tauros|Splash|p1a: Tauros",
    "|-activate|p2a: Tauros|Splash",
    "|turn|2",
];

const SIDE_2_SPLASHES_FIRST: [&str; 5] = [
    "|move|p2a: Tauros|Splash|p1a: Tauros",
    "|-activate|p2a: Tauros|Splash",
    "|move|p1a: Tauros|Splash|p2a: Tauros",
    "|-activate|p1a: Tauros|Splash",
    "|turn|2",
];

// Who acts first.
static ORDER: [Row; 16] = [
    Row {
        name: "the byte 0 settles a tie of Speed for side 1",
        teams: Alone("Splash", 100),
        steps: &[
            Start,
            Turn(0x11, 0x11, 0),
            Told(&SIDE_1_SPLASHES_FIRST),
            Next(1),
        ],
    },
    Row {
        name: "the byte 127 settles a tie of Speed for side 1",
        teams: Alone("Splash", 100),
        steps: &[
            Start,
            Turn(0x11, 0x11, 127),
            Told(&SIDE_1_SPLASHES_FIRST),
            Next(128),
        ],
    },
    Row {
        name: "the byte 128 settles a tie of Speed for side 2",
        teams: Alone("Splash", 100),
        steps: &[
            Start,
            Turn(0x11, 0x11, 128),
            Told(&SIDE_2_SPLASHES_FIRST),
            Next(129),
        ],
    },
    Row {
        name: "the byte 255 settles a tie of Speed for side 2",
        teams: Alone("Splash", 100),
        steps: &[
            Start,
            Turn(0x11, 0x11, 255),
            Told(&SIDE_2_SPLASHES_FIRST),
            Next(0),
        ],
    },
    Row {
        name: "the link number 127 settles a tie of Speed for side 1",
        teams: Alone("Splash", 100),
        steps: &[
            Start,
            Link([127; 10]),
            LinkTurn(0x11, 0x11),
            Told(&SIDE_1_SPLASHES_FIRST),
            NextLink(1),
        ],
    },
    Row {
        name: "the link number 128 settles a tie of Speed for side 2",
        teams: Alone("Splash", 100),
        steps: &[
            Start,
            Link([128; 10]),
            LinkTurn(0x11, 0x11),
            Told(&SIDE_2_SPLASHES_FIRST),
            NextLink(1),
        ],
    },
    Row {
        name: "the faster side 2 acts first, with no draw",
        teams: Members(&[("Snorlax", "Splash")], &[("Tauros", "Splash")]),
        steps: &[
            Start,
            Turn(0x11, 0x11, 0),
            Told(&[
                "|move|p2a: Tauros|Splash|p1a: Snorlax",
                "|-activate|p2a: Tauros|Splash",
                "|move|p1a: Snorlax|Splash|p2a: Tauros",
                "|-activate|p1a: Snorlax|Splash",
                "|turn|2",
            ]),
            Next(0),
        ],
    },
    Row {
        name: "the faster side 1 acts first",
        teams: Members(&[("Tauros", "Splash")], &[("Snorlax", "Splash")]),
        steps: &[
            Start,
            Turn(0x11, 0x11, 255),
            Told(&[
                "|move|p1a: Tauros|Splash|p2a: Snorlax",
                "|-activate|p1a: Tauros|Splash",
                "|move|p2a: Snorlax|Splash|p1a: Tauros",
                "|-activate|p2a: Snorlax|Splash",
                "|turn|2",
            ]),
        ],
    },
    Row {
        name: "a slower Quick Attack is first",
        teams: Members(&[("Snorlax", "Quick Attack")], &[("Tauros", "Splash")]),
        steps: &[
            Start,
            Turn(0x11, 0x11, 1),
            // The first draw is the critical draw: 1 rotated is 8, and the bound is 15. 2 would be 16. At level 200 the
            // damage is 82 * 40 * 79 / 72 / 50 + 2 = 73, and 109 for the user's own type. With the factor 217, of the byte
            // 179, it is 92.
            Told(&[
                "|move|p1a: Snorlax|Quick Attack|p2a: Tauros",
                "|-crit|p2a: Tauros",
                "|-damage|p2a: Tauros|261/353",
                "|move|p2a: Tauros|Splash|p1a: Snorlax",
                "|-activate|p2a: Tauros|Splash",
                "|turn|2",
            ]),
            // 180 is the draw of the hit test.
            Next(181),
        ],
    },
    Row {
        name: "a sleeper that picked Quick Attack is first",
        teams: Members(&[("Snorlax", "Quick Attack")], &[("Tauros", "Splash")]),
        steps: &[
            Start,
            Put(Fact::PickedMove(USER, UsedMove::Slot(1))),
            Put(Fact::Status(
                USER,
                Status::Asleep {
                    turns: 3,
                    marked: false,
                },
            )),
            Turn(0x10, 0x11, 0),
            Told(&[
                "|cant|p1a: Snorlax|slp",
                "|move|p2a: Tauros|Splash|p1a: Snorlax",
                "|-activate|p2a: Tauros|Splash",
                "|turn|2",
            ]),
            Next(0),
        ],
    },
    Row {
        name: "a sleeper that picked nothing is last",
        teams: Members(&[("Snorlax", "Quick Attack")], &[("Tauros", "Splash")]),
        steps: &[
            Start,
            Put(Fact::PickedMove(USER, UsedMove::Nothing)),
            Put(Fact::Status(
                USER,
                Status::Asleep {
                    turns: 3,
                    marked: false,
                },
            )),
            Turn(0x10, 0x11, 0),
            Told(&[
                "|move|p2a: Tauros|Splash|p1a: Snorlax",
                "|-activate|p2a: Tauros|Splash",
                "|cant|p1a: Snorlax|slp",
                "|turn|2",
            ]),
            Next(0),
        ],
    },
    // One draw for the order, and the critical draw of each.
    Row {
        name: "the byte 127 settles two Counters for side 1",
        teams: Alone("Counter", 100),
        steps: &[
            Start,
            Turn(0x11, 0x11, 127),
            Told(&[
                "|move|p1a: Tauros|Counter|p2a: Tauros",
                "|-miss|p1a: Tauros",
                "|move|p2a: Tauros|Counter|p1a: Tauros",
                "|-miss|p2a: Tauros",
                "|turn|2",
            ]),
            Next(130),
        ],
    },
    Row {
        name: "the byte 128 settles two Counters for side 2",
        teams: Alone("Counter", 100),
        steps: &[
            Start,
            Turn(0x11, 0x11, 128),
            Told(&[
                "|move|p2a: Tauros|Counter|p1a: Tauros",
                "|-miss|p2a: Tauros",
                "|move|p1a: Tauros|Counter|p2a: Tauros",
                "|-miss|p1a: Tauros",
                "|turn|2",
            ]),
            Next(131),
        ],
    },
    Row {
        name: "a Counter is last",
        teams: Members(&[("Tauros", "Counter")], &[("Snorlax", "Splash")]),
        steps: &[
            Start,
            Turn(0x11, 0x11, 0),
            Told(&[
                "|move|p2a: Snorlax|Splash|p1a: Tauros",
                "|-activate|p2a: Snorlax|Splash",
                "|move|p1a: Tauros|Counter|p2a: Snorlax",
                "|-miss|p1a: Tauros",
                "|turn|2",
            ]),
            Next(1),
        ],
    },
    Row {
        name: "who is held has picked no move",
        teams: Members(&[("Tauros", "Splash")], &[("Snorlax", "Quick Attack")]),
        steps: &[
            Start,
            // The foe would be first by the Quick Attack that it picked before.
            Put(Fact::PickedMove(FOE, UsedMove::Slot(1))),
            Put(Fact::Trapping(USER, Some(2))),
            Turn(0x11, 0x10, 0),
            Told(&[
                "|move|p1a: Tauros|Splash|p2a: Snorlax",
                "|-activate|p1a: Tauros|Splash",
                "|cant|p2a: Snorlax|partiallytrapped",
                "|turn|2",
            ]),
            Is(Fact::PickedMove(FOE, UsedMove::Nothing)),
        ],
    },
    Row {
        name: "a flinch is cleared as a turn begins",
        teams: Facing("Splash", "Splash"),
        steps: &[
            Start,
            Put(Fact::Condition(USER, Conditions::FLINCH, true)),
            Put(Fact::Condition(FOE, Conditions::FLINCH, true)),
            Turn(0x11, 0x11, 0),
            Told(&[
                "|move|p1a: Tauros|Splash|p2a: Snorlax",
                "|-activate|p1a: Tauros|Splash",
                "|move|p2a: Snorlax|Splash|p1a: Tauros",
                "|-activate|p2a: Snorlax|Splash",
                "|turn|2",
            ]),
            Is(Fact::Condition(USER, Conditions::FLINCH, false)),
            Is(Fact::Condition(FOE, Conditions::FLINCH, false)),
        ],
    },
];

// The poisoned Gengar of side 1 is at place 2, with HP at 52 and its status at 62. A 16th of 323 is 20.
static SWITCHES: [Row; 7] = [
    Row {
        name: "a switch of side 2 comes before Quick Attack",
        teams: Facing("Quick Attack", "Splash"),
        steps: &[
            Start,
            Turn(0x11, 0x22, 0),
            Told(&[
                "|switch|p2a: Gengar|Gengar|323/323 at place 2",
                "|move|p1a: Tauros|Quick Attack|p2a: Gengar",
                "|-immune|p2a: Gengar",
                "|turn|2",
            ]),
        ],
    },
    Row {
        name: "a switch of side 1 comes before Quick Attack",
        teams: Facing("Splash", "Quick Attack"),
        steps: &[
            Start,
            Turn(0x22, 0x11, 0),
            Told(&[
                "|switch|p1a: Gengar|Gengar|323/323 at place 2",
                "|move|p2a: Snorlax|Quick Attack|p1a: Gengar",
                "|-immune|p1a: Gengar",
                "|turn|2",
            ]),
        ],
    },
    Row {
        name: "both switch with no draw",
        teams: Facing("Splash", "Splash"),
        steps: &[
            Start,
            Turn(0x22, 0x22, 9),
            Told(&[
                "|switch|p1a: Gengar|Gengar|323/323 at place 2",
                "|switch|p2a: Gengar|Gengar|323/323 at place 2",
                "|turn|2",
            ]),
            Is(Fact::Place(USER, 2)),
            Is(Fact::Place(FOE, 2)),
            Next(9),
        ],
    },
    Row {
        name: "who comes out suffers before the other acts",
        teams: Facing("Splash", "Splash"),
        steps: &[
            Start,
            Load(&[(52, &[67, 1]), (62, &[8])]),
            Turn(0x22, 0x11, 0),
            Told(&[
                "|switch|p1a: Gengar|Gengar|323/323 psn at place 2",
                "|-damage|p1a: Gengar|303/323 psn|[from] psn",
                "|move|p2a: Snorlax|Splash|p1a: Gengar",
                "|-activate|p2a: Snorlax|Splash",
                "|turn|2",
            ]),
        ],
    },
    Row {
        name: "who comes out suffers before the other comes out",
        teams: Facing("Splash", "Splash"),
        steps: &[
            Start,
            Load(&[(52, &[67, 1]), (62, &[8])]),
            Turn(0x22, 0x22, 0),
            Told(&[
                "|switch|p1a: Gengar|Gengar|323/323 psn at place 2",
                "|-damage|p1a: Gengar|303/323 psn|[from] psn",
                "|switch|p2a: Gengar|Gengar|323/323 at place 2",
                "|turn|2",
            ]),
        ],
    },
    Row {
        name: "where who comes out falls, the other does not act",
        teams: Facing("Splash", "Splash"),
        steps: &[
            Start,
            Load(&[(52, &[20, 0]), (62, &[8])]),
            Turn(0x22, 0x11, 0),
            Told(&[
                "|switch|p1a: Gengar|Gengar|20/323 psn at place 2",
                "|-damage|p1a: Gengar|0 fnt|[from] psn of 323, Poison",
                "|faint|p1a: Gengar",
            ]),
            Is(Fact::Place(FOE, 1)),
            Is(Fact::Requests(Request::Switch, Request::Pass)),
            Is(Fact::Turn(1)),
        ],
    },
    Row {
        name: "where who comes out falls, the other does not come out",
        teams: Facing("Splash", "Splash"),
        steps: &[
            Start,
            Load(&[(52, &[20, 0]), (62, &[8])]),
            Turn(0x22, 0x22, 0),
            Told(&[
                "|switch|p1a: Gengar|Gengar|20/323 psn at place 2",
                "|-damage|p1a: Gengar|0 fnt|[from] psn of 323, Poison",
                "|faint|p1a: Gengar",
            ]),
            Is(Fact::Place(FOE, 1)),
            Is(Fact::Requests(Request::Switch, Request::Pass)),
            Is(Fact::Turn(1)),
        ],
    },
];

static ENDS: [Row; 6] = [
    Row {
        name: "who fells its foe is spared its residual damage",
        teams: Facing("Strength", "Splash"),
        steps: &[
            Start,
            Put(Fact::Status(USER, Status::Poisoned)),
            Put(Fact::Hp(FOE, 1)),
            // 7 rotated is 56, and the bound of a critical hit is 55.
            Turn(0x11, 0x11, 7),
            Told(&[
                "|move|p1a: Tauros|Strength|p2a: Snorlax",
                "|-damage|p2a: Snorlax|0 fnt of 523",
                "|faint|p2a: Snorlax",
            ]),
            Is(Fact::Hp(USER, 353)),
            Is(Fact::Turn(1)),
            Is(Fact::Requests(Request::Pass, Request::Switch)),
        ],
    },
    Row {
        name: "each suffers after its own action",
        teams: Facing("Splash", "Splash"),
        steps: &[
            Start,
            Put(Fact::Status(USER, Status::Poisoned)),
            Put(Fact::Status(FOE, Status::Poisoned)),
            Turn(0x11, 0x11, 0),
            // A 16th of 353 is 22, and one of 523 is 32.
            Told(&[
                "|move|p1a: Tauros|Splash|p2a: Snorlax",
                "|-activate|p1a: Tauros|Splash",
                "|-damage|p1a: Tauros|331/353 psn|[from] psn",
                "|move|p2a: Snorlax|Splash|p1a: Tauros",
                "|-activate|p2a: Snorlax|Splash",
                "|-damage|p2a: Snorlax|491/523 psn|[from] psn",
                "|turn|2",
            ]),
        ],
    },
    Row {
        name: "a fall by poison ends the turn",
        teams: Facing("Splash", "Splash"),
        steps: &[
            Start,
            Put(Fact::Status(USER, Status::Poisoned)),
            Put(Fact::Hp(USER, 22)),
            Turn(0x11, 0x11, 0),
            Told(&[
                "|move|p1a: Tauros|Splash|p2a: Snorlax",
                "|-activate|p1a: Tauros|Splash",
                "|-damage|p1a: Tauros|0 fnt|[from] psn of 353, Poison",
                "|faint|p1a: Tauros",
            ]),
            Is(Fact::Requests(Request::Switch, Request::Pass)),
        ],
    },
    Row {
        name: "side 2 faints first where side 1 acted last",
        teams: Facing("Explosion", "Splash"),
        steps: &[
            Start,
            Put(Fact::Hp(FOE, 1)),
            Turn(0x11, 0x11, 7),
            Told(&[
                "|move|p1a: Tauros|Explosion|p2a: Snorlax",
                "|-damage|p2a: Snorlax|0 fnt of 523",
                "|faint|p2a: Snorlax",
                "|faint|p1a: Tauros",
            ]),
            Is(Fact::Requests(Request::Switch, Request::Switch)),
        ],
    },
    Row {
        name: "side 1 faints first where side 2 acted last",
        teams: Facing("Splash", "Explosion"),
        steps: &[
            Start,
            Put(Fact::Hp(USER, 1)),
            Turn(0x11, 0x11, 7),
            Told(&[
                "|move|p1a: Tauros|Splash|p2a: Snorlax",
                "|-activate|p1a: Tauros|Splash",
                "|move|p2a: Snorlax|Explosion|p1a: Tauros",
                "|-damage|p1a: Tauros|0 fnt of 353",
                "|faint|p1a: Tauros",
                "|faint|p2a: Snorlax",
            ]),
        ],
    },
    Row {
        name: "a fault ends the battle at once",
        teams: Facing("Strength", "Splash"),
        steps: &[
            Start,
            Put(Fact::Status(USER, Status::Poisoned)),
            Put(Fact::Defense(FOE, 6, 0)),
            Turn(0x11, 0x11, 7),
            ToldSome(2, &[(0, "|move|p1a: Tauros|Strength|p2a: Snorlax")]),
            Is(Fact::Hp(USER, 353)),
            Is(Fact::Outcome(Outcome::Fault(1))),
            Is(Fact::Requests(Request::Pass, Request::Pass)),
        ],
    },
];

// The user is in the middle of a Wrap that dealt 10 damage.
static CONTINUED: [Row; 5] = [
    Row {
        name: "trapping ends with a whole turn",
        teams: Facing("Wrap", "Splash"),
        steps: &[
            Start,
            Put(Fact::CurrentMove(USER, UsedMove::Slot(1))),
            Put(Fact::PickedMove(USER, UsedMove::Slot(1))),
            Put(Fact::Trapping(USER, Some(1))),
            Put(Fact::LastDamage(10)),
            Turn(0x10, 0x10, 0),
            Told(&[
                "|move|p1a: Tauros|Wrap|p2a: Snorlax",
                "|-damage|p2a: Snorlax|513/523",
                "|cant|p2a: Snorlax|partiallytrapped",
                "|turn|2",
            ]),
            Is(Fact::Trapping(USER, None)),
            Next(0),
        ],
    },
    Row {
        name: "trapping has one turn left",
        teams: Facing("Wrap", "Splash"),
        steps: &[
            Start,
            Put(Fact::CurrentMove(USER, UsedMove::Slot(1))),
            Put(Fact::PickedMove(USER, UsedMove::Slot(1))),
            Put(Fact::Trapping(USER, Some(2))),
            Put(Fact::LastDamage(10)),
            Turn(0x10, 0x10, 0),
            Told(&[
                "|move|p1a: Tauros|Wrap|p2a: Snorlax",
                "|-damage|p2a: Snorlax|513/523",
                "|cant|p2a: Snorlax|partiallytrapped",
                "|turn|2",
            ]),
            Is(Fact::Trapping(USER, Some(1))),
            Next(0),
        ],
    },
    Row {
        name: "trapping stays where the turn was cut",
        teams: Facing("Wrap", "Splash"),
        steps: &[
            Start,
            Put(Fact::CurrentMove(USER, UsedMove::Slot(1))),
            Put(Fact::PickedMove(USER, UsedMove::Slot(1))),
            Put(Fact::Trapping(USER, Some(1))),
            Put(Fact::LastDamage(10)),
            Put(Fact::Hp(FOE, 10)),
            Turn(0x10, 0x10, 0),
            Told(&[
                "|move|p1a: Tauros|Wrap|p2a: Snorlax",
                "|-damage|p2a: Snorlax|0 fnt of 523",
                "|faint|p2a: Snorlax",
            ]),
            Is(Fact::Trapping(USER, Some(0))),
        ],
    },
    Row {
        name: "Wrap is used anew where the foe switches",
        teams: Members(
            &[("Tauros", "Wrap")],
            &[("Snorlax", "Splash"), ("Tauros", "Splash")],
        ),
        steps: &[
            Start,
            Put(Fact::CurrentMove(USER, UsedMove::Slot(1))),
            Put(Fact::Trapping(USER, Some(2))),
            Put(Fact::Pp(USER, 1, 0)),
            Turn(0x10, 0x22, 0),
            // 0 is drawn for the turns. 1 is a critical hit, since 8 is below 55.
            ToldSome(
                5,
                &[
                    (1, "|move|p1a: Tauros|Wrap|p2a: Tauros"),
                    (2, "|-crit|p2a: Tauros"),
                ],
            ),
            Is(Fact::Trapping(USER, Some(1))),
            Is(Fact::Pp(USER, 1, 63)),
            Is(Fact::Place(FOE, 2)),
            Is(Fact::PickedMove(USER, UsedMove::Nothing)),
        ],
    },
    Row {
        name: "a sleeper that Haze met is skipped",
        teams: Facing("Haze", "Splash"),
        steps: &[
            Start,
            Put(Fact::Status(
                FOE,
                Status::Asleep {
                    turns: 5,
                    marked: false,
                },
            )),
            Put(Fact::Condition(USER, Conditions::SEEDED, true)),
            Turn(0x11, 0x10, 0),
            Told(&[
                "|move|p1a: Tauros|Haze|p2a: Snorlax",
                "|-clearallboost",
                "|-curestatus|p2a: Snorlax|slp",
                "|turn|2",
            ]),
        ],
    },
];

// The battle of crates/battle_tool/stdin, and the lines of its stdout.
static STORED_RUN: [Row; 1] = [Row {
    name: "the stored run",
    teams: Alone("Strength", 100),
    steps: &[
        Start,
        Told(&[
            "|switch|p1a: Tauros|Tauros|353/353 at place 1",
            "|switch|p2a: Tauros|Tauros|353/353 at place 1",
            "|turn|1",
        ]),
        Link(SEED),
        LinkTurn(0x11, 0x11),
        Told(&[
            "|move|p1a: Tauros|Strength|p2a: Tauros",
            "|-crit|p2a: Tauros",
            "|-damage|p2a: Tauros|149/353",
            "|move|p2a: Tauros|Strength|p1a: Tauros",
            "|-damage|p1a: Tauros|263/353",
            "|turn|2",
        ]),
        LinkTurn(0x11, 0x11),
        Told(&[
            "|move|p1a: Tauros|Strength|p2a: Tauros",
            "|-crit|p2a: Tauros",
            "|-damage|p2a: Tauros|0 fnt of 353",
            "|faint|p2a: Tauros",
            "|win|p1",
        ]),
        Is(Fact::Outcome(Outcome::WinOne)),
    ],
}];

#[test]
fn who_acts_first() -> Result<(), Box<dyn Error>> {
    play(&ORDER)
}

#[test]
fn turns_with_switches() -> Result<(), Box<dyn Error>> {
    play(&SWITCHES)
}

#[test]
fn falls_and_faults_in_a_turn() -> Result<(), Box<dyn Error>> {
    play(&ENDS)
}

#[test]
fn moves_that_go_on() -> Result<(), Box<dyn Error>> {
    play(&CONTINUED)
}

#[test]
fn the_stored_run_is_told_as_it_was_printed() -> Result<(), Box<dyn Error>> {
    play(&STORED_RUN)
}
