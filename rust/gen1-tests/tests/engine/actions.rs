//! Actions of one side (docs/MECHANICS.md, "Action", "Going on", "Charging", "Kept accuracy"), with the bytes of
//! docs/LAYOUT.md and the rows of docs/TABLES.md.
//!
//! Each side has a Tauros out, of 353 HP. At level 100 a move of power P without a critical hit deals `42 * P * 74 /
//! 72 / 50 + 2`, and half as much again if it is Normal. A sweep from 178 draws no critical hit, the factor 217, and
//! then 180. A sweep from 253 draws no critical hit either. It passes 254 and draws the factor 255, and then 0.
use crate::rows::Step::{
    Act, ActTested, Changed, Is, Link, LinkAct, Mark, Next, NextLink, Over, Put, Start, Tested,
    Told, ToldSome,
};
use crate::rows::Teams::Alone;
use crate::rows::{FOE, Fact, Row, SLOT, USER, play};
use gen1::generated::layout::Conditions;
use gen1::generated::machine::{Outcome, Pick, UsedMove};
use gen1::generated::tables::{Element, Stat};
use std::error::Error;

static ACTIONS: [Row; 14] = [
    Row {
        name: "Dig is prepared, and costs PP as it strikes",
        teams: Alone("Dig", 100),
        steps: &[
            Start,
            Mark,
            Act(SLOT, 178),
            Over(false),
            Next(178),
            // Charging is bit 4, and Invulnerable bit 5. The current move is at 197.
            Changed(&[(185, &[48]), (197, &[1])]),
            Told(&["|-prepare|p1a: Tauros|Dig"]),
            Act(Pick::Continue, 178),
            Over(false),
            Next(181),
            // 88 with the factor 217 is 74. HP of 279 are 23 + 256, and 9 of 10 PP are left.
            Changed(&[(3, &[74]), (208, &[23, 1]), (43, &[9]), (197, &[1])]),
            Told(&[
                "|move|p1a: Tauros|Dig|p2a: Tauros",
                "|-damage|p2a: Tauros|279/353",
            ]),
        ],
    },
    // 106 with the factor 217 is 90, and HP of 263 are 7 + 256.
    Row {
        name: "a move costs PP",
        teams: Alone("Strength", 100),
        steps: &[
            Start,
            Put(Fact::Pp(USER, 1, 15)),
            Mark,
            Act(SLOT, 178),
            Over(false),
            Next(181),
            Changed(&[(3, &[90]), (208, &[7, 1]), (43, &[14]), (197, &[1])]),
            Told(&[
                "|move|p1a: Tauros|Strength|p2a: Tauros",
                "|-damage|p2a: Tauros|263/353",
            ]),
        ],
    },
    Row {
        name: "a move costs the last PP",
        teams: Alone("Strength", 100),
        steps: &[
            Start,
            Put(Fact::Pp(USER, 1, 1)),
            Mark,
            Act(SLOT, 178),
            Over(false),
            Next(181),
            Changed(&[(3, &[90]), (208, &[7, 1]), (43, &[0]), (197, &[1])]),
            Told(&[
                "|move|p1a: Tauros|Strength|p2a: Tauros",
                "|-damage|p2a: Tauros|263/353",
            ]),
        ],
    },
    Row {
        name: "a move with 0 PP has 63 after it",
        teams: Alone("Strength", 100),
        steps: &[
            Start,
            Put(Fact::Pp(USER, 1, 0)),
            Mark,
            Act(SLOT, 178),
            Over(false),
            Next(181),
            Changed(&[(3, &[90]), (208, &[7, 1]), (43, &[63]), (197, &[1])]),
            Told(&[
                "|move|p1a: Tauros|Strength|p2a: Tauros",
                "|-damage|p2a: Tauros|263/353",
            ]),
        ],
    },
    // Ten link numbers of 217: not critical, since 206 isn't below 55, then the factor 236, and then below 255.
    Row {
        name: "an action draws with any generator",
        teams: Alone("Strength", 100),
        steps: &[
            Start,
            Link([217; 10]),
            LinkAct(SLOT),
            Over(false),
            // 106 * 236 / 255 is 98.
            Is(Fact::Hp(FOE, 255)),
            NextLink(3),
            Tested(255),
        ],
    },
    // 178 is not critical, 179 is below 255, 180 isn't a factor, and 181 is the factor 218. 106 with it is 90.
    Row {
        name: "a hit test comes before the roll",
        teams: Alone("Strength", 100),
        steps: &[
            Start,
            Mark,
            ActTested(SLOT, 178),
            Over(false),
            Next(182),
            Changed(&[(3, &[90]), (208, &[7, 1]), (43, &[14]), (197, &[1])]),
            Told(&[
                "|move|p1a: Tauros|Strength|p2a: Tauros",
                "|-damage|p2a: Tauros|263/353",
            ]),
            Tested(255),
        ],
    },
    // 253 is not critical, and 254 isn't below 216.
    Row {
        name: "a miss before the roll draws no factor",
        teams: Alone("Take Down", 100),
        steps: &[
            Start,
            Mark,
            ActTested(SLOT, 253),
            Over(false),
            Next(255),
            Told(&[
                "|move|p1a: Tauros|Take Down|p2a: Tauros",
                "|-miss|p1a: Tauros",
            ]),
            Tested(216),
        ],
    },
    Row {
        name: "Struggle costs no PP, and recoils",
        teams: Alone("Strength", 100),
        steps: &[
            Start,
            Mark,
            Act(Pick::Use(UsedMove::Struggle), 178),
            Over(false),
            Next(181),
            // 67 with the factor 217 is 57, half of which is 28: HP 296 and 325. Struggle is number 5 as the current move.
            Changed(&[(3, &[57]), (208, &[40, 1]), (28, &[69, 1]), (197, &[5])]),
            Told(&[
                "|move|p1a: Tauros|Struggle|p2a: Tauros",
                "|-damage|p2a: Tauros|296/353",
                "|-damage|p1a: Tauros|325/353|[from] Recoil",
            ]),
        ],
    },
    Row {
        name: "a kick that misses crashes",
        teams: Alone("Jump Kick", 100),
        steps: &[
            Start,
            // From 240: not critical, a factor, and 242, which isn't below the accuracy byte of 242.
            Act(SLOT, 240),
            Over(false),
            Next(243),
            Told(&[
                "|move|p1a: Tauros|Jump Kick|p2a: Tauros",
                "|-miss|p1a: Tauros",
                "|-damage|p1a: Tauros|352/353",
            ]),
            Is(Fact::Hp(FOE, 353)),
            Is(Fact::LastDamage(1)),
        ],
    },
    Row {
        name: "a ghost is immune",
        teams: Alone("Strength", 100),
        steps: &[
            Start,
            Put(Fact::Types(FOE, Element::Ghost, Element::Poison)),
            // A critical draw and a hit test, without a factor between them.
            Act(SLOT, 178),
            Over(false),
            Next(180),
            Told(&[
                "|move|p1a: Tauros|Strength|p2a: Tauros",
                "|-immune|p2a: Tauros",
            ]),
            Is(Fact::Hp(FOE, 353)),
            Is(Fact::LastDamage(0)),
        ],
    },
    Row {
        name: "a late effect hits below its accuracy byte",
        teams: Alone("Growl", 100),
        steps: &[
            Start,
            Act(SLOT, 254),
            Over(false),
            Next(255),
            Is(Fact::Stage(FOE, Stat::Attack, 5)),
            Told(&[
                "|move|p1a: Tauros|Growl|p2a: Tauros",
                "|-unboost|p2a: Tauros|atk|1",
            ]),
        ],
    },
    Row {
        name: "a late effect misses at its accuracy byte",
        teams: Alone("Growl", 100),
        steps: &[
            Start,
            Act(SLOT, 255),
            Over(false),
            Next(0),
            Is(Fact::Stage(FOE, Stat::Attack, 6)),
            Told(&["|move|p1a: Tauros|Growl|p2a: Tauros", "|-miss|p1a: Tauros"]),
        ],
    },
    Row {
        name: "who is held does nothing",
        teams: Alone("Strength", 100),
        steps: &[
            Start,
            Mark,
            Act(Pick::Held, 9),
            Over(false),
            Next(9),
            Changed(&[]),
            Told(&["|cant|p1a: Tauros|partiallytrapped"]),
        ],
    },
    Row {
        name: "Psywave at level 2 draws until a number is 1 or 2",
        teams: Alone("Psywave", 2),
        steps: &[
            Start,
            Is(Fact::Hp(FOE, 16)),
            // It hits below 204.
            Act(SLOT, 0),
            Over(false),
            Next(2),
            Is(Fact::Outcome(Outcome::Ongoing)),
            Is(Fact::Hp(FOE, 15)),
        ],
    },
];

static FAULTS: [Row; 3] = [
    Row {
        name: "a Defense of 512 under Reflect ends the battle",
        teams: Alone("Strength", 100),
        steps: &[
            Start,
            Put(Fact::Defense(FOE, 12, 512)),
            Put(Fact::Condition(FOE, Conditions::REFLECT, true)),
            Mark,
            Act(SLOT, 178),
            Over(true),
            Next(179),
            Is(Fact::Outcome(Outcome::Fault(1))),
            // What came before the fault stays: 14 PP, and the current move.
            Put(Fact::Outcome(Outcome::Ongoing)),
            Changed(&[(43, &[14]), (197, &[1])]),
            Told(&["|move|p1a: Tauros|Strength|p2a: Tauros"]),
        ],
    },
    Row {
        name: "a fault keeps the accuracy of Rage",
        teams: Alone("Rage", 100),
        steps: &[
            Start,
            Put(Fact::CurrentMove(USER, UsedMove::Slot(1))),
            Put(Fact::Condition(USER, Conditions::RAGE, true)),
            Put(Fact::KeptAccuracy(USER, 168)),
            Put(Fact::Defense(FOE, 12, 3)),
            Act(Pick::Continue, 178),
            Over(true),
            Next(179),
            Is(Fact::Outcome(Outcome::Fault(1))),
            Is(Fact::KeptAccuracy(USER, 168)),
            Is(Fact::Pp(USER, 1, 20)),
        ],
    },
    Row {
        name: "Psywave at level 1 ends the battle",
        teams: Alone("Psywave", 1),
        steps: &[
            Start,
            Is(Fact::Hp(FOE, 13)),
            // It hits below 204.
            Act(SLOT, 0),
            Over(true),
            Next(1),
            Is(Fact::Outcome(Outcome::Fault(2))),
            Is(Fact::Hp(FOE, 13)),
        ],
    },
];

static CONTINUED: [Row; 5] = [
    Row {
        name: "Rage keeps its accuracy",
        teams: Alone("Rage", 100),
        steps: &[
            Start,
            // The foe's evasion at +1 makes 66 percent of the kept byte, each time.
            Put(Fact::Evasion(FOE, 7)),
            Act(SLOT, 253),
            Over(false),
            Next(1),
            Is(Fact::Hp(FOE, 325)),
            Is(Fact::KeptAccuracy(USER, 168)),
            Is(Fact::Pp(USER, 1, 19)),
            Is(Fact::Condition(USER, Conditions::RAGE, true)),
            ToldSome(3, &[]),
            Act(Pick::Continue, 253),
            Over(false),
            Next(1),
            Is(Fact::Hp(FOE, 297)),
            Is(Fact::KeptAccuracy(USER, 110)),
            Is(Fact::Pp(USER, 1, 19)),
            Is(Fact::Condition(USER, Conditions::RAGE, true)),
            ToldSome(2, &[]),
            Act(Pick::Continue, 253),
            Over(false),
            Next(1),
            Is(Fact::Hp(FOE, 269)),
            Is(Fact::KeptAccuracy(USER, 72)),
            Is(Fact::Pp(USER, 1, 19)),
            Is(Fact::Condition(USER, Conditions::RAGE, true)),
            ToldSome(2, &[]),
        ],
    },
    Row {
        name: "thrashing ends in confusion",
        teams: Alone("Thrash", 100),
        steps: &[
            Start,
            // 252 is even, so two more turns come. As a count of confusion it is 2.
            Act(SLOT, 252),
            Over(false),
            Next(1),
            Is(Fact::Thrash(USER, Some(2))),
            Is(Fact::KeptAccuracy(USER, 255)),
            Is(Fact::Hp(FOE, 235)),
            Is(Fact::Pp(USER, 1, 19)),
            Act(Pick::Continue, 253),
            Over(false),
            Next(1),
            Is(Fact::Thrash(USER, Some(1))),
            Is(Fact::KeptAccuracy(USER, 255)),
            Is(Fact::Hp(FOE, 117)),
            Is(Fact::Pp(USER, 1, 19)),
            Act(Pick::Continue, 252),
            Over(false),
            Next(1),
            Is(Fact::Thrash(USER, None)),
            Is(Fact::KeptAccuracy(USER, 0)),
            Is(Fact::Hp(FOE, 0)),
            Is(Fact::Pp(USER, 1, 19)),
            Told(&[
                "|move|p1a: Tauros|Thrash|p2a: Tauros",
                "|-start|p1a: Tauros|confusion",
                "|-damage|p2a: Tauros|0 fnt of 353",
            ]),
            Is(Fact::Confused(USER, Some(2))),
        ],
    },
    Row {
        name: "Wrap with 0 PP is used anew",
        teams: Alone("Wrap", 100),
        steps: &[
            Start,
            // It was to continue, and the member that it trapped has left.
            Put(Fact::CurrentMove(USER, UsedMove::Slot(1))),
            Put(Fact::Pp(USER, 1, 0)),
            Act(Pick::Continue, 252),
            Over(false),
            Next(1),
            Is(Fact::Pp(USER, 1, 63)),
            Is(Fact::Trapping(USER, Some(1))),
            Told(&[
                "|move|p1a: Tauros|Wrap|p2a: Tauros",
                "|-damage|p2a: Tauros|332/353",
            ]),
        ],
    },
    Row {
        name: "Wrap goes on without a draw",
        teams: Alone("Wrap", 100),
        steps: &[
            Start,
            Put(Fact::CurrentMove(USER, UsedMove::Slot(1))),
            Put(Fact::Pp(USER, 1, 0)),
            Put(Fact::Trapping(USER, Some(1))),
            Put(Fact::LastDamage(21)),
            Mark,
            Act(Pick::Continue, 9),
            Over(false),
            Next(9),
            // The turns are at 194. HP of 332 are 76 + 256.
            Changed(&[(194, &[0]), (208, &[76, 1])]),
            Told(&[
                "|move|p1a: Tauros|Wrap|p2a: Tauros",
                "|-damage|p2a: Tauros|332/353",
            ]),
        ],
    },
    Row {
        name: "Bide stores damage and releases it",
        teams: Alone("Bide", 100),
        steps: &[
            Start,
            Act(SLOT, 4),
            Over(false),
            Next(5),
            Is(Fact::Hp(FOE, 353)),
            Is(Fact::Pp(USER, 1, 9)),
            Told(&["|-start|p1a: Tauros|Bide"]),
            Put(Fact::LastDamage(50)),
            Act(Pick::Continue, 4),
            Over(false),
            Next(4),
            Is(Fact::Hp(FOE, 353)),
            Is(Fact::Pp(USER, 1, 9)),
            Told(&["|-activate|p1a: Tauros|Bide"]),
            Put(Fact::LastDamage(50)),
            Act(Pick::Continue, 4),
            Over(false),
            Next(4),
            Is(Fact::Hp(FOE, 153)),
            Is(Fact::Pp(USER, 1, 9)),
            Told(&["|-end|p1a: Tauros|Bide", "|-damage|p2a: Tauros|153/353"]),
        ],
    },
];

#[test]
fn actions() -> Result<(), Box<dyn Error>> {
    play(&ACTIONS)
}

#[test]
fn faults() -> Result<(), Box<dyn Error>> {
    play(&FAULTS)
}

#[test]
fn moves_that_go_on() -> Result<(), Box<dyn Error>> {
    play(&CONTINUED)
}
