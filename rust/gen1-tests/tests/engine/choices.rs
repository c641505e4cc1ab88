//! What each side may choose (docs/MECHANICS.md, "Offered choices"). Each side has three Mew with four moves each.
use crate::rows::Step::{Offered, Put, SendOut, Start};
use crate::rows::Teams::Mews;
use crate::rows::{FOE, Fact, Row, USER, play};
use gen1::generated::layout::Conditions;
use gen1::generated::machine::{DisabledSlot, Outcome, Request};
use gen1::generated::stats::Status;
use std::error::Error;

static OFFERS: [Row; 18] = [
    Row {
        name: "both pass before the first update",
        teams: Mews,
        steps: &[Offered(USER, &[0x00]), Offered(FOE, &[0x00])],
    },
    Row {
        name: "moves come first",
        teams: Mews,
        steps: &[
            Start,
            Offered(USER, &[0x11, 0x12, 0x13, 0x14, 0x22, 0x23]),
            Offered(FOE, &[0x11, 0x12, 0x13, 0x14, 0x22, 0x23]),
        ],
    },
    Row {
        name: "the fallen and who is out are not offered",
        teams: Mews,
        steps: &[
            Start,
            SendOut(USER, 2),
            Offered(USER, &[0x11, 0x12, 0x13, 0x14, 0x21, 0x23]),
            Put(Fact::Hp(USER, 0)),
            SendOut(USER, 1),
            Offered(USER, &[0x11, 0x12, 0x13, 0x14, 0x23]),
        ],
    },
    Row {
        name: "a slot needs PP and no Disable",
        teams: Mews,
        steps: &[
            Start,
            Put(Fact::Pp(USER, 2, 0)),
            Put(Fact::Disabled(
                USER,
                Some(DisabledSlot { slot: 3, turns: 1 }),
            )),
            Offered(USER, &[0x11, 0x14, 0x22, 0x23]),
            Put(Fact::Pp(USER, 1, 0)),
            Put(Fact::Pp(USER, 4, 0)),
            Offered(USER, &[0x10, 0x22, 0x23]),
        ],
    },
    Row {
        name: "who recharges has no choice",
        teams: Mews,
        steps: &[
            Start,
            Put(Fact::Condition(USER, Conditions::RECHARGE, true)),
            Offered(USER, &[0x10]),
        ],
    },
    Row {
        name: "who rages has no choice",
        teams: Mews,
        steps: &[
            Start,
            Put(Fact::Condition(USER, Conditions::RAGE, true)),
            Offered(USER, &[0x10]),
        ],
    },
    Row {
        name: "who thrashes has no choice",
        teams: Mews,
        steps: &[
            Start,
            Put(Fact::Condition(USER, Conditions::THRASH, true)),
            Offered(USER, &[0x10]),
        ],
    },
    Row {
        name: "who charges has no choice",
        teams: Mews,
        steps: &[
            Start,
            Put(Fact::Condition(USER, Conditions::CHARGING, true)),
            Offered(USER, &[0x10]),
        ],
    },
    Row {
        name: "a sleeper may be switched",
        teams: Mews,
        steps: &[
            Start,
            Put(Fact::Status(
                USER,
                Status::Asleep {
                    turns: 1,
                    marked: false,
                },
            )),
            Offered(USER, &[0x10, 0x22, 0x23]),
        ],
    },
    Row {
        name: "who is frozen may be switched",
        teams: Mews,
        steps: &[
            Start,
            Put(Fact::Status(USER, Status::Frozen)),
            Offered(USER, &[0x10, 0x22, 0x23]),
        ],
    },
    Row {
        name: "who bides may be switched",
        teams: Mews,
        steps: &[
            Start,
            Put(Fact::Condition(USER, Conditions::BIDE, true)),
            Offered(USER, &[0x10, 0x22, 0x23]),
        ],
    },
    Row {
        name: "who traps its foe may be switched",
        teams: Mews,
        steps: &[
            Start,
            Put(Fact::Condition(USER, Conditions::TRAPPING, true)),
            Offered(USER, &[0x10, 0x22, 0x23]),
        ],
    },
    Row {
        name: "who is held may be switched",
        teams: Mews,
        steps: &[
            Start,
            Put(Fact::Condition(FOE, Conditions::TRAPPING, true)),
            Offered(USER, &[0x10, 0x22, 0x23]),
        ],
    },
    Row {
        name: "a replacement is a switch",
        teams: Mews,
        steps: &[
            Start,
            Put(Fact::Fallen(USER)),
            Put(Fact::Requests(Request::Switch, Request::Pass)),
            Offered(USER, &[0x22, 0x23]),
            Offered(FOE, &[0x00]),
        ],
    },
    Row {
        name: "nothing is offered once side 1 has won",
        teams: Mews,
        steps: &[
            Start,
            Put(Fact::Outcome(Outcome::WinOne)),
            Offered(USER, &[]),
            Offered(FOE, &[]),
        ],
    },
    Row {
        name: "nothing is offered once side 2 has won",
        teams: Mews,
        steps: &[
            Start,
            Put(Fact::Outcome(Outcome::WinTwo)),
            Offered(USER, &[]),
            Offered(FOE, &[]),
        ],
    },
    Row {
        name: "nothing is offered after a tie",
        teams: Mews,
        steps: &[
            Start,
            Put(Fact::Outcome(Outcome::Tie)),
            Offered(USER, &[]),
            Offered(FOE, &[]),
        ],
    },
    Row {
        name: "nothing is offered after a fault",
        teams: Mews,
        steps: &[
            Start,
            Put(Fact::Outcome(Outcome::Fault(1))),
            Offered(USER, &[]),
            Offered(FOE, &[]),
        ],
    },
];

#[test]
fn offered_choices() -> Result<(), Box<dyn Error>> {
    play(&OFFERS)
}
