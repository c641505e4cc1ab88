//! Tables (docs/MECHANICS.md, "Hosts"): a battle that is played through a host, and its room and both tellers called directly.
use crate::events::{ONE, TWO};
use crate::teams::{SEED, member};
use gen1::generated::events::LogBuf;
use gen1::generated::host::{
    Host, HostRefusal, HostReply, HouseRules, Replied, Row, apply, awaited, begin, is_closed,
    message_to, notice_to_all, number, result, run,
};
use gen1::generated::layout::Packed;
use gen1::generated::machine::{Outcome, Side};
use gen1::generated::player::{HpForm, Teller};
use gen1::generated::rolls::LinkRandom;
use gen1::generated::room::plain::{PlainRoom, begin as begin_room, choices, reseed, submit};
use gen1::generated::stats::Team;
use std::error::Error;

/// A row, without numbers but in `Draws`.
#[derive(Clone, Copy)]
enum Step {
    Submits(Side, u32, u8),
    Draws(Side, u32, u8),
    Cancels(Side, u32),
    Expires(Side, u32),
    OffersDraw(Side),
    Forfeits(Side),
}

const KEPT: HostReply = Ok(Replied::Kept);

const ENDED: HostReply = Ok(Replied::Ended);

// The battle draws these numbers in its second pair.
const NUMBERS: [u8; 10] = [9, 8, 7, 6, 5, 4, 3, 2, 1, 0];

// Side 1 brings its third member out, which is reported to side 2 as the second. Then its time runs out, and its first choice is made.
static STEPS: [(Step, HostReply); 13] = [
    (Step::Submits(ONE, 0, 0x23), KEPT),
    (Step::Submits(ONE, 0, 0x11), Err(HostRefusal::AlreadyChosen)),
    (Step::Cancels(TWO, 0), Err(HostRefusal::NothingChosen)),
    (Step::Cancels(ONE, 1), Err(HostRefusal::Stale(0))),
    (Step::Cancels(ONE, 0), KEPT),
    (Step::Submits(ONE, 0, 0x99), Err(HostRefusal::NotOffered)),
    (Step::Submits(ONE, 0, 0x23), KEPT),
    (Step::OffersDraw(TWO), KEPT),
    (Step::Submits(TWO, 0, 0x11), ENDED),
    (Step::Submits(TWO, 0, 0x11), Err(HostRefusal::Stale(1))),
    (Step::Expires(ONE, 1), KEPT),
    (Step::Expires(ONE, 1), Err(HostRefusal::AlreadyChosen)),
    (Step::Draws(TWO, 1, 0x11), ENDED),
];

fn row_of(step: Step) -> Row {
    match step {
        Step::Submits(side, number, byte) => Row::Submit {
            side,
            number,
            byte,
            numbers: None,
        },
        Step::Draws(side, number, byte) => Row::Submit {
            side,
            number,
            byte,
            numbers: Some(LinkRandom::new(NUMBERS)),
        },
        Step::Cancels(side, number) => Row::Cancel { side, number },
        Step::Expires(side, number) => Row::Expire {
            side,
            number,
            numbers: None,
        },
        Step::OffersDraw(side) => Row::OfferDraw(side),
        Step::Forfeits(side) => Row::Forfeit(side),
    }
}

fn team() -> Result<Team, Box<dyn Error>> {
    Ok(Team::new(&[
        member("Tauros", &["Strength"])?,
        member("Gengar", &["Splash"])?,
        member("Chansey", &["Strength"])?,
    ])?)
}

fn room() -> Result<PlainRoom, Box<dyn Error>> {
    let team = team()?;
    Ok(PlainRoom {
        battle: Packed::new(&team, &team, SEED),
        number: 7,
        log_length: 9,
        one: 17,
        two: 17,
        forfeit: 2,
        unused: [1, 2, 3],
        log: [170; 512],
    })
}

// A table with old bytes, which are gone once it begins.
fn table(late_forfeits: bool) -> Result<Host, Box<dyn Error>> {
    let mut host = Host {
        room: room()?,
        one: Teller::new(TWO, HpForm::Exact),
        two: Teller::new(TWO, HpForm::Exact),
        ending: 2,
        draw: 2,
        may_cancel: 2,
        late_forfeits: 2,
    };
    let rules = HouseRules {
        may_cancel: true,
        late_forfeits,
    };
    begin(&mut host, HpForm::Bar, rules);
    Ok(host)
}

fn play(host: &mut Host, steps: &[(Step, HostReply)]) {
    for (at, step) in steps.iter().enumerate() {
        assert_eq!(apply(host, &row_of(step.0)), step.1, "at {at}");
    }
}

fn log_of(room: &PlainRoom) -> &[u8] {
    &room.log[..usize::from(room.log_length).min(512)]
}

fn told(teller: &mut Teller, log: &[u8]) -> Result<LogBuf, Box<dyn Error>> {
    if log.len() > 512 {
        return Err("too long".into());
    }
    match teller.tell_log(log) {
        Ok(told) => Ok(told),
        Err(_) => Err("not a log".into()),
    }
}

// Both sides receive what these tellers report of the log of the room, and the audience what both report.
fn expect_told(
    host: &Host,
    room: &PlainRoom,
    tellers: &mut (Teller, Teller),
) -> Result<(), Box<dyn Error>> {
    let mut again = tellers.1;
    let one = told(&mut tellers.0, log_of(room))?;
    let two = told(&mut tellers.1, log_of(room))?;
    let both = told(&mut again, one.as_slice())?;
    let first = message_to(host, ONE);
    let second = message_to(host, TWO);
    let third = notice_to_all(host);
    assert_eq!(
        &first.log[..usize::from(first.log_length).min(512)],
        one.as_slice(),
    );
    assert_eq!(
        &second.log[..usize::from(second.log_length).min(512)],
        two.as_slice(),
    );
    assert_eq!(
        &third.log[..usize::from(third.log_length).min(512)],
        both.as_slice(),
    );
    assert_eq!(host.room.battle.as_bytes(), room.battle.as_bytes());
    assert_eq!((first.number, second.number), (room.number, room.number),);
    Ok(())
}

#[test]
fn a_table_tells_what_its_tellers_tell() -> Result<(), Box<dyn Error>> {
    let mut host = table(false)?;
    let mut room = room()?;
    begin_room(&mut room);
    let mut tellers = (Teller::new(ONE, HpForm::Bar), Teller::new(TWO, HpForm::Bar));
    expect_told(&host, &room, &mut tellers)?;
    play(&mut host, &STEPS[..9]);
    let _ = submit(&mut room, TWO, 0, 0x11);
    let _ = submit(&mut room, ONE, 0, 0x23);
    expect_told(&host, &room, &mut tellers)?;
    play(&mut host, &STEPS[9..]);
    reseed(&mut room, &LinkRandom::new(NUMBERS));
    let due = choices(&room, ONE).first().copied().unwrap_or(0);
    let _ = submit(&mut room, ONE, 1, due);
    let _ = submit(&mut room, TWO, 1, 0x11);
    expect_told(&host, &room, &mut tellers)?;
    Ok(())
}

static FORFEIT: [(Step, HostReply); 3] = [
    (Step::Submits(TWO, 0, 0x11), KEPT),
    (Step::Expires(ONE, 0), ENDED),
    (Step::Forfeits(TWO), Err(HostRefusal::Over)),
];

static DRAW: [(Step, HostReply); 4] = [
    (Step::OffersDraw(ONE), KEPT),
    (Step::OffersDraw(ONE), KEPT),
    (Step::OffersDraw(TWO), ENDED),
    (Step::OffersDraw(TWO), Err(HostRefusal::Over)),
];

// The log of a win is the byte 26 and the side.
#[test]
fn a_side_that_is_late_forfeits() -> Result<(), Box<dyn Error>> {
    let mut host = table(true)?;
    assert_eq!((awaited(&host), is_closed(&host)), (3, false));
    play(&mut host, &FORFEIT[..1]);
    assert_eq!((awaited(&host), number(&host)), (1, 0));
    play(&mut host, &FORFEIT[1..]);
    assert_eq!((awaited(&host), is_closed(&host)), (0, true));
    assert_eq!((number(&host), result(&host).outcome), (1, Outcome::WinTwo),);
    let sent = message_to(&host, ONE);
    assert_eq!(
        (sent.log_length, &sent.log[..3]),
        (2, [26, 2, 0].as_slice()),
    );
    assert_eq!((sent.own.outcome, sent.own.request), (2, 0));
    assert_eq!((sent.offered, sent.number), (0, 1));
    assert_eq!(
        (
            notice_to_all(&host).outcome,
            notice_to_all(&host).log_length,
        ),
        (2, 2),
    );
    Ok(())
}

// The log of a tie is the byte 27.
#[test]
fn both_sides_agree_on_a_draw() -> Result<(), Box<dyn Error>> {
    let mut host = table(true)?;
    play(&mut host, &DRAW[..2]);
    assert_eq!((message_to(&host, TWO).draw, is_closed(&host)), (1, false),);
    play(&mut host, &DRAW[2..]);
    assert_eq!((number(&host), result(&host).outcome), (1, Outcome::Tie),);
    let sent = message_to(&host, TWO);
    assert_eq!((sent.log_length, sent.log[0], sent.own.outcome), (1, 27, 3),);
    Ok(())
}

// A table that takes the rows again is where it was.
#[test]
fn rows_are_run_again() -> Result<(), Box<dyn Error>> {
    let mut host = table(true)?;
    play(&mut host, &FORFEIT[..2]);
    let mut again = table(true)?;
    let rows = [row_of(FORFEIT[0].0), row_of(FORFEIT[1].0)];
    let mut replies = [KEPT; 2];
    run(&mut again, &rows, &mut replies);
    assert_eq!(replies.as_slice(), [KEPT, ENDED].as_slice());
    assert_eq!((again.ending, again.room.two), (host.ending, host.room.two),);
    Ok(())
}
