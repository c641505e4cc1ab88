//! A generator that counts down, and the operations with it, on numbers from worked calculations.
use crate::comparing::{USER, named};
use crate::script::{play, set_up};
use gen1::generated::hits::{Hit, critical, factor, hit_test};
use gen1::generated::machine::{EventList, Pick, UsedMove};
use gen1::generated::rolls::{ByteTest, Look, Rolls, Steady, draw_from, search_from};
use gen1::generated::stats::Status;
use gen1::generated::status::{Gate, gate};
use gen1::generated::tables::MoveId;
use std::error::Error;

/// A generator that counts down by 1, with 255 after 0. Any 256 draws in a row hold every byte, and so do any 1,000,
/// which is its `SPAN`.
#[derive(Clone, Copy, PartialEq, Eq, Debug)]
pub(crate) struct Countdown {
    number: u8,
}

impl Countdown {
    /// A countdown whose first draw is the number.
    pub(crate) fn new(number: u8) -> Self {
        Countdown { number }
    }
}

impl Steady for Countdown {
    const SPAN: usize = 1000;

    fn next_byte(&mut self) -> u8 {
        let drawn = self.number;
        self.number = drawn.wrapping_sub(1);
        drawn
    }
}

impl Rolls for Countdown {
    fn draw(&mut self) -> u8 {
        draw_from(self)
    }

    fn until_as(&mut self, test: ByteTest, look: Look) -> Option<u8> {
        search_from(self, test, look)
    }
}

const STRENGTH: Pick = Pick::Use(UsedMove::Slot(1));

fn strength() -> Result<MoveId, Box<dyn Error>> {
    named("Strength")
}

#[test]
fn a_countdown() {
    let mut random = Countdown::new(1);
    for want in [1, 0, 255, 254] {
        assert_eq!(random.draw(), want);
    }
    assert_eq!(random, Countdown::new(253));
}

// The base Speed of Tauros is 110, and a draw is critical below 110 / 2: 6 is 48 rotated, 7 is 56, 198 is 54 and 230 is 55 (docs/MECHANICS.md, "Critical hits").
#[test]
fn critical_draws() -> Result<(), Box<dyn Error>> {
    let battle = set_up("single")?;
    for (number, is_critical) in [(6, true), (7, false), (198, true), (230, false)] {
        assert_eq!(
            critical(&battle, USER, strength()?, &mut Countdown::new(number)),
            is_critical,
        );
    }
    let mut random = Countdown::new(0);
    assert!(critical(&battle, USER, strength()?, &mut random),);
    assert_eq!(random, Countdown::new(255));
    Ok(())
}

// Rotated, 179 is 217. 177 is 216, which is too low, and so is each even number. From 178 on, 255 is the first factor
// (docs/MECHANICS.md, "Factors").
#[test]
fn factors() {
    assert_eq!(factor(100, &mut Countdown::new(179)), 85);
    assert_eq!(factor(100, &mut Countdown::new(255)), 100);
    assert_eq!(factor(1, &mut Countdown::new(179)), 1);
    let mut random = Countdown::new(180);
    assert_eq!(factor(100, &mut random), 85);
    assert_eq!(random, Countdown::new(178));
    assert_eq!(factor(1, &mut random), 1);
    assert_eq!(random, Countdown::new(178));
    assert_eq!(factor(100, &mut random), 100);
    assert_eq!(random, Countdown::new(254));
}

// Below the bound, at it, and at a stage of accuracy (docs/MECHANICS.md, "Hit test").
#[test]
fn hit_tests() -> Result<(), Box<dyn Error>> {
    let mut battle = set_up("single")?;
    assert!(
        hit_test(
            &mut battle,
            USER,
            strength()?,
            255,
            &mut Countdown::new(254)
        )
        .hit,
    );
    assert!(
        !hit_test(
            &mut battle,
            USER,
            strength()?,
            255,
            &mut Countdown::new(255)
        )
        .hit,
    );
    let mut random = Countdown::new(76);
    battle.put_accuracy(USER, 5);
    let missed = hit_test(&mut battle, USER, strength()?, 116, &mut random);
    // 66 percent of 116, rounded down.
    assert_eq!(
        missed,
        Hit {
            hit: false,
            kept: 76,
        },
    );
    let hit = hit_test(&mut battle, USER, strength()?, 116, &mut random);
    assert_eq!(
        hit,
        Hit {
            hit: true,
            kept: 76,
        },
    );
    assert_eq!(random, Countdown::new(74));
    Ok(())
}

// A paralysis at its bound (docs/MECHANICS.md, "Gate").
#[test]
fn gates() -> Result<(), Box<dyn Error>> {
    let mut battle = set_up("single")?;
    let mut random = Countdown::new(0);
    let mut quiet = EventList::new();
    let answer = gate(&mut battle, USER, STRENGTH, &mut random, &mut quiet);
    assert_eq!((answer, random), (Gate::Go, Countdown::new(0)));
    battle.put_status(USER, Status::Paralysed);
    for (number, stops) in [(63, false), (62, true)] {
        let mut events = EventList::new();
        assert_eq!(
            gate(
                &mut battle,
                USER,
                STRENGTH,
                &mut Countdown::new(number),
                &mut events
            )
            .stops(),
            stops,
        );
    }
    let mut events = EventList::new();
    let answer = gate(&mut battle, USER, STRENGTH, &mut random, &mut events);
    assert_eq!((answer, random), (Gate::Stop, Countdown::new(255)));
    Ok(())
}

// A member that is asleep and confused, and was held as the turn began: no turn of either passes, and nothing is
// drawn, although no foe holds it any more (docs/MECHANICS.md, "Gate").
#[test]
fn held() {
    play(
        "single; one.status slp 3; one.confused 2; countdown 255; gate held; gives stop; draws 0; told cant one trapped; becomes",
    );
}

// The accuracy byte of Thunder Wave is 255, so 254 is the first draw that hits (docs/MECHANICS.md, "Early effects").
#[test]
fn an_early_effect() {
    play(
        "single; countdown 254; early Thunder Wave; draws 1; told status two par; is two.status par",
    );
}

// Sleep Powder hits below 191. After 153 comes 152, whose low bits are 0, and then 151, whose low bits are 7
// (docs/MECHANICS.md, "Late effects").
#[test]
fn a_late_effect() {
    play(
        "single; countdown 153; late Sleep Powder; draws 3; told status two slp; is two.status slp 7",
    );
}

// Ice Beam freezes below 26 (docs/MECHANICS.md, "Side effects").
#[test]
fn a_side_effect() {
    play(
        "single; countdown 26; side Ice Beam; draws 1; told; becomes
         side Ice Beam; draws 1; told status two frz; becomes two.status frz",
    );
}

// Disable hits below 140. The foe has its one move in slot 1, which 136 names after 138 and 137. 135 makes the count 8
// (docs/MECHANICS.md, "Side effects").
#[test]
fn a_slot_that_is_drawn() {
    play(
        "single; countdown 139; side Disable; draws 5; told start two Disable; is two.disabled 1 8",
    );
}
