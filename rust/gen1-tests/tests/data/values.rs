//! Ranges, bytes, draws and worked numbers, and devices that fail.
use gen1::adapter::alloc::Global;
use gen1::generated::machine::{
    CantReason, Choice, DamageSource, Device, Event, EventList, FaultCode, Health, HitCount,
    InputFault, Kind, Level, MoveSlot, Outcome, Place, Rules, Side, Sink, Source, StageCount,
    TurnLimit, TurnNumber, Volatile, link, now, read_whole, send, send_all, stat_from_number,
    stat_number,
};
use gen1::generated::rolls::{ByteTest, LinkRandom, Rolls, Sweep, renew, until};
use gen1::generated::tables::Stat;
use gen1_tests::{Broken, Failing};
use std::error::Error;

static TURNS: [(u16, bool); 4] = [(0, false), (1, true), (9999, true), (10000, false)];

static NUMBERS: [(u8, bool, bool, bool, bool, bool); 9] = [
    (0, true, false, false, false, false),
    (1, true, true, true, true, true),
    (2, true, true, true, true, true),
    (3, true, false, true, true, true),
    (5, false, false, true, true, true),
    (6, false, false, false, true, true),
    (7, false, false, false, false, true),
    (100, false, false, false, false, true),
    (101, false, false, false, false, false),
];

#[test]
fn ranges_end_where_they_should() {
    for (number, known) in TURNS {
        assert_eq!(
            TurnLimit::new(number).map(TurnLimit::number),
            known.then_some(number),
        );
        assert_eq!(
            TurnNumber::new(number).map(TurnNumber::number),
            known.then_some(number),
        );
    }
    assert_eq!(TurnLimit::default().number(), 1000);
    for (number, slot, stages, hits, place, level) in NUMBERS {
        assert_eq!(MoveSlot::new(number).is_some(), slot);
        assert_eq!(StageCount::new(number).is_some(), stages);
        assert_eq!(FaultCode::new(number).is_some(), stages);
        assert_eq!(HitCount::new(number).is_some(), hits);
        assert_eq!(
            Place::new(number).map(Place::number),
            place.then_some(number),
        );
        assert_eq!(Level::new(number).is_some(), level);
    }
}

static OUTCOMES: [(Outcome, bool); 5] = [
    (Outcome::Ongoing, false),
    (Outcome::WinOne, true),
    (Outcome::WinTwo, true),
    (Outcome::Tie, true),
    (Outcome::Fault(1), true),
];

#[test]
fn what_ends_a_battle() {
    for (outcome, over) in OUTCOMES {
        assert_eq!((outcome, outcome.is_over()), (outcome, over));
    }
}

static HEALTHS: [(u16, u16, bool); 4] = [
    (0, 11, true),
    (999, 999, true),
    (12, 11, false),
    (9, 10, false),
];

#[test]
fn health_is_within_its_maximum() {
    for (hp, max, known) in HEALTHS {
        let health = Health::new(hp, max, Some(Kind::Burn));
        assert_eq!(health.is_some(), known);
        if let Some(health) = health {
            assert_eq!(
                (health.hp(), health.max(), health.kind()),
                (hp, max, Some(Kind::Burn)),
            );
        }
    }
}

static RULES: [(u8, bool, bool); 4] = [
    (0, false, false),
    (1, true, false),
    (2, false, true),
    (3, true, true),
];

// The rules' two bits (docs/MECHANICS.md, "Rules (sleep clause, freeze clause)").
#[test]
fn rules_are_two_bits() -> Result<(), Box<dyn Error>> {
    for (bits, sleep, freeze) in RULES {
        let rules = Rules::new(bits).ok_or("at most 3")?;
        assert_eq!(rules.bits(), bits);
        assert_eq!(
            (rules.sleep_clause(), rules.freeze_clause()),
            (sleep, freeze),
        );
    }
    assert_eq!(Rules::default().bits(), 0);
    assert_eq!(Rules::new(4), None);
    Ok(())
}

// The bytes of choices (docs/MECHANICS.md, "Offered choices").
#[test]
fn choices_are_bytes() {
    let last_slot = MoveSlot::new(4).map(Choice::Move);
    let last_place = Place::new(6).map(Choice::Switch);
    for (byte, choice) in [
        (0x00, Some(Choice::default())),
        (0x01, None),
        (0x14, last_slot),
        (0x15, None),
        (0x20, None),
        (0x26, last_place),
        (0x27, None),
    ] {
        assert_eq!(Choice::from_byte(byte), choice);
        assert_eq!(choice.map(Choice::byte), choice.is_some().then_some(byte),);
    }
}

// The numbers of fields (docs/MECHANICS.md, "Events").
#[test]
fn numbers_of_log_bytes() {
    assert_eq!(Side::from_number(2), Some(Side::One.other()));
    assert_eq!(Side::Two.number(), 2);
    assert_eq!(Kind::from_number(5), Some(Kind::Paralysis));
    assert_eq!(Kind::Freeze.number(), 4);
    assert_eq!(
        CantReason::from_number(3),
        Some(CantReason::PartiallyTrapped),
    );
    assert_eq!(CantReason::Disabled.number(), 6);
    assert_eq!(DamageSource::from_number(0), Some(DamageSource::Direct),);
    assert_eq!(DamageSource::Confusion.number(), 5);
    assert_eq!(Volatile::from_number(13), Some(Volatile::Splash));
    assert_eq!(Volatile::Trapped.number(), 11);
    assert_eq!(stat_from_number(3), Some(Stat::Speed));
    assert_eq!(stat_number(Stat::Evasion), 6);
    let mut events = EventList::new();
    events.push(Event::default());
    assert_eq!((events.len(), events.capacity()), (1, 64));
}

// Worked draws (docs/MECHANICS.md, "Link numbers").
#[test]
fn link_numbers() {
    let seed = [1, 2, 3, 4, 5, 6, 7, 8, 9, 10];
    for (n, byte) in [(0, 1), (8, 9), (9, 6), (10, 11), (11, 16), (9 * 256, 1)] {
        assert_eq!(link(&seed, n), byte);
    }
}

static STAGES: [(u16, i8, Stat, u8, u16); 10] = [
    (298, 0, Stat::Attack, 1, 149),
    (298, -1, Stat::Attack, 0, 196),
    (298, -1, Stat::Attack, 1, 98),
    (298, -1, Stat::Attack, 2, 49),
    (318, 0, Stat::Speed, 1, 79),
    (3, 0, Stat::Speed, 1, 1),
    (288, 0, Stat::Defense, 1, 288),
    (298, 6, Stat::Attack, 0, 999),
    (298, 127, Stat::Special, 0, 999),
    (5, -6, Stat::Special, 0, 1),
];

// Worked stats (docs/MECHANICS.md, "Stages", "Penalties").
#[test]
fn stats_at_stages() {
    for (unmodified, stage, stat, penalties, want) in STAGES {
        assert_eq!(now(unmodified, stage, stat, penalties), want);
    }
}

#[test]
fn each_write_that_fails_is_told() -> Result<(), Box<dyn Error>> {
    let text = b"|tie\n|win|p1\n".as_slice();
    for takes_nothing in [false, true] {
        for (most, writes) in [(1usize, 13usize), (4, 4), (100, 2)] {
            for left in 0..=writes {
                let mut bytes = Vec::new();
                let mut sink = Device::new(Failing {
                    left,
                    takes_nothing,
                    most,
                    bytes: &mut bytes,
                });
                let result = send_all(&mut sink, &[b"|tie\n", b"|win|p1\n"]);
                assert_eq!(result.is_err(), left < writes);
                assert_eq!(sink.failed(), left < writes);
                let written = (left * most).min(text.len());
                assert!(text.starts_with(bytes.as_slice()));
                assert!(bytes.len() <= written);
            }
        }
    }
    Ok(())
}

#[test]
fn each_read_that_fails_is_told() {
    let input = [7u8; 20];
    for (most, reads) in [(1usize, 21usize), (8, 4), (100, 2)] {
        for left in 0..=reads {
            let mut source = Device::new(Broken {
                left,
                most,
                bytes: input.as_slice(),
            });
            let result = read_whole(Global, &mut source, 20);
            assert_eq!(source.failed(), left < reads);
            match result {
                Ok(bytes) => assert_eq!((left, bytes.as_slice()), (reads, input.as_slice())),
                Err(fault) => assert_eq!((left < reads, fault), (true, InputFault::Device)),
            }
        }
    }
}

#[test]
fn an_input_ends_at_its_limit() -> Result<(), Box<dyn Error>> {
    let input = [7u8; 5000];
    for limit in [5000u16, 4999, 0] {
        let limit = limit as usize;
        let mut source = Device::new(input.as_slice());
        match read_whole(Global, &mut source, limit) {
            Ok(bytes) => assert_eq!((limit, bytes.as_slice()), (5000, input.as_slice())),
            Err(fault) => {
                assert_eq!((limit < 5000, fault), (true, InputFault::TooLong));
                assert_eq!(source.get_ref().len(), 4999usize.saturating_sub(limit));
            }
        }
    }
    Ok(())
}

#[test]
fn devices_are_made_of_stds() -> Result<(), Box<dyn Error>> {
    let mut room = [0u8; 4];
    let mut to_slice = Device::new(room.as_mut_slice());
    assert_eq!(
        (send(&mut to_slice, b"ab").is_ok(), to_slice.failed()),
        (true, false),
    );
    assert_eq!(
        (send(&mut to_slice, b"cde").is_err(), to_slice.failed()),
        (true, true),
    );
    assert_eq!(room, [97u8, 98, 99, 100]);
    let mut to_list = Device::new(Vec::new());
    assert!(send(&mut to_list, b"xyz").is_ok());
    assert_eq!(to_list.into_inner().as_slice(), b"xyz".as_slice());
    Ok(())
}

#[test]
fn nine_numbers_are_drawn_and_then_renewed() {
    let mut random = LinkRandom::new([1, 2, 3, 4, 5, 6, 7, 8, 9, 10]);
    for want in [1, 2, 3, 4, 5, 6, 7, 8, 9, 6, 11, 16] {
        assert_eq!(random.draw(), want);
    }
    assert_eq!([renew(1), renew(2), renew(3)], [6, 11, 16]);
    assert_eq!(random.index(), 3);
    assert_eq!(random.numbers(), [6, 11, 16, 21, 26, 31, 36, 41, 46, 10],);
    let same = LinkRandom::from_parts(3, random.numbers());
    assert_eq!(same, Some(random));
    assert_eq!(LinkRandom::from_parts(9, [0; 10]), None);
}

/// What `until` returns for a byte that it accepts alone, 255, or if it accepts none.
const LAST: ByteTest = ByteTest::RotatedAtLeast(255);

const NONE: ByteTest = ByteTest::PositiveBelow(0);

#[test]
fn the_first_draw_that_meets_a_test() {
    let mut sweep = Sweep::new(0);
    assert_eq!(until(&mut sweep, LAST), Some(255));
    assert_eq!(sweep, Sweep::new(0));
    assert_eq!(until(&mut sweep, NONE), None);
    assert_eq!(sweep, Sweep::new(0));
    // 255 is the last number of its orbit.
    let mut random = LinkRandom::new([252; 10]);
    assert_eq!(until(&mut random, LAST), Some(255));
    assert_eq!(random.index(), 1);
    assert_eq!(
        random.numbers(),
        [255, 255, 255, 255, 255, 255, 255, 255, 255, 252],
    );
    // It is where 2,304 draws lead.
    assert_eq!(until(&mut random, NONE), None);
    assert_eq!(random.index(), 1);
    assert_eq!(
        random.numbers(),
        [255, 255, 255, 255, 255, 255, 255, 255, 255, 252],
    );
}

/// Draws a count from 1 to 7: the lowest three bits of the first draw in which they aren't 0. Like the engine, it
/// works for any generator.
fn count<R: Rolls>(r: &mut R) -> u8 {
    match until(r, ByteTest::NotMultiple(8)) {
        Some(b) => b % 8,
        None => 0,
    }
}

/// A draw and a count. The index and the numbers show how many draws they took.
fn index_behind(seed: [u8; 10]) -> u8 {
    let mut random = LinkRandom::new(seed);
    random.draw();
    count(&mut random);
    random.index()
}

#[test]
fn callers_of_any_generator() {
    assert_eq!(count(&mut Sweep::new(248)), 1);
    assert_eq!(index_behind([8, 8, 8, 3, 0, 0, 0, 0, 0, 0]), 4);
}
