//! Lines, cuts and errors (docs/MECHANICS.md, "Lines"), and sentences for a spectator and for a side.
use crate::battles::LOG;
use gen1::adapter::alloc::Global;
use gen1::generated::events::{LogFault, LogReader};
use gen1::generated::machine::{Device, Event, Side, Sink};
use gen1::generated::printer::{PrintFault, print_line, print_log};
use gen1::generated::sentences::{Narrator, write_sentence};
use gen1_tests::Failing;
use std::error::Error;

static TEXT: &str = "|switch|p1a: Tauros|Tauros|353/353
|switch|p2a: Tauros|Tauros|353/353
|turn|1
|move|p1a: Tauros|Strength|p2a: Tauros
|-crit|p2a: Tauros
|-damage|p2a: Tauros|149/353
|move|p2a: Tauros|Strength|p1a: Tauros
|-damage|p1a: Tauros|263/353
|turn|2
|move|p1a: Tauros|Strength|p2a: Tauros
|-crit|p2a: Tauros
|-damage|p2a: Tauros|0 fnt
|faint|p2a: Tauros
|win|p1
";

// A code of each tag, and its line.
static LINES: [(&[u8], &str); 32] = [
    (&[0x01, 15, 39], "|turn|9999\n"),
    (
        &[0x02, 1, 128, 6, 50, 120, 0, 97, 1, 5],
        "|switch|p1a: Tauros|Tauros, L50|120/353 par\n",
    ),
    (
        &[0x02, 2, 122, 1, 100, 97, 1, 97, 1, 0],
        "|switch|p2a: Mr. Mime|Mr. Mime|353/353\n",
    ),
    (
        &[0x03, 1, 151, 165, 2, 1],
        "|move|p1a: Mew|Struggle|p2a: Bulbasaur\n",
    ),
    (&[0x04, 2, 128, 3], "|cant|p2a: Tauros|partiallytrapped\n"),
    (
        &[0x05, 2, 128, 0, 0, 231, 3, 5, 0],
        "|-damage|p2a: Tauros|0 fnt\n",
    ),
    (
        &[0x05, 2, 128, 231, 3, 231, 3, 3, 3],
        "|-damage|p2a: Tauros|999/999 brn|[from] Leech Seed\n",
    ),
    (
        &[0x05, 2, 128, 1, 0, 11, 0, 2, 1],
        "|-damage|p2a: Tauros|1/11 psn|[from] psn\n",
    ),
    (
        &[0x06, 2, 128, 11, 0, 11, 0, 1],
        "|-heal|p2a: Tauros|11/11 slp\n",
    ),
    (&[0x07, 2, 128], "|-crit|p2a: Tauros\n"),
    (&[0x08, 2, 128], "|-supereffective|p2a: Tauros\n"),
    (&[0x09, 2, 128], "|-resisted|p2a: Tauros\n"),
    (&[0x0A, 2, 128], "|-immune|p2a: Tauros\n"),
    (&[0x0B, 2, 128], "|-miss|p2a: Tauros\n"),
    (&[0x0C, 2, 128], "|-fail|p2a: Tauros\n"),
    (&[0x0D, 2, 128, 4], "|-status|p2a: Tauros|frz\n"),
    (&[0x0E, 2, 128, 1], "|-curestatus|p2a: Tauros|slp\n"),
    (&[0x0F, 2, 128, 6, 2], "|-boost|p2a: Tauros|eva|2\n"),
    (&[0x10, 2, 128, 1, 1], "|-unboost|p2a: Tauros|atk|1\n"),
    (&[0x11], "|-clearallboost\n"),
    (&[0x12, 2, 128, 5], "|-start|p2a: Tauros|Mist\n"),
    (&[0x13, 2, 128, 1], "|-end|p2a: Tauros|confusion\n"),
    (&[0x14, 2, 128, 10], "|-activate|p2a: Tauros|typechange\n"),
    (&[0x15, 2, 128, 19], "|-prepare|p2a: Tauros|Fly\n"),
    (&[0x16, 2, 128], "|-mustrecharge|p2a: Tauros\n"),
    (&[0x17, 2, 128, 5], "|-hitcount|p2a: Tauros|5\n"),
    (&[0x18], "|-ohko\n"),
    (&[0x19, 2, 128], "|faint|p2a: Tauros\n"),
    (&[0x1A, 2], "|win|p2\n"),
    (&[0x1B], "|tie\n"),
    (&[0x1C, 1], "|fault|1\n"),
    (&[], ""),
];

fn event_of(code: &[u8]) -> Option<Event> {
    let mut reader = LogReader::new();
    reader.feed(code).ok()?;
    reader.next()
}

#[test]
fn a_log_prints_as_its_lines() -> Result<(), Box<dyn Error>> {
    assert_eq!(print_log(Global, &LOG)?.as_str(), TEXT);
    let end = print_log(Global, &LOG[59..])?;
    assert!(TEXT.ends_with(end.as_str()));
    assert!(
        end.as_str()
            .starts_with("|move|p1a: Tauros|Strength|p2a: Tauros\n|-crit|"),
    );
    Ok(())
}

#[test]
fn each_event_has_its_line() -> Result<(), Box<dyn Error>> {
    for (code, line) in LINES.iter() {
        let text = print_log(Global, code)?;
        assert_eq!(text.as_bytes(), line.as_bytes());
    }
    Ok(())
}

// The code of an event without its end isn't a log.
fn each_cut_is_told(code: &[u8]) {
    for end in 1..code.len() {
        let cut = print_log(Global, &code[..end]);
        assert!(matches!(cut, Err(PrintFault::Log(LogFault::Truncated))),);
    }
}

#[test]
fn bytes_that_are_no_log_have_a_fault() -> Result<(), Box<dyn Error>> {
    for (code, _) in LINES.iter() {
        each_cut_is_told(code);
    }
    let unknown = print_log(Global, &[0xFF]);
    assert!(matches!(
        unknown,
        Err(PrintFault::Log(LogFault::UnknownTag))
    ),);
    let behind = print_log(Global, &[0x1B, 0xFF]);
    assert!(matches!(behind, Err(PrintFault::Log(LogFault::UnknownTag))),);
    let field = print_log(Global, &[0x0D, 1, 128, 0]);
    assert!(matches!(field, Err(PrintFault::Log(LogFault::BadField))),);
    Ok(())
}

#[test]
fn each_write_that_fails_is_told() -> Result<(), Box<dyn Error>> {
    for (code, line) in LINES.iter() {
        let Some(event) = event_of(code) else {
            continue;
        };
        for (takes_nothing, most) in [(false, 1usize), (true, 1), (false, 100), (true, 100)] {
            for left in 0..70usize {
                let mut bytes = Vec::new();
                let mut out = Device::new(Failing {
                    left,
                    takes_nothing,
                    most,
                    bytes: &mut bytes,
                });
                let result = print_line(&event, &mut out);
                assert_eq!(out.failed(), result == Err(PrintFault::Write));
                assert!(line.as_bytes().starts_with(bytes.as_slice()));
                assert_eq!(result.is_ok(), bytes.len() == line.len());
            }
        }
    }
    Ok(())
}

#[test]
fn faults_have_numbers_and_texts() -> Result<(), Box<dyn Error>> {
    let truncated = PrintFault::Log(LogFault::Truncated);
    for (fault, number) in [
        (truncated, 1),
        (PrintFault::Write, 2),
        (PrintFault::Memory, 3),
    ] {
        assert_eq!(fault.number(), number);
    }
    let text = format!("{truncated}");
    assert_eq!(
        text.as_str(),
        "the log can't be read: the bytes end within an event",
    );
    Ok(())
}

// The codes of a log one by one, and their sentences for a spectator.
static TOLD: [(&[u8], &str); 18] = [
    (
        &[0x02, 1, 128, 1, 100, 97, 1, 97, 1, 0],
        "Side 1 sends out Tauros.",
    ),
    (
        &[0x02, 2, 121, 1, 50, 100, 0, 200, 0, 5],
        "Side 2 sends out Starmie, level 50, with 100 of 200 HP, paralysed.",
    ),
    (&[0x01, 15, 39], "Turn 9999 begins."),
    (
        &[0x03, 1, 128, 70, 2, 121],
        "Side 1's Tauros uses Strength.",
    ),
    (&[0x07, 2, 121], "Side 2's Starmie takes a critical hit."),
    (
        &[0x05, 2, 121, 30, 0, 200, 0, 5, 0],
        "Side 2's Starmie loses 70 HP, down to 30 of 200 HP.",
    ),
    (
        &[0x06, 2, 121, 130, 0, 200, 0, 5],
        "Side 2's Starmie gains 100 HP, up to 130 of 200 HP.",
    ),
    (
        &[0x0F, 2, 121, 6, 2],
        "Side 2's Starmie's evasion rises by 2 stages.",
    ),
    (
        &[0x10, 2, 121, 1, 1],
        "Side 2's Starmie's Attack falls by 1 stage.",
    ),
    (&[0x17, 2, 121, 1], "Side 2's Starmie was hit once."),
    (&[0x17, 2, 121, 5], "Side 2's Starmie was hit 5 times."),
    (
        &[0x02, 1, 151, 2, 100, 44, 1, 97, 1, 0],
        "Side 1 withdraws Tauros and sends out Mew, with 300 of 353 HP.",
    ),
    (
        &[0x05, 2, 121, 0, 0, 200, 0, 5, 1],
        "Side 2's Starmie loses its last 130 HP by poison.",
    ),
    (&[0x19, 2, 121], "Side 2's Starmie faints."),
    (
        &[0x02, 2, 113, 2, 100, 97, 1, 97, 1, 0],
        "Side 2 sends out Chansey.",
    ),
    (&[0x1C, 2], "The battle stopped at a Psywave of level 1."),
    (&[0x1A, 1], "Side 1 wins."),
    (&[0x1B], "The battle is a tie."),
];

// Codes of a log, and their sentences for side 2, to which the HP of side 1 are 48ths.
static TOLD_TO_TWO: [(&[u8], &str); 9] = [
    (
        &[0x05, 1, 128, 24, 0, 48, 0, 0, 2],
        "The foe's Tauros is down to 50% by its burn.",
    ),
    (
        &[0x06, 2, 121, 130, 0, 200, 0, 5],
        "Your Starmie is healed to 130 of 200 HP.",
    ),
    (
        &[0x02, 2, 128, 1, 100, 97, 1, 97, 1, 0],
        "You withdraw Starmie and send out Tauros.",
    ),
    (
        &[0x05, 1, 128, 1, 0, 48, 0, 0, 0],
        "The foe's Tauros loses 48%, down to 2%.",
    ),
    (
        &[0x02, 1, 151, 2, 99, 47, 0, 48, 0, 1],
        "The foe withdraws Tauros and sends out Mew, level 99, with 97%, asleep.",
    ),
    (
        &[0x05, 1, 151, 0, 0, 48, 0, 1, 0],
        "The foe's Mew loses its last 97%.",
    ),
    (
        &[0x14, 2, 128, 13],
        "Your Tauros splashes: nothing happens.",
    ),
    (&[0x1A, 1], "The foe wins."),
    (&[0x1A, 2], "You win."),
];

fn each_is_told(mut narrator: Narrator, told: &[(&[u8], &str)]) -> Result<(), Box<dyn Error>> {
    for (code, sentence) in told.iter() {
        let mut reader = LogReader::new();
        reader.feed(code)?;
        if let Some(event) = reader.next() {
            let mut text = Device::new(Vec::new());
            assert!(write_sentence(&narrator, &event, &mut text).is_ok());
            assert_eq!(text.into_inner().as_slice(), sentence.as_bytes());
            narrator.follow(&event);
        }
    }
    Ok(())
}

#[test]
fn a_spectator_is_told_each_event() -> Result<(), Box<dyn Error>> {
    let narrator = Narrator::new(None, [false, false]);
    each_is_told(narrator, &TOLD)
}

#[test]
fn a_side_is_told_each_event() -> Result<(), Box<dyn Error>> {
    let narrator = Narrator::new(Some(Side::Two), [true, false]);
    each_is_told(narrator, &TOLD_TO_TWO)
}
