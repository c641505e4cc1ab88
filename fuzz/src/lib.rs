//! The targets of the fuzzer: loading, the log reader, and teams from text. No string may crash them, or break a promise to callers.
use gen1::text::{TextFault, members_in_packed, members_in_text, team_in_packed, team_in_text};
use gen1::{Battle, Choice, Event, EventList, Line, LogReader, Side, Team, events_of};

/// libFuzzer calls this with each string; `GEN1_FUZZ` names the target.
///
/// # Safety
///
/// `data` points to `size` bytes.
#[unsafe(no_mangle)]
pub unsafe extern "C" fn LLVMFuzzerTestOneInput(data: *const u8, size: usize) -> i32 {
    let bytes = if size == 0 {
        &[]
    } else {
        unsafe { std::slice::from_raw_parts(data, size) }
    };
    match std::env::var("GEN1_FUZZ").as_deref() {
        Ok("load") => load(bytes),
        Ok("log") => log(bytes),
        Ok("team") => team(bytes),
        other => panic!("GEN1_FUZZ is {other:?}, not load, log or team"),
    }
    0
}

/// A string that loads is the bytes of the loaded battle, which accepts the choices that it offers.
fn load(bytes: &[u8]) {
    let Ok(mut battle) = Battle::load(bytes) else {
        return;
    };
    let again = Battle::load(battle.bytes()).expect("a battle's bytes load");
    assert_eq!(again, battle);
    let _ = battle.state();
    for turn in 0..8 {
        let [one, two] = Side::BOTH.map(|side| battle.choices(side));
        let (Some(first), Some(second)) = (
            one.get(turn % one.len().max(1)),
            two.get(turn % two.len().max(1)),
        ) else {
            assert!(battle.is_over() && one.is_empty() && two.is_empty());
            return;
        };
        refuses_others(&mut battle, &one, *second);
        let update = battle
            .update(*first, *second)
            .expect("an offered pair is accepted");
        assert_eq!(update.result(), battle.result());
        let told: Vec<Event> = events_of(&update.log())
            .collect::<Result<_, _>>()
            .expect("a log is read");
        assert_eq!(update.events(), told);
        Battle::load(battle.bytes()).expect("an updated battle loads");
    }
}

/// A choice that is not offered is refused, and nothing changes.
fn refuses_others(battle: &mut Battle, offered: &[Choice], other: Choice) {
    let before = battle.clone();
    for byte in [
        0x00, 0x10, 0x11, 0x12, 0x13, 0x14, 0x21, 0x22, 0x23, 0x24, 0x25, 0x26,
    ] {
        let choice = Choice::from_byte(byte).expect("a choice");
        if !offered.contains(&choice) {
            assert!(battle.update(choice, other).is_err());
            assert_eq!(*battle, before);
        }
    }
}

/// The events of any string are written as the bytes that they were read from, and are the same however the string is cut.
fn log(bytes: &[u8]) {
    let mut written = Vec::new();
    let mut events = EventList::new();
    for event in events_of(bytes).map_while(Result::ok) {
        assert!(Line::of(&event).starts_with('|'));
        events.clear();
        events.push(event);
        let mut log = gen1::LogBuf::new();
        gen1::write_log(&events, &mut log);
        written.extend_from_slice(&log);
    }
    assert_eq!(&bytes[..written.len()], &written[..]);
    let cut = bytes
        .first()
        .map_or(0, |first| usize::from(*first) % (bytes.len() + 1));
    assert_eq!(fed(&[&bytes[..cut], &bytes[cut..]]), fed(&[bytes]));
}

/// The events of pieces of a log, up to the first error.
fn fed(pieces: &[&[u8]]) -> Vec<Event> {
    let (mut reader, mut events) = (LogReader::new(), Vec::new());
    for piece in pieces {
        let mut rest = *piece;
        loop {
            let Ok(taken) = reader.feed(rest) else {
                return events;
            };
            rest = &rest[taken..];
            match reader.next() {
                Some(event) => events.push(event),
                None if rest.is_empty() => break,
                None => {}
            }
        }
    }
    events
}

/// A text is a team if and only if its members form one, and an error names one of its lines.
fn team(bytes: &[u8]) {
    let members = members_in_text(bytes);
    let made = members
        .as_ref()
        .is_ok_and(|members| Team::new(members).is_ok());
    assert_eq!(team_in_text(bytes).is_ok(), made);
    if let Err(TextFault::Line { line, .. }) = members {
        assert!((1..=bytes.split(|byte| *byte == b'\n').count()).contains(&line));
    }
    let packed = members_in_packed(bytes);
    let made = packed.is_ok_and(|members| Team::new(&members).is_ok());
    assert_eq!(team_in_packed(bytes).is_ok(), made);
}
