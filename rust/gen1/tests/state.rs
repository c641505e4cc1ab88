//! The state of a battle: compared with recorded bytes, which are read here by docs/LAYOUT.md, and with numbers of docs/MECHANICS.md.
use gen1::{
    ActiveState, Battle, Conditions, Element, Kind, MemberState, Outcome, Request, Rules, Side,
    Stat, State, Team, UsedMove, member,
};
use serde_json::Value;
use std::path::Path;
use std::process::Command;

fn word(bytes: &[u8], at: usize) -> u16 {
    u16::from_le_bytes([bytes[at], bytes[at + 1]])
}

fn words(bytes: &[u8], at: usize) -> [u16; 4] {
    [0, 2, 4, 6].map(|more| word(bytes, at + more))
}

fn used(byte: u8) -> UsedMove {
    match byte {
        0 => UsedMove::Nothing,
        5 => UsedMove::Struggle,
        slot => UsedMove::Slot(slot),
    }
}

/// docs/LAYOUT.md, "Header".
fn compare_header(it: &State, bytes: &[u8]) {
    assert_eq!(
        (it.turn, it.last_damage, it.limit),
        (word(bytes, 1), word(bytes, 3), word(bytes, 20))
    );
    assert_eq!((it.index, &it.numbers[..]), (bytes[5], &bytes[6..16]));
    let outcome = match bytes[16] {
        0 => Outcome::Ongoing,
        1 => Outcome::WinOne,
        2 => Outcome::WinTwo,
        3 => Outcome::Tie,
        code => Outcome::Fault(code - 3),
    };
    let request = |byte| [Request::Pass, Request::Move, Request::Switch][usize::from(byte)];
    assert_eq!(it.outcome, outcome);
    assert_eq!(it.requests, [request(bytes[17]), request(bytes[18])]);
    assert_eq!(Some(it.rules), Rules::new(bytes[19]));
}

/// docs/LAYOUT.md, "Member".
fn compare_member(it: &MemberState, bytes: &[u8]) {
    assert_eq!((it.species.number(), it.level), (bytes[0], bytes[1]));
    assert_eq!((it.max_hp, it.hp), (word(bytes, 2), word(bytes, 4)));
    assert_eq!(it.stats, words(bytes, 6));
    let (status, sleep) = match bytes[14] {
        0 => (None, None),
        turns @ 1..=7 => (Some(Kind::Sleep), Some(turns)),
        8 => (Some(Kind::Poison), None),
        16 => (Some(Kind::Burn), None),
        32 => (Some(Kind::Freeze), None),
        _ => (Some(Kind::Paralysis), None),
    };
    assert_eq!(
        (it.status, it.sleep, it.marked),
        (status, sleep, bytes[23] == 1)
    );
    let moves: Vec<_> = it.moves.iter().map(|it| (it.id.number(), it.pp)).collect();
    let slots = (0..4).map(|slot| (bytes[15 + slot], bytes[19 + slot]));
    assert_eq!(moves, slots.filter(|(id, _)| *id != 0).collect::<Vec<_>>());
}

/// docs/LAYOUT.md, "Active block".
fn compare_active(it: &ActiveState, bytes: &[u8]) {
    assert_eq!(
        (it.place.number(), it.types.map(Element::number)),
        (bytes[0], [bytes[1], bytes[2]])
    );
    assert_eq!(it.stages.map(|stage| (stage + 6) as u8), bytes[3..9]);
    assert_eq!(it.stats, words(bytes, 9));
    let bits = u32::from_le_bytes(bytes[17..21].try_into().unwrap());
    assert_eq!(it.conditions.bits(), bits);
    // A number is valid while its condition is on.
    let counted = |mask: u32, at: usize| (bits & mask != 0).then_some(bytes[at]);
    assert_eq!(
        (it.substitute, it.confusion),
        (counted(1 << 9, 21), counted(1 << 6, 22))
    );
    let disabled = it.disabled.map(|it| (it.slot, it.turns));
    assert_eq!(
        disabled,
        (bits & 1 << 16 != 0).then_some((bytes[23], bytes[24]))
    );
    assert_eq!(
        (it.bad_poison, it.turns),
        (counted(1 << 13, 25), counted(0b111, 26))
    );
    assert_eq!(it.energy, word(bytes, 27));
    assert_eq!(
        (it.current_move, it.picked_move),
        (used(bytes[29]), used(bytes[30]))
    );
    assert_eq!(it.kept_accuracy, counted(1 << 1 | 1 << 11, 31));
}

fn compare(it: &State, bytes: &[u8]) {
    compare_header(it, bytes);
    for (side, at) in [(Side::One, 24), (Side::Two, 204)] {
        let (shown, bytes) = (it.side(side), &bytes[at..at + 180]);
        for (member, bytes) in shown.members.iter().zip(bytes.chunks(24)) {
            compare_member(member, bytes);
        }
        let places = bytes[..144].chunks(24).filter(|bytes| bytes[0] != 0);
        assert_eq!(shown.members.len(), places.count());
        match &shown.active {
            Some(active) => compare_active(active, &bytes[144..]),
            None => assert!(it.turn == 0 && bytes[144..] == [0; 36]),
        }
    }
}

fn bytes_of(hex: &str) -> Vec<u8> {
    let digits = |at| u8::from_str_radix(&hex[at..at + 2], 16).unwrap();
    (0..hex.len()).step_by(2).map(digits).collect()
}

/// The text of a packed file, or `None` if the file or the command `xz` is missing.
fn unpacked(file: &Path) -> Option<String> {
    let done = Command::new("xz").arg("-dc").arg(file).output().ok()?;
    done.status
        .success()
        .then(|| String::from_utf8(done.stdout).unwrap())
}

/// All updates of the recorded battles, if the workspace has them (docs/PLAIN.md, "What is compared"). In them each condition is on.
#[test]
fn a_state_is_what_recorded_bytes_say() {
    let folder = Path::new(env!("CARGO_MANIFEST_DIR")).join("../../tests/battles");
    let (mut count, mut conditions) = (0, 0);
    for name in ["corners", "traces"] {
        let text = unpacked(&folder.join(format!("{name}.jsonl.xz"))).unwrap_or_default();
        for row in text.lines() {
            let row: Value = serde_json::from_str(row).unwrap();
            for update in row["updates"].as_array().unwrap() {
                let bytes = bytes_of(update["bytes"].as_str().unwrap());
                let state = Battle::load(&bytes).unwrap().state();
                compare(&state, &bytes);
                count += 1;
                for side in &state.sides {
                    let active = side.active.as_ref();
                    conditions |= active.map_or(0, |active| active.conditions.bits());
                }
            }
        }
    }
    println!("{count} updates of {}", folder.display());
    assert!(
        count == 0 || (count > 4000 && conditions == (1 << 17) - 1),
        "{count} {conditions:b}"
    );
}

/// docs/MECHANICS.md, "Stages": at stage 6 a stat is four times its own and 999 at most, at stage -1 66 of 100 parts.
#[test]
fn who_is_out_is_shown_with_all_that_lasts() {
    let team = |moves: &[&str]| Team::new(&[member("Mew", moves).unwrap()]).unwrap();
    let (one, two) = (
        team(&["Amnesia"]),
        team(&["Reflect", "Substitute", "Growl"]),
    );
    let mut battle = Battle::new(&one, &two, [7; 10]);
    assert_eq!(
        (battle.state().turn, &battle.state().sides[0].active),
        (0, &None)
    );
    assert_eq!(battle.state().side(Side::One).member_out(), None);
    for (one, two) in [
        ("pass", "pass"),
        ("move 1", "move 1"),
        ("move 1", "move 2"),
        ("move 1", "move 3"),
    ] {
        battle
            .update(one.parse().unwrap(), two.parse().unwrap())
            .unwrap();
    }
    let state = battle.state();
    assert_eq!(
        (state.turn, state.limit, state.requests),
        (4, 1000, [Request::Move; 2])
    );
    let [one, two] = Side::BOTH.map(|side| state.side(side).active.as_ref().unwrap());
    assert_eq!(
        (one.stages, one.stats),
        ([-1, 0, 0, 6, 0, 0], [196, 298, 298, 999])
    );
    assert_eq!(
        (
            one.stage(Stat::Attack),
            one.stage(Stat::Special),
            one.stage(Stat::Evasion)
        ),
        (-1, 6, 0)
    );
    assert_eq!(
        (two.substitute, two.confusion, two.disabled),
        (Some(100), None, None)
    );
    assert_eq!(
        two.conditions.names().collect::<Vec<_>>(),
        ["SUBSTITUTE", "REFLECT"]
    );
    assert_eq!(
        (
            two.conditions.to_string().as_str(),
            one.conditions.is_empty()
        ),
        ("SUBSTITUTE REFLECT", true)
    );
    assert!(two.conditions.has(Conditions::REFLECT));
    assert_eq!(
        (one.current_move, two.picked_move),
        (UsedMove::Slot(1), UsedMove::Slot(3))
    );
    // The Substitute has a quarter of 403 HP, rounded down.
    let out = state.side(Side::Two).member_out().unwrap();
    assert_eq!((out.hp, out.max_hp, out.stats), (303, 403, [298; 4]));
}

/// The offsets of `gen1::layout` are those of the tables of docs/LAYOUT.md.
#[test]
fn offsets_are_those_of_the_page() {
    use gen1::layout::{ACTIVE, HEADER, MEMBER, SIDE, active, header, member};
    let page = Path::new(env!("CARGO_MANIFEST_DIR")).join("../../docs/LAYOUT.md");
    let page = std::fs::read_to_string(page).expect("the page");
    // The offset and the size of the field whose meaning begins so, in the table of a section.
    let row = |section: &str, meaning: &str| -> [usize; 2] {
        let body = page.split(&format!("\n## {section}\n")).nth(1).unwrap();
        let cells = |line: &str| -> Vec<String> {
            line.split('|').map(|it| it.trim().to_string()).collect()
        };
        let rows = body.split("\n## ").next().unwrap().lines().map(cells);
        let found = rows.filter(|row| row.len() > 3 && row[3].starts_with(meaning));
        let [found] = found.collect::<Vec<_>>().try_into().expect(meaning);
        [&found[1], &found[2]].map(|it| it.parse().unwrap())
    };
    let fields = [
        ("Header", "turn, u16", header::TURN, 2),
        ("Header", "last damage", header::LAST_DAMAGE, 2),
        ("Header", "outcome", header::OUTCOME, 1),
        ("Header", "request of side 1", header::REQUESTS, 1),
        ("Header", "request of side 2", header::REQUESTS + 1, 1),
        ("Header", "turn limit", header::LIMIT, 2),
        ("Member", "species", member::SPECIES, 1),
        ("Member", "maximum HP", member::MAX_HP, 2),
        ("Member", "HP", member::HP, 2),
        ("Member", "status", member::STATUS, 1),
        ("Member", "the moves", member::MOVES, 4),
        ("Member", "the PP", member::PP, 4),
        ("Member", "mark", member::MARK, 1),
        ("Active block", "place", active::PLACE, 1),
        ("Active block", "first type", active::TYPES, 1),
        ("Active block", "stages", active::STAGES, 6),
        ("Active block", "condition bits", active::CONDITIONS, 4),
        ("Active block", "current move", active::CURRENT_MOVE, 1),
        ("Active block", "picked move", active::PICKED_MOVE, 1),
    ];
    for (section, meaning, at, size) in fields {
        assert_eq!(row(section, meaning), [at, size], "{meaning}");
    }
    assert!(page.contains(&format!("| {} | 4 | | 0 |", active::ZEROS)));
    for side in Side::BOTH {
        let line = format!("| {} | {SIDE} | side {side}", gen1::layout::side(side));
        assert!(page.contains(&line), "{line}");
    }
    assert!(page.contains(&format!("| 0 | {HEADER} | header |")));
    assert!(page.contains(&format!("six members of {MEMBER} bytes")) && ACTIVE == 6 * MEMBER);
}
