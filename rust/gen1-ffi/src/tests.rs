//! The battle of crates/battle_tool by `the_theorem_in_c`, which the library does not export. tests/c/the_theorem.c makes the same calls of
//! the library.
use crate::generated::teams::{MemberForm, TeamForm, teams_of};
use crate::generated::the_theorem::{Beginning, Update, the_theorem_in_c};
use crate::generated::update::gen1_result;
use gen1::generated::layout::Packed;
use gen1::generated::spectator::plain::{PlainSpectator, first};

// The log of the battle that is stored in crates/battle_tool (stdin, stdout): both come out, the first turn hits each, and the
// second makes side 2 fall.
static LOG: [u8; 82] = [
    0x02, 1, 128, 1, 100, 97, 1, 97, 1, 0, 0x02, 2, 128, 1, 100, 97, 1, 97, 1, 0, 0x01, 1, 0, 0x03,
    1, 128, 70, 2, 128, 0x07, 2, 128, 0x05, 2, 128, 149, 0, 97, 1, 0, 0, 0x03, 2, 128, 70, 1, 128,
    0x05, 1, 128, 7, 1, 97, 1, 0, 0, 0x01, 2, 0, 0x03, 1, 128, 70, 2, 128, 0x07, 2, 128, 0x05, 2,
    128, 0, 0, 97, 1, 0, 0, 0x19, 2, 128, 0x1A, 1,
];

const STRENGTH: u8 = 0x11;

fn member(species: u8, moves: [u8; 4]) -> MemberForm {
    MemberForm {
        species,
        level: 100,
        dvs: [15; 4],
        moves,
        pp_ups: [3; 4],
        exp: [65535; 5],
    }
}

// One Tauros, and five places that do not count.
fn tauros() -> TeamForm {
    TeamForm {
        members: [
            member(128, [70, 0, 0, 0]),
            member(0, [0; 4]),
            member(0, [0; 4]),
            member(0, [0; 4]),
            member(0, [0; 4]),
            member(0, [0; 4]),
        ],
        count: 1,
        reserved: 0,
    }
}

fn two_tauros(rules: u8) -> Beginning {
    Beginning {
        one: tauros(),
        two: tauros(),
        seed: [1, 36, 255, 7, 31, 100, 179, 254, 127, 10],
        rules,
        limit: 1000,
    }
}

fn asked(one: u8, two: u8, is_reloaded: bool) -> Update {
    Update {
        one,
        two,
        is_reloaded,
        stored: [0; 384],
        result: 170,
        offered_one: [170; 9],
        count_one: 170,
        offered_two: [170; 9],
        count_two: 170,
        loaded: 170,
        code: 170,
        log: [170; 512],
        log_length: 170,
    }
}

// The stored battle, with two pairs that are refused before the last one.
fn stored_battle(is_reloaded: bool) -> [Update; 5] {
    [
        asked(0, 0, is_reloaded),
        asked(STRENGTH, STRENGTH, is_reloaded),
        asked(STRENGTH, 0, is_reloaded),
        asked(0xFF, STRENGTH, is_reloaded),
        asked(STRENGTH, STRENGTH, is_reloaded),
    ]
}

// What the calls write over: another battle, and a spectator of it.
fn memory() -> (Packed, PlainSpectator) {
    let (one, two) = teams_of(&tauros(), &tauros()).unwrap();
    (Packed::new(&one, &two, [0; 10]), first(&one, &two))
}

fn assert_is_shown_at_the_end(watch: &PlainSpectator) {
    assert_eq!((watch.turn, watch.outcome, watch.held_count), (2, 1, 0));
    assert_eq!([watch.one.members[0].hp, watch.two.members[0].hp], [263, 0]);
}

#[test]
fn the_stored_battle_is_played_and_watched() {
    for is_reloaded in [false, true] {
        let (mut battle, mut watch) = memory();
        let mut updates = stored_battle(is_reloaded);
        let pieces: [&[u8]; 3] = [&LOG[..30], &LOG[30..31], &LOG[31..]];
        let code = the_theorem_in_c(
            &two_tauros(3),
            &mut battle,
            &mut updates,
            &mut watch,
            &pieces,
        );
        assert_eq!(code, 0);
        assert_is_shown_at_the_end(&watch);
        let due = [
            (0, &LOG[..23]),
            (0, &LOG[23..59]),
            (26, &[]),
            (25, &[]),
            (0, &LOG[59..]),
        ];
        for (update, (code, log)) in updates.iter().zip(due) {
            assert_eq!((update.code, &update.log[..update.log_length]), (code, log));
        }
        let [.., refused, last] = &updates;
        assert_eq!((last.count_two, last.offered_two[0]), (1, STRENGTH));
        assert_eq!(last.stored, refused.stored);
        assert_eq!((last.stored[1], last.loaded), (2, 0));
        assert_eq!(gen1_result(&battle), 1);
    }
}

#[test]
fn what_makes_no_battle_or_is_no_log_is_refused() {
    let (mut battle, mut watch) = memory();
    let mut updates = stored_battle(true);
    let pieces: [&[u8]; 2] = [&LOG[..23], &[0xFF]];
    let code = the_theorem_in_c(
        &two_tauros(4),
        &mut battle,
        &mut updates,
        &mut watch,
        &pieces,
    );
    assert_eq!((code, updates[0].code), (12, 170));
    let code = the_theorem_in_c(
        &two_tauros(3),
        &mut battle,
        &mut updates,
        &mut watch,
        &pieces,
    );
    assert_eq!((code, updates[0].code), (32, 0));
}
