//! Each field at its least and its greatest value, and one past each (docs/LAYOUT.md, "Loading").
use gen1::generated::layout::{LoadFault, Packed};

// A Tauros at level 100 with Strength, unhurt.
static TAUROS: [u8; 24] = [
    128, 100, 97, 1, 97, 1, 42, 1, 32, 1, 62, 1, 238, 0, 0, 70, 0, 0, 0, 24, 0, 0, 0, 0,
];

// Its active block after it has come out.
static OUT: [u8; 36] = [
    1, 0, 0, 6, 6, 6, 6, 6, 6, 42, 1, 32, 1, 62, 1, 238, 0, 0, 0, 0, 0, 0, 0, 0, 0, 0, 0, 0, 0, 0,
    0, 0, 0, 0, 0, 0,
];

// Turn 1, nothing drawn, both sides asked for a move, a limit of 1,000 turns.
static HEADER: [u8; 24] = [
    3, 1, 0, 0, 0, 0, 1, 36, 255, 7, 31, 100, 179, 254, 127, 10, 0, 1, 1, 0, 232, 3, 0, 0,
];

// Two Tauros that have come out.
pub(crate) fn two_tauros() -> [u8; 384] {
    let mut form = [0; 384];
    form[..24].copy_from_slice(&HEADER);
    form[24..48].copy_from_slice(&TAUROS);
    form[168..204].copy_from_slice(&OUT);
    form[204..228].copy_from_slice(&TAUROS);
    form[348..].copy_from_slice(&OUT);
    form
}

// Three Tauros: those of `two_tauros`, and a second one on side 1 after the first.
pub(crate) fn three_tauros() -> [u8; 384] {
    let mut form = two_tauros();
    form[48..72].copy_from_slice(&TAUROS);
    form
}

// Replaces some bytes of a form. Each change is an offset and a byte.
pub(crate) fn put(form: &mut [u8; 384], changes: &[(usize, u8)]) {
    for (at, byte) in changes {
        if let Some(place) = form.get_mut(*at) {
            *place = *byte;
        }
    }
}

// Replaces the bytes of a form from an offset on.
pub(crate) fn put_block(form: &mut [u8; 384], start: usize, block: &[u8]) {
    for (place, byte) in form.iter_mut().skip(start).zip(block) {
        *place = *byte;
    }
}

// Whether bytes are read, and give this form.
fn is_loaded_as(bytes: &[u8], form: &[u8; 384]) -> bool {
    match Packed::read(bytes) {
        Ok(loaded) => loaded.as_bytes() == form.as_slice(),
        Err(_) => false,
    }
}

// 0 if the bytes are read, otherwise the error.
fn answer(bytes: &[u8]) -> u8 {
    match Packed::read(bytes) {
        Ok(_) => 0,
        Err(fault) => fault.number(),
    }
}

/// Two Tauros with bytes replaced, each by its offset, and the result of reading them: 0, or the error.
type Case = (&'static [(usize, u8)], u8);

// The three versions, and numbers that aren't versions (docs/LAYOUT.md, "Versions 1 and 2").
static VERSIONS: [Case; 6] = [
    (&[(0, 4)], 2),
    (&[(0, 1)], 3),
    (&[(0, 2)], 3),
    (&[(0, 2), (20, 0), (21, 0), (19, 3)], 0),
    (&[(0, 1), (20, 0), (21, 0), (19, 1)], 3),
    (&[(20, 0), (21, 0)], 3),
];

// Each field of the header (docs/LAYOUT.md, "Header").
static HEADERS: [Case; 16] = [
    // index
    (&[(5, 8)], 0),
    (&[(5, 9)], 3),
    (&[(5, 9), (181, 80), (182, 0)], 3),
    // turn 1,000 and 1,001
    (&[(1, 232), (2, 3)], 0),
    (&[(1, 233), (2, 3)], 3),
    // limits 1, 9,999 and 10,000
    (&[(20, 1), (21, 0)], 0),
    (&[(20, 15), (21, 39)], 0),
    (&[(20, 16), (21, 39)], 3),
    // outcome, requests, rules, the last two bytes
    (&[(16, 5), (17, 0), (18, 0)], 0),
    (&[(16, 6), (17, 0), (18, 0)], 3),
    (&[(17, 3)], 3),
    (&[(18, 3)], 3),
    (&[(19, 3)], 0),
    (&[(19, 4)], 3),
    (&[(22, 1)], 3),
    (&[(23, 1)], 3),
];

// Each field of a member (docs/LAYOUT.md, "Member").
static MEMBERS: [Case; 13] = [
    // species and level
    (&[(24, 1)], 0),
    (&[(24, 151)], 0),
    (&[(24, 0)], 4),
    (&[(24, 152)], 4),
    (&[(25, 1)], 0),
    (&[(25, 100)], 0),
    (&[(25, 0)], 4),
    (&[(25, 101)], 4),
    // maximum HP 11, 10, 999 and 1,000; HP at the maximum and above
    (&[(26, 11), (27, 0), (28, 11), (29, 0)], 0),
    (&[(26, 10), (27, 0), (28, 10), (29, 0)], 4),
    (&[(26, 231), (27, 3)], 0),
    (&[(26, 232), (27, 3)], 4),
    (&[(28, 98)], 4),
];

// Marks of sleepers (docs/LAYOUT.md, "Member").
static MARKS: [Case; 6] = [
    (&[(19, 1), (38, 7), (47, 1)], 0),
    (&[(19, 1), (38, 7), (47, 2)], 4),
    (&[(19, 1), (38, 0), (47, 1)], 4),
    (&[(19, 1), (38, 8), (47, 1)], 4),
    (&[(19, 2), (38, 7), (47, 1)], 4),
    (&[(19, 0), (38, 7), (47, 1)], 4),
];

// Slots with and without a move (docs/LAYOUT.md, "Member").
static MOVES: [Case; 21] = [
    (&[(39, 164)], 0),
    (&[(39, 0)], 4),
    (&[(40, 0), (44, 1)], 4),
    (&[(39, 102)], 4),
    (&[(40, 102), (44, 1)], 4),
    (&[(39, 118)], 4),
    (&[(40, 118), (44, 1)], 4),
    (&[(39, 119)], 4),
    (&[(40, 119), (44, 1)], 4),
    (&[(39, 144)], 4),
    (&[(40, 144), (44, 1)], 4),
    (&[(39, 165)], 4),
    (&[(40, 165), (44, 1)], 4),
    (&[(39, 255)], 4),
    (&[(40, 255), (44, 1)], 4),
    (&[(40, 33), (41, 34), (42, 35)], 0),
    (&[(40, 33), (42, 35)], 4),
    (&[(40, 33), (41, 70)], 4),
    (&[(43, 63)], 0),
    (&[(43, 64)], 4),
    (&[(44, 1)], 4),
];

// Each field of an active block (docs/LAYOUT.md, "Active block").
static ACTIVES: [Case; 23] = [
    (&[(168, 0)], 5),
    (&[(168, 2)], 5),
    (&[(168, 7)], 5),
    (&[(169, 14), (170, 14)], 0),
    (&[(169, 15)], 5),
    (&[(170, 15)], 5),
    // accuracy and evasion have no current stat
    (&[(175, 0)], 0),
    (&[(175, 12)], 0),
    (&[(175, 13)], 5),
    (&[(176, 0)], 0),
    (&[(176, 12)], 0),
    (&[(176, 13)], 5),
    // the other stages
    (&[(171, 13)], 5),
    (&[(172, 13)], 5),
    (&[(173, 13)], 5),
    (&[(174, 13)], 5),
    // bits 17 and 31, and the last four bytes
    (&[(187, 2)], 5),
    (&[(188, 128)], 5),
    (&[(200, 1)], 5),
    (&[(201, 1)], 5),
    (&[(202, 1)], 5),
    (&[(203, 1)], 5),
    // turn 0
    (&[(1, 0)], 5),
];

// Offsets of the condition bits' two bytes, of the move in slot 1, and of the number of the current move.
const LOW: usize = 185;

const HIGH: usize = 186;

const MOVE: usize = 39;

const CURRENT: usize = 197;

// A count is there exactly if its condition is on (docs/MECHANICS.md, "Conditions"; docs/LAYOUT.md, "Condition bits").
static COUNTS: [Case; 21] = [
    // Substitute, confusion and bad poison: the least and the greatest number, one more, and a number without its condition
    (&[(HIGH, 2), (189, 0)], 0),
    (&[(HIGH, 2), (189, 249)], 0),
    (&[(HIGH, 2), (189, 250)], 5),
    (&[(189, 1)], 5),
    (&[(LOW, 64), (190, 1)], 0),
    (&[(LOW, 64), (190, 5)], 0),
    (&[(LOW, 64), (190, 6)], 5),
    (&[(190, 1)], 5),
    (&[(HIGH, 32), (193, 0)], 0),
    (&[(HIGH, 32), (193, 64)], 0),
    (&[(HIGH, 32), (193, 65)], 5),
    (&[(193, 1)], 5),
    // confusion without a number
    (&[(LOW, 64)], 5),
    // Disable
    (&[(187, 1), (191, 1), (192, 1)], 0),
    (&[(187, 1), (191, 1), (192, 8)], 0),
    (&[(187, 1), (191, 1), (192, 9)], 5),
    (&[(187, 1), (191, 1), (192, 0)], 5),
    (&[(187, 1), (191, 2), (192, 8)], 5),
    (&[(191, 1)], 5),
    (&[(192, 1)], 5),
    // conditions without a number: Flinch, Invulnerable, Mist, FocusEnergy; Seeded, the screens
    (&[(LOW, 8 + 32 + 128), (HIGH, 1 + 16 + 64 + 128)], 0),
];

// Conditions of the current move, with a move that they belong to, with another, and with none (docs/MECHANICS.md, "Conditions"). The
// turns are at 194, and the kept accuracy at 199.
static OF_THE_CURRENT_MOVE: [Case; 27] = [
    // Bide
    (
        &[(LOW, 1), (MOVE, 117), (CURRENT, 1), (194, 3), (199, 0)],
        0,
    ),
    (&[(LOW, 1), (MOVE, 70), (CURRENT, 1), (194, 3), (199, 0)], 5),
    (
        &[(LOW, 1), (MOVE, 117), (CURRENT, 0), (194, 3), (199, 0)],
        5,
    ),
    // Thrash
    (&[(LOW, 2), (MOVE, 37), (CURRENT, 1), (194, 3), (199, 1)], 0),
    (&[(LOW, 2), (MOVE, 70), (CURRENT, 1), (194, 3), (199, 1)], 5),
    (&[(LOW, 2), (MOVE, 37), (CURRENT, 0), (194, 3), (199, 1)], 5),
    // Petal Dance
    (
        &[(LOW, 2), (MOVE, 80), (CURRENT, 1), (194, 1), (199, 255)],
        0,
    ),
    (
        &[(LOW, 2), (MOVE, 70), (CURRENT, 1), (194, 1), (199, 255)],
        5,
    ),
    (
        &[(LOW, 2), (MOVE, 80), (CURRENT, 0), (194, 1), (199, 255)],
        5,
    ),
    // Bind
    (&[(LOW, 4), (MOVE, 20), (CURRENT, 1), (194, 0), (199, 0)], 0),
    (&[(LOW, 4), (MOVE, 70), (CURRENT, 1), (194, 0), (199, 0)], 5),
    (&[(LOW, 4), (MOVE, 20), (CURRENT, 0), (194, 0), (199, 0)], 5),
    // Clamp
    (
        &[(LOW, 4), (MOVE, 128), (CURRENT, 1), (194, 4), (199, 0)],
        0,
    ),
    (&[(LOW, 4), (MOVE, 70), (CURRENT, 1), (194, 4), (199, 0)], 5),
    (
        &[(LOW, 4), (MOVE, 128), (CURRENT, 0), (194, 4), (199, 0)],
        5,
    ),
    // Razor Wind
    (
        &[(LOW, 16), (MOVE, 13), (CURRENT, 1), (194, 0), (199, 0)],
        0,
    ),
    (
        &[(LOW, 16), (MOVE, 70), (CURRENT, 1), (194, 0), (199, 0)],
        5,
    ),
    (
        &[(LOW, 16), (MOVE, 13), (CURRENT, 0), (194, 0), (199, 0)],
        5,
    ),
    // Dig
    (
        &[(LOW, 16), (MOVE, 91), (CURRENT, 1), (194, 0), (199, 0)],
        0,
    ),
    (
        &[(LOW, 16), (MOVE, 70), (CURRENT, 1), (194, 0), (199, 0)],
        5,
    ),
    (
        &[(LOW, 16), (MOVE, 91), (CURRENT, 0), (194, 0), (199, 0)],
        5,
    ),
    // Hyper Beam
    (
        &[(HIGH, 4), (MOVE, 63), (CURRENT, 1), (194, 0), (199, 0)],
        0,
    ),
    (
        &[(HIGH, 4), (MOVE, 70), (CURRENT, 1), (194, 0), (199, 0)],
        5,
    ),
    (
        &[(HIGH, 4), (MOVE, 63), (CURRENT, 0), (194, 0), (199, 0)],
        5,
    ),
    // Rage
    (
        &[(HIGH, 8), (MOVE, 99), (CURRENT, 1), (194, 0), (199, 255)],
        0,
    ),
    (
        &[(HIGH, 8), (MOVE, 70), (CURRENT, 1), (194, 0), (199, 255)],
        5,
    ),
    (
        &[(HIGH, 8), (MOVE, 99), (CURRENT, 0), (194, 0), (199, 255)],
        5,
    ),
];

// Numbers of a move that continues (docs/LAYOUT.md, "Active block").
static UNDERWAY: [Case; 8] = [
    // turns of Bide 0 and 4, of trapping 5, of nothing 1
    (&[(LOW, 1), (MOVE, 117), (CURRENT, 1)], 5),
    (&[(LOW, 1), (MOVE, 117), (CURRENT, 1), (194, 4)], 5),
    (&[(LOW, 4), (MOVE, 20), (CURRENT, 1), (194, 5)], 5),
    (&[(194, 1)], 5),
    // Bide's energy, and the kept accuracy
    (
        &[
            (LOW, 1),
            (MOVE, 117),
            (CURRENT, 1),
            (194, 1),
            (195, 255),
            (196, 255),
        ],
        0,
    ),
    (&[(196, 1)], 5),
    (&[(HIGH, 8), (MOVE, 99), (CURRENT, 1)], 5),
    (&[(199, 1)], 5),
];

// The current and the picked move (docs/LAYOUT.md, "Active block").
static USED_MOVES: [Case; 10] = [
    (&[(CURRENT, 0)], 0),
    (&[(CURRENT, 1)], 0),
    (&[(CURRENT, 2)], 5),
    (&[(CURRENT, 5)], 0),
    (&[(CURRENT, 6)], 5),
    (&[(198, 0)], 0),
    (&[(198, 1)], 0),
    (&[(198, 2)], 5),
    (&[(198, 5)], 0),
    (&[(198, 6)], 5),
];

// Stats at their stages, after penalties (docs/LAYOUT.md, "Current stats").
static CURRENT_STATS: [Case; 15] = [
    // Speed 318 after penalties, and other numbers
    (&[(181, 62), (182, 1)], 0),
    (&[(181, 79), (182, 0)], 0),
    (&[(181, 19), (182, 0)], 0),
    (&[(181, 4), (182, 0)], 0),
    (&[(181, 1), (182, 0)], 0),
    (&[(181, 80), (182, 0)], 6),
    (&[(181, 2), (182, 0)], 6),
    (&[(181, 0), (182, 0)], 6),
    // Attack 298 halved once, twice and nine times
    (&[(177, 149), (178, 0)], 0),
    (&[(177, 74), (178, 0)], 0),
    (&[(177, 1), (178, 0)], 0),
    (&[(177, 150), (178, 0)], 6),
    // Defense 288 and Special 238 have no penalties
    (&[(179, 144), (180, 0)], 6),
    (&[(183, 119)], 6),
    // Special at stage +6
    (&[(174, 12), (183, 184), (184, 3)], 0),
];

// The requests, by which members live (docs/LAYOUT.md, "Turn, outcome and requests").
static REQUESTS: [Case; 9] = [
    (&[(17, 2)], 7),
    (&[(16, 3), (17, 0), (18, 0)], 7),
    (&[(16, 3), (17, 0), (18, 0), (1, 232), (2, 3)], 0),
    // side 1 has no member left
    (&[(28, 0), (29, 0), (17, 0), (18, 0)], 7),
    (&[(28, 0), (29, 0), (17, 0), (18, 0), (16, 1)], 7),
    (&[(28, 0), (29, 0), (17, 0), (18, 0), (16, 2)], 0),
    (&[(28, 0), (29, 0), (17, 0), (18, 0), (16, 3)], 7),
    (&[(28, 0), (29, 0), (17, 0), (18, 0), (16, 4)], 0),
    (&[(28, 0), (29, 0), (17, 0), (18, 0), (16, 5)], 0),
];

// Changes where side 1 has a second member (docs/LAYOUT.md, "Member", "Turn, outcome and requests").
static WITH_A_SECOND_MEMBER: [Case; 22] = [
    // stats 5, 4, 999 and 1,000 at place 2, whose member isn't out (docs/LAYOUT.md, "Member")
    (&[(54, 5), (55, 0)], 0),
    (&[(54, 4), (55, 0)], 4),
    (&[(54, 231), (55, 3)], 0),
    (&[(54, 232), (55, 3)], 4),
    (&[(56, 5), (57, 0)], 0),
    (&[(56, 4), (57, 0)], 4),
    (&[(56, 231), (57, 3)], 0),
    (&[(56, 232), (57, 3)], 4),
    (&[(58, 5), (59, 0)], 0),
    (&[(58, 4), (59, 0)], 4),
    (&[(58, 231), (59, 3)], 0),
    (&[(58, 232), (59, 3)], 4),
    (&[(60, 5), (61, 0)], 0),
    (&[(60, 4), (61, 0)], 4),
    (&[(60, 231), (61, 3)], 0),
    (&[(60, 232), (61, 3)], 4),
    // a fallen member at place 2
    (&[(52, 0), (53, 0), (62, 0)], 0),
    (&[(52, 0), (53, 0), (62, 8)], 4),
    // the active at HP 0, requests Switch and Pass, or Switch and Switch; turns 999 and 1,000
    (&[(28, 0), (29, 0), (17, 2), (18, 0), (1, 231), (2, 3)], 0),
    (&[(28, 0), (29, 0), (17, 2), (18, 2), (1, 231), (2, 3)], 7),
    (&[(28, 0), (29, 0), (17, 2), (18, 0), (1, 232), (2, 3)], 7),
    (&[(28, 0), (29, 0), (17, 2), (18, 2), (1, 232), (2, 3)], 7),
];

// Changes at turn 0, with nobody out (docs/LAYOUT.md, "Turn, outcome and requests").
static BEFORE_THE_FIRST_TURN: [Case; 3] = [(&[], 0), (&[(16, 4)], 7), (&[(28, 0), (29, 0)], 7)];

// Two Tauros at turn 0, with nobody out.
pub(crate) fn unstarted() -> [u8; 384] {
    let mut form = two_tauros();
    put(&mut form, &[(1, 0), (17, 0), (18, 0)]);
    put_block(&mut form, 168, &[0; 36]);
    put_block(&mut form, 348, &[0; 36]);
    form
}

// Asserts the result of each case over a form.
fn read_each(form: [u8; 384], cases: &[Case]) {
    for (changes, number) in cases {
        let mut bytes = form;
        put(&mut bytes, changes);
        assert_eq!(answer(&bytes), *number, "at {changes:?}");
    }
}

// Bytes that pass every test, and each field at its ends (docs/LAYOUT.md, "Loading", "The 384 bytes of a battle", "Versions 1 and 2",
// "Header", "Member", "Active block", "Condition bits", "Current stats", "Turn, outcome and requests"; docs/MECHANICS.md, "Conditions").
#[test]
fn each_field_has_its_range() {
    let form = two_tauros();
    for cases in [
        VERSIONS.as_slice(),
        HEADERS.as_slice(),
        MEMBERS.as_slice(),
        MARKS.as_slice(),
        MOVES.as_slice(),
        ACTIVES.as_slice(),
        COUNTS.as_slice(),
        OF_THE_CURRENT_MOVE.as_slice(),
        UNDERWAY.as_slice(),
        USED_MOVES.as_slice(),
        CURRENT_STATS.as_slice(),
        REQUESTS.as_slice(),
    ] {
        read_each(form, cases);
    }
    read_each(three_tauros(), &WITH_A_SECOND_MEMBER);
    read_each(unstarted(), &BEFORE_THE_FIRST_TURN);
}

// No byte, one less than 384, and one more (docs/LAYOUT.md, "Loading", "The 384 bytes of a battle").
#[test]
fn lengths() {
    let found = [
        answer(&[]),
        answer(&[3; 383]),
        answer(&[3; 385]),
        answer(&[0; 384]),
    ];
    assert_eq!(found, [1, 1, 1, 2]);
}

// Two Tauros are read as they are, and versions 1 and 2, which have no limit, as version 3 (docs/LAYOUT.md, "Versions 1 and 2").
#[test]
fn versions() {
    let form = two_tauros();
    assert!(is_loaded_as(&form, &form));
    for version in 1..3 {
        let mut old = form;
        put(&mut old, &[(0, version), (20, 0), (21, 0)]);
        assert!(is_loaded_as(&old, &form));
    }
}

// Each number in the place of a status (docs/LAYOUT.md, "Member").
#[test]
fn statuses() {
    for status in 0..255 {
        let is_status = status <= 8 || status == 16 || status == 32 || status == 64;
        let mut form = two_tauros();
        put(&mut form, &[(38, status)]);
        assert_eq!(
            (status, answer(&form)),
            (status, if is_status { 0 } else { 4 }),
        );
    }
}

// Places with and without a member (docs/LAYOUT.md, "Member").
#[test]
fn places() {
    let mut six = three_tauros();
    for start in [72, 96, 120, 144] {
        put_block(&mut six, start, &TAUROS);
    }
    let mut gap = six;
    put_block(&mut gap, 48, &[0; 24]);
    let mut nobody = two_tauros();
    put_block(&mut nobody, 24, &[0; 24]);
    let mut seventh = two_tauros();
    put(&mut seventh, &[(71, 1)]);
    let mut last = two_tauros();
    put(&mut last, &[(347, 1)]);
    let found = [six, gap, nobody, seventh, last].map(|form| answer(&form));
    assert_eq!(found, [0, 4, 4, 4, 4]);
}

// The number of the last error (docs/LAYOUT.md, "Loading").
#[test]
fn faults_have_texts() {
    assert_eq!(LoadFault::Request.number(), 7);
}
