//! Plain states: read from bytes, made into them, and refused (docs/LAYOUT.md, "Plain states"; crates/gen1_states/CALLING.md, "Faults").
//! Stats are worked out by the formulas of docs/MECHANICS.md, "Stats".
use crate::loading::{put, three_tauros, two_tauros, unstarted};
use gen1::generated::layout::{LoadFault, Packed};
use gen1::generated::states::{BattleState, StateFault, from_state, state_of};

// The plain state of bytes that represent a battle.
fn plain(bytes: &[u8; 384]) -> Result<BattleState, LoadFault> {
    Ok(state_of(&Packed::read(bytes)?))
}

// The bytes of a plain state; zeros if it is refused.
fn made(state: &BattleState) -> [u8; 384] {
    let mut bytes = [0; 384];
    if let Ok(battle) = from_state(state) {
        bytes.copy_from_slice(battle.as_bytes());
    }
    bytes
}

// Field, side, place, index, value and range of what is wrong; zeros if nothing is.
fn wrong(state: &BattleState) -> [u32; 7] {
    match from_state(state) {
        Ok(_) => [0; 7],
        Err(fault) => numbers_of(&fault),
    }
}

fn numbers_of(fault: &StateFault) -> [u32; 7] {
    [
        u32::from(fault.field.number()),
        u32::from(fault.side),
        u32::from(fault.place),
        u32::from(fault.index),
        fault.value,
        fault.low,
        fault.high,
    ]
}

fn assert_wrong(state: &BattleState, fault: [u32; 7]) {
    assert_eq!(wrong(state), fault);
}

// The bytes of two Tauros that have come out, with some bytes replaced. Each change is an offset and a byte.
fn changed(changes: &[(usize, u8)]) -> [u8; 384] {
    let mut form = two_tauros();
    put(&mut form, changes);
    form
}

// A battle before its first turn, one after it, and one with a second member go to plain states and back.
#[test]
fn there_and_back() {
    goes_back(&two_tauros());
    goes_back(&three_tauros());
    goes_back(&unstarted());
    // asleep for 7 turns and marked; paralysed
    goes_back(&changed(&[(19, 1), (38, 7), (47, 1), (218, 64)]));
    // a current Speed of 79, a quarter of 318
    goes_back(&changed(&[(181, 79), (182, 0)]));
}

fn goes_back(bytes: &[u8; 384]) {
    assert!(there_and_back_again(bytes));
}

fn there_and_back_again(bytes: &[u8; 384]) -> bool {
    match plain(bytes) {
        Ok(state) => made(&state) == *bytes,
        Err(_) => false,
    }
}

// A burned Tauros at +2 Attack: its Attack of 298 is doubled to 596, and halved by the burn. Its Speed of 318 at -1 is 66 percent
// of it, 209.
#[test]
fn a_burned_tauros_at_two_stages_up() -> Result<(), LoadFault> {
    let mut state = plain(&two_tauros())?;
    state.sides[0].members[0].status = 3;
    state.sides[0].active.stages = [8, 6, 5, 6, 6, 6];
    state.sides[0].active.stats = [0; 4];
    let due = changed(&[
        (38, 16),
        (171, 8),
        (173, 5),
        (177, 42),
        (178, 1),
        (181, 209),
        (182, 0),
    ]);
    assert!(made(&state) == due);
    // 596, 298 and 149 are 596 after no, one and two penalties
    state.sides[0].active.stats = [596, 288, 209, 238];
    assert_wrong(&state, [0; 7]);
    state.sides[0].active.stats = [149, 288, 209, 238];
    assert_wrong(&state, [0; 7]);
    state.sides[0].active.stats = [150, 288, 209, 238];
    assert_wrong(&state, [32, 1, 0, 1, 150, 1, 596]);
    state.sides[0].active.stats = [298, 287, 209, 238];
    assert_wrong(&state, [32, 1, 0, 2, 287, 288, 288]);
    Ok(())
}

// A paralysed Tauros has a quarter of its Speed of 318: 79.
#[test]
fn a_paralysed_tauros() -> Result<(), LoadFault> {
    let mut state = plain(&two_tauros())?;
    state.sides[1].members[0].status = 5;
    state.sides[1].active.stats = [0; 4];
    let due = changed(&[(218, 64), (361, 79), (362, 0)]);
    assert!(made(&state) == due);
    Ok(())
}

// A Chansey at level 100 with the greatest DVs and stat experience: 703 HP, and 108, 108, 198 and 308. It sleeps for 7 turns more.
#[test]
fn a_sleeping_chansey() -> Result<(), LoadFault> {
    let mut state = plain(&two_tauros())?;
    let mut chansey = state.sides[0].members[0];
    chansey.species = 113;
    chansey.hp = 700;
    chansey.max_hp = 703;
    chansey.stats = [108, 108, 198, 308];
    chansey.status = 1;
    chansey.sleep = 7;
    state.sides[0].members[0] = chansey;
    state.sides[0].active.stats = [0; 4];
    let due = changed(&[
        (24, 113),
        (26, 191),
        (27, 2),
        (28, 188),
        (29, 2),
        (30, 108),
        (31, 0),
        (32, 108),
        (33, 0),
        (34, 198),
        (35, 0),
        (36, 52),
        (37, 1),
        (38, 7),
        (177, 108),
        (178, 0),
        (179, 108),
        (180, 0),
        (181, 198),
        (182, 0),
        (183, 52),
        (184, 1),
    ]);
    assert!(made(&state) == due);
    Ok(())
}

// The fields of the whole battle.
#[test]
fn headers() -> Result<(), LoadFault> {
    let start = plain(&two_tauros())?;
    let mut state = start;
    state.limit = 0;
    assert_wrong(&state, [1, 0, 0, 0, 0, 1, 9999]);
    state.limit = 10000;
    assert_wrong(&state, [1, 0, 0, 0, 10000, 1, 9999]);
    state.limit = 9999;
    state.turn = 9999;
    assert_wrong(&state, [0; 7]);
    state.limit = 9998;
    assert_wrong(&state, [2, 0, 0, 0, 9999, 0, 9998]);
    state = start;
    state.index = 9;
    assert_wrong(&state, [3, 0, 0, 0, 9, 0, 8]);
    state.outcome = 6;
    state.index = 8;
    assert_wrong(&state, [4, 0, 0, 0, 6, 0, 5]);
    state = start;
    state.rules = 4;
    assert_wrong(&state, [5, 0, 0, 0, 4, 0, 3]);
    state.rules = 3;
    state.requests = [1, 3];
    assert_wrong(&state, [6, 2, 0, 0, 3, 0, 2]);
    Ok(())
}

// The numbers of a member.
#[test]
fn members() -> Result<(), LoadFault> {
    let start = plain(&two_tauros())?;
    let mut state = start;
    state.sides[0].members[0].species = 0;
    assert_wrong(&state, [7, 1, 1, 0, 0, 1, 151]);
    state.sides[0].members[0].species = 152;
    assert_wrong(&state, [7, 1, 1, 0, 152, 1, 151]);
    state = start;
    state.sides[1].members[0].level = 101;
    assert_wrong(&state, [8, 2, 1, 0, 101, 1, 100]);
    state.sides[1].members[0].level = 1;
    state.sides[1].members[0].max_hp = 1000;
    assert_wrong(&state, [9, 2, 1, 0, 1000, 11, 999]);
    state.sides[1].members[0].max_hp = 352;
    assert_wrong(&state, [10, 2, 1, 0, 353, 0, 352]);
    state.sides[1].members[0].max_hp = 353;
    state.sides[1].members[0].stats[3] = 4;
    assert_wrong(&state, [11, 2, 1, 4, 4, 5, 999]);
    state = start;
    state.sides[0].members[0].status = 6;
    assert_wrong(&state, [12, 1, 1, 0, 6, 0, 5]);
    state.sides[0].members[0].status = 1;
    assert_wrong(&state, [13, 1, 1, 0, 0, 1, 7]);
    state.sides[0].members[0].sleep = 8;
    assert_wrong(&state, [13, 1, 1, 0, 8, 1, 7]);
    state.sides[0].members[0].sleep = 1;
    state.sides[0].members[0].marked = 1;
    assert_wrong(&state, [14, 1, 1, 0, 1, 0, 0]);
    state.rules = 1;
    assert_wrong(&state, [0; 7]);
    state.sides[0].members[0].status = 2;
    assert_wrong(&state, [13, 1, 1, 0, 1, 0, 0]);
    Ok(())
}

// A place without a member, and the moves. Strength is move 70. 102 is left out, 165 is Struggle.
#[test]
fn places_and_moves() -> Result<(), LoadFault> {
    let start = plain(&three_tauros())?;
    let mut state = start;
    state.sides[0].members[2] = state.sides[0].members[0];
    assert_wrong(&state, [0; 7]);
    state.sides[0].members[1] = state.sides[0].members[5];
    assert_wrong(&state, [7, 1, 3, 0, 128, 0, 0]);
    state = start;
    state.sides[0].members[5].pp[1] = 1;
    assert_wrong(&state, [16, 1, 6, 2, 1, 0, 0]);
    state = start;
    state.sides[0].members[1].moves = [70, 70, 0, 0];
    assert_wrong(&state, [15, 1, 2, 2, 70, 0, 164]);
    state.sides[0].members[1].moves = [70, 102, 0, 0];
    assert_wrong(&state, [15, 1, 2, 2, 102, 0, 164]);
    state.sides[0].members[1].moves = [165, 0, 0, 0];
    assert_wrong(&state, [15, 1, 2, 1, 165, 1, 164]);
    state.sides[0].members[1].moves = [70, 0, 1, 0];
    assert_wrong(&state, [15, 1, 2, 3, 1, 0, 0]);
    state.sides[0].members[1].moves = [70, 164, 1, 2];
    state.sides[0].members[1].pp = [0, 63, 64, 0];
    assert_wrong(&state, [16, 1, 2, 3, 64, 0, 63]);
    Ok(())
}

// The active members. Strength has no effect that anything could belong to.
#[test]
fn actives() -> Result<(), LoadFault> {
    let start = plain(&two_tauros())?;
    let mut state = start;
    state.sides[1].active.place = 2;
    assert_wrong(&state, [17, 2, 0, 0, 2, 1, 1]);
    state = start;
    state.sides[0].active.types = [14, 15];
    assert_wrong(&state, [18, 1, 0, 2, 15, 0, 14]);
    state.sides[0].active.types = [14, 0];
    state.sides[0].active.stages[5] = 13;
    assert_wrong(&state, [19, 1, 0, 6, 13, 0, 12]);
    state = start;
    state.sides[0].active.conditions = 131072;
    assert_wrong(&state, [20, 1, 0, 0, 131072, 0, 131071]);
    state.sides[0].active.conditions = 64;
    assert_wrong(&state, [22, 1, 0, 0, 0, 1, 5]);
    state.sides[0].active.confusion = 6;
    assert_wrong(&state, [22, 1, 0, 0, 6, 1, 5]);
    state.sides[0].active.confusion = 5;
    state.sides[0].active.substitute = 1;
    assert_wrong(&state, [21, 1, 0, 0, 1, 0, 0]);
    state = start;
    state.sides[0].active.current_move = 2;
    assert_wrong(&state, [29, 1, 0, 0, 2, 0, 5]);
    state.sides[0].active.current_move = 5;
    state.sides[0].active.picked_move = 6;
    assert_wrong(&state, [30, 1, 0, 0, 6, 0, 5]);
    state = start;
    state.sides[0].active.conditions = 1024;
    assert_wrong(&state, [31, 1, 0, 10, 1, 0, 0]);
    state.sides[0].active.conditions = 65536;
    state.sides[0].active.disabled_slot = 2;
    assert_wrong(&state, [23, 1, 0, 0, 2, 1, 1]);
    Ok(())
}

// Outcome, requests, turn and living members.
#[test]
fn requests() -> Result<(), LoadFault> {
    let start = plain(&three_tauros())?;
    let mut state = start;
    state.outcome = 1;
    assert_wrong(&state, [4, 0, 0, 0, 1, 0, 5]);
    state = start;
    state.sides[0].members[0].hp = 0;
    assert_wrong(&state, [6, 1, 0, 0, 1, 2, 2]);
    state.requests = [2, 1];
    assert_wrong(&state, [6, 2, 0, 0, 1, 0, 0]);
    state.requests = [2, 0];
    assert_wrong(&state, [0; 7]);
    state.turn = 1000;
    assert_wrong(&state, [2, 0, 0, 0, 1000, 0, 999]);
    let mut first = plain(&unstarted())?;
    first.sides[1].members[0].hp = 0;
    assert_wrong(&first, [10, 2, 1, 0, 0, 1, 353]);
    first.outcome = 3;
    assert_wrong(&first, [4, 0, 0, 0, 3, 0, 0]);
    Ok(())
}
