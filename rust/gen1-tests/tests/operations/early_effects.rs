//! Each early effect once (docs/MECHANICS.md, "Early effects"). The places of bytes are those of docs/LAYOUT.md: the user's
//! member begins at byte 24 and its active block at 168, those of the foe at 204 and 348.
use crate::script::{play, play_each};

#[test]
fn moves_that_fail() {
    play_each(
        "move
         Whirlwind
         Roar
         Teleport",
        "pair Tauros; from 0; early $move; told fail one; draws 0; becomes",
    );
}

#[test]
fn splash() {
    play("pair Tauros; from 0; early Splash; told activate one Splash; draws 0; becomes");
}

// The numbers of Rock and Ground are 5 and 4.
#[test]
fn conversion() {
    play(
        "pair Tauros; two.types Rock Ground; from 0; early Conversion; told start one typechange; draws 0; bytes 169=5, 170=4
         two.types Normal Normal; two.flag invulnerable; from 0; early Conversion; told fail one; draws 0; becomes",
    );
}

// With the place of its bit in the four bytes of conditions. A second use fails.
#[test]
fn what_stays_up() {
    play_each(
        "move         | byte
         Mist         | 185=128
         Focus Energy | 186=1
         Light Screen | 186=64
         Reflect      | 186=128",
        "pair Tauros; from 0; early $move; told start one $move; draws 0; bytes $byte
         from 0; early $move; told fail one; draws 0; becomes",
    );
}

// At full HP, and after a loss of 255 or 511 HP, a recovery fails. For a maximum of 703, whose bytes are 191 and 2, half is
// 351. The bytes of 451 are 195 and 1.
#[test]
fn recoveries() {
    play_each(
        "move        | hp  | told             | bytes
         Recover     | 449 | heal one 703/703 | 28=191, 29=2
         Recover     | 447 | heal one 703/703 | 28=191, 29=2
         Recover     | 100 | heal one 451/703 | 28=195, 29=1
         Recover     | 703 | fail one         |
         Recover     | 448 | fail one         |
         Recover     | 192 | fail one         |
         Soft-Boiled | 449 | heal one 703/703 | 28=191, 29=2
         Soft-Boiled | 447 | heal one 703/703 | 28=191, 29=2
         Soft-Boiled | 100 | heal one 451/703 | 28=195, 29=1
         Soft-Boiled | 703 | fail one         |
         Soft-Boiled | 448 | fail one         |
         Soft-Boiled | 192 | fail one         |",
        "pair Chansey; one.hp $hp; from 0; early $move; told $told; draws 0; bytes $bytes",
    );
}

// It fails at full HP. It replaces a paralysis, whose quartered Speed stays.
#[test]
fn rest() {
    play(
        "pair Chansey; from 0; early Rest; told fail one; draws 0; becomes
         inflict one par 0; one.hp 100; from 0; early Rest; told status one slp, heal one 703/703 slp; draws 0; bytes 28=191, 29=2, 38=2; is one.speed 6 49",
    );
}

// At 55, 85, 75 and 90 percent.
#[test]
fn moves_that_miss() {
    play_each(
        "move       | byte
         Supersonic | 140
         Toxic      | 216
         Glare      | 191
         Leech Seed | 229",
        "pair Tauros; from $byte; early $move; told miss one; draws 1; becomes",
    );
}

// The foe's types, its Substitute, and the draws.
#[test]
fn who_is_spared() {
    play_each(
        "types         | substitute | move          | byte | draws
         Normal Normal | 88         | Supersonic    | 6    | 0
         Normal Normal | 88         | Poison Powder | 0    | 0
         Grass Poison  | none       | Poison Gas    | 0    | 0
         Rock Ground   | none       | Thunder Wave  | 0    | 0
         Normal Grass  | none       | Leech Seed    | 228  | 1",
        "pair Tauros; two.types $types; two.substitute $substitute; from $byte; early $move; told fail one; draws $draws; becomes",
    );
}

// The last draw that hits, the effect and its number of draws, and a move that fails then, with its number of draws.
//
// After 6 comes 7, whose low bits are 3, so that the count of the confusion is 5. A Speed of 318 becomes 79. The 2 added to
// the seed's 16 is the Substitute. Thunder Wave has no effect on a Ground type, and Glare has.
#[test]
fn what_is_brought_once() {
    play_each(
        "substitute | move          | byte | told                 | draws | bytes                  | again      | next
         none       | Supersonic    | 6    | start two confusion  | 2     | 365=64, 370=5          | Supersonic | 1
         none       | Toxic         | 215  | status two psn       | 1     | 218=8, 366=32          | Toxic      | 0
         none       | Poison Powder | 190  | status two psn       | 1     | 218=8                  | Poison Gas | 0
         88         | Thunder Wave  | 254  | status two par       | 1     | 218=64, 361=79, 362=0  | Stun Spore | 0
         none       | Glare         | 190  | status two par       | 1     | 218=64, 361=79, 362=0  | Glare      | 0
         88         | Leech Seed    | 228  | start two Leech Seed | 1     | 366=18                 | Leech Seed | 1",
        "pair Tauros; two.substitute $substitute; from $byte; early $move; told $told; draws $draws; bytes $bytes
         from 6; early $again; told fail one; draws $next; becomes",
    );
    play(
        "pair Tauros; two.types Rock Ground; from 190; early Glare; told status two par; draws 1; bytes 218=64, 361=79, 362=0",
    );
}

// Both are burned, and their stages are changed. The user has Mist, Reflect and a Substitute. The foe was paralysed before,
// and is confused, seeded and badly poisoned, and has a disabled move. At the end the foe is frozen. The user's burn (16) and
// its Substitute with 88 HP stay: all else is as in a new battle.
#[test]
fn haze() {
    play(
        "pair Tauros; inflict one brn 0; one.flag mist; one.flag reflect; one.substitute 88; inflict two par 0
         two.confused 3; two.flag seeded; two.bad_poison 5; two.disabled 1 4; two.special 8 476; two.evasion 12; one.accuracy 1; two.status frz
         from 0; early Haze; told clear, cure two frz; draws 0; against pair Tauros; bytes 38=16, 186=2, 189=88",
    );
}

// Whether the foe is skipped after Haze, by its status before.
#[test]
fn whom_haze_skips() {
    play_each(
        "status | skips
         none   |
         slp 1  | skips
         psn    |
         brn    |
         frz    | skips
         par    |",
        "pair Tauros; two.status $status; sweep 0; early_knowing Haze; knows $skips",
    );
}
