//! Moves that last several turns, as they begin and as they continue (docs/MECHANICS.md, "Going on", "Charging"). The places of
//! bytes are those of docs/LAYOUT.md: the user's condition bits begin at 185, and its turns are at 194, its energy at 195, its
//! current move at 197 and its kept accuracy at 199. The last damage is at 3. Both sides have a Tauros out: 353 HP, a quarter of
//! which is 88.
use crate::script::{play, play_each};

// The first draw counts if its low bits are 0 or 1. Otherwise the next draw does. The foe's Recharge ends.
#[test]
fn a_trap_begins() {
    play_each(
        "byte | turns | draws
         0    | 1     | 1
         1    | 2     | 1
         2    | 4     | 2
         3    | 1     | 2
         5    | 2     | 1",
        "single; two.flag recharge; sweep $byte; trap; draws $draws; against single; bytes 185=4, 194=$turns",
    );
    play("single; equal 3; trap; draws 2; is one.trapping 4");
}

// A count of 0 stays 0, the foe's Recharge isn't changed, and nothing is drawn: in an action that continues, and by the bytes
// alone.
#[test]
fn a_trap_goes_on() {
    play_each(
        "turns | left
         4     | 3
         1     | 0
         0     | 0",
        "single; two.flag recharge; one.trapping $turns; knowing going_on; sweep 7; trap_knowing; draws 0; bytes 185=4, 194=$left
         single; two.flag recharge; one.trapping $turns; sweep 7; trap; draws 0; bytes 185=4, 194=$left",
    );
}

// Wrap on a Gengar: by the type rows its damage is 0. If it hits, at 215 for the byte 216, it holds the foe without damage.
#[test]
fn a_ghost_is_held_for_0() {
    play_each(
        "byte | bytes
         215  | 185=4, 194=2
         216  | 185=0, 194=0",
        "single; two.types Ghost Poison; sweep 1; trap; bytes 185=4, 194=2; type_steps 23 Wrap; gives 0
         last 0; knowing missed; sweep $byte; hit_or_miss Wrap; bytes $bytes; land 0; told; becomes",
    );
}

// Thrash draws two or three turns, and keeps its accuracy byte.
#[test]
fn thrashing_begins() {
    play_each(
        "byte | turns
         0    | 2
         1    | 3
         254  | 2",
        "single; sweep $byte; thrash; told; draws 1; bytes 185=2, 194=$turns, 199=255",
    );
    play("single; equal 7; thrash; draws 1; is one.thrash 3");
}

#[test]
fn thrashing_goes_on() {
    play(
        "single; one.kept 255; one.thrash 3; knowing going_on; sweep 7
         thrash_knowing Thrash; told; draws 0; bytes 185=2, 194=2
         thrash_knowing Thrash; told; draws 0; bytes 185=2, 194=1",
    );
}

// Confused is bit 6, and its count is the low bits of one draw plus 2.
#[test]
fn thrashing_ends_in_confusion() {
    play_each(
        "byte | count
         0    | 2
         3    | 5
         6    | 4",
        "single; one.kept 255; one.thrash 1; knowing going_on; equal $byte; thrash_knowing Petal Dance; told start one confusion; draws 1; bytes 185=64, 190=$count, 194=0, 199=255",
    );
}

// 1 draws three turns. Each use takes one, and the next draw after the last is the count of the confusion.
#[test]
fn thrashing_that_is_on_goes_on() {
    play(
        "single; sweep 1
         thrash; told; draws 1; bytes 185=2, 194=3, 199=255
         thrash; told; draws 0; bytes 185=2, 194=2, 199=255
         thrash; told; draws 0; bytes 185=2, 194=1, 199=255
         thrash; told start one confusion; draws 1; bytes 185=64, 190=4, 194=0, 199=255",
    );
}

// Bide, from its first action to its last. 300 is 44 + 1 * 256, and twice 301 is 602, which is 90 + 2 * 256. Twice an energy of
// 32,768 is past 16 bits.
#[test]
fn bide() {
    play(
        "single; equal 4; bide; gives none; told start one Bide; draws 1; bytes 185=1, 194=2
         last 300; bide; gives none; told activate one Bide; draws 0; bytes 3=44, 4=1, 185=1, 194=1, 195=44, 196=1
         last 1; bide; gives 602; told end one Bide; draws 0; against single; bytes 3=90, 4=2
         single; one.bide 1 32767; last 1; sweep 9; bide; gives 0; draws 0; against single; bytes",
    );
}

// Charging is bit 4, and Invulnerable bit 5. The first turn ends the action, and the picked move becomes the current one.
#[test]
fn a_charge_hides_who_digs() {
    play_each(
        "move       | flags
         Dig        | 48
         Fly        | 48
         Solar Beam | 16",
        "single; one.picked 1; charge $move; gives true; told prepare one $move; bytes 185=$flags, 197=1
         charge $move; gives false; told; bytes 185=0, 197=1",
    );
}

// The current move was Struggle, which is 5. A move that doesn't charge changes nothing, and the action continues.
#[test]
fn what_is_picked_is_charged() {
    play(
        "single; one.current struggle; one.picked 1; charge Strength; gives false; told; becomes
         charge Skull Bash; bytes 185=16, 197=1",
    );
}

// 353 is 97 + 256, and 265 is 9 + 256. The condition is bit 9, and 88 is its HP. A second one fails, and so does one that would
// cost more HP than there are (docs/MECHANICS.md, "Early effects").
#[test]
fn a_substitute_costs_a_quarter() {
    play_each(
        "hp  | left    | low | high
         353 | 265/353 | 9   | 1
         89  | 1/353   | 1   | 0
         88  | 0/353   | 0   | 0",
        "single; one.hp $hp; substitute; told start one Substitute, damage one $left; bytes 28=$low, 29=$high, 186=2, 189=88
         substitute; told fail one; becomes",
    );
    play("single; one.hp 87; substitute; told fail one; becomes");
}
