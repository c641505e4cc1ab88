//! Moves whose damage has a special rule: Counter, fixed damage and one-hit moves (docs/MECHANICS.md, "Counter", "Fixed damage
//! and one-hit moves"). The last damage is at byte 3, and the outcome at byte 16. A Tauros has base Speed 110, so a draw, rotated
//! left by 3 bits, is critical below 55 ("Critical hits").
use crate::script::{play, play_each};

// The foe's first member is out and has picked a move, and a damage of 100 was dealt last. Counted are Normal of power 80,
// Fighting of power 1 and of power 80, and Struggle. Not Ice, Ground, moves without power, and Counter itself.
#[test]
fn normal_and_fighting_moves_are_countered() {
    play_each(
        "moves                                     | used     | gives
         Strength, Ice Beam, Seismic Toss, Counter | 1        | 200
         Strength, Ice Beam, Seismic Toss, Counter | 2        | none
         Strength, Ice Beam, Seismic Toss, Counter | 3        | 200
         Strength, Ice Beam, Seismic Toss, Counter | 4        | none
         Strength, Ice Beam, Seismic Toss, Counter | struggle | 200
         Strength, Ice Beam, Seismic Toss, Counter | nothing  | none
         Submission, Growl, Night Shade, Dig       | 1        | 200
         Submission, Growl, Night Shade, Dig       | 2        | none
         Submission, Growl, Night Shade, Dig       | 3        | none
         Submission, Growl, Night Shade, Dig       | 4        | none",
        "teams Tauros 100 Counter / Tauros 100 $moves + Tauros 100 Strength; two.picked $used; last 100; counter one; gives $gives",
    );
}

// A newcomer's own move counts.
#[test]
fn a_foe_that_has_left_is_not_countered() {
    play(
        "teams Tauros 100 Counter / Tauros 100 Strength, Ice Beam, Seismic Toss, Counter + Tauros 100 Strength; two.picked 1; last 100; two.out 2; counter one; gives none
         two.picked 1; counter one; gives 200",
    );
}

#[test]
fn two_counters_both_miss() {
    play(
        "teams Tauros 100 Counter / Tauros 100 Counter; one.picked 1; two.picked 1; last 100; counter one; gives none; counter two; gives none",
    );
}

#[test]
fn damage_is_doubled_up_to_65535() {
    play_each(
        "last  | gives
         0     | none
         1     | 2
         32767 | 65534
         32768 | 65535
         65535 | 65535",
        "teams Tauros 100 Counter / Tauros 100 Strength, Ice Beam, Seismic Toss, Counter + Tauros 100 Strength; two.picked 1; last $last; counter one; gives $gives",
    );
}

// The draw 0 is critical. 8 is 64 after rotation, and isn't critical. The second draw is below 255. At 255 it misses by its hit
// test, and the last damage is 0. If it misses by the foe's move, the last damage is kept, and the critical draw is the only
// one.
#[test]
fn a_counter() {
    play_each(
        "drawn     | used | draws | knows                | last
         sweep 0   | 1    | 2     | critical, tested 255 | 3=200
         sweep 8   | 1    | 2     | tested 255           | 3=200
         equal 254 | 1    | 2     | tested 255           | 3=200
         sweep 254 | 1    | 2     | missed, tested 255   | 3=0
         equal 0   | 2    | 1     | critical, missed     |",
        "teams Tauros 100 Counter / Tauros 100 Strength, Ice Beam, Seismic Toss, Counter + Tauros 100 Strength; two.picked $used; last 100; $drawn; counter_knowing Counter; knows $knows; draws $draws; bytes $last",
    );
}

#[test]
fn numbers_of_moves() {
    play_each(
        "move         | level | damage
         Sonic Boom   | 100   | 20
         Dragon Rage  | 100   | 40
         Seismic Toss | 100   | 100
         Seismic Toss | 37    | 37
         Night Shade  | 1     | 1",
        "teams Tauros $level Psywave / Tauros 100 Strength; sweep 7; fixed $move; gives $damage; draws 0",
    );
}

#[test]
fn super_fang_takes_half() {
    play_each(
        "hp  | damage
         353 | 176
         88  | 44
         3   | 1
         2   | 1
         1   | 1",
        "single; two.hp $hp; equal 9; fixed Super Fang; gives $damage; draws 0",
    );
}

// At level 100 draws must be below 150, at level 2 below 3, and at level 3 below 4. From 150 on it takes 106 draws up to 255, and
// then 0 and 1. Nine zeros are all 1 after they are renewed: the tenth draw, so that the index is 1. At level 1 it is a fault.
#[test]
fn psywave() {
    play_each(
        "level | drawn          | damage | draws
         100   | sweep 1        | 1      | 1
         100   | sweep 149      | 149    | 1
         100   | sweep 150      | 1      | 108
         2     | sweep 0        | 1      | 2
         2     | sweep 2        | 2      | 1
         2     | sweep 3        | 1      | 255
         3     | sweep 3        | 3      | 1
         3     | sweep 4        | 1      | 254
         2     | link 200 3 2 1 | 2      | 3
         100   | link 200 3 2 1 | 3      | 2
         100   | equal 0        | 1      | 1
         1     | sweep 1        | none   | 0
         1     | equal 1        | none   | 0",
        "teams Tauros $level Psywave / Tauros 100 Strength; $drawn; fixed Psywave; gives $damage; draws $draws",
    );
}

// 80 percent is the byte 204, and the outcome byte of Fault 2 is 5. If it misses, it only misses.
#[test]
fn psywave_at_level_1_is_a_fault() {
    play(
        "teams Tauros 1 Psywave / Tauros 100 Strength; last 75; sweep 203; fixed_knowing Psywave; gives true; knows tested 204; draws 1; is fault 2; bytes 16=5, 3=75
         teams Tauros 1 Psywave / Tauros 100 Strength; last 75; sweep 204; fixed_knowing Psywave; gives false; knows missed, tested 204; against teams Tauros 1 Psywave / Tauros 100 Strength; bytes",
    );
}

// By the type rows Night Shade has no effect on a Normal foe, but they don't count. The next draw misses.
#[test]
fn a_hit_test_comes_first() {
    play_each(
        "move         | byte | tested | damage
         Night Shade  | 254  | 255    | 100
         Seismic Toss | 254  | 255    | 100
         Sonic Boom   | 228  | 229    | 20
         Dragon Rage  | 254  | 255    | 40
         Super Fang   | 228  | 229    | 176",
        "single; last 75; sweep $byte; fixed_knowing $move; gives false; knows tested $tested; draws 1; bytes 3=$damage
         last 75; knowing; fixed_knowing $move; gives false; knows missed, tested $tested; draws 1; against single; bytes",
    );
}

#[test]
fn psywave_draws_after_its_hit_test() {
    play(
        "teams Tauros 2 Psywave / Tauros 100 Strength; last 75; sweep 1; fixed_knowing Psywave; gives false; knows tested 204; draws 2; is last 2
         last 75; knowing; link 203 9 1; fixed_knowing Psywave; gives false; knows tested 204; draws 3; is last 1",
    );
}

// One-hit moves. Their accuracy byte is 76, and the bytes that give a factor are the odd ones from 179 on ("Factors"). The
// critical draw, the factor's, and the hit test at 75: four draws in all, since 74 gives no factor. A member that is paralysed has
// a quarter of its Speed of 318. A user as fast as the foe isn't slower.
#[test]
fn the_faster_one_knocks_out() {
    play_each(
        "move       | speed
         Guillotine | 79
         Fissure    | 79
         Horn Drill | 318",
        "single; two.speed 6 $speed; last 75; link 0 74 179 75; knock_out $move; knows critical, tested 76; draws 4; bytes 3=255, 4=255",
    );
}

// From 253 on: the critical draw, 254, the factor 255, and the hit test at 0. From 177 on: the critical draw, 178, the factor 217,
// and a miss at 180. From 0 on it takes the draws up to 179.
#[test]
fn a_sweep_comes_to_a_factor() {
    play(
        "single; last 75; sweep 253; knock_out Guillotine; draws 4; is last 65535
         single; last 75; sweep 177; knock_out Guillotine; knows missed, tested 76; draws 4; against single; bytes
         single; last 75; sweep 0; knock_out Guillotine; draws 181",
    );
}

#[test]
fn the_hit_test_is_at_76() {
    play(
        "single; last 75; link 0 255 75; knock_out Horn Drill; knows critical, tested 76; draws 3; bytes 3=255, 4=255
         single; last 75; link 0 255 76; knock_out Horn Drill; knows critical, missed, tested 76; draws 3; bytes 3=0, 4=0",
    );
}

// The slower one misses after the critical draw. No effect is a miss with its hit test.
#[test]
fn who_cannot_knock_out() {
    play(
        "single; one.speed 6 79; last 75; sweep 0; knock_out Guillotine; knows critical, missed; draws 1; bytes 3=0
         single; two.types Ghost Poison; last 75; sweep 8; knock_out Guillotine; knows missed, tested 76; draws 2; bytes 3=0
         single; two.types Normal Flying; last 75; sweep 8; knock_out Fissure; knows missed, tested 76; draws 2; bytes 3=0",
    );
}

#[test]
fn its_damage_breaks_and_fells() {
    play(
        "single; two.substitute 249; last 75; sweep 253; knock_out Guillotine; land 65535; gives broke; is two.hp 353
         land 65535; gives hp; is two.hp 0, last 353",
    );
}
