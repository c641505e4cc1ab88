//! Stages that rise and fall, and sleep (docs/MECHANICS.md, "Late effects", "Stage shift"). Both sides have two Tauros, and
//! the last damage was 75. Those that are out have Attack 298, Defense 288, Speed 318 and Special 238.
use crate::script::{play, play_each};

// The number of stages, and the stat after them: 150 or 200 percent of the user's. Evasion has none.
#[test]
fn stats_of_the_user_rise() {
    play_each(
        "move         | stat    | by | stage
         Meditate     | attack  | 1  | 7 447
         Swords Dance | attack  | 2  | 8 596
         Harden       | defense | 1  | 7 432
         Barrier      | defense | 2  | 8 576
         Agility      | speed   | 2  | 8 636
         Growth       | special | 1  | 7 357
         Amnesia      | special | 2  | 8 476
         Double Team  | evasion | 1  | 7",
        "pair Tauros; last 75; from 7; late $move; told boost one $stat $by; draws 0; becomes one.$stat $stage",
    );
}

// The accuracy bytes are 255, but 216 for Screech's 85 percent and 242 for String Shot's 95. The stats are 66 and 50
// percent of the foe's, rounded down. A draw one higher misses, and only the last damage changes.
#[test]
fn stats_of_the_foe_fall() {
    play_each(
        "move        | stat     | by | stage | hits | misses
         Growl       | attack   | 1  | 5 196 | 254  | 255
         Tail Whip   | defense  | 1  | 5 190 | 254  | 255
         Screech     | defense  | 2  | 4 144 | 215  | 216
         String Shot | speed    | 1  | 5 209 | 241  | 242
         Sand Attack | accuracy | 1  | 5     | 254  | 255",
        "pair Tauros; last 75; from $hits; late $move; told unboost two $stat $by; draws 1; becomes two.$stat $stage
         pair Tauros; last 75; from $misses; late $move; told miss one; draws 1; becomes last 0",
    );
}

// Without a draw.
#[test]
fn what_keeps_a_stat_from_falling() {
    play(
        "pair Tauros; last 75; two.substitute 10; from 0; late Growl; told fail one; draws 0; becomes
         pair Tauros; last 75; two.flag mist; from 0; late Growl; told miss one; draws 0; becomes last 0
         pair Tauros; last 75; two.flag invulnerable; from 0; late Growl; told miss one; draws 0; becomes last 0",
    );
}

// At -6 nothing changes, after a draw. At +6 nothing changes, without a draw.
#[test]
fn shifts_that_fail() {
    play(
        "pair Tauros; last 75; two.accuracy 0; one.evasion 12; from 3; late Sand Attack; told fail one; draws 1; becomes
         from 3; late Double Team; told fail one; draws 0; becomes",
    );
}

// An Electrode's Speed of 378 is 756 at +2. At +4 it is 999, since 1,134 is above the limit. Then a rise by two stages is one
// stage and a failure, and after that none.
#[test]
fn a_speed_of_999() {
    play(
        "pair Electrode; last 75; sweep 0
         late Agility; told boost one speed 2; draws 0; becomes one.speed 8 756
         late Agility; told boost one speed 2; draws 0; becomes one.speed 10 999
         late Agility; told boost one speed 1, fail one; draws 0; becomes one.speed 11 999
         late Agility; told fail one; draws 0; becomes",
    );
}

// The foe is burned, and its Attack of 298 is 149 now. At -1 it is 196, halved to 98, and the user's Swords Dance makes it 49.
#[test]
fn growl_and_swords_dance() {
    play(
        "pair Tauros; last 75; two.status brn; two.attack 6 149
         from 0; late Growl; told unboost two attack 1; draws 1; becomes two.attack 5 98
         from 0; late Swords Dance; told boost one attack 2; draws 0; becomes two.attack 5 49, one.attack 8 596",
    );
}

// Draws of a sweep, and of ten equal link numbers: the count, and the number of draws. Sleep is marked under the sleep clause,
// rules 1 and 3 (docs/MECHANICS.md, "Late effects", "Rules (sleep clause, freeze clause)").
#[test]
fn counts_of_sleep() {
    play_each(
        "move     | drawn     | turns | draws
         Spore    | sweep 254 | 7     | 2
         Spore    | sweep 7   | 1     | 3
         Spore    | equal 254 | 6     | 2
         Sing     | sweep 139 | 4     | 2
         Sing     | equal 139 | 3     | 2
         Hypnosis | sweep 152 | 1     | 2",
        "ruled 0 Tauros; last 75; $drawn; late $move; told status two slp; draws $draws; becomes two.status slp $turns
         ruled 1 Tauros; last 75; $drawn; late $move; told status two slp; draws $draws; becomes two.status slp $turns marked
         ruled 2 Tauros; last 75; $drawn; late $move; told status two slp; draws $draws; becomes two.status slp $turns
         ruled 3 Tauros; last 75; $drawn; late $move; told status two slp; draws $draws; becomes two.status slp $turns marked",
    );
}

// The accuracy bytes are 140 and 255. A Ghost is immune to the Normal type, which only a miss reports.
#[test]
fn sleep_moves_that_miss() {
    play(
        "pair Tauros; last 75; from 140; late Sing; told miss one; draws 1; becomes last 0
         pair Tauros; last 75; from 255; late Spore; told miss one; draws 1; becomes last 0
         pair Tauros; last 75; two.types Ghost Ghost; from 140; late Sing; told immune two",
    );
}

// Any status makes it fail, without a draw.
#[test]
fn who_cannot_fall_asleep() {
    play_each(
        "status
         slp 2
         psn
         brn
         frz
         par",
        "pair Tauros; last 75; two.status $status; from 1; late Spore; told fail one; draws 0; becomes",
    );
}

// A Substitute doesn't keep sleep away. A foe that has to recharge falls asleep without a test: the first draw, 253, gives
// the count, 5. Sleep replaces its paralysis, and the penalty stays.
#[test]
fn who_falls_asleep() {
    play(
        "pair Tauros; last 75; two.substitute 10; sweep 250; late Spore; told status two slp; draws 2; becomes two.status slp 3
         pair Tauros; last 75; two.substitute 10; equal 250; late Spore; told status two slp; draws 2; becomes two.status slp 2
         ruled 1 Tauros; last 75; two.status par; two.speed 6 79; two.flag recharge; from 253; late Sing; told status two slp; draws 1; becomes two.status slp 5 marked, two.flag recharge off; is two.speed 6 79",
    );
}

// Link numbers of ten zeros: one draw for the hit test, eight zeros, and a 1. The foe's second member has the status, and the
// first is out, whose status is byte 218, and whose mark is byte 227 (docs/MECHANICS.md, "Late effects"; docs/LAYOUT.md, "Member").
#[test]
fn ten_draws() {
    play_each(
        "rules | status | marked | mark
         0     | slp 3  |        | 0
         0     | none   |        | 0
         1     | slp 2  | marked | 1
         1     | frz    | marked | 1
         1     | none   | marked | 1",
        "ruled $rules Tauros; last 75; two.out 2; two.status $status; two.out 1; equal 0; late Spore; told status two slp; ring 1 1 1 1 1 1 1 1 1 1 0; becomes two.status slp 1 $marked; bytes 218=1, 227=$mark",
    );
}

// A living teammate has the mark, so the move fails: after the hit test, or without a draw if the foe has to recharge. A foe
// that has to recharge may have the mark itself. Then it is the one that sleeps, and it stays as it is (docs/MECHANICS.md,
// "Late effects", "Rules (sleep clause, freeze clause)").
#[test]
fn one_sleeper_at_a_time() {
    play(
        "ruled 1 Tauros; last 75; two.out 2; two.status slp 3 marked; two.out 1
         from 0; late Spore; told fail one; draws 1; becomes
         two.flag recharge; from 0; late Spore; told fail one; draws 0; becomes two.flag recharge off
         ruled 1 Tauros; last 75; two.status slp 3 marked; two.flag recharge; sweep 1; late Spore; told fail one; draws 0; becomes two.flag recharge off",
    );
}

// A teammate that fell has lost its mark, and the user's own marked sleeper doesn't count (docs/MECHANICS.md, "Late effects",
// "Rules (sleep clause, freeze clause)").
#[test]
fn whom_the_sleep_clause_does_not_count() {
    play_each(
        "drawn   | turns
         sweep 1 | 2
         equal 1 | 1",
        "ruled 1 Tauros; last 75; two.out 2; two.status slp 3 marked; two.out 1; two.out 2; two.fallen; two.out 1; $drawn; late Spore; is two.status slp $turns marked
         ruled 1 Tauros; last 75; one.status slp 3 marked; $drawn; late Spore; is two.status slp $turns marked",
    );
}
