//! What a move may do in addition to its damage (docs/MECHANICS.md, "Side effects"). Both sides have two Tauros. Those
//! that are out have type Normal, Attack 298, Defense 288, Speed 318 and Special 238.
use crate::script::{play, play_each};

// Each with the highest draw at which the effect happens, and the next draw. A burn leaves an Attack of 298 / 2, and
// paralysis a Speed of 318 / 4. No draw is taken if the foe has a status.
#[test]
fn statuses() {
    play_each(
        "move         | last | next | kind | penalty
         Poison Sting | 51   | 52   | psn  |
         Smog         | 102  | 103  | psn  |
         Twineedle    | 51   | 52   | psn  |
         Ember        | 25   | 26   | brn  | two.attack 6 149
         Fire Blast   | 76   | 77   | brn  | two.attack 6 149
         Ice Beam     | 25   | 26   | frz  |
         Thunderbolt  | 25   | 26   | par  | two.speed 6 79
         Body Slam    | 76   | 77   | par  | two.speed 6 79",
        "pair Tauros; two.types Rock Rock; from $last; side $move; told status two $kind; draws 1; becomes two.status $kind, $penalty
         pair Tauros; two.types Rock Rock; from 0; side $move; becomes two.status $kind, $penalty
         pair Tauros; two.types Rock Rock; from $next; side $move; told; draws 1; becomes
         pair Tauros; two.types Rock Rock; two.status $kind; from 0; side $move; told; draws 0; becomes",
    )
}

// No draw is taken if the foe has the type, nor by Body Slam, since Tauros are Normal.
#[test]
fn nothing_is_drawn_on_the_type() {
    play_each(
        "move         | type
         Poison Sting | Poison
         Twineedle    | Poison
         Ember        | Fire
         Ice Beam     | Ice
         Thunderbolt  | Electric",
        "pair Tauros; two.types $type Rock; from 0; side $move; told; draws 0; becomes
         pair Tauros; two.types Rock $type; from 0; side $move; told; draws 0; becomes",
    );
    play("pair Tauros; from 0; side Body Slam; told; draws 0; becomes")
}

// A Fire move that can burn thaws a frozen foe, even one of type Fire.
#[test]
fn the_thaw() {
    play(
        "pair Tauros; two.types Fire Ice; two.status frz; from 0; side Ember; told cure two frz; draws 0; becomes two.status none
         pair Tauros; two.types Fire Ice; two.status frz; from 0; side Fire Blast; told cure two frz; draws 0; becomes two.status none
         pair Tauros; two.types Rock Rock; two.status frz; from 0; side Thunderbolt; told; draws 0; becomes",
    )
}

// The foe's second member is frozen, and its first has to recharge (docs/MECHANICS.md, "Side effects", "Rules (sleep
// clause, freeze clause)").
#[test]
fn the_freeze_clause() {
    play_each(
        "rules | events         | changes
         0     | status two frz | two.status frz, two.flag recharge off
         1     | status two frz | two.status frz, two.flag recharge off
         2     |                |
         3     |                |",
        "ruled $rules Tauros; two.out 2; two.status frz; two.out 1; two.flag recharge; from 25; side Ice Beam; told $events; draws 1; becomes $changes",
    )
}

// A flinch has no event, and the foe need not recharge.
#[test]
fn flinching() {
    play_each(
        "move  | last | next
         Bite  | 25   | 26
         Stomp | 76   | 77",
        "pair Tauros; two.flag recharge; from $last; side $move; told; draws 1; becomes two.flag flinch, two.flag recharge off
         pair Tauros; two.flag recharge; from $next; side $move; told; draws 1; becomes",
    )
}

// A Substitute doesn't keep confusion away. The second draw is 25 for the sweep, which gives 1 + 2 turns, and 24 for
// the link numbers, which gives 0 + 2.
#[test]
fn confusion() {
    play_each(
        "move
         Psybeam
         Confusion",
        "pair Tauros; two.substitute 60; sweep 24; side $move; told start two confusion; draws 2; becomes two.confused 3
         pair Tauros; two.substitute 60; equal 24; side $move; told start two confusion; draws 2; becomes two.confused 2
         pair Tauros; from 25; side $move; told; draws 1; becomes
         pair Tauros; two.confused 1; from 24; side $move; told; draws 1; becomes",
    )
}

// One stage down is 66 percent. Mist doesn't prevent it. At -6 the draw is taken, and no failure is reported.
#[test]
fn stages() {
    play_each(
        "move        | stat    | value
         Aurora Beam | attack  | 196
         Acid        | defense | 190
         Bubble Beam | speed   | 209
         Psychic     | special | 157",
        "pair Tauros; two.flag mist; from 84; side $move; told unboost two $stat 1; draws 1; becomes two.$stat 5 $value
         pair Tauros; from 85; side $move; told; draws 1; becomes",
    );
    play("pair Tauros; two.defense 0 72; from 84; side Acid; told; draws 1; becomes")
}

#[test]
fn recharging() {
    play(
        "pair Tauros; two.substitute 60; from 0; side Hyper Beam; told recharge one; draws 0; becomes one.flag recharge",
    )
}

// No draw is taken. A frozen foe isn't thawed either.
#[test]
fn a_substitute_keeps_harm_away() {
    play_each(
        "move
         Poison Sting
         Twineedle
         Ember
         Ice Beam
         Thunderbolt
         Bite
         Acid",
        "pair Tauros; two.substitute 60; from 0; side $move; told; draws 0; becomes",
    );
    play(
        "pair Tauros; two.substitute 60; two.status frz; from 0; side Ember; told; draws 0; becomes",
    )
}

#[test]
fn without_a_side_effect() {
    play_each(
        "move
         Pay Day
         Strength
         Swift
         Submission
         Growl",
        "pair Tauros; from 0; side $move; told; draws 0; becomes",
    )
}

// Disable hits below 140, which is 55 percent.
//
// - Equal link numbers of 1: nine of 1, of 6 and of 31, and then 156s, which name slot 1 and a count of 5.
// - A sweep from 1: the hit test, 2 and 3 without success, 4 for slot 1, and 5 for a count of 6. A Substitute doesn't
//   prevent it.
// - With two moves, a sweep from 0 names slot 2 by 1. From 3 it names slot 1 by 4, or slot 2 by 5 if slot 1 has no PP.
// - At most one move is disabled.
// - Without any PP it fails at the first draw of slot 1, before the count: at 4 of a sweep from 1, and at the second of
//   zeros.
#[test]
fn disable() {
    play(
        "pair Tauros; equal 1; side_knowing Disable; gives false; told start two Disable; ring 2 156 156 156 156 156 156 156 156 156 1; knows tested 140; becomes two.disabled 1 5
         pair Tauros; two.substitute 60; sweep 1; side_knowing Disable; gives false; told start two Disable; draws 5; knows tested 140; becomes two.disabled 1 6
         pair Tauros Strength, Dig; two.pp 1 15; sweep 0; side_knowing Disable; gives false; becomes two.disabled 2 3
         pair Tauros Strength, Dig; two.pp 1 15; sweep 3; side_knowing Disable; gives false; becomes two.disabled 1 6
         pair Tauros Strength, Dig; two.pp 1 0; sweep 3; side_knowing Disable; gives false; becomes two.disabled 2 7
         pair Tauros; from 140; side Disable; told miss one; draws 1; becomes
         pair Tauros; sweep 140; side_knowing Disable; gives true; knows missed, tested 140
         pair Tauros; two.disabled 1 2; from 139; side Disable; told fail one; draws 1; becomes
         pair Tauros; two.pp 1 0; sweep 1; side Disable; told fail one; draws 4; becomes
         pair Tauros; two.pp 1 0; equal 0; side Disable; told fail one; draws 2; becomes",
    )
}
