//! Picks, the gate, statuses, stages and residual damage (docs/MECHANICS.md, "Picks", "Gate", "Penalties", "Stage shift",
//! "Residual damage"). Each side has one member out, which knows Strength and Dig.
use crate::script::{play, play_each};
use gen1::generated::status::Gate;

// What choices of a slot become, for a member that is free, and for one that the foe's trapping holds (docs/MECHANICS.md,
// "Picks").
#[test]
fn picks() {
    play(
        "duel Tauros Tauros; pick one 0; gives struggle; pick one 2; gives 2
         two.trapping 0; pick one 0; gives held; pick one 2; gives 2; pick two 0; gives continue
         duel Tauros Tauros; two.trapping 0; one.status slp 3; pick one 0; gives idle
         duel Tauros Tauros; two.trapping 0; one.status frz; pick one 0; gives idle",
    );
}

// Asleep, and held by the foe's trapping (docs/MECHANICS.md, "Picks").
#[test]
fn picks_of_who_goes_on() {
    play_each(
        "field  | value
         flag   | recharge
         flag   | rage
         flag   | charging
         thrash | 2
         bide   | 2 0",
        "duel Tauros Tauros; two.trapping 0; one.status slp 3; one.$field $value; pick one 0; gives continue",
    );
}

// A pick names its move, or continues with the current one (docs/MECHANICS.md, "Picks").
#[test]
fn what_a_pick_uses() {
    play(
        "duel Tauros Tauros; one.current 2
         used_by 1; gives 1; used_by continue; gives 2; used_by idle; gives 2; used_by held; gives 2",
    );
}

// Draws of 62 and 63 (docs/MECHANICS.md, "Gate").
#[test]
fn digging_while_paralysed() {
    play(
        "duel Tauros Tauros; one.status par; one.current 2; one.flag charging; one.flag invulnerable; link 63 62
         gate continue; gives go; told; draws 1; becomes
         gate continue; gives stop; told cant one par; draws 1; becomes one.flag charging off",
    );
}

// The count of sleep. No draw is taken, and the flinch stays (docs/MECHANICS.md, "Gate").
#[test]
fn sleeping() {
    play(
        "duel Tauros Tauros; one.status slp 2 marked; one.flag flinch; sweep 0
         gate 1; gives stop; told cant one slp; draws 0; becomes one.status slp 1 marked
         gate 1; gives stop; told cure one slp; draws 0; becomes one.status none",
    );
}

// Freeze, and the foe's trapping (docs/MECHANICS.md, "Gate").
#[test]
fn frozen_or_held() {
    play(
        "duel Tauros Tauros; two.trapping 0; one.status frz; sweep 0
         gate 1; gives stop; told cant one frz
         one.status none; gate 1; gives stop; told cant one trapped; is two.trapping 0",
    );
}

// Each of them passes after one turn (docs/MECHANICS.md, "Gate").
#[test]
fn flinching_and_recharging() {
    play(
        "duel Tauros Tauros; one.flag flinch; one.flag recharge; sweep 0
         gate 1; gives stop; told cant one flinch; becomes one.flag flinch off
         gate 1; gives stop; told cant one recharge; becomes one.flag recharge off
         gate 1; gives go; told; becomes",
    );
}

// Which results of the gate end an action (docs/MECHANICS.md, "Gate").
#[test]
fn answers_that_stop() {
    assert_eq!(
        (Gate::Go.stops(), Gate::Stop.stops(), Gate::Fault.stops()),
        (false, true, true),
    );
}

// Its count, and its end. Then the second move may be used again, and an idle member does nothing (docs/MECHANICS.md, "Gate").
#[test]
fn a_disabled_move() {
    play(
        "duel Tauros Tauros; one.disabled 2 3; one.current 2; one.flag charging; sweep 0
         gate continue; gives stop; told cant one Disable; becomes one.flag charging off, one.disabled 2 2
         gate 1; gives go; told; becomes one.disabled 2 1
         gate 2; gives go; told end one Disable; becomes one.disabled none
         gate idle; gives stop; told; becomes",
    );
}

// 42 * 40 * 74 / 72 / 50 + 2: a Tauros takes 36 from its own hit, and isn't out of reach any more. The third turn ends the
// confusion without a draw (docs/MECHANICS.md, "Hit on itself", "Gate").
#[test]
fn confused() {
    play(
        "duel Tauros Tauros; one.confused 3; one.flag invulnerable; link 127 128
         gate 1; gives go; told activate one confusion; draws 1; becomes one.confused 2
         gate 1; gives stop; told activate one confusion, damage one 317/353 by confusion; draws 1; becomes one.confused 1, one.hp 317, last 36, one.flag invulnerable off
         gate 1; gives go; told end one confusion; draws 0; becomes one.confused none",
    );
}

// The user's own substitute spares nothing, and the foe's takes the damage (docs/MECHANICS.md, "Hit on itself").
#[test]
fn confused_behind_a_substitute() {
    play(
        "duel Tauros Tauros; one.confused 5; one.substitute 1; sweep 128
         gate 1; gives stop; told activate one confusion; is last 36
         two.substitute 36
         gate 1; gives stop; told activate one confusion, activate two Substitute; is two.substitute 0
         gate 1; gives stop; told activate one confusion, end two Substitute; is two.substitute none; is one.substitute 1, one.hp 353, two.hp 353",
    );
}

// A Defense of 512 with Reflect is 1024. Divided by 4 it is 256, whose low byte is 0 (docs/MECHANICS.md, "Hit on itself").
#[test]
fn a_divisor_of_0() {
    play(
        "duel Tauros Tauros; one.confused 2; one.defense 6 512; two.flag reflect; last 7; sweep 255
         gate 1; gives fault; told activate one confusion; is fault 1, last 7, one.hp 353",
    );
}

// Speed and Attack. A second penalty is taken once more (docs/MECHANICS.md, "Penalties").
#[test]
fn penalties() {
    play(
        "duel Tauros Tauros; inflict two par 0; told status two par; becomes two.status par, two.speed 6 79
         inflict one brn 0; told status one brn; becomes one.status brn, one.attack 6 149
         penalty two par; becomes two.speed 6 19",
    );
}

// Unmarked, and marked (docs/MECHANICS.md, "Penalties", "Rules (sleep clause, freeze clause)").
#[test]
fn sleep() {
    play(
        "duel Tauros Tauros; inflict two slp 7; becomes two.status slp 7
         inflict_status two slp slp 3 marked; becomes two.status slp 3 marked; is two.speed 6 318",
    );
}

// The foe is burned, and its Attack of 298 is 149 now (docs/MECHANICS.md, "Stage shift", "Penalties").
#[test]
fn growl_and_swords_dance() {
    play(
        "duel Tauros Tauros; inflict two brn 0; told status two brn
         shift two attack -1; gives true; told unboost two attack 1; becomes two.attack 5 98
         shift one attack 2; gives true; told boost one attack 2; becomes one.attack 8 596, two.attack 5 49",
    );
}

// At -6 and at +6. From +5, a rise by 2 is one stage, to +6 (docs/MECHANICS.md, "Stage shift", "Stages").
#[test]
fn ends_of_the_stages() {
    play(
        "duel Tauros Tauros; one.evasion 12; two.accuracy 0
         raise one evasion 1; gives false; told; lower two accuracy 1; gives false; told
         one.evasion 11; raise one evasion 2; gives true; told boost one evasion 1; becomes one.evasion 12",
    );
}

// An Electrode's Speed of 378 is 756 at +2. At +4 it is 999, since 1,134 is above the limit. A Magikarp's Attack at level 1 is 5.
// It is 2 at -2, and 1 at -4 (docs/MECHANICS.md, "Stage shift", "Stages").
#[test]
fn ends_of_the_stats() {
    play(
        "duel Electrode Electrode; shift one speed 2; gives true; told boost one speed 2; becomes one.speed 8 756
         shift one speed 2; gives true; told boost one speed 2; becomes one.speed 10 999
         shift one speed 2; gives false; told boost one speed 1; becomes one.speed 11 999
         shift one speed 1; gives false; told; becomes
         duel Magikarp Magikarp; shift two attack -2; gives true; told unboost two attack 2; becomes two.attack 4 2
         shift two attack -2; gives true; told unboost two attack 2; becomes two.attack 2 1
         shift two attack -2; gives false; told unboost two attack 1; becomes two.attack 1 1",
    );
}

// A member that is badly poisoned, with counter 0, and seeded: 22 and 44 of 353. With 20 HP it falls at once, and the seed still
// heals the full amount, so that a foe with 300 has 344. Then nothing is left to lose (docs/MECHANICS.md, "Residual damage").
#[test]
fn bad_poison_and_a_seed() {
    play(
        "duel Tauros Tauros; one.status psn; one.bad_poison 0; one.flag seeded; two.hp 300; residual one
         told damage one 331/353 psn by psn, damage one 287/353 psn by seed, heal two 344/353; becomes one.hp 287, two.hp 344, one.bad_poison 2
         duel Tauros Tauros; one.hp 20; one.status psn; one.bad_poison 0; one.flag seeded; two.hp 300; residual one
         told damage one 0/353 psn by psn, heal two 344/353; is one.hp 0, two.hp 344
         residual one; told; is one.hp 0, two.hp 344",
    );
}
