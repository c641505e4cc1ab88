//! All hits of a move that hits, with their damage, what follows them, and what follows a miss (docs/MECHANICS.md, "Many hits",
//! "Recoil, drain and explosion", "Going on", "Order of events"). The damage is the last damage. Both sides have a Tauros out: 353
//! HP.
use crate::script::{play, play_each};

// Moves that hit twice draw nothing.
#[test]
fn moves_that_hit_twice() {
    play_each(
        "move
         Double Kick
         Bonemerang
         Twineedle",
        "single; last 50; sweep 2; hits $move; told damage two 303/353, damage two 253/353, count two 2; knows made 2, planned 2; draws 0",
    );
}

// The first draw counts if its low bits are 0 or 1. Otherwise the next draw does.
#[test]
fn two_to_five_hits_are_drawn() {
    play_each(
        "byte | hits | draws | hp  | told
         0    | 2    | 1     | 333 | damage two 343/353, damage two 333/353, count two 2
         5    | 3    | 1     | 323 | damage two 343/353, damage two 333/353, damage two 323/353, count two 3
         2    | 5    | 2     | 303 | damage two 343/353, damage two 333/353, damage two 323/353, damage two 313/353, damage two 303/353, count two 5
         3    | 2    | 2     | 333 | damage two 343/353, damage two 333/353, count two 2
         254  | 5    | 2     | 303 | damage two 343/353, damage two 333/353, damage two 323/353, damage two 313/353, damage two 303/353, count two 5",
        "single; last 10; sweep $byte; hits Fury Attack; told $told; knows made $hits, planned $hits; draws $draws; is two.hp $hp",
    );
}

// Both 2 and 6 have 2 in their low bits.
#[test]
fn four_hits_take_two_draws() {
    play(
        "single; last 7; link 2 6; hits Barrage; told damage two 346/353, damage two 339/353, damage two 332/353, damage two 325/353, count two 4; knows made 4, planned 4; draws 2; is two.hp 325, last 7",
    );
}

// Five hits of 10 are drawn. A Substitute of 25 HP takes two, and breaks at the third. Of 25 HP, the third hit takes 5. The count
// is drawn where the first hit fells.
#[test]
fn what_ends_the_hits() {
    play(
        "single; two.substitute 25; last 10; sweep 2; hits Pin Missile; told activate two Substitute, activate two Substitute, end two Substitute, count two 3; knows broke, made 3, planned 5; is two.hp 353, two.substitute none
         single; two.hp 25; last 10; sweep 2; hits Comet Punch; told damage two 15/353, damage two 5/353, damage two 0/353, count two 3; knows made 3, planned 5; is last 5
         single; two.hp 10; last 10; sweep 0; hits Spike Cannon; told damage two 0/353, count two 1; knows made 1, planned 2; draws 1",
    );
}

#[test]
fn a_first_hit_that_breaks_plans_none() {
    play_each(
        "move
         Fury Swipes
         Double Kick",
        "single; two.substitute 9; last 10; sweep 2; hits $move; told end two Substitute; knows broke, made 1; draws 0",
    );
}

// More rows of 20 than of 5 are super effective, and more rows of 5 are resisted. As many of either report nothing. A hit of
// damage 0 writes no other events (docs/MECHANICS.md, "Order of events", "Types").
#[test]
fn the_reports_before_the_first_hit() {
    play_each(
        "move        | types         | known                   | told
         Thunderbolt | Water Flying  | through_types           | super two
         Ice Beam    | Dragon Flying | through_types           | super two
         Low Kick    | Normal Normal | through_types           | super two
         Low Kick    | Normal Rock   | through_types           | super two
         Leech Life  | Poison Normal | through_types           | super two
         Sludge      | Poison Ground | through_types, critical | crit two, resisted two
         Solar Beam  | Grass Grass   | through_types, critical | crit two, resisted two
         Strength    | Rock Normal   | through_types, critical | crit two, resisted two
         Thunderbolt | Grass Normal  | through_types, critical | crit two, resisted two
         Leech Life  | Ghost Normal  | through_types, critical | crit two, resisted two
         Ice Beam    | Water Flying  | through_types           |
         Solar Beam  | Water Flying  | through_types           |
         Earthquake  | Grass Poison  | through_types           |
         Strength    | Normal Normal | through_types           |
         Strength    | Ghost Poison  | through_types           |
         Thunderbolt | Water Flying  | critical                |",
        "single; two.types $types; knowing $known; sweep 0; hits $move; told $told",
    );
}

// Recoil is a quarter of what landed. The user's own Substitute doesn't take it.
#[test]
fn recoil() {
    play_each(
        "hp  | damage | user | told
         353 | 100    | 328  | damage two 253/353, damage one 328/353 by recoil
         353 | 3      | 352  | damage two 350/353, damage one 352/353 by recoil
         50  | 100    | 341  | damage two 0/353, damage one 341/353 by recoil
         353 | 4      | 352  | damage two 349/353, damage one 352/353 by recoil",
        "single; two.hp $hp; one.substitute 88; last $damage; sweep 0; hits Take Down; told $told; is one.hp $user, one.substitute 88",
    );
}

// Damage of 88 leaves a Substitute of 88 HP at 0, and a quarter of it is 22. Damage of 89 breaks it, and then there is none.
#[test]
fn recoil_comes_unless_a_substitute_broke() {
    play_each(
        "damage | user | knows
         88     | 331  | made 1
         89     | 353  | broke, made 1
         256    | 353  | broke, made 1",
        "single; two.substitute 88; last $damage; sweep 0; hits Submission; knows $knows; is one.hp $user, two.hp 353",
    );
}

// Half of what landed is healed, at least 1, and becomes the last damage. A full user drains without an event.
#[test]
fn drain() {
    play_each(
        "foe | damage | user | after | last | told
         353 | 100    | 300  | 350   | 50   | damage two 253/353, heal one 350/353
         353 | 1      | 100  | 101   | 1    | damage two 352/353, heal one 101/353
         30  | 100    | 200  | 215   | 15   | damage two 0/353, heal one 215/353
         353 | 100    | 330  | 353   | 50   | damage two 253/353, heal one 353/353",
        "single; two.hp $foe; one.hp $user; last $damage; sweep 0; hits Mega Drain; told $told; is one.hp $after, last $last
         single; two.hp $foe; one.hp $user; last $damage; sweep 0; hits Dream Eater; told $told; is one.hp $after, last $last",
    );
    play(
        "single; last 40; sweep 0; hits Absorb; told damage two 313/353; is last 20
         single; one.hp 100; two.substitute 20; last 40; sweep 0; hits Leech Life; told end two Substitute; is one.hp 100, last 40",
    );
}

// The user falls, and loses its status and its seed. It lives if it breaks a Substitute, and falls if that holds.
#[test]
fn an_exploding_user() {
    play(
        "single; one.status psn; one.flag seeded; last 200; equal 9; hits Explosion; told damage two 153/353; draws 0; is one.hp 0, one.status none, one.flag seeded off
         single; two.substitute 88; last 88; sweep 0; hits Self-Destruct; is one.hp 0, two.hp 353
         single; two.substitute 88; last 89; sweep 0; hits Self-Destruct; is one.hp 353, two.hp 353",
    );
}

// A one-hit move, on HP and on a Substitute (docs/MECHANICS.md, "Fixed damage and one-hit moves").
#[test]
fn a_one_hit_move_tells_what_it_is() {
    play(
        "single; last 65535; sweep 0; hits Guillotine; told damage two 0/353, ohko
         single; two.substitute 88; last 65535; sweep 0; hits Guillotine; told end two Substitute, ohko",
    );
}

// Rage starts where it first lands (docs/MECHANICS.md, "Going on").
#[test]
fn rage_starts_where_it_lands() {
    play(
        "single; last 20; sweep 0; hits Rage; told damage two 333/353, start one Rage
         last 20; knowing; hits Rage; told damage two 313/353; is one.flag rage",
    );
}

// The foe's Rage builds at each hit, also behind a Substitute that holds or breaks, at damage of 0, and after the user exploded. A
// Tauros has an Attack of 298, which is 447 at one stage up and 596 at two (docs/MECHANICS.md, "Going on").
#[test]
fn rage_builds_at_each_hit() {
    play(
        "single; two.flag rage; last 10; sweep 0; hits Strength; told damage two 343/353, boost two attack 1; is two.attack 7 447
         single; two.flag rage; last 10; sweep 0; hits Double Kick; told damage two 343/353, boost two attack 1, damage two 333/353, boost two attack 1, count two 2; is two.attack 8 596
         single; two.flag rage; two.substitute 88; last 0; equal 1; hits Strength; is two.attack 7 447, one.attack 6 298
         single; two.flag rage; two.substitute 88; last 10; equal 1; hits Strength; is two.attack 7 447, one.attack 6 298
         single; two.flag rage; two.substitute 88; last 100; equal 1; hits Strength; is two.attack 7 447, one.attack 6 298
         single; two.flag rage; last 100; sweep 0; hits Explosion; is one.hp 0, two.attack 7 447",
    );
}

// Rage builds in a separate call. It builds no further than +6, and doesn't build for a member without Rage or without HP. The foe of
// the raging member takes its penalty once more: 298 becomes 149 (docs/MECHANICS.md, "Going on").
#[test]
fn rage_builds() {
    play(
        "single; two.flag rage; rage; told boost two attack 1; is two.attack 7 447
         single; two.flag rage; two.attack 12 999; rage; told; becomes
         single; rage; told; becomes
         single; two.flag rage; two.hp 0; rage; told; becomes
         single; two.flag rage; one.status brn; rage; is one.attack 6 149",
    );
}

// The foe's Rage doesn't build at a miss (docs/MECHANICS.md, "Action").
#[test]
fn a_miss() {
    play_each(
        "move
         Strength
         Double Kick
         Rage
         Take Down
         Absorb",
        "single; two.flag rage; missed_move $move; told miss one; becomes",
    );
}

// A crash goes past the user's Substitute: 353 is 97 + 1 * 256. A user with 1 HP falls (docs/MECHANICS.md, "Action").
#[test]
fn a_crash() {
    play(
        "single; one.substitute 88; missed_move Jump Kick; told miss one, damage one 352/353; bytes 3=1, 28=96
         single; one.substitute 88; missed_move High Jump Kick; told miss one, damage one 352/353; bytes 3=1, 28=96
         single; one.hp 1; two.types Ghost Normal; missed_move Jump Kick; told immune two, damage one 0/353; is one.hp 0, two.hp 353",
    );
}

// (docs/MECHANICS.md, "Action", "Recoil, drain and explosion")
#[test]
fn an_explosion_that_misses_fells_its_user() {
    play_each(
        "move
         Self-Destruct
         Explosion",
        "single; one.status par; one.flag seeded; one.substitute 88; missed_move $move; told miss one; is one.hp 0, one.status none, one.flag seeded off, one.substitute 88",
    );
}
