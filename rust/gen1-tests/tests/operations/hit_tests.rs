//! What is known of an action, critical draws and hit tests (docs/MECHANICS.md, "Critical hits", "Hit test", "Action", "Kept
//! accuracy"). Each draw is that of a sweep and of link numbers.
use crate::comparing::{FOE, USER, assert_told, named, species};
use crate::script::{play, set_up};
use gen1::generated::hits::{Known, critical_bound, note_miss};
use gen1::generated::machine::{Event, EventList};
use gen1::generated::tables::Element::{
    self, Bug, Dragon, Electric, Fighting, Fire, Flying, Ghost, Grass, Ground, Ice, Normal, Poison,
    Psychic, Rock, Water,
};
use std::error::Error;

#[test]
fn an_action_begins() -> Result<(), Box<dyn Error>> {
    let last = Known {
        side: USER,
        going_on: true,
        letting_go: true,
        missed: true,
        critical: true,
        through_types: true,
        broke: true,
        hits_made: 2,
        hits_planned: Some(5),
        accuracy_tested: Some(255),
        skips: true,
    };
    let next = last.begun(FOE);
    assert_eq!((next.side, next.skips), (FOE, true));
    assert_eq!(
        [
            next.going_on,
            next.letting_go,
            next.missed,
            next.critical,
            next.through_types,
            next.broke,
        ],
        [false; 6],
    );
    assert_eq!(
        (next.hits_made, next.hits_planned, next.accuracy_tested),
        (0, None, None),
    );
    assert!(!Known::new().begun(FOE).skips);
    Ok(())
}

// 85 percent is the byte 216.
#[test]
fn a_new_action_tests_the_moves_accuracy() {
    play(
        "duel Tauros Tauros; last 75; one.trapping 3; one.kept 63
         knowing; from 215; hit_or_miss Toxic; knows tested 216; draws 1; is last 75, one.trapping 3
         knowing; from 216; hit_or_miss Toxic; knows missed, tested 216; draws 1; is last 0, one.trapping none
         knowing; from 216; hit_or_miss Toxic; knows missed, tested 216; draws 1; becomes",
    );
}

// Guillotine's 76 becomes 19 at accuracy -6, which is stored as 0.
#[test]
fn a_new_action_tests_at_its_stage() {
    play(
        "duel Tauros Tauros; last 75; one.kept 63; one.accuracy 0
         knowing; from 18; hit_or_miss Guillotine; knows tested 19; draws 1
         knowing; from 19; hit_or_miss Guillotine; knows missed, tested 19; draws 1
         knowing; from 19; hit_or_miss Guillotine; knows missed, tested 19; draws 1; becomes",
    );
}

#[test]
fn what_goes_on_tests_the_kept_accuracy() {
    play(
        "duel Tauros Tauros; last 75; one.kept 63
         knowing going_on; from 62; hit_or_miss Toxic; knows tested 63; draws 1
         knowing going_on; from 63; hit_or_miss Toxic; knows missed, tested 63; draws 1
         knowing going_on; from 63; hit_or_miss Toxic; knows missed, tested 63; draws 1; becomes",
    );
}

// Swift is settled without a draw.
#[test]
fn what_has_missed_still_has() {
    play(
        "duel Tauros Tauros; last 75; knowing missed; from 255; hit_or_miss Swift; knows tested 255; draws 0; is last 75, one.trapping none",
    );
}

#[test]
fn a_miss_ends_the_action() {
    play(
        "duel Tauros Tauros; last 75
         knowing; sweep 254; must_hit Thunder Wave; gives false; told
         knowing; sweep 255; must_hit Thunder Wave; gives true; told miss one
         two.types Rock Ground; knowing; sweep 255; must_hit Thunder Wave; gives true; told immune two
         two.types Normal Normal; two.flag invulnerable; knowing; sweep 0; must_hit Thunder Wave; gives true; told miss one",
    );
}

// A move of each type.
const MOVES: [(Element, &str); 15] = [
    (Normal, "Strength"),
    (Fighting, "Submission"),
    (Flying, "Fly"),
    (Poison, "Toxic"),
    (Ground, "Earthquake"),
    (Rock, "Rock Slide"),
    (Bug, "Twineedle"),
    (Ghost, "Lick"),
    (Fire, "Ember"),
    (Water, "Surf"),
    (Grass, "Razor Leaf"),
    (Electric, "Thunderbolt"),
    (Psychic, "Psychic"),
    (Ice, "Blizzard"),
    (Dragon, "Dragon Rage"),
];

// The type rows of 0.
const IMMUNE: [(Element, Element); 6] = [
    (Normal, Ghost),
    (Fighting, Ghost),
    (Ground, Flying),
    (Ghost, Normal),
    (Ghost, Psychic),
    (Electric, Ground),
];

#[test]
fn types_without_effect() -> Result<(), Box<dyn Error>> {
    let mut battle = set_up("duel Tauros Tauros; last 75")?;
    for (kind, name) in MOVES {
        let id = named(name)?;
        for (foe, _) in MOVES {
            let immune = IMMUNE.contains(&(kind, foe));
            for (first, second) in [(foe, foe), (foe, Dragon), (Dragon, foe)] {
                battle.put_types(FOE, first, second);
                let mut events = EventList::new();
                note_miss(&battle, USER, id, &mut events);
                let told = if immune {
                    Event::Immune(battle.who(FOE))
                } else {
                    Event::Miss(battle.who(USER))
                };
                assert_told(&events, &[told]);
            }
        }
    }
    Ok(())
}

// Bounds and draws. Rotated left by 3, the byte 7 is 56, 39 is 57, 254 is 247, 255 stays, 1 is 8, and 2 is 16.
#[test]
fn critical_hits() -> Result<(), Box<dyn Error>> {
    let persian = species("Persian")?;
    for (focused, name, bound) in [
        (false, "Slash", 255),
        (false, "Strength", 57),
        (true, "Slash", 112),
        (true, "Strength", 14),
    ] {
        assert_eq!(critical_bound(persian, focused, named(name)?), bound);
    }
    play(
        "duel Persian Tauros
         from 7; critical Strength; gives true; draws 1
         from 39; critical Strength; gives false; draws 1
         from 254; critical Slash; gives true; draws 1
         from 255; critical Slash; gives false; draws 1
         one.flag focus
         from 1; critical Strength; gives true; draws 1
         from 2; critical Strength; gives false; draws 1",
    );
    Ok(())
}

// Accuracy bytes. That of Guillotine is 76.
#[test]
fn accuracy_between_stages() {
    play(
        "duel Persian Tauros; scaled 76; gives 76
         one.accuracy 0; scaled 76; gives 19
         two.evasion 12; scaled 76; gives 4
         one.accuracy 12; scaled 255; gives 255
         one.accuracy 0; two.evasion 0; scaled 255; gives 252",
    );
}

// Draws of 254 and 255.
#[test]
fn no_draw_is_sure_to_hit() {
    play(
        "duel Persian Tauros; last 75; one.trapping 3
         from 254; hit_test Strength; gives hit 255; draws 1; is last 75, one.trapping 3
         from 255; hit_test Strength; gives miss 255; draws 1; is last 0, one.trapping none",
    );
}

// Without a draw a move misses a foe that is out of reach, a Dream Eater one that is awake, and Growl one in a mist. Swift hits.
#[test]
fn settled_without_a_draw() {
    play(
        "duel Persian Tauros; two.flag invulnerable; last 75
         from 255; hit_test Swift; gives hit 255; draws 0; is last 75
         from 0; hit_test Strength; gives miss 255; draws 0; is last 0
         from 0; hit_test Strength; gives miss 255; draws 0; becomes
         duel Persian Tauros; from 0; hit_test Dream Eater; gives miss 255; draws 0
         two.status slp 3; from 0; hit_test Dream Eater; gives hit 255; draws 1
         from 0; hit_test Growl; gives hit 255; draws 1
         two.flag mist; from 0; hit_test Growl; gives miss 255; draws 0
         from 0; hit_test Strength; gives hit 255; draws 1",
    );
}

// The byte that is kept.
#[test]
fn what_is_kept() {
    play(
        "duel Persian Tauros; one.accuracy 0
         from 62; hit_test Strength; gives hit 63; draws 1
         from 63; hit_test Strength; gives miss 63; draws 1",
    );
}
