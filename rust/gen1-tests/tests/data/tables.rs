//! Ten rows of each table, and names and numbers that aren't in it (docs/TABLES.md).
use gen1::generated::tables::Effect::{
    ChargeInvulnerable, DamageOnly, FixedDamage, OneHitKnockOut, ParalysisChance, PoisonChance,
    Recoil, StatDown, StatDownChance, StatUp,
};
use gen1::generated::tables::Element::{
    Bug, Dragon, Electric, Fighting, Fire, Flying, Ghost, Grass, Ground, Ice, Normal, Poison,
    Psychic, Rock, Water,
};
use gen1::generated::tables::Stat::{Attack, Defense};
use gen1::generated::tables::{
    COUNTER, Effect, Element, MoveId, STRUGGLE, Species, effectiveness, type_rows,
};

static SPECIES: [(u8, &str, [Element; 2], [u8; 5]); 10] = [
    (1, "Bulbasaur", [Grass, Poison], [45, 49, 49, 45, 65]),
    (6, "Charizard", [Fire, Flying], [78, 84, 78, 100, 85]),
    (25, "Pikachu", [Electric, Electric], [35, 55, 30, 90, 50]),
    (29, "Nidoran-F", [Poison, Poison], [55, 47, 52, 41, 40]),
    (62, "Poliwrath", [Water, Fighting], [90, 85, 95, 70, 70]),
    (83, "Farfetchd", [Normal, Flying], [52, 65, 55, 60, 58]),
    (113, "Chansey", [Normal, Normal], [250, 5, 5, 50, 105]),
    (122, "Mr. Mime", [Psychic, Psychic], [40, 45, 65, 90, 100]),
    (128, "Tauros", [Normal, Normal], [75, 100, 95, 110, 70]),
    (151, "Mew", [Psychic, Psychic], [100, 100, 100, 100, 100]),
];

// Rows of species (docs/TABLES.md, "Species").
#[test]
fn ten_species() {
    for (number, name, types, base) in SPECIES {
        check_species(number, name, types, base);
    }
    assert_eq!(Species::default().name(), "Bulbasaur");
}

fn check_species(number: u8, name: &str, types: [Element; 2], base: [u8; 5]) {
    let species = Species::new(number).expect("no species has the number");
    assert_eq!(species.number(), number);
    assert_eq!(species.name(), name);
    assert_eq!((name, Species::from_name(name)), (name, Some(species)));
    assert_eq!((name, species.types()), (name, types));
    assert_eq!((name, species.base()), (name, base));
}

static MOVES: [(u8, &str, Element, u8, u8, u8, Effect); 10] = [
    (1, "Pound", Normal, 40, 255, 35, DamageOnly),
    (12, "Guillotine", Normal, 1, 76, 5, OneHitKnockOut),
    (14, "Swords Dance", Normal, 0, 255, 30, StatUp(Attack, 2)),
    (19, "Fly", Flying, 70, 242, 15, ChargeInvulnerable),
    (51, "Acid", Poison, 40, 255, 30, StatDownChance(Defense)),
    (101, "Night Shade", Ghost, 0, 255, 15, FixedDamage),
    (103, "Screech", Normal, 0, 216, 40, StatDown(Defense, 2)),
    (122, "Lick", Ghost, 20, 255, 30, ParalysisChance(77)),
    (124, "Sludge", Poison, 65, 255, 20, PoisonChance(103)),
    (165, "Struggle", Normal, 50, 255, 10, Recoil),
];

// Rows of moves, with their effects (docs/TABLES.md, "Moves", "Effects").
#[test]
fn ten_moves() {
    for (number, name, kind, power, accuracy, pp, effect) in MOVES {
        check_name(number, name);
        let id = MoveId::new(number).expect("no move has the number");
        assert_eq!(
            (number, (id.kind(), id.power(), id.accuracy_byte(), id.pp())),
            (number, (kind, power, accuracy, pp)),
        );
        assert_eq!((number, id.effect()), (number, effect));
    }
    assert_eq!(MoveId::default().name(), "Pound");
}

fn check_name(number: u8, name: &str) {
    let id = MoveId::new(number).expect("no move has the number");
    assert_eq!(id.number(), number);
    assert_eq!(id.name(), name);
    assert_eq!((name, MoveId::from_name(name)), (name, Some(id)));
}

static TYPE_ROWS: [(usize, (Element, Element, u8)); 10] = [
    (0, (Water, Fire, 20)),
    (6, (Ground, Flying, 0)),
    (12, (Psychic, Psychic, 5)),
    (18, (Normal, Ghost, 0)),
    (23, (Electric, Ground, 0)),
    (41, (Fighting, Ghost, 0)),
    (45, (Poison, Bug, 20)),
    (67, (Bug, Poison, 20)),
    (75, (Ghost, Psychic, 0)),
    (81, (Dragon, Dragon, 20)),
];

// Rows of the type chart (docs/TABLES.md, "Type rows").
#[test]
fn ten_type_rows() {
    for (place, row) in TYPE_ROWS {
        assert_eq!((place, type_rows().get(place)), (place, Some(&row)));
    }
}

static AGAINST_A_FOE: [(Element, Element, Element, (u8, u8)); 9] = [
    (Ice, Water, Flying, (5, 20)),
    (Ice, Flying, Water, (5, 20)),
    (Grass, Water, Flying, (20, 5)),
    (Ghost, Ghost, Psychic, (20, 0)),
    (Rock, Fire, Flying, (20, 20)),
    (Electric, Ground, Flying, (0, 20)),
    (Fire, Fire, Fire, (5, 10)),
    (Normal, Normal, Flying, (10, 10)),
    (Dragon, Dragon, Flying, (20, 10)),
];

// The first and the last physical and special type (docs/TABLES.md, "Types").
#[test]
fn rows_against_a_foe() {
    for (kind, first, second, tenths) in AGAINST_A_FOE {
        let found = effectiveness(kind, first, second);
        assert_eq!((kind, found), (kind, tenths));
    }
}

#[test]
fn effects() {
    assert!(Effect::Explode.explodes());
    assert!(Effect::Charge.charges());
    assert!(Effect::ChargeInvulnerable.charges());
    assert!(Effect::Trapping.traps());
    assert!(Effect::Thrash.thrashes());
    assert!(Effect::Bide.bides());
    assert!(Effect::Recharge.recharges());
    assert!(Effect::Rage.rages());
    assert!(!Effect::Recoil.recharges());
}

#[test]
fn moves_by_number() {
    check_name(COUNTER, "Counter");
    check_name(STRUGGLE, "Struggle");
}

static TYPES: [(Element, u8, bool); 4] = [
    (Normal, 0, false),
    (Ghost, 7, false),
    (Fire, 8, true),
    (Dragon, 14, true),
];

#[test]
fn types() {
    for (kind, number, special) in TYPES {
        assert_eq!(kind.number(), number);
        assert_eq!(kind.is_special(), special);
    }
}

static NO_NAMES: [&str; 7] = ["", "Poun", "Pound ", "pound", "Tauro", "Tauros ", "tauros"];

static NUMBERS: [(u8, bool, bool); 6] = [
    (0, false, false),
    (151, true, true),
    (152, false, true),
    (165, false, true),
    (166, false, false),
    (255, false, false),
];

// Names and numbers of no species or move, one letter or one number off (docs/TABLES.md, "Species", "Moves").
#[test]
fn refused_names_and_numbers() {
    for text in NO_NAMES {
        assert_eq!((text, MoveId::from_name(text)), (text, None));
        assert_eq!((text, Species::from_name(text)), (text, None));
    }
    for (number, species, id) in NUMBERS {
        assert_eq!((number, Species::new(number).is_some()), (number, species),);
        assert_eq!((number, MoveId::new(number).is_some()), (number, id));
    }
}
