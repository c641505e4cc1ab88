//! What each event makes public (docs/MECHANICS.md, "What the log makes public"). Side 1 sends out Tauros (128, Normal), side 2 Starmie
//! (121, Water and Psychic).
use crate::events::Tell::{
    Activate, Boost, Cant, ClearAll, Cure, Damage, End, Faint, Fault, Heal, Move, MustRecharge,
    Prepare, Start, Status, Switch, Tie, Turn, Unboost, Win,
};
use crate::events::{CHANSEY, ONE, STARMIE, TAUROS, TWO, Tell, event};
use gen1::generated::machine::{CantReason, DamageSource, Kind, Side, Volatile};
use gen1::generated::player::{Public, PublicSide, Seen};
use gen1::generated::tables::Stat;
use std::error::Error;

// The species that are out.
pub const OUT: [u8; 2] = [TAUROS, STARMIE];

/// A name, and events with what is public after them.
#[derive(Clone, Copy)]
struct Row {
    name: &'static str,
    steps: &'static [Step],
}

#[derive(Clone, Copy)]
enum Step {
    /// Tauros with 353 HP comes out at place 1, and Starmie with 323 HP at place 3.
    Begin,
    Tells(Tell),
    /// An event this many times.
    Repeats(u16, Tell),
    Is(Fact),
    /// The conditions that are announced of a side, and no others are.
    Announced(Side, &'static [&'static str]),
    /// Nothing is public.
    Nothing,
}

#[derive(Clone, Copy, Debug, PartialEq)]
enum Fact {
    Turn(u16),
    Outcome(u8),
    Place(Side, u8),
    Types(Side, u8, u8),
    LastMove(Side, u8),
    Attack(Side, u8),
    Evasion(Side, u8),
    ToxicCount(Side, u8),
    /// Facts of the member at a place.
    Species(Side, u8, u8),
    Level(Side, u8, u8),
    Hp(Side, u8, u16),
    Max(Side, u8, u16),
    Status(Side, u8, u8),
    Slept(Side, u8, u8),
    /// The move at an index from 0, and how often it was used.
    Used(Side, u8, usize, u8, u8),
}

static PUBLIC: [Row; 21] = [
    Row {
        name: "before the first event nothing is public",
        steps: &[
            Step::Is(Fact::Place(ONE, 0)),
            Step::Is(Fact::Place(TWO, 0)),
            Step::Is(Fact::Turn(0)),
            Step::Is(Fact::Species(TWO, 1, 0)),
            Step::Tells(Damage(TWO, 12, 323, DamageSource::Direct)),
            Step::Tells(Move(TWO, 57)),
            Step::Nothing,
        ],
    },
    Row {
        name: "a switch makes the member public",
        steps: &[
            Step::Begin,
            Step::Is(Fact::Place(TWO, 3)),
            Step::Is(Fact::Species(TWO, 1, 0)),
            Step::Is(Fact::Species(TWO, 3, STARMIE)),
            Step::Is(Fact::Level(TWO, 3, 100)),
            Step::Is(Fact::Hp(TWO, 3, 323)),
            Step::Is(Fact::Max(TWO, 3, 323)),
            Step::Is(Fact::Status(TWO, 3, 0)),
            // Water is 9, Psychic 12.
            Step::Is(Fact::Types(TWO, 9, 12)),
            Step::Is(Fact::Types(ONE, 0, 0)),
        ],
    },
    Row {
        name: "moves are counted",
        steps: &[
            Step::Begin,
            Step::Tells(Move(TWO, 57)),
            Step::Tells(Move(TWO, 85)),
            Step::Tells(Move(TWO, 57)),
            Step::Is(Fact::Used(TWO, 3, 0, 57, 2)),
            Step::Is(Fact::Used(TWO, 3, 1, 85, 1)),
            Step::Is(Fact::Used(TWO, 3, 2, 0, 0)),
            Step::Is(Fact::LastMove(TWO, 57)),
            Step::Repeats(300, Move(TWO, 57)),
            Step::Is(Fact::Used(TWO, 3, 0, 57, 255)),
        ],
    },
    Row {
        name: "a move that may be going on is not counted",
        steps: &[
            Step::Begin,
            // Wrap, and again after Strength.
            Step::Tells(Move(ONE, 35)),
            Step::Tells(Move(ONE, 35)),
            Step::Is(Fact::Used(ONE, 1, 0, 35, 1)),
            Step::Tells(Move(ONE, 70)),
            Step::Tells(Move(ONE, 35)),
            Step::Is(Fact::Used(ONE, 1, 0, 35, 2)),
            // Petal Dance.
            Step::Repeats(3, Move(ONE, 80)),
            Step::Is(Fact::Used(ONE, 1, 2, 80, 1)),
            // Rage, which misses at first.
            Step::Tells(Move(TWO, 99)),
            Step::Tells(Move(TWO, 99)),
            Step::Is(Fact::Used(TWO, 3, 0, 99, 2)),
            Step::Tells(Start(TWO, Volatile::Rage)),
            Step::Repeats(3, Move(TWO, 99)),
            Step::Is(Fact::Used(TWO, 3, 0, 99, 2)),
        ],
    },
    Row {
        name: "Bide is used as it starts",
        steps: &[
            Step::Begin,
            Step::Tells(MustRecharge(ONE)),
            Step::Tells(Start(ONE, Volatile::Bide)),
            Step::Announced(ONE, &["bide"]),
            Step::Is(Fact::Used(ONE, 1, 0, 117, 1)),
            Step::Is(Fact::LastMove(ONE, 117)),
            Step::Tells(End(ONE, Volatile::Bide)),
            Step::Is(Fact::Used(ONE, 1, 0, 117, 1)),
        ],
    },
    Row {
        name: "a sixth move is not kept",
        steps: &[
            Step::Begin,
            Step::Tells(Move(ONE, 1)),
            Step::Tells(Move(ONE, 2)),
            Step::Tells(Move(ONE, 3)),
            Step::Tells(Move(ONE, 4)),
            Step::Tells(Move(ONE, 5)),
            Step::Tells(Move(ONE, 6)),
            Step::Is(Fact::Used(ONE, 1, 4, 5, 1)),
            Step::Is(Fact::LastMove(ONE, 6)),
        ],
    },
    Row {
        name: "HP and status are the last that were shown",
        steps: &[
            Step::Begin,
            Step::Tells(Damage(TWO, 100, 323, DamageSource::Direct)),
            Step::Is(Fact::Hp(TWO, 3, 100)),
            Step::Tells(Heal(TWO, 261, 323, None)),
            Step::Is(Fact::Hp(TWO, 3, 261)),
            Step::Tells(Status(TWO, Kind::Paralysis)),
            Step::Is(Fact::Status(TWO, 3, 5)),
            Step::Tells(Cure(TWO, Kind::Paralysis)),
            Step::Is(Fact::Status(TWO, 3, 0)),
            Step::Tells(Status(TWO, Kind::Burn)),
            Step::Tells(Faint(TWO)),
            Step::Is(Fact::Hp(TWO, 3, 0)),
            Step::Is(Fact::Status(TWO, 3, 0)),
        ],
    },
    Row {
        name: "stages rise and fall",
        steps: &[
            Step::Begin,
            Step::Repeats(4, Boost(ONE, Stat::Attack, 2)),
            Step::Repeats(4, Unboost(ONE, Stat::Evasion, 2)),
            Step::Is(Fact::Attack(ONE, 12)),
            Step::Is(Fact::Evasion(ONE, 0)),
            Step::Tells(ClearAll),
            Step::Is(Fact::Attack(ONE, 6)),
            Step::Is(Fact::Evasion(ONE, 6)),
        ],
    },
    Row {
        name: "each volatile is announced and ended",
        steps: &[
            Step::Begin,
            Step::Tells(Start(ONE, Volatile::Confusion)),
            Step::Tells(Start(ONE, Volatile::Bide)),
            Step::Tells(Start(ONE, Volatile::Substitute)),
            Step::Tells(Start(ONE, Volatile::LeechSeed)),
            Step::Tells(Start(ONE, Volatile::Mist)),
            Step::Tells(Start(ONE, Volatile::FocusEnergy)),
            Step::Tells(Start(ONE, Volatile::LightScreen)),
            Step::Tells(Start(ONE, Volatile::Reflect)),
            Step::Tells(Start(ONE, Volatile::Disable)),
            Step::Tells(Start(ONE, Volatile::Rage)),
            Step::Announced(
                ONE,
                &[
                    "confused",
                    "bide",
                    "substitute",
                    "seeded",
                    "mist",
                    "focus energy",
                    "light screen",
                    "reflect",
                    "disabled",
                    "rage",
                ],
            ),
            Step::Announced(TWO, &[]),
            Step::Tells(ClearAll),
            Step::Announced(ONE, &["bide", "substitute", "rage"]),
            Step::Tells(End(ONE, Volatile::Substitute)),
            Step::Tells(End(ONE, Volatile::Bide)),
            Step::Announced(ONE, &["rage"]),
            Step::Tells(Switch(ONE, CHANSEY, 2, 703, 703, None)),
            Step::Announced(ONE, &[]),
        ],
    },
    Row {
        name: "Conversion copies types",
        steps: &[
            Step::Begin,
            Step::Tells(Start(ONE, Volatile::TypeChange)),
            Step::Is(Fact::Types(ONE, 9, 12)),
        ],
    },
    Row {
        name: "poison by Toxic is bad poison",
        steps: &[
            Step::Begin,
            Step::Tells(Move(TWO, 40)),
            Step::Tells(Status(ONE, Kind::Poison)),
            Step::Announced(ONE, &[]),
            Step::Tells(Move(TWO, 92)),
            Step::Tells(Status(ONE, Kind::Poison)),
            Step::Announced(ONE, &["toxic"]),
            Step::Announced(TWO, &[]),
        ],
    },
    Row {
        name: "each turn of a sleep counts",
        steps: &[
            Step::Begin,
            Step::Tells(Move(TWO, 95)),
            Step::Tells(Status(ONE, Kind::Sleep)),
            Step::Is(Fact::Slept(ONE, 1, 0)),
            Step::Repeats(2, Cant(ONE, CantReason::Asleep)),
            Step::Tells(Cant(TWO, CantReason::Flinched)),
            Step::Is(Fact::Slept(ONE, 1, 2)),
            Step::Is(Fact::Slept(TWO, 3, 0)),
            // Another sleep begins again, and one in another place is kept.
            Step::Tells(Status(ONE, Kind::Sleep)),
            Step::Is(Fact::Slept(ONE, 1, 0)),
            Step::Repeats(9, Cant(ONE, CantReason::Asleep)),
            Step::Tells(Switch(ONE, TAUROS, 2, 353, 353, None)),
            Step::Is(Fact::Slept(ONE, 1, 6)),
            Step::Tells(Switch(ONE, TAUROS, 1, 353, 353, Some(Kind::Sleep))),
            Step::Tells(Cure(ONE, Kind::Sleep)),
            Step::Is(Fact::Slept(ONE, 1, 0)),
        ],
    },
    Row {
        name: "residual damage raises the counter of bad poison",
        steps: &[
            Step::Begin,
            Step::Tells(Move(TWO, 92)),
            Step::Tells(Status(ONE, Kind::Poison)),
            Step::Is(Fact::ToxicCount(ONE, 0)),
            // The example of docs/MECHANICS.md, "Residual damage"
            Step::Tells(Damage(ONE, 331, 353, DamageSource::Poison)),
            Step::Tells(Damage(ONE, 287, 353, DamageSource::LeechSeed)),
            Step::Is(Fact::ToxicCount(ONE, 2)),
            Step::Tells(Damage(ONE, 200, 353, DamageSource::Direct)),
            Step::Tells(Damage(TWO, 300, 323, DamageSource::Burn)),
            Step::Is(Fact::ToxicCount(ONE, 2)),
            Step::Is(Fact::ToxicCount(TWO, 0)),
            // A burn after a rest is worse too, and a new Toxic begins again.
            Step::Tells(Damage(ONE, 134, 353, DamageSource::Burn)),
            Step::Is(Fact::ToxicCount(ONE, 3)),
            Step::Tells(Status(ONE, Kind::Poison)),
            Step::Is(Fact::ToxicCount(ONE, 0)),
            Step::Repeats(70, Damage(ONE, 134, 353, DamageSource::Poison)),
            Step::Is(Fact::ToxicCount(ONE, 64)),
            Step::Tells(ClearAll),
            Step::Is(Fact::ToxicCount(ONE, 0)),
            Step::Announced(ONE, &[]),
        ],
    },
    Row {
        name: "recharging ends by what the log shows",
        steps: &[
            Step::Begin,
            Step::Tells(MustRecharge(ONE)),
            Step::Announced(ONE, &["recharging"]),
            Step::Tells(Cant(ONE, CantReason::Recharging)),
            Step::Announced(ONE, &[]),
            Step::Tells(MustRecharge(ONE)),
            Step::Announced(ONE, &["recharging"]),
            Step::Tells(Cant(ONE, CantReason::Flinched)),
            Step::Announced(ONE, &[]),
            // Its next move.
            Step::Tells(MustRecharge(ONE)),
            Step::Announced(ONE, &["recharging"]),
            Step::Tells(Move(ONE, 63)),
            Step::Announced(ONE, &[]),
            // The first turn of its next move.
            Step::Tells(MustRecharge(ONE)),
            Step::Tells(Prepare(ONE, 13)),
            Step::Announced(ONE, &["charging"]),
            Step::Tells(Move(ONE, 13)),
            // Sleep Powder and Wrap of the foe.
            Step::Tells(MustRecharge(ONE)),
            Step::Announced(ONE, &["recharging"]),
            Step::Tells(Move(TWO, 79)),
            Step::Announced(ONE, &[]),
            Step::Tells(MustRecharge(ONE)),
            Step::Announced(ONE, &["recharging"]),
            Step::Tells(Move(TWO, 35)),
            Step::Announced(ONE, &[]),
            Step::Tells(MustRecharge(ONE)),
            Step::Announced(ONE, &["recharging"]),
            Step::Tells(Status(ONE, Kind::Freeze)),
            Step::Announced(ONE, &[]),
            // Thunder Wave doesn't end it.
            Step::Tells(MustRecharge(ONE)),
            Step::Tells(Move(TWO, 86)),
            Step::Announced(ONE, &["recharging"]),
        ],
    },
    Row {
        name: "charging ends by what the log shows",
        steps: &[
            Step::Begin,
            // Razor Wind.
            Step::Tells(Prepare(ONE, 13)),
            Step::Announced(ONE, &["charging"]),
            Step::Tells(Move(ONE, 13)),
            Step::Announced(ONE, &[]),
            Step::Tells(Prepare(ONE, 13)),
            Step::Announced(ONE, &["charging"]),
            Step::Tells(Cant(ONE, CantReason::Disabled)),
            Step::Announced(ONE, &[]),
            Step::Tells(Prepare(ONE, 13)),
            Step::Announced(ONE, &["charging"]),
            Step::Tells(Cant(ONE, CantReason::Paralysed)),
            Step::Announced(ONE, &[]),
            Step::Tells(Prepare(ONE, 13)),
            Step::Announced(ONE, &["charging"]),
            Step::Tells(Damage(ONE, 300, 353, DamageSource::Confusion)),
            Step::Announced(ONE, &[]),
            Step::Tells(Prepare(ONE, 13)),
            Step::Tells(Damage(ONE, 290, 353, DamageSource::Direct)),
            Step::Announced(ONE, &["charging"]),
        ],
    },
    Row {
        name: "a prepared move is seen and not used",
        steps: &[
            Step::Begin,
            Step::Tells(Prepare(ONE, 13)),
            Step::Is(Fact::Used(ONE, 1, 0, 13, 0)),
            Step::Is(Fact::LastMove(ONE, 13)),
            Step::Tells(Move(ONE, 13)),
            Step::Is(Fact::Used(ONE, 1, 0, 13, 1)),
            Step::Tells(Prepare(ONE, 91)),
            Step::Is(Fact::Used(ONE, 1, 0, 13, 1)),
            Step::Is(Fact::Used(ONE, 1, 1, 91, 0)),
            Step::Is(Fact::LastMove(ONE, 91)),
        ],
    },
    Row {
        name: "Fly and Dig hide their user until a charged move strikes",
        steps: &[
            Step::Begin,
            Step::Tells(Prepare(ONE, 19)),
            Step::Announced(ONE, &["charging", "invulnerable"]),
            Step::Tells(Move(ONE, 19)),
            Step::Announced(ONE, &[]),
            Step::Tells(Prepare(ONE, 91)),
            Step::Tells(Cant(ONE, CantReason::Paralysed)),
            Step::Announced(ONE, &["invulnerable"]),
            // Strength, and then Razor Wind.
            Step::Tells(Move(ONE, 70)),
            Step::Announced(ONE, &["invulnerable"]),
            Step::Tells(Prepare(ONE, 13)),
            Step::Announced(ONE, &["charging", "invulnerable"]),
            Step::Tells(Move(ONE, 13)),
            Step::Announced(ONE, &[]),
            Step::Tells(Prepare(ONE, 91)),
            Step::Tells(Damage(ONE, 300, 353, DamageSource::Confusion)),
            Step::Announced(ONE, &[]),
            Step::Tells(Prepare(ONE, 91)),
            Step::Tells(Switch(ONE, CHANSEY, 2, 703, 703, None)),
            Step::Announced(ONE, &[]),
        ],
    },
    Row {
        name: "a hit on itself behind its own Substitute shows by the next event",
        steps: &[
            Step::Begin,
            Step::Tells(Start(ONE, Volatile::Substitute)),
            Step::Tells(Start(ONE, Volatile::Bide)),
            Step::Tells(Prepare(ONE, 91)),
            Step::Tells(Activate(ONE, Volatile::Confusion)),
            Step::Announced(ONE, &["substitute", "bide", "charging", "invulnerable"]),
            // The hit landed on nothing.
            Step::Tells(Turn(2)),
            Step::Announced(ONE, &["substitute"]),
            Step::Tells(Start(ONE, Volatile::Bide)),
            Step::Tells(Activate(ONE, Volatile::Confusion)),
            // It landed on the Substitute of the foe.
            Step::Tells(Activate(TWO, Volatile::Substitute)),
            Step::Announced(ONE, &["substitute"]),
            Step::Tells(Start(ONE, Volatile::Bide)),
            Step::Tells(Activate(ONE, Volatile::Confusion)),
            // Its poison, after the hit.
            Step::Tells(Damage(ONE, 300, 353, DamageSource::Poison)),
            Step::Announced(ONE, &["substitute"]),
        ],
    },
    Row {
        name: "a confused member that acts has not hit itself",
        steps: &[
            Step::Begin,
            Step::Tells(Start(ONE, Volatile::Substitute)),
            Step::Tells(Start(ONE, Volatile::Bide)),
            Step::Tells(Activate(ONE, Volatile::Confusion)),
            Step::Tells(Activate(ONE, Volatile::Bide)),
            Step::Announced(ONE, &["substitute", "bide"]),
            // Disable leaves Bide on.
            Step::Tells(Activate(ONE, Volatile::Confusion)),
            Step::Tells(Cant(ONE, CantReason::Disabled)),
            Step::Announced(ONE, &["substitute", "bide"]),
            Step::Tells(Activate(ONE, Volatile::Confusion)),
            Step::Tells(End(ONE, Volatile::Bide)),
            Step::Announced(ONE, &["substitute"]),
            // Full paralysis leaves it out of reach.
            Step::Tells(Prepare(ONE, 91)),
            Step::Tells(Activate(ONE, Volatile::Confusion)),
            Step::Tells(Cant(ONE, CantReason::Paralysed)),
            Step::Announced(ONE, &["substitute", "invulnerable"]),
        ],
    },
    Row {
        name: "without a Substitute a hit on itself is reported",
        steps: &[
            Step::Begin,
            Step::Tells(Start(ONE, Volatile::Bide)),
            Step::Tells(Activate(ONE, Volatile::Confusion)),
            Step::Tells(Turn(2)),
            Step::Announced(ONE, &["bide"]),
        ],
    },
    Row {
        name: "turn and outcome are public",
        steps: &[
            Step::Begin,
            Step::Tells(Turn(7)),
            Step::Is(Fact::Turn(7)),
            Step::Is(Fact::Outcome(0)),
            Step::Tells(Win(TWO)),
            Step::Is(Fact::Outcome(2)),
            Step::Tells(Tie),
            Step::Is(Fact::Outcome(3)),
            Step::Tells(Fault(2)),
            Step::Is(Fact::Outcome(5)),
        ],
    },
];

#[test]
fn what_is_public() -> Result<(), Box<dyn Error>> {
    for row in PUBLIC {
        take_all(row.steps, row.name)?;
    }
    Ok(())
}

fn take_all(steps: &[Step], name: &str) -> Result<(), Box<dyn Error>> {
    let mut public = Public::new();
    for (number, step) in steps.iter().enumerate() {
        take(&mut public, *step, (name, number))?;
    }
    Ok(())
}

fn take(public: &mut Public, step: Step, at: (&str, usize)) -> Result<(), Box<dyn Error>> {
    match step {
        Step::Begin => {
            public.apply(&event(Switch(ONE, TAUROS, 1, 353, 353, None), OUT)?);
            public.apply(&event(Switch(TWO, STARMIE, 3, 323, 323, None), OUT)?);
        }
        Step::Tells(tell) => public.apply(&event(tell, OUT)?),
        Step::Repeats(times, tell) => {
            let event = event(tell, OUT)?;
            for _ in 0..times {
                public.apply(&event);
            }
        }
        Step::Is(fact) => assert_eq!(found(public, fact), fact, "in {at:?}"),
        Step::Announced(side, names) => {
            for (name, is_on) in announced(side_of(public, side)) {
                let expected = if is_in(names, name) { 1u8 } else { 0 };
                assert_eq!(is_on, expected, "{name} in {at:?}");
            }
        }
        Step::Nothing => assert_eq!(*public, Public::new(), "in {at:?}"),
    }
    Ok(())
}

fn side_of(public: &Public, side: Side) -> &PublicSide {
    match side {
        Side::One => &public.one,
        Side::Two => &public.two,
    }
}

// The fact with the values that are public.
fn found(public: &Public, fact: Fact) -> Fact {
    match fact {
        Fact::Turn(_) => Fact::Turn(public.turn),
        Fact::Outcome(_) => Fact::Outcome(public.outcome),
        Fact::Place(side, _) => Fact::Place(side, side_of(public, side).place),
        Fact::Types(side, ..) => {
            let it = side_of(public, side);
            Fact::Types(side, it.first_type, it.second_type)
        }
        Fact::LastMove(side, _) => Fact::LastMove(side, side_of(public, side).last_move),
        Fact::Attack(side, _) => Fact::Attack(side, side_of(public, side).stages.attack),
        Fact::Evasion(side, _) => Fact::Evasion(side, side_of(public, side).stages.evasion),
        Fact::ToxicCount(side, _) => {
            Fact::ToxicCount(side, side_of(public, side).announced.toxic_count)
        }
        _ => found_member(public, fact),
    }
}

fn seen(public: &Public, side: Side, place: u8) -> Seen {
    side_of(public, side).member(place)
}

fn found_member(public: &Public, fact: Fact) -> Fact {
    match fact {
        Fact::Species(side, place, _) => {
            Fact::Species(side, place, seen(public, side, place).species)
        }
        Fact::Level(side, place, _) => Fact::Level(side, place, seen(public, side, place).level),
        Fact::Hp(side, place, _) => Fact::Hp(side, place, seen(public, side, place).hp),
        Fact::Max(side, place, _) => Fact::Max(side, place, seen(public, side, place).max),
        Fact::Status(side, place, _) => Fact::Status(side, place, seen(public, side, place).status),
        Fact::Slept(side, place, _) => Fact::Slept(side, place, seen(public, side, place).slept),
        Fact::Used(side, place, index, ..) => match seen(public, side, place).moves.get(index) {
            Some(it) => Fact::Used(side, place, index, it.id, it.uses),
            None => Fact::Turn(0),
        },
        other => other,
    }
}

// Each condition by its name.
fn announced(side: &PublicSide) -> [(&'static str, u8); 14] {
    let on = side.announced;
    [
        ("substitute", on.substitute),
        ("confused", on.confused),
        ("mist", on.mist),
        ("focus energy", on.focus_energy),
        ("light screen", on.light_screen),
        ("reflect", on.reflect),
        ("seeded", on.seeded),
        ("toxic", on.toxic),
        ("disabled", on.disabled),
        ("rage", on.rage),
        ("bide", on.bide),
        ("charging", on.charging),
        ("recharging", on.recharging),
        ("invulnerable", side.invulnerable),
    ]
}

fn is_in(names: &[&'static str], name: &'static str) -> bool {
    for other in names {
        if *other == name {
            return true;
        }
    }
    false
}
