//! Worked stats, the order of the refusals, and their texts (docs/MECHANICS.md, "Stats", "Teams").
use crate::comparing::spec;
use gen1::generated::stats::{
    KnownMove, Member, MemberSpec, Status, Team, TeamRefusal, hp_stat, stat,
};
use std::error::Error;

// A Tauros at level 100, with full DVs and experience, and these moves with their PP ups.
fn tauros(moves: &[(&str, u8)]) -> Result<MemberSpec, &'static str> {
    spec("Tauros", 100, [15; 4], [65535; 5], moves)
}

fn refusal_of(moves: &[(&str, u8)]) -> Result<Option<TeamRefusal>, &'static str> {
    Ok(Team::new(&[tauros(moves)?]).err())
}

// Stats and PP of a Tauros (docs/MECHANICS.md, "Stats").
#[test]
fn a_team_of_one() -> Result<(), Box<dyn Error>> {
    let team = Team::new(&[tauros(&[("Strength", 3), ("Wrap", 0)])?])?;
    let [member] = team.members() else {
        return Err("one member")?;
    };
    assert_eq!(member.species().name(), "Tauros");
    assert_eq!(member.level(), 100);
    assert_eq!(member.max_hp(), 353);
    assert_eq!(member.attack(), 298);
    assert_eq!(member.defense(), 288);
    assert_eq!(member.speed(), 318);
    assert_eq!(member.special(), stat(70, 15, 65535, 100));
    let pp = |known: &KnownMove| known.pp;
    assert_eq!(member.moves().first().map(pp), Some(24));
    assert_eq!(member.moves().last().map(pp), Some(20));
    Ok(())
}

// The HP of a Chansey (docs/MECHANICS.md, "Stats").
#[test]
fn the_most_hp() {
    let chansey = 250;
    assert_eq!(hp_stat(chansey, 15, 65535, 100), 703);
}

static ROOTS: [(u16, u16); 8] = [
    (0, 5),
    (1, 5),
    (9, 5),
    (10, 6),
    (16, 6),
    (49, 6),
    (50, 7),
    (65535, 68),
];

// Only experience: a quarter of its root, which is rounded up before, plus 5 (docs/MECHANICS.md, "Stats").
#[test]
fn roots_are_rounded_up() {
    for (exp, want) in ROOTS {
        assert_eq!((exp, stat(0, 0, exp, 100)), (exp, want));
    }
}

// At level 1, without experience (docs/MECHANICS.md, "Stats").
#[test]
fn the_least_member() {
    assert_eq!(Member::default().max_hp(), 11);
    assert_eq!(Status::default(), Status::Healthy);
}

// The first of two errors is reported (docs/MECHANICS.md, "Teams").
#[test]
fn refusals_come_in_order() -> Result<(), Box<dyn Error>> {
    assert_eq!(refusal_of(&[("Strength", 3)])?, None);
    assert_eq!(refusal_of(&[])?, Some(TeamRefusal::NoMove(1)));
    let wrong = [
        ("Strength", 4),
        ("Strength", 0),
        ("Struggle", 0),
        ("Metronome", 0),
    ];
    assert_eq!(refusal_of(&wrong)?, Some(TeamRefusal::MoveLeftOut(1)));
    assert_eq!(
        refusal_of(&wrong[..3])?,
        Some(TeamRefusal::StruggleChosen(1)),
    );
    assert_eq!(refusal_of(&wrong[..2])?, Some(TeamRefusal::RepeatedMove(1)),);
    assert_eq!(refusal_of(&wrong[..1])?, Some(TeamRefusal::PpUps(1)));
    Ok(())
}

// No member, seven members, and the first of several refusals (docs/MECHANICS.md, "Teams").
#[test]
fn refusals_of_members() -> Result<(), Box<dyn Error>> {
    assert_eq!(Team::new(&[]).err(), Some(TeamRefusal::Empty));
    let mut members = Vec::new();
    for _ in 0..7 {
        members.push(tauros(&[("Strength", 0)])?);
    }
    assert_eq!(
        Team::new(members.as_slice()).err(),
        Some(TeamRefusal::TooMany),
    );
    let mut second = tauros(&[("Strength", 0)])?;
    second.level = 0;
    second.dvs = [16; 4];
    let mut third = tauros(&[])?;
    third.dvs = [0, 0, 0, 16];
    let refusal = Team::new(&[tauros(&[("Strength", 0)])?, second, third]).err();
    assert_eq!(refusal, Some(TeamRefusal::Level(2)));
    Ok(())
}

static REFUSALS: [(TeamRefusal, u8, u8, &str); 9] = [
    (TeamRefusal::Empty, 1, 0, "the team has no member"),
    (
        TeamRefusal::TooMany,
        2,
        0,
        "the team has more than six members",
    ),
    (
        TeamRefusal::Level(1),
        3,
        1,
        "member 1: the level is not 1 to 100",
    ),
    (TeamRefusal::Dv(2), 4, 2, "member 2: a DV is above 15"),
    (TeamRefusal::NoMove(3), 5, 3, "member 3: there is no move"),
    (
        TeamRefusal::MoveLeftOut(4),
        6,
        4,
        "member 4: a move is left out of the engine",
    ),
    (
        TeamRefusal::StruggleChosen(5),
        7,
        5,
        "member 5: Struggle can't be chosen",
    ),
    (
        TeamRefusal::RepeatedMove(6),
        8,
        6,
        "member 6: a move stands twice",
    ),
    (
        TeamRefusal::PpUps(1),
        9,
        1,
        "member 1: a move has more than three PP ups",
    ),
];

// Number, place and text of each refusal (docs/MECHANICS.md, "Teams").
#[test]
fn refusals_in_numbers_and_words() -> Result<(), Box<dyn Error>> {
    for (refusal, number, place, text) in REFUSALS {
        assert_eq!(refusal.number(), number);
        assert_eq!(refusal.place(), place);
        let printed = format!("{refusal}");
        assert_eq!(printed.as_str(), text);
    }
    Ok(())
}

static STATUSES: [(Status, bool, bool); 6] = [
    (Status::Healthy, true, false),
    (
        Status::Asleep {
            turns: 2,
            marked: false,
        },
        false,
        true,
    ),
    (Status::Poisoned, false, false),
    (Status::Burned, false, false),
    (Status::Frozen, false, true),
    (Status::Paralysed, false, false),
];

#[test]
fn what_ails_a_member() {
    for (status, healthy, kept_from_acting) in STATUSES {
        assert_eq!(
            (status.is_healthy(), status.sleeps_or_freezes()),
            (healthy, kept_from_acting),
        );
    }
}
