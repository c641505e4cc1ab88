//! Export texts (docs/TEAM_TEXT.md, "Export text", "Names", "EVs and experience", "IVs and DVs", "Faults").
use crate::comparing::{Written, assert_written, stats};
use gen1::generated::stats::TeamRefusal;
use gen1::generated::text::{
    MemberFault, TextFault, members_in_text, move_called, species_called, team_in_text,
};
use std::error::Error;

// From a team builder: with a title, trailing blanks, and lines that the first generation doesn't have.
const TWO_MEMBERS: &[u8] = b"=== [gen1ou] Untitled 1 ===

Starmie
Ability: No Ability
- Thunder Wave
- Psychic
- Blizzard
- Recover

Bob (Tauros) (M)
Ability: No Ability
Level: 88
Shiny: Yes
Serious Nature
EVs: 252 HP / 4 Atk / 100 SpA / 100 SpD
IVs: 6 HP / 0 Atk / 20 Def
- Body Slam
- double-edge
";

static MEMBERS: [(&[u8], &[Written]); 5] = [
    (
        TWO_MEMBERS,
        &[
            (
                "Starmie",
                100,
                [15; 4],
                [63504; 5],
                &["Thunder Wave", "Psychic", "Blizzard", "Recover"],
            ),
            (
                "Tauros",
                88,
                [0, 10, 15, 15],
                [63504, 16, 0, 0, 10000],
                &["Body Slam", "Double-Edge"],
            ),
        ],
    ),
    // names in any form
    (
        b"MR MIME\n- ACIDARMOR",
        &[("Mr. Mime", 100, [15; 4], [63504; 5], &["Acid Armor"])],
    ),
    (
        b"mrmime\n-acid-armor",
        &[("Mr. Mime", 100, [15; 4], [63504; 5], &["Acid Armor"])],
    ),
    (
        b"Nick (the) name (Mr. Mime)\n-  Acid Armor",
        &[("Mr. Mime", 100, [15; 4], [63504; 5], &["Acid Armor"])],
    ),
    (
        b"Farfetch'd\n- Vise Grip\n- Hi Jump Kick\n- Softboiled",
        &[(
            "Farfetchd",
            100,
            [15; 4],
            [63504; 5],
            &["Vice Grip", "High Jump Kick", "Soft-Boiled"],
        )],
    ),
];

#[test]
fn members_as_they_are_read() -> Result<(), Box<dyn Error>> {
    for (text, written) in MEMBERS {
        let members = members_in_text(text)?;
        assert_written(members.as_slice(), written)?;
    }
    Ok(())
}

#[test]
fn stats_as_they_are_shown() -> Result<(), Box<dyn Error>> {
    assert_eq!(last_stats(TWO_MEMBERS)?, [290, 181, 189, 225, 176]);
    assert_eq!(
        last_stats(b"Tauros\r\n- Tackle")?,
        [353, 298, 288, 318, 238],
    );
    Ok(())
}

// The stats of the last member.
fn last_stats(text: &[u8]) -> Result<[u16; 5], Box<dyn Error>> {
    let team = team_in_text(text)?;
    Ok(stats(team.members().last().ok_or("no member")?))
}

// A text, and the numbers of the species and of the move with this name, or 0.
static NAMES: [(&[u8], u8, u8); 4] = [
    (b" mr.MIME", 122, 0),
    (b"", 0, 0),
    (b"SELFDESTRUCT", 0, 120),
    (b"Roost", 0, 0),
];

#[test]
fn names_alone() {
    for (text, species, id) in NAMES {
        assert_eq!(species_number(text), species, "at {text:?}");
        assert_eq!(move_number(text), id, "at {text:?}");
    }
}

fn species_number(text: &[u8]) -> u8 {
    match species_called(text) {
        Some(species) => species.number(),
        None => 0,
    }
}

fn move_number(text: &[u8]) -> u8 {
    match move_called(text) {
        Some(id) => id.number(),
        None => 0,
    }
}

/// A text, the line of its fault, and the fault.
static FAULTS: [(&[u8], usize, MemberFault); 22] = [
    // first lines
    (b"\n\nMissingno", 3, MemberFault::Species),
    (b"Tauros (Bob)", 1, MemberFault::Species),
    (b"Tauros @ Leftovers\n- Tackle", 1, MemberFault::Item),
    (
        b"Mew\n\nMew\n\nMew\n\nMew\n\nMew\n\nMew\n\nMew\n- Fly",
        13,
        MemberFault::SeventhMember,
    ),
    // levels
    (b"Mew\nLevel: 0", 2, MemberFault::Level),
    (b"Mew\nLevel: 101", 2, MemberFault::Level),
    (b"Mew\nLevel:", 2, MemberFault::Level),
    (b"Mew\nLevel: 5x", 2, MemberFault::Level),
    (b"Mew\nLevel: 4294967297", 2, MemberFault::Level),
    // moves
    (b"Mew\n- Tackel", 2, MemberFault::Move),
    (b"Mew\n- ", 2, MemberFault::Move),
    (
        b"Mew\n- Fly\n- Dig\n- Cut\n- Surf\n- Wrap",
        6,
        MemberFault::FifthMove,
    ),
    (b"Mew\n- Fly\nLevle: 5", 3, MemberFault::UnknownLine),
    // spreads
    (b"Mew\nEVs: 256 HP", 2, MemberFault::Evs),
    (b"Mew\nEVs: 252", 2, MemberFault::Evs),
    (b"Mew\nEVs: 252 Attack", 2, MemberFault::Evs),
    (b"Mew\nEVs: 252 HP /", 2, MemberFault::Evs),
    (b"Mew\nEVs: -1 HP", 2, MemberFault::Evs),
    (b"Mew\nEVs: 252 SpA / 4 SpD", 2, MemberFault::SpecialEvs),
    (b"Mew\nIVs: 32 HP", 2, MemberFault::Ivs),
    (b"Mew\nIVs: 30 SpA / 28 SpD", 2, MemberFault::SpecialIvs),
    (b"Mew\nIVs: 30 HP / 0 Atk", 2, MemberFault::HpIv),
];

static REFUSALS: [(&[u8], TeamRefusal); 3] = [
    (b"", TeamRefusal::Empty),
    (b" \n\r\n", TeamRefusal::Empty),
    (
        b"Mew\n- Fly\n\nMew\n- Fly\n- fly",
        TeamRefusal::RepeatedMove(2),
    ),
];

fn fault_of(text: &[u8]) -> Option<TextFault> {
    team_in_text(text).err()
}

#[test]
fn faults_of_lines_and_teams() {
    for (text, line, fault) in FAULTS {
        assert_eq!(
            fault_of(text),
            Some(TextFault::Line { line, fault }),
            "at {text:?}"
        );
    }
    for (text, refusal) in REFUSALS {
        assert_eq!(
            fault_of(text),
            Some(TextFault::Team(refusal)),
            "at {text:?}"
        );
    }
}

#[test]
fn faults_in_words() -> Result<(), Box<dyn Error>> {
    for (text, words) in [
        (
            b"Mew\nLevel: 0".as_slice(),
            "line 2: expected a level from 1 to 100",
        ),
        (b"Mew".as_slice(), "member 1: there is no move"),
    ] {
        let fault = fault_of(text).ok_or("a fault")?;
        let printed = format!("{fault}");
        assert_eq!(printed.as_str(), words);
    }
    Ok(())
}
