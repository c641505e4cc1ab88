//! Packed lines, and teams written as text (docs/TEAM_TEXT.md, "Packed line", "Writing", "Faults").
use crate::comparing::{Written, assert_written, stats};
use gen1::generated::stats::TeamRefusal;
use gen1::generated::text::{
    MemberFault, PackedFault, members_in_packed, members_in_text, team_in_packed,
};
use gen1::generated::writer::{team_to_packed, team_to_text};
use std::error::Error;

const TWO_MEMBERS: &[u8] =
    b"Bob|Tauros||NoAbility|bodyslam,hyperbeam,blizzard,earthquake||,4,,,,|M|,0,,,,|S|88|255,,]Starmie||||psychic,blizzard,,thunderwave,recover|||||||\n";

static WRITTEN: [Written; 2] = [
    (
        "Tauros",
        88,
        [0, 15, 15, 15],
        [0, 16, 0, 0, 0],
        &["Body Slam", "Hyper Beam", "Blizzard", "Earthquake"],
    ),
    (
        "Starmie",
        100,
        [15; 4],
        [63504; 5],
        &["Psychic", "Blizzard", "Thunder Wave", "Recover"],
    ),
];

#[test]
fn two_members() -> Result<(), Box<dyn Error>> {
    let members = members_in_packed(TWO_MEMBERS)?;
    assert_written(members.as_slice(), &WRITTEN)?;
    Ok(())
}

#[test]
fn no_evs_at_all() -> Result<(), Box<dyn Error>> {
    let team = team_in_packed(b"Tauros||||tackle||0|||||")?;
    let [tauros] = team.members() else {
        return Err("one member")?;
    };
    // At level 100: 2 * (75 + 15) + 110, 2 * (100 + 15) + 5 and so on.
    assert_eq!(stats(tauros), [290, 235, 225, 255, 175]);
    Ok(())
}

fn fault_of(text: &[u8]) -> Option<PackedFault> {
    team_in_packed(text).err()
}

/// A line, the member and the field of its fault, and the fault.
static FAULTS: [(&[u8], usize, usize, MemberFault); 10] = [
    (
        b"Mew||||fly|||||||]Bob|Missingno|||fly|||||||",
        2,
        2,
        MemberFault::Species,
    ),
    (b"Mew||leftovers||fly|||||||", 1, 3, MemberFault::Item),
    (b"Mew||||fly,flyy|||||||", 1, 5, MemberFault::Move),
    (
        b"Mew||||fly,dig,cut,surf,wrap|||||||",
        1,
        5,
        MemberFault::FifthMove,
    ),
    (b"Mew||||fly||252,4|||||", 1, 7, MemberFault::Evs),
    (b"Mew||||fly||,,,,,,|||||", 1, 7, MemberFault::Evs),
    (b"Mew||||fly||256,,,,,|||||", 1, 7, MemberFault::Evs),
    (b"Mew||||fly||,,,252,4,|||||", 1, 7, MemberFault::SpecialEvs),
    (b"Mew||||fly||||30,0,,,,|||", 1, 9, MemberFault::HpIv),
    (b"Mew||||fly||||||200|", 1, 11, MemberFault::Level),
];

// Lines with a fault of no field.
static LINES: [(&[u8], PackedFault); 4] = [
    (b"", PackedFault::Fields { member: 1 }),
    (b"Mew||||fly|||||||]Mew", PackedFault::Fields { member: 2 }),
    (
        b"Mew||||fly|||||||]Mew||||fly|||||||]Mew||||fly|||||||]Mew||||fly|||||||]Mew||||fly|||||||]Mew||||fly|||||||]x",
        PackedFault::SeventhMember,
    ),
    (b"Mew|||||||||||", PackedFault::Team(TeamRefusal::NoMove(1))),
];

#[test]
fn faults_of_fields_and_lines() {
    for (text, member, field, fault) in FAULTS {
        let expected = PackedFault::Field {
            member,
            field,
            fault,
        };
        assert_eq!(fault_of(text), Some(expected), "at {text:?}");
    }
    for (text, fault) in LINES {
        assert_eq!(fault_of(text), Some(fault), "at {text:?}");
    }
}

#[test]
fn faults_in_words() -> Result<(), Box<dyn Error>> {
    let fault = fault_of(b"Mew||||fly||||||200|").ok_or("a fault")?;
    let printed = format!("{fault}");
    let words = "member 1, field 11: expected a level from 1 to 100";
    assert_eq!(printed.as_str(), words);
    Ok(())
}

const TEXT: &[u8] =
    b"Bob (Tauros)\nLevel: 88\nIVs: 0 Atk\n- Body Slam\n\nMr. Mime\nEVs: 255 HP / 4 Spe\n- Psychic\n- Double-Edge\n";

const EXPORT: &[u8] =
    b"Tauros\nLevel: 88\nIVs: 14 HP / 0 Atk\n- Body Slam\n\nMr. Mime\nEVs: 252 HP / 0 Atk / 0 Def / 0 SpA / 0 SpD / 4 Spe\n- Psychic\n- Double-Edge\n";

const PACKED: &[u8] =
    b"Tauros||||bodyslam||||14,0,,,,||88|]Mr. Mime||||psychic,doubleedge||252,0,0,0,0,4|||||\n";

#[test]
fn two_members_are_written() -> Result<(), Box<dyn Error>> {
    let members = members_in_text(TEXT)?;
    let export = team_to_text(members.as_slice())?;
    assert_eq!(export.as_slice(), EXPORT);
    let packed = team_to_packed(members.as_slice())?;
    assert_eq!(packed.as_slice(), PACKED);
    Ok(())
}
