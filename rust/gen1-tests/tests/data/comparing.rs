//! What the tests compare, the member of the tests of bytes, and the seed of their battles.
use arrayvec::ArrayVec;
use gen1::generated::stats::{Member, MemberSpec};
use gen1::generated::tables::{MoveId, Species};

/// The specification of a member, with the PP ups of each move.
pub(crate) fn spec(
    species: &str,
    level: u8,
    dvs: [u8; 4],
    exp: [u16; 5],
    moves: &[(&str, u8)],
) -> Result<MemberSpec, &'static str> {
    let mut chosen = ArrayVec::new();
    for &(name, ups) in moves {
        let id = MoveId::from_name(name).ok_or("no such move")?;
        if chosen.try_push((id, ups)).is_err() {
            return Err("too many moves");
        }
    }
    Ok(MemberSpec {
        species: Species::from_name(species).ok_or("no such species")?,
        level,
        dvs,
        exp,
        moves: chosen,
    })
}

/// A species, its level, DVs and experience, and its moves, each with three PP ups.
pub(crate) type Written = (&'static str, u8, [u8; 4], [u16; 5], &'static [&'static str]);

/// Asserts that the members are as they are written.
pub(crate) fn assert_written(
    members: &[MemberSpec],
    written: &[Written],
) -> Result<(), &'static str> {
    assert_eq!(members.len(), written.len());
    for (member, (species, level, dvs, exp, moves)) in members.iter().zip(written) {
        let mut known = ArrayVec::<(&str, u8), 4>::new();
        for name in *moves {
            if known.try_push((*name, 3)).is_err() {
                return Err("too many moves");
            }
        }
        let expected = spec(species, *level, *dvs, *exp, known.as_slice())?;
        assert_eq!(*member, expected, "for {species}");
    }
    Ok(())
}

/// HP, Attack, Defense, Speed and Special.
pub(crate) fn stats(member: &Member) -> [u16; 5] {
    [
        member.max_hp(),
        member.attack(),
        member.defense(),
        member.speed(),
        member.special(),
    ]
}

pub(crate) const SEED: [u8; 10] = [1, 2, 3, 4, 5, 6, 7, 8, 9, 10];

/// A Tauros at level 100 with full DVs and experience: HP 353, Attack 298, Defense 288, Speed 318, Special 238.
///
/// It knows Strength, which is move 70, with three PP ups, so 24 PP, and Wrap, move 35, with 20.
pub(crate) fn tauros() -> Result<MemberSpec, &'static str> {
    let moves = [("Strength", 3), ("Wrap", 0)];
    spec("Tauros", 100, [15; 4], [65535; 5], &moves)
}
