//! Teams for the tests. At level 100, with DVs of 15 and all experience, Tauros has 353 HP and Chansey 703.
use arrayvec::ArrayVec;
use gen1::generated::machine::{Rules, TurnLimit};
use gen1::generated::player::{HpForm, PlayerTerms};
use gen1::generated::stats::{MemberSpec, Team};
use gen1::generated::tables::{MoveId, Species};
use std::error::Error;

// The seed of the battle that is stored in crates/battle_tool.
pub(crate) const SEED: [u8; 10] = [1, 36, 255, 7, 31, 100, 179, 254, 127, 10];

/// A member at level 100, whose moves have three PP ups each.
pub(crate) fn member(species: &str, moves: &[&str]) -> Result<MemberSpec, Box<dyn Error>> {
    let mut known = ArrayVec::new();
    for name in moves {
        let _ = known.try_push((MoveId::from_name(name).ok_or("no such move")?, 3));
    }
    Ok(MemberSpec {
        species: Species::from_name(species).ok_or("no such species")?,
        level: 100,
        dvs: [15; 4],
        exp: [65535; 5],
        moves: known,
    })
}

pub(crate) fn tauros() -> Result<Team, Box<dyn Error>> {
    Ok(Team::new(&[member("Tauros", &["Strength"])?])?)
}

pub(crate) fn chansey() -> Result<Team, Box<dyn Error>> {
    Ok(Team::new(&[member("Chansey", &["Strength"])?])?)
}

pub(crate) fn gengar() -> Result<Team, Box<dyn Error>> {
    Ok(Team::new(&[member("Gengar", &["Splash"])?])?)
}

/// A Tauros that knows these moves, and a Chansey.
pub(crate) fn lead_and_chansey(moves: &[&str]) -> Result<Team, Box<dyn Error>> {
    let lead = member("Tauros", moves)?;
    let other = member("Chansey", &["Strength"])?;
    Ok(Team::new(&[lead, other])?)
}

/// The terms of a player in a battle of 250 turns with the sleep clause.
pub(crate) fn terms_in(hp_form: HpForm, foes: u8) -> Result<PlayerTerms, Box<dyn Error>> {
    Ok(PlayerTerms {
        rules: Rules::new(1).ok_or("no such rules")?,
        limit: TurnLimit::new(250).ok_or("no such limit")?,
        foes,
        hp_form,
    })
}
