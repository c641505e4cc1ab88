//! Members of teams from names, random teams, and the sample teams.
use crate::generated::random::{self, DrawnFrom};
use crate::{MemberSpec, Team, TeamRefusal, UnknownName};
use arrayvec::ArrayVec;
use core::fmt;

/// Why [`member`] refuses its names.
#[derive(Clone, Copy, Debug, PartialEq, Eq)]
#[non_exhaustive]
pub enum NameFault {
    /// No species has the name.
    NoSuchSpecies(UnknownName),
    /// No move has the name at this place, counted from 1.
    NoSuchMove(usize, UnknownName),
    /// There are more than four moves.
    TooManyMoves,
}

impl fmt::Display for NameFault {
    fn fmt(&self, f: &mut fmt::Formatter<'_>) -> fmt::Result {
        match self {
            NameFault::NoSuchSpecies(name) => name.fmt(f),
            NameFault::NoSuchMove(place, name) => write!(f, "move {place}: {name}"),
            NameFault::TooManyMoves => f.write_str("there are more than four moves"),
        }
    }
}

impl core::error::Error for NameFault {}

/// A member at level 100 with maximum DVs, experience and PP, as in most competitive rules.
///
/// In names only letters and digits are compared, ignoring case. The fields of the member may be changed before it becomes part of a
/// [`Team`](crate::Team), which checks all of them.
///
/// ```
/// use gen1::member;
///
/// let mut tauros = member("Tauros", &["body slam", "Earthquake"]).unwrap();
/// tauros.level = 50;
/// let fault = member("Tauros", &["Body Slam", "Earthquack"]).unwrap_err();
/// assert_eq!(fault.to_string(), "move 2: no move is called 'Earthquack'; did you mean Earthquake?");
/// ```
///
/// # Errors
///
/// An unknown name, or more than four moves.
pub fn member(species: &str, moves: &[&str]) -> Result<MemberSpec, NameFault> {
    let species = species.parse().map_err(NameFault::NoSuchSpecies)?;
    let mut chosen = ArrayVec::new();
    for (place, name) in moves.iter().enumerate() {
        let id = name
            .parse()
            .map_err(|fault| NameFault::NoSuchMove(place + 1, fault))?;
        chosen
            .try_push((id, 3))
            .map_err(|_| NameFault::TooManyMoves)?;
    }
    Ok(MemberSpec {
        species,
        level: 100,
        dvs: [15; 4],
        exp: [65535; 5],
        moves: chosen,
    })
}

/// A random team of `count` members of different species at level 100, each with four moves. The same arguments give the same team, which is
/// also that of `gen1_random_team` in C.
///
/// ```
/// use gen1::{DrawnFrom, random_team};
///
/// let of_samples = random_team(7, 2, DrawnFrom::Samples)?;
/// let of_all = random_team(7, 2, DrawnFrom::All)?;
/// let species = [of_samples, of_all].map(|team| [0, 1].map(|at| team.members()[at].species().name()));
/// assert_eq!(species, [["Zapdos", "Kabutops"], ["Sandslash", "Cloyster"]]);
/// # Ok::<(), gen1::TeamRefusal>(())
/// ```
///
/// # Errors
///
/// `TeamRefusal::Empty` for 0 members, and `TeamRefusal::TooMany` for more than six.
pub fn random_team(seed: u64, count: u8, from: DrawnFrom) -> Result<Team, TeamRefusal> {
    Team::new(&random::random_members(seed, count, from)?)
}

/// A sample team by its number, 1 to [`SAMPLE_TEAMS`](crate::SAMPLE_TEAMS): those of examples/teams, in the order of their names.
#[must_use]
pub fn sample_team(number: u8) -> Option<Team> {
    Team::new(&random::sample_members(number)?).ok()
}
