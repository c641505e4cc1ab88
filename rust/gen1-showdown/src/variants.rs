//! What organisers of battles ask for: clauses that end a battle, and a seed and sides that two players draw together.
use crate::index;
use gen1::{Event, Kind, LogFault, Side, events_of};
use sha2::{Digest, Sha256};
use std::error::Error;
use std::fmt;

/// The sleep and the freeze clause as a cartridge's organiser has them: a side loses that puts a second living member of the foe to sleep by
/// a move, or freezes a second one. Rest does not count.
///
/// The clauses of a [`Battle`](gen1::Battle) make such a move fail, so that battle has none. Its host gives the log of each pair, whole or
/// as reported to a side or the audience, and enters a forfeit of the side that has lost.
///
/// ```
/// use gen1::{Battle, Choice, Place, Side, Team, member};
/// use gen1_showdown::EndingClauses;
/// let one = Team::new(&[member("Parasect", &["Spore"])?])?;
/// let two = Team::new(&[member("Chansey", &["Splash"])?, member("Snorlax", &["Splash"])?])?;
/// let mut battle = Battle::new(&one, &two, gen1::seed_from_number(7));
/// let mut clauses = EndingClauses::new(true, true);
/// clauses.hear(&battle.update(Choice::Pass, Choice::Pass)?.log())?;
/// assert_eq!(clauses.hear(&battle.update(Choice::MOVE_1, Choice::MOVE_1)?.log())?, None);
/// let switch = Choice::Switch(Place::new(2).ok_or("a place")?);
/// assert_eq!(clauses.hear(&battle.update(Choice::MOVE_1, switch)?.log())?, Some(Side::One));
/// # Ok::<(), Box<dyn std::error::Error>>(())
/// ```
#[derive(Clone, Debug)]
pub struct EndingClauses {
    /// The statuses of which a foe may have one.
    limited: Vec<Kind>,
    sides: [Watched; 2],
    mover: Option<Side>,
    loser: Option<Side>,
}

/// The status that the foe gave to each member of a side, and the index of the one that is out.
#[derive(Clone, Debug, Default)]
struct Watched {
    given: [Option<Kind>; 6],
    out: usize,
}

impl EndingClauses {
    /// A battle before its first update, with the sleep clause, the freeze clause, or both.
    #[must_use]
    pub fn new(sleep: bool, freeze: bool) -> EndingClauses {
        let both = [(sleep, Kind::Sleep), (freeze, Kind::Freeze)];
        EndingClauses {
            limited: both.iter().filter(|it| it.0).map(|it| it.1).collect(),
            sides: Default::default(),
            mover: None,
            loser: None,
        }
    }

    /// Takes in the log of a pair: each once, in order. Returns the first side that broke a clause so far.
    ///
    /// # Errors
    ///
    /// The bytes are not a log. Then nothing has changed.
    pub fn hear(&mut self, log: &[u8]) -> Result<Option<Side>, LogFault> {
        let events = events_of(log).collect::<Result<Vec<_>, _>>()?;
        for event in events {
            self.see(event);
        }
        Ok(self.loser)
    }

    fn see(&mut self, event: Event) {
        match event {
            Event::Switch(who, place, ..) => {
                self.sides[index(who.side)].out = usize::from(place.number()) - 1;
            }
            Event::Move(who, ..) => self.mover = Some(who.side),
            Event::Status(who, kind) => self.give(who.side, kind),
            Event::Cure(who, _) | Event::Faint(who) => {
                let side = &mut self.sides[index(who.side)];
                side.given[side.out] = None;
            }
            _ => {}
        }
    }

    /// The member of a side that is out gets a status.
    fn give(&mut self, side: Side, kind: Kind) {
        let watched = &mut self.sides[index(side)];
        watched.given[watched.out] = None;
        if self.mover == Some(side) {
            return;
        }
        let is_second = watched.given.contains(&Some(kind));
        watched.given[watched.out] = Some(kind);
        if is_second && self.limited.contains(&kind) {
            self.loser = self.loser.or(Some(side.other()));
        }
    }
}

/// What two secrets decide. Neither player can choose it, and nobody can change it later.
///
/// 1. Each player takes 32 bytes of the operating system's source as its secret, and sends the host its commitment ([`commit`]).
/// 2. The host shows both commitments to both players. Only then each sends its secret.
/// 3. The host calls [`agree`]. After the battle it shows both secrets, with which anybody can do the same.
///
/// What can be tried:
///
/// - *To choose the secret late, or to guess the other's.* A commitment is a SHA-256: no second secret has it, and it says nothing of 32 bytes
///   by chance. It gives away a secret that can be guessed.
/// - *To repeat a commitment*, of the other player or of an earlier battle. The player and the name of the battle are part of it, so each
///   battle needs a different name.
/// - *To refuse the secret.* A player that has both secrets first can work out the result, and refuse if it is bad. So a refusal must be a loss
///   ([`Row`](gen1::Row), a forfeit), never a new draw; and where secrets go to the host alone, a player has nothing to refuse by.
/// - *To know draws in advance.* Both secrets give all draws of a battle that continues with its seed. Players without a host agree again for
///   each pair, with the number of the pair in the name, and the seed as the numbers of the row. A host that shows one player the secrets
///   can't be detected.
///
/// ```
/// use gen1_showdown::{agree, commit};
/// // Of the operating system's source; 32 equal bytes would be guessed.
/// let secrets = [[1; 32], [2; 32]];
/// let commitments = [commit("room 7", 1, &secrets[0]), commit("room 7", 2, &secrets[1])];
/// let agreed = agree("room 7", &commitments, &secrets)?;
/// assert_ne!(agreed.sides[0], agreed.sides[1]);
/// assert_eq!(agree("room 7", &commitments, &[[1; 32]; 2]).unwrap_err().player, 2);
/// # Ok::<(), gen1_showdown::BrokenCommitment>(())
/// ```
#[derive(Clone, Copy, Debug, PartialEq, Eq)]
pub struct Agreement {
    /// The seed of the battle.
    pub seed: [u8; 10],
    /// The side of each player, by lot.
    pub sides: [Side; 2],
}

/// A secret is not the one that a player committed to.
#[derive(Clone, Copy, Debug, PartialEq, Eq)]
pub struct BrokenCommitment {
    /// The player, 1 or 2.
    pub player: u8,
}

impl fmt::Display for BrokenCommitment {
    fn fmt(&self, f: &mut fmt::Formatter<'_>) -> fmt::Result {
        let player = self.player;
        write!(
            f,
            "the secret of player {player} is not the one that it committed to"
        )
    }
}

impl Error for BrokenCommitment {}

/// The commitment of a player, 1 or 2, to its secret: the SHA-256 of `gen1 commitment`, a zero, the player as a byte, the secret, and the name
/// of the battle in UTF-8.
#[must_use]
pub fn commit(battle: &str, player: u8, secret: &[u8; 32]) -> [u8; 32] {
    hash(&[b"gen1 commitment\0", &[player], secret, battle.as_bytes()])
}

/// What the secrets of player 1 and 2 decide: by the SHA-256 of `gen1 agreement`, a zero, both secrets, and the name of the battle in UTF-8. Its
/// first ten bytes are the seed. If the next one is even, player 1 is side 1.
///
/// # Errors
///
/// The first player whose secret does not have its commitment.
pub fn agree(
    battle: &str,
    commitments: &[[u8; 32]; 2],
    secrets: &[[u8; 32]; 2],
) -> Result<Agreement, BrokenCommitment> {
    for (player, (commitment, secret)) in (1..).zip(commitments.iter().zip(secrets)) {
        if commit(battle, player, secret) != *commitment {
            return Err(BrokenCommitment { player });
        }
    }
    let [one, two] = secrets;
    let drawn = hash(&[b"gen1 agreement\0", one, two, battle.as_bytes()]);
    let first = Side::BOTH[usize::from(drawn[10] % 2)];
    Ok(Agreement {
        seed: std::array::from_fn(|at| drawn[at]),
        sides: [first, first.other()],
    })
}

fn hash(parts: &[&[u8]]) -> [u8; 32] {
    let mut hash = Sha256::new();
    for part in parts {
        hash.update(part);
    }
    hash.finalize().into()
}

#[cfg(test)]
mod tests {
    use super::*;

    fn hex(bytes: &[u8]) -> String {
        bytes.iter().map(|byte| format!("{byte:02x}")).collect()
    }

    /// With hashes that coreutils' sha256sum made.
    #[test]
    fn secrets_decide_as_another_program_says() {
        let secrets: [[u8; 32]; 2] = [[7; 32], std::array::from_fn(|at| at as u8)];
        let commitments = [1, 2].map(|it| commit("Köln 3", it, &secrets[usize::from(it) - 1]));
        let due = [
            "ab01c0f56c322c723362ae2507b44f9cd312e5262163a5721fcaae38854111ea",
            "5b5d84ce672fcfcd169c13df96a947083fed47bc519d70eb77f7568b57d60e95",
        ];
        assert_eq!(commitments.each_ref().map(|it| hex(it)), due);
        let agreed = agree("Köln 3", &commitments, &secrets).expect("what both committed to");
        assert_eq!(hex(&agreed.seed), "6d0a1f3027908fea9444");
        assert_eq!(agreed.sides, [Side::One, Side::Two]);
    }

    #[test]
    fn what_is_not_committed_to_is_refused() {
        let secrets = [[7; 32], [9; 32]];
        let commitments = [commit("a", 1, &secrets[0]), commit("a", 2, &secrets[1])];
        let refused = |battle, commitments, secrets| agree(battle, &commitments, &secrets).err();
        let of = |player| Some(BrokenCommitment { player });
        assert_eq!(refused("a", commitments, secrets), None);
        assert_eq!(refused("b", commitments, secrets), of(1));
        let [one, two] = commitments;
        assert_eq!(refused("a", [one, one], [[7; 32]; 2]), of(2));
        assert_eq!(refused("a", [two, one], secrets), of(1));
        for bit in 0..256 {
            let mut other = secrets;
            other[1][bit / 8] ^= 1 << (bit % 8);
            assert_eq!(refused("a", commitments, other), of(2));
        }
    }
}
