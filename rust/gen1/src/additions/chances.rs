//! Added to the sources (docs/PLAIN.md, "What is added"): odds, outcomes and playouts.
use crate::Battle;
use crate::MoveId;
use crate::additions::UnknownText;
use crate::generated::engine::Refusal;
use crate::generated::machine::Side;
use crate::generated::odds::Reason;
use crate::generated::outcomes::{Chance, OutcomesFault, Successor, Ways};
use crate::generated::playouts::{PlayoutOptions, Playouts};
use core::fmt;
use core::str::FromStr;

impl Reason {
    /// All reasons, in the order of their numbers, which begin at 1.
    pub const ALL: [Reason; 23] = [
        Reason::Fallen,
        Reason::LeftOut,
        Reason::AlwaysFails,
        Reason::Immune,
        Reason::NoDamage,
        Reason::Fault,
        Reason::Slower,
        Reason::NothingToCounter,
        Reason::NoEnergy,
        Reason::Awake,
        Reason::Invulnerable,
        Reason::Mist,
        Reason::Substitute,
        Reason::HasStatus,
        Reason::OwnType,
        Reason::Confused,
        Reason::Seeded,
        Reason::Disabled,
        Reason::NoPp,
        Reason::Stage,
        Reason::SleepClause,
        Reason::AlreadyUp,
        Reason::Health,
    ];

    /// Why the use can't hit, as the end of a sentence: "the user is slower than the foe".
    #[must_use]
    pub const fn words(self) -> &'static str {
        match self {
            Reason::Fallen => "the user or the foe has no HP",
            Reason::LeftOut => "the engine leaves the move out",
            Reason::AlwaysFails => "the move always fails",
            Reason::Immune => "the foe is immune to the move's type",
            Reason::NoDamage => "the damage is 0",
            Reason::Fault => "the battle would end with a fault",
            Reason::Slower => "the user is slower than the foe",
            Reason::NothingToCounter => "there is no damage to counter",
            Reason::NoEnergy => "Bide has stored no damage",
            Reason::Awake => "the foe is awake",
            Reason::Invulnerable => "the foe is out of reach",
            Reason::Mist => "Mist guards the foe",
            Reason::Substitute => "the foe's substitute keeps the move away",
            Reason::HasStatus => "the foe has a status",
            Reason::OwnType => "the foe's type guards it",
            Reason::Confused => "the foe is confused",
            Reason::Seeded => "the foe is seeded",
            Reason::Disabled => "one of the foe's moves is disabled",
            Reason::NoPp => "none of the foe's moves has PP",
            Reason::Stage => "the stage or the stat is at its end",
            Reason::SleepClause => "the sleep clause holds",
            Reason::AlreadyUp => "the user has it already",
            Reason::Health => "the user's HP don't allow it",
        }
    }
}

impl fmt::Display for Reason {
    fn fmt(&self, f: &mut fmt::Formatter<'_>) -> fmt::Result {
        f.write_str(self.words())
    }
}

impl FromStr for Reason {
    type Err = UnknownText;

    fn from_str(text: &str) -> Result<Self, UnknownText> {
        let found = Reason::ALL
            .into_iter()
            .find(|reason| reason.words() == text);
        found.ok_or(UnknownText("no reason has these words"))
    }
}

#[cfg(feature = "serde")]
crate::adapter::serde_as_text!(Reason);

impl Successor {
    /// The battle that the update leads to. The numbers to draw are as before it.
    #[must_use]
    pub fn battle(&self) -> Battle {
        Battle {
            packed: self.battle.clone(),
        }
    }
}

/// A place for an outcome: the battle with weight 0.
impl From<&Battle> for Successor {
    fn from(battle: &Battle) -> Self {
        Successor::new(battle.packed.clone(), 0)
    }
}

impl Clone for Successor {
    fn clone(&self) -> Self {
        Successor {
            battle: self.battle.clone(),
            ..*self
        }
    }
}

impl PartialEq for Successor {
    fn eq(&self, other: &Self) -> bool {
        self.weight() == other.weight() && self.battle.as_bytes() == other.battle.as_bytes()
    }
}

impl Eq for Successor {}

impl fmt::Debug for Successor {
    fn fmt(&self, f: &mut fmt::Formatter<'_>) -> fmt::Result {
        f.debug_struct("Successor")
            .field("battle", &self.battle())
            .field("weight", &self.weight())
            .finish()
    }
}

impl Chance {
    /// The probability as a number from 0 to 1.
    #[must_use]
    pub fn probability(self) -> f64 {
        self.num as f64 / self.whole as f64
    }
}

impl From<Refusal> for OutcomesFault {
    fn from(refusal: Refusal) -> Self {
        OutcomesFault::Refused(refusal)
    }
}

impl fmt::Debug for Ways {
    fn fmt(&self, f: &mut fmt::Formatter<'_>) -> fmt::Result {
        f.debug_struct("Ways").finish_non_exhaustive()
    }
}

/// How often each choice is made in playouts, compared to others: 0 to 255.
///
/// A choice of weight 6 is twice as likely as one of weight 3, and one of weight 0 is made only if the others have 0 too.
/// By default each has the weight 1.
///
/// ```
/// use gen1::{MoveId, Weights};
///
/// let weights = Weights::default().with_moves(4).with_move(MoveId::EXPLOSION, 0);
/// assert_eq!(weights.of_move(MoveId::PSYCHIC), 4);
/// assert_eq!(weights.of_move(MoveId::EXPLOSION), 0);
/// assert_eq!(weights.of_switch(), 1);
/// ```
#[derive(Clone, Copy, Debug, PartialEq, Eq, Hash)]
pub struct Weights([u8; 166]);

impl Weights {
    /// The weight of a move.
    #[must_use]
    pub fn of_move(&self, id: MoveId) -> u8 {
        self.0[usize::from(id.number())]
    }

    /// The weight of each switch.
    #[must_use]
    pub const fn of_switch(&self) -> u8 {
        self.0[0]
    }

    /// These weights with another weight for one move. Move 0, by which a member continues a move or uses Struggle, has the weight of
    /// [`MoveId::STRUGGLE`].
    #[must_use]
    pub fn with_move(mut self, id: MoveId, weight: u8) -> Self {
        self.0[usize::from(id.number())] = weight;
        self
    }

    /// These weights with one weight for all moves.
    #[must_use]
    pub fn with_moves(mut self, weight: u8) -> Self {
        self.0[1..].fill(weight);
        self
    }

    /// These weights with another weight for switches.
    #[must_use]
    pub const fn with_switch(mut self, weight: u8) -> Self {
        self.0[0] = weight;
        self
    }
}

impl Default for Weights {
    fn default() -> Self {
        Weights([1; 166])
    }
}

impl PlayoutOptions {
    /// That many rounds from a seed, each played to its end by choices that are equally likely.
    #[must_use]
    pub const fn new(seed: u64, rounds: u32) -> Self {
        PlayoutOptions {
            seed,
            rounds,
            depth: None,
            weights: [0; 166],
        }
    }

    /// These options with rounds of at most that many updates. A round that has not ended then is won by the side with the larger share
    /// of its HP left, and equal shares are a tie.
    #[must_use]
    pub const fn with_depth(self, updates: u32) -> Self {
        PlayoutOptions {
            depth: Some(updates),
            ..self
        }
    }

    /// These options with choices by weights.
    #[must_use]
    pub const fn with_weights(self, weights: Weights) -> Self {
        PlayoutOptions {
            weights: weights.0,
            ..self
        }
    }
}

impl PartialEq for PlayoutOptions {
    fn eq(&self, other: &Self) -> bool {
        (self.seed, self.rounds, self.depth, self.weights)
            == (other.seed, other.rounds, other.depth, other.weights)
    }
}

impl Eq for PlayoutOptions {}

/// Omits the weights.
impl fmt::Debug for PlayoutOptions {
    fn fmt(&self, f: &mut fmt::Formatter<'_>) -> fmt::Result {
        f.debug_struct("PlayoutOptions")
            .field("seed", &self.seed)
            .field("rounds", &self.rounds)
            .field("depth", &self.depth)
            .finish_non_exhaustive()
    }
}

impl Playouts {
    /// How many rounds were played.
    #[must_use]
    pub const fn rounds(&self) -> u32 {
        self.wins_one + self.wins_two + self.ties + self.faults
    }

    /// How many rounds a side won.
    #[must_use]
    pub const fn wins(&self, side: Side) -> u32 {
        match side {
            Side::One => self.wins_one,
            Side::Two => self.wins_two,
        }
    }
}
