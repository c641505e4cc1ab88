//! The value of a battle without a search: from HP, status, stages, conditions and match-ups, with weights that were fitted to battles.
use crate::expected::best_share;
use core::cmp::Ordering;
use gen1::layout::{ACTIVE, MEMBER, SIDE, active, member};
use gen1::{Battle, Conditions, Side, layout};

/// Where Defense and Speed are in a member (docs/LAYOUT.md).
const DEFENSE: usize = 8;
const SPEED: usize = 10;

/// The number of features.
pub const COUNT: usize = 27;

/// The weights of the features, in the order of [`features`].
///
/// Each is the change of [`score`] by 1 of the feature. They are those of a logistic regression on 2,700 battles of the bot against itself,
/// between sample teams, with 600 nodes for each choice. `cargo run --release --example fit -- 400 2` fits them to new battles.
pub const WEIGHTS: [f64; COUNT] = [
    0.69, -0.95, -0.57, -0.63, -0.23, -0.63, 0.0, 0.41, 0.0, -0.02, 0.08, 0.0, 0.0, -0.08, 0.0,
    -0.13, 0.02, 0.0, -0.19, 0.0, 0.41, 0.41, 0.37, 0.67, 0.65, 0.6, 0.34,
];

/// The differences between side 1 and side 2, side 1's first, in these features:
///
/// 0 living members, 1 their HP as shares of the maximum; how many of them are 2 asleep, 3 frozen, 4 paralysed, 5 burned, 6 poisoned; of the
/// active member the stages of 7 Attack, 8 Defense, 9 Speed, 10 Special, 11 accuracy and 12 evasion, and whether it has 13 a Substitute,
/// 14 Leech Seed, 15 confusion, 16 Reflect, 17 Light Screen, 18 to recharge; and 19 its HP as a share of the maximum; the members' HP as
/// shares times 20 the maximum HP, 21 Defense and 22 Speed, each as a share of 300. Then the differences as shares of the sums of 23 living
/// members and 24 their HP; 25 what [`MatchUps`] say of the members that live; and 26 the share of the other's HP that the best move of the
/// faster active member is expected to take.
#[must_use]
pub fn features(battle: &Battle, match_ups: &MatchUps) -> [f64; COUNT] {
    let bytes = battle.as_bytes();
    let [one, two] = Side::BOTH.map(|it| Seen::of(&bytes[layout::side(it)..][..SIDE]));
    let mut all: [f64; COUNT] = core::array::from_fn(|at| f64::from(one.found[at] - two.found[at]));
    let relative = |one: f32, two: f32| f64::from((one - two) / (one + two).max(f32::MIN_POSITIVE));
    all[23] = relative(one.found[0], two.found[0]);
    all[24] = relative(one.found[1], two.found[1]);
    all[25] = f64::from(match_ups.balance(&one, &two));
    all[26] = f64::from(match_ups.first_hit(&one, &two));
    all
}

/// For each side, member and foe: the share of the foe's maximum HP that the member's best move is expected to take as both come out. It
/// stays nearly the same through a battle, so a search computes it once.
#[derive(Clone, Debug)]
pub struct MatchUps {
    /// By side, member and foe.
    dealt: [[[f32; 6]; 6]; 2],
    /// These shares by side, foe and member.
    dealt_to: [[[f32; 6]; 6]; 2],
}

impl MatchUps {
    /// The match-ups of the members of a battle.
    #[must_use]
    pub fn of(battle: &Battle) -> Self {
        let bytes = battle.as_bytes();
        let members = |side, at| &bytes[layout::side(side) + MEMBER * at..][..MEMBER];
        let of_side = |side: Side| {
            core::array::from_fn(|own| {
                let best = |foe| best_share(members(side, own), members(side.other(), foe));
                core::array::from_fn(best)
            })
        };
        let dealt: [[[f32; 6]; 6]; 2] = Side::BOTH.map(of_side);
        let dealt_to = dealt
            .map(|it| core::array::from_fn(|foe| core::array::from_fn(|own: usize| it[own][foe])));
        MatchUps { dealt, dealt_to }
    }

    /// The sum of the match-ups of all pairs that live, over the number of the smaller side's members. A match-up is near 1 if side 1's
    /// member knocks out the other long before that knocks it out, and near -1 in the reverse case.
    fn balance(&self, one: &Seen, two: &Seen) -> f32 {
        let mut sum = 0.0;
        for foe in (0..6).filter(|foe| two.lives.shares[*foe] > 0.0) {
            let all = self.with(0, foe, [&one.lives, &two.lives]);
            let living = all.into_iter().zip(one.lives.shares);
            sum += living
                .map(|(it, share)| if share > 0.0 { it } else { 0.0 })
                .sum::<f32>();
        }
        sum / one.found[0].min(two.found[0]).max(1.0)
    }

    /// The match-ups of each of a side's members and a foe, with the lives of the side and of the foe's. A member that has fallen has none.
    #[inline(always)]
    pub(crate) fn with(&self, side: usize, foe: usize, [own, other]: [&Lives; 2]) -> [f32; 6] {
        /// What a member without damage is taken to deal.
        const LEAST: f32 = 0.02;
        let (share, acts) = (other.shares[foe], other.acts[foe]);
        let (deals, takes) = (&self.dealt_to[side][foe], &self.dealt[1 - side][foe]);
        each(|at| {
            let deals = (deals[at] * own.acts[at] + LEAST * share) * own.shares[at];
            let takes = (takes[at] * acts + LEAST * own.shares[at]) * share;
            (deals - takes) / (deals + takes)
        })
    }

    /// The share of the HP of each foe that the best move of a side's member is expected to take, at most 1.
    #[inline(always)]
    pub(crate) fn hits(&self, side: usize, own: usize, foes: &Lives) -> [f32; 6] {
        let dealt = &self.dealt[side][own];
        each(|foe| (dealt[foe] / foes.shares[foe]).min(1.0))
    }

    /// The share of one foe's HP that the best move of a side's member is expected to take, at most 1.
    pub(crate) fn hit(&self, side: usize, own: usize, (foe, foes): (usize, &Lives)) -> f32 {
        (self.dealt[side][own][foe] / foes.shares[foe]).min(1.0)
    }

    /// The share of the other's HP that the faster active member is expected to take, below 0 if it is side 2's.
    fn first_hit(&self, one: &Seen, two: &Seen) -> f32 {
        let (Some(own), Some(foe)) = (one.lives.out, two.lives.out) else {
            return 0.0;
        };
        match one.lives.speed.cmp(&two.lives.speed) {
            Ordering::Greater => self.hit(0, own, (foe, &two.lives)) * one.acts_next,
            Ordering::Less => -self.hit(1, foe, (own, &one.lives)) * two.acts_next,
            Ordering::Equal => 0.0,
        }
    }
}

/// How the members of a side live.
#[derive(Clone, Copy)]
pub(crate) struct Lives {
    /// The HP of each as a share of its maximum.
    pub shares: [f32; 6],
    /// How much of its turns each acts in.
    pub acts: [f32; 6],
    /// The active member, if it lives, and its Speed.
    pub out: Option<usize>,
    pub speed: u16,
    /// The index of the active member.
    active: usize,
}

impl Lives {
    /// The members of a side with these bytes.
    pub fn of(bytes: &[u8]) -> Self {
        let mut lives = Lives {
            shares: [0.0; 6],
            acts: [0.0; 6],
            out: None,
            speed: 0,
            active: 0,
        };
        for at in 0..6 {
            lives.look(at, bytes);
        }
        lives.update(bytes);
        lives
    }

    /// Both sides of a battle.
    pub fn both(battle: &Battle) -> [Self; 2] {
        let bytes = battle.as_bytes();
        Side::BOTH.map(|it| Lives::of(&bytes[layout::side(it)..][..SIDE]))
    }

    /// Looks at what an update may have changed, which is only at the member that was out and the one that is.
    pub fn update(&mut self, bytes: &[u8]) {
        let block = &bytes[ACTIVE..SIDE];
        let place = usize::from(block[active::PLACE]);
        self.look(self.active, bytes);
        self.active = place.clamp(1, 6) - 1;
        self.look(self.active, bytes);
        let is_out = place > 0 && self.shares[self.active] > 0.0;
        self.out = is_out.then_some(self.active);
        self.speed = number(block, active::STAGES + 10);
    }

    fn look(&mut self, at: usize, bytes: &[u8]) {
        let bytes = &bytes[MEMBER * at..][..MEMBER];
        let hp = number(bytes, member::HP);
        (self.shares[at], self.acts[at]) = (0.0, 0.0);
        if hp > 0 {
            self.shares[at] = f32::from(hp) / f32::from(number(bytes, member::MAX_HP));
            self.acts[at] = match bytes[member::STATUS] {
                1..8 => 0.5,
                32 => 0.1,
                64 => 0.75,
                _ => 1.0,
            };
        }
    }

    /// Whether a member sleeps or is frozen, or has fallen.
    #[inline(always)]
    pub fn is_idle(&self, at: usize) -> bool {
        self.acts[at] < 0.75
    }

    /// The HP of the active member as a share; 0 if it has fallen.
    pub fn share(&self) -> f32 {
        self.out.map_or(0.0, |at| self.shares[at])
    }

    /// Whether the active member lives, and sleeps or is frozen.
    pub fn is_kept(&self) -> bool {
        self.out.is_some_and(|at| self.is_idle(at))
    }
}

/// What counts of one side.
#[derive(Clone, Copy)]
struct Seen {
    found: [f32; COUNT],
    lives: Lives,
    /// How probably the active member acts in its next turn.
    acts_next: f32,
}

impl Seen {
    fn of(bytes: &[u8]) -> Self {
        let mut seen = Seen {
            found: [0.0; COUNT],
            lives: Lives::of(bytes),
            acts_next: 0.0,
        };
        let (members, block) = bytes.split_at(ACTIVE);
        let lives = seen.lives;
        for (bytes, share) in members.chunks_exact(MEMBER).zip(lives.shares) {
            if share > 0.0 {
                seen.add(bytes, share);
            }
        }
        if let Some(at) = lives.out {
            seen.add_active(at, block);
        }
        seen
    }

    /// Adds a member that lives.
    fn add(&mut self, bytes: &[u8], share: f32) {
        self.found[0] += 1.0;
        self.found[1] += share;
        let status = match bytes[member::STATUS] {
            0 => None,
            1..8 => Some(2),
            32 => Some(3),
            64 => Some(4),
            16 => Some(5),
            _ => Some(6),
        };
        if let Some(status) = status {
            self.found[status] += 1.0;
        }
        let stats = [member::MAX_HP, DEFENSE, SPEED].map(|at| f32::from(number(bytes, at)));
        for (sum, stat) in self.found[20..].iter_mut().zip(stats) {
            *sum += share * stat / 300.0;
        }
    }

    /// Adds what counts of the active member only.
    fn add_active(&mut self, at: usize, block: &[u8]) {
        const SHOWN: [(usize, Conditions); 6] = [
            (13, Conditions::SUBSTITUTE),
            (14, Conditions::SEEDED),
            (15, Conditions::CONFUSED),
            (16, Conditions::REFLECT),
            (17, Conditions::LIGHT_SCREEN),
            (18, Conditions::RECHARGE),
        ];
        for (at, stage) in block[active::STAGES..][..6].iter().enumerate() {
            self.found[7 + at] = f32::from(*stage) - 6.0;
        }
        let conditions = conditions(block);
        for (at, which) in SHOWN {
            self.found[at] = f32::from(u8::from(conditions & which.bits() != 0));
        }
        self.found[19] = self.lives.shares[at];
        // A member that sleeps or is frozen doesn't act, and one that wakes loses that turn.
        let is_kept = self.lives.is_idle(at) || conditions & Conditions::RECHARGE.bits() != 0;
        self.acts_next = if is_kept { 0.0 } else { self.lives.acts[at] };
    }
}

/// The values of a function at the first numbers. Inlined, they are computed at once where there are such instructions.
#[inline(always)]
pub(crate) fn each<const COUNT: usize>(of: impl Fn(usize) -> f32) -> [f32; COUNT] {
    let mut all = [0.0; COUNT];
    for (at, value) in all.iter_mut().enumerate() {
        *value = of(at);
    }
    all
}

/// The number of two bytes.
#[inline(always)]
pub(crate) fn number(bytes: &[u8], at: usize) -> u16 {
    u16::from_le_bytes([bytes[at], bytes[at + 1]])
}

/// The bits of the conditions of an active block.
#[inline(always)]
pub(crate) fn conditions(block: &[u8]) -> u32 {
    let low = u32::from(number(block, active::CONDITIONS));
    low | u32::from(number(block, active::CONDITIONS + 2)) << 16
}

/// The weighted sum of the features: above 0 if side 1 is better off.
#[must_use]
pub fn score(features: &[f64; COUNT], weights: &[f64; COUNT]) -> f64 {
    features
        .iter()
        .zip(weights)
        .map(|(feature, weight)| feature * weight)
        .sum()
}

/// The value of a score, from 0 to 1: at most 0.012 from the logistic function, as a quotient that needs no exponential.
///
/// ```
/// use gen1_search::leaf::squashed;
///
/// assert_eq!(squashed(0.0), 0.5);
/// for score in [-8.0f64, -3.0, -1.0, 0.5, 2.0, 6.0] {
///     assert!((squashed(score) - 1.0 / (1.0 + (-score).exp())).abs() < 0.012);
/// }
/// ```
#[must_use]
pub fn squashed(score: f64) -> f64 {
    // tanh(x) is near x (27 + x^2) / (27 + 9 x^2) up to x = 3, where that is 1.
    let half = (score / 2.0).clamp(-3.0, 3.0);
    let square = half * half;
    0.5 + 0.5 * half * (27.0 + square) / (27.0 + 9.0 * square)
}

/// How often side 1 is estimated to win. The match-ups are those of the battle, or of one of its earlier positions.
#[must_use]
pub fn value(battle: &Battle, match_ups: &MatchUps) -> f64 {
    match battle.outcome() {
        gen1::Outcome::Ongoing => squashed(score(&features(battle, match_ups), &WEIGHTS)),
        outcome => match outcome.winner() {
            Some(Side::One) => 1.0,
            Some(Side::Two) => 0.0,
            None => 0.5,
        },
    }
}
