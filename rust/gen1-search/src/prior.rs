//! What a side doesn't know: the foe's team, with guesses from teams with weights that fit what was seen, and hidden counts.
use crate::Dice;
use alloc::vec::Vec;
use core::fmt;
use gen1::layout::{self, ACTIVE, MEMBER, SIDE, member};
use gen1::{
    ArrayVec, AsleepBy, Battle, MemberSpec, MoveId, Player, SAMPLE_TEAMS, Seen, Side, Species,
    Team, TeamRefusal, sample_members,
};

/// How often a guess takes single members even if a whole team fits: one time in this many.
const APART: usize = 8;

/// Teams that the foe may have, with weights: what a search believes before the battle.
///
/// ```
/// use gen1_search::Prior;
///
/// let tauros = gen1::member("Tauros", &["Body Slam", "Hyper Beam"]).unwrap();
/// assert!(Prior::new(vec![(vec![tauros], 1.0)]).is_ok());
/// assert!(Prior::new(vec![]).is_err());
/// ```
#[derive(Clone, Debug)]
pub struct Prior {
    teams: Vec<(Vec<MemberSpec>, f64)>,
}

/// Why teams are not a prior.
#[derive(Clone, Copy, Debug, PartialEq, Eq)]
#[non_exhaustive]
pub enum PriorFault {
    /// There is no team.
    Empty,
    /// The team with this number, from 1, is refused.
    Team(usize, TeamRefusal),
    /// The weight of the team with this number is not a number above 0.
    Weight(usize),
}

impl fmt::Display for PriorFault {
    fn fmt(&self, f: &mut fmt::Formatter<'_>) -> fmt::Result {
        match self {
            PriorFault::Empty => f.write_str("a prior needs a team"),
            PriorFault::Team(number, why) => write!(f, "team {number}: {why}"),
            PriorFault::Weight(number) => {
                write!(f, "team {number}: its weight is not a number above 0")
            }
        }
    }
}

impl core::error::Error for PriorFault {}

impl Prior {
    /// Teams with weights. A team is as probable as its weight over the sum of all.
    ///
    /// # Errors
    ///
    /// The first [`PriorFault`] that applies.
    pub fn new(teams: Vec<(Vec<MemberSpec>, f64)>) -> Result<Self, PriorFault> {
        if teams.is_empty() {
            return Err(PriorFault::Empty);
        }
        for (at, (specs, weight)) in teams.iter().enumerate() {
            Team::new(specs).map_err(|why| PriorFault::Team(at + 1, why))?;
            if !(*weight > 0.0 && weight.is_finite()) {
                return Err(PriorFault::Weight(at + 1));
            }
        }
        Ok(Prior { teams })
    }

    /// The sample teams of the repository (examples/teams), all as probable.
    #[must_use]
    pub fn samples() -> Self {
        let teams = (1..=SAMPLE_TEAMS).filter_map(sample_members);
        Prior {
            teams: teams.map(|specs| (specs.to_vec(), 1.0)).collect(),
        }
    }

    /// The teams with their weights.
    #[must_use]
    pub fn teams(&self) -> &[(Vec<MemberSpec>, f64)] {
        &self.teams
    }

    /// A team that the foe of a player may have: first the members that appeared, in their order, then others.
    ///
    /// It is a team of the prior that has all that was seen, if there is one; one time in eight, and if there is none, its members are
    /// taken from different teams. Moves that were seen and that no team has are completed by others of the species. If the HP
    /// that the player saw rule out a member's maximum, the member gets less experience for HP, and other DVs if it needs them.
    ///
    /// # Errors
    ///
    /// The guessed members aren't a team. This is not known to happen.
    pub fn guess(&self, player: &Player, dice: &mut Dice) -> Result<Team, TeamRefusal> {
        let seen: Vec<&Seen> = player
            .foe()
            .members
            .iter()
            .filter(|it| it.species().is_some())
            .collect();
        let mut members: ArrayVec<MemberSpec, 6> = ArrayVec::new();
        let count = usize::from(player.foes().unwrap_or(6)).max(seen.len());
        let whole = self.fitting(&seen, dice);
        for seen in &seen {
            let of_team = whole.and_then(|specs| specs.iter().find(|spec| fits(spec, seen)));
            let spec = of_team
                .cloned()
                .unwrap_or_else(|| self.member_like(seen, dice));
            let level = seen.level;
            members.push(allowed(MemberSpec { level, ..spec }, seen, player));
        }
        if let Some(specs) = whole {
            let mut others: Vec<&MemberSpec> = specs
                .iter()
                .filter(|spec| !has(&members, spec.species))
                .collect();
            while members.len() < count && !others.is_empty() {
                members.push(others.swap_remove(dice.below(others.len())).clone());
            }
        }
        self.complete(&mut members, count, dice);
        Team::new(&members)
    }

    /// A team that has all that was seen; sometimes none though there is one.
    fn fitting(&self, seen: &[&Seen], dice: &mut Dice) -> Option<&[MemberSpec]> {
        let teams = self.teams.iter().filter(|(specs, _)| has_all(specs, seen));
        let (teams, weights): (Vec<_>, Vec<f64>) =
            teams.map(|(specs, weight)| (specs, *weight)).unzip();
        let is_apart = teams.is_empty() || dice.below(APART) == 0;
        (!is_apart).then(|| teams[dice.pick(&weights)].as_slice())
    }

    /// Adds members of any teams, with species that are not there yet while there are such.
    fn complete(&self, members: &mut ArrayVec<MemberSpec, 6>, count: usize, dice: &mut Dice) {
        while members.len() < count {
            let (mut specs, mut weights) = (Vec::new(), Vec::new());
            for (team, weight) in &self.teams {
                for spec in team.iter().filter(|spec| !has(members, spec.species)) {
                    specs.push(spec);
                    weights.push(*weight);
                }
            }
            if specs.is_empty() {
                return;
            }
            members.push(specs[dice.pick(&weights)].clone());
        }
    }

    /// A member of a species that knows the moves that were seen.
    fn member_like(&self, seen: &Seen, dice: &mut Dice) -> MemberSpec {
        let species = seen.species().unwrap_or_default();
        let (mut sets, mut weights) = (Vec::new(), Vec::new());
        for (team, weight) in &self.teams {
            for spec in team.iter().filter(|spec| spec.species == species) {
                sets.push(spec);
                weights.push(if fits(spec, seen) { *weight } else { 0.0 });
            }
        }
        if weights.iter().any(|weight| *weight > 0.0) {
            return sets[dice.pick(&weights)].clone();
        }
        let of_sets = sets
            .iter()
            .flat_map(|spec| spec.moves.iter().map(|(id, _)| *id));
        let mut moves: ArrayVec<(MoveId, u8), 4> = ArrayVec::new();
        for id in used(seen).chain(of_sets).chain(usual(species)) {
            if moves.iter().all(|(known, _)| *known != id) && moves.try_push((id, 3)).is_err() {
                break;
            }
        }
        MemberSpec {
            species,
            level: seen.level,
            dvs: [15; 4],
            exp: [65535; 5],
            moves,
        }
    }
}

/// The member, changed so that its maximum fits the HP that the player saw: with less experience for HP, or with other DVs too. It stays
/// unchanged if its maximum fits already, or if none does.
fn allowed(spec: MemberSpec, seen: &Seen, player: &Player) -> MemberSpec {
    let is_allowed = |spec: &MemberSpec| {
        let team = Team::new(core::slice::from_ref(spec));
        team.is_ok_and(|team| player.allows_max_hp(seen, team.members()[0].max_hp()))
    };
    if is_allowed(&spec) {
        return spec;
    }
    // The DV for HP has the lowest bit of each DV, and experience counts by a quarter of its root. With DVs of 15 and of 0 for HP, each
    // maximum of the species is there.
    let dvs = [spec.dvs, [15; 4], [14; 4]].into_iter();
    let mut others = dvs.flat_map(|dvs| (0..64).rev().map(move |quarter| (dvs, quarter)));
    let other = |(dvs, quarter): ([u8; 4], u16)| {
        let mut other = spec.clone();
        (other.dvs, other.exp[0]) = (dvs, 16 * quarter * quarter);
        is_allowed(&other).then_some(other)
    };
    others.find_map(other).unwrap_or(spec)
}

/// The battle with counts of sleep, confusion and Disable that are drawn, in place of the middle ones of `Battle::from_player`. A search that
/// knew them would play for the turn in which a member wakes.
///
/// A move of the foe puts to sleep for 1 to 7 turns, each as probable as the others, so that each number of turns is that those slept leave.
/// How many turns of the other counts are left is as probable as at any turn of a count whose first value is drawn as in the game.
pub fn with_drawn_counts(battle: &Battle, player: &Player, dice: &mut Dice) -> Battle {
    /// Where the counts are in an active block (docs/LAYOUT.md).
    const CONFUSION: usize = 22;
    const DISABLE: usize = 24;
    let mut bytes = *battle.as_bytes();
    for side in Side::BOTH {
        let (members, block) = bytes[layout::side(side)..][..SIDE].split_at_mut(ACTIVE);
        let seen = &player.public(side).members;
        for (member, seen) in members.chunks_exact_mut(MEMBER).zip(seen) {
            if seen.asleep_by() == Some(AsleepBy::Move) {
                let most = usize::from(7 - seen.slept.min(6));
                member[member::STATUS] = 1 + dice.below(most) as u8;
            }
        }
        let mut draw = |weights: &[f64]| 1 + dice.pick(weights) as u8;
        if block[CONFUSION] > 0 {
            block[CONFUSION] = draw(&[4.0, 4.0, 3.0, 2.0, 1.0]);
        }
        if block[DISABLE] > 0 {
            block[DISABLE] = draw(&[8.0, 7.0, 6.0, 5.0, 4.0, 3.0, 2.0, 1.0]);
        }
    }
    Battle::from_bytes(&bytes).unwrap_or_else(|_| battle.clone())
}

fn has(members: &[MemberSpec], species: Species) -> bool {
    members.iter().any(|spec| spec.species == species)
}

/// The moves that a member was seen to use, without Struggle.
fn used(seen: &Seen) -> impl Iterator<Item = MoveId> + '_ {
    seen.moves()
        .map(|(id, _)| id)
        .filter(|id| *id != MoveId::STRUGGLE)
}

fn fits(spec: &MemberSpec, seen: &Seen) -> bool {
    let knows = |id| spec.moves.iter().any(|(known, _)| *known == id);
    Some(spec.species) == seen.species() && used(seen).all(knows)
}

fn has_all(specs: &[MemberSpec], seen: &[&Seen]) -> bool {
    seen.iter()
        .all(|seen| specs.iter().any(|spec| fits(spec, seen)))
}

/// Moves to assume of a species that no team has: a strong one of each of its types, and two that many have.
fn usual(species: Species) -> impl Iterator<Item = MoveId> {
    /// In the order of the types' numbers.
    const STRONG: [MoveId; 15] = [
        MoveId::BODY_SLAM,
        MoveId::SUBMISSION,
        MoveId::DRILL_PECK,
        MoveId::SLUDGE,
        MoveId::EARTHQUAKE,
        MoveId::ROCK_SLIDE,
        MoveId::TWINEEDLE,
        MoveId::NIGHT_SHADE,
        MoveId::FIRE_BLAST,
        MoveId::SURF,
        MoveId::RAZOR_LEAF,
        MoveId::THUNDERBOLT,
        MoveId::PSYCHIC,
        MoveId::BLIZZARD,
        MoveId::DRAGON_RAGE,
    ];
    let of_types = species.types().map(|it| STRONG[usize::from(it.number())]);
    of_types
        .into_iter()
        .chain([MoveId::BODY_SLAM, MoveId::REST])
}
