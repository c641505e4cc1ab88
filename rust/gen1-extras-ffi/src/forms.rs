//! The options of the searches as C passes them, and teams as bytes.
use alloc::format;
use alloc::string::{String, ToString};
use alloc::vec::Vec;
use gen1::{ArrayVec, MemberSpec, MoveId, OutcomeOptions, Species};
use gen1_search::{Pp, Prior, SolveOptions, ThinkOptions};

/// The options of `gen1_search_think`.
#[repr(C)]
#[derive(Clone, Copy, Debug)]
pub struct ThinkForm {
    /// The most nodes.
    pub nodes: u64,
    /// The most milliseconds; 0 for no such end. A module of WebAssembly ignores them.
    pub milliseconds: u64,
    /// The seed of the search.
    pub seed: u64,
    /// The number of trees, from 1.
    pub trees: u32,
    /// The guesses of the foe's team in each tree, from 1.
    pub guesses: u32,
    /// The number of threads, from 1. A module of WebAssembly has one.
    pub threads: u32,
    /// Ignored.
    pub unused: u32,
    /// The teams that the foe may have: `count` structs `gen1_team`. With a count of 0 they are the sample teams.
    pub teams: *const [u8; TEAM],
    /// The weight of each team, above 0.
    pub weights: *const f64,
    /// How many teams there are.
    pub count: usize,
}

// SAFETY: the pointers are read before the search begins, by `prior` alone.
unsafe impl Sync for ThinkForm {}

impl ThinkForm {
    /// The options, without the prior.
    pub(crate) fn options(&self) -> Result<ThinkOptions<'static>, String> {
        let mut options = ThinkOptions::default();
        (options.nodes, options.seed) = (self.nodes, self.seed);
        (options.trees, options.guesses) = (self.trees as usize, self.guesses as usize);
        #[cfg(feature = "threads")]
        if self.milliseconds > 0 {
            options.time = Some(core::time::Duration::from_millis(self.milliseconds));
        }
        Ok(options)
    }

    /// The teams that the foe may have.
    ///
    /// # Safety
    ///
    /// `teams` and `weights` point to `count` items each, or `count` is 0.
    pub(crate) unsafe fn prior(&self) -> Result<Prior, String> {
        if self.count == 0 {
            return Ok(Prior::samples());
        }
        // SAFETY: the caller guarantees it.
        let (teams, weights) = unsafe {
            (
                core::slice::from_raw_parts(self.teams, self.count),
                core::slice::from_raw_parts(self.weights, self.count),
            )
        };
        let mut read = Vec::with_capacity(self.count);
        for (number, (team, weight)) in (1..).zip(teams.iter().zip(weights)) {
            let specs = specs_of(team)
                .ok_or_else(|| format!("team {number} has a number of no species or move"))?;
            read.push((specs, *weight));
        }
        Prior::new(read).map_err(|why| why.to_string())
    }
}

/// The sizes of a `gen1_team` and of its members.
const TEAM: usize = 6 * MEMBER + 2;
const MEMBER: usize = 24;

/// The members of a `gen1_team`; `None` where a number is that of no species or move.
fn specs_of(team: &[u8; TEAM]) -> Option<Vec<MemberSpec>> {
    let members = team[..6 * MEMBER].chunks_exact(MEMBER);
    members
        .take(usize::from(team[6 * MEMBER]))
        .map(spec_of)
        .collect()
}

/// A `gen1_member`: species, level, four DVs, four moves, their PP ups, and five numbers of experience.
fn spec_of(member: &[u8]) -> Option<MemberSpec> {
    let mut moves = ArrayVec::new();
    for (id, ups) in member[6..10]
        .iter()
        .zip(&member[10..14])
        .filter(|(id, _)| **id > 0)
    {
        moves.push((MoveId::new(*id)?, *ups));
    }
    let exp = |at: usize| u16::from_ne_bytes([member[14 + 2 * at], member[15 + 2 * at]]);
    Some(MemberSpec {
        species: Species::new(member[0])?,
        level: member[1],
        dvs: core::array::from_fn(|at| member[2 + at]),
        exp: core::array::from_fn(exp),
        moves,
    })
}

/// The options of `gen1_search_solve`.
#[repr(C)]
#[derive(Clone, Copy, Debug)]
pub struct SolveForm {
    /// The width of the interval at which to stop.
    pub tolerance: f64,
    /// The draws that are left out are less probable together than this, 0 for none.
    pub least: f64,
    /// The most bytes of memory.
    pub memory: u64,
    /// The most milliseconds; 0 for no such end.
    pub milliseconds: u64,
    /// The most sweeps.
    pub sweeps: u32,
    /// The number of threads, from 1.
    pub threads: u32,
    /// The classes of damage of each roll; 0 for each number.
    pub classes: u8,
    /// 1 if each move keeps its PP, else 0.
    pub endless: u8,
}

impl SolveForm {
    pub(crate) fn options(&self) -> Result<SolveOptions, String> {
        let mut options = SolveOptions::default();
        options.pp = if self.endless == 0 {
            Pp::Counted
        } else {
            Pp::Endless
        };
        options.outcomes = OutcomeOptions::new()
            .with_damage_classes(self.classes)
            .with_least_probability(self.least)
            .map_err(|why| why.to_string())?;
        options.tolerance = self.tolerance;
        options.memory = usize::try_from(self.memory).unwrap_or(usize::MAX);
        options.sweeps = self.sweeps;
        Ok(options)
    }

    /// Says whether there is time left.
    #[cfg(feature = "threads")]
    pub(crate) fn clock(&self) -> impl Fn() -> bool + use<> {
        let (begun, most) = (std::time::Instant::now(), self.milliseconds);
        move || most == 0 || begun.elapsed().as_millis() < u128::from(most)
    }

    #[cfg(not(feature = "threads"))]
    pub(crate) fn clock(&self) -> impl Fn() -> bool + use<> {
        || true
    }
}
