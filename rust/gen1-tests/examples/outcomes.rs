//! Lists the outcomes of positions of one kind. `bench/outcomes` counts its instructions, and says what the kinds are.
//!
//! cargo run --release -p gen1-tests --example outcomes -- KIND CALLS [CLASSES [LEAST]]

use gen1::generated::engine::packed::update_silent;
use gen1::generated::layout::Packed;
use gen1::generated::machine::{Choice, Side};
use gen1::generated::offers::offered;
use gen1::generated::outcomes::{OutcomeOptions, Outcomes, Successor, list_outcomes};
use gen1::generated::stats::{MemberSpec, Team};
use gen1::generated::tables::{MoveId, Species};
use std::hint::black_box;

/// Room for all outcomes of any position that is known.
const PLACES: usize = 1 << 16;
/// One of this many positions is taken.
const EVERY: u64 = 8;

/// Members as people play them.
const SETS: [(&str, [&str; 4]); 12] = [
    (
        "Tauros",
        ["Body Slam", "Hyper Beam", "Blizzard", "Earthquake"],
    ),
    ("Snorlax", ["Body Slam", "Reflect", "Rest", "Ice Beam"]),
    (
        "Chansey",
        ["Ice Beam", "Thunderbolt", "Thunder Wave", "Soft-Boiled"],
    ),
    (
        "Exeggutor",
        ["Psychic", "Sleep Powder", "Stun Spore", "Explosion"],
    ),
    (
        "Starmie",
        ["Blizzard", "Thunderbolt", "Thunder Wave", "Recover"],
    ),
    (
        "Alakazam",
        ["Psychic", "Seismic Toss", "Thunder Wave", "Recover"],
    ),
    (
        "Zapdos",
        ["Thunderbolt", "Drill Peck", "Thunder Wave", "Agility"],
    ),
    (
        "Rhydon",
        ["Earthquake", "Rock Slide", "Body Slam", "Substitute"],
    ),
    ("Jynx", ["Lovely Kiss", "Blizzard", "Psychic", "Rest"]),
    (
        "Gengar",
        ["Hypnosis", "Thunderbolt", "Night Shade", "Explosion"],
    ),
    ("Cloyster", ["Blizzard", "Clamp", "Hyper Beam", "Explosion"]),
    (
        "Persian",
        ["Slash", "Bubble Beam", "Thunderbolt", "Hyper Beam"],
    ),
];
/// Members with moves of several hits and moves that confuse.
const SEVERAL: [(&str, [&str; 4]); 6] = [
    (
        "Cloyster",
        ["Spike Cannon", "Supersonic", "Ice Beam", "Surf"],
    ),
    (
        "Chansey",
        ["Double Slap", "Sing", "Thunder Wave", "Soft-Boiled"],
    ),
    (
        "Jolteon",
        ["Pin Missile", "Double Kick", "Thunderbolt", "Thunder Wave"],
    ),
    (
        "Fearow",
        ["Fury Attack", "Drill Peck", "Double-Edge", "Agility"],
    ),
    (
        "Gengar",
        ["Confuse Ray", "Hypnosis", "Thunderbolt", "Night Shade"],
    ),
    ("Tentacruel", ["Supersonic", "Wrap", "Blizzard", "Surf"]),
];

/// A xorshift.
struct Numbers(u64);

impl Numbers {
    fn below(&mut self, bound: usize) -> usize {
        self.0 ^= self.0 << 13;
        self.0 ^= self.0 >> 7;
        self.0 ^= self.0 << 17;
        (self.0 >> 6) as usize % bound
    }

    fn seed(&mut self) -> [u8; 10] {
        std::array::from_fn(|_| self.below(256) as u8)
    }
}

/// How positions are made: of which members the teams are and of how many, and how often of a hundred a side moves that may also switch
/// (`None`: each choice has the same chance).
struct Kind {
    sets: &'static [(&'static str, [&'static str; 4])],
    members: usize,
    moves: Option<usize>,
}

fn kind_of(name: &str) -> Kind {
    match name {
        "random" => Kind {
            sets: &SETS,
            members: 6,
            moves: None,
        },
        "moves" => Kind {
            sets: &SETS,
            members: 6,
            moves: Some(85),
        },
        "endgames" => Kind {
            sets: &SETS,
            members: 1,
            moves: None,
        },
        "several" => Kind {
            sets: &SEVERAL,
            members: 6,
            moves: Some(85),
        },
        _ => panic!("the kinds are random, moves, endgames and several"),
    }
}

fn team(kind: &Kind, random: &mut Numbers) -> Team {
    let mut left: Vec<_> = kind.sets.to_vec();
    let specs: Vec<MemberSpec> = (0..kind.members)
        .map(|_| {
            let (species, moves) = left.swap_remove(random.below(left.len()));
            let mut spec = MemberSpec {
                species: Species::from_name(species).unwrap(),
                level: 100,
                dvs: [15; 4],
                exp: [65535; 5],
                ..Default::default()
            };
            for name in moves {
                spec.moves.push((
                    MoveId::from_name(name).unwrap_or_else(|| panic!("{name}")),
                    3,
                ));
            }
            spec
        })
        .collect();
    Team::new(&specs).unwrap()
}

fn chosen(battle: &Packed, side: Side, kind: &Kind, random: &mut Numbers) -> Choice {
    let choices = offered(battle, side);
    let moves: Vec<Choice> = choices
        .iter()
        .copied()
        .filter(|choice| matches!(choice, Choice::Move(_)))
        .collect();
    match kind.moves {
        Some(percent) if !moves.is_empty() && random.below(100) < percent => {
            moves[random.below(moves.len())]
        }
        _ => choices[random.below(choices.len())],
    }
}

/// The call that is counted.
#[inline(never)]
fn list(
    battle: &Packed,
    pair: (Choice, Choice),
    options: OutcomeOptions,
    successors: &mut [Successor],
    table: &mut [u32],
) -> Outcomes {
    black_box(list_outcomes(battle, pair, options, successors, table).unwrap())
}

fn main() {
    let words: Vec<String> = std::env::args().skip(1).collect();
    let kind = kind_of(&words[0]);
    let calls: usize = words[1].parse().unwrap();
    let options = OutcomeOptions {
        damage_classes: words.get(2).map_or(0, |word| word.parse().unwrap()),
        least: words
            .get(3)
            .map_or(0.0, |word| word.parse::<f64>().unwrap() * 4_294_967_296.0)
            as u32,
    };
    let mut random = Numbers(0x9E37_79B9_7F4A_7C15);
    let mut successors: Vec<Successor> = Vec::new();
    let mut found: Vec<(u32, usize)> = Vec::new();
    let mut update: u64 = 0;
    while found.len() < calls {
        let mut battle = Packed::new(
            &team(&kind, &mut random),
            &team(&kind, &mut random),
            random.seed(),
        );
        successors.resize_with(PLACES, || Successor::new(battle.clone(), 0));
        while !battle.outcome().is_over() && found.len() < calls {
            let [one, two] = Side::BOTH.map(|side| chosen(&battle, side, &kind, &mut random));
            update += 1;
            if update % EVERY == 0 {
                // With a table of twice as many places as there are outcomes, which a call that is not counted finds.
                let count = list_outcomes(
                    &battle,
                    (one, two),
                    options,
                    &mut successors,
                    &mut vec![0; 2 * PLACES],
                )
                .unwrap()
                .count;
                let outcomes = list(
                    &battle,
                    (one, two),
                    options,
                    &mut successors,
                    &mut vec![0; 2 * count],
                );
                found.push((outcomes.ways, outcomes.count));
            }
            update_silent(&mut battle, one, two).unwrap();
        }
    }
    let ways: u64 = found.iter().map(|it| u64::from(it.0)).sum();
    let count: usize = found.iter().map(|it| it.1).sum();
    found.sort_unstable();
    // Calls, ways, outcomes, and of the ways of a call the median and the most.
    println!(
        "{} {} {} {} {}",
        found.len(),
        ways,
        count,
        found[found.len() / 2].0,
        found[found.len() - 1].0
    );
}
