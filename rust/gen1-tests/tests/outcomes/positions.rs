//! Positions of random battles: their outcomes against all strings of bytes, against samples, and against their ways.
use crate::{ALL, Bytes, List, ONE, TWO, expect_sums_of_ways};
use gen1::generated::events::{LogBuf, Silent};
use gen1::generated::layout::Packed;
use gen1::generated::machine::{Choice, Request, Side};
use gen1::generated::offers::offered;
use gen1::generated::outcomes::{OutcomeOptions, Ways, plain, play};
use gen1::generated::rolls::{ByteTest, Look, Rolls};
use gen1::generated::stats::{MemberSpec, Team};
use gen1::generated::tables::{MoveId, Species};
use std::collections::HashMap;

/// A position of a battle, with a choice of each side.
struct Position {
    battle: Packed,
    one: Choice,
    two: Choice,
}

fn team(random: &mut Bytes) -> Team {
    loop {
        let specs: [MemberSpec; 6] = std::array::from_fn(|_| {
            let mut spec = MemberSpec {
                species: Species::new(1 + random.below(151) as u8).unwrap(),
                level: if random.below(2) == 0 {
                    100
                } else {
                    30 + random.below(71) as u8
                },
                dvs: std::array::from_fn(|_| random.below(16) as u8),
                exp: [65535; 5],
                ..Default::default()
            };
            while spec.moves.len() < 4 {
                let id = MoveId::new(1 + random.below(164) as u8).unwrap();
                if spec.moves.iter().all(|(other, _)| *other != id) {
                    spec.moves.push((id, 3));
                }
            }
            spec
        });
        // Some moves are left out of teams.
        if let Ok(team) = Team::new(&specs) {
            return team;
        }
    }
}

fn chosen(battle: &Packed, side: Side, random: &mut Bytes) -> Choice {
    let choices = offered(battle, side);
    let moves: Vec<Choice> = choices
        .iter()
        .copied()
        .filter(|choice| matches!(choice, Choice::Move(_)))
        .collect();
    if moves.is_empty() || random.below(8) == 0 {
        choices[random.below(choices.len())]
    } else {
        moves[random.below(moves.len())]
    }
}

/// Positions of random battles, a few of each.
fn positions(count: usize, random: &mut Bytes) -> Vec<Position> {
    let mut found = Vec::new();
    while found.len() < count {
        let mut battle = Packed::new(&team(random), &team(random), [0; 10]);
        while !battle.outcome().is_over() {
            let [one, two] = [ONE, TWO].map(|side| chosen(&battle, side, random));
            if random.below(12) == 0 {
                found.push(Position {
                    battle: battle.clone(),
                    one,
                    two,
                });
            }
            let mut bytes = random.clone();
            bytes.left = 0;
            random.next();
            play(&mut battle, one, two, bytes, &mut Silent);
        }
    }
    found.truncate(count);
    found
}

/// Counts the draws, and whether one was a search. Its bytes are those of a string, and then 0.
struct These {
    bytes: [u8; 4],
    at: usize,
    searched: bool,
}

impl Rolls for These {
    fn draw(&mut self) -> u8 {
        self.at += 1;
        self.bytes.get(self.at - 1).copied().unwrap_or(0)
    }

    fn until_as(&mut self, test: ByteTest, _look: Look) -> Option<u8> {
        self.searched = true;
        (0..=255).find(|&byte| test.passes(byte))
    }
}

/// The outcomes of all strings of this many bytes, with the number of strings. `None`: an update may search, or draws more bytes.
fn by_all_strings(it: &Position, length: usize) -> Option<HashMap<Vec<u8>, u128>> {
    let mut counts = HashMap::new();
    for string in 0..1u32 << (8 * length) {
        let mut battle = it.battle.clone();
        let bytes = These {
            bytes: string.to_le_bytes(),
            at: 0,
            searched: false,
        };
        let left = play(&mut battle, it.one, it.two, bytes, &mut Silent);
        if left.searched || left.at > length {
            return None;
        }
        *counts.entry(battle.as_bytes().to_vec()).or_default() += 1;
    }
    Some(counts)
}

fn all_strings_give_the_same(wanted: [usize; 4], random: &mut Bytes) {
    let mut left = wanted;
    while left.iter().any(|&left| left > 0) {
        for it in positions(200, random) {
            let Some((length, counts)) = (0..=3).find_map(|length| {
                if left[length] > 0 {
                    by_all_strings(&it, length).map(|counts| (length, counts))
                } else {
                    None
                }
            }) else {
                continue;
            };
            left[length] -= 1;
            let list = List::of(&it.battle, it.one, it.two);
            let weights = list.weights();
            assert_eq!(counts.len(), weights.len());
            for (bytes, count) in &counts {
                // count of 256 ^ length is weight of whole.
                assert_eq!(
                    count * list.outcomes.whole,
                    weights[&bytes[..]] << (8 * length)
                );
            }
        }
    }
}

#[test]
fn all_strings_of_bytes() {
    all_strings_give_the_same([20, 20, 20, 0], &mut Bytes::new(3));
}

#[test]
#[ignore = "takes a minute"]
fn all_strings_of_three_bytes() {
    all_strings_give_the_same([100, 200, 200, 12], &mut Bytes::new(4));
}

/// The upper tail of chi-square, by Wilson and Hilferty.
fn tail(chi: f64, free: f64) -> f64 {
    let x = (chi / free).powf(1.0 / 3.0);
    let z = (x - (1.0 - 2.0 / (9.0 * free))) / (2.0 / (9.0 * free)).sqrt();
    // 1 minus the normal distribution.
    let t = 1.0 / (1.0 + 0.231_641_9 * z.abs());
    let d = 0.398_942_3 * (-z * z / 2.0).exp();
    let p = d
        * t
        * (0.319_381_5 + t * (-0.356_563_8 + t * (1.781_478 + t * (-1.821_256 + t * 1.330_274))));
    if z > 0.0 { p } else { 1.0 - p }
}

/// The tail of chi-square of samples by independent bytes. Outcomes that are expected fewer than eight times are one cell. `None`: there
/// is one cell.
fn tail_of_samples(it: &Position, samples: u32, random: &mut Bytes) -> Option<f64> {
    let list = List::of(&it.battle, it.one, it.two);
    let weights = list.weights();
    let mut seen: HashMap<Vec<u8>, u32> = HashMap::new();
    for _ in 0..samples {
        let mut battle = it.battle.clone();
        *random = play(&mut battle, it.one, it.two, random.clone(), &mut Silent);
        *seen.entry(battle.as_bytes().to_vec()).or_default() += 1;
    }
    for bytes in seen.keys() {
        assert!(
            weights.contains_key(&bytes[..]),
            "an outcome that is not listed"
        );
    }
    let (mut chi, mut cells, mut rare) = (0.0, 0, (0.0, 0.0));
    let add = |chi: &mut f64, expected: f64, got: f64| *chi += (got - expected).powi(2) / expected;
    for (&bytes, &weight) in &weights {
        let expected = weight as f64 / list.outcomes.whole as f64 * f64::from(samples);
        let got = f64::from(seen.get(bytes).copied().unwrap_or(0));
        if expected < 8.0 {
            rare = (rare.0 + expected, rare.1 + got);
        } else {
            add(&mut chi, expected, got);
            cells += 1;
        }
    }
    if rare.0 >= 8.0 {
        add(&mut chi, rare.0, rare.1);
        cells += 1;
    }
    (cells > 1).then(|| tail(chi, f64::from(cells - 1)))
}

fn samples_fall_on_the_list(count: usize, samples: u32, random: &mut Bytes) {
    let mut tails = Vec::new();
    while tails.len() < count {
        for it in positions(50, random) {
            if matches!(it.battle.request(ONE), Request::Move) {
                tails.extend(tail_of_samples(&it, samples, random));
            }
        }
    }
    tails.sort_by(f64::total_cmp);
    let under =
        |bound: f64| tails.iter().filter(|&&tail| tail < bound).count() as f64 / tails.len() as f64;
    println!(
        "{} positions: least {:.5}, under 0.1: {:.3}, under 0.5: {:.3}, under 0.9: {:.3}",
        tails.len(),
        tails[0],
        under(0.1),
        under(0.5),
        under(0.9)
    );
    // The seed is fixed. The bounds are some four standard errors away.
    let error = 4.0 / (tails.len() as f64).sqrt();
    for bound in [0.1f64, 0.5, 0.9] {
        assert!(
            (under(bound) - bound).abs() < error * (bound * (1.0 - bound)).sqrt() + 0.01,
            "{bound}"
        );
    }
    assert!(tails[0] > 0.01 / tails.len() as f64);
}

#[test]
fn samples_by_independent_bytes() {
    samples_fall_on_the_list(40, 10_000, &mut Bytes::new(99));
}

#[test]
#[ignore = "takes minutes"]
fn many_samples_by_independent_bytes() {
    samples_fall_on_the_list(200, 200_000, &mut Bytes::new(100));
}

#[test]
fn ways_sum_to_the_outcomes() {
    for it in positions(60, &mut Bytes::new(7)) {
        for damage_classes in [0, 1, 3] {
            let options = OutcomeOptions {
                damage_classes,
                ..ALL
            };
            expect_sums_of_ways(options, &it.battle, it.one, it.two);
        }
    }
}

/// A list with a least probability has some of the battles of the whole list, each with a part of its weight. A way that has at least this
/// probability by itself is not left out.
#[test]
fn what_is_left_out_of_positions() {
    let mut fewer = 0;
    for it in positions(60, &mut Bytes::new(9)) {
        let all = List::of(&it.battle, it.one, it.two);
        let (weights, whole) = (all.weights(), all.outcomes.whole);
        for least in [1u32 << 12, 1 << 22, 1 << 26] {
            let list = List::with(OutcomeOptions { least, ..ALL }, &it.battle, it.one, it.two);
            let part = |weight: u128, of: u128| weight as f64 / of as f64;
            let listed = list.weights();
            for (bytes, &weight) in &listed {
                assert!(
                    part(weight, list.outcomes.whole)
                        <= part(weights[bytes], whole) * (1.0 + 1e-12)
                );
            }
            fewer += weights.len() - listed.len();
            let mut least_weights: HashMap<Vec<u8>, f64> = HashMap::new();
            let mut ways = Ways::new(&it.battle, it.one, it.two, ALL).unwrap();
            let mut next = it.battle.clone();
            while let Some(chance) = ways.next(&mut next, &mut Silent).unwrap() {
                if part(chance.num, chance.whole) * 4_294_967_296.0 >= f64::from(least) {
                    *least_weights.entry(next.as_bytes().to_vec()).or_default() +=
                        part(chance.num, chance.whole);
                }
            }
            for (bytes, kept) in least_weights {
                assert!(part(listed[&bytes[..]], list.outcomes.whole) >= kept * (1.0 - 1e-12));
            }
        }
    }
    assert!(fewer > 1000, "{fewer}");
}

/// A walk in a plain struct has the same ways: battles, probabilities and logs.
#[test]
fn plain_walks_have_the_same_ways() {
    for it in positions(20, &mut Bytes::new(8)) {
        for classes in [0, 3] {
            let options = OutcomeOptions {
                damage_classes: classes,
                ..ALL
            };
            let mut ways = Ways::new(&it.battle, it.one, it.two, options).unwrap();
            let mut walk = plain::first(&it.battle, it.one.byte(), it.two.byte(), classes);
            let (mut next, mut other) = (it.battle.clone(), it.battle.clone());
            loop {
                let (mut log, mut told) = (LogBuf::new(), LogBuf::new());
                let chance = ways.next(&mut next, &mut log).unwrap();
                assert_eq!(
                    plain::next(&mut walk, &mut other, &mut told).unwrap(),
                    chance
                );
                if chance.is_none() {
                    break;
                }
                assert_eq!((next.as_bytes(), log), (other.as_bytes(), told));
            }
        }
    }
}
