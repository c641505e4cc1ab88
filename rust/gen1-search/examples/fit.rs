//! Fits the leaf weights to the ends of battles of the bot against itself, or the weights of choices to its searches.
//!
//!     cargo run --release -p gen1-search --example fit -- [BATTLES [SEED [choices]]]
//!
//! BATTLES (200) are played between sample teams, with 1,000 nodes for each choice. They are played side by side, one on each thread.
use gen1::{Battle, Choice, HpForm, Player, Side, Team, Teller};
use gen1_search::expected::{self, Scene};
use gen1_search::leaf::{self, MatchUps};
use gen1_search::league::{Bot, play};
use gen1_search::{Dice, Prior, ThinkOptions, Thought, think};
use rayon::prelude::*;
use std::process::ExitCode;

/// A position's features, and how its battle ended for side 1.
type Row = ([f64; leaf::COUNT], f64);

/// The features of the choices of one side, and how often a search made each.
type Choices = Vec<([f32; expected::COUNT], f32)>;

/// The sample teams of a battle with this number.
fn teams(prior: &Prior, dice: &mut Dice) -> [Team; 2] {
    [(); 2].map(|()| {
        let (specs, _) = &prior.teams()[dice.below(prior.teams().len())];
        Team::new(specs).expect("a sample team is a team")
    })
}

/// The positions of battles of the bot against itself.
fn rows(battles: u64, seed: u64) -> Vec<Row> {
    let prior = Prior::samples();
    let of_battle = |number: u64| {
        let mut dice = Dice::new((seed << 32) | number);
        let of = teams(&prior, &mut dice);
        let mut seen = Vec::new();
        let bots = [Bot::Nodes(1000); 2];
        let outcome = play(bots, of.each_ref(), &prior, &mut dice, |battle| {
            if !battle.is_over() {
                seen.push(leaf::features(battle, &MatchUps::of(battle)));
            }
        });
        let end = match outcome.winner() {
            Some(Side::One) => 1.0,
            Some(Side::Two) => 0.0,
            None => 0.5,
        };
        seen.into_iter().map(move |row| (row, end))
    };
    (0..battles)
        .into_par_iter()
        .flat_map_iter(of_battle)
        .collect()
}

/// Weights by logistic regression: gradient descent from those of the crate.
fn fitted(rows: &[Row]) -> [f64; leaf::COUNT] {
    let mut weights = leaf::WEIGHTS;
    for _ in 0..4000 {
        let mut slope = [0.0; leaf::COUNT];
        for (row, end) in rows {
            let off = end - 1.0 / (1.0 + (-leaf::score(row, &weights)).exp());
            slope
                .iter_mut()
                .zip(row)
                .for_each(|(sum, it)| *sum += off * it);
        }
        for (weight, sum) in weights.iter_mut().zip(slope) {
            // A little of each weight is taken away, so that features that are seldom met stay near 0.
            *weight += 0.5 * (sum / rows.len() as f64 - 0.002 * *weight);
        }
    }
    weights
}

/// The mean of what the ends of battles say against some weights, in nats.
fn loss(rows: &[Row], weights: &[f64; leaf::COUNT]) -> f64 {
    let of = |(row, end): &Row| {
        let value = leaf::squashed(leaf::score(row, weights)).clamp(1e-3, 1.0 - 1e-3);
        -(end * value.ln() + (1.0 - end) * (1.0 - value).ln())
    };
    rows.iter().map(of).sum::<f64>() / rows.len() as f64
}

/// Fits the leaf weights to the ends of battles of the bot against itself, and prints them.
fn fit(battles: u64, seed: u64) {
    let rows = rows(battles, seed);
    let weights = fitted(&rows);
    let (after, before) = (loss(&rows, &weights), loss(&rows, &leaf::WEIGHTS));
    println!(
        "{} positions; loss {after:.4}, before {before:.4}",
        rows.len()
    );
    println!("{weights:.2?}");
}

/// The searches of a battle of the bot against itself, in which one choice in eight is any: positions after bad choices are searched too.
fn searches(prior: &Prior, mut dice: Dice) -> Vec<Choices> {
    let of = teams(prior, &mut dice);
    let mut battle = Battle::new(&of[0], &of[1], dice.numbers());
    let mut tellers = Side::BOTH.map(|side| Teller::with_hp(side, HpForm::Exact));
    let mut players = [0, 1].map(|at| Player::with_foes(Side::BOTH[at], &of[at], 6));
    let (mut pair, mut found) = ([Choice::Pass; 2], Vec::new());
    loop {
        let update = battle.update(pair[0], pair[1]);
        let log = update.expect("both choices are offered").log();
        for (teller, player) in tellers.iter_mut().zip(&mut players) {
            let done = teller.report(&battle, &log, player);
            done.expect("the log is that of an update");
        }
        if battle.is_over() {
            return found;
        }
        pair = [0, 1].map(|at| {
            let offered = players[at].choices();
            let mut options = ThinkOptions::default();
            (options.seed, options.trees, options.nodes) = (dice.bits(), 1, 1000);
            let thought = think(&players[at], prior, &options).expect("a guess fits");
            if offered.len() > 1 {
                found.push(told(&battle, Side::BOTH[at], &thought));
            }
            match dice.below(8) {
                0 => offered[dice.below(offered.len())],
                _ => thought.draw(&mut dice),
            }
        });
    }
}

/// The features of each choice of a side, and how often a search made it.
fn told(battle: &Battle, side: Side, thought: &Thought) -> Choices {
    let match_ups = MatchUps::of(battle);
    let scene = Scene::of(battle, &match_ups);
    let of = |it: gen1::Offered| {
        let made = thought
            .choices
            .iter()
            .find(|made| made.choice == it.choice());
        let share = made.map_or(0.0, |made| made.probability as f32);
        (scene.features(side, it), share)
    };
    battle.offered_mask(side).iter().map(of).collect()
}

/// How probable each choice is by some weights.
fn probable(choices: &Choices, weights: &[f32; expected::COUNT]) -> Vec<f32> {
    let score = |(row, _): &([f32; expected::COUNT], f32)| {
        let products = row.iter().zip(weights).map(|(it, weight)| it * weight);
        products.sum::<f32>().exp()
    };
    let all: Vec<f32> = choices.iter().map(score).collect();
    let sum: f32 = all.iter().sum();
    all.into_iter().map(|it| it / sum).collect()
}

/// The mean of what searches say against some weights, in nats.
fn loss_of_choices(searches: &[Choices], weights: &[f32; expected::COUNT]) -> f32 {
    let of = |choices: &Choices| -> f32 {
        let both = choices.iter().zip(probable(choices, weights));
        both.map(|((_, share), it)| -share * it.max(1e-6).ln())
            .sum()
    };
    searches.iter().map(of).sum::<f32>() / searches.len() as f32
}

/// Weights of choices by multinomial logistic regression: gradient descent from those of the crate.
fn fitted_to_choices(searches: &[Choices]) -> [f32; expected::COUNT] {
    let slope = |weights: &[f32; expected::COUNT], searches: &[Choices]| {
        let mut slope = [0.0; expected::COUNT];
        for choices in searches {
            for ((row, share), it) in choices.iter().zip(probable(choices, weights)) {
                let both = slope.iter_mut().zip(row);
                both.for_each(|(sum, value)| *sum += (share - it) * value);
            }
        }
        slope
    };
    let mut weights = expected::WEIGHTS;
    for _ in 0..600 {
        let parts = searches.par_chunks(1 << 12);
        let parts: Vec<_> = parts.map(|part| slope(&weights, part)).collect();
        for (at, weight) in weights.iter_mut().enumerate() {
            let sum: f32 = parts.iter().map(|part| part[at]).sum();
            *weight += 2.0 * (sum / searches.len() as f32 - 1e-4 * *weight);
        }
    }
    weights
}

/// Fits the weights of choices to searches of the bot, and prints them.
fn fit_choices(battles: u64, seed: u64) {
    let prior = Prior::samples();
    let all = (0..battles).into_par_iter();
    let of_battle = |number: u64| searches(&prior, Dice::new((seed << 32) | number));
    let searches: Vec<Choices> = all.flat_map_iter(of_battle).collect();
    let weights = fitted_to_choices(&searches);
    let [after, before] = [&weights, &expected::WEIGHTS].map(|it| loss_of_choices(&searches, it));
    println!(
        "{} searches; loss {after:.4}, before {before:.4}",
        searches.len()
    );
    println!("{weights:.2?}");
}

fn main() -> ExitCode {
    let words: Vec<String> = std::env::args().skip(1).collect();
    let number =
        |at: usize, usual: u64| words.get(at).map_or(Some(usual), |word| word.parse().ok());
    let what = words.get(2).map(String::as_str);
    match (number(0, 200), number(1, 1), what, words.get(3)) {
        (Some(battles @ 1..), Some(seed), None, None) => fit(battles, seed),
        (Some(battles @ 1..), Some(seed), Some("choices"), None) => fit_choices(battles, seed),
        _ => {
            eprintln!("fit: [BATTLES [SEED [choices]]]");
            return ExitCode::from(2);
        }
    }
    ExitCode::SUCCESS
}
