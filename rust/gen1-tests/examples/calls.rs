//! What each call costs in Rust. `bench/calls` runs it and says what the rows are.
//!
//! cargo run --release -p gen1-tests --example calls -- TEAM_ONE TEAM_TWO

use gen1::text::team_in_text;
use gen1::{Battle, Choice, LogBuf, Side, Team};
use std::hint::black_box;
use std::time::Instant;

const SEED: [u8; 10] = [1, 36, 255, 7, 31, 100, 179, 254, 127, 10];
const BATCH: usize = 1024;
const STEPS: usize = 60;
const BEFORE: usize = 20;

fn team_of(path: &str) -> Team {
    let text = std::fs::read(path).unwrap_or_else(|error| panic!("{path}: {error}"));
    team_in_text(&text).unwrap_or_else(|fault| panic!("{path}: {fault}"))
}

/// The choice of a side in an update: that at (7 * update + side) modulo the number offered.
fn chosen(battle: &Battle, side: Side, update: usize) -> Choice {
    let choices = battle.choices(side);
    choices[(7 * update + if side == Side::One { 1 } else { 2 }) % choices.len()]
}

/// Prints the nanoseconds of a call: the least of five runs of 50 ms or more.
fn time_of<T>(row: &str, mut call: impl FnMut() -> T) {
    let mut least = f64::MAX;
    for _ in 0..5 {
        let begun = Instant::now();
        let mut calls = 0;
        while begun.elapsed().as_millis() < 50 {
            for _ in 0..1000 {
                black_box(call());
            }
            calls += 1000;
        }
        least = least.min(begun.elapsed().as_secs_f64() / f64::from(calls));
    }
    println!("{row}\t{:.1}", least * 1e9);
}

/// A step of a batch: a choice of each battle and side from its mask, and the update.
fn batch(start: &Battle) {
    let mut battles = vec![start.clone(); BATCH];
    let mut draw = 1_u32;
    let begun = Instant::now();
    for _ in 0..STEPS {
        for battle in &mut battles {
            let drawn = Side::BOTH.map(|side| {
                draw = draw.wrapping_mul(1_664_525).wrapping_add(1_013_904_223);
                let mask = battle.offered_mask(side);
                mask.get((draw >> 16) as usize % mask.len().max(1))
            });
            if let [Some(one), Some(two)] = drawn {
                let _ = battle.update_silent(one, two);
            }
        }
    }
    println!(
        "batch\t{:.1}",
        begun.elapsed().as_secs_f64() * 1e9 / (BATCH * STEPS) as f64
    );
}

fn main() {
    let paths: Vec<String> = std::env::args().skip(1).collect();
    let (one, two) = (team_of(&paths[0]), team_of(&paths[1]));
    let start = Battle::new(&one, &two, SEED);
    let mut middle = start.clone();
    for update in 0..BEFORE {
        let pair = Side::BOTH.map(|side| chosen(&middle, side, update));
        middle
            .update_silent(pair[0], pair[1])
            .expect("choices that are offered");
    }
    let pair = Side::BOTH.map(|side| chosen(&middle, side, BEFORE));
    let mut log = LogBuf::new();
    time_of("new", || Battle::new(black_box(&one), &two, SEED));
    time_of("choices", || black_box(&middle).choices(Side::One));
    time_of("copy", || black_box(&middle).clone());
    time_of("update", || {
        let mut battle = black_box(&middle).clone();
        battle.update_with(pair[0], pair[1], &mut log)
    });
    time_of("events", || {
        let mut battle = black_box(&middle).clone();
        let update = battle.update(pair[0], pair[1]);
        update.map(|update| update.events().iter().map(black_box).count())
    });
    time_of("state", || black_box(&middle).state());
    batch(&start);
}
