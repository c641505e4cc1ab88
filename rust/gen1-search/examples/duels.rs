//! Duels at level 100: bounds of how often each of some members wins against each other one, by `solve`.
//!
//!     cargo run --release -p gen1-search --example duels -- [svg] [SECONDS [SPECIES ..]]
//!
//! Each species has its first set among the sample teams; without names all of them play. A duel takes at most SECONDS (5) of one thread.
//! Duels are solved side by side. A line has the two species, both bounds, the reason to stop and the positions, with tabs between them. `svg` prints a picture instead: a
//! row's species wins where a cell is blue and loses where it is red, and a pale cell is one of which little is known.
//!
//! A roll of damage has one class (the draws that do not knock out have one outcome), PP do not run out, and draws that are less probable
//! together than 1 of 1,000 are left out, and in the interval. So it is the interval of that game: the rest of a team, PP and the spread of
//! damage are not in it.
use gen1::{Battle, Choice, MemberSpec, OutcomeOptions, Team};
use gen1_search::{Interval, Pp, Prior, SolveOptions, Solver, Stopped};
use rayon::prelude::*;
use std::process::ExitCode;
use std::time::{Duration, Instant};

/// The first set of each species.
fn sets() -> Vec<MemberSpec> {
    let mut sets: Vec<MemberSpec> = Vec::new();
    for (specs, _) in Prior::samples().teams() {
        for spec in specs {
            if sets.iter().all(|it| it.species != spec.species) {
                sets.push(spec.clone());
            }
        }
    }
    sets
}

/// A duel that was searched.
struct Duel {
    one: usize,
    two: usize,
    stopped: Stopped,
    positions: usize,
    value: Interval,
}

fn duel(
    sets: &[&MemberSpec],
    one: usize,
    two: usize,
    time: Duration,
) -> Result<Duel, Box<dyn std::error::Error>> {
    let [first, second] = [one, two].map(|at| Team::new(std::slice::from_ref(sets[at])));
    let mut battle = Battle::new(&first?, &second?, [0; 10]);
    battle.update_silent(Choice::Pass, Choice::Pass)?;
    let mut options = SolveOptions::default();
    (options.pp, options.tolerance, options.memory) = (Pp::Endless, 0.02, 1 << 29);
    options.outcomes = OutcomeOptions::new()
        .with_damage_classes(1)
        .with_least_probability(0.001)?;
    let begun = Instant::now();
    let mut solver = Solver::new(&battle, options)?;
    let stopped = solver.run(|_| begun.elapsed() < time)?;
    let found = solver.progress();
    Ok(Duel {
        one,
        two,
        stopped,
        positions: found.positions,
        value: found.start,
    })
}

fn print_lines(sets: &[&MemberSpec], duels: &[Duel]) {
    for it in duels {
        let [one, two] = [it.one, it.two].map(|at| sets[at].species);
        let (Interval { low, high }, stopped) = (it.value, it.stopped);
        println!(
            "{one}\t{two}\t{low:.3}\t{high:.3}\t{stopped:?}\t{}",
            it.positions
        );
    }
}

/// The side of a cell, and the room for names.
const CELL: usize = 30;
const ROOM: usize = 80;

fn print_picture(sets: &[&MemberSpec], duels: &[Duel]) {
    let size = ROOM + CELL * sets.len();
    println!(
        r#"<svg xmlns="http://www.w3.org/2000/svg" width="{}" height="{size}" font-family="sans-serif" font-size="11">"#,
        size + CELL
    );
    for (at, spec) in sets.iter().enumerate() {
        let (place, name) = (ROOM + CELL * at + CELL / 2, spec.species);
        println!(
            r#"<text x="{}" y="{place}" text-anchor="end">{name}</text>"#,
            ROOM - 4
        );
        println!(
            r#"<text transform="translate({place} {}) rotate(-60)">{name}</text>"#,
            ROOM - 4
        );
    }
    for it in duels {
        cell(it.one, it.two, it.value);
        let Interval { low, high } = it.value;
        if it.one != it.two {
            let (low, high) = (1.0 - high, 1.0 - low);
            cell(it.two, it.one, Interval { low, high });
        }
    }
    println!("</svg>");
}

/// A cell: its colour is that of the middle of an interval, the paler the wider, and its number is the middle of a narrow one.
fn cell(row: usize, column: usize, value: Interval) {
    let (middle, known) = ((value.low + value.high) / 2.0, 1.0 - value.width());
    let colour = if middle < 0.5 { "#b2182b" } else { "#2166ac" };
    let strength = known * (2.0 * middle - 1.0).abs();
    let (x, y) = (ROOM + CELL * column, ROOM + CELL * row);
    println!(
        r#"<rect x="{x}" y="{y}" width="{CELL}" height="{CELL}" fill="{colour}" fill-opacity="{strength:.2}" stroke="silver"/>"#
    );
    if value.width() < 0.2 {
        let (x, y) = (x + CELL / 2, y + CELL / 2 + 4);
        println!(
            r#"<text x="{x}" y="{y}" text-anchor="middle">{:.0}</text>"#,
            100.0 * middle
        );
    }
}

fn main() -> ExitCode {
    let mut words: Vec<String> = std::env::args().skip(1).collect();
    let draws = words.first().is_some_and(|word| word == "svg");
    words.drain(..usize::from(draws));
    let names = words.split_off(words.len().min(1));
    let seconds = words.first().map_or(Ok(5.0), |word| word.parse::<f64>());
    let Ok(seconds @ 0.1..=86_400.0) = seconds else {
        eprintln!("duels: [svg] [SECONDS [SPECIES ..]], with 0.1 to 86,400 seconds");
        return ExitCode::from(2);
    };
    let (sets, time) = (sets(), Duration::from_secs_f64(seconds));
    let set_of = |name: &String| sets.iter().find(|it| it.species.name() == name);
    if let Some(name) = names.iter().find(|name| set_of(name).is_none()) {
        eprintln!("duels: no sample team has {name}");
        return ExitCode::from(2);
    }
    let some: Vec<&MemberSpec> = match names.is_empty() {
        true => sets.iter().collect(),
        false => names.iter().filter_map(set_of).collect(),
    };
    let pairs = (0..some.len()).flat_map(|one| (one..some.len()).map(move |two| (one, two)));
    let pairs: Vec<_> = pairs.collect();
    let solve = |(one, two)| duel(&some, one, two, time).map_err(|why| why.to_string());
    let duels: Result<Vec<Duel>, String> = pairs.into_par_iter().map(solve).collect();
    match duels {
        Ok(duels) if draws => print_picture(&some, &duels),
        Ok(duels) => print_lines(&some, &duels),
        Err(why) => {
            eprintln!("duels: {why}");
            return ExitCode::FAILURE;
        }
    }
    ExitCode::SUCCESS
}
