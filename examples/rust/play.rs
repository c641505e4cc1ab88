//! Plays the battle that standard input describes, and prints its lines as `battle_tool run` does.
//!
//!     rustc --edition 2024 -O -L crates/gen1_c/out examples/rust/play.rs -o play
//!     ./play < examples/tauros.txt
//!
//! The input is decimal numbers separated by white space, as described in examples/c/play.c.
mod gen1;
mod numbers;

use numbers::Numbers;
use std::io::{self, Write};
use std::process::ExitCode;

/// Plays the battle, or returns the text of the first error.
fn run_battle(input: &str, out: &mut impl Write) -> Result<(), String> {
    let mut numbers = Numbers::of(input);
    let (mut battle, _) = numbers.battle()?;
    let mut pair = 0;
    while let Some(choice) = numbers.next() {
        let other = numbers.next().ok_or("input")?;
        let log = battle
            .update(choice, other)
            .map_err(|refused| format!("pair {pair} refused {}", refused.0))?;
        log.each_line(|line| out.write_all(line).expect("standard output"));
        pair += 1;
    }
    Ok(())
}

fn main() -> ExitCode {
    let input = io::read_to_string(io::stdin()).expect("standard input");
    match run_battle(&input, &mut io::stdout().lock()) {
        Ok(()) => ExitCode::SUCCESS,
        Err(fault) => {
            eprintln!("error: {fault}");
            ExitCode::FAILURE
        }
    }
}
