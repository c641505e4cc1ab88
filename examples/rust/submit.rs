//! Plays the room that standard input describes, and prints what `battle_tool room` does.
//!
//!     rustc --edition 2024 -O -L crates/gen1_c/out examples/rust/submit.rs -o submit
//!
//! The input is that of play.rs, with submissions instead of choices: each is a side, the number of the pair and the byte of a choice.
//! The program also checks two things: a spectator that is fed each log knows the outcome, and the odds of the moves of both first
//! members are the same in the battle and without one.
mod gen1;
mod numbers;

use gen1::{Battle, Log, Room, Spectator, Team};
use numbers::Numbers;
use std::io::{self, Write};
use std::process::ExitCode;

/// The line that is printed for a refused submission (docs/MECHANICS.md, "Lines"), by its code.
fn refusal(code: u8, number: u32) -> String {
    match code {
        24 => "|room|refused|1\n".to_string(),
        52 => format!("|room|refused|2|{number}\n"),
        _ => format!("|room|refused|{}\n", code - 50),
    }
}

/// Prints the lines of a log, and feeds it to the spectator, in two parts.
fn report(log: &Log, spectator: &mut Spectator, out: &mut impl Write) -> Result<(), String> {
    log.each_line(|line| out.write_all(line).expect("standard output"));
    let (first, second) = log.bytes().split_at(log.bytes().len() / 2);
    for part in [first, second] {
        spectator.feed(part).map_err(|code| format!("log {code}"))?;
    }
    Ok(())
}

/// Compares the odds of each move between both first members, which have just been sent out.
fn compare_odds(battle: &Battle, one: &Team, two: &Team) -> Result<(), String> {
    for id in 1..=165 {
        let between = gen1::odds_between(&one.members[0], &two.members[0], id);
        if battle.odds(1, id).ok() != between.ok() {
            return Err(format!("other odds of move {id}"));
        }
    }
    Ok(())
}

/// Runs the room, or returns the text of the first error.
fn run_room(input: &str, out: &mut impl Write) -> Result<(), String> {
    let mut numbers = Numbers::of(input);
    let (battle, [one, two]) = numbers.battle()?;
    let mut spectator = Spectator::new(&one, &two).map_err(|_| "team")?;
    let mut room = Room::new(battle);
    report(&room.log(), &mut spectator, out)?;
    compare_odds(&room.battle, &one, &two)?;
    while let Some(side) = numbers.next() {
        let number = numbers.next().ok_or("input")?;
        let choice = numbers.next().ok_or("input")?;
        let current = room.number;
        let offered = room.choices(side);
        match room.submit(side, number, choice) {
            Err(refused) => {
                write!(out, "{}", refusal(refused.0, current)).expect("standard output")
            }
            Ok(()) if !offered.contains(&choice) => {
                return Err("a choice was taken that is not offered".to_string());
            }
            Ok(()) if room.number == current => {
                writeln!(out, "|room|waiting").expect("standard output")
            }
            Ok(()) => {
                writeln!(out, "|room|advanced").expect("standard output");
                report(&room.log(), &mut spectator, out)?;
            }
        }
        let result = room.battle.result();
        if spectator.outcome != result.0 {
            return Err(format!(
                "the spectator knows of outcome {}, not {}",
                spectator.outcome, result.0
            ));
        }
    }
    Ok(())
}

fn main() -> ExitCode {
    let input = io::read_to_string(io::stdin()).expect("standard input");
    match run_room(&input, &mut io::stdout().lock()) {
        Ok(()) => ExitCode::SUCCESS,
        Err(fault) => {
            eprintln!("error: {fault}");
            ExitCode::FAILURE
        }
    }
}
