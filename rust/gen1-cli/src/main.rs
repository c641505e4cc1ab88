//! First-generation link battles at the command line (docs/PROGRAM.md).
#![deny(unsafe_code)]

mod batch;
mod bench;
mod bot;
mod calc;
mod closed;
mod commands;
mod explain;
mod fault;
mod files;
mod follow;
mod game;
mod help;
mod input;
mod json;
mod league;
mod play;
mod random;
mod replay;
mod screen;
mod search;
mod shell;
mod showdown;
mod team;
mod words;

use clap::Parser;
use fault::Fault;
use input::{Given, Input};
use std::io::IsTerminal;
use std::process::ExitCode;
use words::{Battle, Command, Words};

/// Reads the input of a battle and runs a command on it. The explanation names unknown keys.
fn on_battle(of: &Battle, run: impl FnOnce(&Given) -> Result<(), Fault>) -> Result<(), Fault> {
    let given = Given::read(&of.input, &of.terms)?;
    noted(&of.input, &given.notes, run(&given))
}

/// Adds notes to an error. Without an error they are printed if errors are explained.
fn noted(input: &Input, notes: &[String], done: Result<(), Fault>) -> Result<(), Fault> {
    match done {
        Err(fault) => Err(fault.with_notes(notes)),
        Ok(()) => {
            if input.explains() {
                notes.iter().for_each(|note| fault::note(note));
            }
            Ok(())
        }
    }
}

fn done(command: &Command) -> Result<(), Fault> {
    match command {
        Command::Run(run) if run.batch.lines => batch::run(
            &run.batch,
            run.battle.input.file.as_deref(),
            &run.battle.terms,
            run.battle.input.strict,
            run.json,
        ),
        Command::Run(run) if run.json => on_battle(&run.battle, commands::run_json),
        Command::Run(run) if run.showdown => on_battle(&run.battle, commands::run_showdown),
        Command::Run(run) => on_battle(&run.battle, commands::run),
        Command::Log(battle) => on_battle(battle, commands::log),
        Command::Print(input) => commands::print(&input.read()?),
        Command::Calc(asked) => calc::calc(asked),
        Command::Room(room) => on_battle(&room.battle, |given| commands::room(given, room.json)),
        Command::State(look) => on_battle(&look.battle, |given| {
            commands::state(given, look.bytes, look.json)
        }),
        Command::Explain(asked) => on_battle(&asked.battle, explain::explain),
        Command::Team(asked) => team::convert(asked),
        Command::Names(asked) => team::names(asked),
        Command::Showdown(asked) => showdown::simulate(asked),
        Command::Follow(asked) => follow::follow(asked),
        Command::Think(asked) => on_battle(&asked.battle, |given| search::think(asked, given)),
        Command::Solve(asked) => on_battle(&asked.battle, |given| search::solve(asked, given)),
        Command::League(asked) => league::league(asked),
        Command::Play(game) => play::play(game),
        Command::Replay(asked) => replay::replay(asked),
        Command::Bench(measure) => bench::bench(measure),
        Command::Completions(asked) => shell::completions(asked),
        Command::Manual => shell::manual(),
    }
}

impl Command {
    /// Whether an error is explained: if `--explain` is given, and always for subcommands whose output is for people.
    fn explains(&self) -> bool {
        match self {
            Command::Run(run) => run.battle.input.asks(),
            Command::Log(battle) => battle.input.asks(),
            Command::Print(input) => input.asks(),
            Command::Calc(asked) => asked.asks(),
            Command::Room(room) => room.battle.input.asks(),
            Command::State(look) => look.battle.input.asks(),
            _ => true,
        }
    }
}

fn main() -> ExitCode {
    let (result, explains) = match Words::try_parse() {
        Ok(words) => (done(&words.command), words.command.explains()),
        Err(refused) if refused.use_stderr() => refused.exit(),
        Err(help) => {
            let printed = help.print().map_err(|why| files::unwritten(&why));
            (files::is_open().and(printed), false)
        }
    };
    match result {
        Ok(()) => ExitCode::SUCCESS,
        Err(fault) => fault.report(explains || std::io::stderr().is_terminal()),
    }
}
