//! Files that a system installs with the program: completions for shells, and the manual page.
use crate::fault::Fault;
use crate::files::put;
use crate::words::Words;
use clap::{Arg, Args, Command, CommandFactory};
use clap_complete::Shell;
use roff::{Roff, bold, italic, roman};

/// The arguments of `completions`.
#[derive(Args)]
pub struct Completions {
    #[arg(value_enum)]
    shell: Shell,
}

/// Prints the completions for a shell.
pub fn completions(asked: &Completions) -> Result<(), Fault> {
    let mut text = Vec::new();
    clap_complete::generate(asked.shell, &mut Words::command(), "gen1", &mut text);
    put(text)
}

/// Prints the manual page.
pub fn manual() -> Result<(), Fault> {
    let mut program = Words::command().disable_help_subcommand(true);
    program.build();
    let mut page = Roff::new();
    let about = about(&program);
    let version = format!("gen1 {}", env!("CARGO_PKG_VERSION"));
    page.control("TH", ["GEN1", "1", " ", version.as_str(), "User Commands"]);
    page.control("SH", ["NAME"])
        .text([roman(format!("gen1 - {}", lower(&about)))]);
    page.control("SH", ["SYNOPSIS"]);
    page.text([
        bold("gen1"),
        roman(" "),
        italic("SUBCOMMAND"),
        roman(" [OPTIONS] [FILE]"),
    ]);
    page.control("SH", ["SUBCOMMANDS"]);
    let mut seen = Vec::new();
    for part in program.get_subcommands() {
        subcommand(&mut page, part);
        // Several subcommands have the same input, which is described once.
        let after = after(part);
        if !after.is_empty() && !seen.contains(&after) {
            page.control("PP", [])
                .control("nf", [])
                .text([roman(after.as_str())])
                .control("fi", []);
            seen.push(after);
        }
    }
    page.control("SH", ["NOTES"]);
    page.control("nf", [])
        .text([roman(after(&program))])
        .control("fi", []);
    page.control("SH", ["SEE ALSO"])
        .text([bold("gen1"), roman("(3)")]);
    put(page.render())
}

/// A subcommand with its arguments.
fn subcommand(page: &mut Roff, part: &Command) {
    page.control("SS", [format!("gen1 {}", part.get_name()).as_str()]);
    page.text([roman(format!("{}.", about(part)))]);
    for arg in part
        .get_arguments()
        .filter(|arg| arg.get_id() != "help" && !arg.is_hide_set())
    {
        page.control("TP", [])
            .text([bold(form_of(arg))])
            .text([roman(help_of(arg))]);
    }
}

fn about(part: &Command) -> String {
    part.get_about()
        .map(ToString::to_string)
        .unwrap_or_default()
}

fn after(part: &Command) -> String {
    part.get_after_help()
        .map(ToString::to_string)
        .unwrap_or_default()
}

/// The text with its first letter in lower case.
fn lower(text: &str) -> String {
    let mut letters = text.chars();
    letters.next().map_or_else(String::new, |first| {
        first.to_lowercase().chain(letters).collect()
    })
}

/// An argument as it is written: `--seed <SEED>`, `[FILE]`.
fn form_of(arg: &Arg) -> String {
    let names = arg.get_value_names().unwrap_or_default();
    let values: Vec<_> = names.iter().map(|name| format!("<{name}>")).collect();
    match arg.get_long() {
        Some(long) if arg.get_action().takes_values() => format!("--{long} {}", values.join(" ")),
        Some(long) => format!("--{long}"),
        None if arg.is_required_set() => values.join(" "),
        None => format!("[{}]", arg.get_id().as_str().to_uppercase()),
    }
}

/// The purpose of an argument, its possible values and its default.
fn help_of(arg: &Arg) -> String {
    let mut text = arg.get_help().map(ToString::to_string).unwrap_or_default();
    let values = arg.get_possible_values();
    if arg.get_action().takes_values() && !values.is_empty() {
        let names: Vec<_> = values.iter().map(|value| value.get_name()).collect();
        text += &format!(" [possible values: {}]", names.join(", "));
    }
    let defaults: Vec<_> = arg
        .get_default_values()
        .iter()
        .filter_map(|it| it.to_str())
        .collect();
    if arg.get_action().takes_values() && !defaults.is_empty() {
        text += &format!(" [default: {}]", defaults.join(", "));
    }
    text
}
