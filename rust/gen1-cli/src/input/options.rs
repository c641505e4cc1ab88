//! Arguments that several subcommands share.
use super::Members;
use crate::fault::Fault;
use crate::files;
use clap::Args;
use std::io::IsTerminal;
use std::path::PathBuf;

#[derive(Args)]
pub struct Input {
    /// After the line of an error, says where it is and what was expected; the default in a terminal
    #[arg(long)]
    explain: bool,
    /// Refuses unknown keys of the input; without it they are ignored
    #[arg(long)]
    pub strict: bool,
    /// The input; without FILE, or with -, standard input
    pub file: Option<PathBuf>,
}

impl Input {
    pub fn read(&self) -> Result<Vec<u8>, Fault> {
        files::read(self.file.as_deref())
    }

    /// Whether an error is explained: if `--explain` is given, or standard error is a terminal.
    pub fn explains(&self) -> bool {
        self.explain || std::io::stderr().is_terminal()
    }

    /// Whether `--explain` is given.
    pub fn asks(&self) -> bool {
        self.explain
    }
}

/// The parts of a battle, in place of keys of the input.
#[derive(Args)]
pub struct Terms {
    /// The team of side 1: a file with an export text, a packed line or JSON; or the text itself
    #[arg(long, value_name = "TEAM")]
    one: Option<PathBuf>,
    /// The team of side 2, in the same forms
    #[arg(long, value_name = "TEAM")]
    two: Option<PathBuf>,
    /// Ten numbers from 0 to 255, separated by commas, or one number from which they are made
    #[arg(long, value_parser = seed_in)]
    seed: Option<Seed>,
    /// 1 sleep clause, 2 freeze clause, 3 both
    #[arg(long, value_parser = clap::value_parser!(u8).range(0..=3))]
    rules: Option<u8>,
    /// The last turn
    #[arg(long, value_parser = clap::value_parser!(u16).range(1..=9999))]
    limit: Option<u16>,
}

/// The ten numbers of a seed.
#[derive(Clone, Copy, Debug)]
pub struct Seed(pub [u8; 10]);

/// The terms once their files are read.
#[derive(Clone, Default)]
pub struct ReadTerms {
    pub teams: [Option<Members>; 2],
    pub seed: Option<[u8; 10]>,
    pub rules: Option<u8>,
    pub limit: Option<u16>,
}

impl Terms {
    /// Whether the teams or the seed are given here, so that FILE may be a text of choices.
    pub fn is_given(&self) -> bool {
        self.one.is_some() || self.two.is_some() || self.seed.is_some()
    }

    /// Reads the teams. Standard input can be only one of the two teams and FILE.
    pub fn read(&self, file: Option<&std::path::Path>) -> Result<ReadTerms, Fault> {
        let paths = [self.one.as_deref(), self.two.as_deref()];
        let streams = paths
            .iter()
            .flatten()
            .filter(|path| files::named(Some(path)).is_none());
        if streams.count() + usize::from(files::named(file).is_none()) > 1 {
            return Err(Fault::one_standard_input());
        }
        let [one, two] = paths.map(|path| path.map(super::team_named).transpose());
        Ok(ReadTerms {
            teams: [one?, two?],
            seed: self.seed.map(|seed| seed.0),
            rules: self.rules,
            limit: self.limit,
        })
    }
}

pub fn seed_in(text: &str) -> Result<Seed, String> {
    if let Ok(number) = text.parse() {
        return Ok(Seed(gen1::seed_from_number(number)));
    }
    let numbers: Option<Vec<u8>> = text.split(',').map(|it| it.trim().parse().ok()).collect();
    let expected = "expected ten numbers from 0 to 255, separated by commas, or one number";
    let ten = numbers.and_then(|numbers| numbers.try_into().ok());
    ten.map(Seed).ok_or(expected.into())
}
