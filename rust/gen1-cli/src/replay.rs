//! A page that holds a battle (web/README.md, "A file that holds its battle"; docs/PROGRAM.md, "Showdown's battle log").
use crate::commands::{events_of, hex};
use crate::fault::Fault;
use crate::files::{name_of, named, put, read, replace};
use crate::game;
use crate::input::chosen::Chosen;
use crate::input::{Given, ReadTerms};
use crate::showdown;
use clap::Args;
use gen1::{LogBuf, write_log};
use std::fs;
use std::path::{Path, PathBuf};

/// The place for a battle in a page.
const PLACE: &str = r#"<script id="battle" type="application/json">null</script>"#;

/// The arguments of `replay`.
#[derive(Args)]
pub struct Replay {
    /// The input of run, or a log; without FILE, or with -, standard input
    file: Option<PathBuf>,
    /// The page, as web/build makes it; without it the one that is installed with the program
    #[arg(long, value_name = "HTML")]
    page: Option<PathBuf>,
    /// Makes a page for Showdown's viewer, which it loads from the network (docs/PROGRAM.md); FILE is an input of run
    #[arg(long, conflicts_with = "page")]
    showdown: bool,
    /// The file to write, not one that is read; without it, or with -, standard output
    #[arg(long, value_name = "FILE")]
    out: Option<PathBuf>,
}

/// Writes the page with the battle in it.
pub fn replay(asked: &Replay) -> Result<(), Fault> {
    let page = match &asked.page {
        None if !asked.showdown => Some(installed_page().ok_or_else(Fault::no_page)?),
        page => page.clone(),
    };
    let (file, page) = (asked.file.as_deref(), page.as_deref());
    let out = named(asked.out.as_deref());
    if is_same(named(file), out) || is_same(page.and_then(|page| named(Some(page))), out) {
        return Err(Fault::out());
    }
    let input = read(file)?;
    let whole = match page {
        Some(_) => own_page(&input, file, page)?,
        None => showdowns_page(&input).map_err(|why| why.within(&name_of(file)))?,
    };
    match out {
        Some(path) => replace(path, whole.as_bytes()),
        None => put(whole),
    }
}

/// The page beside the folder of the program, as a wheel installs it.
fn installed_page() -> Option<PathBuf> {
    let program = std::env::current_exe().ok()?;
    let page = program.parent()?.parent()?.join("share/gen1/gen1.html");
    page.is_file().then_some(page)
}

/// The page of the repository with the battle in it.
fn own_page(input: &[u8], file: Option<&Path>, page: Option<&Path>) -> Result<String, Fault> {
    let battle = battle_in(input).map_err(|why| why.within(&name_of(file)))?;
    let text = read(page)?;
    filled(&text, &battle).ok_or_else(|| Fault::page().within(&name_of(page)))
}

fn showdowns_page(input: &[u8]) -> Result<String, Fault> {
    showdown::page_of(&Given::of_json(input, ReadTerms::default(), false)?)
}

/// Whether two names are of one file.
fn is_same(one: Option<&Path>, two: Option<&Path>) -> bool {
    let found = |path: Option<&Path>| path.and_then(|path| fs::canonicalize(path).ok());
    found(one).is_some_and(|file| found(two) == Some(file))
}

/// The page with a battle in the one place for it.
fn filled(page: &[u8], battle: &str) -> Option<String> {
    let (before, after) = std::str::from_utf8(page).ok()?.split_once(PLACE)?;
    if after.contains(PLACE) {
        return None;
    }
    // In JSON `<` occurs only in strings, where this escape is allowed. Unescaped it could end the element.
    let held = battle.trim().replace('<', "\\u003c");
    Some([before, &PLACE.replace("null", &held), after].concat())
}

/// The JSON for an input: the text of an object of run with valid teams, or the digits of a log.
fn battle_in(input: &[u8]) -> Result<String, Fault> {
    if input.trim_ascii_start().first() != Some(&b'{') {
        events_of(input)?;
        return Ok(format!(r#"{{"log":"{}"}}"#, hex(input)));
    }
    let given = Given::of_json(input, ReadTerms::default(), false)?;
    let (start, pairs) = given.start_and_choices()?;
    let is_byte = |chosen: &Chosen| matches!(chosen, Chosen::Byte(_));
    if pairs.iter().flatten().all(is_byte) && !given.has_text() {
        // JSON that was read is UTF-8.
        return Ok(String::from_utf8_lossy(input).into());
    }
    // The page reads neither choices in words nor teams as text, so it gets the log instead.
    let (mut battle, mut digits) = (start.battle, String::new());
    game::play(&mut battle, &pairs, |step| {
        let mut log = LogBuf::new();
        write_log(step.events, &mut log);
        digits += &hex(&log);
        Ok(())
    })?;
    Ok(format!(r#"{{"log":"{digits}"}}"#))
}
