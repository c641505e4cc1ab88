//! Forms of Pokémon Showdown (docs/PROGRAM.md): its battle log, a page with that log for its viewer, and the protocol of its simulator.
use crate::bot::{Bot, levels};
use crate::fault::{self, Fault};
use crate::files::{put, read_line};
use crate::game::play;
use crate::input::Given;
use crate::team::formats_in;
use clap::{Args, ValueEnum};
use gen1::Side;
use gen1_showdown::{Heading, Hp, LineWriter, Options, Simulator, Viewer, numbered};
use std::path::PathBuf;
use std::time::SystemTime;

/// The arguments of `showdown`.
#[derive(Args)]
pub struct Showdown {
    /// How a player sees the HP of the foe's members; without it in 48ths in gen1customgame, and in hundredths in other formats
    #[arg(long, value_enum)]
    hp: Option<Shown>,
    /// The same as --hp pixels
    #[arg(long, conflicts_with = "hp")]
    pixels: bool,
    /// The formats, in the form of rust/gen1-showdown/formats.json; without it those of that file
    #[arg(long, value_name = "FILE")]
    formats: Option<PathBuf>,
    /// Begins each update with the time, in seconds since 1970
    #[arg(long)]
    time: bool,
    /// A player whose choices the program makes, from what it knows, as gen1 think does
    #[arg(long, value_enum, value_name = "PLAYER")]
    bot: Option<Entrant>,
    #[arg(
        long,
        default_value_t = 3,
        requires = "bot",
        value_parser = clap::value_parser!(u8).range(1..=5),
        help = levels("The bot's level and its nodes")
    )]
    level: u8,
    /// A seed of the bot; the same seed and level make the same choices
    #[arg(long, default_value_t = 1, requires = "bot")]
    search_seed: u64,
}

#[derive(Clone, Copy, ValueEnum)]
enum Entrant {
    P1,
    P2,
}

#[derive(Clone, Copy, ValueEnum)]
enum Shown {
    /// As they are
    Exact,
    /// In 48ths
    Pixels,
    /// In hundredths
    Percent,
}

impl Showdown {
    fn options(&self) -> Options {
        let hp = match self.hp {
            Some(Shown::Exact) => Some(Hp::Exact),
            Some(Shown::Percent) => Some(Hp::Percent),
            Some(Shown::Pixels) => Some(Hp::Pixels),
            None => self.pixels.then_some(Hp::Pixels),
        };
        let clock = self.time.then_some(now as fn() -> u64);
        Options {
            hp,
            clock,
            chance: None,
        }
    }
}

/// The seconds since 1970; 0 for a clock before that.
fn now() -> u64 {
    let since = SystemTime::now().duration_since(SystemTime::UNIX_EPOCH);
    since.map_or(0, |time| time.as_secs())
}

/// Commands until the end of standard input.
pub fn simulate(asked: &Showdown) -> Result<(), Fault> {
    let formats = formats_in(asked.formats.as_deref())?;
    let mut simulator = Simulator::with_formats(asked.options(), formats);
    let mut bot = asked.bot.map(|entrant| {
        let side = match entrant {
            Entrant::P1 => Side::One,
            Entrant::P2 => Side::Two,
        };
        (side, Bot::new(asked.level, asked.search_seed))
    });
    for number in 1usize.. {
        let line = read_line()?;
        if line.is_empty() {
            break;
        }
        let text =
            std::str::from_utf8(&line).map_err(|_| Fault::protocol(number, "expected UTF-8"))?;
        let reply = simulator.take(text)?;
        if let Some(note) = reply.note {
            fault::note(&note);
        }
        put(reply.text)?;
        if let Some((side, bot)) = &mut bot {
            chosen(&mut simulator, *side, bot)?;
        }
    }
    Ok(())
}

/// Makes the choices that a bot has to make.
fn chosen(simulator: &mut Simulator, side: Side, bot: &mut Bot) -> Result<(), Fault> {
    while let Some(player) = simulator.to_choose(side) {
        let Some(choice) = bot.choice(player) else {
            break;
        };
        put(simulator.choose(side, choice)?.text)?;
    }
    Ok(())
}

/// The battle log of an input.
pub fn log_of(given: &Given) -> Result<String, Fault> {
    let (start, pairs) = given.start_and_choices()?;
    let mut lines = LineWriter::new(Heading {
        players: ["Side 1", "Side 2"].map(String::from),
        members: start.teams.each_ref().map(numbered),
        tier: "[Gen 1] Link battle".into(),
        rules: Heading::clauses(start.rules),
        hp: Hp::Exact,
    });
    let mut battle = start.battle;
    play(&mut battle, &pairs, |step| {
        lines.update(step.before, step.events, step.after, None);
        Ok(())
    })?;
    Ok(lines.text(Viewer::Omniscient))
}

/// The page with the battle log of an input.
pub fn page_of(given: &Given) -> Result<String, Fault> {
    Ok(page(&log_of(given)?))
}

const BEFORE: &str = r#"<!DOCTYPE html>
<meta charset="utf-8" />
<!-- version 1 -->
<title>Side 1 vs. Side 2</title>
<style>html, body { font-family: sans-serif; margin: 0; padding: 0; }</style>
<div class="wrapper replay-wrapper" style="max-width:1180px;margin:0 auto">
<input type="hidden" name="replayid" value="" />
<div class="battle"></div><div class="battle-log"></div><div class="replay-controls"></div><div class="replay-controls-2"></div>
<script type="text/plain" class="battle-log-data">
"#;

const AFTER: &str = r#"</script>
</div>
<script>
let daily = Math.floor(Date.now() / 1000 / 60 / 60 / 24);
document.write('<script src="https://play.pokemonshowdown.com/js/replay-embed.js?version' + daily + '"></' + 'script>');
</script>
"#;

/// The page of a log.
fn page(log: &str) -> String {
    // Like Showdown, this writes each slash with a backslash, so that no text of the log can end the element.
    [BEFORE, &log.replace('/', "\\/"), AFTER].concat()
}
