//! A game of a person against the computer, in the terminal.
use crate::bot::{Bot, levels};
use crate::commands::text_of;
use crate::fault::Fault;
use crate::files::{name_of, put, read, read_line};
use crate::input::chosen::Chosen;
use crate::input::{Given, ReadTerms, team};
use crate::random;
use crate::screen;
use clap::{Args, ValueEnum};
use gen1::{Battle, Choice, Host, LogFault, Offered, Player, Side, Team, TurnLimit, events_of};
use gen1_search::Dice;
use std::path::{Path, PathBuf};

/// The arguments of `play`.
#[derive(Args)]
pub struct Game {
    /// Teams and seed, as in the input of run; you are side 1. Without FILE both teams are drawn
    file: Option<PathBuf>,
    /// How side 2 chooses, without --level
    #[arg(long, value_enum, default_value = "playouts")]
    against: Foe,
    #[arg(
        long,
        value_parser = clap::value_parser!(u8).range(1..=5),
        conflicts_with = "against",
        help = levels("Side 2 searches from what it knows, as gen1 think, with a level's nodes")
    )]
    level: Option<u8>,
    /// How many members a drawn team has
    #[arg(long, default_value_t = 3, value_parser = clap::value_parser!(u8).range(1..=6))]
    members: u8,
    /// A seed for teams, battle and computer, so that the game can be repeated
    #[arg(long)]
    seed: Option<u64>,
    /// How many random battles are played for each choice, with --against playouts
    #[arg(long, default_value_t = 200, value_parser = clap::value_parser!(u32).range(1..=100_000))]
    playouts: u32,
}

#[derive(Clone, Copy, ValueEnum)]
enum Foe {
    /// Any choice, with equal chances
    Random,
    /// The choice whose random battles side 2 wins most often
    Playouts,
}

/// Plays a battle.
pub fn play(game: &Game) -> Result<(), Fault> {
    let mut dice = random::dice(game.seed);
    let (battle, teams) = match game.file.as_deref() {
        Some(path) => battle_in(path)?,
        None => {
            let (one, two) = (
                random::team(game.members, &mut dice),
                random::team(game.members, &mut dice),
            );
            (Battle::new(&one, &two, dice.numbers()), [one, two])
        }
    };
    let mut foe = game
        .level
        .map(|level| Searcher::new(level, &teams, &mut dice, &battle));
    let mut host = Host::new(battle);
    loop {
        report(&host, &mut foe)?;
        if host.is_closed() {
            break;
        }
        let number = host.number();
        if host.awaits(Side::One) {
            let Some(choice) = asked(&host.battle())? else {
                return put("The battle is left.\n");
            };
            submit(&mut host, Side::One, choice)?;
        }
        if host.number() == number && host.awaits(Side::Two) {
            let choice = match &mut foe {
                Some(foe) => foe.choice(),
                None => answer(game, &host.battle(), &mut dice),
            };
            submit(&mut host, Side::Two, choice.unwrap_or_default())?;
        }
    }
    put(match host.result().outcome.winner() {
        Some(Side::One) => "You win.\n",
        Some(Side::Two) => "You lose.\n",
        None => "Nobody wins.\n",
    })
}

/// Prints the person's log of the last pair, and passes the foe's message to a foe that searches.
fn report(host: &Host, foe: &mut Option<Searcher>) -> Result<(), Fault> {
    let message = host.message(Side::One);
    // The bytes in a host's messages are logs, so neither fails.
    let unread = |why: LogFault| Fault::search(&why.to_string());
    let events = events_of(message.log()).collect::<Result<Vec<_>, _>>();
    put(text_of(&events.map_err(unread)?))?;
    match foe {
        Some(foe) => foe.player.receive(&host.message(Side::Two)).map_err(unread),
        None => Ok(()),
    }
}

/// Submits a choice for the current pair. The battle keeps its numbers to draw, so that a seed repeats the game.
fn submit(host: &mut Host, side: Side, choice: Choice) -> Result<(), Fault> {
    let reply = host.submit(side, host.number(), choice, None);
    reply.map_err(|why| Fault::search(&why.to_string()))?;
    Ok(())
}

/// Side 2, which gets only what a player may know.
struct Searcher {
    bot: Bot,
    player: Player,
}

impl Searcher {
    fn new(level: u8, teams: &[Team; 2], dice: &mut Dice, battle: &Battle) -> Searcher {
        let foes = teams[0].members().len() as u8;
        let player = Player::with_foes(Side::Two, &teams[1], foes);
        let limit = TurnLimit::new(battle.limit()).unwrap_or_default();
        Searcher {
            bot: Bot::new(level, dice.bits()),
            player: player.with_terms(battle.rules(), limit),
        }
    }

    fn choice(&mut self) -> Option<Choice> {
        if let [only] = self.player.choices().as_slice() {
            return Some(*only);
        }
        self.bot.choice(&self.player)
    }
}

/// The battle that a file describes, and its teams.
fn battle_in(path: &Path) -> Result<(Battle, [Team; 2]), Fault> {
    let input = read(Some(path))?;
    let given = Given::of_json(&input, ReadTerms::default(), false);
    let start = given.and_then(|given| given.start(|_| Ok(())));
    let (start, ()) = start.map_err(|why| why.within(&name_of(Some(path))))?;
    let [one, two] = &start.teams;
    let teams = [team(1, &one.specs)?, team(2, &two.specs)?];
    Ok((start.battle, teams))
}

/// The choice of the person; `None` at the end of the input.
fn asked(battle: &Battle) -> Result<Option<Choice>, Fault> {
    let choices = battle.choices(Side::One);
    if let [only @ Choice::Pass] = choices.as_slice() {
        return Ok(Some(*only));
    }
    let mut text = screen::both(battle);
    for (place, choice) in choices.iter().enumerate() {
        text += &format!(
            "  {}  {}\n",
            place + 1,
            screen::choice(battle, Side::One, *choice)
        );
    }
    put(&text)?;
    loop {
        put(format!("your choice, 1 to {} (q leaves): ", choices.len()))?;
        let line = read_line()?;
        let Ok(word) = std::str::from_utf8(&line).map(str::trim) else {
            put("That is not text in UTF-8. ")?;
            continue;
        };
        if line.is_empty() || word == "q" {
            return Ok(None);
        }
        let number = word.parse::<usize>().ok();
        if let Some(choice) = number.and_then(|number| choices.get(number.checked_sub(1)?)) {
            return Ok(Some(*choice));
        }
        let chosen = Chosen::in_text(word).map(|chosen| chosen.byte(battle, Side::One));
        let named = chosen.ok().and_then(Choice::from_byte);
        if let Some(choice) = named.filter(|_| number.is_none()) {
            if choices.contains(&choice) {
                return Ok(Some(choice));
            }
        }
        put("That is not one of them. ")?;
    }
}

/// The choice of the computer.
fn answer(game: &Game, battle: &Battle, dice: &mut Dice) -> Option<Choice> {
    let choices = battle.choices(Side::Two);
    match game.against {
        _ if choices.len() < 2 => choices.first().copied(),
        Foe::Random => random::one_of(&choices, dice).copied(),
        Foe::Playouts => choices
            .iter()
            .copied()
            .max_by_key(|choice| wins(game, battle, *choice, dice)),
    }
}

/// The score of side 2 over random battles that begin with a choice: 2 for a win, 1 for a tie.
fn wins(game: &Game, battle: &Battle, choice: Choice, dice: &mut Dice) -> u32 {
    (0..game.playouts).map(|_| won(battle, choice, dice)).sum()
}

/// The score of side 2 in one random battle that begins with a choice: 2 for a win, 1 for a tie or a fault.
fn won(battle: &Battle, choice: Choice, dice: &mut Dice) -> u32 {
    let mut copy = battle.clone();
    let mut two = Some(choice);
    while let (Some(one), Some(other)) = (random::choice(copy.offered_mask(Side::One), dice), two) {
        if copy.update_silent(one, other).is_err() {
            break;
        }
        two = random::choice(copy.offered_mask(Side::Two), dice).map(Offered::choice);
    }
    match copy.outcome().winner() {
        Some(winner) => 2 * u32::from(winner == Side::Two),
        None => 1,
    }
}
