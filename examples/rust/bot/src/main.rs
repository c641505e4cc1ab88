//! Battles of a player that tries each of its choices with playouts, against one that chooses at random.
mod bot;
mod random;
mod teams;

use bot::Sight;
use clap::Parser;
use gen1::{Battle, Choice, Player, Rules, Side, Team, Teller, TurnLimit, Update};
use random::Random;
use std::io::{IsTerminal, Write};
use std::process::ExitCode;
use std::sync::atomic::{AtomicU32, Ordering};
use std::sync::mpsc;
use std::thread;
use std::time::Instant;

/// Plays battles of a bot against another player, and prints how many it won
///
/// For each offered choice the bot plays battles that begin with it to their end, with random choices, and makes the choice that won
/// most. The battles fit the bot's knowledge: it guesses the foe's members that have not appeared, and everything hidden. With --cheat it
/// plays forks of the battle itself instead. Both sides have the same team, and the bot is side 1 in every other battle. The same
/// arguments give the same battles, for any number of threads.
#[derive(Parser)]
#[command(
    name = "bot",
    version,
    after_help = "Status: 0 all was played, 1 standard output cannot be written, 2 bad arguments."
)]
struct Words {
    /// The number of battles
    #[arg(long, default_value_t = 100, value_parser = clap::value_parser!(u32).range(1..=1_000_000))]
    battles: u32,
    /// How many playouts the bot makes for each choice
    #[arg(long, default_value_t = 32, value_parser = clap::value_parser!(u32).range(1..=100_000))]
    playouts: u32,
    /// The bot looks at the whole battle: it knows the foe's team and all hidden counts, but not the numbers to be drawn
    #[arg(long)]
    cheat: bool,
    /// How many playouts the other player makes for each choice, cheating; with 0 it chooses at random
    #[arg(long, default_value_t = 0, value_parser = clap::value_parser!(u32).range(0..=100_000))]
    foe: u32,
    /// The number of members of each team
    #[arg(long, default_value_t = 4, value_parser = clap::value_parser!(u8).range(1..=6))]
    members: u8,
    /// Another seed gives other teams, battles and choices
    #[arg(long, default_value_t = 1)]
    seed: u64,
    /// The number of threads; by default the number of processors
    #[arg(long, value_parser = clap::value_parser!(u16).range(1..=1024))]
    threads: Option<u16>,
    /// Shows only the first battle: its lines, and the result of each choice that the bot tried
    #[arg(long)]
    show: bool,
}

/// How a battle ended for the bot.
#[derive(Clone, Copy, PartialEq)]
enum End {
    Won,
    Lost,
    Tied,
}

/// A bot's seat at a battle: the teller of its side, and its player.
struct Seat {
    teller: Teller,
    player: Player,
}

impl Seat {
    fn new(side: Side, team: &Team) -> Self {
        let foes = team.members().len() as u8;
        Seat {
            teller: Teller::in_pixels(side),
            player: Player::with_foes(side, team, foes),
        }
    }

    fn see(&mut self, battle: &Battle, update: &Update) {
        let told = self.teller.report(battle, &update.log(), &mut self.player);
        told.expect("an update has a log");
    }
}

impl Words {
    /// Plays the battle with a number from 0, and calls a function after each pair of choices.
    fn played(&self, number: u32, mut each: impl FnMut(Side, &[bot::Tried], &Update)) -> End {
        let me = if number.is_multiple_of(2) {
            Side::One
        } else {
            Side::Two
        };
        let mut random = Random::new(self.seed, number.into());
        let team = teams::drawn(self.members.into(), &mut random);
        // The sleep clause and the freeze clause.
        let rules = Rules::new(3).expect("3 is both clauses");
        let mut battle =
            Battle::with_limit(&team, &team, random.seed(), rules, TurnLimit::default());
        let mut seat = Seat::new(me, &team);
        let mut update = battle
            .update(Choice::Pass, Choice::Pass)
            .expect("a battle begins with two passes");
        seat.see(&battle, &update);
        each(me, &[], &update);
        while !battle.is_over() {
            let sight = match self.cheat {
                true => Sight::Cheating(&battle),
                false => Sight::Fair(&seat.player),
            };
            let (mine, tried) = self.choice(&battle, me, sight, self.playouts, &mut random);
            let (theirs, _) = self.choice(
                &battle,
                me.other(),
                Sight::Cheating(&battle),
                self.foe,
                &mut random,
            );
            let [one, two] = if me == Side::One {
                [mine, theirs]
            } else {
                [theirs, mine]
            };
            update = battle.update(one, two).expect("both choices are offered");
            seat.see(&battle, &update);
            each(me, &tried, &update);
        }
        match battle.outcome().winner() {
            Some(winner) if winner == me => End::Won,
            Some(_) => End::Lost,
            None => End::Tied,
        }
    }

    /// A player's choice, and the choices that it tried: none if there is only one choice, or it makes no playouts.
    fn choice(
        &self,
        battle: &Battle,
        side: Side,
        sight: Sight<'_>,
        playouts: u32,
        random: &mut Random,
    ) -> (Choice, Vec<bot::Tried>) {
        let choices = battle.choices(side);
        if playouts == 0 || choices.len() == 1 {
            return (
                bot::random_choice(battle, side, random).choice(),
                Vec::new(),
            );
        }
        let tried = bot::tried(sight, side, &choices, playouts, random);
        (bot::best(&tried), tried)
    }

    /// Plays all battles on several threads, and returns how many were won, lost and tied.
    fn all(&self) -> [u32; 3] {
        let threads = self.threads.map_or_else(
            || thread::available_parallelism().map_or(1, usize::from),
            usize::from,
        );
        let (next, mut ends) = (AtomicU32::new(0), [0; 3]);
        let (tell, told) = mpsc::channel();
        thread::scope(|scope| {
            for _ in 0..threads {
                let (next, tell) = (&next, tell.clone());
                scope.spawn(move || {
                    let mut number = next.fetch_add(1, Ordering::Relaxed);
                    while number < self.battles {
                        tell.send(self.played(number, |_, _, _| ()))
                            .expect("the battles are counted");
                        number = next.fetch_add(1, Ordering::Relaxed);
                    }
                });
            }
            drop(tell);
            for (done, end) in (1..).zip(told) {
                ends[end as usize] += 1;
                progress(done, self.battles);
            }
        });
        ends
    }

    /// The report of all battles.
    fn report(&self, [won, lost, tied]: [u32; 3]) -> String {
        let foe = if self.foe == 0 {
            "one that chooses at random".into()
        } else {
            format!("a cheating one of {}", self.foe)
        };
        let (low, high) = interval(won, self.battles);
        format!(
            "{} battles of {} members a side, seed {}: a {} bot of {} playouts a choice against {foe}\n\
             won {won}, lost {lost}, tied {tied}\n\
             it wins {:.1} % of its battles (95 % interval: {:.1} % to {:.1} %)\n",
            self.battles,
            self.members,
            self.seed,
            if self.cheat { "cheating" } else { "fair" },
            self.playouts,
            100.0 * f64::from(won) / f64::from(self.battles),
            100.0 * low,
            100.0 * high,
        )
    }

    /// The lines of the first battle, with the bot's tries before each update.
    fn shown(&self) -> String {
        let mut text = String::new();
        self.played(0, |me, tried, update| {
            for it in tried {
                text += &format!(
                    "# p{} tries {}: wins {:.0} %\n",
                    me.number(),
                    it.choice,
                    100.0 * it.won
                );
            }
            update.lines().for_each(|line| text += &format!("{line}\n"));
        });
        text
    }
}

/// Prints the progress, if standard error is a terminal.
fn progress(done: u32, of: u32) {
    let mut to = std::io::stderr();
    if to.is_terminal() {
        // If standard error cannot be written, the progress is dropped.
        let _ = write!(
            to,
            "\r{done} of {of} battles{}",
            if done == of { "\n" } else { "" }
        );
    }
}

fn main() -> ExitCode {
    let (words, begun) = (Words::parse(), Instant::now());
    let text = if words.show {
        words.shown()
    } else {
        words.report(words.all())
    };
    if std::io::stdout().write_all(text.as_bytes()).is_err() {
        return ExitCode::from(1);
    }
    if !words.show {
        // As in `progress`.
        let _ = writeln!(std::io::stderr(), "{:.1} s", begun.elapsed().as_secs_f64());
    }
    ExitCode::SUCCESS
}

/// Wilson's 95 % interval of a share: `won` of `count`, which is not 0.
pub fn interval(won: u32, count: u32) -> (f64, f64) {
    const Z: f64 = 1.959_963_984_540_054;
    let (n, share) = (f64::from(count), f64::from(won) / f64::from(count));
    let middle = share + Z * Z / (2.0 * n);
    let half = Z * (share * (1.0 - share) / n + Z * Z / (4.0 * n * n)).sqrt();
    let whole = 1.0 + Z * Z / n;
    ((middle - half) / whole, (middle + half) / whole)
}

#[cfg(test)]
mod tests {
    use super::interval;

    /// Published numbers: 8 of 10, none of 10, and 81 of 263 (Newcombe 1998).
    #[test]
    fn intervals_are_wilsons() {
        for (won, count, low, high) in [
            (8, 10, 0.490, 0.943),
            (0, 10, 0.0, 0.278),
            (81, 263, 0.2553, 0.3662),
        ] {
            let (found_low, found_high) = interval(won, count);
            assert!(
                (found_low - low).abs() < 6e-4 && (found_high - high).abs() < 6e-4,
                "{found_low} {found_high}"
            );
        }
    }
}
