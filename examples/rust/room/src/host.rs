//! The room: it asks both players for choices, sends each only what it may know, and trusts neither of them.
use crate::pipes::{Mailbox, Process, Said};
use crate::protocol::{RUBBISH, TOO_MANY, ask_line, log_line};
use crate::sheet::Sheet;
use gen1::{Battle, HostRefusal, HostReply, Row, Side};
use std::fs::File;
use std::io::{self, Read};
use std::time::{Duration, Instant};

/// The limits for a player: time, and refusals.
#[derive(Clone, Copy)]
pub struct Terms {
    /// How long a player may take for a choice.
    pub patience: Duration,
    /// How many lines of a player are refused before it is out.
    pub refusals: u32,
    /// Whether the battle draws the numbers that follow from its seed, and none of the operating system.
    pub replays: bool,
}

/// A player in the room.
struct Player {
    side: Side,
    process: Process,
    /// How often each code was sent, from code 0, which means accepted.
    answers: [u32; 7],
    /// The first pair that the room chose for it, and why.
    out: Option<(u32, &'static str)>,
}

/// A battle between processes.
pub struct Host {
    table: gen1::Host,
    players: [Player; 2],
    spectator: Process,
    mailbox: Mailbox,
    terms: Terms,
    until: Instant,
}

impl Host {
    /// Creates a room for a battle, and sends the first lines to all processes.
    ///
    /// The lines of the players come through the mailbox.
    pub fn new(
        (sheet, battle): (Sheet, Battle),
        players: [Process; 2],
        spectator: Process,
        mailbox: Mailbox,
        terms: Terms,
    ) -> Host {
        let mut sides = Side::BOTH.into_iter();
        let players = players.map(|process| {
            let side = sides.next().expect("there are two sides");
            Player {
                side,
                process,
                answers: [0; 7],
                out: None,
            }
        });
        for player in &players {
            player.process.send(format!(
                "side {}\nteam {}\n",
                player.side.number(),
                sheet.team(player.side)
            ));
        }
        let mut host = Host {
            table: gen1::Host::new(battle),
            players,
            spectator,
            mailbox,
            terms,
            until: Instant::now(),
        };
        host.tell_all();
        host
    }

    /// Plays the battle to its end, and returns a report on each player.
    pub fn run(mut self) -> String {
        while !self.table.is_closed() {
            if self.choose_for_missing() {
                continue;
            }
            if Instant::now() >= self.until {
                self.time_is_up();
            } else if let Some((side, said)) = self.mailbox.next(self.until) {
                self.hear(side, said);
            }
        }
        let text = self.players.iter().map(report).collect();
        for player in &mut self.players {
            player.process.close();
        }
        let until = Instant::now() + self.terms.patience;
        self.spectator.end(until);
        for player in self.players {
            // A player that is out gets no more time. It may still be writing, but the host has stopped reading it.
            let soon = Instant::now() + Duration::from_secs(1);
            player.process.end(if player.out.is_some() {
                soon.min(until)
            } else {
                until
            });
        }
        text
    }

    /// Handles a line of a player, or its end: replies, and submits the choice to the room. A line has no other effect.
    fn hear(&mut self, side: Side, said: Said) {
        let number = self.table.number();
        let code = match said {
            Said::Gone => return self.put_out(side, "it left"),
            Said::Rubbish => RUBBISH,
            Said::Choice(pair, byte) => self
                .submit(side, pair, byte)
                .map_or_else(HostRefusal::number, |_| 0),
        };
        let most = self.terms.refusals;
        let player = self.player(side);
        player.answers[usize::from(code)] += 1;
        match code {
            0 => player.process.send(format!("taken {number}\n")),
            _ if player.answers[1..].iter().sum::<u32>() > most => {
                player.answers[usize::from(code)] -= 1;
                player.answers[usize::from(TOO_MANY)] += 1;
                player
                    .process
                    .send(format!("refused {TOO_MANY} {number}\n"));
                self.put_out(side, "it was refused too often");
            }
            _ => player.process.send(format!("refused {code} {number}\n")),
        }
        if self.table.number() != number {
            self.tell_all();
        }
    }

    /// Submits a choice, with numbers for the battle to draw if this ends the pair.
    fn submit(&mut self, side: Side, number: u32, byte: u8) -> HostReply {
        let numbers = self.numbers();
        self.table.apply(&Row::Submit {
            side,
            number,
            byte,
            numbers,
        })
    }

    /// Ten numbers of the operating system. Otherwise a player that has seen nine draws could predict all that follow.
    fn numbers(&self) -> Option<[u8; 10]> {
        let drawn = || -> io::Result<[u8; 10]> {
            let mut numbers = [0; 10];
            File::open("/dev/urandom")?.read_exact(&mut numbers)?;
            Ok(numbers)
        };
        (!self.terms.replays).then(|| drawn().expect("/dev/urandom can be read"))
    }

    /// Sends the spectator and each player what the table has for it. Asks each player that has to choose.
    fn tell_all(&mut self) {
        self.until = Instant::now() + self.terms.patience;
        self.spectator.send(self.table.notice().log());
        for player in &self.players {
            let message = self.table.message(player.side);
            let mut text = log_line(message.log());
            if self.table.awaits(player.side) {
                let choices: Vec<u8> = message
                    .offered()
                    .iter()
                    .map(|it| it.choice().byte())
                    .collect();
                text += &ask_line(message.number(), &choices);
            }
            player.process.send(text);
        }
    }

    /// Makes the first choice for a player that is out, and returns whether there was one to make.
    fn choose_for_missing(&mut self) -> bool {
        let (number, numbers) = (self.table.number(), self.numbers());
        for side in Side::BOTH {
            if self.player(side).out.is_none() || !self.table.awaits(side) {
                continue;
            }
            if self.table.expire(side, number, numbers).is_ok() {
                if self.table.number() != number {
                    self.tell_all();
                }
                return true;
            }
        }
        false
    }

    /// Ends the time for this pair: a player that has not chosen is out.
    fn time_is_up(&mut self) {
        for side in Side::BOTH {
            if self.player(side).out.is_none() && self.table.awaits(side) {
                self.put_out(side, "it was silent");
            }
        }
    }

    /// From now on the host chooses for a side.
    fn put_out(&mut self, side: Side, why: &'static str) {
        let number = self.table.number();
        self.mailbox.deafen(side);
        let player = self.player(side);
        player.out = Some((number, why));
        player.process.close();
    }

    fn player(&mut self, side: Side) -> &mut Player {
        &mut self.players[usize::from(side.number()) - 1]
    }
}

/// The report on a player: a line for each code with which it was refused, and one if it was put out.
fn report(player: &Player) -> String {
    let side = player.side.number();
    let refused = (1..)
        .zip(&player.answers[1..])
        .filter(|(_, times)| **times > 0);
    let mut text: String = refused
        .map(|(code, times)| format!("side {side}: refused {code}: {times}\n"))
        .collect();
    if let Some((number, why)) = player.out {
        text += &format!("side {side}: out in pair {number}: {why}\n");
    }
    text
}
