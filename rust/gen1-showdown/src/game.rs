//! A battle of the simulator: choices in, messages out (docs/PROGRAM.md, "showdown").
use crate::lines::{Heading, LineWriter, Viewer};
use crate::request::{choice_in, request};
use crate::{Fault, Hp, Members, Seat, index, player_of, team};
use gen1::{
    Battle, Choice, LogBuf, MemberSpec, Outcome, Player, Rules, Side, TurnLimit, events_of,
};
use serde::Serialize;
use serde_json::{Value, json};

/// The settings with which a battle begins.
pub struct Setup {
    pub rules: Rules,
    pub tier: String,
    /// The lines of the clauses.
    pub clauses: Vec<String>,
    pub seed: [u8; 10],
    /// The name and the team of each player.
    pub players: [(String, Members); 2],
    pub hp: Hp,
    /// The commands so far.
    pub inputs: Vec<String>,
}

/// A battle that has begun.
pub struct Game {
    battle: Battle,
    seats: [Seat; 2],
    teams: [Value; 2],
    lines: LineWriter,
    seed: [u8; 10],
    /// The number of the last requests.
    rqid: u32,
    /// How many pairs of choices were played.
    pairs: usize,
    /// The commands that were accepted.
    inputs: Vec<String>,
    has_ended: bool,
}

/// The object at the end of a battle.
#[derive(Serialize)]
#[serde(rename_all = "camelCase")]
struct EndObject<'a> {
    /// The name of the winner; empty after a tie.
    winner: &'a str,
    seed: [u8; 10],
    turns: u16,
    p1: &'a str,
    p2: &'a str,
    p1team: &'a Value,
    p2team: &'a Value,
    /// How many members of each side have HP.
    score: [usize; 2],
    input_log: &'a [String],
}

impl Game {
    /// Begins a battle, and returns its first messages.
    pub fn begin(setup: Setup, time: Option<u64>) -> Result<(Game, String), Fault> {
        let [one, two] = &setup.players;
        let teams = [team(Side::One, &one.1)?, team(Side::Two, &two.1)?];
        let limit = TurnLimit::default();
        let battle = Battle::with_limit(&teams[0], &teams[1], setup.seed, setup.rules, limit);
        let seats = Side::BOTH.map(|side| {
            let (name, members) = &setup.players[index(side)];
            let name = crate::members::clean(name);
            let mut seat = Seat::new(side, name, members, &teams[index(side)], setup.hp);
            // Both know the sizes of the teams (`|teamsize|`).
            let foes = teams[index(side.other())].members().len() as u8;
            let player = Player::with_foes(side, &teams[index(side)], foes);
            seat.player = player
                .with_hp(setup.hp.form())
                .with_terms(setup.rules, limit);
            seat
        });
        let lines = LineWriter::new(Heading {
            players: seats.each_ref().map(|seat| seat.name.clone()),
            members: seats.each_ref().map(|seat| seat.members.clone()),
            tier: setup.tier,
            rules: setup.clauses,
            hp: setup.hp,
        });
        let sets = setup
            .players
            .each_ref()
            .map(|(_, members)| sets_of(members));
        let mut game = Game {
            battle,
            seats,
            teams: sets,
            lines,
            seed: setup.seed,
            rqid: 0,
            pairs: 0,
            inputs: setup.inputs,
            has_ended: false,
        };
        let messages = game.update(Choice::Pass, Choice::Pass, time)?;
        Ok((game, messages))
    }

    /// Handles a choice of a side. It sends nothing while the other side has to choose.
    pub fn choose(&mut self, side: Side, text: &str, time: Option<u64>) -> Result<String, Fault> {
        if self.has_ended {
            return Ok(refusal(side, "Can't do anything: The game is over"));
        }
        match choice_in(text, &self.seats[index(side)]) {
            Err(why) => Ok(refusal(side, &why)),
            Ok(choice) => self.chosen(side, choice, time),
        }
    }

    /// What a side knows, while it has to choose.
    pub fn to_choose(&self, side: Side) -> Option<&Player> {
        let seat = &self.seats[index(side)];
        let waits = self.has_ended || seat.waits() || seat.chosen.is_some();
        (!waits).then_some(&seat.player)
    }

    /// Handles a choice that a side is offered.
    pub fn chosen(
        &mut self,
        side: Side,
        choice: Choice,
        time: Option<u64>,
    ) -> Result<String, Fault> {
        self.seats[index(side)].chosen = Some(choice);
        match self.seats.each_ref().map(|seat| seat.chosen) {
            [Some(one), Some(two)] => self.update(one, two, time),
            _ => Ok(String::new()),
        }
    }

    /// Takes a choice back, if the other side has not chosen yet.
    pub fn undo(&mut self, side: Side) -> String {
        let seat = &mut self.seats[index(side)];
        if self.has_ended || seat.waits() || seat.chosen.take().is_none() {
            return refusal(side, "Can't undo: There is no choice");
        }
        String::new()
    }

    /// Ends the battle by a win of a side, or by a tie. After its end nothing happens.
    pub fn end(&mut self, command: &str, winner: Option<Side>) -> String {
        if self.has_ended {
            return String::new();
        }
        self.inputs.push(format!(">{command}"));
        self.lines.end(winner);
        self.block() + &self.result(winner)
    }

    /// Ends the battle in favour of the side with more members, then with more HP in parts of their maximum, then with more HP.
    pub fn break_tie(&mut self) -> String {
        let counts = self.seats.each_ref().map(|seat| seat.left() as u64);
        let sums = |of: fn(&gen1::OwnMember) -> u64| {
            self.seats.each_ref().map(|seat| {
                let own = seat.player.own();
                own.members.iter().map(of).sum::<u64>()
            })
        };
        // In millionths, so that whole numbers are compared.
        let parts = sums(|it| u64::from(it.hp) * 1_000_000 / u64::from(it.max_hp.max(1)));
        let hp = sums(|it| u64::from(it.hp));
        let winner = [counts, parts, hp]
            .iter()
            .find_map(|[one, two]| match one.cmp(two) {
                std::cmp::Ordering::Greater => Some(Side::One),
                std::cmp::Ordering::Less => Some(Side::Two),
                std::cmp::Ordering::Equal => None,
            });
        if !self.has_ended {
            self.lines.line("message|Time's up! Going to tiebreaker...");
        }
        self.end("tiebreak", winner)
    }

    /// Gives the battle other numbers to draw.
    pub fn reseed(&mut self, seed: [u8; 10]) {
        self.battle.reseed(seed);
        self.inputs.push(format!(
            ">reseed {}",
            seed.map(|it| it.to_string()).join(",")
        ));
    }

    /// Adds a line of chat, and returns its message.
    pub fn chat(&mut self, text: &str) -> String {
        self.inputs.push(format!(">chat {text}"));
        self.lines.line(format!("chat|{text}"));
        self.block()
    }

    fn update(&mut self, one: Choice, two: Choice, time: Option<u64>) -> Result<String, Fault> {
        let (mut log, before) = (LogBuf::new(), self.battle.clone());
        self.note([one, two]);
        let number = self.pairs;
        let updated = self.battle.update_with(one, two, &mut log);
        let result = updated.map_err(|why| Fault::Pair { number, why })?;
        self.pairs += 1;
        for seat in &mut self.seats {
            seat.tell(&self.battle, &log)?;
        }
        let events = events_of(&log).collect::<Result<Vec<_>, _>>()?;
        self.lines.update(&before, &events, &self.battle, time);
        let block = self.block();
        Ok(match result.outcome {
            Outcome::Ongoing => block + &self.requests(),
            Outcome::WinOne => block + &self.result(Some(Side::One)),
            Outcome::WinTwo => block + &self.result(Some(Side::Two)),
            _ => block + &self.result(None),
        })
    }

    /// Records the choices of both sides as commands, which count moves and members as the last requests do.
    fn note(&mut self, choices: [Choice; 2]) {
        for (seat, choice) in self.seats.iter().zip(choices) {
            let words = match choice {
                Choice::Pass => continue,
                Choice::Move(slot) if slot.number() == 0 => "default".into(),
                Choice::Move(slot) => format!("move {slot}"),
                Choice::Switch(place) => {
                    let place = usize::from(place.number()) - 1;
                    let at = seat.order.iter().position(|it| *it == place);
                    format!("switch {}", at.unwrap_or(place) + 1)
                }
            };
            self.inputs
                .push(format!(">{} {words}", player_of(seat.side)));
        }
    }

    fn block(&mut self) -> String {
        let text = self.lines.text(Viewer::Stream);
        self.lines.clear();
        format!("update\n{text}\n")
    }

    fn requests(&mut self) -> String {
        self.rqid += 1;
        let of = |seat: &Seat| {
            let object = request(seat, self.rqid);
            format!(
                "sideupdate\n{}\n|request|{object}\n\n",
                player_of(seat.side)
            )
        };
        self.seats.iter().map(of).collect()
    }

    fn result(&mut self, winner: Option<Side>) -> String {
        self.has_ended = true;
        let [one, two] = &self.seats;
        let object = EndObject {
            winner: winner.map_or("", |side| &self.seats[index(side)].name),
            seed: self.seed,
            turns: one.player.turn(),
            p1: &one.name,
            p2: &two.name,
            p1team: &self.teams[0],
            p2team: &self.teams[1],
            score: [one.left(), two.left()],
            input_log: &self.inputs,
        };
        // The keys of the object are texts, so that it can be serialized.
        let object = serde_json::to_string(&object).unwrap_or_default();
        format!("end\n{object}\n\n")
    }
}

/// A team as Showdown's list of sets.
fn sets_of(members: &Members) -> Value {
    let names = crate::names_of(members);
    let set = |(spec, name): (&MemberSpec, String)| {
        let moves: Vec<_> = spec.moves.iter().map(|(id, _)| id.name()).collect();
        json!({
            "name": name, "species": spec.species.name(), "level": spec.level, "moves": moves,
            "dvs": spec.dvs, "exp": spec.exp,
        })
    };
    members.specs.iter().zip(names).map(set).collect()
}

fn refusal(side: Side, why: &str) -> String {
    let player = player_of(side);
    format!("sideupdate\n{player}\n|error|[Invalid choice] {why}\n\n")
}
