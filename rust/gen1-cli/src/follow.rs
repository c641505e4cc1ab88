//! `gen1 follow`: a battle log of Showdown, read back as the knowledge of a player (docs/PROGRAM.md, "follow").
use crate::commands::state_json;
use crate::fault::{self, Fault};
use crate::files::{self, put};
use crate::input::{Seed, seed_in, team_named};
use crate::json::{EventObject, line_of};
use crate::random;
use crate::screen::bar;
use clap::{Args, ValueEnum};
use gen1::{
    Announced, Battle, Conditions, Element, Kind, MoveId, Outcome, Player, PublicSide, Seen, Side,
};
use gen1_showdown::{Chosen, Follower, Note};
use serde::Serialize;
use std::path::PathBuf;

/// The arguments of `follow`.
#[derive(Args)]
pub struct Follow {
    /// The side of the player that follows the battle
    #[arg(long, value_enum, default_value = "p1")]
    side: Followed,
    /// The team of that side: a file with an export text, a packed line or JSON; or the text itself
    #[arg(long, value_name = "TEAM")]
    team: Option<PathBuf>,
    /// Prints an object with what the player knows, and the events
    #[arg(long)]
    json: bool,
    /// Writes the events as bytes, the log, which print and a player of the libraries read
    #[arg(long, conflicts_with = "json")]
    log: bool,
    /// Writes the 384 bytes of a battle that fits what the player knows, or with --json its state
    #[arg(long, requires_all = ["team", "guess"], conflicts_with = "log")]
    battle: bool,
    /// With --battle: the foe's whole team as it is guessed, in the forms of --team
    #[arg(long, value_name = "TEAM", requires = "battle")]
    guess: Option<PathBuf>,
    /// With --battle: the numbers that it draws, as ten numbers separated by commas, or one from which they are made; random by default
    #[arg(long, value_parser = seed_in, requires = "battle")]
    seed: Option<Seed>,
    /// Refuses unknown lines that may concern the battle; without it a note names them
    #[arg(long)]
    strict: bool,
    /// A battle log, a replay page, or what gen1 showdown prints; without FILE, or with -, standard input
    file: Option<PathBuf>,
}

#[derive(Clone, Copy, ValueEnum)]
enum Followed {
    P1,
    P2,
}

impl Followed {
    fn side(self) -> Side {
        match self {
            Followed::P1 => Side::One,
            Followed::P2 => Side::Two,
        }
    }
}

/// Reads a log, and prints what the player of a side knows after it.
pub fn follow(asked: &Follow) -> Result<(), Fault> {
    one_standard_input(asked)?;
    let (file, side) = (asked.file.as_deref(), asked.side.side());
    let own = asked.team.as_deref().map(team_named).transpose()?;
    let guess = asked.guess.as_deref().map(team_named).transpose();
    let mut follower = Follower::new(side, own)?;
    if asked.battle {
        follower = follower.with_requests();
    }
    let guess = guess?;
    let bytes = files::read_battle_log(file)?;
    let name = files::name_of(file);
    let refused = |why| Fault::from(why).within(&name);
    follower.read(&bytes).map_err(refused)?;
    if let Some(Note { line, why }) = follower.notes().next().filter(|_| asked.strict) {
        return Err(Fault::protocol(line, &why).within(&name));
    }
    match &guess {
        Some(guess) => {
            let seed = asked
                .seed
                .map_or_else(|| random::dice(None).numbers(), |seed| seed.0);
            let battle = follower.battle(guess, seed);
            put_battle(asked, &battle.map_err(refused)?)?;
        }
        None => put_known(asked, &follower)?,
    }
    for Note { line, why } in follower.notes() {
        fault::note(&format!("line {line}: {why}"));
    }
    Ok(())
}

/// Refuses two inputs that are standard input.
fn one_standard_input(asked: &Follow) -> Result<(), Fault> {
    let named = [&asked.team, &asked.guess].into_iter().flatten();
    let streams = named.filter(|path| files::named(Some(path)).is_none());
    match streams.count() + usize::from(files::named(asked.file.as_deref()).is_none()) {
        0 | 1 => Ok(()),
        _ => Err(Fault::one_standard_input()),
    }
}

fn put_battle(asked: &Follow, battle: &Battle) -> Result<(), Fault> {
    match asked.json {
        true => put(state_json(battle)),
        false => put(battle.as_bytes()),
    }
}

fn put_known(asked: &Follow, follower: &Follower) -> Result<(), Fault> {
    if asked.log {
        return put(follower.log());
    }
    let known = Known::of(&follower.player()?, follower);
    put(match asked.json {
        true => line_of(&known),
        false => known.text(),
    })
}

/// A player's knowledge of a battle.
#[derive(Serialize)]
pub struct Known {
    side: u8,
    turn: u16,
    outcome: Outcome,
    own: KnownSide,
    foe: KnownSide,
    events: Vec<EventObject>,
    /// What both sides chose for each update after the first, in words.
    choices: Vec<[Option<String>; 2]>,
}

/// A player's knowledge of a side.
#[derive(Serialize)]
struct KnownSide {
    /// The name of the player; `None` if the log has none.
    player: Option<String>,
    /// The number of members; `None` if it is not known.
    count: Option<u8>,
    members: Vec<KnownMember>,
    active: KnownActive,
}

#[derive(Serialize)]
struct KnownMember {
    name: String,
    species: gen1::Species,
    level: u8,
    hp: u16,
    max_hp: u16,
    status: Option<Kind>,
    /// The moves that it was seen to prepare or to use.
    moves: Vec<KnownUse>,
}

#[derive(Serialize)]
struct KnownUse {
    id: MoveId,
    uses: u8,
}

#[derive(Serialize)]
struct KnownActive {
    place: u8,
    types: [Element; 2],
    stages: [i8; 6],
    conditions: Conditions,
    last_move: Option<MoveId>,
}

impl Known {
    pub fn of(player: &Player, follower: &Follower) -> Known {
        let side = |side: Side| {
            let (public, name) = (player.public(side), follower.name(side));
            let both = public.members.iter().zip(follower.members(side));
            KnownSide {
                player: (!name.is_empty()).then(|| name.into()),
                count: follower.count(side),
                members: both.filter_map(member).collect(),
                active: active(public),
            }
        };
        let words = |side, chosen: Option<Chosen>| Some(follower.words(side, chosen?));
        let choices = follower.choices().into_iter();
        let choices = choices.map(|[one, two]| [words(Side::One, one), words(Side::Two, two)]);
        Known {
            side: player.side().number(),
            turn: player.turn(),
            outcome: player.outcome(),
            own: side(player.side()),
            foe: side(player.side().other()),
            events: follower.events().iter().map(EventObject::of).collect(),
            choices: choices.collect(),
        }
    }
}

fn member((seen, name): (&Seen, &str)) -> Option<KnownMember> {
    Some(KnownMember {
        name: name.into(),
        species: seen.species()?,
        level: seen.level,
        hp: seen.hp,
        max_hp: seen.max,
        status: seen.status(),
        moves: seen
            .moves()
            .map(|(id, uses)| KnownUse { id, uses })
            .collect(),
    })
}

fn active(public: &PublicSide) -> KnownActive {
    let it = public.stages;
    let stages = [
        it.attack,
        it.defense,
        it.speed,
        it.special,
        it.accuracy,
        it.evasion,
    ];
    KnownActive {
        place: public.place,
        types: public.types(),
        // 6 is an unchanged stage.
        stages: stages.map(|stage| stage as i8 - 6),
        conditions: announced(&public.announced)
            .with(Conditions::INVULNERABLE, public.invulnerable == 1),
        last_move: public.last_move(),
    }
}

fn announced(it: &Announced) -> Conditions {
    let flags = [
        (it.substitute, Conditions::SUBSTITUTE),
        (it.confused, Conditions::CONFUSED),
        (it.mist, Conditions::MIST),
        (it.focus_energy, Conditions::FOCUS_ENERGY),
        (it.light_screen, Conditions::LIGHT_SCREEN),
        (it.reflect, Conditions::REFLECT),
        (it.seeded, Conditions::SEEDED),
        (it.toxic, Conditions::BAD_POISON),
        (it.disabled, Conditions::DISABLED),
        (it.rage, Conditions::RAGE),
        (it.bide, Conditions::BIDE),
        (it.charging, Conditions::CHARGING),
        (it.recharging, Conditions::RECHARGE),
    ];
    let none = Conditions::from_bits(0);
    flags
        .into_iter()
        .fold(none, |all, (flag, which)| all.with(which, flag == 1))
}

impl Known {
    /// The player's knowledge as text.
    pub fn text(&self) -> String {
        let own = self.own.text("own side", self.side);
        let foe = self.foe.text("foe", 3 - self.side);
        format!("turn {}: {}\n\n{own}\n{foe}", self.turn, self.outcome)
    }
}

impl KnownSide {
    fn text(&self, what: &str, side: u8) -> String {
        let name = match &self.player {
            Some(name) => format!(" ({name})"),
            None => String::new(),
        };
        let count = match self.count {
            Some(count) => format!("{} of {count} members known", self.members.len()),
            None => format!("{} members known", self.members.len()),
        };
        let mut text = format!("{what}, p{side}{name}: {count}\n");
        for (place, member) in (1..).zip(&self.members) {
            let mark = if place == self.active.place { '*' } else { ' ' };
            text += &format!("{mark} {place} {}\n", member.text());
            if place == self.active.place {
                text += &self.active.text();
            }
        }
        text
    }
}

impl KnownMember {
    fn text(&self) -> String {
        let (hp, max) = (self.hp, self.max_hp);
        let species = self.species.to_string();
        let name = match self.name == species {
            true => species,
            false => format!("{} ({species})", self.name),
        };
        let status = self
            .status
            .map_or(String::new(), |kind| format!("  {kind}"));
        let level = self.level;
        let bar = bar(hp, max);
        let mut text = format!("{name:<12} L{level:<3} {bar} {hp:>3}/{max}{status}");
        let moves = self.moves.iter();
        let moves: Vec<_> = moves.map(|it| format!("{} x{}", it.id, it.uses)).collect();
        if !moves.is_empty() {
            text += &format!("\n      used {}", moves.join(", "));
        }
        text
    }
}

const STATS: [&str; 6] = [
    "Attack", "Defense", "Speed", "Special", "accuracy", "evasion",
];

impl KnownActive {
    fn text(&self) -> String {
        let mut text = String::new();
        let changed = STATS
            .iter()
            .zip(self.stages)
            .filter(|(_, stage)| *stage != 0);
        let stages: Vec<_> = changed
            .map(|(stat, stage)| format!("{stat} {stage:+}"))
            .collect();
        if !stages.is_empty() {
            text += &format!("      stages: {}\n", stages.join(", "));
        }
        if !self.conditions.is_empty() {
            let names = self.conditions.to_string().to_lowercase();
            let names = names.replace(' ', ", ").replace('_', " ");
            text += &format!("      conditions: {names}\n");
        }
        text
    }
}
