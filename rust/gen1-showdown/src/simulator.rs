//! The simulator: commands of Showdown's protocol in, messages out (docs/PROGRAM.md, "showdown").
use crate::formats::Formats;
use crate::game::{Game, Setup};
use crate::lines::Heading;
use crate::reading::{did_you_mean, key, nearest_word, shown};
use crate::{Fault, Hp, Members, side_in};
use gen1::{Choice, Player, Rules, Side};
use serde_json::{Value, json};
use std::hash::{BuildHasher, Hasher, RandomState};

/// The settings of a simulator.
#[derive(Clone, Copy, Debug, Default)]
pub struct Options {
    /// How a player sees the HP of the foe's members; without it in 48ths in `gen1customgame`, and in hundredths in any other format.
    pub hp: Option<Hp>,
    /// A clock, in seconds since 1970. With it each update begins with `|t:|`.
    pub clock: Option<fn() -> u64>,
    /// 64 bits by chance, for a battle without a seed; without it they are those with which the standard library seeds its hash maps, which
    /// WebAssembly does not have.
    pub chance: Option<fn() -> u64>,
}

/// What a simulator returns for a command.
#[derive(Clone, Debug, Default, PartialEq, Eq)]
pub struct Reply {
    /// The messages, each with an empty line at its end; often none.
    pub text: String,
    /// Why the command was ignored.
    pub note: Option<String>,
}

/// Plays battles by the commands of Showdown's simulator, one battle after the other.
pub struct Simulator {
    options: Options,
    formats: Formats,
    line: usize,
    format: Option<Format>,
    players: [Option<(String, Members)>; 2],
    /// The commands before the battle begins.
    inputs: Vec<String>,
    game: Option<Game>,
}

/// What `>start` sets.
#[derive(Clone)]
struct Format {
    id: String,
    rules: Rules,
    seed: [u8; 10],
}

/// The commands, to suggest one.
const COMMANDS: [&str; 14] = [
    "start",
    "player",
    "p1",
    "p2",
    "forcewin",
    "forcelose",
    "forcetie",
    "tie",
    "tiebreak",
    "reseed",
    "chat",
    "chat-inputlogonly",
    "version",
    "version-origin",
];

impl Simulator {
    /// A simulator that waits for `>start`.
    #[must_use]
    pub fn new(options: Options) -> Simulator {
        Simulator::with_formats(options, Formats::default())
    }

    /// A simulator with these formats in place of the default ones.
    #[must_use]
    pub fn with_formats(options: Options, formats: Formats) -> Simulator {
        Simulator {
            options,
            formats,
            line: 0,
            format: None,
            players: [None, None],
            inputs: Vec::new(),
            game: None,
        }
    }

    /// Handles a line. One that does not begin with `>` is ignored, and so is an unknown command, with a note.
    ///
    /// # Errors
    ///
    /// A known command that is incomplete or comes too early, or a team that is refused. The simulator stays as it was.
    pub fn take(&mut self, line: &str) -> Result<Reply, Fault> {
        self.line += 1;
        let Some(command) = line.trim().strip_prefix('>') else {
            return Ok(Reply::default());
        };
        let line = self.line;
        let (word, rest) = command.split_once(' ').unwrap_or((command, ""));
        if !COMMANDS.contains(&word) {
            let meant = did_you_mean(nearest_word(word, COMMANDS));
            let note = format!("line {line}: the command {} is unknown{meant}", shown(word));
            let note = Some(note);
            return Ok(Reply {
                note,
                ..Reply::default()
            });
        }
        let text = self.done(word, rest).map_err(|why| match why {
            Refused::Fault(fault) => fault,
            Refused::Command(why) => Fault::Line { line, why },
        })?;
        Ok(Reply { text, note: None })
    }

    /// What the player of a side knows, while the side has to choose: for a bot.
    #[must_use]
    pub fn to_choose(&self, side: Side) -> Option<&Player> {
        self.game.as_ref()?.to_choose(side)
    }

    /// Makes a choice of a side, as the command `>p1 CHOICE` does. One that the side is not offered now does nothing.
    ///
    /// # Errors
    ///
    /// The battle refuses the pair of choices, which is not known to happen.
    pub fn choose(&mut self, side: Side, choice: Choice) -> Result<Reply, Fault> {
        let is_offered = |player: &Player| player.choices().contains(&choice);
        if !self.to_choose(side).is_some_and(is_offered) {
            return Ok(Reply::default());
        }
        let time = self.options.clock.map(|now| now());
        let text = match &mut self.game {
            Some(game) => game.chosen(side, choice, time)?,
            None => String::new(),
        };
        Ok(Reply { text, note: None })
    }

    fn done(&mut self, word: &str, rest: &str) -> Result<String, Refused> {
        match word {
            "version" | "version-origin" => {
                self.inputs.push(format!(">{word} {rest}"));
                Ok(String::new())
            }
            "start" => self.start(&object_in(rest)?),
            "player" => self.player(rest),
            _ => match &mut self.game {
                Some(game) => on_game(game, word, rest, self.options),
                // Chat may come before the battle.
                None if word.starts_with("chat") => Ok(String::new()),
                None => Err(format!("\">{word}\" before >start and both >player").into()),
            },
        }
    }

    fn start(&mut self, value: &Value) -> Result<String, Refused> {
        let format = self.format_in(value)?;
        let line = self.line;
        // A log of inputs begins with the version.
        let before = match self.format.is_none() {
            true => std::mem::take(&mut self.inputs),
            false => Vec::new(),
        };
        *self = Simulator::with_formats(self.options, self.formats.clone());
        (self.line, self.inputs) = (line, before);
        let object = json!({"formatid": format.id, "seed": format.seed});
        self.inputs.push(format!(">start {object}"));
        self.format = Some(format);
        Ok(String::new())
    }

    fn player(&mut self, rest: &str) -> Result<String, Refused> {
        if self.game.is_some() {
            return Err("the battle has begun".to_string().into());
        }
        let (player, object) = rest.split_once(' ').unwrap_or((rest, ""));
        let (side, object) = (side_in(player)?, object_in(object)?);
        let entrant = player_in(&object)?;
        let Some(format) = self.format.clone() else {
            return Err(">player before >start".to_string().into());
        };
        let broken = self.formats.complaints(&format.id, &entrant.1);
        if let Some(broken) = broken.filter(|broken| !broken.is_empty()) {
            let broken: Vec<_> = broken.iter().map(ToString::to_string).collect();
            let (id, broken) = (format.id, broken.join("; "));
            return Err(format!("{id} does not allow the team: {broken}").into());
        }
        self.inputs
            .push(format!(">player {} {object}", player.trim()));
        self.players[crate::index(side)] = Some(entrant);
        let [Some(one), Some(two)] = self.players.clone() else {
            return Ok(String::new());
        };
        let is_custom = format.id == "gen1customgame";
        let otherwise = if is_custom { Hp::Pixels } else { Hp::Percent };
        let setup = Setup {
            rules: format.rules,
            tier: self
                .formats
                .tier(&format.id)
                .unwrap_or("[Gen 1] Link battle")
                .into(),
            clauses: (self.formats.lines(&format.id))
                .unwrap_or_else(|| Heading::clauses(format.rules)),
            seed: format.seed,
            players: [one, two],
            hp: self.options.hp.unwrap_or(otherwise),
            inputs: self.inputs.clone(),
        };
        match Game::begin(setup, self.options.clock.map(|now| now())) {
            Ok((game, messages)) => {
                self.game = Some(game);
                Ok(messages)
            }
            Err(why) => {
                self.inputs.pop();
                self.players[crate::index(side)] = None;
                Err(why.into())
            }
        }
    }
}

impl Simulator {
    /// The format and the seed of `>start`.
    fn format_in(&self, value: &Value) -> Result<Format, String> {
        let id = value["formatid"].as_str().unwrap_or_default();
        let is_first = id.strip_prefix("gen1").is_some_and(|name| {
            let first = name.chars().next();
            !first.is_some_and(|it| it.is_ascii_digit())
        });
        if !is_first {
            return Err(format!(
                "expected a \"formatid\" that begins with gen1, found \"{id}\""
            ));
        }
        // A format that is not in the file has both clauses of the engine.
        let both = Rules::SLEEP_CLAUSE | Rules::FREEZE_CLAUSE;
        Ok(Format {
            id: id.into(),
            rules: self.formats.rules(id).unwrap_or(both),
            seed: seed_in(&value["seed"], self.options)?,
        })
    }
}

/// Why a command is refused: an error of the battle, or a sentence about the command.
enum Refused {
    Fault(Fault),
    Command(String),
}

impl From<Fault> for Refused {
    fn from(fault: Fault) -> Refused {
        Refused::Fault(fault)
    }
}

impl From<String> for Refused {
    fn from(why: String) -> Refused {
        Refused::Command(why)
    }
}

/// A command during a battle.
fn on_game(game: &mut Game, word: &str, rest: &str, options: Options) -> Result<String, Refused> {
    let rest = rest.trim();
    match word {
        "p1" | "p2" if rest == "undo" => Ok(game.undo(side_in(word)?)),
        "p1" | "p2" => Ok(game.choose(side_in(word)?, rest, options.clock.map(|now| now()))?),
        "forcewin" => Ok(game.end(&format!("{word} {rest}"), Some(side_in(rest)?))),
        "forcelose" => Ok(game.end(&format!("{word} {rest}"), Some(side_in(rest)?.other()))),
        "tiebreak" => Ok(game.break_tie()),
        "reseed" => {
            let given = match rest {
                "" => Value::Null,
                text => Value::from(text),
            };
            game.reseed(seed_in(&given, options)?);
            Ok(String::new())
        }
        "chat" => Ok(game.chat(rest)),
        "chat-inputlogonly" => Ok(String::new()),
        _ => Ok(game.end(word, None)),
    }
}

fn object_in(text: &str) -> Result<Value, String> {
    serde_json::from_str::<Value>(text)
        .ok()
        .filter(Value::is_object)
        .ok_or_else(|| format!("expected a JSON object, found \"{}\"", text.trim()))
}

/// The ten bytes of a seed: as given, made from four numbers or from a text, or by chance.
fn seed_in(value: &Value, options: Options) -> Result<[u8; 10], String> {
    let wrong = || {
        let forms = "four numbers to 65535, of ten to 255, or a text";
        format!("expected a \"seed\" of {forms}, found {value}")
    };
    if let Some(text) = value.as_str() {
        return Ok(seed_of_text(text));
    }
    if value.is_null() {
        let hashed = || RandomState::new().build_hasher().finish();
        return Ok(gen1::seed_from_number(
            options.chance.map_or_else(hashed, |bits| bits()),
        ));
    }
    let numbers = value.as_array().ok_or_else(wrong)?;
    let numbers: Option<Vec<u64>> = numbers.iter().map(Value::as_u64).collect();
    seed_of_numbers(&numbers.ok_or_else(wrong)?).ok_or_else(wrong)
}

/// The seed of four numbers to 65,535 or of ten to 255.
fn seed_of_numbers(numbers: &[u64]) -> Option<[u8; 10]> {
    let most = if numbers.len() == 10 { 255 } else { 65535 };
    if numbers.iter().any(|number| *number > most) {
        return None;
    }
    match numbers.len() {
        4 => Some(gen1::seed_from_number(
            numbers.iter().fold(0, |whole, part| whole << 16 | part),
        )),
        // Each is a byte.
        10 => Some(std::array::from_fn(|at| numbers[at] as u8)),
        _ => None,
    }
}

/// The seed of a text, such as `1,2,3,4`, `gen5,0123456789abcdef` or `sodium,..`. Equal texts give equal seeds.
fn seed_of_text(text: &str) -> [u8; 10] {
    let numbers: Option<Vec<u64>> = text.split(',').map(|it| it.trim().parse().ok()).collect();
    if let Some(seed) = numbers.and_then(|numbers| seed_of_numbers(&numbers)) {
        return seed;
    }
    let digits = text
        .strip_prefix("gen5,")
        .and_then(|digits| u64::from_str_radix(digits, 16).ok());
    // FNV-1a, which is the same on every machine.
    let hashed = || {
        text.bytes().fold(0xcbf2_9ce4_8422_2325_u64, |hash, byte| {
            (hash ^ u64::from(byte)).wrapping_mul(0x0000_0100_0000_01b3)
        })
    };
    gen1::seed_from_number(digits.unwrap_or_else(hashed))
}

/// The name and the team of `>player`.
fn player_in(value: &Value) -> Result<(String, Members), String> {
    let name = value["name"].as_str().unwrap_or_default();
    if name.is_empty() {
        return Err("expected a \"name\"".into());
    }
    if value["team"].is_null() {
        return Err("expected a \"team\": a packed line, or a list of members".into());
    }
    let members = key::<Members>(value, "team").map_err(|why| why.to_string())?;
    Ok((name.into(), members))
}
