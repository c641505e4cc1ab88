//! A line of a file of battles: a battle, and the results of its pairs.
use gen1::{Battle, MemberSpec, Rules, Team, TeamRefusal, TurnLimit};
use serde::Deserialize;
use serde::de::{Deserializer, Error};

/// A battle as the program's `run` takes it (docs/PROGRAM.md, "run").
#[derive(Deserialize)]
pub struct Sheet {
    seed: [u8; 10],
    one: Vec<MemberSpec>,
    two: Vec<MemberSpec>,
    pub choices: Vec<[u8; 2]>,
    #[serde(default)]
    rules: u8,
    #[serde(default = "usual_limit")]
    limit: u16,
}

fn usual_limit() -> u16 {
    TurnLimit::default().number()
}

/// Why a battle cannot begin: the side whose team is refused, and the refusal.
pub type TeamFault = (u8, TeamRefusal);

impl Sheet {
    /// The battle before its first pair.
    ///
    /// # Errors
    ///
    /// For a text that is not a battle, the expected form. The refusal of a team is not an error here, but a result to compare.
    pub fn battle(&self) -> Result<Result<Battle, TeamFault>, String> {
        let rules = Rules::new(self.rules).ok_or("rules: expected 0 to 3")?;
        let limit = TurnLimit::new(self.limit).ok_or("limit: expected 1 to 9,999")?;
        let team = |side, specs: &[_]| Team::new(specs).map_err(|why| (side, why));
        let teams = team(1, &self.one).and_then(|one| Ok((one, team(2, &self.two)?)));
        Ok(teams.map(|(one, two)| Battle::with_limit(&one, &two, self.seed, rules, limit)))
    }
}

/// The results in a line, in the order in which they are compared. Missing keys are not compared.
#[derive(Deserialize)]
pub struct Line {
    /// The name of the battle.
    #[serde(default, alias = "corner")]
    pub name: String,
    /// A recorded run of the program: its arguments, input, and output.
    args: Option<Vec<String>>,
    input: Option<String>,
    stdout: Option<String>,
    stderr: Option<String>,
    /// The battle, if it is under a separate key.
    object: Option<Sheet>,
    /// The results of each pair.
    updates: Option<Vec<Update>>,
    /// All lines of the battle as `run` prints them.
    lines: Option<String>,
    /// The log bytes of the whole battle.
    log: Option<Hex>,
}

/// The results of a pair.
#[derive(Default, Deserialize)]
#[serde(default)]
pub struct Update {
    /// The pair, which is that of the battle's choices.
    pub pair: Option<[u8; 2]>,
    /// The number of the refusal, or null.
    #[serde(deserialize_with = "told")]
    pub refused: Option<Option<u8>>,
    /// The codes of outcome and requests; null if the pair is refused.
    pub result: Option<[u8; 3]>,
    /// The choices that each side is offered after it.
    pub offered: Option<[Vec<u8>; 2]>,
    /// The log bytes.
    pub log: Option<Hex>,
    /// How many numbers were drawn.
    pub draws: Option<u32>,
    /// All bytes of the battle after it.
    pub bytes: Option<Hex>,
}

/// A key that is present, possibly with the value null.
fn told<'de, D: Deserializer<'de>>(from: D) -> Result<Option<Option<u8>>, D::Error> {
    Option::deserialize(from).map(Some)
}

/// Bytes as hexadecimal digits.
pub struct Hex(pub Vec<u8>);

impl<'de> Deserialize<'de> for Hex {
    fn deserialize<D: Deserializer<'de>>(from: D) -> Result<Self, D::Error> {
        let text = String::deserialize(from)?;
        let fault = || D::Error::custom("expected two hexadecimal digits for each byte");
        if !text.len().is_multiple_of(2) || !text.bytes().all(|it| it.is_ascii_hexdigit()) {
            return Err(fault());
        }
        let byte = |at| u8::from_str_radix(&text[at..at + 2], 16).map_err(|_| fault());
        (0..text.len())
            .step_by(2)
            .map(byte)
            .collect::<Result<_, _>>()
            .map(Hex)
    }
}

/// The expected results of a battle.
pub struct Expected {
    /// The expected results, pair by pair.
    pub updates: Option<Vec<Update>>,
    /// The expected standard output.
    pub lines: Option<String>,
    /// The expected standard error.
    pub told: Option<String>,
    /// All log bytes.
    pub log: Option<Vec<u8>>,
}

/// The battle of a line, its name, and its expected results.
///
/// # Errors
///
/// The expected form of the line, if it is not a battle, or has nothing that can be checked.
pub fn read(text: &str) -> Result<(String, Sheet, Expected), String> {
    let line: Line = serde_json::from_str(text).map_err(|why| why.to_string())?;
    if line.args.as_ref().is_some_and(|args| *args != ["run"]) {
        return Err("args: expected [\"run\"]".into());
    }
    let sheet = match (line.object, &line.input) {
        (Some(sheet), _) => sheet,
        (None, Some(input)) => {
            serde_json::from_str(input).map_err(|why| format!("input: {why}"))?
        }
        (None, None) => serde_json::from_str(text).map_err(|why| why.to_string())?,
    };
    let expected = Expected {
        updates: line.updates,
        lines: line.lines.or(line.stdout),
        told: line.stderr,
        log: line.log.map(|hex| hex.0),
    };
    if expected.updates.is_none() && expected.lines.is_none() && expected.log.is_none() {
        return Err("expected updates, lines, log or stdout".into());
    }
    if let Some(updates) = &expected.updates {
        let pairs = |(update, pair): (&Update, &[u8; 2])| update.pair.is_none_or(|it| it == *pair);
        if updates.len() != sheet.choices.len() || !updates.iter().zip(&sheet.choices).all(pairs) {
            return Err("updates: expected one for each pair of choices".into());
        }
    }
    Ok((line.name, sheet, expected))
}
