//! A battle in a file: the JSON that the program's `run` takes (docs/PROGRAM.md, "run"), without its choices.
use gen1::{Battle, MemberSpec, Rules, Side, Team, TurnLimit};
use serde::Deserialize;

/// A battle before its teams are checked.
#[derive(Deserialize)]
pub struct Sheet {
    seed: [u8; 10],
    one: Vec<MemberSpec>,
    two: Vec<MemberSpec>,
    #[serde(default)]
    rules: u8,
    #[serde(default = "usual_limit")]
    limit: u16,
}

fn usual_limit() -> u16 {
    TurnLimit::default().number()
}

impl Sheet {
    /// The battle that a text describes.
    ///
    /// # Errors
    ///
    /// The error in the text, with its line and column, or in a team.
    pub fn of(text: &str) -> Result<(Sheet, Battle), String> {
        let sheet: Sheet = serde_json::from_str(text).map_err(|why| why.to_string())?;
        let one = team_of(1, &sheet.one)?;
        let two = team_of(2, &sheet.two)?;
        let rules = Rules::new(sheet.rules).ok_or("rules: expected 0 to 3")?;
        let limit = TurnLimit::new(sheet.limit).ok_or("limit: expected 1 to 9,999")?;
        let battle = Battle::with_limit(&one, &two, sheet.seed, rules, limit);
        Ok((sheet, battle))
    }

    /// A side's team as JSON on one line.
    pub fn team(&self, side: Side) -> String {
        let members = if side == Side::One {
            &self.one
        } else {
            &self.two
        };
        serde_json::to_string(members).expect("a team is JSON")
    }
}

fn team_of(side: u8, members: &[MemberSpec]) -> Result<Team, String> {
    Team::new(members).map_err(|why| {
        format!(
            "side {side}, member {}: refusal {}: {why}",
            why.place(),
            why.number()
        )
    })
}
