//! The recorded battles, and the streams of `gen1 showdown` that play them.
#![allow(dead_code)]
use super::recorded;
use gen1::{Battle, Choice, MemberSpec, Rules, Side, Team, TurnLimit};
use serde_json::{Value, json};

const FILES: [&str; 4] = ["battles", "first_path", "limit", "rules"];

/// The inputs of the recorded battles that are played to their last pair.
pub fn inputs() -> Vec<Value> {
    let cases = FILES.iter().flat_map(|name| recorded(name));
    let played = cases.filter(|case| case["status"].as_i64().unwrap_or(0) == 0);
    played
        .map(|case| serde_json::from_str(case["input"].as_str().expect("an input")).expect("JSON"))
        .collect()
}

pub fn team(input: &Value, side: Side) -> Team {
    let specs: Vec<MemberSpec> = serde_json::from_value(members(input, side)).expect("members");
    Team::new(&specs).expect("a team")
}

pub fn members(input: &Value, side: Side) -> Value {
    input[if side == Side::One { "one" } else { "two" }].clone()
}

pub fn count(input: &Value, side: Side) -> u8 {
    members(input, side).as_array().expect("members").len() as u8
}

pub fn battle(input: &Value) -> Battle {
    let number = |key: &str, otherwise: u64| input[key].as_u64().unwrap_or(otherwise);
    let seed = serde_json::from_value(input["seed"].clone()).expect("a seed");
    let rules = Rules::new(number("rules", 0) as u8).expect("rules");
    let limit = TurnLimit::new(number("limit", 1000) as u16).expect("a limit");
    let [one, two] = Side::BOTH.map(|side| team(input, side));
    Battle::with_limit(&one, &two, seed, rules, limit)
}

pub fn pairs(input: &Value) -> Vec<[u8; 2]> {
    serde_json::from_value(input["choices"].clone()).expect("bytes")
}

pub fn name(side: Side) -> &'static str {
    if side == Side::One { "p1" } else { "p2" }
}

/// Whether no two members of a side have the same species and level.
fn are_distinct(input: &Value) -> bool {
    Side::BOTH.into_iter().all(|side| {
        let members = members(input, side);
        let members = members.as_array().expect("members").iter();
        let mut all: Vec<_> = members.map(|it| it["species"].to_string()).collect();
        all.sort_unstable();
        all.windows(2).all(|pair| pair[0] != pair[1])
    })
}

/// Whether `gen1 showdown` has the rules and the limit of an input, and names tell its members apart.
pub fn is_played_by_showdown(input: &Value) -> bool {
    let rules = &input["rules"];
    (rules.is_null() || *rules == 0 || *rules == 3)
        && (input["limit"].is_null() || input["limit"] == 1000)
        && are_distinct(input)
}

/// The commands that play an input in `gen1 showdown`.
pub fn commands(input: &Value) -> String {
    let format = if input["rules"] == 3 {
        "gen1link"
    } else {
        "gen1customgame"
    };
    let mut text = format!(
        ">start {}\n",
        json!({"formatid": format, "seed": input["seed"]})
    );
    for side in Side::BOTH {
        let player = json!({"name": name(side).repeat(2), "team": members(input, side)});
        text += &format!(">player {} {player}\n", name(side));
    }
    let mut battle = battle(input);
    // A request has the active member first, and each switch swaps two of them.
    let mut orders: [Vec<usize>; 2] = [(1..=6).collect(), (1..=6).collect()];
    for [one, two] in pairs(input) {
        for ((side, byte), order) in Side::BOTH.into_iter().zip([one, two]).zip(&mut orders) {
            let word = match Choice::from_byte(byte).expect("a choice") {
                Choice::Pass => continue,
                Choice::MOVE_0 => "default".into(),
                Choice::Move(slot) => format!("move {slot}"),
                Choice::Switch(place) => {
                    let place = usize::from(place.number());
                    let at = order.iter().position(|it| *it == place).expect("a place");
                    order.swap(0, at);
                    format!("switch {}", at + 1)
                }
            };
            text += &format!(">{} {word}\n", name(side));
        }
        battle.update_silent(one, two).expect("an update");
    }
    text
}

/// The lines that a side is sent of what the simulator prints: those of updates, and of two after `|split|` its own.
pub fn view(printed: &str, side: Side) -> String {
    let mut text = String::new();
    for block in printed
        .split("\n\n")
        .filter(|it| it.starts_with("update\n"))
    {
        let mut lines = block.lines().skip(1);
        while let Some(line) = lines.next() {
            let kept = match line.strip_prefix("|split|") {
                None => Some(line),
                Some(owner) => {
                    let (own, public) = (lines.next(), lines.next());
                    if owner == name(side) { own } else { public }
                }
            };
            text += &format!("{}\n", kept.expect("a line"));
        }
    }
    text
}
