//! The line of an event object, by the tables of docs/MECHANICS.md, "Events" and "Lines".
use serde_json::Value;

fn word(table: &[(&'static str, &'static str)], value: &Value) -> &'static str {
    let name = value.as_str().expect("a name");
    table
        .iter()
        .find(|(known, _)| *known == name)
        .map(|(_, text)| *text)
        .expect("a known name")
}

const KINDS: [(&str, &str); 5] = [
    ("Sleep", "slp"),
    ("Poison", "psn"),
    ("Burn", "brn"),
    ("Freeze", "frz"),
    ("Paralysis", "par"),
];
const STATS: [(&str, &str); 6] = [
    ("Attack", "atk"),
    ("Defense", "def"),
    ("Speed", "spe"),
    ("Special", "spc"),
    ("Accuracy", "acc"),
    ("Evasion", "eva"),
];
const REASONS: [(&str, &str); 7] = [
    ("Asleep", "slp"),
    ("Frozen", "frz"),
    ("PartiallyTrapped", "partiallytrapped"),
    ("Flinched", "flinch"),
    ("Recharging", "recharge"),
    ("Disabled", "Disable"),
    ("Paralysed", "par"),
];
const SOURCES: [(&str, &str); 6] = [
    ("Direct", ""),
    ("Poison", "|[from] psn"),
    ("Burn", "|[from] brn"),
    ("LeechSeed", "|[from] Leech Seed"),
    ("Recoil", "|[from] Recoil"),
    ("Confusion", "|[from] confusion"),
];
const VOLATILES: [(&str, &str); 13] = [
    ("Confusion", "confusion"),
    ("Bide", "Bide"),
    ("Substitute", "Substitute"),
    ("LeechSeed", "Leech Seed"),
    ("Mist", "Mist"),
    ("FocusEnergy", "Focus Energy"),
    ("LightScreen", "Light Screen"),
    ("Reflect", "Reflect"),
    ("Disable", "Disable"),
    ("TypeChange", "typechange"),
    ("Trapped", "trapped"),
    ("Rage", "Rage"),
    ("Splash", "Splash"),
];
/// Events of a member without more fields.
const ALONE: [(&str, &str); 8] = [
    ("Crit", "-crit"),
    ("SuperEffective", "-supereffective"),
    ("Resisted", "-resisted"),
    ("Immune", "-immune"),
    ("Miss", "-miss"),
    ("Fail", "-fail"),
    ("MustRecharge", "-mustrecharge"),
    ("Faint", "faint"),
];

fn text(value: &Value) -> String {
    value
        .as_str()
        .map_or_else(|| value.to_string(), str::to_string)
}

fn health(event: &Value) -> String {
    match event["hp"].as_u64() {
        Some(0) => "0 fnt".into(),
        _ => {
            let status = &event["status"];
            let kind = if status.is_null() {
                String::new()
            } else {
                format!(" {}", word(&KINDS, status))
            };
            format!("{}/{}{kind}", event["hp"], event["max_hp"])
        }
    }
}

/// The line of an event object.
pub fn line_of(event: &Value) -> String {
    let name = event["event"].as_str().expect("a name");
    match name {
        "Tie" => "|tie".into(),
        "ClearAll" => "|-clearallboost".into(),
        "OneHitKnockOut" => "|-ohko".into(),
        "Turn" => format!("|turn|{}", event["turn"]),
        "Win" => format!("|win|p{}", event["side"]),
        "Fault" => format!("|fault|{}", event["fault"]),
        _ => {
            let who = format!("p{}a: {}", event["side"], text(&event["species"]));
            match ALONE.iter().find(|(known, _)| *known == name) {
                Some((_, word)) => format!("|{word}|{who}"),
                None => of_member(name, &who, event),
            }
        }
    }
}

/// The line of an event of a member with more fields.
fn of_member(name: &str, who: &str, event: &Value) -> String {
    let of = |table, key: &str| word(table, &event[key]);
    let shift = || format!("{}|{}", of(&STATS, "stat"), event["stages"]);
    match name {
        "Switch" => switch(who, event),
        "Move" => {
            let other = 3 - event["side"].as_u64().expect("a side");
            let (id, foe) = (text(&event["move"]), text(&event["foe"]));
            format!("|move|{who}|{id}|p{other}a: {foe}")
        }
        "Cant" => format!("|cant|{who}|{}", of(&REASONS, "reason")),
        "Damage" => format!("|-damage|{who}|{}{}", health(event), of(&SOURCES, "source")),
        "Heal" => format!("|-heal|{who}|{}", health(event)),
        "Status" => format!("|-status|{who}|{}", of(&KINDS, "status")),
        "Cure" => format!("|-curestatus|{who}|{}", of(&KINDS, "status")),
        "Boost" => format!("|-boost|{who}|{}", shift()),
        "Unboost" => format!("|-unboost|{who}|{}", shift()),
        "Start" => format!("|-start|{who}|{}", of(&VOLATILES, "volatile")),
        "End" => format!("|-end|{who}|{}", of(&VOLATILES, "volatile")),
        "Activate" => format!("|-activate|{who}|{}", of(&VOLATILES, "volatile")),
        "Prepare" => format!("|-prepare|{who}|{}", text(&event["move"])),
        "HitCount" => format!("|-hitcount|{who}|{}", event["hits"]),
        other => panic!("an unknown event: {other}"),
    }
}

fn switch(who: &str, event: &Value) -> String {
    let level = match event["level"].as_u64() {
        Some(100) => String::new(),
        _ => format!(", L{}", event["level"]),
    };
    let species = text(&event["species"]);
    format!("|switch|{who}|{species}{level}|{}", health(event))
}
