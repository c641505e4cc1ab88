//! Recorded cases, which the program reproduces byte for byte, and the recorded battles in the other forms of input and output: choices in
//! words, teams as text, JSON Lines and objects. They are the battles of the bytes (docs/PROGRAM.md).
mod common;
#[path = "common/lines.rs"]
mod lines;
use common::{fed, file_with, gen1, ran, recorded};
use gen1::{Battle, Choice, MemberSpec, MoveId, Rules, Side, Team, TurnLimit};
use serde_json::{Value, json};
use std::collections::HashMap;

const FILES: [&str; 4] = ["battles", "first_path", "limit", "rules"];

/// The recorded cases of `run` that have a battle.
fn cases() -> Vec<(Value, Value)> {
    let all = FILES.iter().flat_map(|name| recorded(name));
    let with_input = all.map(|case| {
        let input = serde_json::from_str(case["input"].as_str().expect("an input")).expect("JSON");
        (case, input)
    });
    with_input.collect()
}

fn team(input: &Value, side: &str) -> Team {
    let specs: Vec<MemberSpec> = serde_json::from_value(input[side].clone()).expect("members");
    Team::new(&specs).expect("a team")
}

/// The battle of an input before its first update.
fn start(input: &Value) -> Battle {
    let number = |key: &str, otherwise: u64| input[key].as_u64().unwrap_or(otherwise);
    let seed = serde_json::from_value(input["seed"].clone()).expect("a seed");
    let rules = Rules::new(number("rules", 0) as u8).expect("rules");
    let limit = TurnLimit::new(number("limit", 1000) as u16).expect("a limit");
    Battle::with_limit(&team(input, "one"), &team(input, "two"), seed, rules, limit)
}

fn byte(value: &Value) -> u8 {
    value.as_u64().expect("a byte") as u8
}

/// A choice in words: by name in even updates, unless the name fits another member too, and by number in odd ones.
fn words(battle: &Battle, side: Side, byte: u8, by_name: bool) -> Value {
    let Some(choice) = Choice::from_byte(byte) else {
        return json!(byte);
    };
    let state = battle.state();
    let of_side = state.side(side);
    match choice {
        Choice::Move(slot) if by_name && slot.number() > 0 => {
            let moves = of_side
                .member_out()
                .map(|it| it.moves.clone())
                .unwrap_or_default();
            let known = moves.get(usize::from(slot.number()) - 1);
            known.map_or(json!(byte), |it| {
                json!(match slot.number() {
                    1 => it.id.to_string(),
                    2 => format!("move 2 {}", it.id),
                    _ => format!("move {}", it.id),
                })
            })
        }
        Choice::Switch(place) if by_name => {
            let members = &of_side.members;
            let found = members
                .get(usize::from(place.number()) - 1)
                .map(|it| it.species);
            let count = members
                .iter()
                .filter(|it| Some(it.species) == found)
                .count();
            match found {
                Some(species) if count == 1 => json!(format!("switch {species}")),
                _ => json!(choice.to_string()),
            }
        }
        _ => json!(choice.to_string()),
    }
}

/// The choices of an input in words.
fn choices_in_words(input: &Value) -> Vec<Value> {
    let mut battle = start(input);
    let pairs = input["choices"].as_array().expect("choices");
    let in_words = pairs.iter().enumerate().map(|(number, pair)| {
        let (one, two) = (byte(&pair[0]), byte(&pair[1]));
        let by_name = number % 2 == 0;
        let both = json!([
            words(&battle, Side::One, one, by_name),
            words(&battle, Side::Two, two, by_name)
        ]);
        let _ = battle.update_silent(one, two);
        both
    });
    in_words.collect()
}

/// Compares an object of `run --lines` with the recorded output.
fn compared(case: &Value, object: &Value, lines: Vec<String>) {
    let name = &case["name"];
    let text: String = lines.iter().map(|line| format!("{line}\n")).collect();
    assert_eq!(text, case["stdout"].as_str().expect("stdout"), "{name}");
    let error = object["error"]
        .as_str()
        .map(|line| format!("error: {line}\n"));
    assert_eq!(
        error.as_deref().unwrap_or(""),
        case["stderr"].as_str().expect("stderr"),
        "{name}"
    );
}

/// The objects that `run --lines` prints for inputs, one for each.
fn batch(inputs: &[Value], more: &[&str]) -> Vec<Value> {
    let text: String = inputs.iter().map(|input| format!("{input}\n")).collect();
    let file = file_with(&format!("batch{}.jsonl", more.concat()), text);
    let done = ran(&[&["run", "--lines"], more, &[&file]].concat(), b"");
    let printed = String::from_utf8(done.stdout).expect("UTF-8");
    let objects: Vec<Value> = printed
        .lines()
        .map(|it| serde_json::from_str(it).expect("JSON"))
        .collect();
    assert_eq!(objects.len(), inputs.len());
    objects
}

#[test]
fn choices_in_words_give_the_recorded_battles() {
    let cases = cases();
    let inputs: Vec<Value> = cases
        .iter()
        .map(|(_, input)| {
            let mut input = input.clone();
            input["choices"] = Value::from(choices_in_words(&input));
            input
        })
        .collect();
    for ((case, _), object) in cases.iter().zip(batch(&inputs, &["--jobs", "2"])) {
        let lines = object["lines"].as_array().expect("lines").iter();
        compared(
            case,
            &object,
            lines
                .map(|it| it.as_str().expect("a line").into())
                .collect(),
        );
    }
}

#[test]
fn objects_have_the_events_of_the_recorded_battles() {
    let cases = cases();
    let inputs: Vec<Value> = cases.iter().map(|(_, input)| input.clone()).collect();
    for ((case, _), object) in cases.iter().zip(batch(&inputs, &["--json"])) {
        let updates = object["updates"].as_array().expect("updates").iter();
        let events = updates.flat_map(|update| update["events"].as_array().expect("events"));
        compared(case, &object, events.map(lines::line_of).collect());
    }
}

/// Whether each move is used less often than its PP without PP ups, so that three PP ups, as a text has, change nothing.
fn spares_pp(case: &Value) -> bool {
    let mut uses: HashMap<(&str, &str), u8> = HashMap::new();
    let lines = case["stdout"].as_str().expect("stdout").lines();
    for line in lines.filter(|line| line.starts_with("|move|")) {
        let fields: Vec<_> = line.split('|').collect();
        let count = uses.entry((fields[2], fields[3])).or_default();
        *count = count.saturating_add(1);
    }
    uses.iter()
        .all(|((_, name), count)| MoveId::from_name(name).is_some_and(|id| *count < id.pp()))
}

/// A file with the team of a side as text, an export text or a packed line, by `gen1 team`.
fn text_file(input: &Value, side: &str, packed: bool) -> String {
    let mut members = input[side].clone();
    for known in members.as_array_mut().expect("members").iter_mut() {
        for one in known["moves"].as_array_mut().expect("moves") {
            one[1] = json!(3);
        }
    }
    let words: &[&str] = if packed {
        &["team", "--packed"]
    } else {
        &["team"]
    };
    let done = ran(words, members.to_string().as_bytes());
    assert!(
        done.status.success(),
        "{}",
        String::from_utf8_lossy(&done.stderr)
    );
    file_with(&format!("forms.{side}"), done.stdout)
}

/// The command that plays an input whose teams, seed and terms are options.
fn with_options(input: &Value, packed: bool) -> std::process::Command {
    let seed = input["seed"].as_array().expect("a seed");
    let seed: Vec<_> = seed.iter().map(Value::to_string).collect();
    let mut command = gen1();
    command.args(["run", "--seed", &seed.join(",")]);
    for side in ["one", "two"] {
        command
            .arg(format!("--{side}"))
            .arg(text_file(input, side, packed));
    }
    for key in ["rules", "limit"]
        .iter()
        .filter(|key| !input[**key].is_null())
    {
        command.arg(format!("--{key}")).arg(input[*key].to_string());
    }
    command
}

#[test]
fn teams_and_choices_as_text_give_the_recorded_battles() {
    let cases = cases();
    let kept: Vec<_> = cases.iter().filter(|(case, _)| spares_pp(case)).collect();
    let text = |it: &Value| it.as_str().map_or(it.to_string(), str::to_string);
    for (number, (case, input)) in kept.iter().enumerate() {
        let pairs = choices_in_words(input).into_iter();
        let lines = pairs.map(|pair| format!("{}, {}\n", text(&pair[0]), text(&pair[1])));
        let choices: String = lines.collect();
        let done = fed(
            &mut with_options(input, number % 2 == 0),
            choices.as_bytes(),
        );
        let name = &case["name"];
        let [out, err] = ["stdout", "stderr"].map(|key| case[key].as_str().expect("a text"));
        assert_eq!(String::from_utf8_lossy(&done.stdout), out, "{name}");
        assert_eq!(String::from_utf8_lossy(&done.stderr), err, "{name}");
    }
    assert!(cases.is_empty() || kept.len() > 100, "{}", kept.len());
}

#[test]
fn submissions_in_words_give_the_recorded_rooms() {
    for case in recorded("room") {
        let mut input: Value =
            serde_json::from_str(case["input"].as_str().expect("an input")).expect("JSON");
        let Some(submissions) = input["submissions"].as_array_mut() else {
            continue;
        };
        for it in submissions.iter_mut() {
            let choice = it[2]
                .as_u64()
                .and_then(|byte| Choice::from_byte(u8::try_from(byte).ok()?));
            if let Some(choice) = choice {
                it[2] = json!(choice.to_string());
            }
        }
        let done = ran(&["room"], input.to_string().as_bytes());
        assert_eq!(
            String::from_utf8_lossy(&done.stdout),
            case["stdout"].as_str().expect("stdout"),
            "{}",
            case["name"]
        );
    }
}

/// Whether the members of each side are of different species, so that each has its species for its name.
fn has_distinct_species(input: &Value) -> bool {
    ["one", "two"].into_iter().all(|side| {
        let members = input[side].as_array().expect("members");
        let mut names: Vec<_> = members.iter().map(|it| it["species"].as_str()).collect();
        names.sort_unstable();
        names.windows(2).all(|pair| pair[0] != pair[1])
    })
}

/// The lines of Showdown's log as `run` prints them: without the lines and the words that only Showdown has.
#[derive(Default)]
struct Plain {
    /// Both active members, as `p1a: Tauros`.
    active: [String; 2],
}

impl Plain {
    /// A line of `run`; none for a line that only Showdown has.
    fn line(&mut self, line: &str) -> Option<String> {
        let mut fields: Vec<&str> = line.split('|').collect();
        let has = |tag: &str| line.ends_with(tag);
        let is_told_elsewhere = match fields[1] {
            "" | "upkeep" | "-message" => true,
            "move" => fields[3] == "Bide" || has("|[still]"),
            "-end" | "-status" => has("|[silent]"),
            "-boost" | "-unboost" => fields[3] == "spd",
            "-activate" => has("|move: Haze"),
            _ => false,
        };
        if is_told_elsewhere {
            return None;
        }
        let is_source = |field: &str| {
            let kept = ["psn", "brn", "Leech Seed", "Recoil", "confusion"];
            kept.iter().any(|word| field == format!("[from] {word}"))
        };
        fields.retain(|field| !field.starts_with('[') || is_source(field));
        match fields[1] {
            "switch" => {
                let at = usize::from(fields[2].starts_with("p2"));
                self.active[at] = fields[2].into();
            }
            "move" => {
                let foe = usize::from(fields[2].starts_with("p1"));
                fields[4] = &self.active[foe];
            }
            "-miss" => fields.truncate(3),
            "-fail" => {
                // A status there is that of the target.
                let has_status = |word: &&str| ["slp", "psn", "tox", "par"].contains(word);
                if fields.get(3).is_some_and(has_status) {
                    fields[2] = &self.active[usize::from(fields[2].starts_with("p1"))];
                }
                fields.truncate(3);
            }
            // The target's Mist, which the engine has as a miss.
            "-activate" if fields[3] == "move: Mist" => {
                let user = usize::from(fields[2].starts_with("p1"));
                fields = vec!["", "-miss", &self.active[user]];
            }
            "cant" | "-start" => fields.truncate(4),
            _ => (),
        }
        let fields = fields.iter().map(|field| {
            let field = field.strip_prefix("move: ").unwrap_or(field);
            match field {
                "spa" => "spc".into(),
                "accuracy" => "acc".into(),
                "evasion" => "eva".into(),
                "tox" => "psn".into(),
                _ => field.replace(" tox", " psn").replace("Side ", "p"),
            }
        });
        Some(fields.collect::<Vec<_>>().join("|") + "\n")
    }
}

#[test]
fn showdowns_log_has_the_recorded_events() {
    let cases = cases();
    let fits = |(case, input): &&(Value, Value)| case["status"] == 0 && has_distinct_species(input);
    for (case, input) in cases.iter().filter(fits).step_by(4) {
        let done = ran(&["run", "--showdown"], input.to_string().as_bytes());
        let text = String::from_utf8(done.stdout).expect("UTF-8");
        let (_, events) = text.split_once("|start\n").expect("a start");
        let mut plain = Plain::default();
        let lines: String = events.lines().filter_map(|it| plain.line(it)).collect();
        let recorded = case["stdout"].as_str().expect("stdout");
        if !recorded.contains("|fault|") {
            assert_eq!(lines, recorded, "{}", case["name"]);
        }
    }
}

/// The number of draws of an update, and the bytes of what each side may choose next.
fn draws_and_offers(object: &Value) -> (Value, Value) {
    let bytes_of = |side: &Value| {
        let offered = side.as_array().expect("a list").iter();
        let choices = offered.map(|it| it["choice"].as_str().expect("a choice"));
        let bytes = choices.map(|it| it.parse::<Choice>().expect("a choice").byte());
        bytes.collect::<Vec<_>>()
    };
    let offered = [
        bytes_of(&object["offered"][0]),
        bytes_of(&object["offered"][1]),
    ];
    let draws = object["draws"].as_array().expect("a list").len();
    (json!(draws), json!(offered))
}

#[test]
fn updates_have_the_recorded_draws_and_offers() {
    for case in recorded("traces") {
        let updates = case["updates"].as_array().expect("updates").iter();
        let kept: Vec<_> = updates
            .take_while(|update| update["refused"].is_null())
            .collect();
        let mut input = case["object"].clone();
        input["choices"] = kept.iter().map(|update| update["pair"].clone()).collect();
        let input = input.to_string();
        let text = String::from_utf8(ran(&["run", "--json"], input.as_bytes()).stdout);
        let text = text.expect("UTF-8");
        assert_eq!(text.lines().count(), kept.len());
        for (line, update) in text.lines().zip(&kept) {
            let object: Value = serde_json::from_str(line).expect("JSON");
            let due = (update["draws"].clone(), update["offered"].clone());
            assert_eq!(draws_and_offers(&object), due);
        }
        let printed = ran(&["state", "--json"], input.as_bytes()).stdout;
        let state: Value = serde_json::from_slice(&printed).expect("JSON");
        assert!(
            kept.last()
                .is_none_or(|last| state["bytes"] == last["bytes"])
        );
    }
}

fn bytes_of(hex: &str) -> Vec<u8> {
    (0..hex.len() / 2)
        .map(|at| u8::from_str_radix(&hex[2 * at..2 * at + 2], 16).expect("hexadecimal digits"))
        .collect()
}

fn is_answered(case: &Value) {
    let name = case["name"].as_str().expect("a name");
    let words: Vec<&str> = case["args"]
        .as_array()
        .expect("words")
        .iter()
        .filter_map(Value::as_str)
        .collect();
    let input = match case["hex"].as_str() {
        Some(hex) => bytes_of(hex),
        None => case["input"].as_str().unwrap_or_default().into(),
    };
    let done = ran(&words, &input);
    let printed = String::from_utf8_lossy(&done.stdout);
    assert_eq!(printed, case["stdout"].as_str().expect("stdout"), "{name}");
    if let Some(told) = case["stderr"].as_str() {
        assert_eq!(String::from_utf8_lossy(&done.stderr), told, "{name}");
    }
    assert_eq!(
        done.status.code().map(i64::from),
        Some(case["status"].as_i64().unwrap_or(0)),
        "{name}"
    );
}

#[test]
fn recorded_cases_are_answered_as_recorded() {
    let others = ["calc", "errors", "print", "room"];
    let cases = FILES.iter().chain(&others).flat_map(|name| recorded(name));
    let count = cases.inspect(is_answered).count();
    println!("{count} recorded cases");
}
