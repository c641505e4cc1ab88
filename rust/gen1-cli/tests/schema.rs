//! What the program reads and prints is as docs/PROGRAM.schema.json says. Without Python's jsonschema nothing is tested, and the test says so.
mod common;
use common::{TAUROS, battle, ran, recorded};
use gen1::{Battle, Host, Row, Side, Team, member};
use serde_json::{Value, json};
use std::io::Write;
use std::path::Path;
use std::process::{Command, Stdio};

/// Values with the name of their schema, and whether it allows them.
#[derive(Default)]
struct Values(Vec<Value>);

impl Values {
    fn allows(&mut self, name: &str, value: Value) {
        self.0.push(json!([name, value, true]));
    }

    fn refuses(&mut self, name: &str, value: Value) {
        self.0.push(json!([name, value, false]));
    }

    /// Each line that the program prints, and the first of them without one of its keys.
    fn prints(&mut self, name: &str, words: &[&str], input: &str, keys: &[&str]) {
        let done = ran(words, input.as_bytes());
        let printed = String::from_utf8(done.stdout).expect("UTF-8");
        assert!(!printed.is_empty() || !done.status.success(), "{words:?}");
        for (number, line) in printed.lines().enumerate() {
            let value: Value = serde_json::from_str(line).expect("JSON");
            for key in keys.iter().filter(|_| number == 0) {
                let mut less = value.clone();
                less.as_object_mut()
                    .expect("an object")
                    .remove(*key)
                    .expect("the key");
                self.refuses(name, less);
            }
            self.allows(name, value);
        }
    }
}

fn input_of(case: &Value) -> String {
    case["input"].as_str().expect("an input").into()
}

fn collected() -> Values {
    let mut values = Values::default();
    for case in recorded("battles").iter().take(5) {
        let input = input_of(case);
        let mut value: Value = serde_json::from_str(&input).expect("JSON");
        values.allows("run_input", value.clone());
        values.prints(
            "update",
            &["run", "--json"],
            &input,
            &["number", "events", "draws"],
        );
        values.prints("state", &["state", "--json"], &input, &["sides", "bytes"]);
        values.prints(
            "line",
            &["run", "--lines"],
            &value.to_string(),
            &["line", "lines"],
        );
        values.prints(
            "line",
            &["run", "--lines", "--json"],
            &value.to_string(),
            &["line", "updates"],
        );
        let log = ran(&["run", "--showdown"], input.as_bytes()).stdout;
        let log = String::from_utf8(log).expect("UTF-8");
        // A log may end anywhere.
        let log: Vec<_> = log.lines().take(150).collect();
        let log = log.join("\n");
        values.prints("known", &["follow", "--json"], &log, &["own", "events"]);
        values.prints(
            "members",
            &["team", "--json"],
            &value["one"].to_string(),
            &[],
        );
        value["seed"] = json!([1]);
        values.refuses("run_input", value);
    }
    for case in recorded("room").iter().take(10) {
        values.allows(
            "room_input",
            serde_json::from_str(&input_of(case)).expect("JSON"),
        );
        values.prints(
            "reply",
            &["room", "--json"],
            &input_of(case),
            &["reply", "pair"],
        );
    }
    for case in recorded("calc")
        .iter()
        .filter(|case| case["status"] != 1)
        .take(15)
    {
        values.allows(
            "calc_input",
            serde_json::from_str(&input_of(case)).expect("JSON"),
        );
        values.prints(
            "calculation",
            &["calc", "--json"],
            &input_of(case),
            &["attacker", "moves"],
        );
    }
    let begun = battle(TAUROS, r#""choices":[[0,0]]"#);
    let think = ["think", "--json", "--nodes", "100"];
    values.prints("thought", &think, &begun, &["value", "choices"]);
    let solve = [
        "solve",
        "--json",
        "--endless",
        "--classes",
        "1",
        "--memory",
        "1",
    ];
    values.prints("solved", &solve, &begun, &["low", "plays"]);
    let words = [
        "calc",
        "--json",
        "Mew",
        "Seismic",
        "Toss",
        "vs",
        "Mew",
        "--substitute",
    ];
    values.prints("calculation", &words, "", &["defender"]);
    values.prints(
        "line",
        &["run", "--lines"],
        "nothing\n\n",
        &["line", "lines"],
    );
    values
}

/// Rows, messages and notices of hosts, and each of them without one of its fields.
fn sent_and_stored() -> Values {
    let mut values = Values::default();
    let mut both = |name, value: Value| {
        for key in value.as_object().expect("an object").keys() {
            let mut less = value.clone();
            less.as_object_mut().expect("an object").remove(key);
            values.refuses(name, less);
        }
        values.allows(name, value);
    };
    let members = ["Starmie", "Tauros", "Jynx"].map(|it| member(it, &["Rest", "Surf"]));
    let team = Team::new(&members.map(|it| it.expect("a member"))).expect("a team");
    for seed in 1..4 {
        let mut host = Host::new(Battle::new(&team, &team, [seed; 10]));
        let mut place = usize::from(seed);
        while !host.is_closed() && host.number() < 40 {
            let (number, sides) = (host.number(), Side::BOTH.map(|side| host.message(side)));
            for (side, message) in Side::BOTH.into_iter().zip(sides) {
                both("message", json!(message));
                both("own_side", json!(message.own()));
                place += 1;
                let offered = message.offered();
                let byte = offered
                    .get(place % offered.len())
                    .map_or(0, |it| it.choice().byte());
                let numbers = (place % 3 > 0).then_some([seed; 10]);
                let row = Row::Submit {
                    side,
                    number,
                    byte,
                    numbers,
                };
                let _ = host.apply(&row);
                both("row", json!(row));
            }
            both("notice", json!(host.notice()));
        }
    }
    values
}

#[test]
fn values_are_as_the_schema_says() {
    tested("PROGRAM.schema.json", &collected());
    tested("HOST.schema.json", &sent_and_stored());
}

/// Tests values by a schema in docs.
fn tested(schema: &str, values: &Values) {
    let folder = Path::new(env!("CARGO_MANIFEST_DIR"));
    let child = Command::new("python3")
        .arg(folder.join("tests/schema.py"))
        .arg(folder.join("../../docs").join(schema))
        .stdin(Stdio::piped())
        .stdout(Stdio::piped())
        .spawn();
    let Ok(mut child) = child else {
        println!("there is no python3");
        return;
    };
    let lines: String = values.0.iter().map(|value| format!("{value}\n")).collect();
    let mut given = child.stdin.take().expect("its input");
    // Without jsonschema it reads nothing.
    let writer = std::thread::spawn(move || given.write_all(lines.as_bytes()));
    let done = child.wait_with_output().expect("it ends");
    let _ = writer.join();
    if done.status.code() == Some(77) {
        println!("there is no jsonschema");
        return;
    }
    let text = String::from_utf8(done.stdout).expect("UTF-8");
    let faults: Vec<_> = text
        .lines()
        .filter(|line| !line.ends_with(" values"))
        .take(10)
        .collect();
    assert!(
        done.status.success() && faults.is_empty(),
        "{}",
        faults.join("\n")
    );
    println!("{}", text.trim_end());
}
