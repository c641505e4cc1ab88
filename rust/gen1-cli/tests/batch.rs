//! JSON Lines: many battles in one process (docs/PROGRAM.md, "JSON Lines").
mod common;
use common::{TAUROS, battle, file_with, gen1, ran};
use serde_json::Value;
use std::io::{BufRead, BufReader, Write};
use std::process::Stdio;

/// Battles whose seeds differ; each seventh has a choice that is refused, and each eleventh is not JSON.
fn lines(count: usize) -> String {
    let line = |number: usize| {
        let choices = if number % 7 == 0 {
            "[[0,0],[17,99]]"
        } else {
            "[[0,0],[17,17],[17,17]]"
        };
        let seed = format!("[{},{},255", number % 256, number / 256);
        match number % 11 {
            0 => "nothing\n".into(),
            _ => {
                battle(TAUROS, &format!("\"choices\":{choices}")).replace("[1,36,255", &seed) + "\n"
            }
        }
    };
    (0..count).map(line).collect()
}

#[test]
fn the_output_is_the_same_with_any_number_of_jobs() {
    let count = 1500;
    let file = file_with("jobs.jsonl", lines(count));
    let run = |more: &[&str]| ran(&[&["run", "--lines", &file], more].concat(), b"");
    let one = run(&["--jobs", "1"]);
    for jobs in ["2", "3", "8", "0"] {
        assert_eq!(run(&["--jobs", jobs]).stdout, one.stdout, "{jobs}");
    }
    let text = String::from_utf8(one.stdout).expect("UTF-8");
    let objects: Vec<Value> = text
        .lines()
        .map(|line| serde_json::from_str(line).expect("JSON"))
        .collect();
    let numbers = objects.iter().map(|it| it["line"].as_u64());
    assert!(numbers.eq((1..=count as u64).map(Some)));
    let refused = (0..count)
        .filter(|number| number % 7 == 0 || number % 11 == 0)
        .count();
    assert_eq!(
        objects.iter().filter(|it| !it["error"].is_null()).count(),
        refused
    );
    let told = String::from_utf8(one.stderr).expect("UTF-8");
    assert!(
        told.starts_with(&format!("error: lines refused {refused}\n")),
        "{told}"
    );
    assert_eq!(one.status.code(), Some(1));
}

#[test]
fn a_line_is_played_as_run_plays_it() {
    let input = battle(TAUROS, r#""choices":[[0,0],[17,17],[17,17]]"#);
    let lines = String::from_utf8(ran(&["run"], input.as_bytes()).stdout).expect("UTF-8");
    let done = ran(&["run", "--lines"], input.as_bytes());
    assert_eq!((done.status.code(), done.stderr), (Some(0), vec![]));
    let object: Value = serde_json::from_slice(&done.stdout).expect("JSON");
    assert_eq!(
        object["lines"],
        Value::from(lines.lines().collect::<Vec<_>>())
    );
    assert_eq!(
        (&object["outcome"], &object["turn"]),
        (&Value::from("WinOne"), &Value::from(2))
    );
    assert_eq!(ran(&["run", "--lines"], b"").stdout, b"");
}

/// A program that waits for each battle before it sends the next one gets it.
#[test]
fn a_line_is_answered_before_the_next_one_is_sent() {
    let mut child = gen1()
        .args(["run", "--lines"])
        .stdin(Stdio::piped())
        .stdout(Stdio::piped())
        .spawn()
        .expect("the program starts");
    let (mut given, printed) = (
        child.stdin.take().expect("its input"),
        child.stdout.take().expect("its output"),
    );
    let mut printed = BufReader::new(printed).lines();
    for number in 1..=3 {
        let input = battle(TAUROS, r#""choices":[[0,0]]"#);
        writeln!(given, "{input}").expect("the line is taken");
        let line = printed.next().expect("a line").expect("text");
        let object: Value = serde_json::from_str(&line).expect("JSON");
        assert_eq!(object["line"], Value::from(number));
    }
    drop(given);
    assert!(child.wait().expect("the program ends").success());
}

#[test]
fn teams_on_the_command_line_are_those_of_each_line() {
    let team = file_with("batch.txt", "Tauros\n- Strength");
    let input = "{\"seed\":[1,36,255,7,31,100,179,254,127,10],\"choices\":[[\"pass\",\"pass\"]]}\n"
        .repeat(2);
    let file = file_with("batch.jsonl", input);
    let done = ran(
        &["run", "--lines", "--one", &team, "--two", &team, &file],
        b"",
    );
    let text = String::from_utf8(done.stdout).expect("UTF-8");
    assert_eq!(
        text.matches("|switch|p2a: Tauros|Tauros|353/353").count(),
        2
    );
}

/// Memory does not grow with the number of lines.
#[test]
#[cfg(target_os = "linux")]
fn memory_is_flat() {
    // Otherwise each thread would have a separate arena, of 64 MB that it does not use. The input has 180 MB.
    let command = "MALLOC_ARENA_MAX=1; export MALLOC_ARENA_MAX; ulimit -v 120000; yes \"$1\" | head -n 20000 | \"$0\" run --lines --jobs 2 | tail -n 1";
    let input = battle(TAUROS, r#""choices":[]"#) + &" ".repeat(9_000);
    let done = std::process::Command::new("sh")
        .args(["-c", command, env!("CARGO_BIN_EXE_gen1"), &input])
        .output()
        .expect("the program runs");
    let object: Value = serde_json::from_slice(&done.stdout).expect("JSON");
    assert_eq!(object["line"], Value::from(20_000));
}
