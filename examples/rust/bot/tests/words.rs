//! The program as a user runs it: the same arguments give the same battles, and wrong arguments give an error.
use std::process::{Command, Output};

fn bot(words: &[&str]) -> Output {
    Command::new(env!("CARGO_BIN_EXE_bot"))
        .args(words)
        .output()
        .expect("the program runs")
}

fn text(bytes: &[u8]) -> &str {
    std::str::from_utf8(bytes).expect("text")
}

/// How many were won, lost and tied.
fn ends(done: &Output) -> [u32; 3] {
    let line = text(&done.stdout).lines().nth(1).expect("a line of counts");
    let counts: Vec<u32> = line
        .split([' ', ','])
        .filter_map(|word| word.parse().ok())
        .collect();
    counts.try_into().expect("three counts")
}

#[test]
fn the_same_words_give_the_same_battles() {
    let words = [
        "--battles",
        "6",
        "--playouts",
        "2",
        "--members",
        "2",
        "--seed",
        "5",
    ];
    let alone = bot(&[&words[..], &["--threads", "1"]].concat());
    let together = bot(&[&words[..], &["--threads", "3"]].concat());
    assert_eq!(
        (alone.status.code(), &alone.stdout),
        (Some(0), &together.stdout)
    );
    assert_eq!(ends(&alone).iter().sum::<u32>(), 6);
    let other = bot(&["--show", "--members", "2", "--playouts", "2", "--seed", "6"]);
    assert_ne!(
        other.stdout,
        bot(&["--show", "--members", "2", "--playouts", "2", "--seed", "5"]).stdout
    );
}

/// Between equal players, 17 or more of 20 battles are won once in 776 runs.
#[test]
fn few_playouts_already_beat_random() {
    let done = bot(&["--battles", "20", "--playouts", "6", "--members", "3"]);
    assert!(ends(&done)[0] >= 17, "{}", text(&done.stdout));
}

#[test]
fn a_battle_is_shown() {
    let done = bot(&["--show", "--members", "1", "--playouts", "4"]);
    let lines: Vec<&str> = text(&done.stdout).lines().collect();
    assert!(lines[0].starts_with("|switch|p1a: ") && lines[1].starts_with("|switch|p2a: "));
    assert!(
        lines
            .iter()
            .any(|line| line.starts_with("# p1 tries move 1: wins "))
    );
    assert!(lines.last().is_some_and(|line| line.starts_with("|win|")));
}

#[test]
fn help_is_printed() {
    let done = bot(&["--help"]);
    assert_eq!(done.status.code(), Some(0));
    for word in [
        "--battles",
        "--playouts",
        "--foe",
        "--members",
        "--seed",
        "--threads",
        "--show",
        "Status: ",
    ] {
        assert!(text(&done.stdout).contains(word), "{word}");
    }
}

#[test]
fn wrong_words_are_told() {
    for words in [
        ["--battles", "0"],
        ["--playouts", "0"],
        ["--members", "7"],
        ["--seed", "-1"],
        ["--threads", "0"],
        ["--play", "1"],
    ] {
        let done = bot(&words);
        assert_eq!(
            (done.status.code(), done.stdout.len()),
            (Some(2), 0),
            "{words:?}"
        );
        assert!(text(&done.stderr).contains("error: "), "{words:?}");
    }
}
