//! Rooms between processes: the lines of the battle that README.md shows, with HP in 48ths, whatever a player does.
use std::fs;
use std::path::PathBuf;
use std::process::{Command, Output};

const TAUROS: &str = concat!(
    r#"[{"species":"Tauros","level":100,"dvs":[15,15,15,15],"#,
    r#""exp":[65535,65535,65535,65535,65535],"moves":[["Strength",3]]}]"#,
);
const LINES: &str = "|switch|p1a: Tauros|Tauros|48/48
|switch|p2a: Tauros|Tauros|48/48
|turn|1
|move|p1a: Tauros|Strength|p2a: Tauros
|-crit|p2a: Tauros
|-damage|p2a: Tauros|20/48
|move|p2a: Tauros|Strength|p1a: Tauros
|-damage|p1a: Tauros|35/48
|turn|2
|move|p1a: Tauros|Strength|p2a: Tauros
|-crit|p2a: Tauros
|-damage|p2a: Tauros|0 fnt
|faint|p2a: Tauros
|win|p1
";

/// A file for the test with this name.
fn path(name: &str) -> PathBuf {
    PathBuf::from(env!("CARGO_TARGET_TMPDIR")).join(name)
}

fn room(name: &str, words: &[&str]) -> Output {
    let file = path(name);
    let text =
        format!(r#"{{"seed":[1,36,255,7,31,100,179,254,127,10],"one":{TAUROS},"two":{TAUROS}}}"#);
    fs::write(&file, text).expect("the file is written");
    Command::new(env!("CARGO_BIN_EXE_room"))
        .args(["host", "--replays"])
        .arg(&file)
        .args(words)
        .output()
        .expect("the program runs")
}

/// Standard output and standard error, after status 0.
fn told(done: &Output) -> (&str, &str) {
    let text = |bytes| std::str::from_utf8(bytes).expect("text");
    assert_eq!(done.status.code(), Some(0), "{}", text(&done.stderr));
    (text(&done.stdout), text(&done.stderr))
}

#[test]
fn the_lines_are_those_of_the_document() {
    assert_eq!(told(&room("plain", &[])), (LINES, ""));
}

#[test]
fn rude_players_are_refused_by_number_and_the_battle_goes_on() {
    let done = room(
        "rude",
        &[
            "--one",
            "room player --rude",
            "--two",
            "room player --rude 17 17",
        ],
    );
    let of = |side| {
        format!(
            "side {side}: refused 2: 2\nside {side}: refused 4: 2\nside {side}: refused 5: 512\n"
        )
    };
    assert_eq!(told(&done), (LINES, (of(1) + &of(2)).as_str()));
}

#[test]
fn who_is_refused_too_often_is_out() {
    let done = room("out", &["--two", "room player --rude", "--refusals", "9"]);
    let told = told(&done);
    assert_eq!(
        told,
        (
            LINES,
            "side 2: refused 5: 9\nside 2: refused 6: 1\nside 2: out in pair 0: it was refused too often\n"
        )
    );
}

#[test]
fn a_flood_without_an_end_does_not_keep_a_silent_player_in() {
    let done = room(
        "flood",
        &["--one", "sleep 60", "--two", "yes", "--patience", "1"],
    );
    let of_one = "side 1: out in pair 0: it was silent\n";
    let of_two = "side 2: refused 5: 1000\nside 2: refused 6: 1\nside 2: out in pair 0: it was refused too often\n";
    assert_eq!(told(&done), (LINES, (of_one.to_string() + of_two).as_str()));
}

#[test]
fn who_leaves_or_asks_back_is_out() {
    let done = room("left", &["--one", "true", "--two", "cat"]);
    let (lines, why) = told(&done);
    assert_eq!(lines, LINES);
    assert!(
        why.starts_with("side 1: out in pair 0: it left\n")
            && why.ends_with("it was refused too often\n"),
        "{why}"
    );
}

/// Everything that each process gets, byte for byte: both players record their input, and write nothing.
#[test]
fn each_gets_what_it_may_know() {
    let files = ["one", "two", "spectator"].map(path);
    let keep = |at: usize| format!("dd status=none of={}", files[at].display());
    let done = room(
        "got",
        &[
            "--one",
            &keep(0),
            "--two",
            &keep(1),
            "--spectator",
            &keep(2),
        ],
    );
    let out = |side| format!("side {side}: out in pair 0: it left\n");
    assert_eq!(told(&done), ("", (out(1) + &out(2)).as_str()));
    let got = files.map(|file| fs::read(file).expect("it was written"));
    // Both switches and turn 1, by docs/MECHANICS.md, "Log bytes".
    let start = "0201800164300030000002028001643000300000010100";
    let digits: String = got[2].iter().map(|byte| format!("{byte:02x}")).collect();
    assert!(
        digits.starts_with(start) && digits.ends_with("1a01"),
        "{digits}"
    );
    // A player sees its own 353 of 353 HP, and 48 of 48 of the foe.
    let reported = [
        "0201800164610161010002028001643000300000010100",
        "0201800164300030000002028001646101610100010100",
    ];
    for ((side, got), log) in (1..).zip(&got[..2]).zip(reported) {
        let known = format!("side {side}\nteam {TAUROS}\nlog {log}\nask 0 17\n");
        assert_eq!(std::str::from_utf8(got), Ok(known.as_str()));
    }
}

#[test]
fn a_board_is_shown() {
    let done = room("board", &["--spectator", "room spectator --board"]);
    let (lines, _) = told(&done);
    assert!(
        lines.contains("|turn|2\n# turn 2: p1 Tauros 35/48, p2 Tauros 20/48\n"),
        "{lines}"
    );
}

#[test]
fn what_is_no_battle_is_told() {
    let words = |words: &[&str]| {
        let done = Command::new(env!("CARGO_BIN_EXE_room"))
            .args(words)
            .output()
            .expect("the program runs");
        (
            done.status.code(),
            String::from_utf8(done.stderr).expect("text"),
        )
    };
    let file = path("none");
    fs::write(&file, r#"{"seed":[1,2,3]}"#).expect("the file is written");
    let name = file.to_str().expect("text");
    let (status, why) = words(&["host", name]);
    assert!(
        status == Some(1) && why.contains("line 1 column 15"),
        "{why}"
    );
    fs::write(
        &file,
        format!(r#"{{"seed":[0,0,0,0,0,0,0,0,0,0],"one":{TAUROS},"two":[]}}"#),
    )
    .expect("the file is written");
    let (status, why) = words(&["host", name]);
    assert!(
        status == Some(1) && why.contains("side 2, member 0: refusal 1"),
        "{why}"
    );
    assert_eq!(words(&["host", "/none"]).0, Some(3));
    assert_eq!(words(&["host", name, "--patience", "0"]).0, Some(2));
    let (status, why) = words(&["host", "/dev/null", "--one", "/no/such/program"]);
    assert!(status == Some(1), "{why}");
}
