//! The referee on files that are right, that are wrong in one place, and that have no battles. The battle is that of docs/PROGRAM.md.
use std::fs;
use std::path::PathBuf;
use std::process::Command;

const BATTLE: &str = r#""seed":[1,36,255,7,31,100,179,254,127,10],"one":[MEMBER],"two":[MEMBER],"choices":[[0,0],[17,17],[17,17]]"#;
const MEMBER: &str = r#"{"species":"Tauros","level":100,"dvs":[15,15,15,15],"exp":[65535,65535,65535,65535,65535],"moves":[["Strength",3]]}"#;
const LINES: &str = concat!(
    r"|switch|p1a: Tauros|Tauros|353/353\n|switch|p2a: Tauros|Tauros|353/353\n|turn|1\n",
    r"|move|p1a: Tauros|Strength|p2a: Tauros\n|-crit|p2a: Tauros\n|-damage|p2a: Tauros|149/353\n",
    r"|move|p2a: Tauros|Strength|p1a: Tauros\n|-damage|p1a: Tauros|263/353\n|turn|2\n",
    r"|move|p1a: Tauros|Strength|p2a: Tauros\n|-crit|p2a: Tauros\n|-damage|p2a: Tauros|0 fnt\n|faint|p2a: Tauros\n|win|p1\n",
);
/// The log of these lines, by docs/MECHANICS.md, "Log bytes".
const LOG: [&str; 3] = [
    "02018001646101610100 02028001646101610100 010100",
    "030180460280 070280 050280950061010000 030280460180 050180070161010000 010200",
    "030180460280 070280 050280000061010000 190280 1a01",
];

fn battle() -> String {
    BATTLE.replace("MEMBER", MEMBER)
}

/// The referee's standard output and standard error for a file, and its status.
fn referee(name: &str, text: &[u8], words: &[&str]) -> (Option<i32>, String, String) {
    let file = PathBuf::from(env!("CARGO_TARGET_TMPDIR")).join(name);
    fs::write(&file, text).expect("the file is written");
    let done = Command::new(env!("CARGO_BIN_EXE_referee"))
        .arg(&file)
        .args(words)
        .output()
        .expect("the program runs");
    let text = |bytes: Vec<u8>| {
        String::from_utf8(bytes)
            .expect("text")
            .replace(file.to_str().expect("text"), "FILE")
    };
    (done.status.code(), text(done.stdout), text(done.stderr))
}

#[test]
fn a_file_that_is_right() {
    let line = format!("{{{},\"lines\":\"{LINES}\"}}\n", battle());
    let (status, printed, told) = referee("right", line.repeat(3).as_bytes(), &[]);
    assert_eq!(
        (status, printed.as_str(), told.as_str()),
        (Some(0), "3 battles, 9 pairs: all match FILE\n", "")
    );
}

#[test]
fn the_first_pair_that_is_wrong_is_named() {
    let right = format!("{{{},\"lines\":\"{LINES}\"}}\n", battle());
    let wrong = right
        .replace("263/353", "262/353")
        .replace("{\"seed\"", "{\"name\":\"Tauros\",\"seed\"");
    let text = format!("{right}\n{wrong}{right}{wrong}");
    let (status, printed, _) = referee("wrong", text.as_bytes(), &[]);
    let said = [
        "FILE: line 3 (Tauros): pair 1 [17, 17]: line\n",
        "  expected: |-damage|p1a: Tauros|262/353\n",
        "  found:    |-damage|p1a: Tauros|263/353\n",
    ]
    .concat();
    assert_eq!(
        (status, printed),
        (
            Some(1),
            format!("{said}1 of the 2 battles that were played differ from FILE\n")
        )
    );
    let (status, printed, _) = referee("all", text.as_bytes(), &["--all"]);
    assert_eq!(
        (status, printed.lines().last()),
        (
            Some(1),
            Some("2 of the 4 battles that were played differ from FILE")
        )
    );
}

#[test]
fn lines_that_are_missing_or_too_many_are_named() {
    let (line, last) = (
        format!("{{{},\"lines\":\"{LINES}\"}}", battle()),
        r"|win|p1\n",
    );
    let (status, printed, _) = referee("missing", line.replace(last, "").as_bytes(), &[]);
    assert!(
        status == Some(1)
            && printed
                .contains("pair 2 [17, 17]: line\n  expected: nothing\n  found:    |win|p1\n"),
        "{printed}"
    );
    let (status, printed, _) = referee("more", line.replace(last, &last.repeat(2)).as_bytes(), &[]);
    assert!(
        status == Some(1)
            && printed.contains("lines after it\n  expected: |win|p1\n  found:    nothing\n"),
        "{printed}"
    );
}

#[test]
fn refusals_are_answers_like_others() {
    let over = battle().replace("[17,17]]", "[17,17],[17,17]]");
    let line = |told| {
        format!(
            "{{\"args\":[\"run\"],\"input\":{:?},\"stdout\":\"{LINES}\",\"stderr\":\"{told}\"}}",
            format!("{{{over}}}")
        )
    };
    assert_eq!(
        referee("over", line("error: pair 3 refused 1\\n").as_bytes(), &[]).0,
        Some(0)
    );
    let (status, printed, _) = referee(
        "refusal",
        line("error: pair 3 refused 2\\n").as_bytes(),
        &[],
    );
    assert!(
        status == Some(1) && printed.contains("pair 3 [17, 17]: standard error\n"),
        "{printed}"
    );
    let team = format!(
        "{{{},\"stderr\":\"error: team 1 place 1 refusal 3\\n\",\"stdout\":\"\"}}",
        battle().replacen("\"level\":100", "\"level\":101", 1)
    );
    assert_eq!(referee("team", team.as_bytes(), &[]).0, Some(0), "{team}");
}

#[test]
fn updates_are_compared_in_each_key() {
    let logs = LOG.map(|log| log.replace(' ', ""));
    let right = format!(
        "{{\"object\":{{{}}},\"updates\":[{{\"result\":[0,1,1],\"log\":\"{}\"}},\
         {{\"refused\":null,\"offered\":[[17],[17]]}},{{\"result\":[1,0,0],\"log\":\"{}\"}}]}}",
        battle(),
        logs[0],
        logs[2],
    );
    let (status, printed, told) = referee("updates", right.as_bytes(), &[]);
    assert_eq!(status, Some(0), "{printed}{told}");
    for (from, to, what) in [
        ("[0,1,1]", "[0,1,0]", "pair 0 [0, 0]: result"),
        ("null", "1", "pair 1 [17, 17]: answer"),
        (
            "[[17],[17]]",
            "[[17],[17,18]]",
            "pair 1 [17, 17]: choices after it",
        ),
        (
            "1a01\"",
            "1a02\"",
            "pair 2 [17, 17]: log, event 4\n  expected: |win|p2\n  found:    |win|p1\n",
        ),
        ("[1,0,0]", "[2,0,0]", "pair 2 [17, 17]: result"),
    ] {
        let (status, printed, _) = referee("update", right.replace(from, to).as_bytes(), &[]);
        assert!(
            status == Some(1) && printed.contains(what),
            "{what}: {printed}"
        );
    }
}

#[test]
fn a_log_file_is_compared_pair_by_pair() {
    let log = PathBuf::from(env!("CARGO_TARGET_TMPDIR")).join("log");
    let digits = LOG.concat().replace(' ', "");
    let mut bytes: Vec<u8> = (0..digits.len())
        .step_by(2)
        .map(|at| u8::from_str_radix(&digits[at..at + 2], 16).expect("digits"))
        .collect();
    let object = format!("{{{}}}", battle());
    let words = ["--log", log.to_str().expect("text")];
    fs::write(&log, &bytes).expect("it is written");
    let (status, printed, _) = referee("battle", object.as_bytes(), &words);
    assert_eq!(
        (status, printed.as_str()),
        (Some(0), "1 battles, 3 pairs: all match FILE\n")
    );
    *bytes.last_mut().expect("a byte") = 2;
    fs::write(&log, &bytes).expect("it is written");
    let (status, printed, _) = referee("other", object.as_bytes(), &words);
    assert!(
        status == Some(1) && printed.starts_with("FILE: pair 2 [17, 17]: log, event 4\n"),
        "{printed}"
    );
    fs::write(&log, &bytes[..30]).expect("it is written");
    let (status, printed, _) = referee("short", object.as_bytes(), &words);
    assert!(
        status == Some(1) && printed.starts_with("FILE: pair 1 [17, 17]: log, event 1\n"),
        "{printed}"
    );
}

/// Lines that aren't a battle, or say nothing of one, each with its error.
fn faults() -> Vec<(String, &'static str)> {
    let it = battle();
    let own = |text: &str, why| (text.to_string(), why);
    vec![
        own(
            "\n{\"seed\":[1,2]}\n",
            "line 2: invalid length 2, expected an array of length 10",
        ),
        own("[]\n", "line 1: invalid"),
        own("{\"args\":[\"calc\"]}", "line 1: args: expected [\"run\"]"),
        (
            format!("{{{it}}}"),
            "line 1: expected updates, lines, log or stdout",
        ),
        (
            format!("{{\"object\":{{{it}}},\"updates\":[]}}"),
            "line 1: updates: expected one for each pair",
        ),
        (
            format!("{{{it},\"log\":\"1a0\"}}"),
            "line 1: expected two hexadecimal digits",
        ),
        (
            format!("{{{it},\"rules\":4,\"lines\":\"\"}}"),
            "line 1: rules: expected 0 to 3",
        ),
        (
            format!("{{{},\"lines\":\"\"}}", it.replace("Tauros", "Taurus")),
            "line 1: ",
        ),
    ]
}

#[test]
fn what_is_no_file_of_battles_is_told_with_its_line() {
    for (text, why) in faults() {
        let (status, printed, told) = referee("none", text.as_bytes(), &[]);
        assert_eq!((status, printed.as_str()), (Some(2), ""), "{why}");
        assert!(
            told.starts_with(&format!("error: FILE: {why}")),
            "{why}: {told}"
        );
    }
    for words in [&["/none"][..], &[]] {
        let done = Command::new(env!("CARGO_BIN_EXE_referee"))
            .args(words)
            .output()
            .expect("the program runs");
        assert_eq!(done.status.code(), Some(2));
    }
}
