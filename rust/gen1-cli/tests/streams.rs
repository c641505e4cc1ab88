//! Standard streams, files and words as a user meets them (docs/PROGRAM.md, "The program gen1").
mod common;
use common::{TAUROS, battle, fed, gen1, ran, told};
use std::fs::File;
use std::path::{Path, PathBuf};
use std::process::{Command, Stdio};

const BYTES: [u8; 2] = [26, 1];
const PAGE: &str = r#"<script id="battle" type="application/json">null</script>"#;

fn calculation() -> String {
    format!(r#"{{"attacker":{TAUROS},"defender":{TAUROS},"move":"Body Slam","critical":false}}"#)
}

fn start() -> String {
    battle(TAUROS, r#""choices":[[0,0]],"submissions":[]"#)
}

/// A shell's command with the program as `$0` and words after it.
fn shell(command: &str, words: &[&str]) -> Command {
    let mut shell = Command::new("sh");
    shell
        .args(["-c", command, env!("CARGO_BIN_EXE_gen1")])
        .args(words);
    shell
}

#[test]
#[cfg(target_os = "linux")]
fn a_line_without_an_end_ends_the_game() {
    let done = shell(
        "ulimit -v 400000; exec \"$0\" \"$@\"",
        &["play", "--seed", "1"],
    )
    .stdin(File::open("/dev/zero").expect("a device"))
    .output()
    .expect("the program runs");
    let due = "error: too long\nstandard input: expected at most 1048576 bytes\n";
    assert_eq!((done.status.code(), done.stderr), (Some(1), due.into()));
    assert!(done.stdout.len() < 4096, "the choices are printed once");
}

#[test]
fn a_line_that_is_no_text_is_asked_for_again() {
    let done = ran(&["play", "--seed", "1"], b"\xff\xfe\n\nq\n");
    assert_eq!(done.status.code(), Some(0));
    let text = String::from_utf8(done.stdout).expect("UTF-8");
    assert_eq!(text.matches("your choice").count(), 3);
    assert_eq!(
        text.matches("That is not text in UTF-8. your choice")
            .count(),
        1
    );
    assert!(text.ends_with("The battle is left.\n"));
}

#[test]
fn a_choice_in_words_is_played() {
    let done = ran(&["play", "--seed", "1"], b"move 1\nmove 9\nq\n");
    let text = String::from_utf8(done.stdout).expect("UTF-8");
    assert_eq!(text.matches("That is not one of them.").count(), 1);
    assert!(text.contains("|turn|2\n"), "{text}");
}

#[test]
#[cfg(unix)]
fn a_closed_standard_output_is_told() {
    for words in [
        &["run", "--explain"][..],
        &["bench", "--seconds", "1"],
        &["--help"],
        &["--version"],
    ] {
        let done = fed(
            &mut shell("exec \"$0\" \"$@\" >&-", words),
            start().as_bytes(),
        );
        let explained = words[0] != "--help" && words[0] != "--version";
        let due = if explained {
            "error: write\nstandard output: it is closed\n"
        } else {
            "error: write\n"
        };
        assert_eq!(told(&done), (3, due), "{words:?}");
    }
    // Nothing is printed, so nothing fails.
    let none = battle(TAUROS, r#""choices":[]"#);
    for (word, input) in [("run", none.as_bytes()), ("print", b"")] {
        let done = fed(&mut shell("exec \"$0\" \"$@\" >&-", &[word]), input);
        assert_eq!(told(&done), (0, ""), "{word}");
    }
}

#[test]
#[cfg(target_os = "linux")]
fn a_full_device_is_told_with_its_reason() {
    let done = fed(
        &mut shell("exec \"$0\" run --explain >/dev/full", &[]),
        start().as_bytes(),
    );
    let due = "error: write\nstandard output: No space left on device (os error 28)\n";
    assert_eq!(told(&done), (3, due));
}

#[test]
fn a_reader_that_is_gone_ends_the_program_silently() {
    let [log, json] = [&BYTES[..], calculation().as_bytes()].map(Vec::from);
    for (words, input) in [
        (&["print", "--explain"][..], log),
        (&["run", "--explain"], start().into()),
        (&["calc"], json),
        (&["bench", "--seconds", "1"], Vec::new()),
    ] {
        let mut child = gen1()
            .args(words)
            .stdin(Stdio::piped())
            .stdout(Stdio::piped())
            .stderr(Stdio::piped())
            .spawn()
            .expect("the program starts");
        drop(child.stdout.take());
        let mut given = child.stdin.take().expect("standard input");
        std::io::Write::write_all(&mut given, &input).expect("the input is taken");
        drop(given);
        assert_eq!(
            told(&child.wait_with_output().expect("the program ends")),
            (3, ""),
            "{words:?}"
        );
    }
}

#[test]
fn a_dash_is_standard_input() {
    let page = path_of("dash.html");
    std::fs::write(&page, PAGE).expect("the page is written");
    let page = page.to_str().expect("UTF-8");
    let (start, json) = (start().into_bytes(), calculation().into_bytes());
    let begun = "|switch|p1a: Tauros|Tauros|353/353\n|switch|p2a: Tauros|Tauros|353/353\n|turn|1\n";
    let shown = begun.replace("p2a: Tauros|Tauros|353/353", "p2a: Tauros|Tauros|48/48");
    let held = PAGE.replace("null", r#"{"log":"1a01"}"#);
    for (words, input, due) in [
        (&["run", "-"][..], &start[..], begun),
        (&["room", "-"], &start, begun),
        (&["state", "-"], &start, "turn 1 of 1000: "),
        (&["print", "-"], &BYTES, "|win|p1\n"),
        (&["calc", "-"], &json, "95 95 96 96 97 97 97 98 "),
        (&["play", "-"], &start, &shown),
        (&["replay", "-", "--page", page], &BYTES, &held),
        (&["replay", "--page", page, "--out", "-"], &BYTES, &held),
    ] {
        let done = ran(words, input);
        let text = String::from_utf8(done.stdout).expect("UTF-8");
        assert_eq!(
            (done.status.code(), done.stderr),
            (Some(0), vec![]),
            "{words:?}"
        );
        assert!(text.starts_with(due), "{words:?}: {text}");
    }
    let log = ran(&["log", "-"], &start).stdout;
    assert_eq!(log.len(), 23);
    let file = path_of("dash.log");
    std::fs::write(&file, BYTES).expect("the log is written");
    let file = file.to_str().expect("UTF-8");
    let done = ran(&["replay", file, "--page", "-"], PAGE.as_bytes());
    assert_eq!(String::from_utf8(done.stdout).expect("UTF-8"), held);
}

fn path_of(name: &str) -> PathBuf {
    Path::new(env!("CARGO_TARGET_TMPDIR")).join(name)
}

#[test]
#[cfg(unix)]
fn an_error_of_a_file_names_it_with_the_reason() {
    let none = "no/such/file";
    assert_eq!(told(&ran(&["run", none], b"")), (3, "error: read\n"));
    for (file, why) in [
        (none, "No such file or directory (os error 2)"),
        ("/", "Is a directory (os error 21)"),
    ] {
        for words in [
            &["run", "--explain", file][..],
            &["state", "--explain", file],
            &["play", file],
        ] {
            let due = format!("error: read\n{file}: {why}\n");
            assert_eq!(told(&ran(words, b"")), (3, due.as_str()), "{words:?}");
        }
    }
    let done = shell("exec \"$0\" print --explain < /", &[]).output();
    let due = "error: read\nstandard input: Is a directory (os error 21)\n";
    assert_eq!(told(&done.expect("the program runs")), (3, due));
}

/// `script` of util-linux gives a program a terminal. Without it nothing is tested, and the test says so.
#[test]
#[cfg(target_os = "linux")]
fn in_a_terminal_errors_are_explained() {
    let command = format!("'{}' run no/such/file", env!("CARGO_BIN_EXE_gen1"));
    let Ok(done) = Command::new("script")
        .args(["-qec", &command, "/dev/null"])
        .stdin(Stdio::null())
        .output()
    else {
        println!("there is no command script");
        return;
    };
    let text = String::from_utf8(done.stdout).expect("UTF-8");
    let due = "error: read\r\nno/such/file: No such file or directory (os error 2)\r\n";
    assert_eq!((done.status.code(), text.as_str()), (Some(3), due));
}

#[test]
fn the_version_names_the_build() {
    let done = ran(&["--version"], b"");
    assert_eq!(done.stdout, b"gen1 1.0.0 (plain build; docs/PLAIN.md)\n");
}

#[test]
fn help_ends_with_the_statuses() {
    let text = String::from_utf8(ran(&["--help"], b"").stdout).expect("UTF-8");
    let end = text.split("Exit status:\n").nth(1).expect("a list of them");
    for (number, line) in end.lines().take(4).enumerate() {
        assert!(line.starts_with(&format!("  {number}  ")), "{line}");
    }
}

#[test]
fn a_measurement_says_what_each_row_includes() {
    let done = ran(&["bench", "--seconds", "1"], b"");
    assert_eq!((done.status.code(), done.stderr), (Some(0), vec![]));
    let text = String::from_utf8(done.stdout).expect("UTF-8");
    let mut lines = text.lines();
    let head = "gen1 1.0.0 (plain build; docs/PLAIN.md), nothing of it proved";
    assert_eq!(lines.next(), Some(head));
    for name in ["engine", "masks", "lists", "lines"] {
        let words: Vec<_> = lines.next().expect("a row").split_whitespace().collect();
        let ([first, time], ["ns", "an", "update"]) = (&words[..2], &words[2..5]) else {
            panic!("another row: {words:?}");
        };
        assert_eq!(*first, name);
        assert!(time.parse::<u32>().is_ok_and(|time| time > 0));
        assert!(words.len() > 10, "what is included");
    }
    assert_eq!(lines.next(), None);
}
