//! Runs of the program. Each test takes what it needs.
#![allow(dead_code)]
pub mod played;

use std::io::Write;
use std::process::{Command, Output, Stdio};

/// A member that a team may have.
pub const TAUROS: &str = r#"{"species":"Tauros","level":100,"dvs":[15,15,15,15],"exp":[65535,65535,65535,65535,65535],"moves":[["Strength",3]]}"#;

/// A battle of a Tauros against the given members; `end` is the rest of the object.
pub fn battle(two: &str, end: &str) -> String {
    format!(r#"{{"seed":[1,36,255,7,31,100,179,254,127,10],"one":[{TAUROS}],"two":[{two}],{end}}}"#)
}

/// The program.
pub fn gen1() -> Command {
    Command::new(env!("CARGO_BIN_EXE_gen1"))
}

/// What a command prints for an input.
pub fn fed(command: &mut Command, input: &[u8]) -> Output {
    let mut child = command
        .stdin(Stdio::piped())
        .stdout(Stdio::piped())
        .stderr(Stdio::piped())
        .spawn()
        .expect("the program starts");
    let mut given = child.stdin.take().expect("standard input");
    // A program that needs no more input may have ended already.
    let _ = given.write_all(input);
    drop(given);
    child.wait_with_output().expect("the program ends")
}

/// What the program prints for some words and an input.
pub fn ran(words: &[&str], input: &[u8]) -> Output {
    fed(gen1().args(words), input)
}

/// The status and what is on standard error; nothing may be on standard output.
pub fn told(done: &Output) -> (i32, &str) {
    assert!(done.stdout.is_empty(), "nothing is printed");
    let text = std::str::from_utf8(&done.stderr).expect("text");
    (done.status.code().expect("a status"), text)
}

/// The recorded cases of a file in `tests/battles`; none if the folder or the command `xz` is missing, and the test says so.
pub fn recorded(name: &str) -> Vec<serde_json::Value> {
    let folder = std::path::Path::new(env!("CARGO_MANIFEST_DIR")).join("../../tests/battles");
    let file = folder.join(format!("{name}.jsonl.xz"));
    let done = Command::new("xz").arg("-dc").arg(&file).output();
    let Some(done) = done.ok().filter(|done| done.status.success()) else {
        println!("{} cannot be unpacked", file.display());
        return Vec::new();
    };
    let text = String::from_utf8(done.stdout).expect("UTF-8");
    text.lines()
        .map(|line| serde_json::from_str(line).expect("a case"))
        .collect()
}

/// A file for a test, with its text.
pub fn file_with(name: &str, text: impl AsRef<[u8]>) -> String {
    let path = std::path::Path::new(env!("CARGO_TARGET_TMPDIR")).join(name);
    std::fs::write(&path, text).expect("the file is written");
    path.to_str().expect("UTF-8").into()
}

/// Runs the program, which may not take long, and returns its status and standard error.
pub fn ended(words: &[&str], input: &[u8]) -> (i32, String) {
    let begun = std::time::Instant::now();
    let done = ran(words, input);
    assert!(begun.elapsed().as_secs() < 60, "{words:?}");
    let text = String::from_utf8(done.stderr).expect("UTF-8");
    (done.status.code().expect("no signal"), text)
}
