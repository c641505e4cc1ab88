//! Pages that hold a battle: a page is filled in its one place, and refused if it has none (web/README.md).
use std::fs;
use std::path::{Path, PathBuf};
use std::process::{Command, Output};

const PAGE: &str = r#"<p>a</p><script id="battle" type="application/json">null</script><p>b</p>"#;
const INPUT: &str = r#"{"seed":[1,36,255,7,31,100,179,254,127,10],"note":"</script>",
 "one":[{"species":"Tauros","level":100,"dvs":[15,15,15,15],"exp":[1,2,3,4,5],"moves":[["Strength",3]]}],
 "two":[{"species":"Tauros","level":100,"dvs":[15,15,15,15],"exp":[1,2,3,4,5],"moves":[["Strength",3]]}],
 "choices":[[0,0],[17,17]]}"#;

fn path_of(name: &str) -> PathBuf {
    PathBuf::from(env!("CARGO_TARGET_TMPDIR")).join(name)
}

/// Runs `gen1 replay` on an input and a page.
fn replayed(name: &str, input: &[u8], page: &str) -> Output {
    let [file, html] = ["in", "html"].map(|kind| path_of(&format!("{name}.{kind}")));
    fs::write(&file, input).expect("the input is written");
    fs::write(&html, page).expect("the page is written");
    Command::new(env!("CARGO_BIN_EXE_gen1"))
        .args([
            "replay".as_ref(),
            file.as_os_str(),
            "--page".as_ref(),
            html.as_os_str(),
        ])
        .output()
        .expect("the program runs")
}

fn told(done: &Output) -> (i32, &str) {
    let text = std::str::from_utf8(&done.stderr).expect("text");
    (done.status.code().expect("a status"), text)
}

#[test]
fn a_page_holds_the_battle_in_its_one_place() {
    let done = replayed("input", INPUT.as_bytes(), PAGE);
    assert_eq!(told(&done), (0, ""));
    let page = String::from_utf8(done.stdout).expect("text");
    let held = page
        .strip_prefix(r#"<p>a</p><script id="battle" type="application/json">"#)
        .and_then(|rest| rest.strip_suffix("</script><p>b</p>"))
        .expect("nothing else of the page has changed");
    assert_eq!(held, INPUT.replace('<', "\\u003c"));
    let [given, found] =
        [INPUT, held].map(|text| serde_json::from_str::<serde_json::Value>(text).expect("JSON"));
    assert_eq!(given, found);
}

#[test]
fn a_page_is_written_to_a_file() {
    let folder = PathBuf::from(env!("CARGO_TARGET_TMPDIR"));
    let [log, html, out] = ["out.in", "out.html", "out.made"].map(|name| folder.join(name));
    fs::write(&log, [26, 1]).expect("the log is written");
    fs::write(&html, PAGE).expect("the page is written");
    let run = |out: &PathBuf| {
        Command::new(env!("CARGO_BIN_EXE_gen1"))
            .arg("replay")
            .arg(&log)
            .arg("--page")
            .arg(&html)
            .arg("--out")
            .arg(out)
            .output()
            .expect("the program runs")
    };
    assert_eq!(told(&run(&out)), (0, ""));
    let made = fs::read_to_string(&out).expect("a page");
    assert_eq!(made, PAGE.replace("null", r#"{"log":"1a01"}"#));
    let due = format!(
        "error: write\n{}: Is a directory (os error 21)\n",
        folder.display()
    );
    assert_eq!(told(&run(&folder)), (3, due.as_str()));
}

#[test]
fn a_log_is_held_as_its_digits() {
    let done = replayed("log", &[26, 1], PAGE);
    assert_eq!(told(&done), (0, ""));
    let page = String::from_utf8(done.stdout).expect("text");
    assert_eq!(page, PAGE.replace("null", r#"{"log":"1a01"}"#));
}

#[test]
fn what_is_wrong_is_refused_and_nothing_is_printed() {
    let (twice, filled) = (PAGE.repeat(2), PAGE.replace("null", "{}"));
    let no_member = INPUT.replacen("\"level\":100", "\"level\":101", 1);
    let no_choices = INPUT.replace("\"choices\"", "\"choice\"");
    let no_page = "expected a page with one place for a battle, as web/build makes it";
    for (name, input, page, line, file, why) in [
        (
            "no place",
            INPUT.as_bytes(),
            "<p>a page</p>",
            "page",
            "html",
            no_page,
        ),
        (
            "two places",
            INPUT.as_bytes(),
            &twice,
            "page",
            "html",
            no_page,
        ),
        ("filled", INPUT.as_bytes(), &filled, "page", "html", no_page),
        (
            "team",
            no_member.as_bytes(),
            PAGE,
            "team 1 place 1 refusal 3",
            "in",
            "team 1, member 1: the level is not 1 to 100",
        ),
        (
            "choices",
            no_choices.as_bytes(),
            PAGE,
            "json",
            "in",
            r#"at .: expected an object with the key "choices", found an object without it"#,
        ),
        (
            "log",
            &[26, 1, 99],
            PAGE,
            "log 1",
            "in",
            "at byte 2, event 2: a byte in a tag's place is no tag",
        ),
        (
            "cut",
            &[5, 1],
            PAGE,
            "log 3",
            "in",
            "at byte 0, event 1: the bytes end within an event",
        ),
    ] {
        let done = replayed(name, input, page);
        let file = path_of(&format!("{name}.{file}"));
        let due = format!("error: {line}\n{}: {why}\n", file.display());
        assert_eq!(told(&done), (1, due.as_str()), "{name}");
        assert!(done.stdout.is_empty(), "{name}");
    }
}

#[test]
fn a_file_that_is_not_there_is_named() {
    let (log, html, none) = (
        path_of("named.in"),
        path_of("named.html"),
        path_of("no such file"),
    );
    fs::write(&log, [26, 1]).expect("the log is written");
    fs::write(&html, PAGE).expect("the page is written");
    let due = format!(
        "error: read\n{}: No such file or directory (os error 2)\n",
        none.display()
    );
    for (file, page) in [(&none, &html), (&log, &none)] {
        let done = Command::new(env!("CARGO_BIN_EXE_gen1"))
            .args(["replay".as_ref(), file.as_os_str()])
            .args(["--page".as_ref(), page.as_os_str()])
            .output()
            .expect("the program runs");
        assert_eq!(told(&done), (3, due.as_str()));
    }
    let done = Command::new(env!("CARGO_BIN_EXE_gen1"))
        .args(["play".as_ref(), none.as_os_str()])
        .output()
        .expect("the program runs");
    assert_eq!(told(&done), (3, due.as_str()));
}

/// Runs `gen1 replay FILE --page PAGE --out OUT`, by a shell's command that has them as words.
#[cfg(unix)]
fn written(command: &str, file: &Path, page: &Path, out: &Path) -> Output {
    Command::new("sh")
        .args(["-c", command, env!("CARGO_BIN_EXE_gen1"), "replay"])
        .arg(file)
        .arg("--page")
        .arg(page)
        .arg("--out")
        .arg(out)
        .output()
        .expect("the program runs")
}

/// A new folder with a log and a page in it.
#[cfg(unix)]
fn folder_of(name: &str, page: &str) -> [PathBuf; 3] {
    let folder = path_of(name);
    let _ = fs::remove_dir_all(&folder);
    fs::create_dir(&folder).expect("a folder");
    let [log, html] = ["log", "html"].map(|name| folder.join(name));
    fs::write(&log, [26, 1]).expect("the log is written");
    fs::write(&html, page).expect("the page is written");
    [folder, log, html]
}

#[cfg(unix)]
const RUN: &str = "exec \"$0\" \"$@\"";

#[test]
#[cfg(unix)]
fn a_file_that_is_read_is_not_written() {
    let [folder, log, html] = folder_of("read", PAGE);
    let link = folder.join("link");
    std::os::unix::fs::symlink(&html, &link).expect("a link");
    let due = "error: --out is a file that is read too\nit would be overwritten: give --out another name\n";
    for out in [&html, &log, &link, &folder.join("../read/html")] {
        assert_eq!(told(&written(RUN, &log, &html, out)), (2, due));
    }
    assert_eq!(fs::read(&log).expect("the log"), [26, 1]);
    assert_eq!(fs::read_to_string(&html).expect("the page"), PAGE);
}

#[test]
#[cfg(unix)]
fn a_file_is_written_whole_or_not_at_all() {
    use std::os::unix::fs::PermissionsExt;
    let page = PAGE.to_string() + &" ".repeat(100_000);
    let [folder, log, html] = folder_of("whole", &page);
    let out = folder.join("out");
    fs::write(&out, "before").expect("a file");
    fs::set_permissions(&out, fs::Permissions::from_mode(0o640)).expect("its owner's");
    // No file may have more than a few blocks: the signal ends the program, or a write fails.
    let killed = written(&format!("ulimit -f 2; {RUN}"), &log, &html, &out);
    assert_ne!(killed.status.code(), Some(0));
    assert_eq!(fs::read_to_string(&out).expect("the file"), "before");
    let [folder, log, html] = folder_of("whole", &page);
    fs::write(&out, "before").expect("a file");
    let failed = written(
        &format!("trap '' XFSZ; ulimit -f 2; {RUN}"),
        &log,
        &html,
        &out,
    );
    let due = format!(
        "error: write\n{}: File too large (os error 27)\n",
        out.display()
    );
    assert_eq!(told(&failed), (3, due.as_str()));
    assert_eq!(fs::read_to_string(&out).expect("the file"), "before");
    assert_eq!(
        fs::read_dir(&folder).expect("a folder").count(),
        3,
        "nothing else is left"
    );
    fs::set_permissions(&out, fs::Permissions::from_mode(0o640)).expect("its owner's");
    let link = folder.join("link");
    std::os::unix::fs::symlink(&out, &link).expect("a link");
    assert_eq!(told(&written(RUN, &log, &html, &link)), (0, ""));
    let text = fs::read_to_string(&out).expect("the file");
    assert_eq!(text, page.replace("null", r#"{"log":"1a01"}"#));
    let mode = fs::metadata(&out).expect("the file").permissions().mode();
    assert_eq!(mode & 0o777, 0o640);
    assert_eq!(
        fs::read_dir(&folder).expect("a folder").count(),
        4,
        "nothing else is left"
    );
    let device = written(RUN, &log, &html, Path::new("/dev/stdout"));
    assert_eq!(device.stdout, text.as_bytes());
}
