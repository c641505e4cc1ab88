//! Wrong inputs (docs/PROGRAM.md, "Faults and statuses", "Explanations", "log"). More than a hundred are in wrong_inputs.txt: each ends the
//! program with its status, the line of its error, and one line that leads to the fault. Thousands of others differ from good ones in a
//! few bytes: each is played or refused, and nothing crashes.
mod common;
use common::{TAUROS, battle, ended, fed, file_with, gen1, ran, recorded};
use serde_json::Value;

/// A wrong input: the words, the input, the status, the error's line, and the explanation if it is compared.
struct Row {
    words: Vec<&'static str>,
    input: String,
    status: i32,
    line: &'static str,
    why: Option<&'static str>,
}

/// The rows of the table, which have empty lines between them.
fn rows() -> Vec<Row> {
    let blocks = include_str!("wrong_inputs.txt")
        .split("\n\n")
        .map(str::trim);
    blocks
        .filter(|block| block.starts_with("$ "))
        .map(row)
        .collect()
}

fn row(block: &'static str) -> Row {
    let lines: Vec<&str> = block.lines().collect();
    let is_error = |line: &&str| {
        line.get(1..)
            .is_some_and(|rest| rest.starts_with(" error: "))
    };
    let at = lines.iter().rposition(is_error).expect("an error");
    let (status, line) = lines[at].split_once(' ').expect("a status");
    Row {
        words: lines[0].split(' ').skip(1).collect(),
        input: lines[1..at].join("\n").replace("MEMBER", TAUROS),
        status: status.parse().expect("a status"),
        line,
        why: lines.get(at + 1).copied(),
    }
}

impl Row {
    /// What is found in place of what is expected.
    fn fault(&self) -> Option<String> {
        let (status, text) = ended(&self.words, self.input.as_bytes());
        let lines: Vec<&str> = text.lines().collect();
        let is_due = match self.why {
            Some(why) => lines == [self.line, why],
            None => lines.first() == Some(&self.line),
        };
        let Row { words, input, .. } = self;
        (!is_due || status != self.status).then(|| format!("{words:?} {input}\n{status} {text}"))
    }
}

#[test]
fn each_wrong_input_leads_to_its_fault() {
    let rows = rows();
    assert!(rows.len() > 100);
    let faults: Vec<_> = rows.iter().filter_map(Row::fault).collect();
    assert!(faults.is_empty(), "{}", faults.join("\n"));
}

/// Standard input without an end is read up to the limit.
#[test]
#[cfg(target_os = "linux")]
fn nothing_reads_without_bound() {
    let team = file_with("bound.txt", "Tauros\n- Strength");
    for words in [
        &["run", "--explain"][..],
        &["run", "--lines", "--explain"],
        &["team"],
        &["calc", "--explain"],
        &["explain"],
        &["follow"],
        &[
            "run",
            "--explain",
            "--seed",
            "1",
            "--two",
            &team,
            "--one",
            "/dev/zero",
            &team,
        ],
        &["calc", "--attacker", "/dev/zero", "--defender", "Mew"],
    ] {
        let zero = std::fs::File::open("/dev/zero").expect("a device");
        let done = common::gen1()
            .args(words)
            .stdin(zero)
            .output()
            .expect("the program runs");
        let text = String::from_utf8(done.stderr).expect("UTF-8");
        assert_eq!(done.status.code(), Some(1), "{words:?}");
        assert!(text.starts_with("error: too long\n"), "{words:?}: {text}");
    }
}

fn told(words: &[&str], input: &[u8]) -> String {
    common::told(&ran(words, input)).1.into()
}

#[test]
fn a_misfit_is_told_with_its_way() {
    let member = |species: &str, moves: &str| {
        format!(
            r#"{{"species":{species},"level":1,"dvs":[0,0,0,0],"exp":[0,0,0,0,0],"moves":{moves}}}"#
        )
    };
    let cases = [
        (
            battle(TAUROS, r#""choices":[],"limit":0"#),
            ".limit: expected a whole number from 1 to 9999, found 0",
        ),
        (
            battle(TAUROS, r#""choices":[],"rules":null"#),
            ".rules: expected a whole number from 0 to 3, found null",
        ),
        (
            battle(TAUROS, r#""choices":[[0,0],[17,256]]"#),
            ".choices[1][1]: expected a whole number from 0 to 255, found 256",
        ),
        (
            battle(TAUROS, r#""choices":[[0,0],[17]]"#),
            ".choices[1]: expected a list of 2 items, found a list of length 1",
        ),
        (
            battle(TAUROS, r#""choice":[]"#),
            r#".: expected an object with the key "choices", found an object without it; at .: unknown key "choice"; did you mean "choices"?"#,
        ),
        (
            battle("{}", r#""choices":[]"#),
            r#".two[0]: expected an object with the key "species", found an object without it"#,
        ),
        (
            battle(&member(r#""tauros""#, "[]"), r#""choices":[]"#),
            r#".two[0].species: expected the name of a species, found "tauros"; did you mean "Tauros"?"#,
        ),
        (
            battle(
                &member(r#""Tauros""#, "[[],[],[],[],[]]"),
                r#""choices":[]"#,
            ),
            ".two[0].moves: expected a list of at most 4 moves, found a list of length 5",
        ),
        (
            battle(
                &member(r#""Tauros""#, r#"[["Tackle",0],["tackle",0]]"#),
                r#""choices":[]"#,
            ),
            r#".two[0].moves[1][0]: expected the name of a move, found "tackle"; did you mean "Tackle"?"#,
        ),
    ];
    for (input, words) in cases {
        let due = format!("error: json\nat {words}\n");
        assert_eq!(told(&["run", "--explain"], input.as_bytes()), due);
        assert_eq!(told(&["run"], input.as_bytes()), "error: json\n");
    }
}

#[test]
fn what_is_no_json_is_told_with_its_place() {
    let cases: [(&[u8], &str); 7] = [
        (b"", "1 column 0: EOF while parsing a value"),
        (b"[1,]", "1 column 4: trailing comma"),
        (b"{\"a\" 1}", "1 column 6: expected `:`"),
        (b"[1}", "1 column 3: expected `,` or `]`"),
        (b"[\n  nul]", "2 column 6: expected ident"),
        (b"[01]", "1 column 3: invalid number"),
        (b"{} {}", "1 column 4: trailing characters"),
    ];
    for (input, place) in cases {
        let due = format!("error: json\nat line {place}\n");
        assert_eq!(told(&["calc", "--explain"], input), due);
    }
}

#[test]
fn refusals_are_told_in_words() {
    let over = TAUROS.replace("100", "101");
    let input = battle(&over, r#""choices":[]"#);
    let due = "error: team 2 place 1 refusal 3\nteam 2, member 1: the level is not 1 to 100\n";
    assert_eq!(told(&["run", "--explain"], input.as_bytes()), due);
    let input = battle(TAUROS, r#""choices":[[0,17]]"#);
    let due = "error: pair 0 refused 3\nat .choices[0]: side 2's choice is not offered: chosen is 17 (move 1); offered: pass\n";
    assert_eq!(told(&["run", "--explain"], input.as_bytes()), due);
}

#[test]
fn a_fault_of_a_log_is_told_with_its_place() {
    // The win of side 1 is the bytes 26 and 1; 5 begins an event of more than two bytes.
    let cases: [(&[u8], &str, &str); 4] = [
        (
            &[0xff],
            "1",
            "at byte 0, event 1: a byte in a tag's place is no tag",
        ),
        (
            &[26, 1, 0xff],
            "1",
            "at byte 2, event 2: a byte in a tag's place is no tag",
        ),
        (
            &[26, 1, 26, 2, 26, 3],
            "2",
            "at byte 4, event 3: a field of an event is out of its range",
        ),
        (
            &[26, 1, 5, 1],
            "3",
            "at byte 2, event 2: the bytes end within an event",
        ),
    ];
    for (log, number, words) in cases {
        let due = format!("error: log {number}\n{words}\n");
        assert_eq!(told(&["print", "--explain"], log), due);
    }
}

#[test]
fn a_log_is_printed_as_the_battle_was() {
    let input = battle(TAUROS, r#""choices":[[0,0],[17,17],[17,17]]"#);
    let log = ran(&["log"], input.as_bytes()).stdout;
    assert_eq!(log.len(), 82);
    let printed = ran(&["print"], &log);
    assert!(printed.status.success());
    assert_eq!(printed.stdout, ran(&["run"], input.as_bytes()).stdout);
}

#[test]
fn unknown_keys_are_noted() {
    let input = battle(TAUROS, r#""choices":[[0,0]],"rulez":1"#);
    let explained = ran(&["run", "--explain"], input.as_bytes());
    let due = "note: at .: unknown key \"rulez\"; did you mean \"rules\"?\n";
    assert_eq!(String::from_utf8_lossy(&explained.stderr), due);
    let plain = ran(&["run"], input.as_bytes());
    assert_eq!(explained.stdout, plain.stdout);
    assert_eq!((plain.status.code(), plain.stderr), (Some(0), vec![]));
    assert!(explained.status.success());
}

/// A random number generator (xorshift), so that each run has the same inputs.
struct Random(u64);

impl Random {
    fn below(&mut self, bound: usize) -> usize {
        self.0 ^= self.0 << 13;
        self.0 ^= self.0 >> 7;
        self.0 ^= self.0 << 17;
        (self.0 >> 33) as usize % bound
    }

    /// The bytes with one to four of them replaced, left out, doubled, or another text put in; without a line feed if `one_line`.
    fn mutated(&mut self, good: &[u8], one_line: bool) -> Vec<u8> {
        const TEXTS: [&str; 12] = [
            "0",
            "-1",
            "256",
            "65536",
            "1e9",
            "null",
            "\"",
            "[",
            "}",
            ",",
            "move ",
            "99999999999999999999",
        ];
        let mut bytes = good.to_vec();
        for _ in 0..=self.below(4) {
            let at = self.below(bytes.len());
            match self.below(4) {
                0 => bytes[at] = self.below(256) as u8,
                1 => drop(bytes.remove(at)),
                2 => bytes.insert(at, bytes[at]),
                _ => {
                    let text = TEXTS[self.below(TEXTS.len())].bytes();
                    bytes.splice(at..at, text);
                }
            }
        }
        bytes.retain(|byte| !one_line || *byte != b'\n');
        bytes
    }
}

/// Good inputs on one line each.
fn good() -> Vec<String> {
    let texts = recorded("battles").into_iter().take(8);
    let mut good: Vec<String> = texts
        .map(|case| case["input"].as_str().expect("an input").replace('\n', " "))
        .collect();
    let text = r#""Bob (Tauros)\nEVs: 4 HP / 8 Atk\nIVs: 30 Def\n- Body Slam\n- Surf""#;
    let packed = r#""Bob|Tauros||NoAbility|bodyslam,hyperbeam||,4,,,,|M|,0,,,,||88|""#;
    let words = battle(
        TAUROS,
        r#""choices":[["pass","pass"],["move 1","move Strength"],["move Surf",17]]"#,
    );
    good.push(words.replace(&format!("[{TAUROS}]"), text));
    good.push(words.replace(&format!("[{TAUROS}]"), packed));
    good.push(words);
    good
}

#[test]
fn each_line_has_an_object() {
    let (good, mut random) = (good(), Random(1));
    let count = 6000;
    let mut input = Vec::new();
    for number in 0..count {
        input.extend(random.mutated(good[number % good.len()].as_bytes(), true));
        input.push(b'\n');
    }
    let file = file_with("mutated.jsonl", input);
    let done = ran(&["run", "--lines", "--json", &file], b"");
    assert_eq!(
        done.status.code(),
        Some(1),
        "{}",
        String::from_utf8_lossy(&done.stderr)
    );
    let text = String::from_utf8(done.stdout).expect("UTF-8");
    let mut refused = 0;
    for (number, line) in text.lines().enumerate() {
        let object: Value = serde_json::from_str(line).expect("JSON");
        assert_eq!(object["line"].as_u64(), Some(number as u64 + 1));
        let explained = object["explanation"]
            .as_str()
            .is_none_or(|text| !text.is_empty() && !text.contains('\n'));
        assert!(explained, "{line}");
        refused += usize::from(!object["error"].is_null());
    }
    assert_eq!(text.lines().count(), count);
    assert!((count / 4..count).contains(&refused), "{refused}");
}

#[test]
fn texts_are_taken_or_refused() {
    let team = "Bob (Tauros) (M)\nLevel: 88\nEVs: 4 HP / 8 Atk\nIVs: 30 Def\n- Body Slam\n\nMr. Mime\n- Psychic";
    let packed = "Bob|Tauros||NoAbility|bodyslam||,4,,,,|M|,0,,,,||88|]Starmie||||psychic|||||||";
    let choices = "pass, pass\nmove 1, move Strength\nswitch 2, 17\n";
    let own = file_with("mutated.txt", "Tauros\n- Strength");
    let mut random = Random(2);
    for number in 0..150 {
        let (words, good): (&[&str], &str) = match number % 3 {
            0 => (&["team", "--json"], team),
            1 => (&["team"], packed),
            _ => (
                &[
                    "run",
                    "--seed",
                    "1",
                    "--one",
                    &own,
                    "--two",
                    &own,
                    "--explain",
                ],
                choices,
            ),
        };
        let input = random.mutated(good.as_bytes(), false);
        let done = fed(gen1().args(words), &input);
        let told = String::from_utf8(done.stderr).expect("UTF-8");
        let lines = told.lines().count();
        let due = if done.status.success() { 0 } else { 2 };
        assert_eq!(lines, due, "{}: {told}", String::from_utf8_lossy(&input));
        assert!(matches!(done.status.code(), Some(0 | 1)), "{told}");
    }
}
