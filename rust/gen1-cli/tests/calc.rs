//! Calculations in words. Each number was worked out on paper from docs/MECHANICS.md: Tauros has 353 HP, Attack 298, Defense 288; its
//! Body Slam takes 95 to 112 of another Tauros, critical 184 to 217, in 55 of 256 draws, and misses in one.
mod common;
use common::{file_with, ran};
use serde_json::Value;

fn calc(more: &[&str]) -> String {
    let words = ["calc", "Tauros", "Body", "Slam", "vs", "Tauros"];
    let done = ran(&[&words, more].concat(), b"");
    assert!(
        done.status.success(),
        "{}",
        String::from_utf8_lossy(&done.stderr)
    );
    String::from_utf8(done.stdout).expect("UTF-8")
}

#[test]
fn a_line_has_damage_and_chances() {
    // A use is critical with c = 55 / 256 * 255 / 256, usual with u = 201 / 256 * 255 / 256, and misses with m = 1 / 256. Two critical
    // hits take 368 or more, one with a usual one at most 329: c ^ 2. Of three uses two must be critical, or one with two usual ones:
    // c ^ 3 + 3 c ^ 2 (u + m) + 3 c u ^ 2. Four hits take 380, so of four uses: (c + u) ^ 4 + 4 m (c ^ 3 + 3 c ^ 2 u + 3 c u ^ 2)
    // + 6 m ^ 2 c ^ 2.
    let due = "Tauros Body Slam vs. Tauros: 95-112 (26.9 - 31.7%), 21.5% critical 184-217, 0.4% miss; \
        4.6% to KO in 2 uses, 51.0% in 3 uses, 99.2% in 4 uses\n";
    assert_eq!(calc(&[]), due);
}

#[test]
fn the_state_of_both_members_counts() {
    let cases: [(&[&str], &str); 10] = [
        // At level 50 its HP is (90 * 2 + 63) * 50 / 100 + 60 = 181, and its Defense (110 * 2 + 63) * 50 / 100 + 5 = 146: with A 74 and D 36
        // the damage is 148, with its type 222.
        (
            &["--defender-level", "50"],
            "Tauros Body Slam vs. L50 Tauros: 188-222 (103.9 - 122.7%)",
        ),
        // Attack 596 and Defense 288 become 149 and 72, and the damage 149, with its type 223.
        (
            &["--attacker-stages", "atk=+2"],
            "+2 atk Tauros Body Slam vs. Tauros: 189-223 ",
        ),
        // Defense 576 becomes 144: 38, with its type 57.
        (
            &["--reflect"],
            "Tauros Body Slam vs. Tauros with Reflect: 48-57 ",
        ),
        (
            &["--light-screen"],
            "Tauros Body Slam vs. Tauros with Light Screen: 95-112 ",
        ),
        // Attack 149 becomes 37: 38 again.
        (
            &["--attacker-status", "brn"],
            "burned Tauros Body Slam vs. Tauros: 48-57 ",
        ),
        (
            &["--defender-status", "par"],
            "Tauros Body Slam vs. paralysed Tauros: 95-112 ",
        ),
        // 55 / 2 / 2.
        (
            &["--focus-energy"],
            "Tauros Body Slam vs. Tauros: 95-112 (26.9 - 31.7%), 5.1% critical",
        ),
        (
            &["--critical"],
            "Tauros Body Slam vs. Tauros: 184-217 (52.1 - 61.5%), 0.4% miss\n",
        ),
        // A quarter of 353 is 88, and each hit takes more.
        (
            &["--substitute"],
            "Tauros Body Slam vs. Tauros behind a Substitute with 88 HP: 95-112 ",
        ),
        (
            &["--defender-hp", "50%"],
            "Tauros Body Slam vs. Tauros at 176 HP: 95-112 ",
        ),
    ];
    for (options, due) in cases {
        let found = calc(options);
        assert!(found.starts_with(due), "{options:?}: {found}");
    }
    // Each hit breaks it: 255 / 256, and 1 - 1 / 256 ^ 2.
    assert!(
        calc(&["--substitute"]).ends_with("; 99.6% to break it in 1 use, over 99.9% in 2 uses\n")
    );
    // 176 HP: a critical hit, c, or two hits: (c + u) ^ 2 + 2 c m; all of three uses but m ^ 3 + 3 u m ^ 2.
    assert!(
        calc(&["--defender-hp", "50%"])
            .ends_with("; 21.4% to KO in 1 use, 99.4% in 2 uses, over 99.9% in 3 uses\n")
    );
    // A Substitute with 112 HP breaks above that: by a critical hit, or by two.
    assert!(
        calc(&["--substitute", "112"])
            .ends_with("; 21.4% to break it in 1 use, 99.4% in 2 uses, over 99.9% in 3 uses\n")
    );
}

/// The line of `gen1 calc` for words and options.
fn line(words: &str) -> String {
    let words: Vec<_> = ["calc"].into_iter().chain(words.split(' ')).collect();
    let done = ran(&words, b"");
    String::from_utf8(done.stdout).expect("UTF-8")
}

#[test]
fn a_use_that_cannot_hit_says_why() {
    let cases = [
        (
            "Rhydon Fissure vs Tauros",
            "the user is slower than the foe",
        ),
        (
            "Tauros Body Slam vs Gengar",
            "the foe is immune to the move's type",
        ),
        ("Hypno Dream Eater vs Tauros", "the foe is awake"),
        ("Tauros Counter vs Tauros", "there is no damage to counter"),
        ("Tauros Roar vs Tauros", "the move always fails"),
    ];
    for (words, why) in cases {
        let due = format!("{}: can't hit: {why}\n", words.replace(" vs ", " vs. "));
        assert_eq!(line(words), due);
    }
}

#[test]
fn fixed_damage_has_chances() {
    let cases = [
        // Gengar has (60 + 15) * 2 + 63 + 110 = 323 HP. Four hits take them, (255 / 256) ^ 4; of five uses one may miss.
        (
            "Tauros Night Shade vs Gengar",
            "100 (31.0%), 0.4% miss; 98.4% to KO in 4 uses, over 99.9% in 5 uses",
        ),
        // 353 HP become 177, 89, 45, 23, 12, 6, 3, 2 and 1. 229 of 256 draws hit.
        (
            "Raticate Super Fang vs Tauros",
            "176 (49.9%), 10.5% miss; no chance to KO in 9 uses",
        ),
        // 2 HP become 1 and 0: (229 / 256) ^ 2. Three uses add twice this times 27 / 256, and four three times (27 / 256) ^ 2.
        (
            "Raticate Super Fang vs Tauros --defender-hp 2",
            "1 (0.3%), 10.5% miss; 80.0% to KO in 2 uses, 96.9% in 3 uses, 99.6% in 4 uses",
        ),
        // 1 to 149, of which only 149 takes 149 HP: 1 / 149 * 204 / 256.
        (
            "Alakazam Psywave vs Tauros --defender-hp 149",
            "1-149 (0.3 - 42.2%), 20.3% miss; 0.5% to KO in 1 use",
        ),
        // 76 of 256 draws hit.
        (
            "Tauros Fissure vs Rhydon",
            "all HP, 70.3% miss; 29.7% to KO in 1 use, 50.6% in 2 uses, 65.2% in 3 uses",
        ),
    ];
    for (words, due) in cases {
        let found = line(words);
        let numbers = found.split_once(": ").expect("numbers").1;
        assert!(numbers.trim_end().starts_with(due), "{words}: {found}");
    }
}

#[test]
fn hp_change_between_uses() {
    let cases = [
        // With 22 HP lost after the first use two hits are enough: (255 / 256) ^ 2.
        (
            "--defender-loses 22",
            "99.2% to KO in 2 uses, over 99.9% in 3 uses, with 22 HP lost between uses",
        ),
        // What is gained is lost again, so three hits are needed: (255 / 256) ^ 3; of four uses one may miss.
        (
            "--defender-gains 22 --defender-loses 22",
            "98.8% to KO in 3 uses, over 99.9% in 4 uses, with 22 HP gained and 22 lost between uses",
        ),
        // A hit leaves 122, and each gain gives back as much.
        ("--defender-gains 100", "no chance to KO in 9 uses"),
    ];
    for (options, due) in cases {
        let words = format!("Tauros Seismic Toss vs Tauros --defender-hp 222 {options}");
        let head = "Tauros Seismic Toss vs. Tauros at 222 HP: 100 (28.3%), 0.4% miss; ";
        assert_eq!(line(&words), format!("{head}{due}\n"));
    }
    // Nothing happens to a Substitute, whose 99 HP one hit takes.
    let guarded = "Tauros Seismic Toss vs Tauros --substitute 99 --defender-loses 99";
    assert!(line(guarded).ends_with("; 99.6% to break it in 1 use, over 99.9% in 2 uses\n"));
}

#[test]
fn hits_of_one_use_are_added() {
    // Power 18, Attack 74 and Defense 72: 25 with the type, critical 48. 216 of 256 draws hit. Two usual hits take at most 50 and three
    // at least 63, which 5 of 8 uses make; two critical hits take 80: 216 / 256 * (55 / 256 + 201 / 256 * 5 / 8).
    let words = "Tauros Comet Punch vs Tauros --defender-hp 60";
    let due = "Tauros Comet Punch vs. Tauros at 60 HP: 21-25 (5.9 - 7.1%) each of 2 to 5 hits, \
        21.5% critical 40-48, 15.6% miss; 59.5% to KO in 1 use, ";
    assert!(line(words).starts_with(due), "{}", line(words));
    let object: Value = serde_json::from_str(&line(&format!("--json {words}"))).expect("JSON");
    let one = &object["moves"][0];
    assert_eq!(one["hits"], serde_json::json!([0, 0, 3, 3, 1, 1]));
    let of = |key: &str| u128::from(one["knock_out"]["once"][key].as_u64().expect("a number"));
    assert_eq!(of("numerator") * 524_288, 312_120 * of("denominator"));
    assert!(line("Tauros Double Kick vs Tauros").contains(" each of 2 hits, "));
    assert!(line("Tauros Dig vs Tauros").contains(" miss, after a turn of charging; "));
}

#[test]
fn the_chances_of_the_library_are_those_of_the_numbers() {
    let mut words = vec![
        "calc", "--json", "Tauros", "vs", "Jynx", "--move", "Struggle",
    ];
    let names = String::from_utf8(ran(&["names", "moves"], b"").stdout).expect("UTF-8");
    names
        .lines()
        .for_each(|name| words.extend(["--move", name]));
    let states: [&[&str]; 4] = [
        &["--substitute", "70"],
        &["--defender-hp", "90"],
        &["--defender-hp", "1", "--defender-status", "slp"],
        &[
            "--defender-hp",
            "40%",
            "--defender-stages",
            "def=+3,spc=-1,eva=+1",
        ],
    ];
    let mut compared = 0;
    for state in states {
        let done = ran(&[words.as_slice(), state].concat(), b"");
        let object: Value = serde_json::from_slice(&done.stdout).expect("JSON");
        for one in object["moves"].as_array().expect("a list") {
            let chances = &one["knock_out"];
            for (number, key) in ["once", "twice"].into_iter().enumerate() {
                let part = |name: &str| chances[key][name].as_f64();
                let Some((numerator, denominator)) = part("numerator").zip(part("denominator"))
                else {
                    continue;
                };
                let uses = chances["uses"].as_array().expect("a list");
                // The list ends with a chance of 1.
                let found = uses
                    .get(number)
                    .map_or(1.0, |it| it.as_f64().expect("a chance"));
                let due = numerator / denominator;
                assert!((found - due).abs() < 1e-12, "{state:?} {one}");
                compared += 1;
            }
        }
    }
    // Of 164 moves and Struggle more than half have damage.
    assert!(compared > 2 * 4 * 165 / 2, "{compared}");
}

#[test]
fn all_numbers_are_printed_on_request() {
    let text = calc(&["--all"]);
    let numbers: Vec<&str> = text
        .lines()
        .nth(1)
        .expect("a second line")
        .split(' ')
        .collect();
    assert_eq!((numbers.len(), numbers[0], numbers[38]), (39, "95", "112"));
}

#[test]
fn the_moves_of_a_team_text_have_a_line_each() {
    let team = file_with(
        "calc.txt",
        "Bob (Tauros)\n- Body Slam\n- Seismic Toss\n- Twineedle",
    );
    let done = ran(&["calc", "--attacker", &team, "--defender", "Gengar"], b"");
    let text = String::from_utf8(done.stdout).expect("UTF-8");
    let lines: Vec<_> = text.lines().collect();
    assert_eq!(lines.len(), 3);
    assert!(
        lines[0].contains("Body Slam vs. Gengar: can't hit: "),
        "{text}"
    );
    assert!(
        lines[1].contains("Seismic Toss vs. Gengar: 100 ("),
        "{text}"
    );
    assert!(lines[2].contains(" each of 2 hits"), "{text}");
}

#[test]
fn a_member_may_be_a_text_itself() {
    let packed = "Tauros||||bodyslam|||||||";
    for member in [packed, "Tauros\n- Body Slam"] {
        let done = ran(&["calc", "--attacker", member, "--defender", "Tauros"], b"");
        assert_eq!(String::from_utf8_lossy(&done.stdout), calc(&[]));
    }
    let words = ["run", "--one", packed, "--two", packed, "--seed", "1"];
    let done = ran(&words, b"pass, pass\n");
    assert!(String::from_utf8_lossy(&done.stdout).ends_with("|turn|1\n"));
}

#[test]
fn the_object_has_exact_chances() {
    let object: Value = serde_json::from_str(&calc(&["--json"])).expect("JSON");
    let one = &object["moves"][0];
    assert_eq!(
        (&one["critical_draws"], &one["hit_draws"]),
        (&Value::from(55), &Value::from(255))
    );
    let chances = &one["knock_out"];
    let is = |key: &str, numerator: u128, denominator: u128| {
        let of = |name: &str| u128::from(chances[key][name].as_u64().expect("a number"));
        assert_eq!(of("numerator") * denominator, numerator * of("denominator"));
    };
    is("once", 0, 1);
    // Two uses that both land and are both critical.
    is("twice", 3025 * 255 * 255, 65536 * 65536);
    let [c, u, m] = [55.0 * 255.0 / 65536.0, 201.0 * 255.0 / 65536.0, 1.0 / 256.0];
    let due: f64 = c * c * c + 3.0 * c * c * (u + m) + 3.0 * c * u * u;
    let found = chances["uses"][2].as_f64().expect("a chance");
    assert!((found - due).abs() < 1e-12, "{found} {due}");
}

#[test]
fn the_object_of_a_file_has_the_same_numbers() {
    let member = common::TAUROS;
    let input = format!(
        r#"{{"attacker":{member},"defender":"Tauros\n- Strength","move":"Body Slam","critical":true}}"#
    );
    let line = ran(&["calc"], input.as_bytes()).stdout;
    let numbers: Vec<u64> = String::from_utf8(line)
        .expect("UTF-8")
        .split_whitespace()
        .map(|it| it.parse().expect("a number"))
        .collect();
    let object: Value =
        serde_json::from_slice(&ran(&["calc", "--json"], input.as_bytes()).stdout).expect("JSON");
    assert_eq!(object["moves"][0]["critical"], Value::from(numbers));
}
