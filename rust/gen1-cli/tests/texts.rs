//! Teams as text, names, explained draws, Showdown's forms, and what a system installs (docs/PROGRAM.md). The commands of that page and of
//! docs/TEAM_TEXT.md print what these pages say.
mod common;
use common::{TAUROS, battle, file_with, ran};
use serde_json::{Value, json};
use std::fs;
use std::path::{Path, PathBuf};
use std::process::Command;

/// The two members of docs/TEAM_TEXT.md, "Packed line".
const PACKED: &str = "Bob|Tauros||NoAbility|bodyslam,hyperbeam||,4,,,,|M|,0,,,,||88|]Starmie||||psychic,recover|||||||";

fn printed(words: &[&str], input: &str) -> String {
    let done = ran(words, input.as_bytes());
    assert!(
        done.status.success(),
        "{words:?}: {}",
        String::from_utf8_lossy(&done.stderr)
    );
    String::from_utf8(done.stdout).expect("UTF-8")
}

#[test]
fn a_team_goes_from_each_form_to_each() {
    // An EV of 4 is an experience of 16; an EV of 252 is one of 63504. The DV of HP is 7, from the lowest bits of 0, 15, 15 and 15.
    let members = json!([
        {"species": "Tauros", "level": 88, "dvs": [0, 15, 15, 15], "exp": [0, 16, 0, 0, 0],
         "moves": [["Body Slam", 3], ["Hyper Beam", 3]]},
        {"species": "Starmie", "level": 100, "dvs": [15, 15, 15, 15], "exp": [63504, 63504, 63504, 63504, 63504],
         "moves": [["Psychic", 3], ["Recover", 3]]},
    ]);
    let text = "Bob (Tauros)\nLevel: 88\nEVs: 0 HP / 4 Atk / 0 Def / 0 SpA / 0 SpD / 0 Spe\nIVs: 14 HP / 0 Atk\n\
        - Body Slam\n- Hyper Beam\n\nStarmie\n- Psychic\n- Recover\n";
    let packed = "Bob|Tauros|||bodyslam,hyperbeam||0,4,0,0,0,0||14,0,,,,||88|]Starmie||||psychic,recover|||||||\n";
    let object: Value = serde_json::from_str(&printed(&["team", "--json"], PACKED)).expect("JSON");
    assert_eq!(object, members);
    assert_eq!(printed(&["team"], PACKED), text);
    for form in [text, packed] {
        assert_eq!(printed(&["team"], form), text);
        assert_eq!(printed(&["team", "--packed"], form), packed);
        assert_eq!(
            serde_json::from_str::<Value>(&printed(&["team", "--json"], form)).expect("JSON"),
            members
        );
    }
    // JSON has no nicknames.
    assert_eq!(
        printed(&["team"], &members.to_string()),
        text.replace("Bob (Tauros)", "Tauros")
    );
}

#[test]
fn a_text_has_the_stats_of_the_experience() {
    let members = format!(
        "[{}]",
        TAUROS.replace("65535", "65026").replacen("65026", "10", 1)
    );
    // The root of 10 is 4, and 65026 gives the highest stats, as 252 does.
    let due = "Tauros\nEVs: 4 HP / 252 Atk / 252 Def / 252 SpA / 252 SpD / 252 Spe\n- Strength\n";
    assert_eq!(printed(&["team"], &members), due);
}

#[test]
fn a_team_in_an_input_may_be_text() {
    let rest = r#""choices":[[0,0],[17,17]],"submissions":[[1,0,17],[2,0,17]]"#;
    let members = battle(TAUROS, rest);
    let list = format!("[{TAUROS}]");
    for text in [r#""Tauros\n- Strength""#, r#""Tauros||||strength|||||||""#] {
        let with_text = members.replace(&list, text);
        assert_ne!(with_text, members);
        for words in [
            &["run"][..],
            &["run", "--json"],
            &["room"],
            &["state", "--bytes"],
        ] {
            assert_eq!(
                printed(words, &with_text),
                printed(words, &members),
                "{words:?}"
            );
        }
        let [one, two] = [&with_text, &members].map(|it| ran(&["log"], it.as_bytes()).stdout);
        assert_eq!(one, two);
    }
}

#[test]
fn names_are_found_by_a_part() {
    assert_eq!(printed(&["names", "moves", "bodys"], ""), "Body Slam\n");
    assert_eq!(printed(&["names", "species", "MRMIME"], ""), "Mr. Mime\n");
    assert_eq!(printed(&["names", "species"], "").lines().count(), 151);
    assert_eq!(printed(&["names", "moves"], "").lines().count(), 165);
    let line = printed(&["names", "species", "tauros", "--long"], "");
    assert_eq!(
        line.split_whitespace().collect::<Vec<_>>(),
        ["Tauros", "Normal", "75", "100", "95", "110", "70"]
    );
}

#[test]
fn a_draw_is_explained_by_other_bytes() {
    let input = battle(
        TAUROS,
        r#""choices":[["pass","pass"],["move 1","move Strength"]]"#,
    );
    let text = printed(&["explain"], &input);
    assert!(text.starts_with("Update 0: side 1 pass, side 2 pass.\n"));
    assert!(text.contains("\nUpdate 1: side 1 move 1 (Strength), side 2 move 1 (Strength).\n"));
    // Both have the same Speed: a draw below 128 lets side 1 act first (docs/MECHANICS.md, "Order of a turn").
    let first = "    draw 1 is 1; with another byte:\n      128-255: instead of \"Side 1's Tauros uses Strength.\": \
        Side 2's Tauros uses Strength.\n";
    assert!(text.contains(first), "{text}");
    // Strength misses at 255 alone ("Hit test"), and a draw of another update is not one of this.
    assert!(text.contains(
        "      255: instead of \"Side 2's Tauros takes a critical hit.\": Side 1's Tauros misses.\n"
    ));
    assert_eq!(text.matches("    draw ").count(), 8);
}

#[test]
fn members_of_one_species_have_different_names_in_a_log() {
    let team = file_with(
        "three.txt",
        "Tauros\n- Strength\n\nBob (Tauros)\n- Strength\n\nTauros\n- Strength",
    );
    let choices = "pass, pass\nswitch 2, move 1\nswitch 3, switch 3\n";
    let words = [
        "run",
        "--showdown",
        "--one",
        &team,
        "--two",
        &team,
        "--seed",
        "1",
        "--rules",
        "3",
    ];
    let text = printed(&words, choices);
    let head = "|gametype|singles\n|player|p1|Side 1||\n|player|p2|Side 2||\n|teamsize|p1|3\n|teamsize|p2|3\n|gen|1\n\
        |tier|[Gen 1] Link battle\n|rule|Sleep Clause Mod: Limit one foe put to sleep\n\
        |rule|Freeze Clause Mod: Limit one foe frozen\n|\n|start\n|switch|p1a: Tauros|Tauros|353/353\n";
    assert!(text.starts_with(head), "{text}");
    for line in [
        "|switch|p1a: Bob|Tauros|353/353",
        "|move|p2a: Tauros|Strength|p1a: Bob",
        "|switch|p1a: Tauros 2|Tauros|353/353",
    ] {
        assert!(text.contains(&format!("\n{line}\n")), "{line}: {text}");
    }
    assert_eq!(text.matches("\n|\n|upkeep\n|turn|").count(), 2);
}

#[test]
fn the_winner_is_named_and_the_page_holds_the_log() {
    let input = battle(TAUROS, r#""choices":[[0,0],[17,17],[17,17]]"#);
    let log = printed(&["run", "--showdown"], &input);
    assert!(
        log.ends_with("|faint|p2a: Tauros\n|\n|win|Side 1\n"),
        "{log}"
    );
    let page = printed(&["replay", "--showdown"], &input);
    let held = page
        .split("class=\"battle-log-data\">\n")
        .nth(1)
        .and_then(|rest| rest.split("</script>").next());
    assert_eq!(held.map(|it| it.replace("\\/", "/")), Some(log));
}

#[test]
fn a_page_of_words_holds_the_log_bytes() {
    let page = file_with(
        "words.html",
        r#"<script id="battle" type="application/json">null</script>"#,
    );
    let bytes = battle(TAUROS, r#""choices":[[0,0]]"#);
    let words = battle(TAUROS, r#""choices":[["pass","pass"]]"#);
    assert!(printed(&["replay", "--page", &page], &bytes).contains(r#""choices":[[0,0]]"#));
    let held = printed(&["replay", "--page", &page], &words);
    // Two switches and a turn (docs/PROGRAM.md, "log").
    assert!(
        held.contains(r#"{"log":"0201800164610161010002028001646101610100010100"}"#),
        "{held}"
    );
}

/// For each of six species a team that the rules allow, and teams with one violation each.
#[test]
fn a_team_is_checked_by_the_rules_of_a_format() {
    let fits = |team: &str, format: &str, more: &[&str]| {
        let words = [&["team", "--packed", "--format", format], more].concat();
        let done = ran(&words, team.as_bytes());
        let told = String::from_utf8(done.stderr).expect("UTF-8");
        (done.status.code(), told)
    };
    let legal = (Some(0), String::new());
    let due = |why: &str| (Some(1), format!("error: format\n{why}\n"));
    for species in ["Tauros", "Snorlax", "Starmie", "Persian", "Arbok", "Onix"] {
        let team = |moves: &str, more: &str| {
            format!("Ditto||||bind|||||||]{species}||||{moves}|||||||{more}")
        };
        let ohko = "OHKO Clause: OHKO moves are banned";
        let evasion = "Evasion Moves Clause: Evasion moves are banned";
        let invulnerability = "Invulnerability Clause: Dig and Fly are banned";
        assert_eq!(fits(&team("bodyslam,rest", ""), "gen1ou", &[]), legal);
        for (id, name, rule) in [
            ("fissure", "Fissure", ohko),
            ("horndrill", "Horn Drill", ohko),
            ("doubleteam", "Double Team", evasion),
            ("dig", "Dig", invulnerability),
        ] {
            let why = format!("member 2 ({species}): {rule}; found {name}");
            assert_eq!(
                fits(&team(&format!("rest,{id}"), ""), "gen1ubers", &[]),
                due(&why)
            );
            assert_eq!(
                fits(&team(&format!("rest,{id}"), ""), "gen1customgame", &[]),
                legal
            );
        }
        for banned in ["Mew", "Mewtwo"] {
            let with = team("rest", &format!("]{banned}||||rest|||||||"));
            let why = format!("member 3 ({banned}): species that are not banned; found {banned}");
            assert_eq!(fits(&with, "gen1ou", &[]), due(&why));
            assert_eq!(fits(&with, "gen1ubers", &[]), legal);
        }
        let twice = team("rest", &format!("]{species}||||surf|||||||"));
        let rule = "Species Clause: Limit one of each Pokémon; found another";
        let why = format!("member 3 ({species}): {rule} {species}");
        assert_eq!(fits(&twice, "gen1ou", &[]), due(&why));
    }
    let own = r#"{"source": "a league", "date": "2026-01-01", "clauses": [], "learnsets": {"tauros": ["Body Slam"]},
        "formats": [{"id": "gen1little", "name": "Little", "members": [2, 3], "levels": [5, 50], "clauses": []}]}"#;
    let own = file_with("formats.json", own);
    let why = "member 1 (Tauros): level 5 to 50; found 100; member 1 (Tauros): a move of the learnset; found Rest; \
        team: 2 to 3 members; found 1";
    let found = fits(
        "Tauros||||rest,bodyslam|||||||",
        "gen1little",
        &["--formats", &own],
    );
    assert_eq!(found, due(why));
    let own = r#"{"source": "a league", "date": "2026-01-01",
        "clauses": [{"id": "trapping", "line": "No trapping", "moves": ["Wrap"]}],
        "formats": [{"id": "one", "name": "One", "moves": [2, 3], "dvs": [8, 15], "exp": [0, 40000], "clauses": ["trapping"]}]}"#;
    let own = file_with("ranges.json", own);
    let fitting = "Tauros||||rest,surf||200,200,200,200,200,200||,16,16,16,16,16|||";
    assert_eq!(fits(fitting, "one", &["--formats", &own]), legal);
    // The experience of an EV is its square.
    let why = "member 1 (Tauros): moves 2 to 3; found 1; member 1 (Tauros): DV 8 to 15; found 7 of Speed; \
        member 1 (Tauros): stat experience 0 to 40000; found 63504 of HP; member 1 (Tauros): No trapping; found Wrap";
    let team = "Tauros||||wrap||252,200,200,200,200,200||,16,16,16,16,14|||";
    assert_eq!(fits(team, "one", &["--formats", &own]), due(why));
    let why = "expected one of gen1ou, gen1ubers, gen1uu, gen1customgame, found \"gen1oo\"";
    assert_eq!(fits("Tauros||||rest|||||||", "gen1oo", &[]), due(why));
}

#[test]
fn completions_and_the_manual_name_each_subcommand() {
    let help = printed(&["--help"], "");
    let listed = help
        .split("Commands:\n")
        .nth(1)
        .and_then(|rest| rest.split("\n\n").next())
        .expect("a list");
    let names = listed
        .lines()
        .filter_map(|line| line.split_whitespace().next());
    let manual = printed(&["manual"], "");
    assert!(manual.contains(".TH GEN1 1 "), "{manual}");
    let shells = ["bash", "zsh", "fish"].map(|shell| printed(&["completions", shell], ""));
    for name in names.filter(|name| *name != "help") {
        assert!(manual.contains(&format!(".SS \"gen1 {name}\"\n")), "{name}");
        assert!(shells.iter().all(|text| text.contains(name)), "{name}");
    }
}

/// Each block of commands with the block of text that follows it.
fn examples(page: &str) -> Vec<(String, String)> {
    let mut found = Vec::new();
    let parts: Vec<&str> = page.split("\n```sh\n").collect();
    for part in &parts[1..] {
        let (commands, rest) = part.split_once("\n```\n").expect("the end of a block");
        let printed = rest
            .strip_prefix("\n```text\n")
            .and_then(|text| text.split_once("\n```"));
        let (printed, _) = printed.expect("what the commands print");
        found.push((commands.into(), format!("{printed}\n")));
    }
    found
}

/// A folder with the examples of the repository, in which the commands run.
fn folder() -> PathBuf {
    let root = Path::new(env!("CARGO_MANIFEST_DIR")).join("../..");
    let folder = Path::new(env!("CARGO_TARGET_TMPDIR")).join("pages");
    fs::create_dir_all(folder.join("examples")).expect("a folder");
    fs::copy(
        root.join("examples/tauros.json"),
        folder.join("examples/tauros.json"),
    )
    .expect("an example");
    folder
}

#[test]
#[cfg(unix)]
fn the_commands_of_the_pages_print_what_they_say() {
    let pages = ["PROGRAM.md", "TEAM_TEXT.md"].map(|name| {
        let folder = Path::new(env!("CARGO_MANIFEST_DIR")).join("../../docs");
        fs::read_to_string(folder.join(name))
    });
    // A crate that is published has no documents beside it.
    let [Ok(one), Ok(two)] = pages else {
        println!("there is no page");
        return;
    };
    let page = one + &two;
    let program = Path::new(env!("CARGO_BIN_EXE_gen1"))
        .parent()
        .expect("a folder")
        .to_path_buf();
    let paths = std::env::var("PATH").unwrap_or_default();
    let (examples, folder) = (examples(&page), folder());
    assert!(examples.len() > 4);
    for (commands, due) in examples {
        let done = Command::new("sh")
            .args(["-c", &commands])
            .current_dir(&folder)
            .env("PATH", format!("{}:{paths}", program.display()))
            .output()
            .expect("a shell");
        let found = String::from_utf8_lossy(&done.stdout);
        assert_eq!(
            found,
            due,
            "{commands}\n{}",
            String::from_utf8_lossy(&done.stderr)
        );
    }
}
