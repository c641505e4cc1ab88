//! `gen1 showdown`, the text protocol of Showdown's simulator. The expected lines were written from docs/PROGRAM.md.
mod common;
use common::{gen1, ran};
use serde_json::{Value, json};
use std::path::Path;
use std::process::Command;

const TAUROS: &str = "Bob|Tauros|||bodyslam,hyperbeam|||||||]Chansey||||softboiled|||||||";
const MEW: &str = "Mew||||substitute|||||||]Tauros||||bodyslam||||||50|";

/// What the program prints for a battle of Alice with Tauros and Eve with Mew, and its messages.
/// The words for lines with exact HP, which are the same for everybody.
const EXACT: &[&str] = &["--hp", "exact"];

fn played(options: &[&str], commands: &[&str]) -> (String, Vec<Vec<String>>) {
    played_against(MEW, options, commands)
}

fn played_against(foe: &str, options: &[&str], commands: &[&str]) -> (String, Vec<Vec<String>>) {
    let start = [
        r#">start {"formatid":"gen1customgame","seed":[1,36,255,7,31,100,179,254,127,10]}"#
            .to_string(),
        format!(r#">player p1 {{"name":"Alice","team":"{TAUROS}"}}"#),
        format!(r#">player p2 {{"name":"Eve","team":"{foe}"}}"#),
    ];
    let commands = commands.iter().map(ToString::to_string);
    let input: String = start
        .into_iter()
        .chain(commands)
        .map(|it| it + "\n")
        .collect();
    let words = [&["showdown"], options].concat();
    let done = ran(&words, input.as_bytes());
    assert!(
        done.status.success(),
        "{}",
        String::from_utf8_lossy(&done.stderr)
    );
    let text = String::from_utf8(done.stdout).expect("UTF-8");
    let messages = text.split("\n\n").filter(|it| !it.is_empty());
    let messages = messages.map(|it| it.lines().map(String::from).collect());
    let messages = messages.collect();
    (text, messages)
}

fn requested(message: &[String]) -> Value {
    let [kind, _, line] = message else {
        panic!("{message:?}");
    };
    assert_eq!(kind, "sideupdate");
    serde_json::from_str(line.strip_prefix("|request|").expect("a request")).expect("JSON")
}

#[test]
fn a_battle_begins_with_an_update_and_two_requests() {
    let (text, messages) = played(EXACT, &[]);
    let due = "update\n|gametype|singles\n|player|p1|Alice||\n|player|p2|Eve||\n|teamsize|p1|2\n|teamsize|p2|2\n|gen|1\n\
        |tier|[Gen 1] Link battle\n|\n|start\n|switch|p1a: Bob|Tauros|353/353\n|switch|p2a: Mew|Mew|403/403\n|turn|1\n\nsideupdate\np1\n";
    assert!(text.starts_with(due), "{text}");
    assert_eq!(messages.len(), 3);
    let request = requested(&messages[1]);
    assert_eq!(
        request["active"],
        json!([{"moves": [
            {"move": "Body Slam", "id": "bodyslam", "pp": 24, "maxpp": 24, "target": "normal", "disabled": false},
            {"move": "Hyper Beam", "id": "hyperbeam", "pp": 8, "maxpp": 8, "target": "normal", "disabled": false},
        ]}])
    );
    let members = &request["side"]["pokemon"];
    assert_eq!(members[0]["ident"], "p1: Bob");
    // Base stats 100, 95, 110 and 70 at level 100: 2 * base + 93 + 5.
    assert_eq!(
        members[0]["stats"],
        json!({"atk": 298, "def": 288, "spa": 238, "spd": 238, "spe": 318})
    );
    assert_eq!(
        (&members[0]["condition"], &members[1]["active"]),
        (&json!("353/353"), &json!(false))
    );
    // At level 50: (75 + 15) * 2 + 63 is 243, of which half is 121, and 60 more.
    let tauros = &requested(&messages[2])["side"]["pokemon"][1];
    assert_eq!(
        (&tauros["details"], &tauros["condition"]),
        (&json!("Tauros, L50"), &json!("181/181"))
    );
}

#[test]
fn a_switch_swaps_the_order_of_the_request() {
    let (_, messages) = played(&[], &[">p1 switch 2", ">p2 move substitute"]);
    let names = |message: &[String]| {
        let members = requested(message)["side"]["pokemon"].clone();
        [0, 1].map(|at| members[at]["ident"].as_str().expect("a name").to_string())
    };
    assert_eq!(names(&messages[4]), ["p1: Chansey", "p1: Bob"]);
    assert_eq!(names(&messages[5]), ["p2: Mew", "p2: Tauros"]);
}

#[test]
fn a_wrong_choice_is_refused_and_may_be_made_again() {
    let cases = [
        ("move 3", "Can't move: Your Bob doesn't have a move 3"),
        ("move 0", "Can't move: Your Bob doesn't have a move 0"),
        (
            "move splash",
            "Can't move: Your Bob doesn't have a move matching splash",
        ),
        (
            "switch 1",
            "Can't switch: You can't switch to an active Pokémon",
        ),
        (
            "switch 3",
            "Can't switch: You do not have a Pokémon in slot 3 to switch to",
        ),
        (
            "switch Mew",
            "Can't switch: You do not have a Pokémon named \"Mew\" to switch to",
        ),
        ("dance", "Unrecognized choice: dance"),
        ("", "Unrecognized choice: "),
        ("undo", "Can't undo: There is no choice"),
    ];
    for (choice, why) in cases {
        let (_, messages) = played(
            &[],
            &[&format!(">p1 {choice}"), ">p2 default", ">p1 move 1"],
        );
        assert_eq!(
            messages[3],
            [
                "sideupdate",
                "p1",
                &format!("|error|[Invalid choice] {why}")
            ]
        );
        assert_eq!(messages[4][0], "update", "{choice}");
    }
    // A choice may be replaced or taken back before the other side chooses.
    let (replaced, _) = played(&[], &[">p1 move 1", ">p1 switch 2", ">p2 move 1"]);
    let (undone, _) = played(
        &[],
        &[">p1 move 1", ">p1 undo", ">p1 switch Chansey", ">p2 move 1"],
    );
    assert!(replaced.contains("|switch|p1a: Chansey|Chansey|703/703"));
    assert_eq!(replaced, undone);
}

#[test]
fn a_recharge_is_the_only_move() {
    // With this seed Hyper Beam hits. It takes at most 241 of 303 HP: power 150, Attack 74, Defense 114, critical.
    let commands = [
        ">p1 move 2",
        ">p2 move 1",
        ">p1 switch 2",
        ">p1 move recharge",
        ">p2 move 1",
    ];
    let (text, messages) = played_against("Cloyster||||withdraw|||||||", &[], &commands);
    assert!(text.contains("|-mustrecharge|p1a: Bob\n"), "{text}");
    let recharge = json!({"move": "Recharge", "id": "recharge", "disabled": false});
    let request = requested(&messages[4]);
    assert_eq!(
        request["active"],
        json!([{"moves": [recharge], "trapped": true}])
    );
    let trapped = "|error|[Invalid choice] Can't switch: The active Pokémon is trapped";
    assert_eq!(messages[6], ["sideupdate", "p1", trapped]);
    let due = ["update", "|", "|cant|p1a: Bob|recharge"];
    assert_eq!(messages[7][..3], due);
}

/// A charge and Bide begin without the line of a move, so the request can't name the last one.
#[test]
fn a_move_that_began_without_its_line_is_named() {
    for (name, id) in [("Dig", "dig"), ("Bide", "bide")] {
        let foe = format!("Rhydon||||{id},tailwhip|||||||");
        let commands = [">p1 switch 2", ">p2 move 2", ">p1 move 1", ">p2 move 1"];
        let (text, messages) = played_against(&foe, &[], &commands);
        let request = requested(messages.last().expect("a request"));
        let due = json!([{"move": name, "id": id, "disabled": false}]);
        assert_eq!(request["active"][0]["moves"], due, "{text}");
    }
}

#[test]
fn pixels_stand_beside_the_hp() {
    let (text, _) = played(&["--pixels"], &[">p1 switch 2", ">p2 move 1"]);
    // 403 / 4 is 100, so 303 of 403 HP are left: 48 * 303 / 403 is 36.
    for due in [
        "|split|p2\n|switch|p2a: Mew|Mew|403/403\n|switch|p2a: Mew|Mew|48/48\n",
        "|split|p2\n|-damage|p2a: Mew|303/403\n|-damage|p2a: Mew|36/48\n",
    ] {
        assert!(text.contains(due), "{text}");
    }
    assert_eq!(played(&[], &[">p1 switch 2", ">p2 move 1"]).0, text);
    let (exact, _) = played(EXACT, &[">p1 switch 2", ">p2 move 1"]);
    assert!(!exact.contains("|split|"));
}

#[test]
fn a_battle_may_be_ended() {
    for (command, line, winner) in [
        (">forcewin p2", "|win|Eve", "Eve"),
        (">forcelose p2", "|win|Alice", "Alice"),
        (">forcetie", "|tie", ""),
    ] {
        let (_, messages) = played(&[], &[command, ">p1 move 1"]);
        assert_eq!(messages[3], ["update", "|", line]);
        assert_eq!(messages[4][0], "end");
        let object: Value = serde_json::from_str(&messages[4][1]).expect("JSON");
        assert_eq!(
            (&object["winner"], &object["turns"]),
            (&json!(winner), &json!(1))
        );
        assert_eq!(object["score"], json!([2, 2]));
        assert_eq!(
            messages[5][2],
            "|error|[Invalid choice] Can't do anything: The game is over"
        );
    }
}

#[test]
fn a_wrong_command_names_its_line() {
    let start = r#">start {"formatid":"gen1ou"}"#;
    let cases = [
        (
            ">p1 move 1",
            "line 1: \">p1\" before >start and both >player",
        ),
        (
            ">player p1 {\"name\":\"A\",\"team\":\"Mew||||surf|||||||\"}",
            "line 1: >player before >start",
        ),
        (
            ">start {\"formatid\":\"gen2ou\"}",
            "line 1: expected a \"formatid\" that begins with gen1, found \"gen2ou\"",
        ),
        (
            ">start {\"formatid\":\"gen10ou\"}",
            "line 1: expected a \"formatid\" that begins with gen1, found \"gen10ou\"",
        ),
        (">start [", "line 1: expected a JSON object, found \"[\""),
        (
            "hello\n>start {\"formatid\":\"gen1ou\",\"seed\":[1]}",
            "line 2: expected a \"seed\"",
        ),
        (
            &format!("{start}\n>player p3 {{}}"),
            "line 2: expected p1 or p2, found \"p3\"",
        ),
        (
            &format!("{start}\n>player p1 {{\"name\":\"A\"}}"),
            "line 2: expected a \"team\"",
        ),
        (
            &format!("{start}\n>player p1 {{\"name\":\"A\",\"team\":\"Mew||||serf|||||||\"}}"),
            "line 2: at .team: member 1, field 5",
        ),
        (
            &format!("{start}\n>player p1 {{\"name\":\"A\",\"team\":\"Mew||||surf|||||||\"}}"),
            "line 2: gen1ou does not allow the team: member 1 (Mew): species that are not banned; found Mew",
        ),
    ];
    for (input, why) in cases {
        let done = ran(&["showdown"], input.as_bytes());
        let text = String::from_utf8_lossy(&done.stderr);
        let (line, explanation) = text.split_once('\n').expect("two lines");
        assert_eq!(
            (done.status.code(), line),
            (Some(1), "error: showdown"),
            "{input}"
        );
        assert!(explanation.starts_with(why), "{input}: {explanation}");
    }
}

/// What the program prints for some lines of input.
fn printed(options: &[&str], input: &[String]) -> String {
    let words = [&["showdown"], options].concat();
    let done = ran(&words, (input.join("\n") + "\n").as_bytes());
    let told = String::from_utf8_lossy(&done.stderr);
    assert!(done.status.success() && told.is_empty(), "{told}");
    String::from_utf8(done.stdout).expect("UTF-8")
}

/// The commands that begin a battle of two packed teams.
fn begun(format: &str, seed: Value, teams: [&str; 2]) -> Vec<String> {
    let player =
        |name: &str, team: &str| json!({"name": name, "team": team, "avatar": "60"}).to_string();
    vec![
        format!(">start {}", json!({"formatid": format, "seed": seed})),
        format!(">player p1 {}", player("Alice", teams[0])),
        format!(">player p2 {}", player("Eve", teams[1])),
    ]
}

/// Whether a line is as expected, where a star matches any field.
fn is_like(line: &str, due: &str) -> bool {
    let (line, due): (Vec<_>, Vec<_>) = (line.split('|').collect(), due.split('|').collect());
    line.len() == due.len()
        && line
            .iter()
            .zip(due)
            .all(|(it, due)| due == "*" || *it == due)
}

/// Plays turns in which each side uses the move of a slot, and looks for lines in their order.
fn has_lines(teams: [&str; 2], seed: u64, turns: &[[&str; 2]], due: &[&str]) -> String {
    let seed = json!([0, 0, 0, seed]);
    let mut input = begun("gen1customgame", seed, teams);
    for [one, two] in turns {
        input.extend([format!(">p1 {one}"), format!(">p2 {two}")]);
    }
    let text = printed(EXACT, &input);
    assert!(!text.contains("|error|"), "{text}");
    let mut lines = text.lines();
    for due in due {
        let found = lines.any(|line| is_like(line, due));
        assert!(found, "{due} in its place\n{text}");
    }
    text
}

const M1: [&str; 2] = ["move 1", "move 1"];
const M2: [&str; 2] = ["move 2", "move 2"];
const GO_ON: [&str; 2] = ["default", "default"];

#[test]
fn a_failure_names_the_status_or_the_mist_of_the_target() {
    has_lines(
        [
            "Gengar||||thunderwave,toxic|||||||",
            "Snorlax||||rest,splash|||||||",
        ],
        2,
        &[
            ["move 1", "move 2"],
            ["move 1", "move 2"],
            ["move 2", "move 2"],
        ],
        &[
            "|-status|p2a: Snorlax|par",
            "|move|p1a: Gengar|Thunder Wave|p2a: Snorlax",
            "|-fail|p2a: Snorlax|par",
            "|move|p1a: Gengar|Toxic|p2a: Snorlax",
            "|-fail|p1a: Gengar",
        ],
    );
    has_lines(
        ["Golbat||||mist,splash|||||||", "Snorlax||||growl|||||||"],
        2,
        &[M1, ["move 2", "move 1"]],
        &[
            "|-start|p1a: Golbat|Mist",
            "|move|p2a: Snorlax|Growl|p1a: Golbat",
            "|-activate|p1a: Golbat|move: Mist",
            "|move|p1a: Golbat|Splash|p1a: Golbat",
            "|-activate|p1a: Golbat|move: Splash",
            "|move|p2a: Snorlax|Growl|p1a: Golbat",
            "|-activate|p1a: Golbat|move: Mist",
        ],
    );
}

/// The forms that clients read, by Showdown's documents SIM-PROTOCOL and PROTOCOL and by what its first generation is remembered to send.
#[test]
fn moves_have_their_targets_and_what_they_go_on_from() {
    let snorlax = "Snorlax||||splash|||||||";
    // A self move names its user, and a miss both.
    has_lines(
        [
            "Chansey||||softboiled,sing|||||||",
            "Tauros||||bodyslam|||||||",
        ],
        1,
        &[M1, M1],
        &[
            "|move|p2a: Tauros|Body Slam|p1a: Chansey",
            "|-damage|p1a: Chansey|*",
            "|move|p1a: Chansey|Soft-Boiled|p1a: Chansey",
            "|-heal|p1a: Chansey|*",
        ],
    );
    has_lines(
        ["Rhydon||||fissure|||||||", "Electrode||||splash|||||||"],
        1,
        &[M1],
        &[
            "|move|p2a: Electrode|Splash|p2a: Electrode",
            "|-activate|p2a: Electrode|move: Splash",
            "|move|p1a: Rhydon|Fissure|p2a: Electrode|[miss]",
            "|-miss|p1a: Rhydon|p2a: Electrode",
        ],
    );
    for (user, id, name) in [
        ("Arbok", "wrap", "Wrap"),
        ("Kangaskhan", "thrash", "Thrash"),
        ("Charizard", "rage", "Rage"),
    ] {
        has_lines(
            [&format!("{user}||||{id}|||||||"), snorlax],
            3,
            &[M1, GO_ON, GO_ON],
            &[
                &format!("|move|p1a: {user}|{name}|p2a: Snorlax"),
                &format!("|move|p1a: {user}|{name}|p2a: Snorlax|[from] move: {name}"),
            ],
        );
    }
    has_lines(
        ["Charizard||||fly,bide|||||||", snorlax],
        1,
        &[M1, GO_ON, ["move 2", "move 1"], GO_ON, GO_ON, GO_ON],
        &[
            "|move|p1a: Charizard|Fly||[still]",
            "|-prepare|p1a: Charizard|Fly",
            "|move|p1a: Charizard|Fly|p2a: Snorlax|[from] move: Fly",
            "|move|p1a: Charizard|Bide|p1a: Charizard",
            "|-start|p1a: Charizard|Bide",
            "|-activate|p1a: Charizard|Bide",
            "|-end|p1a: Charizard|Bide",
        ],
    );
}

#[test]
fn status_and_residual_damage_say_where_they_come_from() {
    let text = has_lines(
        [
            "Venusaur||||toxic,leechseed,sleeppowder|||||||",
            "Tauros||||rest,bodyslam|||||||",
        ],
        2,
        &[
            ["move 1", "move 2"],
            ["move 2", "move 2"],
            ["move 3", "move 1"],
        ],
        &[
            "|-status|p2a: Tauros|tox",
            "|-start|p2a: Tauros|move: Leech Seed",
        ],
    );
    assert!(text.contains(r#" tox","active":true"#), "{text}");
    assert!(text.contains(" tox|[from] psn\n"), "{text}");
    has_lines(
        [
            "Venusaur||||leechseed,sleeppowder|||||||",
            "Tauros||||tackle,splash|||||||",
        ],
        2,
        &[M1, ["move 1", "move 1"], M2, M2, M2],
        &[
            "|-damage|p1a: Venusaur|*",
            "|-damage|p2a: Tauros|*|[from] Leech Seed|[of] p1a: Venusaur",
            "|-heal|p1a: Venusaur|*|[silent]",
            "|-status|p2a: Tauros|slp|[from] move: Sleep Powder",
        ],
    );
    has_lines(
        ["Snorlax||||rest,splash|||||||", "Tauros||||bodyslam|||||||"],
        2,
        &[M1, M1, M1, M1],
        &[
            "|move|p1a: Snorlax|Rest|p1a: Snorlax",
            "|-status|p1a: Snorlax|slp|[from] move: Rest",
            "|-heal|p1a: Snorlax|523/523 slp|[silent]",
            "|-curestatus|p1a: Snorlax|slp|[msg]",
        ],
    );
    has_lines(
        [
            "Exeggutor||||megadrain|||||||",
            "Rhydon||||doubleedge|||||||",
        ],
        2,
        &[M1, M1],
        &[
            "|-damage|p1a: Exeggutor|*",
            "|-damage|p2a: Rhydon|*|[from] Recoil|[of] p1a: Exeggutor",
        ],
    );
    has_lines(
        ["Gengar||||megadrain|||||||", "Snorlax||||earthquake|||||||"],
        2,
        &[M1, M1],
        &["|-heal|p1a: Gengar|*|[from] drain|[of] p2a: Snorlax"],
    );
}

#[test]
fn stages_types_and_conditions_are_said_as_clients_read_them() {
    let snorlax = "Snorlax||||splash,amnesia|||||||";
    has_lines(
        [
            "Porygon||||conversion,splash|||||||",
            "Starmie||||splash,amnesia|||||||",
        ],
        1,
        &[M1, ["move 2", "move 2"]],
        &[
            "|-start|p1a: Porygon|typechange|Water/Psychic|[from] move: Conversion|[of] p2a: Starmie",
            "|-boost|p2a: Starmie|spa|2",
            "|-boost|p2a: Starmie|spd|2|[silent]",
        ],
    );
    has_lines(
        ["Charizard||||rage|||||||", "Snorlax||||bodyslam|||||||"],
        3,
        &[M1, GO_ON],
        &["|-boost|p1a: Charizard|atk|1|[from] Rage"],
    );
    has_lines(
        ["Kangaskhan||||thrash|||||||", snorlax],
        3,
        &[M1, GO_ON, GO_ON, GO_ON],
        &[
            "|move|p1a: Kangaskhan|Thrash|p2a: Snorlax|[from] move: Thrash",
            "|-start|p1a: Kangaskhan|confusion|[silent]",
        ],
    );
    has_lines(
        [
            "Persian||||focusenergy,substitute|||||||",
            "Snorlax||||splash,tackle|||||||",
        ],
        1,
        &[M1, M2],
        &[
            "|-start|p1a: Persian|move: Focus Energy",
            "|-start|p1a: Persian|Substitute",
            "|-activate|p1a: Persian|Substitute|[damage]",
        ],
    );
    has_lines(
        [
            "Alakazam||||haze,reflect,confuseray|||||||",
            "Golbat||||mist,toxic|||||||",
        ],
        1,
        &[
            ["move 2", "move 1"],
            ["move 3", "move 2"],
            ["move 1", "move 1"],
        ],
        &[
            "|-start|p1a: Alakazam|Reflect",
            "|-start|p2a: Golbat|Mist",
            "|-start|p2a: Golbat|confusion",
            "|-activate|p1a: Alakazam|move: Haze",
            "|-clearallboost|[silent]",
            "|-end|p1a: Alakazam|Reflect|[silent]",
            "|-end|p2a: Golbat|confusion|[silent]",
            "|-end|p2a: Golbat|Mist|[silent]",
        ],
    );
}

/// Only the owner is shown which move is disabled.
#[test]
fn a_disabled_move_is_named_to_its_owner() {
    let text = has_lines(
        ["Alakazam||||disable|||||||", "Snorlax||||bodyslam|||||||"],
        4,
        &[M1],
        &[
            "|split|p2",
            "|-start|p2a: Snorlax|Disable|Body Slam",
            "|-start|p2a: Snorlax|Disable",
            "|split|p2",
            "|cant|p2a: Snorlax|Disable|Body Slam",
            "|cant|p2a: Snorlax|Disable",
        ],
    );
    assert!(
        text.contains(r#""move":"Struggle","id":"struggle""#),
        "{text}"
    );
}

/// A member that is asleep is asked for one of its moves, as a client expects. All of them have the same effect.
#[test]
fn a_sleeper_is_offered_its_moves() {
    let teams = [
        "Jynx||||lovelykiss|||||||",
        "Snorlax||||bodyslam,rest|||||||",
    ];
    let text = has_lines(
        teams,
        3,
        &[M1],
        &["|-status|p2a: Snorlax|slp|[from] move: Lovely Kiss"],
    );
    let last = text.trim_end().lines().last().expect("a request");
    let request: Value = serde_json::from_str(last.trim_start_matches("|request|")).expect("JSON");
    assert_eq!(
        request["active"][0]["moves"],
        json!([
            {"move": "Body Slam", "id": "bodyslam", "pp": 24, "maxpp": 24, "target": "normal", "disabled": false},
            {"move": "Rest", "id": "rest", "pp": 16, "maxpp": 16, "target": "self", "disabled": false},
        ])
    );
    has_lines(
        teams,
        3,
        &[M1, ["move 1", "move rest"]],
        &["|cant|p2a: Snorlax|slp"],
    );
}

#[test]
fn a_turn_with_a_fall_has_no_upkeep() {
    let teams = [
        "Mew||||explosion|||||||]Tauros||||bodyslam|||||||",
        "Magikarp||||splash||||||1|]Mew||||splash|||||||",
    ];
    let text = has_lines(
        teams,
        2,
        &[M1, ["switch 2", "switch 2"], M1],
        &["|faint|p1a: Mew"],
    );
    let due = "|faint|p2a: Magikarp\n|faint|p1a: Mew\n\n";
    let other = "|faint|p1a: Mew\n|faint|p2a: Magikarp\n\n";
    assert!(text.contains(due) || text.contains(other), "{text}");
    assert!(
        text.contains("|switch|p2a: Mew|Mew|403/403\n|turn|2\n"),
        "{text}"
    );
    assert!(text.contains("\n|\n|upkeep\n|turn|3\n"), "{text}");
}

#[test]
fn other_formats_have_clauses_and_hundredths() {
    let team = "Jynx||||lovelykiss|||||||";
    let foes = "Snorlax||||splash|||||||]Chansey||||splash|||||||";
    let mut input = begun("gen1ou", json!([0, 0, 0, 3]), [team, foes]);
    for command in [
        "p1 move 1",
        "p2 move 1",
        "p1 move 1",
        "p2 switch 2",
        "p1 move 1",
        "p2 move 1",
        "p1 move 1",
        "p2 move 1",
    ] {
        input.push(format!(">{command}"));
    }
    let text = printed(&[], &input);
    let head = "|gen|1\n|tier|[Gen 1] OU\n|rule|Sleep Clause Mod: Limit one foe put to sleep\n\
        |rule|Freeze Clause Mod: Limit one foe frozen\n|rule|Species Clause: Limit one of each Pokémon\n\
        |rule|OHKO Clause: OHKO moves are banned\n|rule|Evasion Moves Clause: Evasion moves are banned\n\
        |rule|Invulnerability Clause: Dig and Fly are banned\n|rule|HP Percentage Mod: HP is shown in percentages\n|\n|start\n\
        |split|p1\n|switch|p1a: Jynx|Jynx|333/333\n|switch|p1a: Jynx|Jynx|100/100\n";
    assert!(text.contains(head), "{text}");
    let due = "|-message|Sleep Clause Mod activated.\n|-fail|p1a: Jynx\n";
    assert!(text.contains(due), "{text}");
    // 303 of 403 HP are 75.2 hundredths, and more than 99 of them are not all.
    let mew = ["Mew||||substitute|||||||", "Mew||||splash|||||||"];
    let mut input = begun("gen1customgame", json!([0, 0, 0, 2]), mew);
    input.extend([">p1 move 1".into(), ">p2 move 1".into()]);
    let text = printed(&["--hp", "percent"], &input);
    assert!(
        text.contains("|-damage|p1a: Mew|303/403\n|-damage|p1a: Mew|76/100\n"),
        "{text}"
    );
}

#[test]
fn a_log_of_inputs_plays_the_same_battle() {
    let teams = [
        "Tauros||||bodyslam,hyperbeam|||||||]Chansey||||softboiled,sing|||||||]Jynx||||lovelykiss,rest|||||||",
        "Snorlax||||bodyslam,rest|||||||]Gengar||||hypnosis,megadrain|||||||]Arbok||||wrap,glare|||||||",
    ];
    let mut ends = Vec::new();
    for seed in 0..12 {
        let mut input = vec![">version 1234".to_string()];
        input.extend(begun("gen1ou", json!(format!("gen5,{seed:016x}")), teams));
        for number in 0..40 {
            // Some of these are refused, and the first choice is taken then.
            for player in ["p1", "p2"] {
                let words = ["move 1", "switch 2", "move 2", "switch 3"][(number * 7 + seed) % 4];
                input.extend([format!(">{player} {words}"), format!(">{player} default")]);
            }
        }
        input.push(">tiebreak".into());
        let end = |text: &str| {
            let (_, end) = text.rsplit_once("end\n").expect("an end");
            end.lines().next().expect("an object").to_string()
        };
        let first = end(&printed(&[], &input));
        let object: Value = serde_json::from_str(&first).expect("JSON");
        assert_eq!(object["p1team"][1]["species"], "Chansey");
        let log: Vec<String> = serde_json::from_value(object["inputLog"].clone()).expect("lines");
        let text = printed(&[], &log);
        assert!(!text.contains("|error|"), "{text}");
        assert_eq!(end(&text), first);
        ends.push(object["winner"].clone());
    }
    assert!(ends.iter().any(|winner| *winner == "Alice"), "{ends:?}");
}

#[test]
fn commands_of_a_server_are_read() {
    let teams = ["Tauros||||bodyslam|||||||", "Chansey||||splash|||||||"];
    let mut input = vec![">version-origin abc".to_string()];
    input.extend(begun("gen1customgame", json!("sodium,00ff"), teams));
    input.extend(
        [
            ">chat hello",
            ">chat-inputlogonly hi",
            ">reseed gen5,00000000000000ff",
            ">p1 move 1",
            ">p2 move 1",
            ">tiebreak",
        ]
        .map(String::from),
    );
    let text = printed(&["--time"], &input);
    assert!(text.contains("update\n|chat|hello\n\n"), "{text}");
    assert!(text.contains("|\n|t:|1"), "{text}");
    // Tauros has all of its HP, and Chansey was hit.
    let due = "|message|Time's up! Going to tiebreaker...\n|\n|win|Alice\n";
    assert!(text.contains(due), "{text}");
    let done = ran(&["showdown"], b">dance\n>forcewinn p1\n");
    assert_eq!(
        (
            done.status.code(),
            String::from_utf8_lossy(&done.stderr).as_ref()
        ),
        (
            Some(0),
            "note: line 1: the command \"dance\" is unknown\n\
             note: line 2: the command \"forcewinn\" is unknown; did you mean \"forcewin\"?\n"
        )
    );
}

#[test]
fn a_bot_plays() {
    // GEN1_BATTLES sets another number of battles.
    let battles = std::env::var("GEN1_BATTLES").unwrap_or("20".into());
    let bot = Path::new(env!("CARGO_MANIFEST_DIR")).join("tests/showdown_bot.py");
    for options in [&[] as &[&str], &["--pixels"], &["--hp", "percent"]] {
        let program = gen1().get_program().to_owned();
        let mut run = Command::new("python3");
        run.arg(&bot)
            .arg(&battles)
            .arg(program)
            .arg("showdown")
            .args(options);
        let Ok(done) = run.output() else {
            println!("there is no python3");
            return;
        };
        assert!(
            done.status.success(),
            "{}",
            String::from_utf8_lossy(&done.stderr)
        );
        println!("{}", String::from_utf8_lossy(&done.stdout).trim_end());
    }
}
