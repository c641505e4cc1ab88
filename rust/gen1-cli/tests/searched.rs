//! `gen1 follow --battle`: the battle of a stream that is cut fits what its side knows, and offers it the same choices; `gen1 think`,
//! `gen1 solve` and `gen1 league`.
mod common;
use common::played::{battle, commands, inputs, is_played_by_showdown, members, name, pairs, view};
use common::{fed, file_with, gen1, ran};
use gen1::{Battle, Conditions, HpForm, Player, Side, Teller};
use serde_json::{Value, json};

/// The stream of a battle, cut after each request of a side: what was printed until then.
fn cuts(stream: &str, side: Side) -> Vec<String> {
    let mut cuts = Vec::new();
    let mut text = String::new();
    for block in stream.split_inclusive("\n\n") {
        text += block;
        if block.starts_with(&format!("sideupdate\n{}\n|request|", name(side))) {
            cuts.push(text.clone());
        }
    }
    cuts
}

/// The same as a server sends it to one side: only its own view, and each request before the events that lead to it.
fn sent(stream: &str, side: Side) -> String {
    let mut text = String::new();
    let mut events = String::new();
    for block in stream.split_inclusive("\n\n") {
        if block.starts_with("update\n") {
            events = view(block, side);
        } else if let Some(request) = block.strip_prefix(&format!("sideupdate\n{}\n", name(side))) {
            text += request.trim_end();
            text += "\n";
            text += &std::mem::take(&mut events);
        }
    }
    text + &events
}

struct Followed {
    team: String,
    guess: String,
    side: Side,
}

impl Followed {
    fn of(input: &Value, side: Side, test: &str) -> Followed {
        // A guess is in any order.
        let mut guess = members(input, side.other());
        guess.as_array_mut().expect("members").reverse();
        let file = |of: &str, value: Value| {
            let name = format!("{test}.{}.{of}.json", name(side));
            file_with(&name, value.to_string())
        };
        Followed {
            team: file("team", members(input, side)),
            guess: file("guess", guess),
            side,
        }
    }

    fn words(&self) -> Vec<&str> {
        let side = name(self.side);
        let [team, guess] = [self.team.as_str(), self.guess.as_str()];
        let words = ["follow", "--battle", "--seed", "7", "--side", side];
        [&words[..], &["--team", team, "--guess", guess]].concat()
    }

    /// The battle that fits a log.
    fn battle(&self, log: &str) -> Battle {
        let done = fed(gen1().args(self.words()), log.as_bytes());
        let told = String::from_utf8_lossy(&done.stderr);
        assert!(done.status.success() && told.is_empty(), "{told}\n{log}");
        Battle::load(&done.stdout).expect("a battle")
    }
}

/// The conditions that a side is shown. Those of a member that has fallen mean nothing, nor does Trapping while the foe sends out another.
fn shown(battle: &Battle, side: Side) -> Conditions {
    let own = battle.own_side(side);
    let conditions = Conditions::from_bits(own.conditions);
    match own.member_out() {
        Some(member) if member.hp > 0 => match own.request {
            0 => conditions.with(Conditions::TRAPPING, false),
            _ => conditions,
        },
        _ => Conditions::default(),
    }
}

/// Compares a battle that fits with the true one, for the side that followed it.
fn compare(fitting: &Battle, due: &Battle, player: &Player, log: &str) {
    let side = player.side();
    assert_eq!(fitting.choices(side), due.choices(side), "{log}");
    let [own, true_own] = [fitting, due].map(|it| it.own_side(side));
    for (found, due) in own.members.iter().zip(&true_own.members) {
        let both = [found, due].map(|it| {
            let health = (it.hp, it.max_hp, it.status);
            (it.species, it.level, it.stats, health, it.moves, it.pp)
        });
        assert_eq!(both[0], both[1], "{log}");
    }
    let facts = |it: &gen1::OwnSide| (it.turn, it.place, it.types, it.stages, it.request, it.count);
    assert_eq!(facts(&own), facts(&true_own), "{log}");
    assert_eq!(shown(fitting, side), shown(due, side), "{log}");
    let [state, true_state] = [fitting, due].map(Battle::state);
    assert_eq!(state.rules, true_state.rules);
    compare_foes(&state, &true_state, player);
}

/// What is public of the foe: HP, status and stages, by the order of appearance.
fn compare_foes(state: &gen1::State, due: &gen1::State, player: &Player) {
    let (foe, public) = (player.side().other(), player.foe());
    let [found, due] = [state, due].map(|it| it.side(foe));
    for (member, seen) in found.members.iter().zip(&public.members) {
        if let Some(species) = seen.species() {
            assert_eq!((member.species, member.level), (species, seen.level));
            assert_eq!(member.status, seen.status());
            if seen.max == member.max_hp {
                assert_eq!(member.hp, seen.hp);
            }
        }
    }
    let [found, due] = [found, due].map(|it| it.active.as_ref().expect("an active member"));
    assert_eq!((found.stages, found.types), (due.stages, due.types));
}

/// Plays a pair of choices that both sides are offered.
fn play_on(mut battle: Battle) {
    let [one, two] = Side::BOTH.map(|side| battle.choices(side)[0]);
    let updated = battle.update(one, two).expect("offered choices");
    assert!(!updated.events().is_empty());
}

#[test]
fn a_stream_that_is_cut_gives_a_battle_that_fits() {
    let inputs = inputs();
    let mut compared = 0;
    for (number, input) in inputs.iter().enumerate() {
        if !is_played_by_showdown(input) {
            continue;
        }
        let (hp, form) = if number % 3 == 0 {
            ("percent", HpForm::Hundredths)
        } else {
            ("exact", HpForm::Exact)
        };
        let printed = ran(&["showdown", "--hp", hp], commands(input).as_bytes());
        let printed = String::from_utf8(printed.stdout).expect("UTF-8");
        for side in Side::BOTH {
            let asked = Followed::of(input, side, "cut");
            let mut teller = Teller::with_hp(side, form);
            let mut player = Player::new(side, &common::played::team(input, side));
            let mut due = battle(input);
            let cuts = cuts(&printed, side);
            // A few points of each battle, since the longest has a thousand turns.
            let stride = 5 + cuts.len() / 2;
            for (step, ([one, two], log)) in pairs(input).into_iter().zip(&cuts).enumerate() {
                let mut events = gen1::LogBuf::new();
                due.update_with(one, two, &mut events).expect("an update");
                teller.report(&due, &events, &mut player).expect("a log");
                if (step + number) % stride != 0 {
                    continue;
                }
                let log = if number % 2 == 0 {
                    log.clone()
                } else {
                    sent(log, side)
                };
                let fitting = asked.battle(&log);
                compare(&fitting, &due, &player, &log);
                play_on(fitting);
                compared += 1;
            }
        }
    }
    assert!(inputs.is_empty() || compared > 300, "{compared}");
}

const TEAM: &str = "Tauros\n- Body Slam\n- Fissure\n\nChansey\n- Reflect\n";
const GUESS: &str = "Gengar\n- Hypnosis\n\nAlakazam\n- Psychic\n";
const LOG: &str = "|teamsize|p1|2\n|teamsize|p2|2\n|switch|p1a: Tauros|Tauros|353/353\n\
    |switch|p2a: Alakazam|Alakazam|313/313\n|turn|1\n|move|p2a: Alakazam|Psychic|p1a: Tauros\n\
    |-damage|p1a: Tauros|200/353\n|-start|p1a: Tauros|Disable\n|turn|2\n";

fn request() -> Value {
    let stats = json!({"atk": 298, "def": 288, "spa": 238, "spd": 238, "spe": 318});
    let chansey = json!({"atk": 108, "def": 108, "spa": 308, "spd": 308, "spe": 198});
    let moves = json!([
        {"move": "Body Slam", "id": "bodyslam", "pp": 20, "maxpp": 24, "disabled": false},
        {"move": "Fissure", "id": "fissure", "pp": 8, "maxpp": 8, "disabled": true},
    ]);
    json!({"active": [{"moves": moves}], "rqid": 2, "side": {"name": "A", "id": "p1", "pokemon": [
        {"ident": "p1: Tauros", "details": "Tauros", "condition": "200/353", "active": true, "stats": stats,
            "moves": ["bodyslam", "fissure"]},
        {"ident": "p1: Chansey", "details": "Chansey", "condition": "703/703", "active": false, "stats": chansey,
            "moves": ["reflect"]},
    ]}})
}

/// What the program prints for a log that ends with a text after `|request|`, and a guess.
fn asked(request: &str, guess: &str) -> std::process::Output {
    let words = [
        "follow", "--battle", "--json", "--team", TEAM, "--guess", guess,
    ];
    ran(&words, format!("{LOG}|request|{request}\n").as_bytes())
}

#[test]
fn a_request_has_choices_and_pp() {
    let done = asked(&request().to_string(), GUESS);
    let state: Value = serde_json::from_slice(&done.stdout).expect("JSON");
    let offered = json!([{"choice": "move 1", "name": "Body Slam"}, {"choice": "switch 2", "name": "Chansey"}]);
    assert_eq!(state["offered"][0], offered);
    let [own, foe] = [0, 1].map(|side| &state["sides"][side]["members"]);
    assert_eq!(
        (&own[0]["hp"], &own[0]["moves"][0]["pp"]),
        (&json!(200), &json!(20))
    );
    // Alakazam has been out, so it is the first.
    assert_eq!(
        (&foe[0]["species"], &foe[0]["moves"][0]["pp"]),
        (&json!("Alakazam"), &json!(15))
    );
    assert_eq!(state["sides"][0]["active"]["disabled"]["slot"], json!(2));
}

/// Changes the value at a path of the request.
fn changed(path: &str, value: Value) -> String {
    let mut request = request();
    *request.pointer_mut(path).expect(path) = value;
    request.to_string()
}

#[test]
fn a_wrong_request_leads_to_its_fault() {
    let whole = request().to_string();
    let at = |path: &str, value: Value| changed(path, value);
    let cases = [
        (whole[..90].to_string(), "expected JSON: EOF while parsing"),
        (
            "[1]".into(),
            "at .: expected an object with the key \"side\", found a list of length 1",
        ),
        ("[".repeat(9000), "expected JSON: recursion limit exceeded"),
        (
            format!("{whole}{}", " ".repeat(16_384)),
            "expected at most 16384 bytes, found ",
        ),
        (
            at("/side/pokemon", json!([])),
            "at .side.pokemon: expected a list of 1 to 6 members, found a list of length 0",
        ),
        (
            at("/side/pokemon/1/condition", json!(7)),
            "at .side.pokemon[1].condition: expected a text, found 7",
        ),
        (
            at("/side/pokemon/0/stats/spe", json!(1000)),
            "at .side.pokemon[0].stats.spe: expected a whole number from 5 to 999",
        ),
        (
            at("/active/0/moves/0/pp", json!(64)),
            "at .active[0].moves[0].pp: expected a whole number from 0 to 63, found 64",
        ),
        (
            at("/active/0/moves/0/id", json!("bodyslem")),
            "at .active[0].moves[0].id: expected a move, found \"bodyslem\"",
        ),
        (
            at("/active", json!([])),
            "at .active: expected a list of 1 item, found a list of length 0",
        ),
        (
            at("/active/0/moves", json!([])),
            "at .active[0].moves: expected a list of 1 to 4 moves",
        ),
        (
            at("/active/0/moves/1/id", json!("surf")),
            "expected moves of Tauros with PP, found Surf",
        ),
        (
            at("/side/pokemon/1/details", json!("Jynx")),
            "expected a member of the team, found \"Chansey\" (Jynx, L100)",
        ),
        (
            at("/side/pokemon/1/moves/0", json!("surf")),
            "Chansey knows Surf, but not in the team",
        ),
        (
            at("/side/pokemon/0/condition", json!("100/353 par")),
            "expected Tauros to have 200/353, as in the log, found 100/353 ",
        ),
        (
            at("/side/pokemon/0/active", json!(false)),
            "expected Tauros to be active, as in the log",
        ),
    ];
    for (request, due) in cases {
        let done = asked(&request, GUESS);
        let told = String::from_utf8(done.stderr).expect("UTF-8");
        let due = format!("error: showdown\nstandard input: line 10: in |request|: {due}");
        assert!(told.starts_with(&due), "{told}\n{due}");
        assert_eq!((done.status.code(), told.lines().count()), (Some(1), 2));
        assert!(done.stdout.is_empty());
    }
}

#[test]
fn a_log_without_its_last_request_is_refused() {
    for (more, due) in [
        ("", "line 9: expected a |request| of the side, found none"),
        (
            "|request|\n",
            "line 10: expected a |request| of the side, found none",
        ),
    ] {
        let words = ["follow", "--battle", "--team", TEAM, "--guess", GUESS];
        let done = ran(&words, format!("{LOG}{more}").as_bytes());
        let told = String::from_utf8(done.stderr).expect("UTF-8");
        assert_eq!(told, format!("error: showdown\nstandard input: {due}\n"));
    }
    let late = format!("{}\n|turn|3", request());
    let told = String::from_utf8(asked(&late, GUESS).stderr).expect("UTF-8");
    let due = "line 11: expected a |request| after the last event";
    assert!(told.contains(due), "{told}");
}

#[test]
fn a_guess_that_contradicts_the_log_is_refused() {
    let cases = [
        (
            "Alakazam\n- Psychic\n",
            "expected 2 members, as the log says, found 1",
        ),
        (
            "Gengar\n- Hypnosis\n\nJynx\n- Psychic\n",
            "Alakazam, L100, which has been out, is not in the guess",
        ),
        (
            "Gengar\n- Hypnosis\n\nAlakazam\n- Recover\n",
            "Alakazam, L100, doesn't know Psychic, which it used",
        ),
        (
            "Gengar\n- Hypnosis\n\nAlakazam\nIVs: 0 Atk\n- Psychic\n",
            "Alakazam, L100, has a maximum of ",
        ),
    ];
    for (guess, due) in cases {
        let done = asked(&request().to_string(), guess);
        let told = String::from_utf8(done.stderr).expect("UTF-8");
        let due = format!("error: guess\nstandard input: {due}");
        assert!(told.starts_with(&due), "{told}\n{due}");
        assert!(done.stdout.is_empty());
    }
}

/// A battle of teams in texts, after its start and more pairs of choices.
fn fight(one: &str, two: &str, more: &[[&str; 2]]) -> String {
    let pairs = [["pass", "pass"]].into_iter().chain(more.iter().copied());
    let pairs: Vec<_> = pairs.collect();
    json!({"seed": [1, 36, 255, 7, 31, 100, 179, 254, 127, 10], "one": one, "two": two, "choices": pairs}).to_string()
}

const STARMIE: &str = "Starmie\n- Swift\n- Surf\n- Recover\n";
const BABY: &str = "Snorlax\nLevel: 5\n- Body Slam\n- Rest\n";

fn printed(words: &[&str], input: &str) -> String {
    let done = ran(words, input.as_bytes());
    let told = String::from_utf8_lossy(&done.stderr).into_owned();
    assert!(done.status.success(), "{words:?}: {told}");
    String::from_utf8(done.stdout).expect("UTF-8")
}

#[test]
fn think_does_not_see_what_the_foe_has_not_shown() {
    let texts = [
        ("Recover", "Jynx\n- Psychic"),
        ("Psychic", "Zapdos\n- Agility"),
    ]
    .map(|(hidden, other)| {
        let two = format!("Alakazam\n- Reflect\n- {hidden}\n\n{other}\n");
        let input = fight(STARMIE, &two, &[["move Recover", "move Reflect"]]);
        printed(&["think", "--nodes", "300"], &input)
    });
    assert_eq!(texts[0], texts[1]);
    let lines: Vec<_> = texts[0].lines().collect();
    assert!(lines[0].starts_with("side 1, turn 2: value 0.") && lines[0].ends_with(", 300 nodes"));
    let names = ["Swift", "Surf", "Recover"];
    assert!(
        names
            .iter()
            .all(|name| lines[1..4].iter().any(|line| line.ends_with(name)))
    );
}

#[test]
fn think_takes_its_foes_from_files_and_ends_in_time() {
    let foe = file_with("foe.txt", "Snorlax\n- Splash\n");
    let input = fight(STARMIE, BABY, &[]);
    let text = printed(&["think", "--json", "--ms", "50", "--foe", &foe], &input);
    let thought: Value = serde_json::from_str(&text).expect("JSON");
    // Nothing that the foe may have does damage.
    assert!(thought["value"].as_f64() > Some(0.6), "{thought}");
    assert!(thought["nodes"].as_u64() > Some(0));
}

/// Swift never misses, and Starmie is faster and knocks out at once.
#[test]
fn solve_prints_a_value_known_by_hand() {
    let text = printed(&["solve"], &fight(STARMIE, BABY, &[]));
    let first = "side 1 wins with probability 1.000000 to 1.000000\nsolved: ";
    assert!(text.starts_with(first), "{text}");
    let back = printed(&["solve"], &fight(BABY, STARMIE, &[]));
    assert!(
        back.starts_with("side 1 wins with probability 0.000000 to 0.000000\n"),
        "{back}"
    );
}

#[test]
fn a_table_of_another_battle_is_refused() {
    let table = file_with("table.bin", "");
    std::fs::remove_file(&table).expect("the file is there");
    let words = ["solve", "--endless", "--table", &table];
    let input = fight(BABY, BABY, &[]);
    let first = printed(&words, &input);
    assert_eq!(printed(&words, &input).lines().next(), first.lines().next());
    let told = |words: &[&str], input: &str| {
        let done = ran(words, input.as_bytes());
        assert!(done.stdout.is_empty() && done.status.code() == Some(1));
        String::from_utf8(done.stderr).expect("UTF-8")
    };
    let due = format!("error: search\n{table}: the table is that of another battle\n");
    assert_eq!(told(&words, &fight(STARMIE, BABY, &[])), due);
    std::fs::write(&table, "gen1sol2").expect("the file is written");
    assert!(told(&words, &input).starts_with("error: search\n"));
}

#[test]
fn a_battle_that_is_over_is_not_searched() {
    let input = fight("Starmie\n- Swift\n", BABY, &[["move Swift", "move Rest"]]);
    for (words, due) in [
        ("think", "the player is offered no choice"),
        ("solve", "the battle is over"),
    ] {
        let done = ran(&[words], input.as_bytes());
        let told = String::from_utf8(done.stderr).expect("UTF-8");
        assert_eq!(
            (done.status.code(), told),
            (Some(1), format!("error: search\n{due}\n"))
        );
    }
}

const LEAGUE: [&str; 7] = [
    "league",
    "random",
    "greedy",
    "nodes:60",
    "--battles",
    "6",
    "--seed=3",
];

fn league(more: &[&str]) -> String {
    printed(&[&LEAGUE, more].concat(), "")
}

#[test]
fn a_league_has_the_same_tables_for_any_number_of_jobs() {
    let table = league(&["--jobs", "1"]);
    assert_eq!(league(&["--jobs", "3"]), table);
    let rows: Vec<_> = table.lines().collect();
    assert_eq!(rows.len(), 11, "{table}");
    for (row, pair) in rows[2..5].iter().zip(["greedy", "nodes:60", "nodes:60"]) {
        assert!(row.contains(&format!("| `{pair}` | 6 | ")), "{row}");
    }
    assert_eq!(rows[8], "| `random` | 0 | 0 to 0 |");
    // Few battles may have the same table by chance.
    let of = |teams| {
        let words = [
            "league",
            "greedy",
            "nodes:60",
            "--battles",
            "40",
            "--seed=3",
            "--teams",
            teams,
        ];
        printed(&words, "")
    };
    assert_ne!(of("samples"), of("drawn"));
}

/// The program ended while it wrote a line, and the lines are in any order.
#[test]
fn a_league_continues_after_an_interruption() {
    let file = file_with("league.tsv", "");
    let table = league(&["--file", &file]);
    let text = std::fs::read_to_string(&file).expect("the results");
    let mut lines: Vec<_> = text.split_inclusive('\n').collect();
    assert_eq!(lines.len(), 18);
    assert!(lines.iter().all(|it| it.starts_with("samples:3\t")));
    lines.truncate(11);
    lines.reverse();
    let of_others = "samples:4\trandom\tgreedy\t0\t1\nsamples:3\trandom\tlevel:1\t0\t0.5\n";
    std::fs::write(
        &file,
        format!("{of_others}{}samples:3\tran", lines.concat()),
    )
    .expect("a file");
    assert_eq!(league(&["--file", &file, "--jobs", "2"]), table);
    let text = std::fs::read_to_string(&file).expect("the results");
    assert_eq!(
        (text.lines().count(), league(&["--file", &file])),
        (20, table)
    );
    std::fs::write(&file, format!("{text}samples:3\trandom\tgreedy\t0\t2\n")).expect("a file");
    let done = ran(&[&LEAGUE[..], &["--file", &file]].concat(), b"");
    let told = String::from_utf8(done.stderr).expect("UTF-8");
    assert_eq!(
        told,
        format!("error: search\n{file}: line 21 is not a result\n")
    );
}

#[test]
fn a_league_of_one_bot_is_refused() {
    for (bots, due) in [
        (["greedy", "greedy"], "error: BOT\ngreedy is there twice\n"),
        (["greedy", "level:6"], "error: Invalid value 'level:6'"),
        (["greedy", "think:0"], "error: Invalid value 'think:0'"),
    ] {
        let done = ran(&["league", bots[0], bots[1]], b"");
        let told = String::from_utf8(done.stderr).expect("UTF-8");
        assert!(
            done.status.code() == Some(2) && told.starts_with(due),
            "{told}"
        );
    }
}

/// A stream in which the program plays Bob, and Alice does what is offered first.
fn bot_stream(alice: &str, words: &[&str]) -> String {
    let bob = "Starmie||||harden,surf,recover|||||||]Rhydon||||earthquake,substitute|||||||";
    let mut commands = format!(
        ">start {{\"formatid\":\"gen1ou\",\"seed\":[1,2,3,4]}}\n\
         >player p1 {{\"name\":\"Alice\",\"team\":\"{alice}\"}}\n>player p2 {{\"name\":\"Bob\",\"team\":\"{bob}\"}}\n"
    );
    commands += &">p1 default\n".repeat(100);
    let words = [&["showdown", "--bot", "p2"], words].concat();
    printed(&words, &commands)
}

/// The choices of Bob, as the end of a stream has them.
fn choices_of_bob(stream: &str) -> Vec<String> {
    let end = stream.split("end\n{").nth(1).expect("an end");
    let end = format!("{{{}", end.lines().next().expect("an object"));
    let end: Value = serde_json::from_str(&end).expect("JSON");
    let inputs = end["inputLog"].as_array().expect("a list");
    let texts = inputs.iter().filter_map(Value::as_str);
    texts
        .filter(|it| it.starts_with(">p2 "))
        .map(String::from)
        .collect()
}

/// Until Snorlax falls, Bob knows neither Alice's second move nor her second member.
#[test]
fn a_bot_plays_a_side_of_showdown_fairly() {
    let words = ["--level", "1", "--search-seed", "5"];
    let streams = [
        "surf|||||||]Zapdos||||thunder",
        "rest|||||||]Gengar||||explosion",
    ]
    .map(|hidden| bot_stream(&format!("Snorlax||||splash,{hidden}|||||||"), &words));
    let ends = ["\n|win|Bob\n", "\n|win|Alice\n", "\n|tie\n"];
    assert!(ends.iter().any(|end| streams[0].contains(end)));
    let until_shown = |stream: &String| {
        let shown = stream
            .lines()
            .position(|line| line.contains("|switch|p1a: ") && !line.contains("Snorlax"));
        let turns = stream.lines().take(shown.expect("Snorlax falls"));
        let count = turns.filter(|line| line.starts_with("|turn|")).count();
        choices_of_bob(stream)[..count].to_vec()
    };
    let choices = until_shown(&streams[0]);
    assert!(choices.len() > 1, "{choices:?}");
    assert_eq!(choices, until_shown(&streams[1]));
}

#[test]
fn a_game_against_a_level_is_repeated_by_its_seed() {
    let game = |level: &str| {
        printed(
            &["play", "--level", level, "--seed", "5"],
            &"1\n".repeat(500),
        )
    };
    let text = game("1");
    assert!(
        text.ends_with("You lose.\n") || text.ends_with("You win.\n"),
        "{text}"
    );
    assert_eq!(game("1"), text);
    assert_ne!(game("2"), text);
}
