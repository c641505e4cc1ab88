//! `gen1 follow`: a log read back is what a player knows. It is compared with the `Player` of the library, which gets the battle's events.
mod common;
use common::played::{
    battle, commands, count, inputs, is_played_by_showdown, members, name, pairs, team, view,
};
use common::{fed, file_with, gen1, ran};
use gen1::{HpForm, Player, PublicSide, Side, Teller};
use serde_json::{Value, json};

/// A teller of exact HP.
fn exact(side: Side) -> Teller {
    Teller::with_hp(side, HpForm::Exact)
}

/// The player of a side that gets the events of each update.
fn told(input: &Value, side: Side, mut teller: Teller) -> Player {
    let foes = count(input, side.other());
    let mut player = Player::with_foes(side, &team(input, side), foes);
    let mut battle = battle(input);
    for [one, two] in pairs(input) {
        let mut log = gen1::LogBuf::new();
        battle.update_with(one, two, &mut log).expect("an update");
        let log = teller.tell_log(&log).expect("a log");
        player.feed(&log).expect("a log");
    }
    player
}

/// What `gen1 follow` knows of a log, with the team of the side if it is given.
fn followed(log: &str, side: Side, team: Option<&Value>) -> Value {
    let mut command = gen1();
    command.args(["follow", "--strict", "--json", "--side", name(side)]);
    if let Some(team) = team {
        // Tests run in parallel, each with a separate file.
        let test = std::thread::current();
        let file = format!("follow.{}.json", test.name().unwrap_or_default());
        let file = file_with(&file, team.to_string());
        command.arg("--team").arg(file);
    }
    let done = fed(&mut command, log.as_bytes());
    let told = String::from_utf8_lossy(&done.stderr);
    assert!(done.status.success() && told.is_empty(), "{told}\n{log}");
    serde_json::from_slice(&done.stdout).expect("JSON")
}

/// What is public of a side, in the form of the program.
fn public(side: &PublicSide, count: usize) -> Value {
    let members = side.members.iter().take(count).map(|it| {
        let moves: Vec<_> = it
            .moves()
            .map(|(id, uses)| json!({"id": id.name(), "uses": uses}))
            .collect();
        let status = it.status().map(|kind| format!("{kind:?}"));
        let species = it.species().expect("a species").name();
        json!({"species": species, "level": it.level, "hp": it.hp, "max_hp": it.max, "status": status, "moves": moves})
    });
    let (on, it) = (side.announced, side.stages);
    let names = [
        (on.bide, "BIDE"),
        (on.charging, "CHARGING"),
        (on.confused, "CONFUSED"),
        (on.mist, "MIST"),
        (on.focus_energy, "FOCUS_ENERGY"),
        (on.substitute, "SUBSTITUTE"),
        (on.recharging, "RECHARGE"),
        (side.invulnerable, "INVULNERABLE"),
        (on.rage, "RAGE"),
        (on.seeded, "SEEDED"),
        (on.toxic, "BAD_POISON"),
        (on.light_screen, "LIGHT_SCREEN"),
        (on.reflect, "REFLECT"),
        (on.disabled, "DISABLED"),
    ];
    let names = names.iter().filter(|(flag, _)| *flag == 1);
    let stages = [
        it.attack,
        it.defense,
        it.speed,
        it.special,
        it.accuracy,
        it.evasion,
    ];
    json!({
        "members": members.collect::<Vec<_>>(),
        "place": side.place,
        "types": side.types().map(|it| format!("{it:?}")),
        "stages": stages.map(|it| i32::from(it) - 6),
        "conditions": names.map(|(_, name)| *name).collect::<Vec<_>>().join(" "),
        "last_move": side.last_move().map(|id| id.name()),
    })
}

/// A side as the program knows it, in the form of `shown`.
fn known(side: &Value) -> Value {
    let mut known = side["active"].clone();
    let mut members = side["members"].clone();
    for member in members.as_array_mut().expect("members") {
        member.as_object_mut().expect("a member").remove("name");
    }
    known["members"] = members;
    known
}

/// Compares what the program knows with the player of the battle. Without a team the player's side is in the order of appearance, so only
/// the foe is compared.
fn compare(object: &Value, player: &Player, has_team: bool) {
    assert_eq!(object["turn"], json!(player.turn()));
    assert_eq!(object["foe"]["count"], json!(player.foes()));
    let count = |side: &str| object[side]["members"].as_array().expect("members").len();
    let foe = player.foe();
    let seen = foe.members.iter().filter(|it| it.species != 0).count();
    assert_eq!(count("foe"), seen);
    assert_eq!(known(&object["foe"]), public(foe, seen));
    if has_team {
        let own = player.public(player.side());
        assert_eq!(known(&object["own"]), public(own, count("own")));
    }
    let outcome = serde_json::to_value(player.outcome()).expect("JSON");
    assert_eq!(object["outcome"], outcome);
}

#[test]
fn a_log_of_a_recorded_battle_is_what_the_battle_tells() {
    let inputs = inputs();
    for (number, input) in inputs.iter().enumerate() {
        let printed = ran(&["run", "--showdown"], input.to_string().as_bytes()).stdout;
        let log = String::from_utf8(printed).expect("UTF-8");
        for side in Side::BOTH {
            let player = told(input, side, exact(side));
            let own = members(input, side);
            compare(&followed(&log, side, Some(&own)), &player, true);
            if number % 4 == 0 {
                compare(&followed(&log, side, None), &player, false);
            }
        }
    }
    assert!(inputs.is_empty() || inputs.len() > 400, "{}", inputs.len());
}

#[test]
fn what_a_side_is_sent_is_what_the_battle_tells() {
    let inputs = inputs();
    let mut compared = 0;
    for input in inputs.iter().filter(|it| is_played_by_showdown(it)) {
        let commands = commands(input);
        for (hp, form) in [("exact", HpForm::Exact), ("percent", HpForm::Hundredths)] {
            let printed = ran(&["showdown", "--hp", hp], commands.as_bytes());
            assert!(printed.status.success());
            let printed = String::from_utf8(printed.stdout).expect("UTF-8");
            assert!(!printed.contains("|error|"), "{commands}\n{printed}");
            for side in Side::BOTH {
                let player = told(input, side, Teller::with_hp(side, form));
                let own = members(input, side);
                // For one side what the simulator prints, for the other what it gets of that.
                let is_whole = (form == HpForm::Exact) == (side == Side::Two);
                let log = if is_whole {
                    printed.clone()
                } else {
                    view(&printed, side)
                };
                compare(&followed(&log, side, Some(&own)), &player, true);
                compared += 1;
            }
        }
    }
    assert!(inputs.is_empty() || compared > 800, "{compared}");
}

/// The log that `--log` writes makes a player of the library know the same.
#[test]
fn the_bytes_of_a_log_are_read_by_a_player() {
    for input in inputs().iter().step_by(20) {
        let log = ran(&["run", "--showdown"], input.to_string().as_bytes()).stdout;
        let (side, own) = (Side::Two, members(input, Side::Two).to_string());
        let team_file = file_with("follow_log.json", own);
        let words = ["follow", "--log", "--side", "p2", "--team", &team_file];
        let bytes = ran(&words, &log).stdout;
        let due = told(input, side, exact(side));
        let mut player = Player::with_foes(side, &team(input, side), count(input, Side::One));
        player.feed(&bytes).expect("a log");
        assert_eq!(
            Side::BOTH.map(|it| *player.public(it)),
            Side::BOTH.map(|it| *due.public(it))
        );
    }
}

/// A random number generator (xorshift), so that each run has the same logs.
struct Random(u64);

impl Random {
    fn below(&mut self, bound: usize) -> usize {
        self.0 ^= self.0 << 13;
        self.0 ^= self.0 >> 7;
        self.0 ^= self.0 << 17;
        (self.0 >> 33) as usize % bound
    }

    /// A log that is cut, has a line moved, doubled or of another generation, or has up to four bytes changed.
    fn damaged(&mut self, log: &[u8]) -> Vec<u8> {
        let mut bytes = log.to_vec();
        let mut lines: Vec<&[u8]> = log.split(|byte| *byte == b'\n').collect();
        let (one, two) = (self.below(lines.len()), self.below(lines.len()));
        match self.below(5) {
            0 => bytes.truncate(self.below(log.len())),
            1 => {
                lines.swap(one, two);
                bytes = lines.join(&b'\n');
            }
            2 => {
                lines.insert(one, lines[two]);
                bytes = lines.join(&b'\n');
            }
            3 => {
                lines.insert(one, FOREIGN[self.below(FOREIGN.len())].as_bytes());
                bytes = lines.join(&b'\n');
            }
            _ => {
                for _ in 0..=self.below(4) {
                    let at = self.below(bytes.len());
                    bytes[at] = self.below(256) as u8;
                }
            }
        }
        bytes
    }
}

/// Lines that the first generation lacks.
const FOREIGN: [&str; 12] = [
    "|gen|9",
    "|gametype|doubles",
    "|dance|p1a: Tauros",
    "|-weather|RainDance|[upkeep]",
    "|-sidestart|p1: Alice|Spikes",
    "|-item|p2a: Tauros|Leftovers",
    "|-terastallize|p1a: Tauros|Water",
    "|detailschange|p1a: Tauros|Tauros-Mega, M",
    "|switch|p1a: Chomp|Garchomp, M|100/100",
    "|move|p1a: Tauros|Earth Power|p2a: Tauros",
    "|-start|p1a: Tauros|Perish Song",
    "|cant|p1a: Tauros|move: Taunt|Rest",
];

#[test]
fn a_damaged_log_is_read_or_refused_in_one_line() {
    let inputs = inputs();
    let mut random = Random(3);
    let (mut refused, mut noted) = (0, 0);
    let rounds = if inputs.is_empty() { 0 } else { 1000 };
    for round in 0..rounds {
        let input = inputs[round * 7 % inputs.len()].to_string();
        let log = ran(&["run", "--showdown"], input.as_bytes()).stdout;
        let done = ran(&["follow", "--json"], &random.damaged(&log));
        let told = String::from_utf8(done.stderr).expect("UTF-8");
        let lines: Vec<_> = told.lines().collect();
        match done.status.code() {
            Some(0) => {
                noted += usize::from(!lines.is_empty());
                let is_note = |line: &&str| {
                    let rest = line.strip_prefix("note: line ");
                    let rest = rest.and_then(|it| it.split_once(": "));
                    rest.is_some_and(|(at, why)| at.parse::<usize>().is_ok() && !why.is_empty())
                };
                assert!(lines.iter().all(is_note), "{told}");
            }
            Some(1) => {
                refused += 1;
                assert_eq!((lines.len(), lines[0]), (2, "error: showdown"), "{told}");
                assert!(lines[1].starts_with("standard input: line "), "{told}");
            }
            other => panic!("{other:?}: {told}"),
        }
    }
    assert!(rounds == 0 || (300..900).contains(&refused), "{refused}");
    assert!(rounds == 0 || noted > 50, "{noted}");
    println!("{rounds} logs: {refused} refused, {noted} with notes");
}

const START: &str = "|player|p1|Alice|60|\n|player|p2|Bob|2|\n|teamsize|p1|2\n|teamsize|p2|6\n|gametype|singles\n|gen|1\n|start\n\
    |switch|p1a: Bo|Tauros, M|100/100\n|switch|p2a: Chansey|Chansey, F|100/100\n|turn|1\n";

/// Forms that Showdown is remembered to write, and this program does not.
#[test]
fn other_forms_of_showdown_are_read() {
    let turn = "|c|Alice|hi|there\n|move|p1a: Bo|bodyslam|p2a: Chansey|[miss]\n|-miss|p1a: Bo|p2a: Chansey\n\
        |move|p2a: Chansey|Thunder Wave|p1a: Bo\n|-status|p1a: Bo|par|[from] move: Thunder Wave\n\n|\n|t:|1700000000\n|upkeep\n|turn|2\n\
        |-start|p2a: Chansey|move: Reflect\n|-boost|p2a: Chansey|spa|1|[silent]\n|-boost|p2a: Chansey|spd|1\n|-boost|p2a: Chansey|evasion|0\n\
        |-damage|p1a: Bo|40/100y par|[from] Leech Seed|[of] p2a: Chansey\n|drag|p1a: Jynx|Jynx, L88, F|48/48 tox\n|-transform|p2a: Chansey|p1a: Jynx\n";
    let log = format!("{START}{turn}");
    let done = ran(&["follow", "--json"], log.as_bytes());
    let object: Value = serde_json::from_slice(&done.stdout).expect("JSON");
    assert_eq!(
        String::from_utf8_lossy(&done.stderr),
        "note: line 27: the word \"-transform\" is unknown\n"
    );
    assert_eq!(object["own"]["player"], "Alice");
    let chosen = json!([["move Body Slam", "move Thunder Wave"]]);
    assert_eq!(object["choices"], chosen);
    assert_eq!(
        (&object["foe"]["count"], &object["turn"]),
        (&json!(6), &json!(2))
    );
    let due = json!([
        {"name": "Bo", "species": "Tauros", "level": 100, "hp": 40, "max_hp": 100, "status": "Paralysis", "moves": [{"id": "Body Slam", "uses": 1}]},
        {"name": "Jynx", "species": "Jynx", "level": 88, "hp": 48, "max_hp": 48, "status": "Poison", "moves": []},
    ]);
    assert_eq!(object["own"]["members"], due);
    let active = &object["foe"]["active"];
    assert_eq!(active["stages"], json!([0, 0, 0, 1, 0, 0]));
    assert_eq!(
        (&active["conditions"], &active["last_move"]),
        (&json!("REFLECT"), &json!("Thunder Wave"))
    );
    assert_eq!(
        ran(&["follow", "--strict"], log.as_bytes()).status.code(),
        Some(1)
    );
}

/// A replay, as a page or as JSON, is read as its log.
#[test]
fn a_page_is_read_as_its_log() {
    let input = common::battle(common::TAUROS, r#""choices":[[0,0],[17,17]]"#);
    let page = common::file_with("follow.html", "");
    let made = ran(&["replay", "--showdown", "--out", &page], input.as_bytes());
    assert!(
        made.status.success(),
        "{}",
        String::from_utf8_lossy(&made.stderr)
    );
    let log = ran(&["run", "--showdown"], input.as_bytes()).stdout;
    let due = ran(&["follow"], &log).stdout;
    assert_eq!(ran(&["follow", &page], b"").stdout, due);
    let log = String::from_utf8(log).expect("UTF-8");
    let replay = json!({"id": "gen1ou-1", "players": ["A", "B"], "log": log});
    assert_eq!(ran(&["follow"], replay.to_string().as_bytes()).stdout, due);
}

#[test]
fn a_wrong_line_leads_to_its_fault() {
    let cases = [
        (
            "|-damage|p2a: Chansey|700/100",
            "in |-damage|: expected HP as 120/353 or 120/353 par, with a maximum from 11 to 999, or 0 fnt, found \"700/100\"",
        ),
        (
            "|-damage|p2a: Chansey",
            "in |-damage|: expected HP in field 2, found none",
        ),
        (
            "|-damage|p2a: Chansey|7/100 pra",
            "in |-damage|: expected one of slp, psn, tox, brn, frz, par, found \"pra\"; did you mean \"par\"?",
        ),
        (
            "|move|p1a: Bo|Bodyslem|p2a: Chansey",
            "in |move|: expected a move, found \"Bodyslem\"; did you mean \"Body Slam\"?",
        ),
        (
            "|move|p1a: Bob|Body Slam|p2a: Chansey",
            "in |move|: expected \"Bo\", the active member of side 1, found \"Bob\"",
        ),
        (
            "|move|Bo|Body Slam",
            "in |move|: expected a member, such as p1a: Tauros, found \"Bo\"",
        ),
        (
            "|switch|p1a: Bo|Tarous|100/100",
            "in |switch|: expected a species, found \"Tarous\"; did you mean \"Tauros\"?",
        ),
        (
            "|switch|p1a: Bo|Tauros, L101|100/100",
            "in |switch|: expected a level from L1 to L100, found \"Tauros, L101\"",
        ),
        ("|turn|3", "in |turn|: expected turn 2, found \"3\""),
        (
            "|win|Eve",
            "in |win|: expected the name of a player, \"Alice\" or \"Bob\", found \"Eve\"",
        ),
        (
            "|win|Bob\n|turn|2",
            "in |turn|: the battle ended in line 11",
        ),
        ("|gen|2", "in |gen|: expected 1, found \"2\""),
        (
            "|gametype|doubles",
            "in |gametype|: expected singles, found \"doubles\"",
        ),
        (
            "|-boost|p1a: Bo|spx|1",
            "in |-boost|: expected one of atk, def, spe, spa, spc, spd, accuracy, acc, evasion, eva, found \"spx\"; did you mean \"spa\"?",
        ),
        (
            "|-hitcount|p1a: Bo|6",
            "in |-hitcount|: expected a number from 1 to 5, found \"6\"",
        ),
        (
            "|teamsize|p1|7",
            "in |teamsize|: expected a number from 1 to 6, found \"7\"",
        ),
        (
            "|switch|p1a: A|Mew|99/99\n|switch|p1a: B|Mew|99/99",
            "in |switch|: all 2 members have been out; expected one of them with the HP and status that it had, found \"B\" (Mew, L100)",
        ),
    ];
    for (lines, why) in cases {
        let done = ran(&["follow"], format!("{START}{lines}\n").as_bytes());
        let line = 10 + lines.lines().count();
        let due = format!("error: showdown\nstandard input: line {line}: {why}\n");
        assert_eq!(common::told(&done), (1, due.as_str()), "{lines}");
    }
    for (log, why) in [
        (
            "",
            "line 1: expected |switch| for both sides before the log ends",
        ),
        (
            "|move|p1a: Bo|Tackle|",
            "line 1: in |move|: side 1 has no active member before |switch|",
        ),
        (
            "|turn|\u{7f}",
            "line 1: in |turn|: expected a number from 1 to 9999, found \"\u{7f}\"",
        ),
    ] {
        let done = ran(&["follow"], log.as_bytes());
        let due = format!("error: showdown\nstandard input: {why}\n");
        assert_eq!(common::told(&done), (1, due.as_str()), "{log}");
    }
    let team = file_with("follow_wrong.txt", "Mew\n- Surf");
    for (log, why) in [
        (
            START,
            "line 3: in |teamsize|: expected 1, the number of members of the team, found \"2\"",
        ),
        (
            &START.replace("|teamsize|p1|2", "|"),
            "line 8: in |switch|: expected a member of the team, found \"Bo\" (Tauros, L100)",
        ),
    ] {
        let done = ran(&["follow", "--team", &team], log.as_bytes());
        let due = format!("error: showdown\nstandard input: {why}\n");
        assert_eq!(common::told(&done), (1, due.as_str()));
    }
}
