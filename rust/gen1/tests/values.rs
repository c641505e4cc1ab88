//! Traits that Rust users expect of values: keys of maps, order, text, and serde.
use gen1::{
    ArrayVec, Battle, Choice, ChoiceWords, Element, Event, Kind, LineFault, MoveId, Outcome, Place,
    Request, Room, RoomRefusal, Rules, Side, Species, Stat, Submitted, Team, TeamRefusal,
    TurnNumber, WordsFault, member,
    text::{WriteFault, team_in_packed, team_in_text, team_to_packed, team_to_text},
};
use std::collections::{BTreeMap, BTreeSet, HashMap, HashSet};

fn battle() -> Battle {
    let team = Team::new(&[member("Tauros", &["Strength"]).unwrap()]).unwrap();
    Battle::new(&team, &team, [1, 36, 255, 7, 31, 100, 179, 254, 127, 10])
}

#[test]
fn teams_are_written_as_text() {
    let mut members = [
        member("Tauros", &["Body Slam", "Double-Edge"]).unwrap(),
        member("Mr. Mime", &["Psychic"]).unwrap(),
    ];
    (members[0].level, members[0].dvs) = (88, [0, 15, 15, 14]);
    members[1].exp = [0, 65535, 10, 255, 256];
    let export = "Tauros\nLevel: 88\nIVs: 12 HP / 0 Atk / 28 SpA / 28 SpD\n- Body Slam\n- Double-Edge\n\n\
                  Mr. Mime\nEVs: 0 HP / 252 Atk / 4 Def / 16 SpA / 16 SpD / 16 Spe\n- Psychic\n";
    assert_eq!(
        team_to_text(&members).unwrap().as_slice(),
        export.as_bytes()
    );
    let packed = "Tauros||||bodyslam,doubleedge||||12,0,,28,28,||88|]\
                  Mr. Mime||||psychic||0,252,4,16,16,16|||||\n";
    assert_eq!(
        team_to_packed(&members).unwrap().as_slice(),
        packed.as_bytes()
    );
    for read in [
        team_in_text(export.as_bytes()).unwrap(),
        team_in_packed(packed.as_bytes()).unwrap(),
    ] {
        assert_eq!(read, Team::new(&members).unwrap());
    }
    members[1].moves[0].1 = 2;
    assert_eq!(team_to_text(&members), Err(WriteFault::PpUps(2)));
    assert_eq!(
        WriteFault::PpUps(2).to_string(),
        "member 2: expected three PP ups for each move, since a text has none"
    );
    assert_eq!(
        team_to_packed(&[]),
        Err(WriteFault::Team(TeamRefusal::Empty))
    );
}

#[test]
fn values_are_keys_and_are_in_the_order_of_their_numbers() {
    let species: BTreeSet<_> = (1..=151).rev().filter_map(Species::new).collect();
    assert!(species.iter().map(|it| it.number()).eq(1..=151));
    let moves: HashSet<_> = (1..=165).filter_map(MoveId::new).collect();
    assert_eq!(moves.len(), 165);
    let choices: BTreeSet<_> = (0..=255).rev().filter_map(Choice::from_byte).collect();
    let bytes: Vec<_> = choices.iter().map(|it| it.byte()).collect();
    assert_eq!(bytes, [0, 16, 17, 18, 19, 20, 33, 34, 35, 36, 37, 38]);
    assert!(
        Side::One < Side::Two && Element::Normal < Element::Dragon && Stat::Attack < Stat::Evasion
    );
    assert!(Place::new(1) < Place::new(6) && TurnNumber::new(9) < TurnNumber::new(10));
    assert!(Kind::Sleep < Kind::Paralysis && Request::Pass < Request::Switch);
    let mut ends = BTreeMap::new();
    for it in [
        Outcome::Tie,
        Outcome::Fault(2),
        Outcome::WinOne,
        Outcome::Fault(1),
        Outcome::Tie,
    ] {
        *ends.entry(it).or_insert(0) += 1;
    }
    let counted = [
        (Outcome::WinOne, 1),
        (Outcome::Tie, 2),
        (Outcome::Fault(1), 1),
        (Outcome::Fault(2), 1),
    ];
    assert!(ends.into_iter().eq(counted));
}

/// docs/TABLES.md, "Species" and "Moves".
#[test]
fn species_and_moves_are_constants() {
    const LEAD: Species = Species::TAUROS;
    assert_eq!((LEAD.number(), LEAD.name()), (128, "Tauros"));
    assert_eq!(
        (Species::MR_MIME.number(), Species::NIDORAN_F.number()),
        (122, 29)
    );
    assert_eq!(
        (MoveId::BODY_SLAM.number(), MoveId::SOFT_BOILED.number()),
        (34, 135)
    );
    assert!(Species::all().map(u8::from).eq(1..=151));
    assert!(MoveId::all().map(u8::from).eq(1..=165));
    assert_eq!(Species::all().len(), 151);
    assert_eq!(Species::try_from(128), Ok(LEAD));
    let clauses = Rules::SLEEP_CLAUSE | Rules::FREEZE_CLAUSE;
    assert!(clauses.sleep_clause() && clauses.freeze_clause());
    assert_eq!(
        (Rules::NONE, Rules::FREEZE_CLAUSE.bits()),
        (Rules::default(), 2)
    );
    const PLACE: Option<Place> = Place::new(6);
    assert_eq!(PLACE.map(Choice::Switch), Some(Choice::SWITCH_6));
    assert_eq!(Choice::MOVE_0.to_string(), "move 0");
}

#[test]
fn names_in_any_spelling() {
    for text in ["Mr. Mime", "mr mime", "MRMIME", "Mr-Mime"] {
        assert_eq!(text.parse(), Ok(Species::MR_MIME));
    }
    for text in ["High Jump Kick", "hi jump kick", "HighJumpKick"] {
        assert_eq!(text.parse(), Ok(MoveId::HIGH_JUMP_KICK));
    }
    assert!(Species::all().all(|it| it.name().parse() == Ok(it)));
    assert!(MoveId::all().all(|it| it.name().parse() == Ok(it)));
}

#[test]
fn debug_shows_names() {
    let shown = format!(
        "{:?}",
        (MoveId::BODY_SLAM, Species::MR_MIME, Choice::MOVE_1)
    );
    assert_eq!(shown, "(BodySlam, MrMime, Move(1))");
    let update = battle().update(Choice::Pass, Choice::Pass).unwrap();
    let last = update.events().last();
    assert_eq!(format!("{last:?}"), "Some(Turn(1))");
}

/// Lines of docs/MECHANICS.md, "Events" and "Lines".
#[test]
fn a_line_is_an_event_where_it_can() {
    let lines = [
        "|turn|9999",
        "|move|p1a: Tauros|Body Slam|p2a: Mr. Mime",
        "|cant|p1a: Tauros|partiallytrapped",
        "|-damage|p2a: Mew|120/353 par|[from] Leech Seed",
        "|-damage|p2a: Mew|1/11",
        "|-heal|p2a: Mew|353/353 slp",
        "|-crit|p1a: Mew",
        "|-supereffective|p1a: Mew",
        "|-resisted|p1a: Mew",
        "|-immune|p1a: Mew",
        "|-miss|p1a: Mew",
        "|-fail|p1a: Mew",
        "|-status|p1a: Mew|brn",
        "|-curestatus|p1a: Mew|frz",
        "|-boost|p1a: Mew|spc|2",
        "|-unboost|p1a: Mew|eva|1",
        "|-clearallboost",
        "|-start|p1a: Mew|typechange",
        "|-end|p1a: Mew|confusion",
        "|-activate|p1a: Mew|Splash",
        "|-prepare|p1a: Mew|Solar Beam",
        "|-mustrecharge|p1a: Mew",
        "|-hitcount|p1a: Nidoran-F|5",
        "|-ohko",
        "|faint|p2a: Mew",
        "|win|p1",
        "|tie",
        "|fault|2",
    ];
    for line in lines {
        assert_eq!(
            line.parse().map(|event: Event| event.to_string()),
            Ok(line.into())
        );
    }
    let events: HashSet<Event> = lines.iter().map(|line| line.parse().unwrap()).collect();
    assert_eq!(events.len(), lines.len());
    let fault = |line: &str| line.parse::<Event>().unwrap_err();
    assert_eq!(
        fault("|switch|p1a: Tauros|Tauros, L50|120/353 par"),
        LineFault::NoPlace
    );
    assert_eq!(fault("|-damage|p1a: Tauros|0 fnt"), LineFault::NoMaximum);
    for line in [
        "",
        "turn|1",
        "|turn|0",
        "|turn|01",
        "|turn|1\n",
        "|turn|1|",
        "|win|p3",
        "|move|p1a: Tauros|body slam|p2a: Mew",
        "|-damage|p1a: Mew|12/10",
        "|-damage|p1a: Mew|1/11|[from] love",
        "|-boost|p1a: Mew|atk|3",
        "|faint|p3a: Mew",
        "|-hitcount|p1a: Mew|6",
        "|jump|p1a: Mew",
    ] {
        assert_eq!(fault(line), LineFault::NoEvent, "{line}");
    }
    let damage: Event = lines[3].parse().unwrap();
    assert_eq!(
        (damage.side(), damage.health().unwrap().max()),
        (Some(Side::Two), 353)
    );
    assert_eq!(
        lines[1].parse::<Event>().unwrap().move_id(),
        Some(MoveId::BODY_SLAM)
    );
    assert_eq!("|win|p1".parse::<Event>().unwrap().side(), Some(Side::One));
}

#[test]
fn battles_are_keys_by_their_bytes() {
    let (mut seen, same) = (HashMap::from([(battle(), 1)]), battle());
    assert_eq!(seen.get(&same), Some(&1));
    let mut later = battle();
    later.update(Choice::Pass, Choice::Pass).unwrap();
    assert_eq!(seen.insert(later, 2), None);
}

#[test]
fn winners_and_requests_go_by_sides() {
    let mut battle = battle();
    assert_eq!(battle.result().request(Side::Two), Request::Pass);
    battle.update(Choice::Pass, Choice::Pass).unwrap();
    assert_eq!(
        (
            battle.result().request(Side::One),
            battle.outcome().winner()
        ),
        (Request::Move, None)
    );
    let won = [
        Outcome::WinOne,
        Outcome::WinTwo,
        Outcome::Tie,
        Outcome::Fault(1),
    ]
    .map(Outcome::winner);
    assert_eq!(won, [Some(Side::One), Some(Side::Two), None, None]);
}

#[test]
fn choices_are_read_from_words() {
    let twin = |moves| member("Tauros", moves).unwrap();
    let mut specs = [
        member("Mew", &["Psychic", "Body Slam"]).unwrap(),
        twin(&["Strength"]),
        twin(&["Body Slam"]),
        member("Mr. Mime", &["Psychic"]).unwrap(),
    ];
    let one = Team::new(&specs).unwrap();
    specs.reverse();
    let mut battle = Battle::new(&one, &Team::new(&specs).unwrap(), [7; 10]);
    let read = |battle: &Battle, text: &str| battle.choice_from_words(Side::One, text);
    assert_eq!(read(&battle, "PASS"), Ok(Choice::Pass));
    assert_eq!(read(&battle, "move 1"), Ok(Choice::MOVE_1));
    assert_eq!(read(&battle, "Psychic"), Err(WordsFault::NotOffered));
    battle.update(Choice::Pass, Choice::Pass).unwrap();
    let due = [
        ("body-slam", Ok(Choice::MOVE_2)),
        ("Move Body Slam", Ok(Choice::MOVE_2)),
        ("move 2 Body Slam", Ok(Choice::MOVE_2)),
        ("move 1 Body Slam", Err(WordsFault::NotOffered)),
        ("Strength", Err(WordsFault::NotOffered)),
        ("move 4", Ok(Choice::MOVE_4)),
        ("switch mr mime", Ok(Choice::SWITCH_4)),
        ("switch Mew", Err(WordsFault::NotOffered)),
        ("switch Tauros", Err(WordsFault::Ambiguous)),
        ("switch 3 Tauros", Ok(Choice::SWITCH_3)),
        ("switch 6", Ok(Choice::SWITCH_6)),
        ("Tauros", Err(WordsFault::Unknown)),
        ("move 5", Err(WordsFault::Unknown)),
        ("move Body Slap", Err(WordsFault::Unknown)),
        ("", Err(WordsFault::Unknown)),
    ];
    for (text, due) in due {
        assert_eq!(read(&battle, text), due, "{text}");
    }
    for choice in battle.choices(Side::Two) {
        let text = choice.to_string();
        assert_eq!(battle.choice_from_words(Side::Two, &text), Ok(choice));
    }
    let said: ChoiceWords = "MOVE 2 bodyslam".parse().unwrap();
    assert_eq!(said.to_string(), "move 2 Body Slam");
    assert!("Body Slap".parse::<ChoiceWords>().is_err());
}

#[test]
fn refusals_say_whose_choice_it_was() {
    let mut battle = battle();
    let switch = "switch 2".parse().unwrap();
    let told = |refused: Result<gen1::Update, gen1::Refusal>| refused.unwrap_err().to_string();
    assert_eq!(
        told(battle.update(switch, Choice::Pass)),
        "side 1's choice is not offered"
    );
    assert_eq!(
        told(battle.update(Choice::Pass, switch)),
        "side 2's choice is not offered"
    );
}

#[test]
fn a_room_takes_choices_and_bytes() {
    let mut room = Room::new(battle());
    let strength = room.choices(Side::One)[0];
    assert_eq!(
        room.submit(Side::One, 0, Choice::Pass),
        Err(RoomRefusal::NotOffered)
    );
    assert_eq!(
        room.submit_byte(Side::One, 0, 255),
        Err(RoomRefusal::NotOffered)
    );
    assert_eq!(room.submit(Side::One, 0, strength), Ok(Submitted::Waiting));
    assert_eq!(
        room.submit_byte(Side::One, 0, 17),
        Err(RoomRefusal::AlreadyChosen)
    );
    let (mut other, log) = (room.clone(), room.log().to_vec());
    assert!(matches!(
        room.submit_byte(Side::Two, 0, 17),
        Ok(Submitted::Advanced(_))
    ));
    assert_eq!((other.number(), other.log()), (0, &log[..]));
    assert_ne!(other, room);
    assert_eq!(
        other.submit_byte(Side::One, 0, 17),
        Err(RoomRefusal::AlreadyChosen)
    );
    assert!(other.submit_byte(Side::Two, 0, 17).is_ok());
    assert_eq!(other, room);
}

#[test]
fn what_events_hold_has_a_name() {
    let turns: ArrayVec<TurnNumber, 4> = battle()
        .update(Choice::Pass, Choice::Pass)
        .unwrap()
        .events()
        .iter()
        .filter_map(|event| match event {
            Event::Turn(turn) => Some(*turn),
            _ => None,
        })
        .collect();
    assert_eq!(turns.as_slice(), [TurnNumber::new(1).unwrap()]);
    assert_eq!(
        format!("turn {:>2}, place {}", turns[0], Place::new(6).unwrap()),
        "turn  1, place 6"
    );
    assert_eq!(format!("{:?}", gen1::LogReader::new()), "LogReader { .. }");
}

#[cfg(feature = "serde")]
#[test]
fn a_member_is_the_object_of_the_document() {
    let text = r#"{"species":"Mr. Mime","level":100,"dvs":[15,14,13,12],"exp":[1,2,3,4,65535],"moves":[["Psychic",3],["Double-Edge",0]]}"#;
    let read = |text: &str| serde_json::from_str::<gen1::MemberSpec>(text);
    let mut spec = member("Mr. Mime", &["Psychic", "Double-Edge"]).unwrap();
    (spec.dvs, spec.exp, spec.moves[1].1) = ([15, 14, 13, 12], [1, 2, 3, 4, 65535], 0);
    assert_eq!(read(text).unwrap(), spec);
    assert_eq!(serde_json::to_string(&spec).unwrap(), text);
    for (old, new, why) in [
        ("Mr. Mime", "Mr. Nime", "did you mean Mr. Mime?"),
        ("Psychic", "Psyche!", "no move is called 'Psyche!'"),
        ("\"level\":100", "\"lvl\":100", "unknown field `lvl`"),
        (
            r#","moves":[["Psychic",3],["Double-Edge",0]]"#,
            "",
            "missing field `moves`",
        ),
        ("100", "256", "invalid value: integer `256`, expected u8"),
        ("[1,2,3,4,65535]", "[1,2,3,4]", "invalid length 4"),
        ("65535", "65536", "expected u16"),
        (r#"["Psychic",3]"#, r#"["Psychic"]"#, "invalid length 1"),
        (r#"["Psychic",3]"#, r#"["Psychic",3,3]"#, "invalid length 3"),
        (
            r#"["Psychic",3]"#,
            "94",
            "expected the name of a move, or a pair",
        ),
        (
            r#"["Psychic",3]"#,
            r#"["Cut",0],["Cut",0],["Cut",0],["Cut",0]"#,
            "no more than 4",
        ),
    ] {
        let fault = read(&text.replace(old, new)).unwrap_err().to_string();
        assert!(fault.contains(why), "{fault}");
    }
    // Names are compared as in a team builder's text. A move alone has three PP ups, and a key that is absent the highest values.
    assert_eq!(read(&text.replace("Mr. Mime", "mr mime")).unwrap(), spec);
    let short = r#"{"species":"mr mime","moves":["psychic",["double edge",3]]}"#;
    assert_eq!(
        read(short).unwrap(),
        member("Mr. Mime", &["Psychic", "Double-Edge"]).unwrap()
    );
}

#[cfg(feature = "serde")]
#[test]
fn values_are_the_same_after_serde() {
    fn again<T: serde::Serialize + serde::de::DeserializeOwned + PartialEq + std::fmt::Debug>(
        value: &T,
    ) -> String {
        let text = serde_json::to_string(value).unwrap();
        assert_eq!(&serde_json::from_str::<T>(&text).unwrap(), value);
        text
    }
    let mut battle = battle();
    let mut events = battle
        .update(Choice::Pass, Choice::Pass)
        .unwrap()
        .events()
        .to_vec();
    events.extend_from_slice(
        battle
            .update(Choice::MOVE_1, Choice::MOVE_1)
            .unwrap()
            .events(),
    );
    again(&events);
    again(&battle.state());
    again(&battle.odds(Side::One, MoveId::STRENGTH).unwrap());
    again(&battle.odds(Side::One, MoveId::SPLASH).unwrap());
    again(&battle.result());
    assert_eq!(again(&Outcome::Fault(2)), r#"{"Fault":2}"#);
    let hurt: Event = "|-heal|p2a: Mew|120/353 par".parse().unwrap();
    let text = r#"{"Heal":[{"side":"2","species":"Mew"},{"hp":120,"max":353,"kind":"Paralysis"}]}"#;
    assert_eq!(again(&hurt), text);
    assert!(serde_json::from_str::<Event>(&text.replace("120", "354")).is_err());
    assert_eq!(again(&(Rules::SLEEP_CLAUSE, Place::new(6))), "[1,6]");
    assert!(serde_json::from_str::<Place>("7").is_err());
    let spec = member("Tauros", &["Strength"]).unwrap();
    let team: Team = serde_json::from_str(&serde_json::to_string(&[&spec]).unwrap()).unwrap();
    assert_eq!(team, Team::new(&[spec]).unwrap());
    assert!(
        serde_json::from_str::<Team>("[]")
            .unwrap_err()
            .to_string()
            .contains("member")
    );
}
