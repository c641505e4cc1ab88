//! Bad input: each gets a named error that says what was wrong, and nothing changes.
use gen1::{
    Battle, Choice, DamageRefusal, LogFault, MoveId, NameFault, OutOfRange, Refusal, Rules, Side,
    Species, Team, TeamRefusal, TurnLimit, events_of, member,
};

fn team() -> Team {
    Team::new(&[member("Tauros", &["Strength", "Splash"]).unwrap()]).unwrap()
}

fn started() -> Battle {
    let mut battle = Battle::new(
        &team(),
        &team(),
        [1, 36, 255, 7, 31, 100, 179, 254, 127, 10],
    );
    battle.update(Choice::Pass, Choice::Pass).unwrap();
    battle
}

#[test]
fn names() {
    let fault = |species, moves: &[&str]| member(species, moves).unwrap_err().to_string();
    assert_eq!(
        fault("Taurus", &[]),
        "no species is called 'Taurus'; did you mean Tauros?"
    );
    assert_eq!(
        fault("Tauros", &["Strength", "Body Slap"]),
        "move 2: no move is called 'Body Slap'; did you mean Body Slam?"
    );
    assert_eq!(
        member("Tauros", &["Cut", "Fly", "Surf", "Strength", "Flash"]),
        Err(NameFault::TooManyMoves)
    );
    // Nothing is near to these, and only the first 32 bytes of a text are shown.
    let unknown = |text: &str| text.parse::<MoveId>().unwrap_err().to_string();
    assert_eq!(unknown(""), "no move is called ''");
    assert_eq!(
        unknown("Dynamax Cannon"),
        "no move is called 'Dynamax Cannon'"
    );
    assert_eq!(
        unknown(&"ab".repeat(50)),
        format!("no move is called '{}'", "ab".repeat(16))
    );
    assert_eq!(
        unknown("\u{e9}".repeat(17).as_str()).len(),
        "no move is called ''".len() + 32
    );
}

#[test]
fn numbers() {
    assert_eq!(Species::try_from(0), Err(OutOfRange));
    assert_eq!(Species::try_from(152), Err(OutOfRange));
    assert_eq!(MoveId::try_from(166), Err(OutOfRange));
    assert_eq!(Choice::try_from(0x15), Err(OutOfRange));
    assert_eq!(Rules::try_from(4), Err(OutOfRange));
    assert_eq!(TurnLimit::try_from(10_000), Err(OutOfRange));
}

#[test]
fn teams() {
    let mut one = member("Tauros", &["Strength"]).unwrap();
    assert_eq!(Team::new(&[]).unwrap_err(), TeamRefusal::Empty);
    assert_eq!(
        Team::new(&[const { 0 }; 7].map(|_| one.clone())).unwrap_err(),
        TeamRefusal::TooMany
    );
    one.level = 101;
    let refusal = Team::new(&[one.clone()]).unwrap_err();
    assert_eq!(
        (refusal, refusal.to_string().as_str()),
        (TeamRefusal::Level(1), "member 1: the level is not 1 to 100")
    );
    one.level = 100;
    one.dvs[2] = 16;
    assert_eq!(Team::new(&[one]).unwrap_err(), TeamRefusal::Dv(1));
    assert_eq!(
        Team::new(&[member("Ditto", &["Transform"]).unwrap()]).unwrap_err(),
        TeamRefusal::MoveLeftOut(1)
    );
}

#[test]
fn choices() {
    let mut battle = started();
    let before = battle.clone();
    let (strength, switch) = (Choice::MOVE_1, Choice::SWITCH_2);
    assert_eq!(
        battle.update(switch, switch).unwrap_err(),
        Refusal::NotOffered(Side::One)
    );
    assert_eq!(
        battle.update(strength, switch).unwrap_err(),
        Refusal::NotOffered(Side::Two)
    );
    assert_eq!(battle, before);
    for text in [
        "", "pass 1", "move", "move 5", "switch 0", "switch 7", "jump 1",
    ] {
        assert!(
            text.parse::<Choice>()
                .unwrap_err()
                .to_string()
                .starts_with("not a choice"),
            "{text}"
        );
    }
    for choice in battle.choices(Side::One) {
        assert_eq!(choice.to_string().parse(), Ok(choice));
    }
    assert_eq!(TurnLimit::new(0), None);
}

#[test]
fn bytes() {
    let battle = started();
    assert_eq!(Battle::load(battle.bytes()), Ok(battle.clone()));
    assert_eq!(Battle::load(&battle.bytes()[1..]).unwrap_err().number(), 1);
    let mut bytes = battle.bytes().to_vec();
    bytes[0] = 9;
    assert_eq!(Battle::try_from(&bytes[..]).unwrap_err().number(), 2);
    assert_eq!(events_of(&[255]).next(), Some(Err(LogFault::UnknownTag)));
    assert_eq!(
        events_of(&[3]).collect::<Vec<_>>(),
        [Err(LogFault::Truncated)]
    );
    assert_eq!(events_of(&[]).next(), None);
}

#[test]
fn damage() {
    let battle = Battle::new(&team(), &team(), [0; 10]);
    let strength = "Strength".parse().unwrap();
    assert_eq!(
        battle.damage(Side::One, strength, false),
        Err(DamageRefusal::NobodyOut)
    );
    let splash = "Splash".parse().unwrap();
    assert_eq!(
        started().damage(Side::One, splash, false),
        Err(DamageRefusal::NoUsualDamage(splash))
    );
}

#[cfg(feature = "serde")]
#[test]
fn serde() {
    let battle = started();
    let text = serde_json::to_string(&battle).unwrap();
    assert_eq!(serde_json::from_str::<Battle>(&text).unwrap(), battle);
    assert!(
        serde_json::from_str::<Battle>("[1,2,3]")
            .unwrap_err()
            .to_string()
            .contains("384 bytes")
    );
    let row = gen1::Row::Cancel {
        side: Side::One,
        number: 7,
    };
    let text = serde_json::to_string(&row).unwrap();
    assert_eq!(
        text,
        r#"{"kind":"cancel","side":1,"number":7,"choice":0,"numbers":null}"#
    );
    assert_eq!(serde_json::from_str::<gen1::Row>(&text).unwrap(), row);
    let fault = |text: &str| {
        serde_json::from_str::<gen1::Row>(text)
            .unwrap_err()
            .to_string()
    };
    assert!(fault(&text.replace("\"choice\":0", "\"choice\":17")).starts_with("not a row"));
    assert!(fault(&text.replace("\"side\":1", "\"side\":3")).starts_with("not a row"));
    assert!(fault(&text.replace("cancel", "chancel")).contains("unknown variant `chancel`"));
    assert!(fault(&text.replace("number\"", "pair\"")).contains("unknown field `pair`"));
    let message = gen1::Host::new(battle.clone()).message(Side::Two);
    let text = serde_json::to_string(&message).unwrap();
    let again = serde_json::from_str::<gen1::Message>(&text).unwrap();
    assert_eq!(again.to_bytes(), message.to_bytes());
    let own = serde_json::to_string(message.own()).unwrap();
    let again = serde_json::from_str::<gen1::OwnSide>(&own).unwrap();
    assert_eq!(again.to_bytes(), message.own().to_bytes());
    let wrong = [
        ("\"draw\":null", "\"draw\":0", "not a message: draw"),
        (
            "\"choices\":[17",
            "\"choices\":[21",
            "not a mask of choices",
        ),
        ("\"level\":100", "\"level\":101", "not a message: level"),
        ("\"log\":[", "\"log\":[99", "not a message: log"),
        (
            "\"own\":{",
            "\"own\":{\"count\":1,",
            "unknown field `count`",
        ),
    ];
    for (from, to, said) in wrong {
        assert!(text.contains(from), "{from} in {text}");
        let fault = serde_json::from_str::<gen1::Message>(&text.replace(from, to)).unwrap_err();
        assert!(fault.to_string().contains(said), "{fault}");
    }
    let fault = serde_json::from_str::<gen1::Notice>(&text).unwrap_err();
    assert!(fault.to_string().contains("unknown field `own`"));
    assert_eq!(
        serde_json::to_string(&battle.choices(Side::One).as_slice()).unwrap(),
        r#"["move 1","move 2"]"#
    );
    assert_eq!(
        serde_json::from_str::<gen1::Species>("\"Tauros\"")
            .unwrap()
            .number(),
        128
    );
    let fault = serde_json::from_str::<gen1::Species>("\"taurus\"").unwrap_err();
    assert!(fault.to_string().contains("did you mean Tauros?"));
}
