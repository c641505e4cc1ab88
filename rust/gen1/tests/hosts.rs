//! Hosts against rooms and tellers that are called directly; what a side is sent while the other side's choices differ; endings; rows.
use gen1::{
    Battle, Choice, Host, HostOptions, HostRefusal, HpForm, MemberSpec, Message, MoveId, Notice,
    Outcome, OwnSide, Player, Replied, Request, Room, RoomRefusal, Row, Side, Species, Submitted,
    Team, Teller, member,
};

/// Knuth's generator: the upper bits of its states.
struct Dice(u64);

impl Dice {
    fn below(&mut self, bound: usize) -> usize {
        self.0 = self
            .0
            .wrapping_mul(6364136223846793005)
            .wrapping_add(1442695040888963407);
        (self.0 >> 33) as usize % bound
    }

    fn numbers(&mut self) -> [u8; 10] {
        std::array::from_fn(|_| self.below(256) as u8)
    }

    fn member(&mut self) -> MemberSpec {
        let species = Species::new(1 + self.below(151) as u8).unwrap();
        let mut spec = member(species.name(), &["Struggle"]).unwrap();
        spec.moves.clear();
        while spec.moves.len() < 4 {
            let id = MoveId::new(1 + self.below(164) as u8).unwrap();
            let is_known = spec.moves.iter().any(|(known, _)| *known == id);
            if !is_known && !matches!(id.number(), 102 | 118 | 119 | 144) {
                spec.moves.push((id, 3));
            }
        }
        spec
    }

    fn team(&mut self) -> Team {
        let count = 1 + self.below(6);
        let members: Vec<MemberSpec> = (0..count).map(|_| self.member()).collect();
        Team::new(&members).unwrap()
    }

    fn side(&mut self) -> Side {
        Side::BOTH[self.below(2)]
    }

    /// A choice that a side is offered.
    fn choice(&mut self, host: &Host, side: Side) -> Choice {
        let choices = host.battle().choices(side);
        choices[self.below(choices.len())]
    }
}

fn bytes_of(own: &OwnSide) -> String {
    let members = own.members.map(|it| {
        (
            it.species, it.level, it.status, it.moves, it.pp, it.hp, it.max_hp, it.stats,
        )
    });
    let active = (
        own.conditions,
        own.stats,
        own.place,
        own.types,
        own.stages,
        own.disabled_slot,
    );
    let all = (own.turn, own.held, own.request, own.outcome, own.count);
    format!("{members:?}{active:?}{all:?}")
}

/// A room and two tellers, which a host is compared with.
struct ByHand {
    room: Room,
    tellers: [Teller; 2],
    told: [Vec<u8>; 2],
    for_all: Vec<u8>,
}

impl ByHand {
    fn new(battle: Battle, form: HpForm) -> Self {
        let teller = |side| Teller::with_hp(side, form);
        let mut it = ByHand {
            room: Room::new(battle),
            tellers: Side::BOTH.map(teller),
            told: [vec![], vec![]],
            for_all: vec![],
        };
        it.tell();
        it
    }

    fn tell(&mut self) {
        let [mut one, mut two] = self.tellers;
        let first = one.tell_log(self.room.log()).unwrap();
        self.for_all = two.tell_log(&first).unwrap().to_vec();
        for (teller, told) in self.tellers.iter_mut().zip(&mut self.told) {
            *told = teller.tell_log(self.room.log()).unwrap().to_vec();
        }
    }

    /// The room's reply in the host's words.
    fn submit(
        &mut self,
        side: Side,
        number: u32,
        byte: u8,
        numbers: Option<[u8; 10]>,
    ) -> Result<Replied, HostRefusal> {
        let kept = self.room.clone();
        if let Some(numbers) = numbers {
            self.room.reseed(numbers);
        }
        match self.room.submit_byte(side, number, byte) {
            Ok(Submitted::Waiting) => Ok(Replied::Kept),
            Ok(Submitted::Advanced(_)) => {
                self.tell();
                Ok(Replied::Ended)
            }
            Err(why) => {
                self.room = kept;
                Err(match why {
                    RoomRefusal::Over => HostRefusal::Over,
                    RoomRefusal::Stale(number) => HostRefusal::Stale(number),
                    RoomRefusal::AlreadyChosen => HostRefusal::AlreadyChosen,
                    RoomRefusal::NotOffered => HostRefusal::NotOffered,
                })
            }
        }
    }

    fn is_shown_by(&self, host: &Host) {
        assert_eq!(host.battle().as_bytes(), self.room.battle().as_bytes());
        assert_eq!(
            (host.number(), host.result()),
            (self.room.number(), self.room.result())
        );
        for (side, told) in Side::BOTH.into_iter().zip(&self.told) {
            let message = host.message(side);
            let battle = self.room.battle();
            assert_eq!(message.log(), told);
            assert_eq!(bytes_of(message.own()), bytes_of(&battle.own_side(side)));
            assert_eq!(message.offered(), battle.offered_mask(side));
            assert_eq!(host.awaits(side), !self.room.choices(side).is_empty());
        }
        assert_eq!(host.notice().log(), self.for_all);
        assert_eq!(host.notice().outcome(), self.room.result().outcome);
    }
}

#[test]
fn a_host_is_a_room_with_tellers() {
    for seed in 0..60 {
        let mut dice = Dice(seed);
        let battle = Battle::new(&dice.team(), &dice.team(), dice.numbers());
        let options = HostOptions {
            exact_hp: seed % 3 == 0,
            ..HostOptions::default()
        };
        let (mut host, form) = match seed % 3 {
            0 => (Host::with_options(battle.clone(), options), HpForm::Exact),
            1 => (Host::with_options(battle.clone(), options), HpForm::Bar),
            _ => {
                let form = HpForm::Hundredths;
                (Host::with_hp(battle.clone(), options, form), form)
            }
        };
        assert_eq!(host.hp_form(), form);
        let mut by_hand = ByHand::new(battle, form);
        for _ in 0..200 {
            by_hand.is_shown_by(&host);
            let side = dice.side();
            let number = host.number() + (dice.below(8) == 0) as u32;
            let byte = match dice.below(4) {
                0 => dice.below(256) as u8,
                _ if host.is_closed() => 0,
                _ => dice.choice(&host, side).byte(),
            };
            let numbers = (dice.below(3) > 0).then(|| dice.numbers());
            let row = Row::Submit {
                side,
                number,
                byte,
                numbers,
            };
            assert_eq!(
                host.apply(&row),
                by_hand.submit(side, number, byte, numbers)
            );
        }
    }
}

/// Everything that a side sees of a host.
fn sight(host: &Host, side: Side) -> String {
    let message = host.message(side);
    let own = bytes_of(message.own());
    format!(
        "{} {:?} {own} {:?} {:?}",
        message.number(),
        message.log(),
        message.offered(),
        message.draw()
    )
}

#[test]
fn a_choice_is_hidden_until_the_pair_ends() {
    for seed in 0..40 {
        let mut dice = Dice(1000 + seed);
        let battle = Battle::new(&dice.team(), &dice.team(), dice.numbers());
        let options = HostOptions {
            may_cancel: true,
            ..HostOptions::default()
        };
        let mut host = Host::with_options(battle, options);
        for _ in 0..30 {
            if host.is_closed() {
                break;
            }
            let (number, side) = (host.number(), dice.side());
            let other = side.other();
            // The Pass of a side that is asked nothing is there, so the other side's choice would end the pair.
            if !host.awaits(side) {
                let _ = host.submit(other, number, dice.choice(&host, other), None);
                continue;
            }
            // At one table the other side has chosen, at the other one it has not, or something else.
            let (mut first, mut second) = (host.clone(), host.clone());
            let _ = first.submit(
                other,
                number,
                dice.choice(&host, other),
                Some(dice.numbers()),
            );
            if dice.below(2) == 0 {
                let _ = second.submit(other, number, dice.choice(&host, other), None);
                let _ = second.cancel(other, number);
            }
            assert_eq!(sight(&first, side), sight(&second, side));
            assert_eq!(first.notice().log(), second.notice().log());
            assert_eq!(first.awaits(side), second.awaits(side));
            for row in [
                Row::Submit {
                    side,
                    number: number + 1,
                    byte: 0,
                    numbers: None,
                },
                Row::Submit {
                    side,
                    number,
                    byte: 255,
                    numbers: None,
                },
                Row::Cancel { side, number },
                Row::OfferDraw { side },
            ] {
                assert_eq!(first.apply(&row), second.apply(&row));
                assert_eq!(sight(&first, side), sight(&second, side));
            }
            for side in Side::BOTH {
                let _ = host.submit(side, number, dice.choice(&host, side), Some(dice.numbers()));
            }
        }
    }
}

fn table(options: HostOptions) -> (Host, Team) {
    let team = Team::new(&[
        member("Tauros", &["Body Slam"]).unwrap(),
        member("Starmie", &["Surf"]).unwrap(),
    ]);
    let team = team.unwrap();
    (
        Host::with_options(Battle::new(&team, &team, [7; 10]), options),
        team,
    )
}

#[test]
fn a_forfeit_is_the_other_sides_win() {
    let (mut host, team) = table(HostOptions::default());
    let mut player = Player::new(Side::Two, &team);
    player.receive(&host.message(Side::Two)).unwrap();
    host.submit(Side::Two, 0, Choice::MOVE_1, None).unwrap();
    assert_eq!(host.forfeit(Side::One), Ok(Replied::Ended));
    assert_eq!((host.number(), host.result().outcome), (1, Outcome::WinTwo));
    // The log is the event of the win: its tag and the number of the side.
    assert_eq!(host.message(Side::One).log(), [0x1a, 2]);
    assert_eq!(host.notice().log(), [0x1a, 2]);
    player.receive(&host.message(Side::Two)).unwrap();
    assert_eq!(
        (player.outcome(), player.choices().len()),
        (Outcome::WinTwo, 0)
    );
    assert_eq!(player.own().request, 0);
    assert!(!host.awaits(Side::One) && host.is_closed());
    assert_eq!(host.forfeit(Side::Two), Err(HostRefusal::Over));
    assert_eq!(
        host.submit(Side::One, 1, Choice::MOVE_1, None),
        Err(HostRefusal::Over)
    );
}

#[test]
fn a_draw_needs_both_sides_and_the_same_pair() {
    let (mut host, _) = table(HostOptions::default());
    assert_eq!(host.offer_draw(Side::One), Ok(Replied::Kept));
    assert_eq!(host.offer_draw(Side::One), Ok(Replied::Kept));
    assert_eq!(host.message(Side::Two).draw(), Some(Side::One));
    for side in Side::BOTH {
        host.submit(side, 0, Choice::MOVE_1, None).unwrap();
    }
    assert_eq!(host.message(Side::Two).draw(), None);
    assert_eq!(host.offer_draw(Side::Two), Ok(Replied::Kept));
    assert!(!host.is_closed());
    assert_eq!(host.offer_draw(Side::One), Ok(Replied::Ended));
    assert_eq!(host.result().outcome, Outcome::Tie);
    assert_eq!(host.result().request_one, Request::Pass);
    assert_eq!(host.message(Side::One).log(), [0x1b]);
}

#[test]
fn time_runs_out() {
    let (mut host, _) = table(HostOptions::default());
    assert_eq!(host.expire(Side::One, 1, None), Err(HostRefusal::Stale(0)));
    assert_eq!(host.expire(Side::One, 0, None), Ok(Replied::Kept));
    assert_eq!(
        host.expire(Side::One, 0, None),
        Err(HostRefusal::AlreadyChosen)
    );
    assert_eq!(host.expire(Side::Two, 0, None), Ok(Replied::Ended));
    let (mut chosen, _) = table(HostOptions::default());
    for side in Side::BOTH {
        chosen.submit(side, 0, Choice::MOVE_1, None).unwrap();
    }
    assert_eq!(host, chosen);
    let late_forfeits = true;
    let (mut host, _) = table(HostOptions {
        late_forfeits,
        ..HostOptions::default()
    });
    assert_eq!(host.expire(Side::Two, 0, None), Ok(Replied::Ended));
    assert_eq!(host.result().outcome, Outcome::WinOne);
}

#[test]
fn a_choice_is_taken_back() {
    let (mut host, _) = table(HostOptions::default());
    host.submit(Side::One, 0, Choice::MOVE_1, None).unwrap();
    assert_eq!(host.cancel(Side::One, 0), Err(HostRefusal::NotAllowed));
    let (mut host, _) = table(HostOptions {
        may_cancel: true,
        ..HostOptions::default()
    });
    let before = host.clone();
    assert_eq!(host.cancel(Side::One, 0), Err(HostRefusal::NothingChosen));
    host.submit(Side::One, 0, Choice::MOVE_1, None).unwrap();
    assert_eq!(host.cancel(Side::Two, 0), Err(HostRefusal::NothingChosen));
    assert_eq!(host.cancel(Side::One, 1), Err(HostRefusal::Stale(0)));
    assert_eq!(host.cancel(Side::One, 0), Ok(Replied::Kept));
    assert_eq!(host, before);
    assert!(host.awaits(Side::One));
}

#[test]
fn rows_are_bytes() {
    let numbers = Some([1, 2, 3, 4, 5, 6, 7, 8, 9, 10]);
    let row = Row::Submit {
        side: Side::Two,
        number: 258,
        byte: 0x11,
        numbers,
    };
    let bytes = [1, 2, 0x11, 1, 2, 1, 0, 0, 1, 2, 3, 4, 5, 6, 7, 8, 9, 10];
    assert_eq!(row.to_bytes(), bytes);
    let draw = [4, 1, 0, 0, 0, 0, 0, 0, 0, 0, 0, 0, 0, 0, 0, 0, 0, 0];
    assert_eq!(
        Row::from_bytes(&draw),
        Some(Row::OfferDraw { side: Side::One })
    );
    let mut dice = Dice(5);
    for _ in 0..20_000 {
        let mut bytes = bytes;
        for _ in 0..1 + dice.below(3) {
            bytes[dice.below(18)] = [0, 1, 2, 3, 4, 5, 6, 255][dice.below(8)];
        }
        if let Some(row) = Row::from_bytes(&bytes) {
            assert_eq!(row.to_bytes(), bytes);
        }
    }
    // An offer of a draw has no number. Side 3 and rows of kind 6 don't exist.
    for (place, byte) in [(4, 1), (1, 3), (0, 6), (3, 1), (17, 1)] {
        let mut bytes = draw;
        bytes[place] = byte;
        assert_eq!(Row::from_bytes(&bytes), None);
    }
}

#[test]
fn rows_lead_to_the_same_host() {
    for seed in 0..30 {
        let mut dice = Dice(2000 + seed);
        let battle = Battle::new(&dice.team(), &dice.team(), dice.numbers());
        let options = HostOptions {
            may_cancel: true,
            ..HostOptions::default()
        };
        let mut host = Host::with_options(battle.clone(), options);
        let mut stored = Vec::new();
        for _ in 0..100 {
            let (side, number) = (dice.side(), host.number());
            let numbers = Some(dice.numbers());
            let row = match dice.below(20) {
                0 => Row::OfferDraw { side },
                1..4 => Row::Cancel { side, number },
                4 => Row::Expire {
                    side,
                    number,
                    numbers,
                },
                _ if host.is_closed() => Row::Forfeit { side },
                _ => Row::Submit {
                    side,
                    number,
                    byte: dice.choice(&host, side).byte(),
                    numbers,
                },
            };
            if host.apply(&row).is_ok() {
                stored.push(row.to_bytes());
            }
        }
        let mut again = Host::with_options(battle, options);
        for bytes in stored {
            assert!(again.apply(&Row::from_bytes(&bytes).unwrap()).is_ok());
        }
        assert_eq!(again, host);
        assert_eq!(sight(&again, Side::One), sight(&host, Side::One));
    }
}

/// A message and a notice, whose fields are where include/gen1.h has them.
#[test]
fn what_is_sent_is_bytes() {
    let (mut host, team) = table(HostOptions::default());
    let mut player = Player::new(Side::One, &team);
    host.submit(Side::Two, 0, Choice::MOVE_1, None).unwrap();
    host.submit(Side::One, 0, Choice::SWITCH_2, None).unwrap();
    host.offer_draw(Side::Two).unwrap();
    let (message, notice) = (host.message(Side::One), host.notice());
    let (sent, all) = (message.to_bytes(), notice.to_bytes());
    let length = message.log().len();
    // 172 bytes of the side's own view, then the number, the mask, the length of the log, the offer, and from byte 184 the log.
    assert_eq!(sent[172..176], 1u32.to_le_bytes());
    assert_eq!(sent[178..180], (length as u16).to_le_bytes());
    assert_eq!(sent[180..184], [2, 0, 0, 0]);
    assert_eq!(sent[184..184 + length], *message.log());
    assert!(sent[184 + length..].iter().all(|it| *it == 0));
    // Of the first member the species, the level and the moves; of the side the turn, the place and the number of members.
    assert_eq!(sent[..8], [128, 100, 0, 0, 34, 0, 0, 0]);
    assert_eq!(sent[156..159], [2, 0, 2]);
    assert_eq!(sent[171], 2);
    assert_eq!(all[..8], [1, 0, 0, 0, notice.log().len() as u8, 0, 0, 2]);
    assert_eq!(all[8..8 + notice.log().len()], *notice.log());
    let again = Message::from_bytes(&sent).unwrap();
    assert_eq!(again.to_bytes(), sent);
    assert_eq!(bytes_of(again.own()), bytes_of(message.own()));
    assert_eq!(again.offered(), message.offered());
    player.receive(&again).unwrap();
    assert_eq!(Notice::from_bytes(&all).unwrap().to_bytes(), all);
}

/// What a side that comes back needs: its stored messages, from the first on.
#[test]
fn a_lost_player_is_that_of_all_messages() {
    for seed in 0..20 {
        let mut dice = Dice(3000 + seed);
        let (one, two) = (dice.team(), dice.team());
        let mut host = Host::new(Battle::new(&one, &two, dice.numbers()));
        let (mut player, mut stored) = (Player::new(Side::Two, &two), Vec::new());
        loop {
            stored.push(host.message(Side::Two).to_bytes());
            player.receive(&host.message(Side::Two)).unwrap();
            if host.is_closed() {
                break;
            }
            let number = host.number();
            for side in Side::BOTH {
                let choice = dice.choice(&host, side);
                let _ = host.submit(side, number, choice, Some(dice.numbers()));
            }
        }
        let mut again = Player::new(Side::Two, &two);
        for bytes in &stored {
            again.receive(&Message::from_bytes(bytes).unwrap()).unwrap();
        }
        assert_eq!(format!("{again:?}"), format!("{player:?}"));
    }
}

/// The examples of docs/HOST.schema.json go in and come out, and the battle in README.md sends two of them.
#[cfg(feature = "serde")]
#[test]
fn the_examples_of_the_schema() {
    use serde_json::{Value, from_value, json};
    let path = concat!(env!("CARGO_MANIFEST_DIR"), "/../../docs/HOST.schema.json");
    let schema: Value = serde_json::from_str(&std::fs::read_to_string(path).unwrap()).unwrap();
    let examples = |name: &str| {
        schema["$defs"][name]["examples"]
            .as_array()
            .unwrap()
            .clone()
    };
    for row in examples("row") {
        assert_eq!(json!(from_value::<Row>(row.clone()).unwrap()), row);
    }
    let team = Team::new(&[member("Tauros", &["Strength"]).unwrap()]).unwrap();
    let battle = Battle::new(&team, &team, [1, 36, 255, 7, 31, 100, 179, 254, 127, 10]);
    let options = HostOptions {
        exact_hp: true,
        ..HostOptions::default()
    };
    let mut host = Host::with_options(battle, options);
    for side in Side::BOTH {
        host.submit(side, 0, Choice::MOVE_1, None).unwrap();
    }
    host.offer_draw(Side::Two).unwrap();
    let (message, notice) = (host.message(Side::Two), host.notice());
    let [first] = &examples("message")[..] else {
        panic!("one message")
    };
    assert_eq!(json!(message), *first);
    let again: Message = from_value(first.clone()).unwrap();
    assert_eq!(again.to_bytes(), message.to_bytes());
    let [first] = &examples("notice")[..] else {
        panic!("one notice")
    };
    assert_eq!(json!(notice), *first);
    let again: Notice = from_value(first.clone()).unwrap();
    assert_eq!(again.to_bytes(), notice.to_bytes());
}

#[cfg(feature = "serde")]
#[test]
fn serde_stores_the_bytes_of_a_host() {
    use serde_json::{Value, from_value, json, to_value};
    let (mut host, _) = table(HostOptions::default());
    host.submit(Side::One, 0, Choice::MOVE_1, None).unwrap();
    let bytes = host.to_bytes();
    let stored: Value = to_value(&host).unwrap();
    assert_eq!(stored, json!(&bytes[..]));
    assert_eq!(from_value::<Host>(stored).unwrap().to_bytes(), bytes);
    let short = from_value::<Host>(json!(&bytes[1..])).unwrap_err();
    assert!(short.to_string().starts_with("invalid length"), "{short}");
    let no_battle = from_value::<Host>(json!(vec![0; Host::LENGTH])).unwrap_err();
    assert!(no_battle.to_string().contains("a host"), "{no_battle}");
}

#[test]
fn bytes_that_nobody_sends_are_refused() {
    let (host, _) = table(HostOptions::default());
    let (sent, all) = (host.message(Side::One).to_bytes(), host.notice().to_bytes());
    for (place, byte, field) in [
        (0, 152, "species"),
        (1, 101, "level"),
        (2, 6, "status"),
        (4, 166, "moves"),
        (171, 7, "count"),
        (171, 0, "count"),
        (158, 3, "place"),
        (159, 15, "types"),
        (161, 13, "stages"),
        (167, 5, "disabled_slot"),
        (168, 2, "held"),
        (169, 3, "request"),
        (170, 6, "outcome"),
        (177, 16, "offered"),
        (180, 3, "draw"),
        (181, 1, "unused"),
        (179, 3, "log_length"),
        (184, 29, "log"),
    ] {
        let mut wrong = sent;
        wrong[place] = byte;
        let fault = Message::from_bytes(&wrong).unwrap_err();
        assert_eq!(fault.field(), field);
        let text = format!("not a message: {field} is out of its range");
        assert_eq!(fault.to_string(), text);
    }
    for (place, byte, field) in [
        (5, 3, "log_length"),
        (6, 6, "outcome"),
        (7, 3, "draw"),
        (8, 0, "log"),
    ] {
        let mut wrong = all;
        wrong[place] = byte;
        assert_eq!(Notice::from_bytes(&wrong).unwrap_err().field(), field);
    }
}

#[test]
fn a_host_from_its_bytes_goes_on_as_the_one_that_was_stored() {
    for seed in 0..40 {
        let mut dice = Dice(2000 + seed);
        let battle = Battle::new(&dice.team(), &dice.team(), dice.numbers());
        let options = HostOptions {
            exact_hp: seed % 2 == 0,
            may_cancel: seed % 3 > 0,
            late_forfeits: seed % 5 == 0,
        };
        let mut host = Host::with_options(battle, options);
        for _ in 0..150 {
            let mut loaded = Host::from_bytes(&host.to_bytes()).unwrap();
            assert_eq!(loaded, host);
            let (side, number) = (dice.side(), host.number());
            let numbers = (dice.below(2) == 0).then(|| dice.numbers());
            let row = match dice.below(40) {
                0 => Row::OfferDraw { side },
                1..4 => Row::Cancel { side, number },
                4 if number > 20 => Row::Expire {
                    side,
                    number,
                    numbers,
                },
                5 if number > 30 => Row::Forfeit { side },
                _ => Row::Submit {
                    side,
                    number,
                    byte: if host.is_closed() {
                        0
                    } else {
                        dice.choice(&host, side).byte()
                    },
                    numbers,
                },
            };
            assert_eq!(loaded.apply(&row), host.apply(&row));
            for side in Side::BOTH {
                assert_eq!(sight(&loaded, side), sight(&host, side));
            }
            assert_eq!(loaded.notice().log(), host.notice().log());
        }
    }
}

/// What becomes of the bytes of a host at its first pair, with some of them replaced.
fn damaged(edits: &[(usize, u8)]) -> Result<(), String> {
    let (host, _) = table(HostOptions::default());
    let mut bytes = host.to_bytes();
    for (at, byte) in edits {
        bytes[*at] = *byte;
    }
    match Host::from_bytes(&bytes) {
        Ok(host) => {
            assert_eq!(host.to_bytes(), bytes);
            Ok(())
        }
        Err(fault) => Err(fault.field().to_string()),
    }
}

#[test]
fn bytes_of_no_host_are_refused_by_their_field() {
    // The offsets are those of the fields of gen1_host.
    let (number, length, one, two, forfeit, log) = (384, 388, 390, 391, 392, 396);
    let (teller_one, teller_two, ending) = (908, 916, 924);
    let refused: [(&[(usize, u8)], &str); 25] = [
        (&[(0, 9)], "battle"),
        (&[(1, 255), (2, 255)], "battle"),
        // At turn 1 of 1,000, with one member on each bench, 1 + 999 + 2 pairs may come, of 1,011.
        (&[(number, 10)], "number"),
        (&[(number + 3, 255)], "number"),
        (&[(length + 1, 3)], "log"),
        (&[(log, 0x1d)], "log"),
        (&[(length, 1), (length + 1, 0)], "log"),
        (&[(one, 0)], "chosen"),
        (&[(one, 0x12)], "chosen"),
        (&[(two, 0x21)], "chosen"),
        (&[(two, 7)], "chosen"),
        (&[(one, 0x11), (two, 0x11)], "chosen"),
        (&[(teller_one, 2)], "one"),
        (&[(teller_one + 1, 3)], "one"),
        (&[(teller_one + 2, 7)], "one"),
        (&[(teller_one + 3, 2)], "one"),
        (&[(teller_one + 2, 2), (teller_one + 3, 2)], "one"),
        (&[(teller_two, 1)], "two"),
        (&[(teller_two + 1, 0)], "two"),
        (&[(ending, 4)], "ending"),
        (&[(ending + 1, 3)], "draw"),
        (&[(ending + 2, 2)], "may_cancel or late_forfeits"),
        (&[(ending + 3, 2)], "may_cancel or late_forfeits"),
        (&[(forfeit, 1)], "forfeit or unused"),
        (&[(forfeit + 2, 1)], "forfeit or unused"),
    ];
    for (edits, field) in refused {
        assert_eq!(damaged(edits), Err(field.to_string()), "{edits:?}");
    }
    let accepted: [&[(usize, u8)]; 8] = [
        &[],
        &[(number, 9)],
        &[(one, 0x11)],
        &[(two, 0x22)],
        &[(teller_one + 2, 2), (teller_one + 3, 1)],
        &[(ending, 3)],
        &[(ending + 1, 2), (ending + 2, 1)],
        &[(log + 511, 200)],
    ];
    for edits in accepted {
        assert_eq!(damaged(edits), Ok(()), "{edits:?}");
    }
}
