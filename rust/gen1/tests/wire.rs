//! Rooms, tellers, players and spectators as bytes: those of the C structs, of battles, and damaged ones.
use gen1::text::team_in_packed;
use gen1::{
    Battle, Choice, Guess, Host, HpForm, LogReader, MemberSpec, Message, MoveId, OfferedMask,
    Player, Room, Side, Species, Spectator, Team, Teller, WireFault, member,
};

/// Knuth's generator: the upper bits of its states.
struct Dice(u64);

impl Dice {
    fn below(&mut self, bound: usize) -> usize {
        self.0 = self
            .0
            .wrapping_mul(6364136223846793005)
            .wrapping_add(1442695040888963407);
        (self.0 >> 33) as usize % bound
    }

    fn numbers(&mut self) -> [u8; 10] {
        std::array::from_fn(|_| self.below(256) as u8)
    }

    fn member(&mut self) -> MemberSpec {
        let species = Species::new(1 + self.below(151) as u8).unwrap();
        let mut spec = member(species.name(), &["Struggle"]).unwrap();
        spec.moves.clear();
        spec.level = 1 + self.below(100) as u8;
        while spec.moves.len() < 4 {
            let id = MoveId::new(1 + self.below(164) as u8).unwrap();
            let is_known = spec.moves.iter().any(|(known, _)| *known == id);
            if !is_known && !matches!(id.number(), 102 | 118 | 119 | 144) {
                spec.moves.push((id, 3));
            }
        }
        spec
    }

    fn team(&mut self) -> Team {
        let count = 1 + self.below(6);
        let members: Vec<MemberSpec> = (0..count).map(|_| self.member()).collect();
        Team::new(&members).unwrap()
    }

    /// The bytes with one to three others.
    fn damage<const N: usize>(&mut self, bytes: [u8; N]) -> [u8; N] {
        let mut damaged = bytes;
        for _ in 0..1 + self.below(3) {
            let step = [1, 255, 128, 7, 200][self.below(5)];
            let at = self.below(N);
            damaged[at] = damaged[at].wrapping_add(step);
        }
        damaged
    }

    fn bytes<const N: usize>(&mut self) -> [u8; N] {
        std::array::from_fn(|_| self.below(256) as u8)
    }
}

/// A room with all that follow it: the tellers and players of both sides, and a spectator. HP is reported to side 2 in 48ths.
struct Table {
    teams: [Team; 2],
    room: Room,
    tellers: [Teller; 2],
    players: [Player; 2],
    spectator: Spectator,
}

impl Table {
    fn new(teams: [Team; 2], numbers: [u8; 10]) -> Self {
        let [one, two] = &teams;
        let mut table = Table {
            room: Room::new(Battle::new(one, two, numbers)),
            tellers: [
                Teller::with_hp(Side::One, HpForm::Exact),
                Teller::new(Side::Two),
            ],
            players: [
                Player::with_foes(Side::One, one, 2).with_hp(HpForm::Exact),
                Player::new(Side::Two, two),
            ],
            spectator: Spectator::new(one, two),
            teams,
        };
        table.tell();
        table
    }

    fn tell(&mut self) {
        let (log, battle) = (self.room.log().to_vec(), self.room.battle());
        for (teller, player) in self.tellers.iter_mut().zip(&mut self.players) {
            let side = player.side();
            player.feed(&teller.tell_log(&log).unwrap()).unwrap();
            player.show(&battle.own_side(side), battle.offered_mask(side));
        }
        self.spectator.follow(&mut LogReader::new(), &log).unwrap();
    }

    /// Submits a side's choice, and reports the pair's log if that ended one.
    fn submit(&mut self, side: Side, choice: Choice) {
        let number = self.room.number();
        self.room.submit(side, number, choice).unwrap();
        if self.room.number() > number {
            self.tell();
        }
    }

    fn all_bytes(&self) -> Vec<u8> {
        let mut all = self.room.to_bytes().to_vec();
        self.tellers.iter().for_each(|it| all.extend(it.to_bytes()));
        self.players.iter().for_each(|it| all.extend(it.to_bytes()));
        all.extend(self.spectator.to_bytes());
        all
    }

    /// A copy of the table, from its bytes.
    fn restored(&self) -> Table {
        let [one, two] = &self.players;
        let players = [one, two].map(|it| Player::from_bytes(&it.to_bytes()).unwrap());
        let tellers = self
            .tellers
            .map(|it| Teller::from_bytes(&it.to_bytes()).unwrap());
        Table {
            teams: self.teams.clone(),
            room: Room::from_bytes(&self.room.to_bytes()).unwrap(),
            tellers,
            players,
            spectator: Spectator::from_bytes(&self.spectator.to_bytes()).unwrap(),
        }
    }
}

/// FNV-1a.
fn hash(before: u64, bytes: &[u8]) -> u64 {
    bytes.iter().fold(before, |hash, byte| {
        (hash ^ u64::from(*byte)).wrapping_mul(0x0000_0100_0000_01b3)
    })
}

fn known_table() -> Table {
    let one = "Tauros||||BodySlam,HyperBeam,Blizzard,Earthquake|||||||]Chansey||||IceBeam,Thunderbolt,SoftBoiled|||||||";
    let two =
        "Gengar||||Hypnosis,Dig,NightShade|||||||]Snorlax||||BodySlam,Substitute,Amnesia|||||||";
    let teams = [one, two].map(|text| team_in_packed(text.as_bytes()).unwrap());
    Table::new(teams, [1, 36, 255, 7, 31, 100, 179, 254, 127, 10])
}

/// The number is that of the structs which the C library wrote in the same battle, read by Python (test_players.py) and JavaScript
/// (test/hosts.mjs).
#[test]
fn the_bytes_are_those_of_the_c_structs() {
    let mut table = known_table();
    let mut all = hash(0xcbf2_9ce4_8422_2325, &table.all_bytes());
    let mut pairs = 0;
    while !table.room.result().outcome.is_over() {
        for side in Side::BOTH {
            let choices = table.room.choices(side);
            if choices.is_empty() {
                continue;
            }
            table.submit(
                side,
                choices[(pairs + usize::from(side.number())) % choices.len()],
            );
            all = hash(all, &table.all_bytes());
        }
        pairs += 1;
    }
    let mut room = known_table().room;
    room.forfeit(Side::Two).unwrap();
    assert_eq!(pairs, 25);
    assert_eq!(hash(all, &room.to_bytes()), 0x3895_a045_3eaa_0160);
}

/// Random battles to their end: at each step a table from bytes is the one that was stored, and continues as it does.
#[test]
fn tables_from_bytes_go_on() {
    for seed in 0..40 {
        let mut dice = Dice(seed);
        let mut table = Table::new([dice.team(), dice.team()], dice.numbers());
        for _ in 0..120 {
            let mut restored = table.restored();
            assert_eq!(restored.all_bytes(), table.all_bytes());
            assert_eq!(restored.room, table.room);
            assert!(restored.spectator == table.spectator);
            let side = Side::BOTH[dice.below(2)];
            let choices = table.room.choices(side);
            if dice.below(60) == 0 {
                assert_eq!(restored.room.forfeit(side), table.room.forfeit(side));
            } else if !choices.is_empty() {
                let choice = choices[dice.below(choices.len())];
                table.submit(side, choice);
                restored.submit(side, choice);
            }
            assert_eq!(restored.all_bytes(), table.all_bytes());
        }
    }
}

/// A player within an event continues in another process.
#[test]
fn a_player_within_an_event_goes_on() {
    let mut table = known_table();
    table.submit(Side::One, Choice::MOVE_1);
    table.submit(Side::Two, Choice::MOVE_3);
    let log = table.tellers[0].tell_log(table.room.log()).unwrap();
    for cut in 0..log.len() {
        let (mut whole, mut cut_in_two) = (table.players[0], table.players[0]);
        whole.feed(&log).unwrap();
        cut_in_two.feed(&log[..cut]).unwrap();
        let mut restored = Player::from_bytes(&cut_in_two.to_bytes()).unwrap();
        restored.feed(&log[cut..]).unwrap();
        assert_eq!(restored.to_bytes(), whole.to_bytes());
    }
}

/// The name of a field, and replacements of bytes that put it out of its range; "" where they are accepted.
type Cases = &'static [(&'static str, &'static [&'static [(usize, u8)]])];

const OF_A_PLAYER: Cases = {
    const OWN: usize = 0;
    const FOE: usize = 146;
    const KNOWN: usize = 292;
    const SHOWN: usize = 296;
    &[
        (
            "",
            &[
                &[],
                &[(OWN, 0), (OWN + 1, 0)],
                &[(475, 2)],
                &[(474, 3)],
                &[(470, 15), (471, 39)],
            ],
        ),
        ("hp", &[&[(OWN + 1, 3)], &[(FOE, 255), (FOE + 1, 1)]]),
        (
            "max",
            &[
                &[(OWN + 3, 4)],
                &[(FOE, 0), (FOE + 1, 0), (FOE + 2, 10), (FOE + 3, 0)],
            ],
        ),
        (
            "species",
            &[
                &[(OWN + 4, 152)],
                &[(OWN + 4, 0)],
                &[(FOE + 20, 1)],
                &[(SHOWN, 152)],
                &[(SHOWN, 0)],
            ],
        ),
        (
            "level",
            &[
                &[(OWN + 5, 101)],
                &[(OWN + 5, 0)],
                &[(SHOWN + 1, 101)],
                &[(SHOWN + 1, 0)],
            ],
        ),
        ("status", &[&[(FOE + 6, 6)], &[(SHOWN + 2, 6)]]),
        ("id", &[&[(FOE + 7, 166)], &[(FOE + 15, 166)]]),
        ("uses", &[&[(FOE + 16, 1)]]),
        ("asleep_by", &[&[(FOE + 17, 4)]]),
        ("slept", &[&[(FOE + 18, 7)]]),
        (
            "unused",
            &[&[(FOE + 145, 1)], &[(SHOWN + 3, 1)], &[(487, 1)]],
        ),
        ("hp_form", &[&[(475, 3)]]),
        ("rules", &[&[(474, 4)]]),
        ("limit", &[&[(470, 0), (471, 0)], &[(470, 16), (471, 39)]]),
        ("substitute", &[&[(FOE + 120, 2)]]),
        ("toxic_count", &[&[(FOE + 128, 65)]]),
        ("recharging", &[&[(OWN + 133, 2)]]),
        (
            "stages",
            &[&[(FOE + 134, 13)], &[(FOE + 139, 13)], &[(SHOWN + 161, 13)]],
        ),
        (
            "place",
            &[
                &[(FOE + 140, 7)],
                &[(FOE + 140, 2)],
                &[(SHOWN + 158, 3)],
                &[(SHOWN + 158, 7)],
            ],
        ),
        ("first_type", &[&[(FOE + 141, 15)]]),
        ("second_type", &[&[(FOE + 142, 15)]]),
        ("last_move", &[&[(FOE + 143, 166)]]),
        ("invulnerable", &[&[(FOE + 144, 2)]]),
        (
            "turn",
            &[
                &[(KNOWN, 16), (KNOWN + 1, 39)],
                &[(SHOWN + 156, 16), (SHOWN + 157, 39)],
            ],
        ),
        ("outcome", &[&[(KNOWN + 2, 6)], &[(SHOWN + 170, 6)]]),
        ("may_hit_itself", &[&[(KNOWN + 3, 3)]]),
        ("moves", &[&[(SHOWN + 4, 166)]]),
        ("pp", &[&[(SHOWN + 8, 64)]]),
        (
            "max_hp",
            &[&[
                (SHOWN + 12, 0),
                (SHOWN + 13, 0),
                (SHOWN + 14, 10),
                (SHOWN + 15, 0),
            ]],
        ),
        (
            "stats",
            &[
                &[(SHOWN + 17, 4)],
                &[(SHOWN + 16, 4), (SHOWN + 17, 0)],
                &[(SHOWN + 148, 0), (SHOWN + 149, 0)],
            ],
        ),
        ("conditions", &[&[(SHOWN + 144, 8)], &[(SHOWN + 146, 2)]]),
        ("types", &[&[(SHOWN + 159, 15)]]),
        ("disabled_slot", &[&[(SHOWN + 167, 5)]]),
        (
            "held",
            &[
                &[(SHOWN + 168, 2)],
                &[(477, 1)],
                &[(476, 1), (477, 29)],
                &[(476, 1), (477, 0x1b)],
            ],
        ),
        ("request", &[&[(SHOWN + 169, 3)]]),
        ("count", &[&[(SHOWN + 171, 7)], &[(SHOWN + 171, 0)]]),
        (
            "members",
            &[
                &[(SHOWN + 171, 1), (SHOWN + 158, 1)],
                &[(SHOWN + 24 * 2 + 12, 1)],
            ],
        ),
        ("offered", &[&[(469, 16)], &[(468, 255), (469, 3)]]),
        ("side", &[&[(472, 0)], &[(472, 3)]]),
        ("foes", &[&[(473, 7)]]),
        ("held_count", &[&[(476, 10)]]),
    ]
};

const OF_A_TELLER: Cases = {
    &[
        ("", &[&[], &[(3, 2)], &[(2, 0)], &[(2, 6), (3, 5)]]),
        ("side", &[&[(0, 0)], &[(0, 3)]]),
        ("pixels", &[&[(1, 3)]]),
        (
            "places",
            &[&[(2, 7)], &[(3, 1)], &[(2, 0), (3, 1)], &[(7, 2)]],
        ),
    ]
};

const OF_A_SPECTATOR: Cases = {
    const TWO: usize = 36;
    &[
        ("", &[&[], &[(0, 0), (1, 0)], &[(TWO + 2, 5)], &[(25, 0)]]),
        ("hp", &[&[(1, 4)], &[(TWO + 5, 4)]]),
        ("status", &[&[(2, 6)]]),
        ("reserved", &[&[(TWO + 3, 1)]]),
        ("members", &[&[(TWO + 8, 1)], &[(24, 1)]]),
        (
            "count",
            &[&[(24, 7)], &[(24, 0), (0, 0), (1, 0), (4, 0), (5, 0)]],
        ),
        ("place", &[&[(25, 3)], &[(TWO + 25, 7)]]),
        ("stages", &[&[(26, 13)], &[(TWO + 31, 13)]]),
        ("substitute", &[&[(32, 2)]]),
        ("confused", &[&[(33, 2)]]),
        ("light_screen", &[&[(34, 2)]]),
        ("reflect", &[&[(TWO + 35, 2)]]),
        ("turn", &[&[(72, 16), (73, 39)]]),
        ("outcome", &[&[(74, 6)]]),
        ("held_count", &[&[(75, 1), (76, 1)], &[(75, 10)]]),
        ("held", &[&[(76, 1)]]),
    ]
};

const OF_A_ROOM: Cases = {
    const NUMBER: usize = 384;
    const LENGTH: usize = 388;
    const ONE: usize = 390;
    const TWO: usize = 391;
    const SIDE: usize = 392;
    const UNUSED: usize = 393;
    const LOG: usize = 396;
    &[
        (
            "",
            &[
                &[],
                &[(NUMBER, 9)],
                &[(ONE, 0x14)],
                &[(TWO, 0x22)],
                &[(LOG + 511, 200)],
            ],
        ),
        ("battle", &[&[(0, 9)], &[(1, 255), (2, 255)]]),
        ("number", &[&[(NUMBER, 10)], &[(NUMBER + 3, 255)]]),
        (
            "log",
            &[
                &[(LENGTH + 1, 3)],
                &[(LOG, 0x1d)],
                &[(LENGTH, 1), (LENGTH + 1, 0)],
            ],
        ),
        (
            "chosen",
            &[
                &[(ONE, 0)],
                &[(ONE, 0x15)],
                &[(TWO, 0x21)],
                &[(TWO, 7)],
                &[(ONE, 0x11), (TWO, 0x11)],
            ],
        ),
        // A room with a forfeit that nobody made, with a choice missing.
        ("number", &[&[(SIDE, 1)]]),
        ("chosen", &[&[(SIDE, 1), (NUMBER, 1)]]),
        ("forfeit", &[&[(SIDE, 3)]]),
        ("unused", &[&[(UNUSED, 1)], &[(UNUSED + 2, 1)]]),
    ]
};

const OF_A_LOST_ROOM: Cases = {
    const NUMBER: usize = 384;
    const LENGTH: usize = 388;
    const ONE: usize = 390;
    const TWO: usize = 391;
    const SIDE: usize = 392;
    const UNUSED: usize = 393;
    const LOG: usize = 396;
    &[
        // Another pair, the other SIDE with its event, and bytes after the LOG.
        (
            "",
            &[
                &[],
                &[(NUMBER, 10)],
                &[(SIDE, 2), (LOG + 1, 1)],
                &[(LOG + 2, 77)],
            ],
        ),
        ("number", &[&[(NUMBER, 0)], &[(NUMBER, 11)]]),
        (
            "log",
            &[
                &[(LOG + 1, 1)],
                &[(SIDE, 2)],
                &[(LENGTH, 0)],
                &[(LENGTH, 3)],
                &[(LOG, 0x1b)],
            ],
        ),
        ("chosen", &[&[(ONE, 255)], &[(TWO, 0x11)]]),
        ("chosen", &[&[(SIDE, 0)]]),
        ("forfeit", &[&[(SIDE, 3)]]),
        ("unused", &[&[(UNUSED + 1, 1)]]),
    ]
};

/// The names of the fields that are refused with some of the bytes replaced; "" where they are accepted.
fn refused<const N: usize, T>(
    bytes: [u8; N],
    from: fn(&[u8; N]) -> Result<T, WireFault>,
    edits: &[&[(usize, u8)]],
) -> Vec<&'static str> {
    let field = |edit: &&[(usize, u8)]| {
        let mut damaged = bytes;
        edit.iter().for_each(|(at, byte)| damaged[*at] = *byte);
        from(&damaged).map_or_else(|fault| fault.field(), |_| "")
    };
    edits.iter().map(field).collect()
}

/// One step out of each range of gen1_player. The offsets are those of include/gen1.h: 18 bytes of each member, 132 of each side.
#[test]
fn each_field_of_a_player_has_its_range() {
    let mut table = known_table();
    table.submit(Side::One, Choice::MOVE_1);
    table.submit(Side::Two, Choice::MOVE_1);
    let cases = OF_A_PLAYER;
    for (field, edits) in cases {
        let found = refused(table.players[0].to_bytes(), Player::from_bytes, edits);
        assert!(found.iter().all(|it| it == field), "{field}: {found:?}");
    }
}

#[test]
fn each_field_of_a_teller_and_of_a_spectator_has_its_range() {
    let table = known_table();
    let cases = OF_A_TELLER;
    for (field, edits) in cases {
        let found = refused(table.tellers[0].to_bytes(), Teller::from_bytes, edits);
        assert!(found.iter().all(|it| it == field), "{field}: {found:?}");
    }
    let cases = OF_A_SPECTATOR;
    for (field, edits) in cases {
        let found = refused(table.spectator.to_bytes(), Spectator::from_bytes, edits);
        assert!(found.iter().all(|it| it == field), "{field}: {found:?}");
    }
}

/// Those of gen1_room: at turn 1 of 1,000 with one member on each bench, 1 + 999 + 2 pairs may come, of 1,011.
#[test]
fn bytes_of_no_room_are_refused_by_their_field() {
    let cases = OF_A_ROOM;
    for (field, edits) in cases {
        let found = refused(known_table().room.to_bytes(), Room::from_bytes, edits);
        assert!(found.iter().all(|it| it == field), "{field}: {found:?}");
    }
    let mut lost = known_table().room;
    lost.submit(Side::One, 0, Choice::MOVE_1).unwrap();
    lost.forfeit(Side::One).unwrap();
    let cases = OF_A_LOST_ROOM;
    for (field, edits) in cases {
        let found = refused(lost.to_bytes(), Room::from_bytes, edits);
        assert!(found.iter().all(|it| it == field), "{field}: {found:?}");
    }
}

/// Nobody forfeits a battle that is over.
#[test]
fn a_room_that_is_over_has_no_forfeit() {
    let mut table = known_table();
    while !table.room.result().outcome.is_over() {
        for side in Side::BOTH {
            if let Some(choice) = table.room.choices(side).first() {
                table.submit(side, *choice);
            }
        }
    }
    let (winner, bytes) = (table.room.result().outcome, table.room.to_bytes());
    let mut forfeited = bytes;
    forfeited[392] = 1;
    forfeited[388..390].copy_from_slice(&[2, 0]);
    forfeited[396..398].copy_from_slice(&[0x1a, 2]);
    assert_eq!(Room::from_bytes(&bytes).unwrap().result().outcome, winner);
    assert_eq!(Room::from_bytes(&forfeited).unwrap_err().field(), "forfeit");
}

/// A mask has at most nine choices, so that a player can list them; a message with twelve would be one too many.
#[test]
fn a_mask_has_at_most_nine_choices() {
    for bits in 0..=u16::MAX {
        let is_mask = bits < 4096 && bits.count_ones() <= 9;
        let mask = OfferedMask::from_bits(bits);
        assert_eq!(mask.map(OfferedMask::bits), is_mask.then_some(bits));
    }
    let [one, two] = known_table().teams;
    let mut bytes = Host::new(Battle::new(&one, &two, [0; 10]))
        .message(Side::One)
        .to_bytes();
    bytes[176..178].copy_from_slice(&[0xff, 0x0f]);
    assert_eq!(Message::from_bytes(&bytes).unwrap_err().field(), "offered");
}

/// Everything that a program may ask a player.
fn looked_at(player: &Player, guess: &Guess) -> usize {
    let members = Side::BOTH.map(|side| {
        let public = player.public(side);
        let known = public
            .members
            .iter()
            .map(|it| it.moves().count())
            .sum::<usize>();
        known + public.types().len() + usize::from(public.member_out().is_some())
    });
    let own = player
        .own()
        .members
        .iter()
        .map(|it| it.moves().count())
        .sum::<usize>();
    let shown = format!(
        "{player:?}{:?}{:?}",
        player.own(),
        player.own().member_out()
    );
    let forked = Battle::from_player(player, guess).is_ok();
    members[0] + members[1] + own + shown.len() + player.choices().len() + usize::from(forked)
}

/// Asks at each of 12,500 steps of random battles what is accepted of damaged bytes, and how many are.
fn at_each_step(mut accepted: impl FnMut(&mut Dice, &Table) -> usize) {
    let mut dice = Dice(81);
    let mut table = Table::new([dice.team(), dice.team()], dice.numbers());
    let mut count = 0;
    for step in 0..12_500 {
        let side = Side::BOTH[dice.below(2)];
        let choices = table.room.choices(side);
        if table.room.result().outcome.is_over() || step % 200 == 0 {
            table = Table::new([dice.team(), dice.team()], dice.numbers());
        } else if !choices.is_empty() {
            table.submit(side, choices[dice.below(choices.len())]);
        }
        count += accepted(&mut dice, &table);
    }
    assert!(count > 400, "{count}");
}

#[test]
fn no_bytes_of_a_player_panic() {
    at_each_step(|dice, table| {
        let seat = dice.below(2);
        let guess = Guess::new(table.teams[1 - seat].clone(), [9; 10]);
        let all = [dice.damage(table.players[seat].to_bytes()), dice.bytes()];
        let players: Vec<_> = all.iter().flat_map(Player::from_bytes).collect();
        for player in &players {
            assert!(all.contains(&player.to_bytes()));
            assert!(looked_at(player, &guess) > 0);
        }
        players.len()
    });
}

#[test]
fn no_bytes_of_a_room_panic() {
    at_each_step(|dice, table| {
        let all = [dice.damage(table.room.to_bytes()), dice.bytes()];
        let mut rooms: Vec<_> = all.iter().flat_map(Room::from_bytes).collect();
        for room in &mut rooms {
            assert!(all.contains(&room.to_bytes()));
            for side in Side::BOTH {
                if let Some(choice) = room.choices(side).last() {
                    room.submit(side, room.number(), *choice).unwrap();
                }
            }
        }
        rooms.len()
    });
}

#[test]
fn no_bytes_of_a_teller_or_a_spectator_panic() {
    at_each_step(|dice, table| {
        let log = table.room.log();
        let all = [dice.damage(table.tellers[0].to_bytes()), dice.bytes()];
        let mut tellers: Vec<_> = all.iter().flat_map(Teller::from_bytes).collect();
        for teller in &mut tellers {
            assert!(all.contains(&teller.to_bytes()));
            teller.tell_log(log).unwrap();
        }
        let all = [dice.damage(table.spectator.to_bytes()), dice.bytes()];
        let mut spectators: Vec<_> = all.iter().flat_map(Spectator::from_bytes).collect();
        for spectator in &mut spectators {
            assert!(all.contains(&spectator.to_bytes()));
            spectator.follow(&mut LogReader::new(), log).unwrap();
        }
        tellers.len() + spectators.len()
    });
}

#[cfg(feature = "serde")]
#[test]
fn serde_stores_the_bytes() {
    use serde_json::{Value, from_value, json, to_value};
    let table = known_table();
    let bytes = |value: &[u8]| json!(value);
    let stored: Value = to_value(&table.room).unwrap();
    assert_eq!(stored, bytes(&table.room.to_bytes()));
    assert_eq!(from_value::<Room>(stored).unwrap(), table.room);
    let stored: Value = to_value(table.players[1]).unwrap();
    let again: Player = from_value(stored).unwrap();
    assert_eq!(again.to_bytes(), table.players[1].to_bytes());
    let stored: Value = to_value(table.tellers[1]).unwrap();
    assert_eq!(stored, json!([2, 1, 1, 0, 0, 0, 0, 0]));
    assert_eq!(from_value::<Teller>(stored).unwrap(), table.tellers[1]);
    let stored: Value = to_value(&table.spectator).unwrap();
    assert!(from_value::<Spectator>(stored).unwrap() == table.spectator);
    for wrong in [json!([3, 0, 0, 0, 0, 0, 0, 0]), json!([1, 0]), json!("")] {
        assert!(from_value::<Teller>(wrong).is_err());
    }
    let mask = table.room.battle().offered_mask(Side::One);
    assert_eq!(json!(mask), json!([0x11, 0x12, 0x13, 0x14, 0x22]));
    assert_eq!(from_value::<OfferedMask>(json!(mask)).unwrap(), mask);
    for wrong in [
        json!([0x15]),
        json!([0, 16, 17, 18, 19, 20, 33, 34, 35, 36]),
    ] {
        assert!(from_value::<OfferedMask>(wrong).is_err());
    }
}
