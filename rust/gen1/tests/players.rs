//! Players: battles of a player's view are accepted and offer the same, and nothing hidden reaches a player.
use gen1::{
    AsleepBy, Battle, Choice, Conditions, DamageSource, Event, Guess, GuessFault, Host, HpForm,
    LogBuf, LogFault, MemberSpec, MoveId, Player, ReportFault, Rules, Side, Species, State, Team,
    Teller, TurnLimit, UsedMove, Volatile, Who, member,
};

/// Knuth's generator: the upper bits of its states.
struct Dice(u64);

impl Dice {
    fn below(&mut self, bound: usize) -> usize {
        self.0 = self
            .0
            .wrapping_mul(6364136223846793005)
            .wrapping_add(1442695040888963407);
        (self.0 >> 33) as usize % bound
    }

    fn numbers(&mut self) -> [u8; 10] {
        std::array::from_fn(|_| self.below(256) as u8)
    }

    fn member(&mut self) -> MemberSpec {
        let species = Species::new(1 + self.below(151) as u8).unwrap();
        let mut spec = gen1::member(species.name(), &["Struggle"]).unwrap();
        spec.moves.clear();
        spec.level = 1 + self.below(100) as u8;
        while spec.moves.len() < 4 {
            let id = MoveId::new(1 + self.below(164) as u8).unwrap();
            let is_known = spec.moves.iter().any(|(known, _)| *known == id);
            if !is_known && !matches!(id.number(), 102 | 118 | 119 | 144) {
                spec.moves.push((id, 3));
            }
        }
        spec
    }

    fn team(&mut self) -> Team {
        let count = 1 + self.below(6);
        let members: Vec<MemberSpec> = (0..count).map(|_| self.member()).collect();
        Team::new(&members).unwrap()
    }
}

/// The foe's team in the order in which its members appeared.
struct Appearance {
    specs: Vec<MemberSpec>,
    order: Vec<usize>,
}

impl Appearance {
    fn note(&mut self, place: usize) {
        if !self.order.contains(&place) {
            self.order.push(place);
        }
    }

    fn team(&self) -> Team {
        let rest = (0..self.specs.len()).filter(|at| !self.order.contains(at));
        let members: Vec<MemberSpec> = self
            .order
            .iter()
            .copied()
            .chain(rest)
            .map(|at| self.specs[at].clone())
            .collect();
        Team::new(&members).unwrap()
    }
}

#[test]
fn a_guess_has_as_many_members_as_the_foe() {
    let team = |count: usize| {
        let specs: Vec<MemberSpec> = vec![member("Tauros", &["Body Slam"]).unwrap(); count];
        Team::new(&specs).unwrap()
    };
    let mut battle = Battle::new(&team(1), &team(2), [7; 10]);
    let mut player = Player::with_foes(Side::One, &team(1), 2);
    let update = battle.update(Choice::Pass, Choice::Pass).unwrap();
    Teller::new(Side::One)
        .report(&battle, &update.log(), &mut player)
        .unwrap();
    for (count, fault) in [
        (1, Some(GuessFault::Count(2))),
        (2, None),
        (3, Some(GuessFault::Count(2))),
    ] {
        let guessed = Battle::from_player(&player, &Guess::new(team(count), [9; 10]));
        assert_eq!(guessed.err(), fault, "{count} members");
    }
}

/// Of Pikachu at level 5, whose base HP are 35, the maximum is 15 + 163 * 5 / 100 = 23 with DVs of 15 and all experience, and
/// 15 + 70 * 5 / 100 = 18 with none. Of 18, 5 HP are 13 of 48 pixels (240 / 18), and 28 hundredths. Of 23, 6 HP are 12 pixels and 7 HP are
/// 14; 6 HP are 27 hundredths, and 7 HP are 31.
#[test]
fn a_guess_can_have_the_hp_that_were_told() {
    let own = Team::new(&[member("Tauros", &["Body Slam"]).unwrap()]).unwrap();
    let mut strong = member("Pikachu", &["Surf"]).unwrap();
    strong.level = 5;
    let weak = MemberSpec {
        dvs: [0; 4],
        exp: [0; 5],
        ..strong.clone()
    };
    let foes = [strong, weak].map(|it| Team::new(&[it]).unwrap());
    assert_eq!([0, 1].map(|at| foes[at].members()[0].max_hp()), [23, 18]);
    let mut battle = Battle::new(&own, &foes[1], [9; 10]);
    battle.update_silent(Choice::Pass, Choice::Pass).unwrap();
    for (form, hp, max) in [
        (HpForm::Exact, 5, 18),
        (HpForm::Bar, 13, 48),
        (HpForm::Hundredths, 28, 100),
    ] {
        let mut player = Player::new(Side::One, &own).with_hp(form);
        // A Switch to Pikachu, which is number 25, at level 5.
        player.feed(&[2, 2, 25, 1, 5, hp, 0, max, 0, 0]).unwrap();
        player.show(&battle.own_side(Side::One), battle.offered_mask(Side::One));
        let guessed = foes
            .each_ref()
            .map(|team| Battle::from_player(&player, &Guess::new(team.clone(), [9; 10])));
        assert_eq!(guessed[0].as_ref().err(), Some(&GuessFault::Hp(1)));
        let found = guessed[1].as_ref().unwrap().state();
        assert_eq!(found.sides[1].members[0].hp, 5);
        let seen = &player.foe().members[0];
        let allowed = [10, 18, 23].map(|most| player.allows_max_hp(seen, most));
        assert_eq!(allowed, [false, true, false]);
    }
}

#[test]
fn a_battle_of_a_players_view_offers_the_same() {
    let mut dice = Dice(7);
    let mut seen = 0;
    for round in 0..150 {
        let form = HpForm::of_number(round % 3);
        let specs: [Vec<MemberSpec>; 2] =
            std::array::from_fn(|_| (0..1 + dice.below(6)).map(|_| dice.member()).collect());
        let teams = [0, 1].map(|at| Team::new(&specs[at]).unwrap());
        let rules = Rules::new(round % 4).unwrap();
        let limit = TurnLimit::new(200 + u16::from(round)).unwrap();
        let mut battle = Battle::with_limit(&teams[0], &teams[1], dice.numbers(), rules, limit);
        let mut tellers = Side::BOTH.map(|side| Teller::with_hp(side, form));
        let mut players = [0, 1].map(|at| Player::new(Side::BOTH[at], &teams[at]).with_hp(form));
        let mut foes = [1, 0].map(|at| Appearance {
            specs: specs[at].clone(),
            order: Vec::new(),
        });
        let mut pair = [Choice::Pass; 2];
        for _ in 0..60 {
            let update = battle.update(pair[0], pair[1]).unwrap();
            let state = battle.state();
            for at in 0..2 {
                foes[at].note(
                    usize::from(state.sides[1 - at].active.as_ref().unwrap().place.number()) - 1,
                );
                tellers[at]
                    .report(&battle, &update.log(), &mut players[at])
                    .unwrap();
                if battle.is_over() {
                    continue;
                }
                let guess = Guess::new(foes[at].team(), [9; 10]);
                let copy = Battle::from_player(&players[at], &guess)
                    .unwrap_or_else(|fault| panic!("{fault}: {state:#?}"));
                assert_eq!(copy.choices(Side::BOTH[at]), battle.choices(Side::BOTH[at]));
                assert_eq!((copy.rules(), copy.limit()), (rules, limit.number()));
                let copied = copy.state();
                for side in 0..2 {
                    for (own, member) in copied.sides[side]
                        .members
                        .iter()
                        .zip(&state.sides[side].members)
                    {
                        if side == at {
                            assert_eq!(
                                (own.hp, own.status, &own.moves),
                                (member.hp, member.status, &member.moves)
                            );
                        }
                    }
                }
                seen += 1;
            }
            if battle.is_over() {
                break;
            }
            pair = Side::BOTH.map(|side| {
                let choices = battle.choices(side);
                choices[dice.below(choices.len())]
            });
        }
    }
    assert!(seen > 3000, "{seen} views");
}

#[test]
fn a_player_is_given_rules_and_turn_limit() {
    let team = Team::new(&[member("Tauros", &["Body Slam"]).unwrap()]).unwrap();
    let (rules, limit) = (Rules::SLEEP_CLAUSE, TurnLimit::new(20).unwrap());
    let player = Player::new(Side::One, &team);
    assert_eq!((player.rules(), player.limit()), (Rules::NONE, 1000));
    let player = player.with_terms(rules, limit);
    assert_eq!((player.rules(), player.limit()), (rules, 20));
    // A report gives it those of the battle.
    let mut battle = Battle::with_limit(&team, &team, [9; 10], Rules::FREEZE_CLAUSE, limit);
    let update = battle.update(Choice::Pass, Choice::Pass).unwrap();
    let (mut told, mut teller) = (player, Teller::new(Side::One));
    teller.report(&battle, &update.log(), &mut told).unwrap();
    assert_eq!((told.rules(), told.limit()), (Rules::FREEZE_CLAUSE, 20));
    // A host's messages leave it those that it was given.
    let host = Host::new(Battle::with_limit(&team, &team, [9; 10], rules, limit));
    let mut player = player;
    player.receive(&host.message(Side::One)).unwrap();
    let guess = Guess::new(team, [7; 10]);
    let copy = Battle::from_player(&player, &guess).unwrap();
    assert_eq!((copy.rules(), copy.limit()), (rules, 20));
}

/// The battle with another foe of side 1: the facts that a player can't know are different.
fn with_another_foe(state: &State, dice: &mut Dice) -> State {
    let mut state = state.clone();
    state.numbers = dice.numbers();
    for member in &mut state.sides[1].members {
        for stat in &mut member.stats {
            *stat = 5 + dice.below(995) as u16;
        }
        for known in &mut member.moves {
            known.pp = dice.below(64) as u8;
        }
        member.sleep = member.sleep.map(|_| 1 + dice.below(7) as u8);
    }
    if let Some(active) = state.sides[1].active.as_mut() {
        active.stats = [0; 4];
        active.confusion = active.confusion.map(|_| 1 + dice.below(5) as u8);
        active.substitute = active.substitute.map(|_| dice.below(250) as u8);
    }
    if let Some(active) = state.sides[0].active.as_mut() {
        active.confusion = active.confusion.map(|_| 1 + dice.below(5) as u8);
    }
    for member in &mut state.sides[0].members {
        member.sleep = member.sleep.map(|_| 1 + dice.below(7) as u8);
    }
    state
}

#[test]
fn hidden_numbers_change_nothing_that_a_player_is_shown() {
    let mut dice = Dice(23);
    let mut changed = 0;
    while changed < 20_000 {
        let (one, two) = (dice.team(), dice.team());
        let mut battle = Battle::new(&one, &two, dice.numbers());
        let mut pair = [Choice::Pass; 2];
        for _ in 0..40 {
            battle.update(pair[0], pair[1]).unwrap();
            if battle.is_over() {
                break;
            }
            let other = Battle::from_state(&with_another_foe(&battle.state(), &mut dice)).unwrap();
            assert_ne!(other.as_bytes(), battle.as_bytes());
            assert_eq!(other.choices(Side::One), battle.choices(Side::One));
            let [shown, instead] =
                [&battle, &other].map(|it| format!("{:?}", it.own_side(Side::One)));
            assert_eq!(shown, instead);
            changed += 1;
            pair = Side::BOTH.map(|side| {
                let choices = battle.choices(side);
                choices[dice.below(choices.len())]
            });
        }
    }
}

#[test]
fn a_report_of_another_update_or_team_is_refused() {
    let [one, two] = ["Tauros", "Chansey"]
        .map(|name| Team::new(&[member(name, &["Strength"]).unwrap()]).unwrap());
    let mut battle = Battle::new(&one, &two, [9; 10]);
    let (mut teller, mut player) = (Teller::new(Side::One), Player::new(Side::One, &one));
    let first = battle.update(Choice::Pass, Choice::Pass).unwrap().log();
    teller.report(&battle, &first, &mut player).unwrap();
    let second = battle.update(Choice::MOVE_1, Choice::MOVE_1).unwrap().log();
    let told = teller;
    let report = |battle: &Battle, log: &[u8], player: &mut Player| {
        let (mut teller, before) = (told, format!("{player:?}"));
        let found = teller.report(battle, log, player);
        assert!(found.is_err() && teller == told && format!("{player:?}") == before);
        found
    };
    let mut other = Battle::new(&two, &one, [9; 10]);
    let theirs = other.update(Choice::Pass, Choice::Pass).unwrap().log();
    let refused = [
        (
            report(&battle, &first, &mut player),
            ReportFault::OtherUpdate,
        ),
        (report(&battle, &[], &mut player), ReportFault::OtherUpdate),
        (
            report(&battle, &theirs, &mut player),
            ReportFault::OtherUpdate,
        ),
        (report(&other, &theirs, &mut player), ReportFault::OtherTeam),
        (
            report(&battle, &second, &mut Player::new(Side::One, &two)),
            ReportFault::OtherTeam,
        ),
        (
            report(&battle, &second, &mut Player::new(Side::Two, &two)),
            ReportFault::OtherSide,
        ),
        (
            report(&battle, &[0], &mut player),
            ReportFault::Log(LogFault::UnknownTag),
        ),
    ];
    for (found, fault) in refused {
        assert_eq!(found, Err(fault));
    }
    assert_eq!(player.turn(), 1);
    teller.report(&battle, &second, &mut player).unwrap();
    assert_eq!(player.turn(), 2);
    assert_eq!(
        teller.report(&battle, &second, &mut player),
        Err(ReportFault::OtherUpdate)
    );
}

#[test]
fn a_side_is_told_neither_places_nor_exact_hp() {
    let mut dice = Dice(5);
    let members: Vec<MemberSpec> = (0..6).map(|_| dice.member()).collect();
    let team = Team::new(&members).unwrap();
    let mut battle = Battle::new(&team, &team, dice.numbers());
    let mut teller = Teller::in_pixels(Side::One);
    let mut player = Player::new(Side::One, &team);
    let log: LogBuf = battle.update(Choice::Pass, Choice::Pass).unwrap().log();
    teller.report(&battle, &log, &mut player).unwrap();
    let last = *battle.choices(Side::Two).last().unwrap();
    let update = battle.update(player.choices()[0], last).unwrap();
    teller.report(&battle, &update.log(), &mut player).unwrap();
    // The sixth member is the second that appeared.
    assert_eq!(last, Choice::from_byte(0x26).unwrap());
    assert_eq!(player.foe().place, 2);
    assert_eq!(player.foe().members[1].max, 48);
    assert_eq!(
        player.public(Side::One).members[0].max,
        team.members()[0].max_hp()
    );
}

/// Moves that announce or end conditions, some of them more than once: charging moves, then Bide, Substitute and confusion.
const ANNOUNCING: [u8; 36] = [
    13, 19, 91, 143, 117, 117, 117, 117, 117, 164, 164, 164, 164, 164, 164, 109, 109, 109, 109, 48,
    37, 99, 35, 63, 50, 86, 34, 58, 126, 114, 92, 156, 79, 73, 157, 33,
];

impl Dice {
    /// A member with four of these moves.
    fn announcer(&mut self) -> MemberSpec {
        let mut spec = self.member();
        spec.level = 100;
        spec.moves.clear();
        while spec.moves.len() < 4 {
            let id = MoveId::new(ANNOUNCING[self.below(ANNOUNCING.len())]).unwrap();
            if !spec.moves.iter().any(|(known, _)| *known == id) {
                spec.moves.push((id, 3));
            }
        }
        spec
    }
}

/// Whether a side's hit on itself, which no event reported, ended a condition of a move.
fn count_unseen(events: &[Event], before: &State, after: &State, side: usize) -> usize {
    let on = |state: &State, which| {
        let active = state.sides[side].active.as_ref();
        active.is_some_and(|it| it.conditions.has(which))
    };
    let ended = [Conditions::BIDE, Conditions::CHARGING];
    let has_ended = ended.iter().any(|it| on(before, *it) && !on(after, *it));
    let is_side = |who: &Who| who.side == Side::BOTH[side];
    let says_why = events.iter().any(|event| match event {
        Event::Move(who, ..) | Event::Cant(who, _) => is_side(who),
        Event::End(who, Volatile::Bide) | Event::Damage(who, _, DamageSource::Confusion) => {
            is_side(who)
        }
        Event::Switch(who, ..) => is_side(who),
        _ => false,
    });
    usize::from(has_ended && !says_why)
}

#[test]
fn announced_conditions_are_those_of_the_battle() {
    let mut dice = Dice(31);
    let (mut unseen, mut highest, mut longest) = (0, 0, 0);
    for _ in 0..1_000 {
        let teams = [0; 2].map(|_| Team::new(&[dice.announcer(), dice.announcer()]).unwrap());
        let mut battle = Battle::new(&teams[0], &teams[1], dice.numbers());
        let mut teller = Teller::new(Side::One);
        let mut player = Player::new(Side::One, &teams[0]);
        let mut pair = [Choice::Pass; 2];
        for _ in 0..80 {
            let before = battle.state();
            let update = battle.update(pair[0], pair[1]).unwrap();
            let state = battle.state();
            teller.report(&battle, &update.log(), &mut player).unwrap();
            for (at, side) in Side::BOTH.into_iter().enumerate() {
                let active = state.sides[at].active.as_ref().unwrap();
                let (public, on) = (player.public(side), active.conditions);
                let it = public.announced;
                for (flag, which) in [
                    (it.bide, Conditions::BIDE),
                    (it.charging, Conditions::CHARGING),
                    (public.invulnerable, Conditions::INVULNERABLE),
                    (it.toxic, Conditions::BAD_POISON),
                    (it.substitute, Conditions::SUBSTITUTE),
                    (it.confused, Conditions::CONFUSED),
                    (it.disabled, Conditions::DISABLED),
                    (it.rage, Conditions::RAGE),
                ] {
                    assert_eq!(
                        flag == 1,
                        on.has(which),
                        "{which:?} of {side:?}: {update:?}"
                    );
                }
                // Leech Seed raises the counter without an event once poison took the last HP.
                let member = state.sides[at].member_out().unwrap();
                assert!(member.hp == 0 || active.bad_poison.unwrap_or(0) == it.toxic_count);
                highest = highest.max(it.toxic_count);
                // A sleep by Rest has a count of 2, and one by a move of the foe at most 7.
                let seen = &public.members[usize::from(public.place) - 1];
                match (member.sleep, seen.asleep_by()) {
                    (Some(left), Some(AsleepBy::Rest)) => assert_eq!(left + seen.slept, 2),
                    (Some(left), _) => assert!(left + seen.slept <= 7),
                    (None, _) => assert_eq!(seen.slept, 0),
                }
                longest = longest.max(seen.slept);
                // A flinch ends recharging without an event.
                assert!(it.recharging == 1 || !on.has(Conditions::RECHARGE));
                if let (1, UsedMove::Slot(slot)) = (it.charging, active.current_move) {
                    let member = state.sides[at].member_out().unwrap();
                    let current = member.moves[usize::from(slot) - 1].id;
                    assert_eq!(public.last_move(), Some(current));
                }
                unseen += count_unseen(update.events(), &before, &state, at);
            }
            pair = Side::BOTH
                .map(|side| {
                    let choices = battle.choices(side);
                    choices.get(dice.below(choices.len().max(1))).copied()
                })
                .map(|it| it.unwrap_or(Choice::Pass));
            if battle.is_over() {
                break;
            }
        }
    }
    assert!(unseen > 0, "{unseen} hits that no event reported");
    assert!(highest > 2, "a counter of {highest} at most");
    assert_eq!(longest, 6);
}
