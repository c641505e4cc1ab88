//! Values that are known without the solver, and what the bot may and may not know.
use gen1::{
    Battle, Choice, Guess, HpForm, OutcomeOptions, Player, Side, Team, Teller, TurnLimit, member,
};
use gen1_search::leaf::{self, MatchUps};
use gen1_search::matrix::best_play;
use gen1_search::playout::Policy;
use gen1_search::{
    Dice, Pp, Prior, PriorFault, SolveFault, SolveOptions, Solver, Stopped, TableFault, ThinkFault,
    ThinkOptions, Thought, think,
};

fn team(level: u8, members: &[(&str, &[&str])]) -> Team {
    let specs: Vec<_> = members
        .iter()
        .map(|(species, moves)| {
            let mut spec = member(species, moves).unwrap();
            spec.level = level;
            spec
        })
        .collect();
    Team::new(&specs).unwrap()
}

/// A battle of one against one that has begun.
fn duel(level: u8, one: (&str, &[&str]), two: (&str, &[&str])) -> Battle {
    let mut battle = Battle::new(&team(level, &[one]), &team(level, &[two]), [0; 10]);
    battle.update_silent(Choice::Pass, Choice::Pass).unwrap();
    battle
}

fn with_hp(battle: &Battle, one: u16, two: u16) -> Battle {
    let first = battle.choices(Side::One)[0];
    assert_ne!(first, Choice::Pass);
    let place = gen1::Place::new(1).unwrap();
    let battle = battle.with_hp(Side::One, place, one).unwrap();
    battle.with_hp(Side::Two, place, two).unwrap()
}

fn endless() -> SolveOptions {
    let mut options = SolveOptions::default();
    options.pp = Pp::Endless;
    options
}

fn solved(battle: &Battle, options: SolveOptions) -> Solver {
    let mut solver = Solver::new(battle, options).unwrap();
    assert_eq!(solver.run(|_| true), Ok(Stopped::Solved));
    solver
}

/// The duel of examples/python/duel.
fn tauros() -> Battle {
    let tauros = ("Tauros", ["Body Slam", "Hyper Beam", "Blizzard"].as_slice());
    duel(5, tauros, tauros)
}

#[test]
fn a_two_by_two_game_has_the_value_of_its_formula() {
    // Without a best pure play the value of [[a, b], [c, d]] is (ad - bc) / (a + d - b - c).
    let mut dice = Dice::new(1);
    let mut mixed = 0;
    for _ in 0..2000 {
        let [a, b, c, d] = [(); 4].map(|()| dice.share());
        let play = best_play(&[a, b, c, d], 2);
        assert!(play.high - play.low < 1e-12);
        if (a > b) == (d > c) && (a > c) == (d > b) {
            mixed += 1;
            let value = (a * d - b * c) / (a + d - b - c);
            assert!((play.low - value).abs() < 1e-9);
        }
    }
    assert!(mixed > 500);
}

#[test]
fn plays_of_any_game_secure_the_same_value() {
    let mut dice = Dice::new(2);
    for round in 0..2000 {
        let (rows, columns) = (1 + dice.below(9), 1 + dice.below(9));
        // Half of the games have many equal entries.
        let entries: Vec<f64> = (0..rows * columns)
            .map(|_| {
                if round % 2 == 0 {
                    dice.share()
                } else {
                    dice.below(3) as f64 / 2.0
                }
            })
            .collect();
        let play = best_play(&entries, columns);
        assert!(
            (play.high - play.low).abs() < 1e-9,
            "{entries:?} {columns} {play:?}"
        );
        assert!((play.one.iter().sum::<f64>() - 1.0).abs() < 1e-9);
        assert!((play.two.iter().sum::<f64>() - 1.0).abs() < 1e-9);
    }
}

#[test]
fn the_faster_side_wins_with_a_move_that_never_misses() {
    let battle = with_hp(
        &duel(100, ("Starmie", &["Swift"]), ("Snorlax", &["Body Slam"])),
        1,
        1,
    );
    let value = solved(&battle, SolveOptions::default())
        .value(&battle)
        .unwrap();
    assert!(value.contains(1.0) && value.width() < 1e-6);
}

/// Each hits with 255 of 256 bytes and then wins. With q = 1/256 for a miss, v = (1 - q) + q q v, so v = 1 / (1 + q) = 256 / 257.
#[test]
fn last_hits_that_may_miss() {
    let battle = with_hp(
        &duel(100, ("Starmie", &["Surf"]), ("Snorlax", &["Body Slam"])),
        1,
        1,
    );
    for options in [SolveOptions::default(), endless()] {
        let value = solved(&battle, options).value(&battle).unwrap();
        assert!(value.contains(256.0 / 257.0) && value.width() < 1e-6);
    }
}

#[test]
fn equal_sides_win_half_of_the_time() {
    let (one, two) = (
        ("Persian", ["Slash", "Bite"].as_slice()),
        ("Persian", ["Slash", "Bite"].as_slice()),
    );
    let battle = with_hp(&duel(100, one, two), 90, 90);
    let value = solved(&battle, endless()).value(&battle).unwrap();
    assert!(value.contains(0.5) && value.width() < 1e-6);
}

/// The table of examples/README.md, to its four digits.
#[test]
fn the_duel_at_level_5_has_the_values_of_its_table() {
    let battle = tauros();
    let mut options = endless();
    options.tolerance = 1e-7;
    let solver = solved(&battle, options);
    let groups = [27..=27, 18..=18, 11..=17, 1..=10];
    let rows = [
        [0.5, 0.8745, 0.9069, 0.9357],
        [0.1255, 0.5, 0.5199, 0.5689],
        [0.0931, 0.4801, 0.5, 0.5508],
        [0.0643, 0.4311, 0.4492, 0.5],
    ];
    let mut compared = [[0; 4]; 4];
    for (at, row) in rows.iter().enumerate() {
        for (to, value) in row.iter().enumerate() {
            let pairs = groups[at]
                .clone()
                .flat_map(|one| groups[to].clone().map(move |two| (one, two)));
            for found in pairs.filter_map(|(one, two)| solver.value(&with_hp(&battle, one, two))) {
                assert!((found.low - value).abs() < 6e-5, "{at} {to} {found:?}");
                assert!((found.high - value).abs() < 6e-5, "{at} {to} {found:?}");
                compared[at][to] += 1;
            }
        }
    }
    assert!(
        compared.iter().flatten().all(|count| *count > 0),
        "{compared:?}"
    );
    plays_end_inside_the_interval(&solver, &battle);
}

/// Battles by the strategies that the solver gives end as often as it says.
fn plays_end_inside_the_interval(solver: &Solver, start: &Battle) {
    let start = with_hp(start, 27, 18);
    let (mut dice, mut sum, count) = (Dice::new(5), 0.0, 1500);
    let mut known = std::collections::HashMap::new();
    for _ in 0..count {
        let mut battle = start.clone();
        while !battle.is_over() {
            let key = solver.key(&battle).unwrap();
            let play = known
                .entry(key)
                .or_insert_with(|| solver.play(&battle).unwrap().unwrap());
            let [ones, twos] = Side::BOTH.map(|side| battle.choices(side));
            let pair = (
                ones[dice.pick(&play.one[..ones.len()])],
                twos[dice.pick(&play.two[..twos.len()])],
            );
            battle.reseed(dice.numbers());
            battle.update_silent(pair.0, pair.1).unwrap();
        }
        sum += match battle.outcome().winner() {
            Some(Side::One) => 1.0,
            Some(Side::Two) => 0.0,
            None => 0.5,
        };
    }
    let (value, mean) = (solver.value(&start).unwrap(), sum / f64::from(count));
    let spread = 4.0 * (0.25 / f64::from(count)).sqrt();
    assert!(
        (value.low - spread..=value.high + spread).contains(&mean),
        "{value:?} {mean}"
    );
}

/// Without draws left out, without memory for all positions, and after one sweep: the value is in every interval.
#[test]
fn what_is_not_searched_is_in_the_interval() {
    let battle = tauros();
    let mut few = endless();
    few.outcomes = OutcomeOptions::new().with_least_probability(1e-4).unwrap();
    let mut solver = Solver::new(&battle, few).unwrap();
    solver.run(|_| true).unwrap();
    let left_out = solver.value(&battle).unwrap();
    assert!(
        left_out.contains(0.5) && (1e-6..0.5).contains(&left_out.width()),
        "{left_out:?}"
    );
    let mut small = endless();
    small.memory = 300_000;
    let mut solver = Solver::new(&battle, small).unwrap();
    assert_eq!(solver.run(|_| true), Ok(Stopped::Memory));
    assert!(solver.value(&battle).unwrap().contains(0.5));
    let mut solver = Solver::new(&battle, endless()).unwrap();
    assert_eq!(
        solver.run(|progress| progress.sweeps < 1),
        Ok(Stopped::Asked)
    );
    let early = solver.value(&battle).unwrap();
    assert!(early.contains(0.5) && early.width() > 0.5);
    // A run continues where it was stopped.
    assert_eq!(solver.run(|_| true), Ok(Stopped::Solved));
}

/// The value of a battle of one pair of choices a turn, by going through all outcomes up to its turn limit.
fn by_hand(battle: &Battle) -> f64 {
    if battle.is_over() {
        return match battle.outcome().winner() {
            Some(Side::One) => 1.0,
            Some(Side::Two) => 0.0,
            None => 0.5,
        };
    }
    let [one, two] = Side::BOTH.map(|side| battle.choices(side)[0]);
    let list = battle.outcomes(one, two).unwrap();
    list.iter()
        .map(|(after, probability)| probability * by_hand(&after))
        .sum()
}

#[test]
fn the_interval_holds_for_a_battle_near_its_turn_limit() {
    let (one, two) = (
        team(5, &[("Abra", &["Mega Punch"])]),
        team(5, &[("Gastly", &["Lick"])]),
    );
    let limit = TurnLimit::try_from(4).unwrap();
    let mut battle = Battle::with_limit(&one, &two, [0; 10], gen1::Rules::NONE, limit);
    battle.update_silent(Choice::Pass, Choice::Pass).unwrap();
    let mut solver = Solver::new(&battle, SolveOptions::default()).unwrap();
    let stopped = solver.run(|_| true).unwrap();
    assert!(stopped == Stopped::Sweeps && solver.progress().sweeps == 3);
    let value = solver.value(&battle).unwrap();
    assert!(
        value.contains(by_hand(&battle)) && value.width() > 0.0,
        "{value:?}"
    );
}

#[test]
fn a_battle_that_never_ends_has_no_value() {
    let splash = ("Magikarp", ["Splash"].as_slice());
    let battle = duel(100, splash, splash);
    let mut solver = Solver::new(&battle, endless()).unwrap();
    assert_eq!(solver.run(|_| true), Ok(Stopped::Endless));
    let value = solver.value(&battle).unwrap();
    assert_eq!((value.low, value.high), (0.0, 1.0));
    let mut over = Battle::new(&team(5, &[splash]), &team(5, &[splash]), [0; 10]);
    over = Battle::from_bytes(over.as_bytes()).unwrap();
    over.update_silent(Choice::Pass, Choice::Pass).unwrap();
    while !over.is_over() {
        let [one, two] = Side::BOTH.map(|side| over.choices(side)[0]);
        over.update_silent(one, two).unwrap();
    }
    assert_eq!(Solver::new(&over, endless()).unwrap_err(), SolveFault::Over);
}

#[test]
fn a_table_is_stored_and_resumed() {
    let battle = with_hp(&tauros(), 18, 18);
    let solver = solved(&battle, endless());
    let table = solver.table();
    let mut loaded = Solver::load(&table, endless()).unwrap();
    assert_eq!(loaded.value(&battle), solver.value(&battle));
    assert_eq!(loaded.play(&battle), solver.play(&battle));
    assert_eq!(loaded.table(), table);
    assert_eq!(loaded.run(|_| true), Ok(Stopped::Solved));
    // A battle of other members is not in it.
    assert_eq!(
        loaded.value(&duel(5, ("Mew", &["Surf"]), ("Mew", &["Surf"]))),
        None
    );
    let fault = |table: &[u8]| Solver::load(table, endless()).unwrap_err();
    assert_eq!(fault(b"gen1sol2"), TableFault::NoTable);
    assert_eq!(fault(&table[..table.len() - 1]), TableFault::Length);
    assert_eq!(fault(&table[..100]), TableFault::Length);
    let mut wrong = table.clone();
    wrong[13] = 99;
    assert_eq!(fault(&wrong), TableFault::Start);
    let mut wrong = table.clone();
    let last = wrong.len();
    wrong[last - 8..].copy_from_slice(&2.0f64.to_le_bytes());
    assert_eq!(
        fault(&wrong),
        TableFault::Position(solver.progress().positions - 1)
    );
}

/// A battle after its first turn, as side 1's player sees it. Both use their first move.
fn seen(two: &Team) -> (Player, Battle) {
    let one = team(
        100,
        &[
            ("Tauros", &["Body Slam", "Earthquake"]),
            ("Starmie", &["Surf", "Recover"]),
        ],
    );
    let mut battle = Battle::new(&one, two, [9; 10]);
    let (mut teller, mut player) = (
        Teller::new(Side::One),
        Player::with_foes(Side::One, &one, 3),
    );
    for pair in [
        (Choice::Pass, Choice::Pass),
        (Choice::MOVE_1, Choice::MOVE_1),
    ] {
        let update = battle.update(pair.0, pair.1).unwrap();
        teller.report(&battle, &update.log(), &mut player).unwrap();
    }
    (player, battle)
}

fn options(nodes: u64) -> ThinkOptions<'static> {
    let mut options = ThinkOptions::default();
    (options.nodes, options.seed) = (nodes, 11);
    options
}

#[test]
fn hidden_members_and_moves_make_no_difference() {
    let prior = Prior::samples();
    let thoughts = [("Psychic", "Zapdos"), ("Recover", "Jynx")].map(|(hidden, other)| {
        let rest: &[(&str, &[&str])] = &[(other, &["Rest"]), ("Chansey", &["Ice Beam"])];
        let two = team(
            100,
            &[
                [("Alakazam", ["Reflect", hidden].as_slice())].as_slice(),
                rest,
            ]
            .concat(),
        );
        think(&seen(&two).0, &prior, &options(400)).unwrap()
    });
    assert_eq!(thoughts[0], thoughts[1]);
    let sum: f64 = thoughts[0].choices.iter().map(|it| it.probability).sum();
    assert!((sum - 1.0).abs() < 1e-9 && (0.0..=1.0).contains(&thoughts[0].value));
    assert_eq!((thoughts[0].choices.len(), thoughts[0].nodes), (3, 400));
}

/// The foe's team, and one that differs in the last three members and the last move of each other, none of which the foe shows.
fn alike_teams(dice: &mut Dice) -> [Team; 2] {
    let samples = Prior::samples();
    let [foe, other] = [(); 2].map(|()| &samples.teams()[dice.below(12)].0);
    let mut hidden = foe.clone();
    for spec in &mut hidden[..3] {
        spec.moves.truncate(3);
        spec.moves
            .push((gen1::MoveId::from_name("Splash").unwrap(), 3));
    }
    hidden[3..].clone_from_slice(&other[3..]);
    [foe, &hidden].map(|specs| Team::new(specs).unwrap())
}

#[test]
fn what_is_not_shown_makes_no_difference_at_200_positions() {
    let (prior, mut dice, mut positions) = (Prior::samples(), Dice::new(8), 0);
    let hidden = ["move 4", "switch 4", "switch 5", "switch 6"];
    while positions < 200 {
        let own = Team::new(&prior.teams()[dice.below(12)].0).unwrap();
        let foes = alike_teams(&mut dice);
        let mut hosts = foes.each_ref().map(|foe| {
            let player = Player::with_foes(Side::One, &own, 6);
            (
                Battle::new(&own, foe, [3; 10]),
                Teller::new(Side::One),
                player,
            )
        });
        let mut pair = (Choice::Pass, Choice::Pass);
        for _ in 0..20 {
            for (battle, teller, player) in &mut hosts {
                let update = battle.update(pair.0, pair.1).unwrap();
                teller.report(battle, &update.log(), player).unwrap();
            }
            let battle = &hosts[0].0;
            let mut theirs = battle.choices(Side::Two);
            theirs.retain(|it| !hidden.contains(&it.to_string().as_str()));
            if battle.is_over() || theirs.is_empty() {
                break;
            }
            let mut options = options(40);
            (options.seed, options.trees, options.guesses) = (positions, 1, 2);
            let [one, two] = hosts
                .each_ref()
                .map(|it| think(&it.2, &prior, &options).unwrap());
            assert_eq!(one, two);
            assert_ne!(hosts[0].0.as_bytes(), hosts[1].0.as_bytes());
            positions += 1;
            let mine = battle.choices(Side::One);
            pair = (
                mine[dice.below(mine.len())],
                theirs[dice.below(theirs.len())],
            );
        }
    }
}

#[test]
#[cfg(feature = "threads")]
fn any_number_of_threads_gives_the_same_thought() {
    let player = seen(&team(
        100,
        &[
            ("Alakazam", &["Reflect"]),
            ("Jynx", &["Rest"]),
            ("Mew", &["Surf"]),
        ],
    ))
    .0;
    let with = |threads: usize| -> Thought {
        let pool = rayon::ThreadPoolBuilder::new()
            .num_threads(threads)
            .build()
            .unwrap();
        pool.install(|| think(&player, &Prior::samples(), &options(800)).unwrap())
    };
    assert_eq!(with(1), with(4));
}

/// A player of one member that was told that its foe's only member, a Snorlax, has 20 HP left.
fn against_a_hurt_snorlax(one: &Team) -> Player {
    let two = team(100, &[("Snorlax", &["Body Slam"])]);
    let mut battle = Battle::new(one, &two, [7; 10]);
    let mut player = Player::with_foes(Side::One, one, 1);
    let update = battle.update(Choice::Pass, Choice::Pass).unwrap();
    let mut teller = Teller::new(Side::One);
    teller.report(&battle, &update.log(), &mut player).unwrap();
    let who = gen1::Who {
        side: Side::Two,
        species: gen1::Species::SNORLAX,
    };
    let health = gen1::Health::new(20, 523, None).unwrap();
    let mut events = gen1::EventList::new();
    events.push(gen1::Event::Damage(who, health, gen1::DamageSource::Direct));
    let mut log = gen1::LogBuf::new();
    gen1::write_log(&events, &mut log);
    player.feed(&log).unwrap();
    player
}

/// Persian is faster, and its Slash knocks out with 255 of 256 bytes.
#[test]
fn the_bot_knocks_out() {
    let player = against_a_hurt_snorlax(&team(100, &[("Persian", &["Growl", "Slash", "Screech"])]));
    let prior = Prior::new(vec![(
        vec![member("Snorlax", &["Body Slam"]).unwrap()],
        1.0,
    )])
    .unwrap();
    let thought = think(&player, &prior, &options(600)).unwrap();
    let first = &thought.choices[0];
    assert_eq!(
        (thought.best(), first.words.as_str()),
        (Choice::MOVE_2, "Slash")
    );
    assert!(
        first.probability > 0.8 && thought.value > 0.8,
        "{thought:?}"
    );
    assert_eq!(first.line[0][0], "Slash");
}

#[test]
fn the_leaf_features_of_exchanged_sides_are_the_opposite() {
    let prior = Prior::samples();
    let teams: Vec<Team> = prior
        .teams()
        .iter()
        .map(|(specs, _)| Team::new(specs).unwrap())
        .collect();
    let features = |one: &Team, two: &Team| {
        let mut battle = Battle::new(one, two, [7; 10]);
        battle.update_silent(Choice::Pass, Choice::Pass).unwrap();
        leaf::features(&battle, &MatchUps::of(&battle))
    };
    for (one, two) in teams
        .iter()
        .flat_map(|one| teams.iter().map(move |two| (one, two)))
    {
        let both = features(one, two).into_iter().zip(features(two, one));
        for (at, (first, second)) in both.enumerate() {
            assert!((first + second).abs() < 1e-4, "{at}: {first} {second}");
        }
    }
}

/// A battle of sample teams, with numbers by a seed, and the policy for it.
fn of_samples(seed: u64) -> (Battle, Policy) {
    let (prior, mut dice) = (Prior::samples(), Dice::new(seed));
    let [one, two] = [(); 2].map(|()| Team::new(&prior.teams()[dice.below(12)].0).unwrap());
    let mut battle = Battle::new(&one, &two, dice.numbers());
    battle.update_silent(Choice::Pass, Choice::Pass).unwrap();
    let policy = Policy::of(&battle);
    (battle, policy)
}

#[test]
fn playouts_are_worth_0_to_1_and_repeatable() {
    for seed in 0..100 {
        let (battle, policy) = of_samples(seed);
        let values = [1, 2, 1].map(|seed| policy.played(&battle, &mut Dice::new(seed)));
        assert!(values.iter().all(|it| (0.0..=1.0).contains(it)));
        assert_eq!(values[0], values[2]);
        let value = policy.value(&battle, &mut Dice::new(1));
        let fixed = leaf::value(&battle, &MatchUps::of(&battle));
        let between = values[0].min(fixed)..=values[0].max(fixed);
        assert!(between.contains(&value), "{value}, not in {between:?}");
    }
}

/// The last members of both sides have few HP, so that each playout ends.
#[test]
fn a_playout_that_ends_is_worth_its_result() {
    let last = ("Tauros", ["Body Slam"].as_slice());
    let battle = with_hp(&duel(100, last, last), 1, 1);
    let (policy, mut dice, mut won) = (Policy::of(&battle), Dice::new(5), 0.0);
    for _ in 0..200 {
        let mut battle = battle.clone();
        battle.reseed(dice.numbers());
        let value = policy.played(&battle, &mut dice);
        assert!([0.0, 0.5, 1.0].contains(&value), "{value}");
        won += value;
    }
    assert!((80.0..=120.0).contains(&won), "{won} of 200");
}

#[test]
fn a_battle_that_is_over_is_worth_its_result() {
    for seed in 0..20 {
        let (mut battle, policy) = of_samples(seed);
        let mut dice = Dice::new(seed);
        while !battle.is_over() {
            let [one, two] = Side::BOTH.map(|side| {
                let offered = battle.choices(side);
                offered[dice.below(offered.len())]
            });
            battle.update_silent(one, two).unwrap();
        }
        let due = match battle.outcome().winner() {
            Some(Side::One) => 1.0,
            Some(Side::Two) => 0.0,
            None => 0.5,
        };
        let found = [
            policy.value(&battle, &mut dice),
            policy.played(&battle, &mut dice),
        ];
        assert_eq!(found, [due; 2]);
    }
}

#[test]
fn the_bot_beats_random_choices() {
    let prior = Prior::samples();
    let teams: Vec<Team> = prior
        .teams()
        .iter()
        .map(|(specs, _)| Team::new(specs).unwrap())
        .collect();
    let (mut dice, mut won) = (Dice::new(4), 0);
    for round in 0..8 {
        let pair = [&teams[dice.below(12)], &teams[dice.below(12)]];
        let side = Side::BOTH[round % 2];
        let mut battle = Battle::new(pair[0], pair[1], dice.numbers());
        let mut teller = Teller::new(side);
        let mut player = Player::with_foes(side, pair[round % 2], 6);
        let (mut one, mut two) = (Choice::Pass, Choice::Pass);
        loop {
            let update = battle.update(one, two).unwrap();
            teller.report(&battle, &update.log(), &mut player).unwrap();
            if battle.is_over() {
                break;
            }
            let theirs = battle.choices(side.other());
            let theirs = theirs[dice.below(theirs.len())];
            let mut options = options(120);
            (options.seed, options.trees) = (dice.bits(), 1);
            let mine = think(&player, &prior, &options).unwrap().draw(&mut dice);
            (one, two) = if side == Side::One {
                (mine, theirs)
            } else {
                (theirs, mine)
            };
        }
        won += usize::from(battle.outcome().winner() == Some(side));
    }
    assert!(won >= 6, "{won} of 8");
}

/// Two bots of which one wins 3 of 4 differ by 400 log10(3), and a third that is even with the second has its rating.
#[test]
#[cfg(feature = "league")]
fn ratings_are_those_of_the_formula() {
    use gen1_search::league::ratings;
    let of = |wins: usize, count: usize| (0..count).map(move |at| f64::from(u8::from(at < wins)));
    let pairs = [
        (0, 1, of(25_000, 100_000).collect()),
        (1, 2, of(50_000, 100_000).collect()),
    ];
    let due = 400.0 * 3.0_f64.log10();
    for (rating, due) in ratings(3, &pairs).into_iter().zip([0.0, due, due]) {
        assert!((rating - due).abs() < 0.1, "{rating}, not {due}");
    }
}

/// Wilson's 95 % interval of 8 of 10 is 0.490 to 0.943.
#[test]
#[cfg(feature = "league")]
fn a_league_counts_ties_as_half() {
    use gen1_search::league::{Bot, League, Results, Teams};
    let league = League::new(Teams::Drawn, 7);
    let bots = [Bot::Level(2), Bot::Random];
    let mut results = Results::new(&bots);
    let lines: Vec<String> = [0.5, 0.0, 0.5, 1.0, 1.0, 1.0, 1.0, 1.0, 1.0, 1.0]
        .into_iter()
        .enumerate()
        .map(|(number, score)| league.line(bots, number as u64, score))
        .collect();
    assert_eq!(lines[0], "drawn:7\tlevel:2\trandom\t0\t0.5\n");
    assert_eq!(results.read(&league, &lines.concat()), Ok(()));
    let row = "| `level:2` | `random` | 10 | 80.0 % | 49.0 to 94.3 |";
    assert_eq!(results.table().lines().nth(2), Some(row));
    assert_eq!(results.read(&league, "drawn:7\tlevel:2\n"), Err(1));
    let score = league.score(bots[0], bots[1], 3);
    assert_eq!(score, league.score(bots[0], bots[1], 3));
}

#[test]
fn bad_input_is_named() {
    let one = team(100, &[("Tauros", &["Body Slam"])]);
    let player = Player::new(Side::One, &one);
    assert_eq!(
        think(&player, &Prior::samples(), &options(10)),
        Err(ThinkFault::NoChoice)
    );
    assert_eq!(Prior::new(vec![]).unwrap_err(), PriorFault::Empty);
    let tauros = || vec![member("Tauros", &["Body Slam"]).unwrap()];
    for weight in [0.0, -1.0, f64::NAN, f64::INFINITY] {
        let fault = Prior::new(vec![(tauros(), 1.0), (tauros(), weight)]).unwrap_err();
        assert_eq!(fault, PriorFault::Weight(2));
    }
    let fault = Prior::new(vec![(vec![member("Tauros", &["Mimic"]).unwrap()], 1.0)]).unwrap_err();
    assert!(matches!(fault, PriorFault::Team(1, _)), "{fault}");
}

/// A guess has what was seen: the members in the order of their appearance, with their moves.
#[test]
fn guesses_have_what_was_seen() {
    // Alakazam with Splash is in no team of the prior.
    let (player, _) = seen(&team(
        100,
        &[
            ("Alakazam", &["Splash"]),
            ("Mew", &["Surf"]),
            ("Jynx", &["Rest"]),
        ],
    ));
    let (prior, mut dice) = (Prior::samples(), Dice::new(1));
    for _ in 0..50 {
        let guess = prior.guess(&player, &mut dice).unwrap();
        assert_eq!(guess.members().len(), 3);
        let first = &guess.members()[0];
        assert_eq!(first.species().name(), "Alakazam");
        assert!(first.moves().iter().any(|it| it.id.name() == "Splash"));
        assert_eq!(first.moves().len(), 4);
    }
}

/// Pikachu at level 5 was told with 13 of 48 pixels, or with 5 of 18 HP. A maximum of 18, with no experience, allows them. 23, the
/// highest, does not.
#[test]
fn a_guess_allows_the_hp_that_were_told() {
    let one = team(5, &[("Tauros", &["Body Slam"])]);
    let mut battle = Battle::new(&one, &team(5, &[("Pikachu", &["Surf"])]), [9; 10]);
    battle.update_silent(Choice::Pass, Choice::Pass).unwrap();
    for (form, hp, max) in [(HpForm::Bar, 13, 48), (HpForm::Exact, 5, 18)] {
        let mut player = Player::new(Side::One, &one).with_hp(form);
        // A Switch to Pikachu, which is number 25, at level 5.
        player.feed(&[2, 2, 25, 1, 5, hp, 0, max, 0, 0]).unwrap();
        player.show(&battle.own_side(Side::One), battle.offered_mask(Side::One));
        let (prior, mut dice) = (Prior::samples(), Dice::new(1));
        for _ in 0..20 {
            let guess = prior.guess(&player, &mut dice).unwrap();
            let most = guess.members()[0].max_hp();
            assert!(most < 23 && player.allows_max_hp(&player.foe().members[0], most));
            Battle::from_player(&player, &Guess::new(guess, [9; 10])).unwrap();
        }
    }
}
