//! Calls for searches: masks, updates without events, battles side by side in memory, and playouts: the counts of the C library, the same
//! rounds played update by update, forced ends, and known probabilities.
use gen1::{
    Battle, Choice, EventList, LogBuf, MoveId, Outcome, Place, PlayoutOptions, Playouts, Refusal,
    Side, Team, Weights, member, text::team_in_packed,
};

fn battle() -> Battle {
    let moves = &["Body Slam", "Hyper Beam", "Thunder Wave", "Rest"];
    let team = Team::new(&[
        member("Tauros", moves).unwrap(),
        member("Snorlax", moves).unwrap(),
    ]);
    let team = team.unwrap();
    Battle::new(&team, &team, [1, 36, 255, 7, 31, 100, 179, 254, 127, 10])
}

#[test]
fn a_battle_is_six_lines_of_a_cache() {
    assert_eq!((size_of::<Battle>(), align_of::<Battle>()), (384, 64));
}

#[test]
fn each_form_of_an_update_leaves_the_same_battle() {
    let (mut told, mut silent, mut offered, mut bytes) = (battle(), battle(), battle(), battle());
    let (mut list, mut log) = (EventList::new(), LogBuf::new());
    for turn in 0.. {
        if told.is_over() {
            break;
        }
        let [one, two] = Side::BOTH.map(|side| {
            let (mask, listed) = (told.offered_mask(side), told.choices(side));
            assert!(mask.iter().map(Choice::from).eq(listed.iter().copied()));
            assert_eq!((mask.len(), mask.get(mask.len())), (listed.len(), None));
            mask.get(turn % listed.len()).unwrap()
        });
        let update = told.update(one.choice(), two.choice()).unwrap();
        let result = Ok(update.result());
        assert_eq!(silent.update_silent(one.choice(), two.choice()), result);
        assert_eq!(offered.update_with(one, two, &mut list), result);
        let [one, two] = [one, two].map(|it| u8::from(it.choice()));
        assert_eq!(bytes.update_with(one, two, &mut log), result);
        assert_eq!((&silent, &offered, &bytes), (&told, &told, &told));
        assert_eq!(update.events(), list.as_slice());
        assert_eq!(update.log(), log);
    }
    assert!(told.offered_mask(Side::One).is_empty());
    assert_eq!(
        told.update_silent(Choice::Pass, Choice::Pass),
        Err(Refusal::Over)
    );
}

#[test]
fn a_refused_update_leaves_the_sink_alone() {
    let (mut battle, mut log) = (battle(), LogBuf::new());
    battle.update_with(0, 0, &mut log).unwrap();
    let (before, held) = (battle.clone(), log.clone());
    for (one, two, side) in [
        (0xff, 0x11, Side::One),
        (0x11, 0x00, Side::Two),
        (0x10, 0xff, Side::One),
    ] {
        assert_eq!(
            battle.update_with(one, two, &mut log),
            Err(Refusal::NotOffered(side))
        );
        assert_eq!((&battle, &log), (&before, &held));
    }
}

#[test]
#[cfg(debug_assertions)]
#[should_panic(expected = "side 1's choice is not offered")]
fn a_debug_build_tests_what_is_taken_on_trust() {
    let mut battle = battle();
    let pass = battle.offered_mask(Side::One).get(0).unwrap();
    battle.update_silent(pass, pass).unwrap();
    let _ = battle.update_silent(pass, pass);
}

/// docs/LAYOUT.md, "Header": the numbers are bytes 5 to 15.
#[test]
fn a_key_leaves_out_the_numbers() {
    let mut battle = battle();
    let bytes = *battle.as_bytes();
    assert_eq!(Battle::from_bytes(&bytes), Ok(battle.clone()));
    let key = battle.key();
    assert_eq!((&key[..5], &key[16..]), (&bytes[..5], &bytes[16..]));
    assert_eq!(key[5..16], [0; 11]);
    battle.reseed([9; 10]);
    assert_eq!(battle.key(), key);
    battle.update(Choice::Pass, Choice::Pass).unwrap();
    assert_ne!(battle.key(), key);
}

/// The battle that the counts of C are of, after some updates by the first choice of each side.
fn after(updates: usize) -> Battle {
    let one = "Tauros||||BodySlam,HyperBeam,Blizzard,Earthquake|||||||]Chansey||||IceBeam,Thunderbolt,SoftBoiled|||||||";
    let two =
        "Gengar||||Hypnosis,Explosion,NightShade|||||||]Snorlax||||BodySlam,Rest,Amnesia|||||||";
    let [one, two] = [one, two].map(|text| team_in_packed(text.as_bytes()).unwrap());
    let mut battle = Battle::new(&one, &two, [1, 36, 255, 7, 31, 100, 179, 254, 127, 10]);
    for _ in 0..updates {
        let [one, two] = Side::BOTH.map(|side| battle.choices(side)[0]);
        battle.update(one, two).unwrap();
    }
    battle
}

fn weights() -> Weights {
    let moves = Weights::default().with_moves(4).with_switch(1);
    moves
        .with_move(MoveId::EXPLOSION, 0)
        .with_move(MoveId::BODY_SLAM, 255)
}

fn alone(species: &str, moves: &[&str]) -> Team {
    Team::new(&[member(species, moves).unwrap()]).unwrap()
}

/// A battle of two teams of one, after both came out.
fn facing(one: (&str, &[&str]), two: (&str, &[&str])) -> Battle {
    let mut battle = Battle::new(&alone(one.0, one.1), &alone(two.0, two.1), [0; 10]);
    battle.update(Choice::Pass, Choice::Pass).unwrap();
    battle
}

fn counts(of: Playouts) -> [u32; 4] {
    [of.wins_one, of.wins_two, of.ties, of.faults]
}

/// Each row was written by a program in C that calls `gen1_playout` of the library before playouts were in this crate: the updates
/// before, the seed, the depth (0: none), whether by weights, and the counts of 300 rounds.
const BY_C: [(usize, u64, u32, bool, [u32; 4]); 16] = [
    (0, 7, 0, false, [238, 62, 0, 0]),
    (0, 7, 0, true, [83, 217, 0, 0]),
    (0, 7, 5, false, [199, 79, 22, 0]),
    (0, 7, 5, true, [84, 209, 7, 0]),
    (0, u64::MAX, 0, false, [225, 73, 2, 0]),
    (0, u64::MAX, 20, true, [91, 209, 0, 0]),
    (3, 7, 0, false, [169, 130, 1, 0]),
    (3, 7, 0, true, [21, 279, 0, 0]),
    (3, 7, 5, false, [95, 175, 30, 0]),
    (3, 7, 20, true, [26, 274, 0, 0]),
    (3, u64::MAX, 5, true, [19, 271, 10, 0]),
    (3, u64::MAX, 20, false, [159, 140, 1, 0]),
    (9, 7, 0, true, [80, 219, 1, 0]),
    (9, 7, 20, false, [227, 72, 1, 0]),
    (9, u64::MAX, 5, false, [192, 100, 8, 0]),
    (9, u64::MAX, 20, true, [87, 213, 0, 0]),
];

#[test]
fn counts_are_those_of_c() {
    for (updates, seed, depth, by_weights, expected) in BY_C {
        let mut options = PlayoutOptions::new(seed, 300);
        if depth != 0 {
            options = options.with_depth(depth);
        }
        if by_weights {
            options = options.with_weights(weights());
        }
        let playouts = after(updates).playout(&options);
        assert_eq!(counts(playouts), expected, "{updates} updates, {options:?}");
        assert_eq!(playouts.rounds(), 300);
    }
}

/// The generator of include/gen1.h, "many battles".
struct Draws(u64);

impl Draws {
    fn below(&mut self, count: usize) -> usize {
        self.0 = self
            .0
            .wrapping_mul(6_364_136_223_846_793_005)
            .wrapping_add(1_442_695_040_888_963_407);
        (self.0 >> 32) as usize % count
    }
}

/// The offered choices of a side, each as often as its weight says.
fn copies(battle: &Battle, side: Side, weights: Option<&Weights>) -> Vec<Choice> {
    let offered = battle.choices(side).to_vec();
    let Some(weights) = weights else {
        return offered;
    };
    let state = battle.state();
    let of = |slot: usize| {
        let out = state.side(side).member_out().expect("a member is out");
        weights.of_move(out.moves[slot - 1].id)
    };
    let weight = |choice: &Choice| match choice {
        Choice::Move(slot) if slot.number() == 0 => weights.of_move(MoveId::STRUGGLE),
        Choice::Move(slot) => of(slot.number().into()),
        _ => weights.of_switch(),
    };
    let repeated: Vec<Choice> = offered
        .iter()
        .flat_map(|it| vec![*it; weight(it).into()])
        .collect();
    if repeated.is_empty() {
        offered
    } else {
        repeated
    }
}

/// The outcome of a round that isn't over: the larger share of the HP left wins.
fn leader(battle: &Battle) -> Outcome {
    let state = battle.state();
    let [one, two] = Side::BOTH.map(|side| {
        let members = &state.side(side).members;
        let left: u64 = members.iter().map(|it| u64::from(it.hp)).sum();
        let all: u64 = members.iter().map(|it| u64::from(it.max_hp)).sum();
        (left, all)
    });
    match (one.0 * two.1).cmp(&(two.0 * one.1)) {
        core::cmp::Ordering::Greater => Outcome::WinOne,
        core::cmp::Ordering::Less => Outcome::WinTwo,
        core::cmp::Ordering::Equal => Outcome::Tie,
    }
}

/// The counts of playouts that are played here, update by update.
fn played(start: &Battle, options: &PlayoutOptions, weights: Option<&Weights>) -> [u32; 4] {
    let (mut draws, mut ends) = (Draws(options.seed), [0; 4]);
    for _ in 0..options.rounds {
        let mut battle = start.clone();
        battle.reseed(core::array::from_fn(|_| draws.below(256) as u8));
        let mut updates = 0;
        while !battle.is_over() && options.depth.is_none_or(|depth| updates < depth) {
            let [one, two] = Side::BOTH.map(|side| {
                let choices = copies(&battle, side, weights);
                choices[draws.below(choices.len())]
            });
            battle.update_silent(one, two).unwrap();
            updates += 1;
        }
        let end = if battle.is_over() {
            battle.outcome()
        } else {
            leader(&battle)
        };
        ends[match end {
            Outcome::WinOne => 0,
            Outcome::WinTwo => 1,
            Outcome::Tie => 2,
            Outcome::Ongoing | Outcome::Fault(_) => 3,
        }] += 1;
    }
    ends
}

#[test]
fn rounds_are_those_of_updates_one_by_one() {
    let no_switch = Weights::default().with_moves(0);
    for updates in [0, 1, 4, 12, 20] {
        let start = after(updates);
        for (depth, weights) in [
            (None, None),
            (Some(3), None),
            (Some(0), None),
            (None, Some(weights())),
            (Some(9), Some(no_switch)),
        ] {
            let mut options = PlayoutOptions::new(updates as u64, 20);
            options.depth = depth;
            options = weights.map_or(options, |it| options.with_weights(it));
            let expected = played(&start, &options, weights.as_ref());
            assert_eq!(
                counts(start.playout(&options)),
                expected,
                "{updates} updates, {options:?}"
            );
        }
        assert_eq!(start, after(updates));
    }
}

#[test]
fn a_forced_end_is_the_end_of_each_round() {
    // Swift never misses, and Splash does nothing: with 1 HP left the foe falls in the next turn.
    let start = facing(("Tauros", &["Swift"]), ("Magikarp", &["Splash"]));
    let edge = start.with_hp(Side::Two, Place::new(1).unwrap(), 1).unwrap();
    let options = PlayoutOptions::new(3, 500);
    assert_eq!(counts(edge.playout(&options)), [500, 0, 0, 0]);
    assert_eq!(counts(edge.playout(&options.with_depth(1))), [500, 0, 0, 0]);
    // The sides swapped.
    let start = facing(("Magikarp", &["Splash"]), ("Tauros", &["Swift"]));
    let edge = start.with_hp(Side::One, Place::new(1).unwrap(), 1).unwrap();
    assert_eq!(counts(edge.playout(&options)), [0, 500, 0, 0]);
    // A battle that is over counts as it ended.
    let mut over = edge.clone();
    over.update(Choice::MOVE_1, Choice::MOVE_1).unwrap();
    assert_eq!(over.outcome(), Outcome::WinTwo);
    assert_eq!(counts(over.playout(&options.with_depth(1))), [0, 500, 0, 0]);
    assert_eq!(
        over.playout(&PlayoutOptions::new(3, 0)),
        start.playout(&PlayoutOptions::new(9, 0))
    );
}

#[test]
fn the_hp_left_decide_at_the_depth() {
    let start = facing(("Magikarp", &["Splash"]), ("Snorlax", &["Splash"]));
    let now = |battle: &Battle| counts(battle.playout(&PlayoutOptions::new(1, 10).with_depth(2)));
    assert_eq!(now(&start), [0, 0, 10, 0]);
    let place = Place::new(1).unwrap();
    let hurt = start.with_hp(Side::Two, place, 400).unwrap();
    assert_eq!(now(&hurt), [10, 0, 0, 0]);
    // 400 of 523 HP are the larger share, though Snorlax lacks more of them.
    assert_eq!(start.state().side(Side::Two).members[0].max_hp, 523);
    assert_eq!(
        now(&hurt.with_hp(Side::One, place, 150).unwrap()),
        [0, 10, 0, 0]
    );
}

/// Whether a count of 20,000 rounds is within five standard deviations of what its probability gives.
fn is_likely(count: u32, probability: f64) -> bool {
    let (rounds, count) = (20_000.0, f64::from(count));
    (count - rounds * probability).abs() < 5.0 * (rounds * probability * (1.0 - probability)).sqrt()
}

#[test]
fn rounds_have_numbers_of_their_own() {
    // Horn Drill hits with 76 of 256 bytes (docs/MECHANICS.md, "Fixed damage and one-hit moves"), and else both have all their HP.
    let drill = facing(("Tauros", &["Horn Drill"]), ("Snorlax", &["Splash"]));
    let playouts = drill.playout(&PlayoutOptions::new(11, 20_000).with_depth(1));
    assert!(
        is_likely(playouts.wins(Side::One), 76.0 / 256.0),
        "{playouts:?}"
    );
    assert_eq!(playouts.wins(Side::One) + playouts.ties, 20_000);
}

#[test]
fn choices_are_as_likely_as_their_weights() {
    // Explosion fails against a Ghost, and its user faints all the same.
    let battle = facing(
        ("Snorlax", &["Explosion", "Splash"]),
        ("Gengar", &["Splash"]),
    );
    let options = PlayoutOptions::new(5, 20_000).with_depth(1);
    let lost = |options: &PlayoutOptions| battle.playout(options).wins(Side::Two);
    assert!(is_likely(lost(&options), 0.5));
    let with =
        |weight| options.with_weights(Weights::default().with_move(MoveId::EXPLOSION, weight));
    assert!(is_likely(lost(&with(3)), 0.75));
    assert!(is_likely(lost(&with(1)), 0.5));
    assert_eq!(lost(&with(0)), 0);
    let only = Weights::default()
        .with_moves(0)
        .with_move(MoveId::EXPLOSION, 1);
    assert_eq!(lost(&options.with_weights(only)), 20_000);
}
