//! Exact chances of a use, each draw tried, and exact outcomes of an update: worked out from docs/MECHANICS.md, "Critical hits" and "Hit
//! test", and both forms of outcomes against each other.
use gen1::{
    Battle, Between, CantReason, Chance, Choice, Conditions, DamageRefusal, DrawnFrom, Effect,
    Event, Kind, MoveId, NotProbability, OddsReason, OutcomeOptions, OutcomesFault, Place, Refusal,
    Request, Side, Stat, Successor, Team, UsedMove, Volatile, Way, Who, member, random_team,
    seed_from_number,
};

fn facing(one: (&str, &str), two: (&str, &str)) -> Battle {
    let [one, two] =
        [one, two].map(|(species, id)| Team::new(&[member(species, &[id]).unwrap()]).unwrap());
    let mut battle = Battle::new(&one, &two, [0; 10]);
    battle.update(Choice::Pass, Choice::Pass).unwrap();
    battle
}

fn divisor(one: u128, two: u128) -> u128 {
    if two == 0 {
        one
    } else {
        divisor(two, one % two)
    }
}

/// The sum of probabilities, reduced.
fn sum(chances: impl Iterator<Item = Chance>) -> (u128, u128) {
    chances.fold((0, 1), |(num, whole), chance| {
        let common = whole / divisor(whole, chance.whole) * chance.whole;
        let sum = num * (common / whole) + chance.num * (common / chance.whole);
        let by = divisor(sum, common);
        (sum / by, common / by)
    })
}

/// The probability that an update by the first moves has an event, of all of its ways.
fn told(battle: &Battle, is_met: impl Fn(&Event) -> bool) -> (u128, u128) {
    let ways: Vec<Way> = battle
        .ways(Choice::MOVE_1, Choice::MOVE_1)
        .unwrap()
        .map(Result::unwrap)
        .collect();
    assert_eq!(sum(ways.iter().map(|way| way.chance)), (1, 1));
    sum(ways
        .iter()
        .filter(|way| way.events.iter().any(&is_met))
        .map(|way| way.chance))
}

#[test]
fn probabilities_are_those_of_the_rules() {
    // Full paralysis, 63 of 256 bytes.
    let battle = facing(("Snorlax", "Splash"), ("Snorlax", "Splash"));
    let paralysed = battle
        .with_status(Side::One, Place::new(1).unwrap(), Some(Kind::Paralysis), 0)
        .unwrap();
    let cannot = |event: &Event| matches!(event, Event::Cant(_, CantReason::Paralysed));
    assert_eq!(told(&paralysed, cannot), (63, 256));
    assert_eq!(told(&battle, cannot), (0, 1));
    // An accuracy of 100 % misses once in 256; a critical hit of Persian is 57 of 256, of those that hit.
    let strength = facing(("Persian", "Strength"), ("Snorlax", "Splash"));
    assert_eq!(
        told(&strength, |event| matches!(event, Event::Miss(_))),
        (1, 256)
    );
    assert_eq!(
        told(&strength, |event| matches!(event, Event::Crit(_))),
        (57 * 255, 65536)
    );
    // 30 % is 76, and 76 of 256 is 19 of 64.
    let drill = facing(("Tauros", "Horn Drill"), ("Snorlax", "Splash"));
    assert_eq!(
        told(&drill, |event| matches!(event, Event::Faint(_))),
        (19, 64)
    );
}

/// Checks that the weight of each outcome is that of its ways, and returns how many outcomes there are.
fn compare_ways(options: &OutcomeOptions) -> usize {
    let battle = facing(("Tauros", "Body Slam"), ("Snorlax", "Splash"));
    let mut places = vec![Successor::from(&battle); 4096];
    let found = battle
        .outcomes_into(
            Choice::MOVE_1,
            Choice::MOVE_1,
            options,
            &mut places,
            &mut [0; 8192],
        )
        .unwrap();
    places.truncate(found.count);
    assert_eq!(
        places.iter().map(Successor::weight).sum::<u128>(),
        found.whole
    );
    let ways: Vec<Way> = battle
        .ways_with(0x11, 0x11, options)
        .unwrap()
        .map(Result::unwrap)
        .collect();
    assert_eq!(ways.len(), found.ways as usize);
    for place in &places {
        let of = |way: &&Way| way.battle == place.battle();
        let expected = Chance {
            num: place.weight(),
            whole: found.whole,
        };
        assert_eq!(
            sum(ways.iter().filter(of).map(|way| way.chance)),
            sum([expected].into_iter())
        );
    }
    #[cfg(feature = "alloc")]
    {
        let list = battle
            .outcomes_with(Choice::MOVE_1, Choice::MOVE_1, options)
            .unwrap();
        assert_eq!(
            (list.successors(), list.whole()),
            (&places[..], found.whole)
        );
        assert!((list.iter().map(|(_, probability)| probability).sum::<f64>() - 1.0).abs() < 1e-9);
    }
    found.count
}

#[test]
fn ways_sum_to_the_outcomes() {
    let all = compare_ways(&OutcomeOptions::new());
    let few = compare_ways(&OutcomeOptions::new().with_damage_classes(3));
    // A hit has 3 classes, critical or not, and paralyses no Normal type; and there is a miss.
    assert_eq!(few, 2 * 3 + 1);
    assert!(all > 5 * few);
}

#[test]
fn what_is_less_probable_is_left_out() {
    // It misses with 1 of 256 bytes. A paralysed Snorlax can't act with 63 of 256.
    let battle = facing(("Tauros", "Thunder Wave"), ("Snorlax", "Splash"));
    let listed = |least: f64| {
        let options = OutcomeOptions::new()
            .with_least_probability(least)
            .unwrap()
            .with_damage_classes(1);
        let mut places = vec![Successor::from(&battle); 8];
        let found = battle
            .outcomes_into(
                Choice::MOVE_1,
                Choice::MOVE_1,
                &options,
                &mut places,
                &mut [0; 16],
            )
            .unwrap();
        let ways: Vec<Way> = battle
            .ways_with(Choice::MOVE_1, Choice::MOVE_1, &options)
            .unwrap()
            .map(Result::unwrap)
            .collect();
        let missing = Chance {
            num: found.left_out,
            whole: found.whole,
        };
        let (num, whole) = sum(ways.iter().map(|way| way.chance).chain([missing]));
        assert_eq!((num, whole, ways.len()), (1, 1, found.count));
        (sum([missing].into_iter()), found.count)
    };
    assert_eq!(listed(0.0), ((0, 1), 3));
    assert_eq!(listed(1.0 / 256.0), ((0, 1), 3));
    assert_eq!(listed(0.004), ((1, 256), 2));
    assert_eq!(listed(0.25), ((256 + 63 * 255, 65536), 1));
    assert_eq!(listed(0.76), ((1, 1), 0));
    assert_eq!(listed(1.0), ((1, 1), 0));
}

#[test]
fn what_is_no_probability_is_refused() {
    for given in [-0.5, 1.5, 2.0, 4.0, f64::INFINITY, f64::NEG_INFINITY] {
        let refused = OutcomeOptions::new().with_least_probability(given);
        assert_eq!(refused, Err(NotProbability(given)));
    }
    let fault = OutcomeOptions::new()
        .with_least_probability(f64::NAN)
        .unwrap_err();
    assert_eq!(fault.to_string(), "the probability is NaN, not 0 to 1");
    assert_eq!(
        NotProbability(2.5).to_string(),
        "the probability is 2.5, not 0 to 1"
    );
}

/// An update with any numbers to draw leads to one of the outcomes.
#[test]
fn updates_are_among_the_outcomes() {
    let battle = facing(("Tauros", "Thunder"), ("Starmie", "Confuse Ray"));
    let mut places = vec![Successor::from(&battle); 4096];
    let options = OutcomeOptions::new();
    let found = battle
        .outcomes_into(
            Choice::MOVE_1,
            Choice::MOVE_1,
            &options,
            &mut places,
            &mut [0; 8192],
        )
        .unwrap();
    for number in 0..=255 {
        let mut next = battle.clone();
        next.reseed([number; 10].map(|it: u8| it.wrapping_mul(91)));
        next.update(Choice::MOVE_1, Choice::MOVE_1).unwrap();
        assert!(
            places[..found.count]
                .iter()
                .any(|it| it.battle().key() == next.key())
        );
    }
}

#[test]
fn bad_choices_and_few_places() {
    let battle = facing(("Snorlax", "Bide"), ("Tauros", "Bide"));
    let refusal = Refusal::NotOffered(Side::Two);
    assert_eq!(
        battle.ways(Choice::MOVE_1, Choice::Pass).unwrap_err(),
        refusal
    );
    let mut places = vec![Successor::from(&battle); 4];
    let ask = |choice: u8, places: &mut [Successor], table: usize| {
        battle
            .outcomes_into(
                choice,
                0x11,
                &OutcomeOptions::new(),
                places,
                &mut vec![0; table],
            )
            .map(|found| found.count)
    };
    assert_eq!(ask(0x11, &mut places, 4), Ok(4));
    assert_eq!(ask(0x11, &mut places[..3], 4), Err(OutcomesFault::Places));
    assert_eq!(ask(0x11, &mut places, 3), Err(OutcomesFault::Table));
    assert_eq!(
        ask(7, &mut [], 0),
        Err(OutcomesFault::Refused(Refusal::NotOffered(Side::One)))
    );
}

fn against(one: (&str, &[&str]), two: &str, seed: [u8; 10]) -> Battle {
    let [one, two] = [one, (two, &["Splash"])]
        .map(|(species, moves)| Team::new(&[member(species, moves).unwrap()]).unwrap());
    let mut battle = Battle::new(&one, &two, seed);
    battle.update(Choice::Pass, Choice::Pass).unwrap();
    battle
}

fn id(name: &str) -> MoveId {
    name.parse().unwrap()
}

#[test]
fn chances_are_those_of_the_rules() {
    let mut battle = against(("Persian", &["Focus Energy"]), "Gengar", [0; 10]);
    let critical = |battle: &Battle, name| battle.odds(Side::One, id(name)).unwrap().critical_draws;
    assert_eq!(
        (critical(&battle, "Slash"), critical(&battle, "Strength")),
        (255, 57)
    );
    let hits = |name| battle.odds(Side::One, id(name)).unwrap().hit_draws;
    assert_eq!((hits("Night Shade"), hits("Dream Eater")), (255, 0));
    // Normal has no effect on a Ghost.
    let reason = |battle: &Battle, name| battle.odds(Side::One, id(name)).unwrap().reason;
    assert_eq!(reason(&battle, "Swift"), Some(OddsReason::Immune));
    assert_eq!(reason(&battle, "Dream Eater"), Some(OddsReason::Awake));
    let other = against(("Slowbro", &["Fissure"]), "Alakazam", [0; 10]);
    assert_eq!(other.odds(Side::One, id("Swift")).unwrap().hit_draws, 256);
    // Slowbro is slower than Alakazam.
    assert_eq!(reason(&other, "Fissure"), Some(OddsReason::Slower));
    // 80, 70 and 55 % in 255ths, rounded down.
    assert_eq!(
        (hits("Hydro Pump"), hits("Thunder"), hits("Sing")),
        (204, 178, 140)
    );
    let is_tested = |name| battle.odds(Side::One, id(name)).unwrap().takes_hit_test;
    assert!(
        ["Swift", "Toxic", "Growl", "Counter"]
            .into_iter()
            .all(is_tested)
    );
    assert!(
        !["Roar", "Rest", "Bide", "Amnesia"]
            .into_iter()
            .any(is_tested)
    );
    let first = "move 1".parse().unwrap();
    battle.update(first, first).unwrap();
    assert_eq!(
        (critical(&battle, "Slash"), critical(&battle, "Strength")),
        (112, 14)
    );
}

/// The first draw decides whether the hit is critical, the second is a factor (255, the highest), and the third is the hit test's.
#[test]
fn each_draw_does_what_is_told() {
    let (mut missed, mut critical) = (0, 0);
    for byte in 0..=255 {
        for numbers in [[byte, 255, 0], [255, 255, byte]] {
            let mut seed = [0; 10];
            seed[..3].copy_from_slice(&numbers);
            let mut battle = against(("Tauros", &["Thunder"]), "Snorlax", seed);
            let first = "move 1".parse().unwrap();
            let update = battle.update(first, first).unwrap();
            missed += update
                .events()
                .iter()
                .filter(|event| matches!(event, Event::Miss(_)))
                .count();
            critical += update
                .events()
                .iter()
                .filter(|event| matches!(event, Event::Crit(_)))
                .count();
        }
    }
    let odds = against(("Tauros", &["Thunder"]), "Snorlax", [0; 10])
        .odds(Side::One, id("Thunder"))
        .unwrap();
    assert_eq!(usize::from(odds.critical_draws), critical);
    assert_eq!(256 - usize::from(odds.hit_draws), missed);
}

#[test]
fn what_has_no_damage_says_why() {
    let battle = against(("Tauros", &["Splash"]), "Gengar", [0; 10]);
    let toss = battle.odds(Side::One, id("Seismic Toss")).unwrap();
    assert_eq!(
        toss.usual,
        Err(DamageRefusal::NoUsualDamage(id("Seismic Toss")))
    );
    assert_eq!((&toss.critical, toss.critical_draws), (&toss.usual, 0));
    for critical in [false, true] {
        let odds = battle.odds(Side::One, id("Earthquake")).unwrap();
        let damage = battle.damage(Side::One, id("Earthquake"), critical);
        assert_eq!(if critical { odds.critical } else { odds.usual }, damage);
    }
    let team = Team::new(&[member("Mew", &["Pound"]).unwrap()]).unwrap();
    let before = Battle::new(&team, &team, [0; 10]);
    assert_eq!(
        before.odds(Side::Two, id("Pound")),
        Err(DamageRefusal::NobodyOut)
    );
}

/// What a way says of the action of side 1, which comes first.
struct Acted {
    acts: bool,
    hits: bool,
    /// It hit, the foe stands, and no Substitute broke.
    lands: bool,
    harms: bool,
    /// The foe is held, or has fallen by the hit.
    holds: bool,
}

fn acted(way: &Way) -> Acted {
    let is_foe = |who: &Who| who.side == Side::Two;
    let foes = way.events.iter().position(|event| match event {
        Event::Move(who, ..) | Event::Cant(who, _) | Event::Prepare(who, _) => is_foe(who),
        Event::Activate(who, Volatile::Confusion) => is_foe(who),
        _ => false,
    });
    let own = &way.events[..foes.unwrap_or(way.events.len())];
    let foes = foes.map(|at| &way.events[at]);
    let cannot = |why| matches!(foes, Some(Event::Cant(_, found)) if *found == why);
    let strikes = own.iter().any(|event| matches!(event, Event::Move(..)));
    let misses = own.iter().any(|event| match event {
        Event::Miss(who) | Event::Fail(who) => !is_foe(who),
        Event::Immune(who) => is_foe(who),
        _ => false,
    });
    let falls = own
        .iter()
        .any(|event| matches!(event, Event::Faint(who) if is_foe(who)));
    let breaks = own
        .iter()
        .any(|event| matches!(event, Event::End(who, Volatile::Substitute) if is_foe(who)));
    let harms = own.iter().any(|event| match event {
        Event::Status(who, _) | Event::Unboost(who, ..) => is_foe(who),
        Event::Start(who, Volatile::Confusion) => is_foe(who),
        Event::MustRecharge(who) => !is_foe(who),
        _ => false,
    });
    Acted {
        acts: strikes || own.iter().any(|event| matches!(event, Event::Prepare(..))),
        hits: strikes && !misses,
        lands: strikes && !misses && !falls && !breaks,
        harms: harms || cannot(CantReason::Flinched),
        holds: cannot(CantReason::PartiallyTrapped) || falls,
    }
}

/// A battle of random teams after some random updates, in which side 1 is faster; `None` if it has no turn to play.
fn position(number: u64) -> Option<Battle> {
    let team = |seed| random_team(seed, 6, DrawnFrom::All).unwrap();
    let [one, two] = [team(2 * number), team(2 * number + 1)];
    let mut battle = Battle::new(&one, &two, seed_from_number(number));
    for turn in 0..3 + number % 14 {
        let pick = |side| {
            let offered = battle.choices(side);
            offered[(number * 7 + turn * 3) as usize % offered.len()]
        };
        let (one, two) = (pick(Side::One), pick(Side::Two));
        battle.update(one, two).ok()?;
    }
    let result = battle.result();
    if [result.request_one, result.request_two] != [Request::Move; 2] {
        return None;
    }
    let place = |side: usize| {
        battle.state().sides[side]
            .active
            .as_ref()
            .map(|it| it.place)
    };
    let [one, two] = [place(0)?, place(1)?];
    let with =
        |battle: Battle, side, place, kind| battle.with_status(side, place, Some(kind), 0).ok();
    battle = match number % 4 {
        1 => with(battle, Side::One, one, Kind::Paralysis)?,
        2 => with(battle, Side::Two, two, Kind::Burn)?,
        _ => battle,
    };
    battle = battle.with_stage(Side::One, Stat::Speed, 6).ok()?;
    battle = battle.with_stage(Side::Two, Stat::Speed, -6).ok()?;
    battle
        .with_state(|state| {
            let active = state.sides[0].active.as_mut().unwrap();
            if number % 3 == 0 {
                active.conditions = active.conditions | Conditions::CONFUSED;
                active.confusion = Some(1 + (number % 5) as u8);
            }
        })
        .ok()
}

/// The moves that side 1 is offered, each with its choice.
fn moves_of(battle: &Battle) -> Vec<(Choice, MoveId)> {
    let state = battle.state();
    let (active, member) = (
        state.sides[0].active.as_ref().unwrap(),
        state.sides[0].member_out().unwrap(),
    );
    let known = |slot: u8| member.moves[usize::from(slot) - 1].id;
    let current = match active.current_move {
        UsedMove::Slot(slot) => Some(known(slot)),
        _ => None,
    };
    let id_of = |choice: &Choice| match choice {
        Choice::Move(slot) if slot.number() == 0 => current,
        Choice::Move(slot) => Some(known(slot.number())),
        _ => None,
    };
    let offered = battle.choices(Side::One);
    let all = offered.iter().map(|choice| (*choice, id_of(choice)));
    all.filter_map(|(choice, id)| Some((choice, id?)))
        .filter(|(_, id)| id.effect() != Effect::Bide)
        .collect()
}

const SIDE_EFFECTS: fn(Effect) -> bool = |effect| {
    matches!(
        effect,
        Effect::DamageOnly
            | Effect::Twineedle
            | Effect::FreezeChance
            | Effect::BurnChance(_)
            | Effect::ParalysisChance(_)
            | Effect::PoisonChance(_)
            | Effect::ConfusionChance(_)
            | Effect::StatDownChance(_)
            | Effect::Recharge
    )
};

/// How many odds of an action were compared with its ways: that it acts, that it hits, its side effect, and its hold.
fn compare_action(battle: &Battle, choice: Choice, id: MoveId, foes: Choice) -> [usize; 4] {
    let options = OutcomeOptions::new().with_damage_classes(2);
    let ways: Vec<Way> = battle
        .ways_with(choice, foes, &options)
        .unwrap()
        .map(Result::unwrap)
        .collect();
    if !ways
        .iter()
        .all(|way| way.events[0].side() == Some(Side::One))
    {
        return [0; 4];
    }
    let odds = battle.action_odds(Side::One, id).unwrap();
    let of = |is_met: &dyn Fn(&Acted) -> bool| {
        sum(ways
            .iter()
            .filter(|way| is_met(&acted(way)))
            .map(|way| way.chance))
    };
    let reduced = |num: u128, whole: u128| {
        let by = divisor(num, whole);
        (num / by, whole / by)
    };
    let part =
        |(num, whole): (u128, u128), draws: u16| reduced(num * u128::from(draws), whole * 256);
    let shown = format!("{id} {odds:?} {:?}", battle.state());
    let acts = of(&|it| it.acts);
    assert_eq!(
        acts,
        reduced(odds.acts.into(), odds.acts_of.into()),
        "{shown}"
    );
    let hits = of(&|it| it.hits);
    assert_eq!(
        hits,
        reduced(odds.hits.into(), odds.hits_of.into()),
        "{shown}"
    );
    let foe = battle.state().sides[1].member_out().unwrap().status;
    let user = battle.state().sides[0].member_out().unwrap().status;
    let can_flinch = !matches!(foe, Some(Kind::Sleep | Kind::Freeze));
    let lands = of(&|it| it.lands);
    let has_side_effect =
        SIDE_EFFECTS(id.effect()) || (matches!(id.effect(), Effect::FlinchChance(_)) && can_flinch);
    if has_side_effect {
        let harms = of(&|it| it.lands && it.harms);
        assert_eq!(harms, part(lands, odds.side_effect), "{shown}");
    }
    let has_hold = can_flinch && !matches!(user, Some(Kind::Poison | Kind::Burn));
    if has_hold && id.effect() == Effect::Trapping {
        let holds = of(&|it| it.acts && it.holds);
        assert_eq!(holds, part(acts, odds.holds), "{shown}");
    }
    [
        1,
        usize::from(hits.0 > 0),
        usize::from(has_side_effect && odds.side_effect > 0),
        usize::from(has_hold && odds.holds > 0),
    ]
}

#[test]
fn the_odds_of_an_action_are_those_of_its_ways() {
    let (mut positions, mut counts) = (0, [0; 4]);
    for number in 0..400 {
        let Some(battle) = position(number) else {
            continue;
        };
        let offered = battle.choices(Side::Two);
        let Some(foes) = offered.iter().find(|it| matches!(it, Choice::Move(_))) else {
            continue;
        };
        for (choice, id) in moves_of(&battle) {
            let more = compare_action(&battle, choice, id, *foes);
            for (count, more) in counts.iter_mut().zip(more) {
                *count += more;
            }
        }
        positions += 1;
        if positions == 100 {
            break;
        }
    }
    assert_eq!(positions, 100);
    let [acts, hits, harms, holds] = counts;
    assert!(
        acts >= 300 && hits >= 250 && harms >= 40 && holds >= 8,
        "{counts:?}"
    );
}

/// The probability that the foe falls in so many updates, of the first choice of each side.
#[cfg(feature = "alloc")]
fn felled(battle: &Battle, updates: u8) -> (u128, u128) {
    if battle.state().sides[1].member_out().unwrap().hp == 0 {
        return (1, 1);
    }
    if updates == 0 {
        return (0, 1);
    }
    let [one, two] = [Side::One, Side::Two].map(|side| battle.choices(side)[0]);
    let list = battle.outcomes(one, two).unwrap();
    sum(list.successors().iter().map(|it| {
        let (num, whole) = felled(&it.battle(), updates - 1);
        let by = divisor(it.weight(), list.whole());
        let [weight, all] = [it.weight(), list.whole()].map(|it| it / by);
        Chance {
            num: weight * num,
            whole: all * whole,
        }
    }))
}

/// A trapping move that hits continues: it deals its damage again, once to four times.
#[cfg(feature = "alloc")]
#[test]
fn uses_of_a_trapping_move_in_a_row() {
    let whole = |it: (u128, u128)| it.0 as f64 / it.1 as f64;
    for (user, id, foe, hp) in [
        ("Dragonite", "Wrap", "Snorlax", [30, 41, 62, 95]),
        ("Rapidash", "Fire Spin", "Starmie", [5, 12, 20, 33]),
        ("Cloyster", "Clamp", "Rhydon", [90, 250, 330, 363]),
        ("Tauros", "Bind", "Gengar", [1, 20, 100, 323]),
    ] {
        for hp in hp {
            let battle = facing((user, id), (foe, "Splash"))
                .with_hp(Side::Two, Place::new(1).unwrap(), hp)
                .unwrap();
            let id = id.parse().unwrap();
            let two = battle.knock_out(Side::One, id).unwrap();
            let three = battle
                .knock_out_in_three(Side::One, id, &Between::default())
                .unwrap();
            let [once, twice, thrice] = [1, 2, 3].map(|updates| felled(&battle, updates));
            let equal = |num: u128, of: u128, due: (u128, u128)| {
                let by = divisor(num, of);
                assert_eq!((num / by, of / by), due, "{id} at {hp}: {}", whole(due));
            };
            equal(two.once.into(), two.once_of.into(), once);
            equal(two.twice.into(), two.twice_of.into(), twice);
            equal(three.twice.into(), three.twice_of.into(), twice);
            equal(three.thrice, three.thrice_of, thrice);
        }
    }
}
