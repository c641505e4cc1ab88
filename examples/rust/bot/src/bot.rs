//! The players: one that tries its choices with playouts, and one that chooses at random.
use crate::random::Random;
use crate::teams;
use gen1::{Battle, Choice, Offered, Outcome, Player, Side};

/// The information that a bot may use.
#[derive(Clone, Copy)]
pub enum Sight<'a> {
    /// The knowledge of its side. It guesses the rest again for each playout.
    Fair(&'a Player),
    /// The whole battle, which no player sees.
    Cheating(&'a Battle),
}

impl Sight<'_> {
    /// A battle to play to its end, with its own numbers: a fork would draw the same numbers as the battle, so the bot would foresee its luck.
    fn fork(self, random: &mut Random) -> Battle {
        match self {
            Sight::Fair(player) => teams::guessed(player, random),
            Sight::Cheating(battle) => {
                let mut fork = battle.clone();
                fork.reseed(random.seed());
                fork
            }
        }
    }
}

/// The result of playouts of a choice.
#[derive(Clone, Copy, Debug, PartialEq)]
pub struct Tried {
    /// The choice that they began with.
    pub choice: Choice,
    /// The share that was won, from 0 to 1; a tie counts as half.
    pub won: f64,
}

/// A random choice of a side, all equally likely. The battle must not be over.
pub fn random_choice(battle: &Battle, side: Side, random: &mut Random) -> Offered {
    let offered = battle.offered_mask(side);
    let place = random.below(offered.len());
    offered.get(place).expect("the battle goes on")
}

/// Each of a side's choices, with the result of playouts that begin with it. The battle must not be over.
pub fn tried(
    sight: Sight<'_>,
    side: Side,
    choices: &[Choice],
    playouts: u32,
    random: &mut Random,
) -> Vec<Tried> {
    let mut won = |choice| -> u32 {
        (0..playouts)
            .map(|_| points(play_out(sight.fork(random), side, choice, random), side))
            .sum()
    };
    choices
        .iter()
        .map(|&choice| Tried {
            choice,
            won: f64::from(won(choice)) / f64::from(2 * playouts),
        })
        .collect()
}

/// The choice that won most, the first one among equals. There is at least one.
pub fn best(tried: &[Tried]) -> Choice {
    let mut best = tried[0];
    for &other in &tried[1..] {
        if other.won > best.won {
            best = other;
        }
    }
    best.choice
}

/// Plays a battle to its end: first with a side's choice, and then with random choices.
fn play_out(mut battle: Battle, side: Side, first: Choice, random: &mut Random) -> Outcome {
    let other = random_choice(&battle, side.other(), random).choice();
    let [one, two] = match side {
        Side::One => [first, other],
        Side::Two => [other, first],
    };
    let mut result = battle.update_silent(one, two);
    while let Ok(now) = result {
        if now.outcome.is_over() {
            return now.outcome;
        }
        let [one, two] = Side::BOTH.map(|side| random_choice(&battle, side, random));
        result = battle.update_silent(one, two);
    }
    unreachable!("each choice was offered")
}

/// Two for a win of a side, and one for a tie.
fn points(outcome: Outcome, side: Side) -> u32 {
    match outcome.winner() {
        Some(winner) => 2 * u32::from(winner == side),
        None => 1,
    }
}

#[cfg(test)]
mod tests {
    use super::*;
    use gen1::{Team, member};

    /// A battle after its first update, in which Earthquake, the first choice, wins, and with Sonic Boom the foe wins.
    fn at_the_edge(seed: u8) -> Battle {
        let alone = |species, moves: &[&str]| {
            let mut member = member(species, moves).unwrap();
            member.level = 5;
            Team::new(&[member]).unwrap()
        };
        let one = alone("Diglett", &["Growl", "Sand Attack", "Earthquake", "Leer"]);
        let mut battle = Battle::new(&one, &alone("Magnemite", &["Sonic Boom"]), [seed; 10]);
        battle.update(Choice::Pass, Choice::Pass).unwrap();
        battle
    }

    #[test]
    fn the_winning_move_is_found_whatever_the_seed() {
        for seed in 0..20 {
            let battle = at_the_edge(seed);
            let tried = tried(
                Sight::Cheating(&battle),
                Side::One,
                &battle.choices(Side::One),
                16,
                &mut Random::new(1, seed.into()),
            );
            assert_eq!(best(&tried).to_string(), "move 3", "{tried:?}");
        }
    }

    #[test]
    fn trying_leaves_the_battle_alone_and_does_not_know_its_dice() {
        let (battle, before) = (at_the_edge(3), at_the_edge(3));
        let told = |battle: &Battle| {
            let choices = battle.choices(Side::One);
            tried(
                Sight::Cheating(battle),
                Side::One,
                &choices,
                8,
                &mut Random::new(1, 1),
            )
        };
        let first = told(&battle);
        assert_eq!(battle, before);
        // The bot can't distinguish the battle from a copy with other numbers to draw.
        let mut other = battle.clone();
        other.reseed([200; 10]);
        assert_eq!(first, told(&other));
    }

    #[test]
    fn of_equal_choices_the_first_is_taken() {
        let all = |won: [f64; 3]| {
            let choices = ["move 1", "move 2", "switch 2"].map(|text| text.parse().unwrap());
            best(&std::array::from_fn::<_, 3, _>(|at| Tried {
                choice: choices[at],
                won: won[at],
            }))
            .to_string()
        };
        assert_eq!(all([0.5, 0.5, 0.5]), "move 1");
        assert_eq!(all([0.5, 0.6, 0.6]), "move 2");
    }
}
