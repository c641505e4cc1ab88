//! The updates of an input: its choices, played, and the numbers that each drew (docs/MECHANICS.md, "Link numbers").
use crate::fault::Fault;
use crate::input::chosen::Chosen;
use gen1::{Battle, BattleResult, Choice, EventList, Refusal, Side};

/// An update of a battle.
pub struct Step<'a> {
    /// The number of the pair, from 0.
    pub number: usize,
    pub before: &'a Battle,
    pub after: &'a Battle,
    /// The choices of both sides.
    pub choices: [Choice; 2],
    pub events: &'a EventList,
    pub result: BattleResult,
}

/// Plays pairs of choices, passes each update to `then`, and leaves the battle after the last one that was accepted.
///
/// # Errors
///
/// The first pair that is refused, or the first error of `then`.
pub fn play(
    battle: &mut Battle,
    pairs: &[[Chosen; 2]],
    mut then: impl FnMut(&Step) -> Result<(), Fault>,
) -> Result<(), Fault> {
    let mut events = EventList::new();
    for (number, pair) in pairs.iter().enumerate() {
        let before = battle.clone();
        let [one, two] = bytes_of(&before, pair);
        let result = battle
            .update_with(one, two, &mut events)
            .map_err(|why| refused(&before, number, why, pair))?;
        then(&Step {
            number,
            before: &before,
            after: battle,
            // A byte that was accepted is a choice.
            choices: [one, two].map(|byte| Choice::from_byte(byte).unwrap_or_default()),
            events: &events,
            result,
        })?;
    }
    Ok(())
}

/// The bytes of a pair. A choice that matches nothing becomes a byte that is not offered.
fn bytes_of(battle: &Battle, pair: &[Chosen; 2]) -> [u8; 2] {
    [
        pair[0].byte(battle, Side::One),
        pair[1].byte(battle, Side::Two),
    ]
}

/// The error of a pair, with the choice and the offered choices.
fn refused(battle: &Battle, number: usize, why: Refusal, pair: &[Chosen; 2]) -> Fault {
    let more = match why {
        Refusal::Over => format!(", {}", battle.outcome()),
        Refusal::NotOffered(side) => {
            let chosen = if side == Side::One {
                &pair[0]
            } else {
                &pair[1]
            };
            format!(": {}", chosen.refused(battle, side))
        }
    };
    Fault::pair(number, why, &more)
}

/// How many numbers are drawn in turn.
pub const NUMBERS: usize = 9;
/// No update draws more numbers (docs/PROVED.md).
const MOST: usize = 4700;
/// The offsets of the index of the next number, and of the first number, in a battle's bytes (docs/LAYOUT.md).
const INDEX: usize = 5;
const FIRST: usize = 6;

/// The index of the number that is drawn next, and the nine numbers.
fn drawing(battle: &Battle) -> (usize, [u8; NUMBERS]) {
    let bytes = battle.as_bytes();
    (
        usize::from(bytes[INDEX]),
        std::array::from_fn(|at| bytes[FIRST + at]),
    )
}

/// The bytes that were drawn between a battle and the same battle after one update.
pub fn drawn(before: &Battle, after: &Battle) -> Vec<u8> {
    let ((mut index, mut numbers), goal) = (drawing(before), drawing(after));
    let mut found = Vec::new();
    while (index, numbers) != goal && found.len() <= MOST {
        found.push(numbers[index]);
        index += 1;
        if index == NUMBERS {
            index = 0;
            numbers = numbers.map(|it| it.wrapping_mul(5).wrapping_add(1));
        }
    }
    found
}

/// A copy of a battle in which the draw with this number, from 0 to 8, gives another byte.
pub fn with_draw(battle: &Battle, at: usize, byte: u8) -> Option<Battle> {
    let (index, _) = drawing(battle);
    let mut bytes = *battle.as_bytes();
    // Draws after the ninth number are renewed; this is the number that becomes `byte` when renewed.
    let renewed = index + at >= NUMBERS;
    let number = if renewed {
        byte.wrapping_sub(1).wrapping_mul(205)
    } else {
        byte
    };
    bytes[FIRST + (index + at) % NUMBERS] = number;
    Battle::from_bytes(&bytes).ok()
}
