//! Choices as bytes or in words: `move 1`, `Body Slam`, `switch 3`, `switch Chansey`, `pass`.
use super::near::{Misfit, Typed, did_you_mean, nearest_name, nearest_word, shown};
use crate::screen;
use gen1::{Battle, Choice, ChoiceWords, MoveId, Side, Species, WordsFault};
use serde_json::Value;
use std::fmt;

/// A choice as the input has it. A name is looked up when the choice is made.
#[derive(Clone, Copy, Debug, PartialEq)]
pub enum Chosen {
    Byte(u8),
    Words(ChoiceWords),
}

const WORDS: [&str; 3] = ["move", "switch", "pass"];
const EXPECTED: &str = "a choice, such as \"move 1\", \"move Body Slam\", \"switch 3\" or \"pass\"";

const SLOT: &str = "a move slot from 0 to 4 after \"move\"";
const PLACE: &str = "a place from 1 to 6 after \"switch\"";
const NAMED_MOVE: &str = "a slot or the name of a move after \"move\"";
const NAMED_MEMBER: &str = "a place or the name of a species after \"switch\"";

impl Chosen {
    /// The choice in a text, which is a byte or words; otherwise the expected form.
    pub fn in_text(text: &str) -> Result<Chosen, String> {
        let text = text.trim();
        if let Ok(byte) = text.parse() {
            return Ok(Chosen::Byte(byte));
        }
        Chosen::in_words(text)
    }

    /// The choice in words; otherwise the expected form.
    fn in_words(text: &str) -> Result<Chosen, String> {
        let text = text.trim();
        text.parse().map(Chosen::Words).map_err(|_| {
            let (expected, meant) = expected(text);
            let (found, meant) = (shown(text), did_you_mean(meant));
            format!("expected {expected}, found {found}{meant}")
        })
    }

    /// The byte of the choice; a byte that is not offered if the side does not have the choice now.
    pub fn byte(&self, battle: &Battle, side: Side) -> u8 {
        match self {
            Chosen::Byte(byte) => *byte,
            Chosen::Words(words) => battle
                .choice_of_words(side, words)
                .map_or(255, Choice::byte),
        }
    }

    /// Why a side's choice is refused: the choice, and the offered choices.
    pub fn refused(&self, battle: &Battle, side: Side) -> String {
        let mut offered = battle.choices(side).to_vec();
        let may_be = match self {
            Chosen::Words(words)
                if battle.choice_of_words(side, words) == Err(WordsFault::Ambiguous) =>
            {
                offered.retain(|it| has_name(battle, side, *it, words));
                ", which may be"
            }
            _ => "; offered",
        };
        let offered: Vec<_> = offered
            .iter()
            .map(|it| screen::named(battle, side, *it))
            .collect();
        format!("chosen is {self}{may_be}: {}", offered.join(", "))
    }
}

/// The form that is expected of words that are not a choice, and the word or name that may be meant.
fn expected(text: &str) -> (&'static str, Option<&'static str>) {
    let (word, rest) = text.split_once(char::is_whitespace).unwrap_or((text, ""));
    let rest = rest.trim();
    let is_number = rest.bytes().all(|byte| byte.is_ascii_digit());
    match word.to_ascii_lowercase().as_str() {
        "move" | "switch" if rest.is_empty() => (EXPECTED, None),
        "move" if is_number => (SLOT, None),
        "switch" if is_number => (PLACE, None),
        "move" => (NAMED_MOVE, nearest_name::<MoveId>(rest)),
        "switch" => (NAMED_MEMBER, nearest_name::<Species>(rest)),
        _ => {
            let near = nearest_word(word, WORDS);
            (EXPECTED, near.or_else(|| nearest_name::<MoveId>(text)))
        }
    }
}

/// Whether a choice has the name that words give.
fn has_name(battle: &Battle, side: Side, choice: Choice, words: &ChoiceWords) -> bool {
    match words {
        ChoiceWords::MoveCalled(id) => move_of(battle, side, choice) == Some(*id),
        ChoiceWords::SwitchTo(species) => species_of(battle, side, choice) == Some(*species),
        _ => false,
    }
}

/// The move in the slot that a choice names; none for move 0.
pub fn move_of(battle: &Battle, side: Side, choice: Choice) -> Option<MoveId> {
    let Choice::Move(slot) = choice else {
        return None;
    };
    let state = battle.state();
    let moves = &state.side(side).member_out()?.moves;
    let known = moves.get(usize::from(slot.number()).checked_sub(1)?);
    known.map(|it| it.id)
}

/// The species that a choice sends out.
pub fn species_of(battle: &Battle, side: Side, choice: Choice) -> Option<Species> {
    let Choice::Switch(place) = choice else {
        return None;
    };
    let state = battle.state();
    let members = &state.side(side).members;
    members
        .get(usize::from(place.number()) - 1)
        .map(|it| it.species)
}

impl fmt::Display for Chosen {
    fn fmt(&self, f: &mut fmt::Formatter<'_>) -> fmt::Result {
        match self {
            Chosen::Byte(byte) => match Choice::from_byte(*byte) {
                Some(choice) => write!(f, "{byte} ({choice})"),
                None => write!(f, "{byte}, which is not a choice"),
            },
            Chosen::Words(words) => words.fmt(f),
        }
    }
}

impl Typed for Chosen {
    fn of(value: &Value) -> Result<Self, Misfit> {
        match value {
            Value::Number(_) => u8::of(value).map(Chosen::Byte),
            Value::String(text) => Chosen::in_words(text).map_err(Misfit::because),
            _ => Err(Misfit::new(
                value,
                "a whole number from 0 to 255, or a choice in words",
            )),
        }
    }
}

impl Default for Chosen {
    fn default() -> Self {
        Chosen::Byte(0)
    }
}
