//! `gen1 explain`: a battle in sentences, with each draw, its effect, and the effect that another byte would have had.
//!
//! The effect of a draw is found by trial: copies of the battle, in which the draw gives another byte, are updated.
use crate::fault::Fault;
use crate::files::put;
use crate::game::{self, NUMBERS, Step, drawn, with_draw};
use crate::input::Given;
use crate::screen;
use crate::words::Battle;
use clap::Args;
use gen1::{Event, EventList, Narrator, Side};

/// The arguments of `explain`.
#[derive(Args)]
pub struct Explain {
    #[command(flatten)]
    pub battle: Battle,
}

/// How many ranges of bytes are listed in full.
const RANGES: usize = 8;

/// Prints each update of a battle.
pub fn explain(given: &Given) -> Result<(), Fault> {
    let (start, pairs) = given.start_and_choices()?;
    let mut battle = start.battle;
    let mut narrator = Narrator::default();
    game::play(&mut battle, &pairs, |step| put(update(step, &mut narrator)))
}

/// An update: its choices, its events in sentences, and its draws.
fn update(step: &Step, narrator: &mut Narrator) -> String {
    let [one, two] = step.choices;
    let named = |side, choice| screen::named(step.before, side, choice);
    let (one, two) = (named(Side::One, one), named(Side::Two, two));
    let gap = if step.number > 0 { "\n" } else { "" };
    let mut text = format!("{gap}Update {}: side 1 {one}, side 2 {two}.\n", step.number);
    let before = narrator.clone();
    for event in step.events {
        text += &format!("  {}\n", narrator.say(event));
    }
    for (at, byte) in drawn(step.before, step.after).into_iter().enumerate() {
        text += &format!("    draw {} is {byte}", at + 1);
        text += &decided(step, &before, at);
    }
    text
}

/// The effect of a draw.
fn decided(step: &Step, before: &Narrator, at: usize) -> String {
    if at >= NUMBERS {
        return ": a number of this update again, renewed\n".into();
    }
    let others = others(step, before, at);
    if others.is_empty() {
        return ": no other byte would have changed the events\n".into();
    }
    let lines = others
        .iter()
        .map(|(said, bytes)| format!("      {}: {said}\n", ranges(bytes)));
    format!("; with another byte:\n{}", lines.collect::<String>())
}

/// The effects that other bytes would have had, in the order of their first bytes.
fn others(step: &Step, before: &Narrator, at: usize) -> Vec<(String, Vec<u8>)> {
    let mut ways: Vec<(String, Vec<u8>)> = Vec::new();
    let mut events = EventList::new();
    for byte in 0..=255 {
        let Some(mut battle) = with_draw(step.before, at, byte) else {
            continue;
        };
        let [one, two] = step.choices;
        // The choices that are offered do not depend on the numbers.
        if battle.update_with(one, two, &mut events).is_err() {
            continue;
        }
        let said = difference(before.clone(), step.events, &events);
        match ways.iter_mut().find(|(known, _)| *known == said) {
            _ if said.is_empty() => (),
            Some((_, bytes)) => bytes.push(byte),
            None => ways.push((said, vec![byte])),
        }
    }
    ways
}

/// The first difference between two lists of events; empty if they are the same.
fn difference(mut narrator: Narrator, told: &[Event], other: &[Event]) -> String {
    let same = told.iter().zip(other).take_while(|(one, two)| one == two);
    let count = same.map(|(event, _)| narrator.say(event)).count();
    match (told.get(count), other.get(count)) {
        (Some(one), Some(two)) if changes_hp(one) && changes_hp(two) && one.who() == two.who() => {
            one.who().map_or_else(String::new, |who| {
                format!("side {}'s {} has other HP", who.side, who.species)
            })
        }
        (Some(one), Some(two)) => {
            let instead = narrator.clone().say(two);
            format!("instead of \"{}\": {instead}", narrator.say(one))
        }
        (Some(more), None) => format!("without \"{}\"", narrator.say(more)),
        (None, Some(more)) => format!("then also: {}", narrator.say(more)),
        (None, None) => String::new(),
    }
}

fn changes_hp(event: &Event) -> bool {
    matches!(event, Event::Damage(..) | Event::Heal(..))
}

/// Numbers in rising order as ranges, `0-56, 60`; of many ranges only the first few.
fn ranges(numbers: &[u8]) -> String {
    let runs: Vec<_> = numbers.chunk_by(|one, two| one + 1 == *two).collect();
    let text = |run: &&[u8]| match run {
        [one] => one.to_string(),
        [first, .., last] => format!("{first}-{last}"),
        [] => String::new(),
    };
    match runs.len() {
        count if count > RANGES => {
            let first: Vec<_> = runs[..RANGES / 2].iter().map(text).collect();
            format!("{}, .. ({} of 256)", first.join(", "), numbers.len())
        }
        _ => runs.iter().map(text).collect::<Vec<_>>().join(", "),
    }
}

#[cfg(test)]
mod tests {
    use super::ranges;

    #[test]
    fn ranges_of_bytes() {
        assert_eq!(ranges(&[0, 1, 2, 60]), "0-2, 60");
        let odd: Vec<u8> = (0..20).map(|it| 2 * it).collect();
        assert_eq!(ranges(&odd), "0, 2, 4, 6, .. (20 of 256)");
        assert_eq!(ranges(&[254, 255]), "254-255");
    }
}
