//! The battle of a script, and clauses on what an action knows and draws.
use super::positions::{begun, single, write};
use super::words::{Unread, Words};
use gen1::generated::hits::Known;
use gen1::generated::layout::Packed;
use gen1::generated::machine::EventList;

/// What calls draw.
#[derive(Clone, Copy)]
pub(crate) enum Draws {
    /// The draws of a sweep from a byte.
    Sweep(u8),
    /// Link numbers: the index, and the ten.
    Link(u8, [u8; 10]),
    /// The draws of a sweep from a byte, and link numbers that rise from it: both must do the same. They are at most
    /// eight.
    Both(u8),
    /// The draws of a countdown from a byte.
    Countdown(u8),
}

/// What a call returned: a word, a number, or both.
#[derive(Clone, Copy, PartialEq, Eq, Debug)]
pub(crate) struct Answer<'a> {
    pub(crate) word: &'a str,
    pub(crate) number: Option<u16>,
}

/// What a call returns that returns nothing.
pub(crate) const NOTHING: Answer<'static> = Answer {
    word: "",
    number: None,
};

/// The battle of a script, what the last call did, and what the next one will draw.
pub(crate) struct Scene {
    pub(crate) battle: Packed,
    /// The battle before the last call.
    pub(crate) before: Packed,
    pub(crate) known: Known,
    /// What was known before the last call.
    pub(crate) knew: Known,
    pub(crate) events: EventList,
    pub(crate) answer: Answer<'static>,
    pub(crate) draws: Draws,
    /// How many bytes the last call drew, of link numbers modulo 9.
    pub(crate) drawn: u8,
}

impl Scene {
    /// A script that begins no battle has this one.
    pub(crate) fn new() -> Result<Scene, Unread> {
        Scene::of(single()?)
    }

    fn of(battle: Packed) -> Result<Scene, Unread> {
        Ok(Scene {
            before: battle.clone(),
            battle,
            known: Known::new(),
            knew: Known::new(),
            events: EventList::new(),
            answer: NOTHING,
            draws: Draws::Sweep(0),
            drawn: 0,
        })
    }

    /// A copy of the scene before a call, for another generator.
    pub(crate) fn twin(&self) -> Result<Scene, Unread> {
        let mut twin = Scene::of(self.battle.clone())?;
        twin.known = self.known;
        Ok(twin)
    }

    /// Does a clause that sets something: whether it is one.
    pub(crate) fn sets(&mut self, words: Words<'_>) -> Result<bool, Unread> {
        if let Some(battle) = begun(words)? {
            *self = Scene::of(battle)?;
            return Ok(true);
        }
        Ok(self.sets_before(words)? || self.sets_draws(words)? || write(&mut self.battle, words)?)
    }

    // What the next checks compare with, in place of the battle before the call.
    fn sets_before(&mut self, mut words: Words<'_>) -> Result<bool, Unread> {
        if words.word() != "against" {
            return Ok(false);
        }
        self.before = begun(words)?.ok_or(Unread)?;
        Ok(true)
    }

    fn sets_draws(&mut self, mut words: Words<'_>) -> Result<bool, Unread> {
        match words.word() {
            "from" => self.draws = Draws::Both(words.byte()?),
            "sweep" => self.draws = Draws::Sweep(words.byte()?),
            "countdown" => self.draws = Draws::Countdown(words.byte()?),
            "link" => self.draws = Draws::Link(0, numbers(words)?),
            "equal" => self.draws = Draws::Link(0, [words.byte()?; 10]),
            "knowing" => self.known = learned(Known::new(), words)?,
            _ => return Ok(false),
        }
        Ok(true)
    }
}

/// Up to ten numbers, and zeros after them.
pub(crate) fn numbers(mut words: Words<'_>) -> Result<[u8; 10], Unread> {
    let mut numbers = [0; 10];
    for place in numbers.iter_mut() {
        if !words.is_empty() {
            *place = words.byte()?;
        }
    }
    Ok(numbers)
}

/// What is known with some more of it, in items.
pub(crate) fn learned(before: Known, words: Words<'_>) -> Result<Known, Unread> {
    let mut known = before;
    for item in words.items().split(',') {
        learn(&mut known, words.of_item(item))?;
    }
    Ok(known)
}

fn learn(known: &mut Known, mut words: Words<'_>) -> Result<(), Unread> {
    match words.word() {
        "" => {}
        "going_on" => known.going_on = true,
        "missed" => known.missed = true,
        "critical" => known.critical = true,
        "through_types" => known.through_types = true,
        "broke" => known.broke = true,
        "skips" => known.skips = true,
        "made" => known.hits_made = words.byte()?,
        "planned" => known.hits_planned = words.count()?,
        "tested" => known.accuracy_tested = words.count()?,
        _ => return Err(Unread),
    }
    Ok(())
}
