//! Clauses that compare what the last call did, or a field. `told` names all events, as in `damage two 253/353 psn by
//! recoil`.
use super::calls::source_of;
use super::positions::write;
use super::scene::{Answer, Draws, Scene, learned, numbers};
use super::words::{Clause, Unread, Words, among, number_of};
use crate::comparing::bytes_of;
use gen1::generated::layout::Packed;
use gen1::generated::machine::{
    CantReason, DamageSource, Event, EventList, Health, HitCount, StageCount, Volatile, Who,
};

impl Scene {
    /// Does a clause that compares: whether it is one.
    pub(crate) fn checks(&self, clause: Clause<'_>, mut words: Words<'_>) -> Result<bool, Unread> {
        match words.word() {
            "told" => self.told(clause, events_of(&self.battle, words)?),
            "gives" => self.gives(clause, words)?,
            "draws" => assert_eq!(self.drawn, words.byte()?, "{clause}"),
            "becomes" => {
                let expected = written(self.before.clone(), words)?;
                same_bytes(clause, &self.battle, &expected);
            }
            "bytes" => self.has_bytes(clause, words)?,
            "is" => {
                let expected = written(self.battle.clone(), words)?;
                same_bytes(clause, &self.battle, &expected);
            }
            "knows" => assert_eq!(self.known, learned(self.knew, words)?, "{clause}"),
            "ring" => self.has_ring(clause, words)?,
            _ => return Ok(false),
        }
        Ok(true)
    }

    // Whether both generators did the same.
    pub(crate) fn is_like(&self, clause: Clause<'_>, twin: &Scene) {
        same_bytes(clause, &self.battle, &twin.battle);
        assert_eq!(self.events.as_slice(), twin.events.as_slice(), "{clause}");
        assert_eq!(self.known, twin.known, "{clause}");
        assert_eq!(self.answer, twin.answer, "{clause}");
        assert_eq!(self.drawn, twin.drawn, "{clause}");
    }

    fn told(&self, clause: Clause<'_>, expected: EventList) {
        assert_eq!(self.events.as_slice(), expected.as_slice(), "{clause}");
    }

    // A word, a number, or both.
    fn gives(&self, clause: Clause<'_>, mut words: Words<'_>) -> Result<(), Unread> {
        let first = words.word();
        let (word, number) = match first.parse::<u16>() {
            Ok(number) => ("", Some(number)),
            Err(_) => (first, number_after(words)?),
        };
        assert_eq!(self.answer, Answer { word, number }, "{clause}");
        Ok(())
    }

    // The bytes of the battle before the last call, with other bytes at some places, as in `bytes 3=44, 4=1`.
    fn has_bytes(&self, clause: Clause<'_>, words: Words<'_>) -> Result<(), Unread> {
        let mut expected = bytes_of(&self.before);
        for item in words.items().split(',') {
            if let Some((place, byte)) = item.split_once('=') {
                let place = usize::from(number_of(place.trim())?);
                let there = expected.get_mut(place).ok_or(Unread)?;
                *there = words.of_item(byte).byte()?;
            } else if !item.is_empty() {
                return Err(Unread);
            }
        }
        assert_eq!(bytes_of(&self.battle), expected, "{clause}");
        Ok(())
    }

    // Link numbers: their index, and the ten.
    fn has_ring(&self, clause: Clause<'_>, mut words: Words<'_>) -> Result<(), Unread> {
        let expected = (words.byte()?, numbers(words)?);
        match self.draws {
            Draws::Link(index, ten) => assert_eq!((index, ten), expected, "{clause}"),
            _ => return Err(Unread),
        }
        Ok(())
    }
}

fn number_after(mut words: Words<'_>) -> Result<Option<u16>, Unread> {
    if words.is_empty() {
        return Ok(None);
    }
    Ok(Some(words.number()?))
}

// A battle after writes, in items.
fn written(mut battle: Packed, words: Words<'_>) -> Result<Packed, Unread> {
    for item in words.items().split(',') {
        let of_item = words.of_item(item);
        if !of_item.is_empty() && !write(&mut battle, of_item)? {
            return Err(Unread);
        }
    }
    Ok(battle)
}

fn same_bytes(clause: Clause<'_>, found: &Packed, expected: &Packed) {
    assert_eq!(bytes_of(found), bytes_of(expected), "{clause}");
}

const REASONS: [(&str, CantReason); 7] = [
    ("slp", CantReason::Asleep),
    ("frz", CantReason::Frozen),
    ("trapped", CantReason::PartiallyTrapped),
    ("flinch", CantReason::Flinched),
    ("recharge", CantReason::Recharging),
    ("Disable", CantReason::Disabled),
    ("par", CantReason::Paralysed),
];

const VOLATILES: [(&str, Volatile); 12] = [
    ("confusion", Volatile::Confusion),
    ("Bide", Volatile::Bide),
    ("Substitute", Volatile::Substitute),
    ("Leech Seed", Volatile::LeechSeed),
    ("Mist", Volatile::Mist),
    ("Focus Energy", Volatile::FocusEnergy),
    ("Light Screen", Volatile::LightScreen),
    ("Reflect", Volatile::Reflect),
    ("Disable", Volatile::Disable),
    ("typechange", Volatile::TypeChange),
    ("Rage", Volatile::Rage),
    ("Splash", Volatile::Splash),
];

// The events of a list of items, which may be empty.
fn events_of(battle: &Packed, words: Words<'_>) -> Result<EventList, Unread> {
    let mut events = EventList::new();
    for item in words.items().split(',') {
        let of_item = words.of_item(item);
        if !of_item.is_empty() {
            let event = event_of(battle, of_item)?;
            events.try_push(event).ok().ok_or(Unread)?;
        }
    }
    Ok(events)
}

fn event_of(battle: &Packed, mut words: Words<'_>) -> Result<Event, Unread> {
    let word = words.word();
    match word {
        "clear" => return Ok(Event::ClearAll),
        "ohko" => return Ok(Event::OneHitKnockOut),
        _ => {}
    }
    let who = battle.who(words.side()?);
    Ok(match word {
        "crit" => Event::Crit(who),
        "super" => Event::SuperEffective(who),
        "resisted" => Event::Resisted(who),
        "immune" => Event::Immune(who),
        "miss" => Event::Miss(who),
        "fail" => Event::Fail(who),
        "recharge" => Event::MustRecharge(who),
        _ => with_more(who, word, words)?,
    })
}

// The event of a member with one more field.
fn with_more(who: Who, word: &str, mut words: Words<'_>) -> Result<Event, Unread> {
    Ok(match word {
        "damage" => damage(who, words)?,
        "heal" => Event::Heal(who, health(&mut words)?),
        "status" => Event::Status(who, words.kind()?),
        "cure" => Event::Cure(who, words.kind()?),
        "boost" => Event::Boost(who, words.stat()?, stages(words.byte()?)?),
        "unboost" => Event::Unboost(who, words.stat()?, stages(words.byte()?)?),
        "start" => Event::Start(who, among(&VOLATILES, words.all())?),
        "end" => Event::End(who, among(&VOLATILES, words.all())?),
        "activate" => Event::Activate(who, among(&VOLATILES, words.all())?),
        "prepare" => Event::Prepare(who, words.id()?),
        "cant" => Event::Cant(who, among(&REASONS, words.word())?),
        "count" => Event::HitCount(who, HitCount::new(words.byte()?).ok_or(Unread)?),
        _ => return Err(Unread),
    })
}

fn stages(count: u8) -> Result<StageCount, Unread> {
    StageCount::new(count).ok_or(Unread)
}

// HP of the maximum, and perhaps a status.
fn health(words: &mut Words<'_>) -> Result<Health, Unread> {
    let (hp, max) = words.word().split_once('/').ok_or(Unread)?;
    let (hp, max) = (number_of(hp)?, number_of(max)?);
    let mut after = *words;
    let kind = after.kind().ok();
    if kind.is_some() {
        *words = after;
    }
    Health::new(hp, max, kind).ok_or(Unread)
}

// A health, and perhaps what the damage is by.
fn damage(who: Who, mut words: Words<'_>) -> Result<Event, Unread> {
    let health = health(&mut words)?;
    let source = match words.word() {
        "by" => source_of(words.word())?,
        _ => DamageSource::Direct,
    };
    Ok(Event::Damage(who, health, source))
}
