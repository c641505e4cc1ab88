//! Objects for programs (docs/PROGRAM.md, "Objects"): updates, events, choices and draws.
use crate::game::Step;
use crate::game::drawn;
use crate::screen;
use gen1::{
    Battle, BattleResult, CantReason, DamageSource, Event, Health, Kind, MoveId, Side, Species,
    Stat, Volatile, Who,
};
use serde::Serialize;

/// An update of a battle.
#[derive(Serialize)]
pub struct UpdateObject {
    /// The number of the pair, from 0.
    number: usize,
    turn: u16,
    choices: [String; 2],
    events: Vec<EventObject>,
    result: BattleResult,
    /// The choices of both sides for the next update.
    offered: [Vec<OfferedObject>; 2],
    /// The bytes that the update drew, in order.
    draws: Vec<u8>,
}

impl UpdateObject {
    pub fn of(step: &Step) -> UpdateObject {
        UpdateObject {
            number: step.number,
            turn: turn_of(step.after),
            choices: step.choices.map(|choice| choice.to_string()),
            events: step.events.iter().map(EventObject::of).collect(),
            result: step.result,
            offered: offered(step.after),
            draws: drawn(step.before, step.after),
        }
    }
}

/// The turn of a battle, which is in its second and third byte (docs/LAYOUT.md).
pub fn turn_of(battle: &Battle) -> u16 {
    let [_, low, high, ..] = battle.as_bytes();
    u16::from_le_bytes([*low, *high])
}

/// A choice that is offered, and the name of its move or member.
#[derive(Serialize)]
pub struct OfferedObject {
    choice: String,
    #[serde(skip_serializing_if = "Option::is_none")]
    name: Option<&'static str>,
}

/// The choices of both sides.
pub fn offered(battle: &Battle) -> [Vec<OfferedObject>; 2] {
    Side::BOTH.map(|side| {
        let choices = battle.choices(side).into_iter();
        let named = choices.map(|it| OfferedObject {
            choice: it.to_string(),
            name: screen::name_of(battle, side, it),
        });
        named.collect()
    })
}

/// An event with its name and fields. A field that the event does not have is left out.
#[derive(Default, Serialize)]
#[serde(default)]
pub struct EventObject {
    event: &'static str,
    #[serde(skip_serializing_if = "Option::is_none")]
    side: Option<u8>,
    #[serde(skip_serializing_if = "Option::is_none")]
    species: Option<Species>,
    #[serde(skip_serializing_if = "Option::is_none")]
    place: Option<u8>,
    #[serde(skip_serializing_if = "Option::is_none")]
    level: Option<u8>,
    #[serde(skip_serializing_if = "Option::is_none")]
    hp: Option<u16>,
    #[serde(skip_serializing_if = "Option::is_none")]
    max_hp: Option<u16>,
    #[serde(skip_serializing_if = "Option::is_none")]
    status: Option<Kind>,
    #[serde(rename = "move", skip_serializing_if = "Option::is_none")]
    used: Option<MoveId>,
    #[serde(skip_serializing_if = "Option::is_none")]
    foe: Option<Species>,
    #[serde(skip_serializing_if = "Option::is_none")]
    reason: Option<CantReason>,
    #[serde(skip_serializing_if = "Option::is_none")]
    source: Option<DamageSource>,
    #[serde(skip_serializing_if = "Option::is_none")]
    stat: Option<Stat>,
    #[serde(skip_serializing_if = "Option::is_none")]
    stages: Option<u8>,
    #[serde(skip_serializing_if = "Option::is_none")]
    volatile: Option<Volatile>,
    #[serde(skip_serializing_if = "Option::is_none")]
    hits: Option<u8>,
    #[serde(skip_serializing_if = "Option::is_none")]
    turn: Option<u16>,
    #[serde(skip_serializing_if = "Option::is_none")]
    fault: Option<u8>,
}

/// An event with a name and some of its fields.
macro_rules! event {
    ($name:literal $(, $field:ident: $value:expr)*) => {
        EventObject { event: $name, $($field: Some($value),)* ..EventObject::default() }
    };
}

impl EventObject {
    pub fn of(event: &Event) -> EventObject {
        match event {
            Event::Tie => event!("Tie"),
            Event::ClearAll => event!("ClearAll"),
            Event::OneHitKnockOut => event!("OneHitKnockOut"),
            Event::Turn(turn) => event!("Turn", turn: turn.number()),
            Event::Win(side) => event!("Win", side: side.number()),
            Event::Fault(code) => event!("Fault", fault: code.number()),
            other => other.who().map_or_else(EventObject::default, |who| {
                EventObject::of_member(other).who(who)
            }),
        }
    }

    /// An event of a member, without the member.
    fn of_member(event: &Event) -> EventObject {
        match event {
            Event::Crit(_) => event!("Crit"),
            Event::SuperEffective(_) => event!("SuperEffective"),
            Event::Resisted(_) => event!("Resisted"),
            Event::Immune(_) => event!("Immune"),
            Event::Miss(_) => event!("Miss"),
            Event::Fail(_) => event!("Fail"),
            Event::MustRecharge(_) => event!("MustRecharge"),
            Event::Faint(_) => event!("Faint"),
            Event::Move(_, id, foe) => event!("Move", used: *id, foe: foe.species),
            Event::Cant(_, reason) => event!("Cant", reason: *reason),
            Event::Status(_, kind) => event!("Status", status: *kind),
            Event::Cure(_, kind) => event!("Cure", status: *kind),
            Event::Boost(_, stat, by) => event!("Boost", stat: *stat, stages: by.number()),
            Event::Unboost(_, stat, by) => event!("Unboost", stat: *stat, stages: by.number()),
            Event::Start(_, it) => event!("Start", volatile: *it),
            Event::End(_, it) => event!("End", volatile: *it),
            Event::Activate(_, it) => event!("Activate", volatile: *it),
            Event::Prepare(_, id) => event!("Prepare", used: *id),
            Event::HitCount(_, hits) => event!("HitCount", hits: hits.number()),
            other => EventObject::of_health(other),
        }
    }

    /// An event that reports a member's health.
    fn of_health(event: &Event) -> EventObject {
        let object = match event {
            Event::Switch(_, place, level, _) => {
                event!("Switch", place: place.number(), level: level.number())
            }
            Event::Damage(_, _, source) => event!("Damage", source: *source),
            _ => event!("Heal"),
        };
        match event.health() {
            Some(health) => object.health(health),
            None => object,
        }
    }

    fn who(self, who: Who) -> EventObject {
        EventObject {
            side: Some(who.side.number()),
            species: Some(who.species),
            ..self
        }
    }

    fn health(self, it: Health) -> EventObject {
        EventObject {
            hp: Some(it.hp()),
            max_hp: Some(it.max()),
            status: it.kind(),
            ..self
        }
    }
}

/// A value as one line of JSON.
pub fn line_of(value: &impl Serialize) -> String {
    // Every object of the program has texts as keys, so that it can be serialized.
    serde_json::to_string(value).unwrap_or_default() + "\n"
}
