//! Events in plain numbers, as rows have them. Levels are 100.
use gen1::generated::machine::{
    CantReason, DamageSource, Event, FaultCode, Health, Kind, Level, Place, Side, StageCount,
    TurnNumber, Volatile, Who,
};
use gen1::generated::tables::{MoveId, Species, Stat};
use std::error::Error;

pub(crate) const ONE: Side = Side::One;

pub(crate) const TWO: Side = Side::Two;

pub(crate) const TAUROS: u8 = 128;

pub(crate) const STARMIE: u8 = 121;

pub(crate) const CHANSEY: u8 = 113;

/// An event. A member that is out is named by its side.
#[derive(Clone, Copy)]
pub(crate) enum Tell {
    /// A member comes out: its species, its place, its HP and greatest HP, and its status.
    Switch(Side, u8, u8, u16, u16, Option<Kind>),
    Move(Side, u8),
    Cant(Side, CantReason),
    /// HP and greatest HP.
    Damage(Side, u16, u16, DamageSource),
    Heal(Side, u16, u16, Option<Kind>),
    Status(Side, Kind),
    Cure(Side, Kind),
    Boost(Side, Stat, u8),
    Unboost(Side, Stat, u8),
    ClearAll,
    Start(Side, Volatile),
    End(Side, Volatile),
    Activate(Side, Volatile),
    Prepare(Side, u8),
    MustRecharge(Side),
    Faint(Side),
    Turn(u16),
    Win(Side),
    Tie,
    Fault(u8),
}

/// The event, where these species are out.
pub(crate) fn event(tell: Tell, out: [u8; 2]) -> Result<Event, Box<dyn Error>> {
    match tell {
        Tell::Switch(side, species, place, hp, max, kind) => {
            let place = Place::new(place).ok_or("no such place")?;
            let level = Level::new(100).ok_or("no such level")?;
            Ok(Event::Switch(
                who(side, species)?,
                place,
                level,
                health(hp, max, kind)?,
            ))
        }
        Tell::Move(side, id) => {
            let foe = active(side.other(), out)?;
            Ok(Event::Move(active(side, out)?, move_of(id)?, foe))
        }
        Tell::Damage(side, hp, max, source) => Ok(Event::Damage(
            active(side, out)?,
            health(hp, max, None)?,
            source,
        )),
        Tell::Heal(side, hp, max, kind) => {
            Ok(Event::Heal(active(side, out)?, health(hp, max, kind)?))
        }
        Tell::ClearAll => Ok(Event::ClearAll),
        Tell::Turn(number) => Ok(Event::Turn(TurnNumber::new(number).ok_or("no such turn")?)),
        Tell::Win(side) => Ok(Event::Win(side)),
        Tell::Tie => Ok(Event::Tie),
        Tell::Fault(code) => Ok(Event::Fault(FaultCode::new(code).ok_or("no such fault")?)),
        _ => event_of_one(tell, out),
    }
}

// An event of one member that is out.
fn event_of_one(tell: Tell, out: [u8; 2]) -> Result<Event, Box<dyn Error>> {
    match tell {
        Tell::Cant(side, why) => Ok(Event::Cant(active(side, out)?, why)),
        Tell::Status(side, kind) => Ok(Event::Status(active(side, out)?, kind)),
        Tell::Cure(side, kind) => Ok(Event::Cure(active(side, out)?, kind)),
        Tell::Boost(side, stat, count) => {
            Ok(Event::Boost(active(side, out)?, stat, stages(count)?))
        }
        Tell::Unboost(side, stat, count) => {
            Ok(Event::Unboost(active(side, out)?, stat, stages(count)?))
        }
        Tell::Start(side, what) => Ok(Event::Start(active(side, out)?, what)),
        Tell::End(side, what) => Ok(Event::End(active(side, out)?, what)),
        Tell::Activate(side, what) => Ok(Event::Activate(active(side, out)?, what)),
        Tell::Prepare(side, id) => Ok(Event::Prepare(active(side, out)?, move_of(id)?)),
        Tell::MustRecharge(side) => Ok(Event::MustRecharge(active(side, out)?)),
        Tell::Faint(side) => Ok(Event::Faint(active(side, out)?)),
        _ => Ok(Event::Tie),
    }
}

fn who(side: Side, species: u8) -> Result<Who, Box<dyn Error>> {
    let species = Species::new(species).ok_or("no such species")?;
    Ok(Who { side, species })
}

fn active(side: Side, out: [u8; 2]) -> Result<Who, Box<dyn Error>> {
    match side {
        Side::One => who(side, out[0]),
        Side::Two => who(side, out[1]),
    }
}

fn health(hp: u16, max: u16, kind: Option<Kind>) -> Result<Health, Box<dyn Error>> {
    Ok(Health::new(hp, max, kind).ok_or("no such health")?)
}

fn move_of(id: u8) -> Result<MoveId, Box<dyn Error>> {
    Ok(MoveId::new(id).ok_or("no such move")?)
}

fn stages(count: u8) -> Result<StageCount, Box<dyn Error>> {
    Ok(StageCount::new(count).ok_or("no such count")?)
}
