//! The two sides, and what tests compare.
use gen1::generated::layout::Packed;
use gen1::generated::machine::{Event, EventList, Side};
use gen1::generated::tables::{MoveId, Species};
use std::error::Error;

pub(crate) const USER: Side = Side::One;

pub(crate) const FOE: Side = Side::Two;

pub(crate) fn named(name: &str) -> Result<MoveId, Box<dyn Error>> {
    Ok(MoveId::from_name(name).ok_or("no such move")?)
}

pub(crate) fn species(name: &str) -> Result<Species, Box<dyn Error>> {
    Ok(Species::from_name(name).ok_or("no such species")?)
}

pub(crate) fn bytes_of(battle: &Packed) -> [u8; 384] {
    let mut bytes = [0; 384];
    for (place, byte) in bytes.iter_mut().zip(battle.as_bytes()) {
        *place = *byte;
    }
    bytes
}

// Asserts that these are the events.
pub(crate) fn assert_told(events: &EventList, told: &[Event]) {
    assert_eq!(events.as_slice(), told);
}
