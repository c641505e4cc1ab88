//! Tests of `gen1_spectator`, `gen1_player` and `gen1_room`, through their public functions: what a spectator sees, what a player
//! knows, and how a room passes choices on.
//!
//! - `battles`: views and bytes of whole battles
//! - `views`: what each event changes of a spectator's view, and one that follows log bytes
//! - `hosts`: tables
//! - `public`: what each event makes public
//! - `players`: what a player knows, and what a side is shown of itself
//! - `rooms`: rooms
//! - `plain_rooms`: rooms that their caller keeps, and forfeits
//! - `teams`: the teams of these tests
//! - `events`: events in plain numbers

mod battles;
mod events;
mod hosts;
mod plain_rooms;
mod players;
mod public;
mod rooms;
mod teams;
mod views;
