//! Tests of `gen1_offers`, `gen1_switching`, `gen1_turn`, `gen1_engine`, `gen1_events`, `gen1_printer` and `gen1_sentences`, through
//! their public functions. Most are rows: tables of battles and calls that a few functions play.
//!
//! - `rows`: what a row is, and how it is played
//! - `switching_in`: members that come out, and the end of an update
//! - `choices`: what may be chosen
//! - `turns`: whole turns
//! - `actions`: actions of one side
//! - `recorded`: recorded battles, and how they are played
//! - `recorded_battles`: their rows
//! - `battles`: the calls of a battle
//! - `replays`: a run that is replayed to writers, also to some that fail
//! - `events`: codes, cuts and errors of log bytes
//! - `lines`: lines, cuts and errors, and sentences for a spectator and for a side

mod actions;
mod battles;
mod choices;
mod events;
mod lines;
mod recorded;
mod recorded_battles;
mod replays;
mod rows;
mod switching_in;
mod turns;
