//! Tests of `gen1_tables`, `gen1_rolls`, `gen1_stats`, `gen1_text`, `gen1_writer`, `gen1_machine`, `gen1_layout` and
//! `gen1_states`, through their public functions. Expected values come from docs/TABLES.md, docs/MECHANICS.md,
//! docs/TEAM_TEXT.md and docs/LAYOUT.md.
//!
//! - `tables`: rows of each table
//! - `teams`: worked stats, and refusals
//! - `export_texts`: export texts
//! - `packed_lines`: packed lines, and teams written as text
//! - `values`: ranges, bytes, draws and numbers, and devices that fail
//! - `fields`: each reader and writer of the 384 bytes, and members by their places
//! - `loading`: each field at the ends of its range, and past them
//! - `states`: plain states, and their fields at the ends of their ranges
//! - `comparing`: what the tests compare, and the member of the tests of bytes

mod comparing;
mod export_texts;
mod fields;
mod loading;
mod packed_lines;
mod states;
mod tables;
mod teams;
mod values;
