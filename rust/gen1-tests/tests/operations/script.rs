//! Tests as text: each line of a script is a case, of clauses with `;` between them that are done in their order.
//!
//! - `words`: the words of a clause, and the tables of names that represent values
//! - `positions`: a clause that begins a battle, as `pair Tauros`, or writes a field, as `two.hp 50`
//! - `scene`: the battle, and clauses on what an action knows and draws
//! - `calls`: a clause that calls an operation, as `hits Take Down`
//! - `checks`: a clause that compares, as `told damage two 253/353`
//!
//! A table has a row of names and rows of values, with `|` between them. A script is played once for each row of
//! values, and a word `$name` represents the row's value.
mod calls;
mod checks;
mod positions;
mod scene;
mod words;

use gen1::generated::layout::Packed;
use scene::Scene;
use std::error::Error;
use words::{Clause, Row, Unread, Words};

/// Plays a script once.
pub(crate) fn play(script: &str) {
    play_row(script, Row::new("", ""));
}

/// Plays a script once for each row of a table.
pub(crate) fn play_each(table: &str, script: &str) {
    if let Some((names, rows)) = table.split_once('\n') {
        for values in rows.lines() {
            play_row(script, Row::new(names, values));
        }
    }
}

/// The battle that clauses set up.
pub(crate) fn set_up(clauses: &str) -> Result<Packed, Box<dyn Error>> {
    let mut scene = Scene::new().ok().ok_or("no first battle")?;
    for part in clauses.split(';') {
        let words = Words::new(part.trim(), Row::new("", ""));
        if !scene.sets(words).ok().ok_or("no such battle")? {
            Err("no such field")?;
        }
    }
    Ok(scene.battle.clone())
}

fn play_row(script: &str, row: Row<'_>) {
    let mut scene = Scene::new().expect("a first battle");
    for line in script.lines() {
        play_line(&mut scene, line.trim(), row);
    }
}

fn play_line(scene: &mut Scene, line: &str, row: Row<'_>) {
    for part in line.split(';') {
        let words = Words::new(part.trim(), row);
        let clause = Clause::new(line, words);
        let is_read = done(scene, clause, words).is_ok();
        assert!(is_read, "not read: {clause}");
    }
}

// Does a clause: a check, one that sets something, or a call.
fn done(scene: &mut Scene, clause: Clause<'_>, words: Words<'_>) -> Result<(), Unread> {
    if words.is_empty() || scene.checks(clause, words)? || scene.sets(words)? {
        return Ok(());
    }
    scene.plays(clause, words)
}
