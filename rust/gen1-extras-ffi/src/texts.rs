//! Results as JSON texts.
use alloc::format;
use alloc::string::{String, ToString};
use alloc::vec::Vec;
use gen1::{Battle, Side};
use gen1_search::{Considered, Solver, Stopped, Thought, choice_words};

/// A text, or an object with the error.
pub fn or_error(found: Result<String, String>) -> String {
    found.unwrap_or_else(|why| format!("{{\"error\":{}}}", quoted(&why)))
}

/// `value`, `error`, `nodes`, and `choices`, the most probable first.
pub fn thought(found: Result<Thought, String>) -> String {
    let text = |thought: Thought| {
        let choices = list(thought.choices.iter().map(considered));
        format!(
            "{{\"value\":{},\"deviation\":{},\"nodes\":{},\"choices\":{choices}}}",
            thought.value, thought.error, thought.nodes
        )
    };
    or_error(found.map(text))
}

/// The byte of a choice, its words, how often to make it, its value or null, and a list of pairs of words.
fn considered(it: &Considered) -> String {
    let value = it.value.map_or("null".into(), |value| value.to_string());
    let pair = |[own, foe]: &[String; 2]| format!("[{},{}]", quoted(own), quoted(foe));
    let line = list(it.line.iter().map(pair));
    format!(
        "{{\"choice\":{},\"words\":{},\"probability\":{},\"value\":{value},\"line\":{line}}}",
        it.choice.byte(),
        quoted(&it.words),
        it.probability
    )
}

/// The bounds, why the search stopped, how far it came, and `plays`: for each side the choices that it makes, with their bytes.
pub fn solved(solver: &Solver, battle: &Battle, stopped: Stopped) -> Result<String, String> {
    let play = solver.play(battle).map_err(|why| why.to_string())?;
    let progress = solver.progress();
    let stopped = match stopped {
        Stopped::Solved => "solved",
        Stopped::Memory => "memory",
        Stopped::Endless => "endless",
        Stopped::Sweeps => "sweeps",
        Stopped::Asked => "time",
    };
    let plays = play.map(|play| [(Side::One, play.one), (Side::Two, play.two)]);
    let plays = list(plays.iter().flatten().map(|(side, shares)| {
        let choices = battle.choices(*side);
        let made = choices
            .iter()
            .zip(shares)
            .filter(|(_, share)| **share > 1e-9);
        list(made.map(|(choice, share)| {
            let words = quoted(&choice_words(battle, *side, *choice));
            format!(
                "{{\"choice\":{},\"words\":{words},\"probability\":{share}}}",
                choice.byte()
            )
        }))
    }));
    Ok(format!(
        "{{\"low\":{},\"high\":{},\"stopped\":\"{stopped}\",\"positions\":{},\"sweeps\":{},\"plays\":{plays}}}",
        progress.start.low, progress.start.high, progress.positions, progress.sweeps
    ))
}

fn list(items: impl Iterator<Item = String>) -> String {
    let items: Vec<_> = items.collect();
    format!("[{}]", items.join(","))
}

/// A string of JSON. No name has a control character but a tab.
pub fn quoted(text: &str) -> String {
    let text = text.replace('\\', "\\\\").replace('"', "\\\"");
    format!("\"{}\"", text.replace('\t', "\\t"))
}
