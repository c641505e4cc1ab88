//! Compares a battle with the results in a line.
use crate::sheet::{Expected, Sheet, Update};
use gen1::{
    Battle, BattleResult, EventList, Line, LogBuf, Outcome, Refusal, Request, Side, events_of,
    write_log,
};

/// The first difference from a line.
#[derive(Debug, PartialEq)]
pub struct Difference {
    /// The number of the pair from 0, with its choices; `None` if the battle does not begin.
    pub pair: Option<(usize, [u8; 2])>,
    /// The value that differs: `result`, `log`, ..
    pub what: String,
    /// The value in the line.
    pub expected: String,
    /// The value that the engine returned.
    pub came: String,
}

/// The values that are compared for one pair.
struct Came {
    refused: Option<Refusal>,
    result: BattleResult,
    log: Vec<u8>,
    lines: String,
    draws: Option<u32>,
}

/// Plays a battle, and returns the number of its pairs, or the first difference.
///
/// # Errors
///
/// The expected form, if the battle in the line is invalid.
pub fn check(sheet: &Sheet, expected: &Expected) -> Result<Result<usize, Difference>, String> {
    Ok(match sheet.battle()? {
        Ok(battle) => played(battle, sheet, expected),
        Err((side, why)) => {
            let line = format!(
                "error: team {side} place {} refusal {}\n",
                why.place(),
                why.number()
            );
            let said = expected.told.clone().unwrap_or("a battle".into());
            same(None, "team", &said, &line)
                .and_then(|()| same(None, "lines", expected.lines.as_deref().unwrap_or(""), ""))
                .map(|()| 0)
        }
    })
}

fn played(mut battle: Battle, sheet: &Sheet, expected: &Expected) -> Result<usize, Difference> {
    let (mut lines, mut log) = (expected.lines.as_deref(), expected.log.as_deref());
    let mut told = String::new();
    for (number, &pair) in sheet.choices.iter().enumerate() {
        let at = Some((number, pair));
        let came = update(&mut battle, pair);
        if let Some(update) = expected.updates.as_ref().map(|updates| &updates[number]) {
            compare(at, update, &came, &battle)?;
        }
        if let Some(why) = came.refused {
            // The program `run` ends at a refusal; a battle with `updates` continues after one.
            told = format!("error: pair {number} refused {}\n", why.number());
            if expected.updates.is_none() {
                break;
            }
        }
        lines = lines
            .map(|left| lines_left(at, left, &came.lines))
            .transpose()?;
        log = log.map(|left| log_left(at, left, &came.log)).transpose()?;
    }
    let last = sheet
        .choices
        .last()
        .map(|&pair| (sheet.choices.len() - 1, pair));
    same(last, "lines after it", lines.unwrap_or(""), "")?;
    same(last, "log after it", &hex(log.unwrap_or(&[])), "")?;
    if let Some(said) = expected
        .told
        .as_ref()
        .filter(|_| expected.updates.is_none())
    {
        same(last, "standard error", said, &told)?;
    }
    Ok(sheet.choices.len())
}

/// Plays a pair of choices, with all its results.
fn update(battle: &mut Battle, pair: [u8; 2]) -> Came {
    let (before, mut events, mut log) = (battle.clone(), EventList::new(), LogBuf::new());
    let answer = battle.update_with(pair[0], pair[1], &mut events);
    write_log(&events, &mut log);
    Came {
        refused: answer.err(),
        result: battle.result(),
        log: log.to_vec(),
        lines: events
            .iter()
            .map(|event| format!("{}\n", Line::of(event)))
            .collect(),
        draws: draws_between(before.bytes(), battle.bytes()),
    }
}

/// A pair's number and choices.
type At = Option<(usize, [u8; 2])>;

/// Compares all results of one pair in a line.
fn compare(at: At, said: &Update, came: &Came, battle: &Battle) -> Result<(), Difference> {
    let answer =
        |refused: Option<u8>| refused.map_or("taken".into(), |number| format!("refused {number}"));
    let bytes = |side| {
        battle
            .choices(side)
            .iter()
            .map(|choice| choice.byte())
            .collect::<Vec<u8>>()
    };
    let offered = Side::BOTH.map(bytes);
    let drawn = came
        .draws
        .map_or("no number of draws".into(), |draws| draws.to_string());
    for (what, said, came) in [
        (
            "answer",
            said.refused.map(answer),
            answer(came.refused.map(Refusal::number)),
        ),
        (
            "result",
            said.result.map(|it| format!("{it:?}")),
            format!("{:?}", codes(came.result)),
        ),
        (
            "choices after it",
            said.offered.as_ref().map(|it| format!("{it:?}")),
            format!("{offered:?}"),
        ),
        ("draws", said.draws.map(|it| it.to_string()), drawn),
    ] {
        same(at, what, said.as_ref().unwrap_or(&came), &came)?;
    }
    same_log(
        at,
        said.log.as_ref().map_or(&came.log, |it| &it.0),
        &came.log,
    )?;
    same_bytes(
        at,
        said.bytes.as_ref().map_or(battle.bytes(), |it| &it.0),
        battle.bytes(),
    )
}

/// The bytes of a battle, from the first one that differs.
fn same_bytes(at: At, said: &[u8], came: &[u8]) -> Result<(), Difference> {
    let first = said
        .iter()
        .zip(came)
        .take_while(|(said, came)| said == came)
        .count();
    same(
        at,
        &format!("bytes from {first}"),
        &hex(&said[first..]),
        &hex(&came[first..]),
    )
}

/// The codes of outcome and requests (docs/LAYOUT.md, "Header").
fn codes(result: BattleResult) -> [u8; 3] {
    let outcome = match result.outcome {
        Outcome::Ongoing => 0,
        Outcome::WinOne => 1,
        Outcome::WinTwo => 2,
        Outcome::Tie => 3,
        Outcome::Fault(code) => 3 + code,
    };
    let request = |request| match request {
        Request::Pass => 0,
        Request::Move => 1,
        Request::Switch => 2,
    };
    [
        outcome,
        request(result.request_one),
        request(result.request_two),
    ]
}

/// The expected lines after those of a pair.
fn lines_left<'a>(at: At, left: &'a str, came: &str) -> Result<&'a str, Difference> {
    let mut rest = left;
    for line in came.split_inclusive('\n') {
        let said = rest.split_inclusive('\n').next().unwrap_or("");
        same(at, "line", said.trim_end(), line.trim_end())?;
        rest = &rest[said.len()..];
    }
    Ok(rest)
}

/// The expected log bytes after those of a pair.
fn log_left<'a>(at: At, left: &'a [u8], came: &[u8]) -> Result<&'a [u8], Difference> {
    let (said, rest) = left.split_at(left.len().min(came.len()));
    same_log(at, said, came)?;
    Ok(rest)
}

/// Log bytes, from the first event that differs.
fn same_log(at: At, said: &[u8], came: &[u8]) -> Result<(), Difference> {
    if said == came {
        return Ok(());
    }
    let lines = |log| {
        let line = |event: Result<_, _>| {
            event.map_or_else(
                |why| format!("not a log: {why}"),
                |event| Line::of(&event).to_string(),
            )
        };
        events_of(log).map(line).collect::<Vec<_>>()
    };
    let (said_lines, came_lines) = (lines(said), lines(came));
    let first = said_lines
        .iter()
        .zip(&came_lines)
        .position(|(said, came)| said != came);
    let first = first.unwrap_or(said_lines.len().min(came_lines.len()));
    let line = |lines: &[String]| lines.get(first).cloned().unwrap_or("nothing more".into());
    same(
        at,
        &format!("log, event {first}"),
        &line(&said_lines),
        &line(&came_lines),
    )?;
    same(at, "log", &hex(said), &hex(came))
}

fn same(at: At, what: &str, expected: &str, came: &str) -> Result<(), Difference> {
    if expected == came {
        return Ok(());
    }
    Err(Difference {
        pair: at,
        what: what.into(),
        expected: expected.into(),
        came: came.into(),
    })
}

/// How many draws lead from one battle's numbers to another's (docs/MECHANICS.md, "Link numbers"; docs/LAYOUT.md, "Header").
fn draws_between(before: &[u8], after: &[u8]) -> Option<u32> {
    let (mut index, mut numbers) = (before[5], before[6..15].to_vec());
    // No update draws more numbers.
    for draws in 0..=4700 {
        if (index, &numbers[..]) == (after[5], &after[6..15]) {
            return Some(draws);
        }
        index += 1;
        if index == 9 {
            index = 0;
            numbers
                .iter_mut()
                .for_each(|it| *it = it.wrapping_mul(5).wrapping_add(1));
        }
    }
    None
}

/// Bytes as hexadecimal digits.
fn hex(bytes: &[u8]) -> String {
    bytes.iter().map(|byte| format!("{byte:02x}")).collect()
}
