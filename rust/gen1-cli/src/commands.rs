//! The commands that read an input and print a result (docs/PROGRAM.md).
use crate::fault::Fault;
use crate::files::put;
use crate::game::{self, Step};
use crate::input::chosen::Chosen;
use crate::input::{CALCULATION_KEYS, Given, Members, Misfit, key, noted, team};
use crate::json::{EventObject, UpdateObject, line_of, offered};
use crate::{screen, showdown};
use gen1::{
    Battle, Choice, DamageRefusal, Event, Line, LogBuf, LogReader, MoveId, Room, RoomRefusal, Side,
    State, Submitted, Team, write_log,
};
use serde::Serialize;
use serde_json::Value;

/// The lines of events, each with a line feed.
pub fn text_of<'a>(events: impl IntoIterator<Item = &'a Event>) -> String {
    let mut text = String::new();
    for event in events {
        text += &Line::of(event);
        text.push('\n');
    }
    text
}

/// Plays the choices of an input, passes each update to `then`, and returns the battle after them.
pub fn played(
    given: &Given,
    then: impl FnMut(&Step) -> Result<(), Fault>,
) -> Result<Battle, Fault> {
    let (start, pairs) = given.start_and_choices()?;
    let mut battle = start.battle;
    game::play(&mut battle, &pairs, then)?;
    Ok(battle)
}

/// `run`
pub fn run(given: &Given) -> Result<(), Fault> {
    played(given, |step| put(text_of(step.events))).map(drop)
}

/// `run --json`
pub fn run_json(given: &Given) -> Result<(), Fault> {
    played(given, |step| put(line_of(&UpdateObject::of(step)))).map(drop)
}

/// `run --showdown`
pub fn run_showdown(given: &Given) -> Result<(), Fault> {
    put(showdown::log_of(given)?)
}

/// `log`
pub fn log(given: &Given) -> Result<(), Fault> {
    let written = |step: &Step| {
        let mut log = LogBuf::new();
        write_log(step.events, &mut log);
        put(log.as_slice())
    };
    played(given, written).map(drop)
}

/// `state`
pub fn state(given: &Given, bytes: bool, json: bool) -> Result<(), Fault> {
    let battle = played(given, |_| Ok(()))?;
    put(match (bytes, json) {
        (true, _) => hex(battle.bytes()) + "\n",
        (false, true) => state_json(&battle),
        (false, false) => screen::whole(&battle),
    })
}

/// The state of a battle, the choices of both sides, and its bytes.
pub fn state_json(battle: &Battle) -> String {
    #[derive(Serialize)]
    struct StateObject {
        #[serde(flatten)]
        state: State,
        offered: [Vec<crate::json::OfferedObject>; 2],
        bytes: String,
    }
    line_of(&StateObject {
        state: battle.state(),
        offered: offered(battle),
        bytes: hex(battle.bytes()),
    })
}

/// Bytes as hexadecimal digits.
pub fn hex(bytes: &[u8]) -> String {
    bytes.iter().map(|byte| format!("{byte:02x}")).collect()
}

/// The events of a log.
pub fn events_of(log: &[u8]) -> Result<Vec<Event>, Fault> {
    let (mut reader, mut events, mut begin) = (LogReader::new(), Vec::new(), 0);
    loop {
        let fault = |why| Fault::log(events.len() + 1, begin, why);
        let taken = reader.feed(&log[begin..]).map_err(fault)?;
        let Some(event) = reader.next() else {
            reader.finish().map_err(fault)?;
            return Ok(events);
        };
        events.push(event);
        begin += taken;
    }
}

/// `print`
pub fn print(input: &[u8]) -> Result<(), Fault> {
    put(text_of(&events_of(input)?))
}

/// A calculation as JSON: two members, a move, and whether the hit is critical.
pub struct Calculation {
    pub members: [Members; 2],
    pub id: MoveId,
    pub critical: bool,
    pub notes: Vec<String>,
}

impl Calculation {
    pub fn read(input: &[u8], strict: bool) -> Result<Calculation, Fault> {
        let value: Value = serde_json::from_slice(input)?;
        let notes = noted(&value, CALCULATION_KEYS, strict)?;
        let members = [member(&value, "attacker")?, member(&value, "defender")?];
        let (id, critical) = (key(&value, "move")?, key(&value, "critical")?);
        Ok(Calculation {
            members,
            id,
            critical,
            notes,
        })
    }

    /// Both members in a battle that has just begun.
    pub fn battle(&self) -> Result<Battle, Fault> {
        let [one, two] = [
            team(1, &self.members[0].specs)?,
            team(2, &self.members[1].specs)?,
        ];
        Ok(begun(&one, &two))
    }
}

/// The member of a calculation: an object, or a team text whose first member it is.
fn member(value: &Value, name: &str) -> Result<Members, Misfit> {
    let Some(Value::String(_)) = value.get(name) else {
        let spec = key(value, name)?;
        return Ok(Members {
            specs: vec![spec],
            nicknames: vec![None],
        });
    };
    let mut members = key::<Members>(value, name)?;
    members.specs.truncate(1);
    members.nicknames.truncate(1);
    Ok(members)
}

/// A battle in which the first members of two teams have just been sent out.
pub fn begun(one: &Team, two: &Team) -> Battle {
    let mut battle = Battle::new(one, two, [0; 10]);
    // A battle that has not begun accepts two passes.
    let _ = battle.update_silent(Choice::Pass, Choice::Pass);
    battle
}

/// `calc`, the 39 numbers
pub fn calc(asked: &Calculation) -> Result<(), Fault> {
    let numbers = damages(&asked.battle()?, asked).map_err(|_| Fault::calc())?;
    put(numbers.map(|number| number.to_string()).join(" ") + "\n")
}

fn damages(battle: &Battle, asked: &Calculation) -> Result<[u16; 39], DamageRefusal> {
    battle.damage(Side::One, asked.id, asked.critical)
}

/// A submission to a room: side, number of the pair, and choice.
type Submission = (Side, u32, Chosen);

/// `room`
pub fn room(given: &Given, json: bool) -> Result<(), Fault> {
    let (start, submissions) = given.start(|value| key::<Vec<Submission>>(value, "submissions"))?;
    let mut room = Room::new(start.battle);
    put(begun_text(&room, json)?)?;
    for (number, (side, pair, chosen)) in submissions.iter().enumerate() {
        let reply = room.submit_byte(*side, *pair, chosen.byte(&room.battle(), *side));
        put(match json {
            true => reply_json(&room, number, &reply)?,
            false => reply_text(&room, &reply)?,
        })?;
    }
    Ok(())
}

/// The text of a room before the first submission.
fn begun_text(room: &Room, json: bool) -> Result<String, Fault> {
    if !json {
        return Ok(text_of(&events_of(room.log())?));
    }
    Ok(line_of(&ReplyObject::of(room, "started", true)?))
}

fn reply_text(room: &Room, reply: &gen1::Reply) -> Result<String, Fault> {
    Ok(match reply {
        Ok(Submitted::Waiting) => "|room|waiting\n".into(),
        Ok(Submitted::Advanced(_)) => {
            format!("|room|advanced\n{}", text_of(&events_of(room.log())?))
        }
        Err(RoomRefusal::Stale(current)) => format!("|room|refused|2|{current}\n"),
        Err(why) => format!("|room|refused|{}\n", why.number()),
    })
}

/// The reply of a room to a submission.
#[derive(Serialize)]
struct ReplyObject {
    /// The number of the submission, from 0; absent for the start of the battle.
    #[serde(skip_serializing_if = "Option::is_none")]
    submission: Option<usize>,
    reply: &'static str,
    #[serde(skip_serializing_if = "Option::is_none")]
    refusal: Option<u8>,
    #[serde(skip_serializing_if = "Option::is_none")]
    why: Option<String>,
    /// The number of the current pair.
    pair: u32,
    #[serde(skip_serializing_if = "Option::is_none")]
    update: Option<AdvancedObject>,
}

/// The result of a pair that has ended.
#[derive(Serialize)]
struct AdvancedObject {
    events: Vec<EventObject>,
    result: gen1::BattleResult,
    offered: [Vec<crate::json::OfferedObject>; 2],
}

impl ReplyObject {
    fn of(room: &Room, reply: &'static str, has_update: bool) -> Result<ReplyObject, Fault> {
        let battle = room.battle();
        let update = match has_update {
            true => Some(AdvancedObject {
                events: events_of(room.log())?.iter().map(EventObject::of).collect(),
                result: battle.result(),
                offered: offered(&battle),
            }),
            false => None,
        };
        let pair = room.number();
        Ok(ReplyObject {
            submission: None,
            reply,
            refusal: None,
            why: None,
            pair,
            update,
        })
    }
}

fn reply_json(room: &Room, number: usize, reply: &gen1::Reply) -> Result<String, Fault> {
    let named = match reply {
        Ok(Submitted::Waiting) => "waiting",
        Ok(Submitted::Advanced(_)) => "advanced",
        Err(_) => "refused",
    };
    let mut object = ReplyObject::of(room, named, named == "advanced")?;
    object.submission = Some(number);
    if let Err(why) = reply {
        object.refusal = Some(why.number());
        object.why = Some(why.to_string());
    }
    Ok(line_of(&object))
}
