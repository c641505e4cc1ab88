//! Showdown's protocol as calls in JSON: an object with the request, and an object with the result.
//!
//! Bytes are hexadecimal texts. Members are a list of objects, as `read_members` writes them. An object that is kept between calls has a number.
use gen1::{Battle, LogFault, MemberSpec, Message, Notice, Rules, Side, Team, TeamRefusal};
use gen1_showdown::reading::Typed;
use gen1_showdown::{
    Chosen, Complaint, EndingClauses, Fault, Follower, Formats, Heading, Hp, LineWriter, Members,
    Note, Options, Seat, Simulator, Viewer, agree, choice_in, commit, names_of, request,
};
use serde::Deserialize;
use serde_json::{Value, json};
use std::collections::BTreeMap;
use std::sync::{Arc, Mutex, MutexGuard, PoisonError};

/// What is asked, under the key `call`.
#[derive(Deserialize)]
#[serde(tag = "call", rename_all = "snake_case", deny_unknown_fields)]
enum Ask {
    /// Reads a team: a text in any form, or a list of members; with nicknames of its members in place of those of the text.
    ReadMembers {
        team: Value,
        nicknames: Option<Vec<Option<String>>>,
    },
    /// Writes a team as `packed` or `export`.
    WriteMembers {
        members: Value,
        form: String,
    },
    /// Lists the formats of a file, or those of the library.
    Formats {
        text: Option<String>,
    },
    /// The rules of a format that a team breaks.
    Complaints {
        text: Option<String>,
        format: String,
        members: Value,
    },
    NewLines {
        players: [String; 2],
        names: [Vec<String>; 2],
        tier: String,
        rules: Vec<String>,
        hp: String,
    },
    /// Adds the lines of an update.
    Update {
        of: u64,
        before: String,
        log: String,
        after: String,
        time: Option<u64>,
    },
    /// Adds the lines of a pair of a host.
    Report {
        of: u64,
        messages: [String; 2],
        notice: String,
        time: Option<u64>,
    },
    /// Adds the lines of a pair as it was reported to a side or to the audience. Or passes it to a seat, or to clauses, which return the
    /// side that has lost. A side's message says what it is shown.
    Hear {
        of: u64,
        log: String,
        side: Option<u8>,
        message: Option<String>,
        time: Option<u64>,
    },
    /// Ends the battle by a win of a side, which may be by a forfeit of the other, or by a tie.
    End {
        of: u64,
        winner: Option<u8>,
        by_forfeit: bool,
    },
    Line {
        of: u64,
        text: String,
    },
    /// The lines so far, for a viewer: `p1`, `p2`, `spectator`, `omniscient` or `stream`.
    Text {
        of: u64,
        viewer: String,
    },
    Clear {
        of: u64,
    },
    NewSeat {
        side: u8,
        name: String,
        members: Value,
        foes: u8,
        hp: String,
    },
    /// Takes in the message of a host.
    Receive {
        of: u64,
        message: String,
    },
    /// Takes in an update of a battle.
    Tell {
        of: u64,
        battle: String,
        log: String,
    },
    Request {
        of: u64,
        rqid: u32,
    },
    ChoiceIn {
        of: u64,
        text: String,
    },
    NewClauses {
        sleep: bool,
        freeze: bool,
    },
    /// The commitments of player 1 and 2 to their secrets; with commitments, what the secrets decide.
    Agree {
        battle: String,
        commitments: Vec<String>,
        secrets: Vec<String>,
    },
    NewSimulator {
        hp: Option<String>,
        clock: bool,
        formats: Option<String>,
    },
    /// A command for a simulator. WebAssembly has no clock and no random source, so there it has the time and 64 random bits, as two numbers.
    Take {
        of: u64,
        line: String,
        time: Option<u64>,
        chance: Option<[u32; 2]>,
    },
    /// Reads a battle log as a side; with a guess of the foe's team and a seed also a battle that fits.
    Follow {
        side: u8,
        members: Option<Value>,
        log: String,
        guess: Option<Value>,
        seed: Option<[u8; 10]>,
    },
    Free {
        of: u64,
    },
}

/// An object that is kept between calls.
enum Object {
    Lines(Box<LineWriter>),
    Seat(Box<Seat>),
    Simulator(Box<Simulator>),
    Clauses(Box<EndingClauses>),
}

type Held = Arc<Mutex<Object>>;

/// The objects by their numbers, and the next number.
static OBJECTS: Mutex<(u64, BTreeMap<u64, Held>)> = Mutex::new((1, BTreeMap::new()));

/// Why a call failed, as an object.
struct Refused(Value);

impl Refused {
    fn of(kind: &str, why: impl ToString) -> Refused {
        Refused(json!({"kind": kind, "why": why.to_string()}))
    }
}

impl From<Fault> for Refused {
    fn from(fault: Fault) -> Refused {
        match fault {
            Fault::Line { line, why } => Refused(json!({"kind": "line", "line": line, "why": why})),
            Fault::Team { side, why } => team_refused(side.number(), why),
            Fault::Log(why) => why.into(),
            other => Refused::of("guess", other),
        }
    }
}

impl From<LogFault> for Refused {
    fn from(why: LogFault) -> Refused {
        Refused::of("log", why)
    }
}

fn team_refused(side: u8, why: TeamRefusal) -> Refused {
    Refused(json!({"kind": "team", "side": side, "why": why.to_string()}))
}

/// Does what an object in JSON says, and returns an object in JSON, which `gen1_showdown_free` gives back. Several threads may call it.
///
/// # Safety
///
/// `ask` has `length` bytes.
#[unsafe(no_mangle)]
pub unsafe extern "C" fn gen1_showdown_call(
    ask: *const u8,
    length: usize,
    written: &mut usize,
) -> *mut u8 {
    // SAFETY: the caller guarantees it.
    let ask = unsafe { core::slice::from_raw_parts(ask, length) };
    let text = call(ask).into_bytes().into_boxed_slice();
    *written = text.len();
    Box::into_raw(text).cast()
}

/// Gives back a text.
///
/// # Safety
///
/// `gen1_showdown_call` returned it, with this length, and it was not given back before.
#[unsafe(no_mangle)]
pub unsafe extern "C" fn gen1_showdown_free(text: *mut u8, length: usize) {
    let text = core::ptr::slice_from_raw_parts_mut(text, length);
    // SAFETY: the caller guarantees it.
    drop(unsafe { Box::from_raw(text) });
}

/// Handles a call, and returns an object: with the key `error`, or with what was asked for.
fn call(text: &[u8]) -> String {
    let ask = serde_json::from_slice::<Ask>(text).map_err(|why| Refused::of("call", why));
    let found = ask
        .and_then(done)
        .unwrap_or_else(|Refused(why)| json!({"error": why}));
    found.to_string()
}

fn done(ask: Ask) -> Result<Value, Refused> {
    match ask {
        Ask::ReadMembers { team, nicknames } => read_members(&team, nicknames),
        Ask::WriteMembers { members, form } => {
            let members = members_in(&members)?;
            let written = if form == "packed" {
                members.packed()
            } else {
                members.export()
            };
            let text = written.map_err(|why| Refused::of("text", why))?;
            Ok(json!({"text": text}))
        }
        Ask::Formats { text } => Ok(listed(&formats_in(text)?)),
        Ask::Complaints {
            text,
            format,
            members,
        } => {
            let formats = formats_in(text)?;
            let found = formats.complaints(&format, &members_in(&members)?);
            let objects = |found: Vec<Complaint>| found.iter().map(complaint).collect::<Vec<_>>();
            Ok(json!({"complaints": found.map(objects)}))
        }
        Ask::Follow {
            side,
            members,
            log,
            guess,
            seed,
        } => {
            let members = members.as_ref().map(members_in).transpose()?;
            let guess = guess.as_ref().map(members_in).transpose()?;
            followed(side_of(side)?, members, &log, guess.zip(seed))
        }
        Ask::NewSeat { .. } | Ask::Receive { .. } | Ask::Tell { .. } => on_seat(ask),
        Ask::Request { of, rqid } => with_seat(of, |seat| {
            Ok(json!({"text": request(seat, rqid), "waits": seat.waits()}))
        }),
        Ask::ChoiceIn { of, text } => with_seat(of, |seat| {
            let choice = choice_in(&text, seat).map_err(|why| Refused::of("choice", why))?;
            Ok(json!({"choice": choice.byte()}))
        }),
        Ask::NewClauses { sleep, freeze } => {
            let clauses = EndingClauses::new(sleep, freeze);
            Ok(kept(Object::Clauses(Box::new(clauses))))
        }
        Ask::Agree {
            battle,
            commitments,
            secrets,
        } => agreed(&battle, &commitments, &secrets),
        Ask::NewSimulator { hp, clock, formats } => {
            let hp = hp.as_deref().map(hp_of).transpose()?;
            let options = Options {
                hp,
                clock: clock.then_some(host::now),
                chance: host::CHANCE,
            };
            let simulator = Simulator::with_formats(options, formats_in(formats)?);
            Ok(kept(Object::Simulator(Box::new(simulator))))
        }
        Ask::Take {
            of,
            line,
            time,
            chance,
        } => {
            host::set(time, chance);
            taken(of, &line)
        }
        Ask::Hear {
            of,
            log,
            side,
            message,
            time,
        } => {
            let side = side.map(side_of).transpose()?;
            let message = message.as_deref().map(message_in).transpose()?;
            let log = bytes_in(&log)?;
            with(of, |object| heard(object, &log, side.zip(message), time))
        }
        Ask::Free { of } => {
            objects().1.remove(&of);
            Ok(json!({}))
        }
        _ => on_lines(ask),
    }
}

fn objects() -> MutexGuard<'static, (u64, BTreeMap<u64, Held>)> {
    OBJECTS.lock().unwrap_or_else(PoisonError::into_inner)
}

/// Keeps an object under a new number.
fn kept(object: Object) -> Value {
    let (next, held) = &mut *objects();
    held.insert(*next, Arc::new(Mutex::new(object)));
    *next += 1;
    json!({"number": *next - 1})
}

/// Does something with the object of a number, while no other call does.
fn with<T>(of: u64, act: impl FnOnce(&mut Object) -> Result<T, Refused>) -> Result<T, Refused> {
    let found = objects().1.get(&of).cloned();
    let found = found.ok_or_else(|| Refused::of("call", format!("no object {of}")))?;
    let mut object = found.lock().unwrap_or_else(PoisonError::into_inner);
    act(&mut object)
}

fn with_lines<T>(
    of: u64,
    act: impl FnOnce(&mut LineWriter) -> Result<T, Refused>,
) -> Result<T, Refused> {
    with(of, |object| match object {
        Object::Lines(lines) => act(lines),
        _ => Err(Refused::of("call", "the object has no lines")),
    })
}

fn with_seat<T>(of: u64, act: impl FnOnce(&mut Seat) -> Result<T, Refused>) -> Result<T, Refused> {
    with(of, |object| match object {
        Object::Seat(seat) => act(seat),
        _ => Err(Refused::of("call", "the object is no seat")),
    })
}

fn taken(of: u64, line: &str) -> Result<Value, Refused> {
    with(of, |object| match object {
        Object::Simulator(simulator) => {
            let reply = simulator.take(line)?;
            Ok(json!({"text": reply.text, "note": reply.note}))
        }
        _ => Err(Refused::of("call", "the object is no simulator")),
    })
}

fn heard(
    object: &mut Object,
    log: &[u8],
    own: Option<(Side, Message)>,
    time: Option<u64>,
) -> Result<Value, Refused> {
    match object {
        Object::Lines(lines) => {
            let own = own.as_ref().map(|(side, message)| (*side, message.own()));
            lines.hear(log, own, time)?;
        }
        Object::Seat(seat) => seat.hear(log)?,
        Object::Clauses(clauses) => {
            let loser = clauses.hear(log)?;
            return Ok(json!({"loser": loser.map(Side::number)}));
        }
        Object::Simulator(_) => return Err(Refused::of("call", "the object hears nothing")),
    }
    Ok(json!({}))
}

fn on_lines(ask: Ask) -> Result<Value, Refused> {
    match ask {
        Ask::NewLines {
            players,
            names,
            tier,
            rules,
            hp,
        } => {
            let hp = hp_of(&hp)?;
            let heading = Heading {
                players,
                members: names,
                tier,
                rules,
                hp,
            };
            return Ok(kept(Object::Lines(Box::new(LineWriter::new(heading)))));
        }
        Ask::Update {
            of,
            before,
            log,
            after,
            time,
        } => {
            let [before, after] = [battle_in(&before)?, battle_in(&after)?];
            let log = bytes_in(&log)?;
            let events = gen1::events_of(&log).collect::<Result<Vec<_>, _>>()?;
            with_lines(of, |lines| {
                lines.update(&before, &events, &after, time);
                Ok(())
            })?;
        }
        Ask::Report {
            of,
            messages: [one, two],
            notice,
            time,
        } => {
            let messages = [message_in(&one)?, message_in(&two)?];
            let notice = notice_in(&notice)?;
            with_lines(of, |lines| {
                Ok(lines.report([&messages[0], &messages[1]], &notice, time)?)
            })?;
        }
        Ask::End {
            of,
            winner,
            by_forfeit,
        } => {
            let winner = winner.map(side_of).transpose()?;
            let loser = winner.map(Side::other).filter(|_| by_forfeit);
            with_lines(of, |lines| {
                match loser {
                    Some(side) => lines.forfeit(side),
                    None => lines.end(winner),
                }
                Ok(())
            })?;
        }
        Ask::Line { of, text } => with_lines(of, |lines| {
            lines.line(text);
            Ok(())
        })?,
        Ask::Text { of, viewer } => {
            let viewer = viewer_of(&viewer)?;
            let text = with_lines(of, |lines| Ok(lines.text(viewer)))?;
            return Ok(json!({"text": text}));
        }
        Ask::Clear { of } => with_lines(of, |lines| {
            lines.clear();
            Ok(())
        })?,
        _ => return Err(Refused::of("call", "an unknown call")),
    }
    Ok(json!({}))
}

fn on_seat(ask: Ask) -> Result<Value, Refused> {
    match ask {
        Ask::NewSeat {
            side,
            name,
            members,
            foes,
            hp,
        } => {
            let (side, members) = (side_of(side)?, members_in(&members)?);
            let team = team_of(side.number(), &members)?;
            let hp = hp_of(&hp)?;
            let mut seat = Seat::new(side, name, &members, &team, hp);
            seat.player = gen1::Player::with_foes(side, &team, foes).with_hp(hp.form());
            return Ok(kept(Object::Seat(Box::new(seat))));
        }
        Ask::Receive { of, message } => {
            let message = message_in(&message)?;
            with_seat(of, |seat| Ok(seat.receive(&message)?))?;
        }
        Ask::Tell { of, battle, log } => {
            let (battle, log) = (battle_in(&battle)?, bytes_in(&log)?);
            with_seat(of, |seat| Ok(seat.tell(&battle, &log)?))?;
        }
        _ => return Err(Refused::of("call", "an unknown call")),
    }
    Ok(json!({}))
}

fn read_members(team: &Value, nicknames: Option<Vec<Option<String>>>) -> Result<Value, Refused> {
    let json_text = team
        .as_str()
        .filter(|text| text.trim_start().starts_with(['[', '{']));
    let read = match json_text.map(serde_json::from_str::<Value>) {
        Some(value) => Members::of(&value.map_err(|why| Refused::of("text", why))?),
        None => Members::of(team),
    };
    let text = team.as_str().filter(|_| json_text.is_none());
    let mut members = match text {
        Some(text) => Members::in_text(text).map_err(|why| Refused::of("text", why))?,
        None => read.map_err(|why| Refused::of("text", why))?,
    };
    if let Some(nicknames) = nicknames {
        let (count, given) = (members.specs.len(), nicknames.len());
        if count != given {
            let why = format!("expected {count} nicknames, one for each member, found {given}");
            return Err(Refused::of("text", why));
        }
        members.nicknames = nicknames;
    }
    team_of(0, &members)?;
    let both = members.specs.iter().zip(&members.nicknames);
    let objects: Vec<_> = both
        .map(|(spec, nickname)| member(spec, nickname))
        .collect();
    Ok(json!({"members": objects, "names": names_of(&members)}))
}

fn member(spec: &MemberSpec, nickname: &Option<String>) -> Value {
    let moves: Vec<(&str, u8)> = spec
        .moves
        .iter()
        .map(|(id, ups)| (id.name(), *ups))
        .collect();
    json!({
        "species": spec.species.name(), "level": spec.level, "dvs": spec.dvs, "exp": spec.exp, "moves": moves,
        "nickname": nickname,
    })
}

/// The members of a list of objects.
fn members_in(value: &Value) -> Result<Members, Refused> {
    let mut members = Members::of(value).map_err(|why| Refused::of("text", why))?;
    for (place, object) in members
        .nicknames
        .iter_mut()
        .zip(value.as_array().into_iter().flatten())
    {
        *place = object["nickname"].as_str().map(String::from);
    }
    Ok(members)
}

fn team_of(side: u8, members: &Members) -> Result<Team, Refused> {
    Team::new(&members.specs).map_err(|why| team_refused(side, why))
}

fn formats_in(text: Option<String>) -> Result<Formats, Refused> {
    let read = text.map_or_else(|| Ok(Formats::default()), |text| Formats::read(&text));
    read.map_err(|why| Refused::of("formats", why))
}

fn listed(formats: &Formats) -> Value {
    let each = formats.ids().map(|id| {
        json!({
            "id": id, "tier": formats.tier(id), "rules": formats.rules(id).map(Rules::bits), "lines": formats.lines(id),
        })
    });
    let each: Vec<_> = each.collect();
    json!({"source": formats.source, "date": formats.date, "formats": each})
}

fn complaint(it: &Complaint) -> Value {
    let (member, species) = it
        .member
        .map_or((0, None), |(at, species)| (at, Some(species.number())));
    json!({"member": member, "species": species, "rule": it.rule, "value": it.value, "text": it.to_string()})
}

/// What a side knows after a log: its own team, the log bytes from which a player learns it, and names.
fn followed(
    side: Side,
    members: Option<Members>,
    log: &str,
    guess: Option<(Members, [u8; 10])>,
) -> Result<Value, Refused> {
    let mut follower = Follower::new(side, members)?;
    if guess.is_some() {
        follower = follower.with_requests();
    }
    follower.read(log.as_bytes())?;
    if let Some((guess, seed)) = guess {
        let battle = follower.battle(&guess, seed)?;
        return Ok(json!({"battle": hex(battle.as_bytes())}));
    }
    let notes = follower
        .notes()
        .map(|Note { line, why }| json!({"line": line, "why": why}));
    let notes: Vec<_> = notes.collect();
    let of_sides = Side::BOTH.map(|side| {
        let names: Vec<_> = follower.members(side).collect();
        json!({"player": follower.name(side), "count": follower.count(side), "names": names})
    });
    let own = follower.player()?;
    let seen = own.public(side).members.iter().filter(|it| it.species != 0);
    let seen: Vec<_> = seen.map(|it| (it.species, it.level)).collect();
    let (hp_form, rules) = (own.hp_form().number(), own.rules().bits());
    let words = |side, chosen: Option<Chosen>| Some(follower.words(side, chosen?));
    let choices = follower.choices().into_iter();
    let choices = choices.map(|[one, two]| [words(Side::One, one), words(Side::Two, two)]);
    let choices: Vec<_> = choices.collect();
    Ok(json!({
        "notes": notes, "sides": of_sides, "seen": seen, "hp_form": hp_form, "rules": rules, "limit": own.limit(),
        "log": hex(&follower.log()), "choices": choices,
    }))
}

fn side_of(number: u8) -> Result<Side, Refused> {
    Side::from_number(number).ok_or_else(|| Refused::of("call", format!("no side {number}")))
}

fn hp_of(word: &str) -> Result<Hp, Refused> {
    match word {
        "exact" => Ok(Hp::Exact),
        "pixels" => Ok(Hp::Pixels),
        "percent" => Ok(Hp::Percent),
        other => Err(Refused::of("call", format!("no form of HP \"{other}\""))),
    }
}

fn viewer_of(word: &str) -> Result<Viewer, Refused> {
    match word {
        "p1" => Ok(Viewer::Player(Side::One)),
        "p2" => Ok(Viewer::Player(Side::Two)),
        "spectator" => Ok(Viewer::Spectator),
        "omniscient" => Ok(Viewer::Omniscient),
        "stream" => Ok(Viewer::Stream),
        other => Err(Refused::of("call", format!("no viewer \"{other}\""))),
    }
}

/// The clock and the random source.
#[cfg(not(target_family = "wasm"))]
mod host {
    use std::time::{SystemTime, UNIX_EPOCH};

    /// Those of the standard library.
    pub const CHANCE: Option<fn() -> u64> = None;

    /// The seconds since 1970; 0 for a clock before that.
    pub fn now() -> u64 {
        let since = SystemTime::now().duration_since(UNIX_EPOCH);
        since.map_or(0, |time| time.as_secs())
    }

    pub fn set(_: Option<u64>, _: Option<[u32; 2]>) {}
}

/// The clock and the random bits, as the caller of the last `take` passed them.
#[cfg(target_family = "wasm")]
mod host {
    use std::sync::atomic::{AtomicU64, Ordering::Relaxed};

    static TIME: AtomicU64 = AtomicU64::new(0);
    static BITS: AtomicU64 = AtomicU64::new(0);

    pub const CHANCE: Option<fn() -> u64> = Some(|| BITS.load(Relaxed));

    pub fn now() -> u64 {
        TIME.load(Relaxed)
    }

    pub fn set(time: Option<u64>, chance: Option<[u32; 2]>) {
        TIME.store(time.unwrap_or(0), Relaxed);
        if let Some([high, low]) = chance {
            BITS.store(u64::from(high) << 32 | u64::from(low), Relaxed);
        }
    }

    /// Bytes for the text of a call, which `gen1_showdown_free` gives back.
    #[unsafe(no_mangle)]
    pub extern "C" fn gen1_showdown_room(length: usize) -> *mut u8 {
        Box::into_raw(vec![0_u8; length].into_boxed_slice()).cast()
    }
}

fn hex(bytes: &[u8]) -> String {
    bytes.iter().map(|byte| format!("{byte:02x}")).collect()
}

fn no_bytes(of: &str) -> Refused {
    Refused::of("call", format!("expected the bytes of {of}"))
}

fn bytes_in(text: &str) -> Result<Vec<u8>, Refused> {
    let pairs = text.as_bytes().chunks(2);
    let bytes = pairs.map(|pair| u8::from_str_radix(std::str::from_utf8(pair).ok()?, 16).ok());
    let bytes: Option<Vec<u8>> = bytes.collect();
    bytes.ok_or_else(|| Refused::of("call", "expected bytes in hexadecimal digits"))
}

/// The 32 bytes of a secret or a commitment.
fn hash_in(text: &str) -> Result<[u8; 32], Refused> {
    let bytes = bytes_in(text)?;
    bytes
        .try_into()
        .map_err(|_| Refused::of("call", "expected 32 bytes"))
}

/// The commitments to secrets; or with commitments what they decide, the seed and the side of each player.
fn agreed(battle: &str, commitments: &[String], secrets: &[String]) -> Result<Value, Refused> {
    let hashes = |texts: &[String]| {
        texts
            .iter()
            .map(|it| hash_in(it))
            .collect::<Result<Vec<_>, _>>()
    };
    let (commitments, secrets) = (hashes(commitments)?, hashes(secrets)?);
    let ([Some(one), Some(two)], Some(both)) =
        ([0, 1].map(|at| secrets.get(at)), commitments.first_chunk())
    else {
        let each = (1..).zip(&secrets);
        let each = each.map(|(player, secret)| hex(&commit(battle, player, secret)));
        return Ok(json!({"commitments": each.collect::<Vec<_>>()}));
    };
    let agreed = agree(battle, both, &[*one, *two]);
    let agreed = agreed.map_err(|why| {
        Refused(json!({"kind": "commitment", "player": why.player, "why": why.to_string()}))
    })?;
    Ok(json!({"seed": hex(&agreed.seed), "first": agreed.sides[0].number()}))
}

fn battle_in(text: &str) -> Result<Battle, Refused> {
    let bytes = bytes_in(text)?;
    let bytes = bytes
        .as_slice()
        .try_into()
        .map_err(|_| no_bytes("a battle"))?;
    Battle::from_bytes(bytes).map_err(|why| Refused::of("call", why))
}

fn message_in(text: &str) -> Result<Message, Refused> {
    let bytes = bytes_in(text)?;
    let bytes = bytes.as_slice().try_into();
    let bytes = bytes.map_err(|_| no_bytes("a message"))?;
    Message::from_bytes(bytes).map_err(|why| Refused::of("call", why))
}

fn notice_in(text: &str) -> Result<Notice, Refused> {
    let bytes = bytes_in(text)?;
    let bytes = bytes.as_slice().try_into();
    let bytes = bytes.map_err(|_| no_bytes("a notice"))?;
    Notice::from_bytes(bytes).map_err(|why| Refused::of("call", why))
}
