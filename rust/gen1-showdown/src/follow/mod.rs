//! A battle log of Showdown, read back as the knowledge of a player (docs/PROGRAM.md, "follow").
mod battle;
mod fields;
mod reader;
mod request;
mod roster;

use crate::{Fault, Members, index, names_of, player_of, team};
use gen1::{
    Battle, Event, EventList, HpForm, LogBuf, MoveId, Place, Player, PublicSide, Side, Team,
    TurnLimit, Volatile, member, write_log,
};
use reader::Reader;
use roster::Roster;
use std::borrow::Cow;

/// A word or a name of a log that is not known, and may concern the battle.
#[derive(Clone, Debug, PartialEq, Eq)]
pub struct Note {
    /// The first line that has it, from 1.
    pub line: usize,
    /// What it is.
    pub why: String,
}

/// What a side chose, as far as a log says.
#[derive(Clone, Copy, Debug, PartialEq, Eq)]
pub enum Chosen {
    /// It used a move, or continued one.
    Move(MoveId),
    /// It sent out the member at a place of [`Player::public`].
    Switch(Place),
}

/// A battle log, as a player of a side reads it.
pub struct Follower {
    side: Side,
    own: Option<(Team, Members)>,
    read: Reader,
}

impl Follower {
    /// A follower of a log of one battle from its beginning, or of a replay page with one. With the player's team its members have their
    /// places; without it they are numbered as they came out.
    ///
    /// # Errors
    ///
    /// The team is refused.
    pub fn new(side: Side, own: Option<Members>) -> Result<Follower, Fault> {
        let own = own
            .map(|members| Ok::<_, Fault>((team(side, &members)?, members)))
            .transpose()?;
        let read = Reader::new(Side::BOTH.map(|it| match &own {
            Some((team, members)) if it == side => Roster::of_team(it, team, members),
            _ => Roster::new(it),
        }));
        Ok(Follower { side, own, read })
    }

    /// This follower, which also reads the requests of its side. [`Follower::battle`] needs them.
    #[must_use]
    pub fn with_requests(self) -> Follower {
        let read = self.read.with_requests(self.side);
        Follower { read, ..self }
    }

    /// Reads a whole log. A line that is unknown becomes a note.
    ///
    /// # Errors
    ///
    /// The first line that can't be part of the battle, or a log in which a side has no active member.
    pub fn read(&mut self, log: &[u8]) -> Result<(), Fault> {
        let refused = |(line, why): (usize, String)| Fault::Line { line, why };
        read_all(&mut self.read, self.side, log).map_err(refused)
    }

    /// What was unknown in the log, each once; the first twenty.
    pub fn notes(&self) -> impl Iterator<Item = Note> + '_ {
        self.read.unknown.iter().map(|it| Note {
            line: it.line,
            why: it.why(),
        })
    }

    /// The events of the log.
    #[must_use]
    pub fn events(&self) -> &[Event] {
        &self.read.events
    }

    /// The events of the log as log bytes.
    #[must_use]
    pub fn log(&self) -> Vec<u8> {
        log_of(&self.read.events)
    }

    /// The name of a side's player; empty if the log has none.
    #[must_use]
    pub fn name(&self, side: Side) -> &str {
        &self.read.names[index(side)]
    }

    /// The number of a side's members; `None` if the log does not have it.
    #[must_use]
    pub fn count(&self, side: Side) -> Option<u8> {
        self.read.sides[index(side)].count
    }

    /// The names of a side's members, in the order of [`Player::public`].
    pub fn members(&self, side: Side) -> impl Iterator<Item = &str> + '_ {
        let entries = self.read.sides[index(side)].entries.iter();
        entries.map(|entry| entry.name.as_str())
    }

    /// What both sides chose for each update after the first. `None` where the log doesn't say: for a side that had nothing to choose, or whose
    /// member did not act. An update whose end isn't in the log is left out.
    #[must_use]
    pub fn choices(&self) -> Vec<[Option<Chosen>; 2]> {
        let (mut all, mut now, mut has_fallen) = (Vec::new(), None, false);
        let mut before = None;
        for event in &self.read.events {
            let is_over = matches!(event, Event::Win(_) | Event::Tie | Event::Fault(_));
            let ends = is_over || matches!(event, Event::Turn(_));
            // After a fall a member is sent out in a separate update.
            let replaces = has_fallen && matches!(event, Event::Switch(..));
            if ends || replaces {
                // A forfeit isn't an update.
                let is_forfeit = is_over && matches!(before, Some(Event::Turn(_)));
                all.extend(now.replace([None; 2]).filter(|_| !is_forfeit));
            }
            has_fallen = matches!(event, Event::Faint(_)) || has_fallen && !ends && !replaces;
            if let (Some(both), Some((side, chosen))) = (&mut now, chosen_in(event)) {
                both[index(side)].get_or_insert(chosen);
            }
            before = Some(*event);
        }
        all.extend(now.filter(|_| has_fallen));
        all
    }

    /// A choice of a side in words, such as `move Body Slam` or `switch Bob`.
    #[must_use]
    pub fn words(&self, side: Side, chosen: Chosen) -> String {
        match chosen {
            Chosen::Move(id) => format!("move {id}"),
            Chosen::Switch(place) => {
                let name = self.members(side).nth(usize::from(place.number()) - 1);
                format!("switch {}", name.unwrap_or_default())
            }
        }
    }

    /// What the player knows after the log. Without its team it has a team of the members that came out, of which only what the log has is
    /// known.
    ///
    /// # Errors
    ///
    /// The members that came out aren't a team.
    pub fn player(&self) -> Result<Player, Fault> {
        let side = self.side;
        let (roster, foe) = (&self.read.sides[index(side)], self.count(side.other()));
        let own = match &self.own {
            Some((team, _)) => team.clone(),
            None => stand_in(side, roster)?,
        };
        let mut player = match foe {
            Some(count) => Player::with_foes(side, &own, count),
            None => Player::new(side, &own),
        };
        player.feed(&self.log())?;
        let form = form_of(player.foe());
        let limit = limit_at(player.turn());
        Ok(player.with_hp(form).with_terms(self.read.rules(), limit))
    }

    /// A battle that fits what the player knows, its last request, and a guess of the foe's team in any order. It draws the numbers of the
    /// seed.
    ///
    /// # Errors
    ///
    /// The player's team or a request is missing, or a request or the guess does not fit the log.
    pub fn battle(&self, guess: &Members, seed: [u8; 10]) -> Result<Battle, Fault> {
        let Some((team, members)) = &self.own else {
            return Err(Fault::Guess("expected the own team".into()));
        };
        let refused = |(line, why): (usize, String)| Fault::Line { line, why };
        let player = self.player()?;
        let shown =
            battle::shown(&self.read, &player, team, &names_of(members)).map_err(refused)?;
        battle::fitting(player, &shown, &self.read, guess, seed)
    }
}

/// The form in which a log has the foe's HP: in parts if each maximum is their number. Where that is a true maximum, the numbers are the same.
fn form_of(foe: &PublicSide) -> HpForm {
    let seen = foe.members.iter().filter(|it| it.species != 0);
    let mut forms = [(48, HpForm::Bar), (100, HpForm::Hundredths)].into_iter();
    let parts = forms.find(|(whole, _)| seen.clone().all(|it| it.max == *whole));
    parts.map_or(HpForm::Exact, |(_, form)| form)
}

/// The usual turn limit, unless a log has more turns.
fn limit_at(turn: u16) -> TurnLimit {
    let usual = TurnLimit::default();
    match turn > usual.number() {
        true => TurnLimit::new(9999).unwrap_or(usual),
        false => usual,
    }
}

/// What an event says that a side chose.
fn chosen_in(event: &Event) -> Option<(Side, Chosen)> {
    let chosen = match *event {
        Event::Switch(_, place, ..) => Chosen::Switch(place),
        Event::Move(_, id, _) | Event::Prepare(_, id) => Chosen::Move(id),
        Event::Start(_, it) | Event::Activate(_, it) | Event::End(_, it) => {
            let bides = it == Volatile::Bide;
            bides.then_some(Chosen::Move(MoveId::BIDE))?
        }
        _ => return None,
    };
    Some((event.who()?.side, chosen))
}

/// Reads all lines that a side sees. An error is a line's number and a sentence.
fn read_all(read: &mut Reader, side: Side, bytes: &[u8]) -> Result<(), (usize, String)> {
    let text = std::str::from_utf8(bytes).map_err(|why| {
        let before = &bytes[..why.valid_up_to()];
        let line = 1 + before.iter().filter(|byte| **byte == b'\n').count();
        (line, "expected text in UTF-8".to_string())
    })?;
    let (log, before) = log_in(text);
    for (number, line) in seen_by(side, &log, before) {
        read.take(number, line).map_err(|why| (number, why))?;
    }
    match read.sides.iter().all(|roster| roster.active().is_some()) {
        true => Ok(()),
        false => {
            let last = before + log.lines().count();
            let why = "expected |switch| for both sides before the log ends";
            Err((last.max(1), why.to_string()))
        }
    }
}

fn stand_in(side: Side, roster: &Roster) -> Result<Team, Fault> {
    let specs = roster.entries.iter().filter_map(|entry| {
        let mut spec = member(entry.species.name(), &["Tackle"]).ok()?;
        spec.level = entry.level.number();
        Some(spec)
    });
    let specs = specs.collect::<Vec<_>>();
    Team::new(&specs).map_err(|why| Fault::Team { side, why })
}

/// The log bytes of events.
fn log_of(events: &[Event]) -> Vec<u8> {
    let each = events.iter().flat_map(|event| {
        let (mut list, mut log) = (EventList::new(), LogBuf::new());
        list.push(*event);
        write_log(&list, &mut log);
        log
    });
    each.collect()
}

/// The element of a replay page that has the log.
const ELEMENT: &str = "class=\"battle-log-data\">";

/// The log in a text, and how many lines of the text come before it. A replay page has the log in an element, with a backslash before each
/// slash, and a replay in JSON under a key.
fn log_in(text: &str) -> (Cow<'_, str>, usize) {
    if text.starts_with('{') {
        let value: Option<serde_json::Value> = serde_json::from_str(text).ok();
        if let Some(log) = value.as_ref().and_then(|it| it["log"].as_str()) {
            return (Cow::Owned(log.into()), 0);
        }
    }
    let Some((before, rest)) = text.split_once(ELEMENT) else {
        return (Cow::Borrowed(text), 0);
    };
    let log = rest.split("</script>").next().unwrap_or_default();
    let before = before.matches('\n').count();
    (Cow::Owned(log.replace("\\/", "/")), before)
}

/// The lines that a side sees, with their numbers. After `|split|` with its own side it sees the first of the next two lines, otherwise
/// the second.
fn seen_by(side: Side, log: &str, before: usize) -> Vec<(usize, &str)> {
    let mut lines = (before + 1..).zip(log.lines());
    let mut seen = Vec::new();
    while let Some((number, line)) = lines.next() {
        let Some(owner) = line.strip_prefix("|split|") else {
            seen.push((number, line));
            continue;
        };
        let (own, public) = (lines.next(), lines.next());
        seen.extend(match owner == player_of(side) {
            true => own,
            false => public,
        });
    }
    seen
}
