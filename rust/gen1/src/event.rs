//! Events as values: their common fields, and events from lines of text.
use crate::{
    CantReason, DamageSource, Event, Health, HitCount, Kind, Line, MoveId, Side, Species,
    StageCount, Stat, TurnNumber, Volatile, Who,
};
use core::fmt;
use core::hash::{Hash, Hasher};
use core::str::FromStr;

impl Event {
    /// The member that the event is about; `None` for an event of the whole battle.
    #[must_use]
    pub const fn who(&self) -> Option<Who> {
        match *self {
            Event::Switch(who, ..)
            | Event::Move(who, ..)
            | Event::Cant(who, ..)
            | Event::Damage(who, ..)
            | Event::Heal(who, ..)
            | Event::Crit(who)
            | Event::SuperEffective(who)
            | Event::Resisted(who)
            | Event::Immune(who)
            | Event::Miss(who)
            | Event::Fail(who)
            | Event::Status(who, ..)
            | Event::Cure(who, ..)
            | Event::Boost(who, ..)
            | Event::Unboost(who, ..)
            | Event::Start(who, ..)
            | Event::End(who, ..)
            | Event::Activate(who, ..)
            | Event::Prepare(who, ..)
            | Event::MustRecharge(who)
            | Event::HitCount(who, ..)
            | Event::Faint(who) => Some(who),
            Event::Tie
            | Event::Turn(_)
            | Event::ClearAll
            | Event::OneHitKnockOut
            | Event::Win(_)
            | Event::Fault(_) => None,
        }
    }

    /// The side of the member that the event is about, or the side that wins.
    #[must_use]
    pub const fn side(&self) -> Option<Side> {
        match (self.who(), self) {
            (Some(who), _) => Some(who.side),
            (None, Event::Win(side)) => Some(*side),
            (None, _) => None,
        }
    }

    /// The health that the event reports: that of a switch, of damage or of healing.
    #[must_use]
    pub const fn health(&self) -> Option<Health> {
        match *self {
            Event::Switch(_, _, _, health)
            | Event::Damage(_, health, _)
            | Event::Heal(_, health) => Some(health),
            _ => None,
        }
    }

    /// The move that the event names: one that is used or charged.
    #[must_use]
    pub const fn move_id(&self) -> Option<MoveId> {
        match *self {
            Event::Move(_, id, _) | Event::Prepare(_, id) => Some(id),
            _ => None,
        }
    }
}

/// The event's line, as [`Line::of`] returns it.
impl fmt::Display for Event {
    fn fmt(&self, f: &mut fmt::Formatter<'_>) -> fmt::Result {
        fmt::Display::fmt(&Line::of(self), f)
    }
}

impl Hash for Event {
    fn hash<H: Hasher>(&self, state: &mut H) {
        let mut code = crate::LogBuf::new();
        crate::generated::events::write(self, &mut code);
        code.hash(state);
    }
}

/// Why a line is not that of an event.
#[derive(Clone, Copy, Debug, PartialEq, Eq)]
#[non_exhaustive]
pub enum LineFault {
    /// The line of a switch does not have the place of the member, so it fits several events.
    NoPlace,
    /// The line of a member at 0 HP does not have its maximum HP and status, so it fits several events.
    NoMaximum,
    /// No event has this line.
    NoEvent,
}

impl fmt::Display for LineFault {
    fn fmt(&self, f: &mut fmt::Formatter<'_>) -> fmt::Result {
        f.write_str(match self {
            LineFault::NoPlace => "the line of a switch does not have the place of the member",
            LineFault::NoMaximum => "the line of a member at 0 HP does not have its maximum HP",
            LineFault::NoEvent => "no event has this line",
        })
    }
}

impl core::error::Error for LineFault {}

impl FromStr for Event {
    type Err = LineFault;

    /// Reads the line of an event, without a line feed.
    ///
    /// ```
    /// use gen1::{Event, LineFault};
    ///
    /// let event: Event = "|-damage|p2a: Alakazam|120/313 par|[from] psn".parse()?;
    /// assert_eq!(event.health().unwrap().hp(), 120);
    /// let switch = "|switch|p1a: Tauros|Tauros|353/353".parse::<Event>();
    /// assert_eq!(switch, Err(LineFault::NoPlace));
    /// # Ok::<(), LineFault>(())
    /// ```
    fn from_str(line: &str) -> Result<Event, LineFault> {
        let mut fields = line.split('|').skip(1);
        let [word, first, second, third] = core::array::from_fn(|_| fields.next().unwrap_or(""));
        // The event that is found prints exactly this line, so only the printer defines the words of lines.
        let has_line = |event: &Event| Line::of(event).as_str() == line;
        let event = match who_in(first) {
            Some(_) if word == "switch" => return Err(LineFault::NoPlace),
            Some(_) if word == "-damage" && second == "0 fnt" => return Err(LineFault::NoMaximum),
            Some(who) => about(who, word, [second, third], has_line),
            None => of_battle(word, first),
        };
        event.filter(has_line).ok_or(LineFault::NoEvent)
    }
}

/// The member that a text names, as `p1a: Tauros`.
fn who_in(text: &str) -> Option<Who> {
    let (side, name) = text.split_once("a: ")?;
    let side = match side {
        "p1" => Side::One,
        "p2" => Side::Two,
        _ => return None,
    };
    let species = Species::from_name(name)?;
    Some(Who { side, species })
}

/// The event about the whole battle with this word and field.
fn of_battle(word: &str, field: &str) -> Option<Event> {
    match word {
        "turn" => TurnNumber::new(field.parse().ok()?).map(Event::Turn),
        "win" if field == "p1" => Some(Event::Win(Side::One)),
        "win" => Some(Event::Win(Side::Two)),
        "tie" => Some(Event::Tie),
        "fault" => Some(Event::Fault(field.parse::<u8>().ok()?.try_into().ok()?)),
        "-clearallboost" => Some(Event::ClearAll),
        "-ohko" => Some(Event::OneHitKnockOut),
        _ => None,
    }
}

/// The event about a member with this word and the fields after the member. A field that is a word is the one that gives the line.
fn about(
    who: Who,
    word: &str,
    [second, third]: [&str; 2],
    has_line: impl Fn(&Event) -> bool,
) -> Option<Event> {
    let mut kinds = (1..=5).filter_map(Kind::from_number);
    let mut volatiles = (1..=13).filter_map(Volatile::from_number);
    match word {
        "move" => Some(Event::Move(who, MoveId::from_name(second)?, who_in(third)?)),
        "cant" => {
            let mut reasons = (1..=7).filter_map(CantReason::from_number);
            reasons.find_map(|it| Some(Event::Cant(who, it)).filter(&has_line))
        }
        "-damage" => damage(who, second, has_line),
        "-heal" => healths(second).find_map(|it| Some(Event::Heal(who, it)).filter(&has_line)),
        "-crit" => Some(Event::Crit(who)),
        "-supereffective" => Some(Event::SuperEffective(who)),
        "-resisted" => Some(Event::Resisted(who)),
        "-immune" => Some(Event::Immune(who)),
        "-miss" => Some(Event::Miss(who)),
        "-fail" => Some(Event::Fail(who)),
        "-status" => kinds.find_map(|it| Some(Event::Status(who, it)).filter(&has_line)),
        "-curestatus" => kinds.find_map(|it| Some(Event::Cure(who, it)).filter(&has_line)),
        "-boost" => shifts(third)
            .find_map(|(stat, count)| Some(Event::Boost(who, stat, count)).filter(&has_line)),
        "-unboost" => shifts(third)
            .find_map(|(stat, count)| Some(Event::Unboost(who, stat, count)).filter(&has_line)),
        "-start" => volatiles.find_map(|it| Some(Event::Start(who, it)).filter(&has_line)),
        "-end" => volatiles.find_map(|it| Some(Event::End(who, it)).filter(&has_line)),
        "-activate" => volatiles.find_map(|it| Some(Event::Activate(who, it)).filter(&has_line)),
        "-prepare" => Some(Event::Prepare(who, MoveId::from_name(second)?)),
        "-mustrecharge" => Some(Event::MustRecharge(who)),
        "-hitcount" => Some(Event::HitCount(who, HitCount::new(second.parse().ok()?)?)),
        "faint" => Some(Event::Faint(who)),
        _ => None,
    }
}

/// The damage with a health and the line's source.
fn damage(who: Who, health: &str, has_line: impl Fn(&Event) -> bool) -> Option<Event> {
    healths(health).find_map(|health| {
        let mut sources = (0..=5).filter_map(DamageSource::from_number);
        sources.find_map(|it| Some(Event::Damage(who, health, it)).filter(&has_line))
    })
}

/// The healths with the HP in a text, without a status and with each status.
fn healths(text: &str) -> impl Iterator<Item = Health> {
    let numbers = text.split(' ').next().unwrap_or("");
    let (hp, max) = numbers.split_once('/').unwrap_or(("", ""));
    // No health has a maximum of 0.
    let [hp, max] = [hp, max].map(|number| number.parse().unwrap_or(0));
    (0..=5).filter_map(move |kind| Health::new(hp, max, Kind::from_number(kind)))
}

/// Each stat with the number of stages in a text.
fn shifts(count: &str) -> impl Iterator<Item = (Stat, StageCount)> {
    let count = count.parse().ok().and_then(StageCount::new);
    let stats = [
        Stat::Attack,
        Stat::Defense,
        Stat::Speed,
        Stat::Special,
        Stat::Accuracy,
        Stat::Evasion,
    ];
    stats
        .into_iter()
        .filter_map(move |stat| Some((stat, count?)))
}
