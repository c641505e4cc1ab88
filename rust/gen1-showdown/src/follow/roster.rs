//! The members of a side, distinguished by their lines in a log.
use crate::reading::shown;
use crate::{Members, numbered};
use gen1::{Health, Level, Place, Side, Species, Team, Who};

/// A member of a side.
pub struct Entry {
    pub species: Species,
    pub level: Level,
    /// Its name in the log; before it comes out, that of the team.
    pub name: String,
    /// HP and status as the log last had them; `None` before the member comes out.
    pub health: Option<Health>,
}

/// The members of a side: those of its team in their order, or those that came out in the order in which they did.
pub struct Roster {
    side: Side,
    pub entries: Vec<Entry>,
    has_team: bool,
    /// The index of the active member, from 0.
    out: Option<usize>,
    /// The number of members; `None` if the log has not given it.
    pub count: Option<u8>,
}

impl Roster {
    /// A side about which nothing is known.
    pub fn new(side: Side) -> Roster {
        Roster {
            side,
            entries: Vec::new(),
            has_team: false,
            out: None,
            count: None,
        }
    }

    /// A side whose team is known.
    pub fn of_team(side: Side, team: &Team, members: &Members) -> Roster {
        let named = team.members().iter().zip(numbered(members));
        let entry = |(member, name): (&gen1::Member, String)| {
            let level = Level::new(member.level())?;
            let (species, health) = (member.species(), None);
            Some(Entry {
                species,
                level,
                name,
                health,
            })
        };
        let entries: Vec<_> = named.filter_map(entry).collect();
        Roster {
            count: u8::try_from(entries.len()).ok(),
            has_team: true,
            entries,
            ..Roster::new(side)
        }
    }

    /// Takes the number of members from the log.
    pub fn set_count(&mut self, count: u8) -> Result<(), String> {
        match self.count.filter(|_| self.has_team) {
            Some(known) if known != count => Err(format!(
                "expected {known}, the number of members of the team, found \"{count}\""
            )),
            _ => {
                self.count = Some(count);
                Ok(())
            }
        }
    }

    /// Sends out a member, and returns its place.
    pub fn send_out(&mut self, coming: Entry) -> Result<Place, String> {
        let known = self.find(&coming);
        let at = known.unwrap_or(self.entries.len());
        let most = usize::from(self.count.unwrap_or(6));
        let place = u8::try_from(at + 1).ok().and_then(Place::new);
        let Some(place) = place.filter(|_| at < most && (known.is_some() || !self.has_team)) else {
            return Err(self.no_other(&coming, most));
        };
        match known {
            Some(at) => self.entries[at] = coming,
            None => self.entries.push(coming),
        }
        self.out = Some(at);
        Ok(place)
    }

    /// The member that comes out: one that was withdrawn with the same name, HP and status; otherwise one of the team that has not been
    /// out, with the same name if there is one.
    fn find(&self, coming: &Entry) -> Option<usize> {
        let same = |at: &usize| {
            let entry = &self.entries[*at];
            entry.species == coming.species && entry.level == coming.level
        };
        let fitting = || (0..self.entries.len()).filter(same);
        let returns = |at: &usize| {
            let entry = &self.entries[*at];
            self.out != Some(*at) && entry.name == coming.name && entry.health == coming.health
        };
        let fresh = || fitting().filter(|at| self.entries[*at].health.is_none());
        let named = |at: &usize| self.entries[*at].name == coming.name;
        let found = fitting().find(returns).or_else(|| fresh().find(named));
        found.or_else(|| fresh().next())
    }

    /// Why an unknown member can't come out.
    fn no_other(&self, coming: &Entry, most: usize) -> String {
        let (name, species, level) = (shown(&coming.name), coming.species, coming.level);
        let found = format!("found {name} ({species}, L{level})");
        if !self.has_team {
            let as_it_was = "with the HP and status that it had";
            return format!(
                "all {most} members have been out; expected one of them {as_it_was}, {found}"
            );
        }
        let is_same = |it: &Entry| it.species == species && it.level == level;
        match self.entries.iter().any(is_same) {
            true => {
                format!("expected another member of the team, or the same HP and status, {found}")
            }
            false => format!("expected a member of the team, {found}"),
        }
    }

    /// The active member.
    pub fn active(&self) -> Option<&Entry> {
        self.entries.get(self.out?)
    }

    /// The active member, or the error for a line before the first one comes out.
    pub fn sent_out(&self) -> Result<&Entry, String> {
        let none = || format!("side {} has no active member before |switch|", self.side);
        self.active().ok_or_else(none)
    }

    /// The member that a line names, which must be the active one.
    pub fn named(&self, name: &str) -> Result<Who, String> {
        let (side, active) = (self.side, self.sent_out()?);
        match active.name == name {
            true => Ok(self.who(active)),
            false => Err(format!(
                "expected {}, the active member of side {side}, found {}",
                shown(&active.name),
                shown(name)
            )),
        }
    }

    pub fn who(&self, entry: &Entry) -> Who {
        Who {
            side: self.side,
            species: entry.species,
        }
    }

    /// Changes the HP and status of the active member.
    pub fn set_health(&mut self, health: Option<Health>) {
        let out = self.out.and_then(|at| self.entries.get_mut(at));
        if let (Some(entry), Some(health)) = (out, health) {
            entry.health = Some(health);
        }
    }
}
