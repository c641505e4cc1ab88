//! The events of a log, one line after the other.
use super::battle::Placed;
use super::fields::{
    KINDS, REASONS, SOURCES, STATS, VOLATILES, details_in, health_in, known_value, member_in,
    move_in, number_in, side_in, unexpected, value_of,
};
use super::request::request_in;
use super::roster::{Entry, Roster};
use crate::index;
use crate::reading::{did_you_mean, nearest_word, shown};
use gen1::{
    DamageSource, Event, FaultCode, Health, HitCount, Rules, Side, StageCount, TurnNumber, Who,
};

/// Words of lines that do not concern the battle.
const PASSED_OVER: &str = "\
    start upkeep tier rated t: request error c c: chat j J join l L leave n N name raw html \
    uhtml uhtmlchange inactive inactiveoff init title debug bigerror askreg message -hint -center \
    -nothing -notarget -anim clearpoke poke teampreview done noinit deinit expire";
/// Words of lines that are read.
const WORDS: &str = "\
    player teamsize gametype gen rule split turn win tie switch drag move cant faint -damage -heal -crit \
    -supereffective -resisted -immune -miss -fail -status -curestatus -boost -unboost \
    -clearallboost -start -end -activate -prepare -mustrecharge -hitcount -ohko -message fault";

/// The part of a log that has been read.
pub struct Reader {
    pub sides: [Roster; 2],
    /// The names of the players; empty before the log names them.
    pub names: [String; 2],
    pub events: Vec<Event>,
    /// Unknown words and names of the log, each once.
    pub unknown: Vec<Unknown>,
    /// The clauses that the log names.
    pub clauses: [bool; 2],
    /// The requests of the side whose requests are read.
    pub requests: Vec<Placed>,
    asked: Option<Side>,
    /// The last line that was read.
    pub last_line: usize,
    turn: u16,
    /// The line in which the battle ended.
    end: Option<usize>,
}

/// An unknown word of a line, or an unknown name in it, that may concern the battle.
pub struct Unknown {
    /// The first line that has it.
    pub line: usize,
    /// The word of the line.
    word: String,
    /// The name after it, if the word is known.
    name: Option<String>,
}

impl Unknown {
    pub fn why(&self) -> String {
        let (word, names) = (&self.word, WORDS.split(' '));
        match &self.name {
            Some(name) => format!("in |{word}|: {} is unknown", shown(name)),
            None => {
                let meant = did_you_mean(nearest_word(word, names));
                format!("the word {} is unknown{meant}", shown(word))
            }
        }
    }
}

/// The fields of a line after its word.
struct Fields<'a>(Vec<&'a str>);

impl<'a> Fields<'a> {
    fn at(&self, index: usize, expected: &str) -> Result<&'a str, String> {
        let found = self.0.get(index).copied();
        found.ok_or_else(|| format!("expected {expected} in field {}, found none", index + 1))
    }

    fn health(&self, before: Option<Health>) -> Result<Health, String> {
        health_in(self.at(1, "HP")?, before)
    }

    fn has(&self, tag: &str) -> bool {
        self.0.contains(&tag)
    }

    fn has_status(&self) -> bool {
        let second = self.0.get(1);
        second.is_some_and(|word| value_of(KINDS, word).is_some())
    }

    /// Whether a line says what other lines say too: the move of a charge or of Bide, which another line begins; and what Haze ends, and
    /// Haze itself.
    fn is_told_otherwise(&self, word: &str) -> Result<bool, String> {
        Ok(match word {
            "move" => {
                let effect = move_in(self.at(1, "a move")?)?.effect();
                effect.bides() || effect.charges() && self.has("[still]")
            }
            "-end" | "-status" => self.has("[silent]"),
            "-activate" => self.has("move: Haze") || self.has("move: Struggle"),
            _ => false,
        })
    }

    /// The source of a hit. An unknown tag means a direct hit.
    fn source(&self) -> DamageSource {
        let tags = self.0.iter().filter_map(|it| it.strip_prefix("[from] "));
        let known = tags.filter_map(|tag| value_of(SOURCES, tag)).next();
        known.unwrap_or(DamageSource::Direct)
    }
}

impl Reader {
    pub fn new(sides: [Roster; 2]) -> Reader {
        Reader {
            sides,
            names: Default::default(),
            events: Vec::new(),
            unknown: Vec::new(),
            clauses: [false; 2],
            requests: Vec::new(),
            asked: None,
            last_line: 1,
            turn: 0,
            end: None,
        }
    }

    /// A reader of a log that also reads the requests of a side.
    pub fn with_requests(self, side: Side) -> Reader {
        Reader {
            asked: Some(side),
            ..self
        }
    }

    /// The rules of the battle.
    pub fn rules(&self) -> Rules {
        let [sleep, freeze] = self.clauses.map(u8::from);
        Rules::new(sleep + 2 * freeze).unwrap_or_default()
    }

    /// Reads the next line. Lines that don't begin with a bar are skipped.
    pub fn take(&mut self, number: usize, line: &str) -> Result<(), String> {
        self.last_line = number;
        let mut parts = line.split('|');
        let (Some(""), Some(word)) = (parts.next(), parts.next()) else {
            return Ok(());
        };
        let fields = Fields(parts.collect());
        let inside = |why| format!("in |{word}|: {why}");
        let read = match word {
            "player" | "teamsize" | "gametype" | "gen" | "rule" => self.header(word, &fields),
            "request" => self.request(number, line),
            "turn" => self.begin_turn(&fields),
            "win" | "tie" | "fault" | "-message" => self.finish(number, word, &fields),
            "" => Ok(()),
            _ if is_one_of(PASSED_OVER, word) => Ok(()),
            _ if is_one_of(WORDS, word) => self.event(number, word, &fields),
            _ => {
                self.pass_over(number, word, None);
                Ok(())
            }
        };
        read.map_err(inside)
    }

    fn pass_over(&mut self, line: usize, word: &str, name: Option<&str>) {
        let is_new = |it: &Unknown| it.word != word || it.name.as_deref() != name;
        // A log can have as many as it has lines. The first ones are enough to see why.
        if self.unknown.len() < 20 && self.unknown.iter().all(is_new) {
            let (word, name) = (word.into(), name.map(String::from));
            self.unknown.push(Unknown { line, word, name });
        }
    }

    /// A line of the log's header.
    fn header(&mut self, word: &str, fields: &Fields) -> Result<(), String> {
        let first = fields.at(0, "a value")?;
        match word {
            "gametype" if first != "singles" => Err(unexpected("singles", first)),
            "gen" if first != "1" => Err(unexpected("1", first)),
            "teamsize" => {
                let side = side_in(first)?;
                let count = number_in(fields.at(1, "a number")?, 1, 6)?;
                self.sides[index(side)].set_count(count as u8)
            }
            "player" => {
                let side = side_in(first)?;
                // A player that leaves is announced without a name.
                if let Some(name) = fields.0.get(1).filter(|name| !name.is_empty()) {
                    self.names[index(side)] = (*name).into();
                }
                Ok(())
            }
            "rule" => {
                self.clauses[0] |= first.starts_with("Sleep Clause Mod");
                self.clauses[1] |= first.starts_with("Freeze Clause Mod");
                Ok(())
            }
            _ => Ok(()),
        }
    }

    fn request(&mut self, number: usize, line: &str) -> Result<(), String> {
        let text = line.strip_prefix("|request|").unwrap_or_default();
        let Some(side) = self.asked else {
            return Ok(());
        };
        if let Some(request) = request_in(side, text)? {
            let after = self.events.len();
            self.requests.push(Placed {
                line: number,
                after,
                request,
            });
        }
        Ok(())
    }

    fn begin_turn(&mut self, fields: &Fields) -> Result<(), String> {
        let due = self.turn + 1;
        let turn = number_in(fields.at(0, "a number")?, 1, 9999)?;
        let number = TurnNumber::new(turn).filter(|_| turn == due);
        let number = number.ok_or_else(|| unexpected(&format!("turn {due}"), fields.0[0]))?;
        self.goes_on()?;
        self.turn = turn;
        self.events.push(Event::Turn(number));
        Ok(())
    }

    fn goes_on(&self) -> Result<(), String> {
        match self.end {
            Some(line) => Err(format!("the battle ended in line {line}")),
            None => Ok(()),
        }
    }

    /// A line that may end the battle.
    fn finish(&mut self, number: usize, word: &str, fields: &Fields) -> Result<(), String> {
        let event = match word {
            // A fault is written with a tie after it.
            "tie" if matches!(self.events.last(), Some(Event::Fault(_))) => return Ok(()),
            "tie" => Event::Tie,
            "win" => Event::Win(self.winner(fields.at(0, "the name of a player")?)?),
            _ => match fault_in(word, fields) {
                Some(code) => Event::Fault(code),
                None => return Ok(()),
            },
        };
        self.goes_on()?;
        self.end = Some(number);
        self.events.push(event);
        Ok(())
    }

    /// The side of the player with a name, which may also be `p1` or `p2`.
    fn winner(&self, name: &str) -> Result<Side, String> {
        let sides = Side::BOTH.into_iter();
        let mut named = sides.filter(|side| self.names[index(*side)] == name);
        match (named.next(), named.next()) {
            (Some(side), None) => Ok(side),
            (Some(_), Some(_)) => Err(format!("both players have the name {}", shown(name))),
            _ => side_in(name).map_err(|_| {
                let [one, two] = self.names.each_ref().map(|name| shown(name));
                unexpected(&format!("the name of a player, {one} or {two}"), name)
            }),
        }
    }

    /// A line with an event of a member, or of both sides' members.
    fn event(&mut self, number: usize, word: &str, fields: &Fields) -> Result<(), String> {
        self.goes_on()?;
        let event = match word {
            "-clearallboost" => Some(Event::ClearAll),
            "-ohko" => Some(Event::OneHitKnockOut),
            "switch" | "drag" => Some(self.sent_out(fields)?),
            _ => {
                let (side, name) = member_in(fields.at(0, "a member, such as p1a: Tauros")?)?;
                let who = self.sides[index(side)].named(name)?;
                self.of_member(number, who, word, fields)?
            }
        };
        self.events.extend(event);
        Ok(())
    }

    fn sent_out(&mut self, fields: &Fields) -> Result<Event, String> {
        let (side, name) = member_in(fields.at(0, "a member, such as p1a: Tauros")?)?;
        let (species, level) = details_in(fields.at(1, "a species, such as Tauros, L88")?)?;
        let health = health_in(fields.at(2, "HP, such as 120/353")?, None)?;
        let coming = Entry {
            species,
            level,
            name: name.into(),
            health: Some(health),
        };
        let place = self.sides[index(side)].send_out(coming)?;
        Ok(Event::Switch(Who { side, species }, place, level, health))
    }

    /// The event of an active member; none for a line that changes nothing.
    fn of_member(
        &mut self,
        number: usize,
        who: Who,
        word: &str,
        fields: &Fields,
    ) -> Result<Option<Event>, String> {
        let second = |expected| fields.at(1, expected);
        if fields.is_told_otherwise(word)? {
            return Ok(None);
        }
        Ok(Some(match word {
            "move" => Event::Move(who, move_in(second("a move")?)?, self.foe_of(who)?),
            "-prepare" => Event::Prepare(who, move_in(second("a move")?)?),
            "-damage" | "-heal" | "-status" | "-curestatus" | "faint" => {
                return self.of_health(who, word, fields).map(Some);
            }
            "-boost" | "-unboost" => return shift(who, word, fields),
            // Mist, which a move of the foe met.
            "-activate" if fields.has("move: Mist") => Event::Miss(self.foe_of(who)?),
            "cant" | "-start" | "-end" | "-activate" => {
                let name = second("what it is")?;
                let event = named(who, word, name);
                if event.is_none() {
                    self.pass_over(number, word, Some(name));
                }
                return Ok(event);
            }
            "-hitcount" => {
                let hits = number_in(second("a number of hits")?, 1, 5)?;
                return Ok(HitCount::new(hits as u8).map(|it| Event::HitCount(who, it)));
            }
            "-crit" => Event::Crit(who),
            "-supereffective" => Event::SuperEffective(who),
            "-resisted" => Event::Resisted(who),
            "-immune" => Event::Immune(who),
            "-miss" => Event::Miss(who),
            // A move that would inflict a status that its target has.
            "-fail" if fields.has_status() => Event::Fail(self.foe_of(who)?),
            "-fail" => Event::Fail(who),
            "-mustrecharge" => Event::MustRecharge(who),
            _ => return Ok(None),
        }))
    }

    fn foe_of(&self, who: Who) -> Result<Who, String> {
        let roster = &self.sides[index(who.side.other())];
        Ok(roster.who(roster.sent_out()?))
    }

    /// An event that changes HP or status of a member.
    fn of_health(&mut self, who: Who, word: &str, fields: &Fields) -> Result<Event, String> {
        let roster = &mut self.sides[index(who.side)];
        let before = roster.active().and_then(|active| active.health);
        let with = |hp, kind| before.and_then(|it| Health::new(hp, it.max(), kind));
        let hp = before.map_or(0, Health::hp);
        let (health, event) = match word {
            "faint" => (with(0, None), Event::Faint(who)),
            "-damage" => {
                let health = fields.health(before)?;
                (Some(health), Event::Damage(who, health, fields.source()))
            }
            "-heal" => {
                let health = fields.health(before)?;
                (Some(health), Event::Heal(who, health))
            }
            _ => {
                let kind = known_value(KINDS, fields.at(1, "a status")?)?;
                match word {
                    "-status" => (with(hp, Some(kind)), Event::Status(who, kind)),
                    _ => (with(hp, None), Event::Cure(who, kind)),
                }
            }
        };
        roster.set_health(health);
        Ok(event)
    }
}

fn is_one_of(words: &str, word: &str) -> bool {
    words.split(' ').any(|known| known == word)
}

/// The event of a line whose second field is a name; `None` for a name that is not known.
fn named(who: Who, word: &str, name: &str) -> Option<Event> {
    let volatile = || value_of(VOLATILES, name);
    match word {
        "cant" => value_of(REASONS, name).map(|why| Event::Cant(who, why)),
        "-start" => volatile().map(|it| Event::Start(who, it)),
        "-end" => volatile().map(|it| Event::End(who, it)),
        _ => volatile().map(|it| Event::Activate(who, it)),
    }
}

/// A change of a stage; none for no stages, and for the second stat of the Special.
fn shift(who: Who, word: &str, fields: &Fields) -> Result<Option<Event>, String> {
    let stat = known_value(STATS, fields.at(1, "a stat")?)?;
    let count = number_in(fields.at(2, "a number of stages")?, 0, 2)?;
    let both = stat.zip(StageCount::new(count as u8));
    Ok(both.map(|(stat, count)| match word {
        "-boost" => Event::Boost(who, stat, count),
        _ => Event::Unboost(who, stat, count),
    }))
}

/// The fault that a line reports: `|fault|1`, or the message that the program writes in Showdown's form.
fn fault_in(word: &str, fields: &Fields) -> Option<FaultCode> {
    let text = fields.0.first()?;
    let code = match word {
        "fault" => text,
        _ => text
            .strip_prefix("The battle cannot go on (fault ")?
            .strip_suffix(").")?,
    };
    FaultCode::new(code.parse().ok()?)
}
