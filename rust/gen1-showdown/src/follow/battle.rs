//! A battle that fits a player's knowledge: its side as it is shown, from the requests and the events between them, and a guess of the
//! foe's team.
use super::reader::Reader;
use super::request::{Asked, Listed, ListedMove, ListedName, Request};
use super::roster::{Entry, Roster};
use crate::{Fault, Members, index, names_of, team};
use gen1::{
    Battle, CantReason, Choice, Conditions, DamageSource, Effect, Event, Guess, GuessFault, Kind,
    Member, MemberSpec, MoveId, OfferedMask, OwnMember, OwnSide, Player, PublicSide, Seen, Side,
    Team, Volatile,
};

/// A request with its place in the log.
pub struct Placed {
    pub line: usize,
    /// How many events come before it.
    pub after: usize,
    pub request: Request,
}

/// The player's side as it is shown to the player, and its choices.
pub struct Shown {
    pub own: OwnSide,
    pub choices: Vec<Choice>,
    /// The line of the request.
    pub line: usize,
}

/// The player's side according to the events and requests.
struct Own<'a> {
    side: Side,
    team: &'a [Member],
    names: &'a [String],
    /// The places in the order of the request: the active member is first, and each switch swaps two of them.
    order: Vec<usize>,
    /// The PP of each member's moves by slot.
    pp: Vec<[u8; 4]>,
    /// The slot that Disable blocks, as the last request with slots has it.
    disabled_slot: u8,
    /// The effect of the move that continues without PP.
    goes_on: Option<Effect>,
    /// Whether Thrash continues.
    thrashes: bool,
    /// Whether the last event is a use of a move by the player's side.
    has_just_used: bool,
}

/// The player's side as it is shown after the last event. An error is a line's number and a sentence.
pub fn shown(
    read: &Reader,
    player: &Player,
    team: &Team,
    names: &[String],
) -> Result<Shown, (usize, String)> {
    let (requests, side) = (&read.requests, player.side());
    let missing = |why: &str| (read.last_line, why.to_string());
    let (Some(first), Some(last)) = (requests.first(), requests.last()) else {
        return Err(missing("expected a |request| of the side, found none"));
    };
    // A request comes after the events that lead to it, or before them.
    let comes_first = first.after == 0;
    let count = read.events.len();
    if comes_first && last.after == count {
        return Err(missing("expected the events after the last |request|"));
    }
    if !comes_first && last.after < count {
        return Err(missing("expected a |request| after the last event"));
    }
    let mut own = Own::new(side, team.members(), names);
    let mut heard = 0;
    for (number, placed) in requests.iter().enumerate() {
        let next = requests.get(number + 1).map_or(count, |next| next.after);
        let until = if comes_first { next } else { placed.after };
        read.events[heard..until].iter().for_each(|it| own.hear(it));
        heard = until;
        own.take(&placed.request)
            .map_err(|why| (placed.line, inside(&why)))?;
    }
    let now = own.now(&last.request, player);
    now.map(|(own, choices)| Shown {
        own,
        choices,
        line: last.line,
    })
    .map_err(|why| (last.line, inside(&why)))
}

fn inside(why: &str) -> String {
    format!("in |request|: {why}")
}

impl<'a> Own<'a> {
    fn new(side: Side, team: &'a [Member], names: &'a [String]) -> Own<'a> {
        Own {
            side,
            team,
            names,
            order: (0..team.len()).collect(),
            pp: team.iter().map(full_pp).collect(),
            disabled_slot: 0,
            goes_on: None,
            thrashes: false,
            has_just_used: false,
        }
    }

    /// The place of the member that is out, from 0.
    fn out(&self) -> usize {
        self.order.first().copied().unwrap_or(0)
    }

    fn slot_of(&self, place: usize, id: MoveId) -> Option<usize> {
        let moves = self.team[place].moves();
        moves.iter().position(|known| known.id == id)
    }

    fn hear(&mut self, event: &Event) {
        let has_used = std::mem::take(&mut self.has_just_used);
        match event {
            Event::Switch(who, ..) if who.side != self.side => {
                // A trapping move whose foe was switched out is used again.
                self.goes_on = self.goes_on.filter(|effect| !effect.traps());
            }
            _ if event.who().is_some_and(|who| who.side == self.side) => {
                self.hear_own(event, has_used);
            }
            _ => (),
        }
    }

    fn hear_own(&mut self, event: &Event, has_used: bool) {
        match event {
            Event::Switch(_, place, ..) => self.come_out(usize::from(place.number()) - 1),
            Event::Move(_, id, _) => self.use_move(*id),
            // Bide begins without the event of a move.
            Event::Start(_, Volatile::Bide) => {
                let moves = self.team[self.out()].moves();
                let bide = moves.iter().find(|known| known.id.effect().bides());
                bide.iter().for_each(|known| self.pay(known.id));
            }
            // Thrash ends with it, right after the move.
            Event::Start(_, Volatile::Confusion) if has_used => self.thrashes = false,
            Event::Cant(_, CantReason::Paralysed)
            | Event::Damage(_, _, DamageSource::Confusion)
            | Event::Faint(_) => self.thrashes = false,
            _ => (),
        }
    }

    fn come_out(&mut self, place: usize) {
        if let Some(at) = self.order.iter().position(|it| *it == place) {
            self.order.swap(0, at);
        }
        self.disabled_slot = 0;
        (self.goes_on, self.thrashes) = (None, false);
    }

    fn use_move(&mut self, id: MoveId) {
        if self.goes_on != Some(id.effect()) {
            self.pay(id);
        }
        (self.thrashes, self.has_just_used) = (id.effect().thrashes(), true);
    }

    /// Deducts a PP of the active member's move. 0 wraps to 63.
    fn pay(&mut self, id: MoveId) {
        let place = self.out();
        if let Some(slot) = self.slot_of(place, id) {
            let pp = &mut self.pp[place][slot];
            *pp = pp.checked_sub(1).unwrap_or(63);
        }
    }

    /// Takes a request that comes after the events that were heard.
    fn take(&mut self, request: &Request) -> Result<(), String> {
        let places = self.places(request)?;
        let out = request.members.iter().position(|it| it.is_active);
        let out = out.map(|at| places[at]);
        if out != Some(self.out()) {
            let due = &self.names[self.out()];
            return Err(format!("expected {due} to be active, as in the log"));
        }
        self.goes_on = None;
        let Asked::Move { moves, .. } = &request.asked else {
            return Ok(());
        };
        match only_move(moves) {
            Some(ListedName::Move(id)) => {
                let effect = id.effect();
                let costs_nothing = effect.thrashes() || effect.traps() || effect.rages();
                self.goes_on = Some(effect).filter(|_| costs_nothing);
            }
            Some(_) => (),
            None => self.take_slots(moves)?,
        }
        Ok(())
    }

    fn take_slots(&mut self, moves: &[ListedMove]) -> Result<(), String> {
        let place = self.out();
        self.disabled_slot = 0;
        for listed in moves {
            let ListedName::Move(id) = listed.name else {
                return Err("expected one move, or moves with PP".into());
            };
            let slot = self.slot_of(place, id);
            let (Some(slot), Some(pp)) = (slot, listed.pp) else {
                let name = &self.names[place];
                return Err(format!("expected moves of {name} with PP, found {id}"));
            };
            self.pp[place][slot] = pp;
            if listed.is_disabled && pp > 0 {
                self.disabled_slot = slot as u8 + 1;
            }
        }
        Ok(())
    }

    /// The places of the members that a request lists, in its order.
    fn places(&self, request: &Request) -> Result<Vec<usize>, String> {
        let (due, found) = (self.team.len(), request.members.len());
        if due != found {
            return Err(format!(
                "expected {due} members, as the team has, found {found}"
            ));
        }
        let mut places = Vec::new();
        for (listed, tracked) in request.members.iter().zip(&self.order) {
            let fits = |place: &usize| {
                let member = &self.team[*place];
                let same = (member.species(), member.level());
                same == (listed.species, listed.level.number()) && !places.contains(place)
            };
            let differs = |place: &usize| (self.names[*place] != listed.name, place != tracked);
            let place = (0..due).filter(fits).min_by_key(differs);
            let place = place.ok_or_else(|| not_in_team(listed))?;
            for id in &listed.moves {
                if self.slot_of(place, *id).is_none() {
                    let name = &self.names[place];
                    return Err(format!("{name} knows {id}, but not in the team"));
                }
            }
            places.push(place);
        }
        Ok(places)
    }

    /// The player's side and choices at the last request.
    fn now(&self, request: &Request, player: &Player) -> Result<(OwnSide, Vec<Choice>), String> {
        let public = player.public(self.side);
        // Before the first time a player is shown zeros.
        let mut own = *player.own();
        for (listed, place) in request.members.iter().zip(self.places(request)?) {
            own.members[place] = self.member(listed, place, public)?;
        }
        let it = public.stages;
        own.stages = [
            it.attack,
            it.defense,
            it.speed,
            it.special,
            it.accuracy,
            it.evasion,
        ];
        own.types = [public.first_type, public.second_type];
        (own.turn, own.place) = (player.turn(), public.place);
        own.count = self.team.len() as u8;
        own.conditions = self.conditions(&request.asked, public).bits();
        own.disabled_slot = self.disabled(public);
        let cannot_act = own.members[self.out()].status();
        let cannot_act = matches!(cannot_act, Some(Kind::Sleep | Kind::Freeze));
        if let Asked::Move { moves, is_held, .. } = &request.asked {
            let fights = only_move(moves) == Some(ListedName::Fight) && !cannot_act;
            own.held = u8::from(*is_held || fights);
        }
        own.request = match request.asked {
            Asked::Nothing => 0,
            Asked::Move { .. } => 1,
            Asked::Switch => 2,
        };
        let choices = self.choices(&request.asked, &own, cannot_act);
        Ok((own, choices))
    }

    fn member(
        &self,
        listed: &Listed,
        place: usize,
        public: &PublicSide,
    ) -> Result<OwnMember, String> {
        let (member, seen) = (&self.team[place], &public.members[place]);
        let health = listed.health;
        let (hp, max) = health.map_or((0, seen.max), |it| (it.hp(), it.max()));
        let status = health.and_then(|it| it.kind());
        if (hp, max, status) != (seen.hp, seen.max, seen.status()) {
            let name = &self.names[place];
            let with = |kind: Option<Kind>| kind.map_or(String::new(), |kind| format!(" {kind}"));
            let due = format!("{}/{}{}", seen.hp, seen.max, with(seen.status()));
            let found = format!("{hp}/{max}{}", with(status));
            return Err(format!(
                "expected {name} to have {due}, as in the log, found {found}"
            ));
        }
        let ids = member.moves().iter().map(|known| known.id.number());
        let mut moves = [0; 4];
        moves.iter_mut().zip(ids).for_each(|(to, id)| *to = id);
        Ok(OwnMember {
            species: member.species().number(),
            level: member.level(),
            status: status.map_or(0, Kind::number),
            unused: 0,
            moves,
            pp: self.pp[place],
            hp,
            max_hp: max,
            stats: listed.stats,
        })
    }

    /// The conditions of the active member. If a move is asked for, the request shows which condition that belongs to a move is on.
    fn conditions(&self, asked: &Asked, public: &PublicSide) -> Conditions {
        let it = &public.announced;
        let on = all_of(&[
            (it.substitute, Conditions::SUBSTITUTE),
            (it.confused, Conditions::CONFUSED),
            (it.mist, Conditions::MIST),
            (it.focus_energy, Conditions::FOCUS_ENERGY),
            (it.light_screen, Conditions::LIGHT_SCREEN),
            (it.reflect, Conditions::REFLECT),
            (it.seeded, Conditions::SEEDED),
            (it.toxic, Conditions::BAD_POISON),
            (it.disabled, Conditions::DISABLED),
            (public.invulnerable, Conditions::INVULNERABLE),
        ]);
        let of_move = match asked {
            Asked::Move { moves, .. } => {
                only_move(moves).map_or(Conditions::default(), condition_of)
            }
            _ => all_of(&[
                (it.bide, Conditions::BIDE),
                (it.charging, Conditions::CHARGING),
                (it.recharging, Conditions::RECHARGE),
                (it.rage, Conditions::RAGE),
                (u8::from(self.thrashes), Conditions::THRASH),
            ]),
        };
        on | of_move
    }

    /// The slot that Disable blocks. If no request has listed it, it is assumed to be the first with PP.
    fn disabled(&self, public: &PublicSide) -> u8 {
        if public.announced.disabled == 0 || self.disabled_slot > 0 {
            return self.disabled_slot * public.announced.disabled;
        }
        let first = self.pp[self.out()].iter().position(|pp| *pp > 0);
        first.map_or(1, |slot| slot as u8 + 1)
    }

    /// The choices that a request offers, in the order of their bytes.
    fn choices(&self, asked: &Asked, own: &OwnSide, cannot_act: bool) -> Vec<Choice> {
        let others = (0..self.team.len()).filter(|place| *place != self.out());
        let living = others.filter(|place| own.members[*place].hp > 0);
        let switches = living.filter_map(|place| Choice::from_byte(0x21 + place as u8));
        let Asked::Move {
            moves, is_trapped, ..
        } = asked
        else {
            return match asked {
                Asked::Switch => switches.collect(),
                _ => vec![Choice::Pass],
            };
        };
        let mut choices = Vec::new();
        if only_move(moves).is_none() && !cannot_act && own.held == 0 {
            let offered = moves
                .iter()
                .filter(|it| !it.is_disabled && it.pp != Some(0));
            let slots = offered.filter_map(|it| match it.name {
                ListedName::Move(id) => self.slot_of(self.out(), id),
                _ => None,
            });
            choices.extend(slots.filter_map(|slot| Choice::from_byte(0x11 + slot as u8)));
        }
        if choices.is_empty() {
            choices.push(Choice::MOVE_0);
        }
        if !is_trapped {
            choices.extend(switches);
        }
        choices.sort_by_key(|choice| choice.byte());
        choices
    }
}

fn full_pp(member: &Member) -> [u8; 4] {
    let mut all = [0; 4];
    let pp = member.moves().iter().map(|known| known.pp);
    all.iter_mut().zip(pp).for_each(|(to, pp)| *to = pp);
    all
}

/// The move of a request for a member that has no slot to choose.
fn only_move(moves: &[ListedMove]) -> Option<ListedName> {
    match moves {
        [only] if only.pp.is_none() => Some(only.name),
        _ => None,
    }
}

/// The condition of a member that has no slot to choose; none for Struggle and for one that can't act.
fn condition_of(only: ListedName) -> Conditions {
    let effect = match only {
        ListedName::Recharge => return Conditions::RECHARGE,
        ListedName::Fight => return Conditions::default(),
        ListedName::Move(id) => id.effect(),
    };
    all_of(&[
        (u8::from(effect.bides()), Conditions::BIDE),
        (u8::from(effect.thrashes()), Conditions::THRASH),
        (u8::from(effect.traps()), Conditions::TRAPPING),
        (u8::from(effect.charges()), Conditions::CHARGING),
        (u8::from(effect.rages()), Conditions::RAGE),
    ])
}

/// The conditions whose flag is 1.
fn all_of(flags: &[(u8, Conditions)]) -> Conditions {
    let on = flags.iter().filter(|(flag, _)| *flag == 1);
    on.fold(Conditions::default(), |all, (_, which)| all | *which)
}

fn not_in_team(listed: &Listed) -> String {
    let (name, species, level) = (&listed.name, listed.species, listed.level);
    let name = crate::reading::shown(name);
    format!("expected a member of the team, found {name} ({species}, L{level})")
}

/// A battle that fits a player's knowledge and a guess of the foe's team, in any order. Its choices are those of the request.
pub fn fitting(
    mut player: Player,
    shown: &Shown,
    read: &Reader,
    guess: &Members,
    seed: [u8; 10],
) -> Result<Battle, Fault> {
    let side = player.side();
    let team = guessed_team(&player, &read.sides[index(side.other())], guess)?;
    // The choices follow from the rest.
    player.show(&shown.own, OfferedMask::default());
    let battle =
        Battle::from_player(&player, &Guess::new(team, seed)).map_err(|why| match why {
            GuessFault::NotGoingOn => Fault::Line {
                line: read.last_line,
                why: why.to_string(),
            },
            _ => Fault::Guess(why.to_string()),
        })?;
    let offered = battle.choices(side);
    if *offered != *shown.choices {
        let [due, found] = [&offered[..], &shown.choices[..]].map(words);
        let why =
            format!("in |request|: the choices are {found}, but those of the battle are {due}");
        return Err(Fault::Line {
            line: shown.line,
            why,
        });
    }
    Ok(battle)
}

fn words(choices: &[Choice]) -> String {
    let each = choices.iter().map(|choice| choice.to_string());
    each.collect::<Vec<_>>().join(", ")
}

/// The guessed team, with the members that have been out first, in the order in which they came out.
fn guessed_team(player: &Player, roster: &Roster, guess: &Members) -> Result<Team, Fault> {
    let side = player.side().other();
    let team_as_given = team(side, guess)?;
    let count = guess.specs.len();
    if let Some(due) = roster.count.filter(|due| usize::from(*due) != count) {
        return Err(Fault::Guess(format!(
            "expected {due} members, as the log says, found {count}"
        )));
    }
    let names = names_of(guess);
    let mut order: Vec<usize> = Vec::new();
    for (entry, seen) in roster.entries.iter().zip(&player.foe().members) {
        let member = |at: &usize| &team_as_given.members()[*at];
        let same = |at: &usize| {
            let both = (member(at).species(), member(at).level());
            both == (entry.species, entry.level.number()) && !order.contains(at)
        };
        let differs = |at: &usize| {
            (
                unknown_move(member(at), seen).is_some(),
                names[*at] != entry.name,
            )
        };
        let Some(at) = (0..count).filter(same).min_by_key(differs) else {
            return Err(contradiction(
                entry,
                "which has been out, is not in the guess",
            ));
        };
        check(player, member(&at), entry, seen)?;
        order.push(at);
    }
    let rest: Vec<usize> = (0..count).filter(|at| !order.contains(at)).collect();
    let ordered = order.iter().chain(&rest).map(|at| guess.specs[*at].clone());
    let ordered = ordered.collect::<Vec<MemberSpec>>();
    Team::new(&ordered).map_err(|why| Fault::Team { side, why })
}

/// Compares a guessed member with the log.
fn check(player: &Player, member: &Member, entry: &Entry, seen: &Seen) -> Result<(), Fault> {
    if let Some(id) = unknown_move(member, seen) {
        return Err(contradiction(
            entry,
            &format!("doesn't know {id}, which it used"),
        ));
    }
    let max = member.max_hp();
    if !player.allows_max_hp(seen, max) {
        let (hp, whole) = (seen.hp, seen.max);
        let why = format!("has a maximum of {max} HP, but {hp}/{whole} in the log");
        return Err(contradiction(entry, &why));
    }
    Ok(())
}

/// A move that was seen and that the guessed member doesn't know.
fn unknown_move(member: &Member, seen: &Seen) -> Option<MoveId> {
    let knows = |id: MoveId| member.moves().iter().any(|known| known.id == id);
    let used = seen.moves().map(|(id, _)| id);
    used.filter(|id| *id != MoveId::STRUGGLE)
        .find(|id| !knows(*id))
}

fn contradiction(entry: &Entry, why: &str) -> Fault {
    let (species, level) = (entry.species, entry.level);
    Fault::Guess(format!("{species}, L{level}, {why}"))
}
