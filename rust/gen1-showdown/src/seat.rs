//! A player of a battle: what it knows, and its names for members and moves.
use crate::words::Hp;
use crate::{Fault, Members, names_of};
use gen1::{
    Battle, Choice, Conditions, Event, EventList, HpForm, Kind, LogBuf, Message, MoveId,
    OfferedMask, OwnSide, Player, Side, Team, Teller, TurnLimit, Volatile, events_of, write_log,
};

/// A player of a battle. Requests and choices are made only from these fields, which hold nothing that the player may not know.
pub struct Seat {
    /// The side of the player.
    pub side: Side,
    /// The name of the player.
    pub name: String,
    /// The names of the members by their places.
    pub members: Vec<String>,
    /// What the player knows of the battle.
    pub player: Player,
    teller: Teller,
    hp: Hp,
    /// The places in the order of the request: the active member is first, and each switch swaps two of them.
    pub order: Vec<usize>,
    /// The move that the active member used last, or began without a use: Bide, and a move that it charges.
    current: Option<MoveId>,
    /// The foe's last use of a move.
    foes_use: Option<MoveId>,
    is_toxic: bool,
    /// The PP of each member's moves at the start of the battle.
    most_pp: [[u8; 4]; 6],
    /// The choice of the player, until the other side has chosen too.
    pub chosen: Option<Choice>,
}

/// A move that a request lists.
pub struct Slot {
    /// The name of the move, or `Recharge`.
    pub name: &'static str,
    /// The move; `None` for a recharge.
    pub id: Option<MoveId>,
    /// PP and their maximum; `None` for a move that is not one of the four.
    pub pp: Option<[u8; 2]>,
    /// The choice, if it is offered.
    pub choice: Option<Choice>,
}

impl Seat {
    /// A player with a name and a team, who is shown the foe's HP in some form.
    #[must_use]
    pub fn new(side: Side, name: String, members: &Members, team: &Team, hp: Hp) -> Seat {
        let names = names_of(members);
        let own = Battle::new(team, team, [0; 10]).own_side(side);
        Seat {
            side,
            name,
            order: (0..names.len()).collect(),
            members: names,
            player: Player::new(side, team).with_hp(hp.form()),
            // The form of HP is that of the lines.
            teller: Teller::with_hp(side, HpForm::Exact),
            hp,
            current: None,
            foes_use: None,
            is_toxic: false,
            most_pp: own.members.map(|member| member.pp),
            chosen: None,
        }
    }

    /// Reports an update to the player: the battle after it, and its log bytes.
    ///
    /// # Errors
    ///
    /// The bytes are not a log.
    pub fn tell(&mut self, battle: &Battle, log: &[u8]) -> Result<(), Fault> {
        let told = self.teller.tell_log(log)?;
        let offered = battle.offered_mask(self.side);
        let limit = TurnLimit::new(battle.limit()).unwrap_or_default();
        self.player = self.player.with_terms(battle.rules(), limit);
        self.take(&told, &battle.own_side(self.side), offered)
    }

    /// Takes in the message that the player's host sent it, once each and in order.
    ///
    /// # Errors
    ///
    /// Its log is not a log. Then nothing has changed.
    pub fn receive(&mut self, message: &Message) -> Result<(), Fault> {
        self.take(message.log(), message.own(), message.offered())
    }

    /// Takes in the log that is reported to the player for an update, and what it is shown after it.
    fn take(&mut self, told: &[u8], own: &OwnSide, offered: OfferedMask) -> Result<(), Fault> {
        self.hear(told)?;
        self.player.show(own, offered);
        let choices = self.player.choices();
        let passes = choices.as_slice() == [Choice::Pass];
        self.chosen = passes.then_some(Choice::Pass);
        Ok(())
    }

    /// Takes in the log that was reported to the player for a pair, without what it was shown after it. For a player that comes back,
    /// [`Seat::receive`] then takes in the last message.
    ///
    /// # Errors
    ///
    /// The log is not one. Then nothing has changed.
    pub fn hear(&mut self, told: &[u8]) -> Result<(), Fault> {
        let mut events = EventList::new();
        for event in events_of(told) {
            // An update has at most as many events as the list holds.
            let _ = events.try_push(self.shown(event?));
        }
        let mut told = LogBuf::new();
        write_log(&events, &mut told);
        self.player.feed(&told)?;
        self.note(&events);
        Ok(())
    }

    /// An event with the foe's HP in their form.
    fn shown(&self, event: Event) -> Event {
        match event {
            Event::Switch(who, place, level, it) if who.side != self.side => {
                Event::Switch(who, place, level, self.hp.shown(it))
            }
            Event::Damage(who, it, source) if who.side != self.side => {
                Event::Damage(who, self.hp.shown(it), source)
            }
            Event::Heal(who, it) if who.side != self.side => Event::Heal(who, self.hp.shown(it)),
            other => other,
        }
    }

    fn note(&mut self, events: &[Event]) {
        for event in events {
            let is_own = event.who().is_some_and(|who| who.side == self.side);
            match event {
                Event::Switch(_, place, ..) if is_own => {
                    (self.current, self.is_toxic) = (None, false);
                    let out = usize::from(place.number()) - 1;
                    if let Some(at) = self.order.iter().position(|place| *place == out) {
                        self.order.swap(0, at);
                    }
                }
                Event::Switch(..) => self.foes_use = None,
                Event::Move(_, id, _) | Event::Prepare(_, id) if is_own => self.current = Some(*id),
                Event::Move(_, id, _) | Event::Prepare(_, id) => self.foes_use = Some(*id),
                Event::Start(_, Volatile::Bide) if is_own => self.current = Some(MoveId::BIDE),
                Event::Status(_, Kind::Poison) if is_own => {
                    self.is_toxic = self.foes_use == Some(MoveId::TOXIC);
                }
                Event::Status(..) if is_own => self.is_toxic = false,
                Event::ClearAll => self.is_toxic = false,
                _ => (),
            }
        }
    }

    /// Whether the active member is poisoned by Toxic.
    #[must_use]
    pub fn is_toxic(&self) -> bool {
        self.is_toxic
    }

    /// Whether the player has nothing to choose.
    #[must_use]
    pub fn waits(&self) -> bool {
        self.player.choices().iter().all(|it| *it == Choice::Pass)
    }

    /// Whether the player is offered a choice.
    #[must_use]
    pub fn offers(&self, choice: Choice) -> bool {
        self.player.choices().contains(&choice)
    }

    /// The moves that the request lists; none if it asks for no move.
    #[must_use]
    pub fn slots(&self) -> Vec<Slot> {
        let own = self.player.own();
        let asks = self.player.choices().iter().any(|it| it.byte() >> 4 == 1);
        let Some(active) = own.member_out().filter(|_| asks) else {
            return Vec::new();
        };
        let most = self.most_pp.get(usize::from(own.place) - 1);
        let is_moved = self.offers(Choice::MOVE_0);
        let listed = (1u8..).zip(active.moves()).map(|(at, (id, pp))| {
            let choice = match is_moved {
                true => Some(Choice::MOVE_0).filter(|_| pp > 0 && own.disabled_slot != at),
                false => Choice::from_byte(0x10 + at).filter(|choice| self.offers(*choice)),
            };
            let most = most.map_or(pp, |most| most[usize::from(at) - 1]);
            let (name, id, pp) = (id.name(), Some(id), Some([pp, most]));
            Slot {
                name,
                id,
                pp,
                choice,
            }
        });
        let listed: Vec<_> = listed.collect();
        let can_be_chosen = || listed.iter().any(|slot| slot.choice.is_some());
        if !is_moved || (self.cannot_act() && !self.goes_on() && can_be_chosen()) {
            return listed;
        }
        let id = self.only_move();
        vec![Slot {
            name: id.map_or("Recharge", MoveId::name),
            id,
            pp: None,
            choice: Some(Choice::MOVE_0),
        }]
    }

    /// Whether the active member is asleep, frozen or held. Showdown lists its moves then. All of them have the same effect.
    fn cannot_act(&self) -> bool {
        let own = self.player.own();
        let status = own.member_out().and_then(|member| member.status());
        own.held == 1 || matches!(status, Some(Kind::Sleep | Kind::Freeze))
    }

    fn is_on(&self, which: Conditions) -> bool {
        self.player.own().conditions & which.bits() != 0
    }

    /// Whether the active member recharges, or continues a move.
    fn goes_on(&self) -> bool {
        let goes_on = [
            Conditions::RECHARGE,
            Conditions::BIDE,
            Conditions::THRASH,
            Conditions::TRAPPING,
            Conditions::CHARGING,
            Conditions::RAGE,
        ];
        goes_on.into_iter().any(|which| self.is_on(which))
    }

    /// The move of a member that has no slot to choose; `None` for a recharge.
    fn only_move(&self) -> Option<MoveId> {
        match (self.is_on(Conditions::RECHARGE), self.goes_on()) {
            (true, _) => None,
            (_, true) => self.current.or(Some(MoveId::STRUGGLE)),
            _ => Some(MoveId::STRUGGLE),
        }
    }

    /// Whether the active member keeps living members from coming out.
    #[must_use]
    pub fn is_trapped(&self) -> bool {
        let own = self.player.own();
        let may_come = |place: usize| own.members[place].hp > 0;
        let bench = self.order.iter().skip(1).any(|place| may_come(*place));
        let switches = self.player.choices().iter().any(|it| it.byte() >> 4 == 2);
        bench && !switches && !self.waits()
    }

    /// How many members have HP.
    #[must_use]
    pub fn left(&self) -> usize {
        let own = self.player.own();
        own.members.iter().filter(|member| member.hp > 0).count()
    }
}

#[cfg(test)]
mod tests {
    use super::*;
    use crate::{Heading, LineWriter, Viewer, index, request};
    use gen1::{Host, HostOptions};

    const TEAMS: [&str; 2] = [
        "Arbok||||wrap,glare,rest|||||||]Nidoking||||thrash,disable,toxic|||||||]Charizard||||fly,rage,leer|||||||",
        "Gengar||||substitute,confuseray,hypnosis|||||||]Golbat||||mist,haze,toxic|||||||]Cloyster||||clamp,surf,growl|||||||",
    ];

    fn lines(members: [Vec<String>; 2]) -> LineWriter {
        LineWriter::new(Heading {
            players: ["Alice", "Eve"].map(String::from),
            members,
            tier: "[Gen 1] Link battle".into(),
            rules: Vec::new(),
            hp: Hp::Percent,
        })
    }

    /// A battle, and a host of the same one, with the lines and the seats of both.
    struct Twice {
        battle: Battle,
        host: Host,
        run: LineWriter,
        sent: LineWriter,
        /// The lines of each side from its messages alone, without the names of the foe's members.
        told: [LineWriter; 2],
        of_battle: [Seat; 2],
        of_host: [Seat; 2],
    }

    impl Twice {
        fn new(seed: u8) -> Twice {
            let members = TEAMS.map(|text| Members::in_text(text).expect("members"));
            let teams = members.each_ref().map(|it| Team::new(&it.specs));
            let teams = teams.map(|it| it.expect("a team"));
            let names = || members.each_ref().map(names_of);
            let seat = |side| {
                let at = index(side);
                Seat::new(side, "A".into(), &members[at], &teams[at], Hp::Percent)
            };
            let battle = Battle::new(&teams[0], &teams[1], [seed; 10]);
            let options = HostOptions {
                exact_hp: true,
                ..HostOptions::default()
            };
            Twice {
                host: Host::with_options(battle.clone(), options),
                battle,
                run: lines(names()),
                sent: lines(names()),
                told: Side::BOTH.map(|side| {
                    let mut known = names();
                    known[index(side.other())].fill(String::new());
                    lines(known)
                }),
                of_battle: Side::BOTH.map(seat),
                of_host: Side::BOTH.map(seat),
            }
        }

        /// Updates the battle, and takes in what the host, which has played the pair, sends.
        fn update(&mut self, [one, two]: [Choice; 2]) {
            let (before, mut log) = (self.battle.clone(), LogBuf::new());
            let updated = self.battle.update_with(one, two, &mut log);
            updated.expect("offered choices");
            let events = events_of(&log).collect::<Result<Vec<_>, _>>();
            let events = events.expect("a log");
            self.run.update(&before, &events, &self.battle, None);
            let messages = Side::BOTH.map(|side| self.host.message(side));
            let reported = self
                .sent
                .report(messages.each_ref(), &self.host.notice(), None);
            reported.expect("logs");
            for (side, message) in Side::BOTH.into_iter().zip(&messages) {
                let at = index(side);
                let own = Some((side, message.own()));
                let heard = self.told[at].hear(message.log(), own, None);
                heard.expect("a log");
                let told = self.of_battle[at].tell(&self.battle, &log);
                told.expect("a log");
                self.of_host[at].receive(message).expect("a log");
            }
        }

        fn compare(&self) {
            assert_eq!(
                self.run.text(Viewer::Stream),
                self.sent.text(Viewer::Stream)
            );
            for side in Side::BOTH {
                let (at, viewer) = (index(side), Viewer::Player(side));
                assert_eq!(self.run.text(viewer), self.told[at].text(viewer));
                let [one, two] = [&self.of_battle[at], &self.of_host[at]];
                assert_eq!(request(one, 1), request(two, 1));
            }
        }
    }

    /// What a host sends gives the lines and the requests that the battle itself gives, to each side from its own messages.
    #[test]
    fn what_is_sent_is_enough() {
        for seed in 0..40 {
            let mut twice = Twice::new(seed);
            let mut chosen = [Choice::Pass; 2];
            for pair in 0..60 {
                twice.update(chosen);
                twice.compare();
                if twice.host.is_closed() {
                    break;
                }
                chosen = Side::BOTH.map(|side| {
                    let choices = twice.battle.choices(side);
                    choices[(usize::from(seed) * 7 + pair as usize * 13) % choices.len()]
                });
                for (side, choice) in Side::BOTH.into_iter().zip(chosen) {
                    if choice != Choice::Pass {
                        let replied = twice.host.submit(side, pair, choice, None);
                        replied.expect("an offered choice");
                    }
                }
            }
        }
    }
}
