//! Rows: battles in words, each with a list of steps. A step sets a fact, makes a call, or says what is expected after it.
//!
//! All members are at level 100 unless the row says otherwise, with the greatest DVs and experience. Their stats are those
//! of docs/MECHANICS.md, "Stats", and their bytes those of docs/LAYOUT.md.
use arrayvec::ArrayVec;
use gen1::adapter::alloc::Global;
use gen1::generated::events::{LogBuf, write};
use gen1::generated::hits::Known;
use gen1::generated::layout::{Conditions, Packed};
use gen1::generated::machine::{
    Choice, DisabledSlot, Event, EventList, Outcome, Pick, Place, Request, Rules, Side, TurnLimit,
    UsedMove,
};
use gen1::generated::offers::offered;
use gen1::generated::printer::print_log;
use gen1::generated::rolls::{LinkRandom, Rolls, Sweep};
use gen1::generated::stats::{MemberSpec, Status, Team};
use gen1::generated::switching::{close, close_uncut, replace, send_both_first, send_out, start};
use gen1::generated::tables::{Element, MoveId, Species, Stat};
use gen1::generated::turn::{
    Acted, Roll, act, act_after_test, act_to_roll, roll_damage_of, test_hit, turn,
};
use std::error::Error;

pub(crate) const SEED: [u8; 10] = [1, 36, 255, 7, 31, 100, 179, 254, 127, 10];

/// A species and the one move that it knows.
pub(crate) type Knowing = (&'static str, &'static str);

pub(crate) const USER: Side = Side::One;

pub(crate) const FOE: Side = Side::Two;

/// The pick of the first move.
pub(crate) const SLOT: Pick = Pick::Use(UsedMove::Slot(1));

#[derive(Clone, Copy)]
pub(crate) struct Row {
    pub(crate) name: &'static str,
    pub(crate) teams: Teams,
    pub(crate) steps: &'static [Step],
}

/// Bytes from an offset on (docs/LAYOUT.md).
pub(crate) type Block = (usize, &'static [u8]);

/// A step of a row. A choice is a byte: 0x11 is the first move, and 0x22 the switch to place 2.
#[derive(Clone, Copy)]
pub(crate) enum Step {
    Put(Fact),
    /// Replaces bytes, and reads the battle from them.
    Load(&'static [Block]),
    /// The numbers that `LinkTurn` draws from.
    Link([u8; 10]),
    /// Remembers the bytes of the battle for `Changed`.
    Mark,

    Start,
    SendBothFirst,
    SendOut(Side, u8),
    Replace(u8, u8),
    /// The end of an update in which this side acted last.
    Close(Side),
    CloseUncut,
    /// A turn by both choices, which draws from a sweep: this byte, the next greater one, and so on.
    Turn(u8, u8, u8),
    /// A turn that draws from link numbers.
    LinkTurn(u8, u8),
    /// The user's action, which draws from a sweep from this byte on.
    Act(Pick, u8),
    /// The user's action with its residual damage, and with its hit test before the roll of its damage.
    ActTested(Pick, u8),
    /// The user's action, which draws from link numbers.
    LinkAct(Pick),

    Is(Fact),
    /// The events of the last call: the lines of the program, with the places of members that come out, and the
    /// greatest HP and the status of members without HP.
    Told(&'static [&'static str]),
    /// How many events the last call has, and some of them by their places from 0.
    ToldSome(usize, &'static [(usize, &'static str)]),
    /// The next byte of the sweep.
    Next(u8),
    /// The index of the next link number.
    NextLink(u8),
    /// The accuracy that the action tested.
    Tested(u8),
    /// Whether the action ended the battle, or the rest of the turn is skipped.
    Over(bool),
    Offered(Side, &'static [u8]),
    /// These bytes differ from the remembered ones, and no others do.
    Changed(&'static [Block]),
}

#[derive(Clone, Copy)]
pub(crate) enum Teams {
    /// A Tauros and a Gengar on both sides, which know Strength, and this turn limit.
    Pairs(u16),
    /// A Tauros on both sides, which knows this move, at this level.
    Alone(&'static str, u8),
    /// A Tauros that knows this move against a Snorlax that knows that move. Each has a Gengar at place 2.
    Facing(&'static str, &'static str),
    /// These members.
    Members(&'static [Knowing], &'static [Knowing]),
    /// Three Mew with four moves each, on both sides.
    Mews,
}

/// A fact of a battle, which a row sets before its call or expects after it.
#[derive(Clone, Copy, Debug, PartialEq)]
pub(crate) enum Fact {
    LastDamage(u16),
    Outcome(Outcome),
    Requests(Request, Request),
    Turn(u16),
    Place(Side, u8),
    Hp(Side, u16),
    /// Whether the member that is out has no HP and no status.
    Fallen(Side),
    Pp(Side, u8, u8),
    Status(Side, Status),
    Types(Side, Element, Element),
    /// A stage, from 0 to 12, and the current stat.
    Attack(Side, u8, u16),
    Defense(Side, u8, u16),
    Special(Side, u8, u16),
    Evasion(Side, u8),
    Stage(Side, Stat, u8),
    Stats(Side, [u16; 4]),
    CurrentMove(Side, UsedMove),
    PickedMove(Side, UsedMove),
    KeptAccuracy(Side, u8),
    Condition(Side, Conditions, bool),
    Substitute(Side, Option<u8>),
    Confused(Side, Option<u8>),
    BadPoison(Side, Option<u8>),
    Disabled(Side, Option<DisabledSlot>),
    Thrash(Side, Option<u8>),
    Trapping(Side, Option<u8>),
}

/// A battle that is played, and what the last call left.
struct Game {
    battle: Packed,
    marked: [u8; 384],
    events: EventList,
    sweep: Sweep,
    link: LinkRandom,
    tested: Option<u8>,
    is_over: bool,
}

/// Plays rows. A failure names the row and the number of the step, from 0.
pub(crate) fn play(rows: &[Row]) -> Result<(), Box<dyn Error>> {
    for row in rows {
        let mut game = Game {
            battle: unstarted(row.teams)?,
            marked: [0; 384],
            events: EventList::new(),
            sweep: Sweep::new(0),
            link: LinkRandom::new(SEED),
            tested: None,
            is_over: false,
        };
        for (number, step) in row.steps.iter().enumerate() {
            take(&mut game, *step, (row.name, number))?;
        }
    }
    Ok(())
}

fn take(game: &mut Game, step: Step, at: (&str, usize)) -> Result<(), Box<dyn Error>> {
    match step {
        Step::Put(fact) => put(&mut game.battle, fact)?,
        Step::Load(blocks) => {
            game.battle = Packed::read(&with(bytes_of(&game.battle), blocks))?;
        }
        Step::Link(numbers) => game.link = LinkRandom::new(numbers),
        Step::Mark => game.marked = bytes_of(&game.battle),
        Step::Start
        | Step::SendBothFirst
        | Step::SendOut(..)
        | Step::Replace(..)
        | Step::Close(_)
        | Step::CloseUncut => switch(game, step)?,
        Step::Turn(..) | Step::LinkTurn(..) => take_turn(game, step)?,
        Step::Act(..) | Step::LinkAct(_) => take_action(game, step),
        Step::ActTested(pick, from) => act_tested(game, pick, from),
        _ => expect(game, step, at)?,
    }
    Ok(())
}

fn place(number: u8) -> Result<Place, Box<dyn Error>> {
    Ok(Place::new(number).ok_or("no such place")?)
}

fn choice(byte: u8) -> Result<Choice, Box<dyn Error>> {
    Ok(Choice::from_byte(byte).ok_or("no such choice")?)
}

// Makes a call that draws nothing.
fn switch(game: &mut Game, step: Step) -> Result<(), Box<dyn Error>> {
    let mut events = EventList::new();
    let battle = &mut game.battle;
    match step {
        Step::Start => start(battle, &mut events),
        Step::SendBothFirst => send_both_first(battle, &mut events),
        Step::SendOut(side, number) => send_out(battle, side, place(number)?, &mut events),
        Step::Replace(one, two) => replace(battle, choice(one)?, choice(two)?, &mut events),
        Step::Close(actor) => close(battle, actor, &mut events),
        _ => close_uncut(battle, &mut events),
    }
    game.events = events;
    Ok(())
}

fn take_turn(game: &mut Game, step: Step) -> Result<(), Box<dyn Error>> {
    let mut events = EventList::new();
    let battle = &mut game.battle;
    match step {
        Step::Turn(one, two, from) => {
            let (one, two) = (choice(one)?, choice(two)?);
            game.sweep = turn(battle, one, two, Sweep::new(from), &mut events);
        }
        Step::LinkTurn(one, two) => {
            let (one, two) = (choice(one)?, choice(two)?);
            game.link = turn(battle, one, two, game.link, &mut events);
        }
        _ => {}
    }
    game.events = events;
    Ok(())
}

fn take_action(game: &mut Game, step: Step) {
    let mut events = EventList::new();
    let mut known = Known::new();
    let battle = &mut game.battle;
    game.is_over = match step {
        Step::Act(pick, from) => {
            game.sweep = Sweep::new(from);
            act(battle, USER, pick, &mut known, &mut game.sweep, &mut events)
        }
        Step::LinkAct(pick) => act(battle, USER, pick, &mut known, &mut game.link, &mut events),
        _ => false,
    };
    game.tested = known.accuracy_tested;
    game.events = events;
}

// `is_over` is whether the rest of the turn is skipped.
fn act_tested(game: &mut Game, pick: Pick, from: u8) {
    let mut events = EventList::new();
    let mut known = Known::new();
    let mut sweep = Sweep::new(from);
    let battle = &mut game.battle;
    game.is_over = match act_to_roll(battle, USER, pick, &mut known, &mut sweep, &mut events) {
        Acted::Ended(skipped) => skipped,
        Acted::Rolls(roll) => {
            let id = roll.id;
            let tested = Roll {
                id,
                damage: roll.damage,
                going_on: roll.going_on,
                critical: roll.critical,
            };
            test_hit(battle, USER, tested, &mut known, &mut sweep);
            if !known.missed {
                roll_damage_of(battle, USER, roll, &mut sweep);
            }
            act_after_test(battle, USER, id, &mut known, &mut sweep, &mut events)
        }
    };
    game.sweep = sweep;
    game.tested = known.accuracy_tested;
    game.events = events;
}

// Asserts what a step expects.
fn expect(game: &Game, step: Step, at: (&str, usize)) -> Result<(), Box<dyn Error>> {
    match step {
        Step::Is(fact) => assert_eq!(found(&game.battle, fact), Some(fact), "in {at:?}"),
        Step::Told(lines) => {
            assert_eq!(game.events.len(), lines.len(), "events in {at:?}");
            for (place, line) in lines.iter().enumerate() {
                expect_line(game, (place, line), at)?;
            }
        }
        Step::ToldSome(count, lines) => {
            assert_eq!(game.events.len(), count, "events in {at:?}");
            for line in lines {
                expect_line(game, *line, at)?;
            }
        }
        Step::Next(byte) => {
            let mut sweep = game.sweep;
            assert_eq!(sweep.draw(), byte, "next in {at:?}");
        }
        Step::NextLink(index) => assert_eq!(game.link.index(), index, "next in {at:?}"),
        Step::Tested(byte) => assert_eq!(game.tested, Some(byte), "tested in {at:?}"),
        Step::Over(over) => assert_eq!(game.is_over, over, "over in {at:?}"),
        Step::Offered(side, bytes) => {
            assert_eq!(
                offered_bytes(&game.battle, side)?.as_slice(),
                bytes,
                "in {at:?}"
            );
        }
        Step::Changed(blocks) => {
            let expected = with(game.marked, blocks);
            assert_eq!(bytes_of(&game.battle), expected, "in {at:?}");
        }
        _ => {}
    }
    Ok(())
}

fn expect_line(
    game: &Game,
    expected: (usize, &str),
    at: (&str, usize),
) -> Result<(), Box<dyn Error>> {
    let (place, line) = expected;
    let event = game.events.get(place).ok_or("no such event")?;
    let text = line_of(event)?;
    assert_eq!(text.as_str(), line, "event {place} in {at:?}");
    Ok(())
}

// The line of an event, with what the program's line leaves out.
fn line_of(event: &Event) -> Result<String, Box<dyn Error>> {
    let mut log = LogBuf::new();
    write(event, &mut log);
    let text = print_log(Global, log.as_slice())?;
    let line = text.as_str().trim_end();
    match event {
        Event::Switch(_, place, _, _) => {
            let number = place.number();
            Ok(format!("{line} at place {number}"))
        }
        Event::Damage(_, health, _) if health.hp() == 0 => {
            let max = health.max();
            match health.kind() {
                Some(kind) => Ok(format!("{line} of {max}, {kind:?}")),
                None => Ok(format!("{line} of {max}")),
            }
        }
        _ => Ok(line.to_string()),
    }
}

// The bytes of a side's offered choices.
fn offered_bytes(battle: &Packed, side: Side) -> Result<ArrayVec<u8, 9>, Box<dyn Error>> {
    let mut bytes = ArrayVec::new();
    for choice in offered(battle, side).as_slice() {
        if bytes.try_push(choice.byte()).is_err() {
            return Err("more than nine choices".into());
        }
    }
    Ok(bytes)
}

fn bytes_of(battle: &Packed) -> [u8; 384] {
    let mut bytes = [0; 384];
    bytes.copy_from_slice(battle.as_bytes());
    bytes
}

/// These bytes with some blocks replaced.
pub(crate) fn with(mut bytes: [u8; 384], blocks: &[Block]) -> [u8; 384] {
    for (start, block) in blocks {
        for (place, byte) in bytes.iter_mut().skip(*start).zip(*block) {
            *place = *byte;
        }
    }
    bytes
}

/// The battle before its first update.
pub(crate) fn unstarted(teams: Teams) -> Result<Packed, Box<dyn Error>> {
    match teams {
        Teams::Pairs(limit) => {
            let team = team_of(&[("Tauros", "Strength"), ("Gengar", "Strength")])?;
            battle(&team, &team, limit)
        }
        Teams::Alone(known, level) => {
            let team = Team::new(&[member("Tauros", level, &[(known, 0)])?])?;
            battle(&team, &team, 1000)
        }
        Teams::Facing(mine, foes) => {
            let one = team_of(&[("Tauros", mine), ("Gengar", "Splash")])?;
            let two = team_of(&[("Snorlax", foes), ("Gengar", "Splash")])?;
            battle(&one, &two, 1000)
        }
        Teams::Members(one, two) => battle(&team_of(one)?, &team_of(two)?, 1000),
        Teams::Mews => {
            let moves = [
                ("Strength", 0),
                ("Thunderbolt", 0),
                ("Surf", 0),
                ("Growl", 0),
            ];
            let mew = member("Mew", 100, &moves)?;
            let team = Team::new(&[
                mew,
                member("Mew", 100, &moves)?,
                member("Mew", 100, &moves)?,
            ])?;
            battle(&team, &team, 1000)
        }
    }
}

fn battle(one: &Team, two: &Team, limit: u16) -> Result<Packed, Box<dyn Error>> {
    let limit = TurnLimit::new(limit).ok_or("no such limit")?;
    Ok(Packed::with_limit(one, two, SEED, Rules::default(), limit))
}

fn team_of(members: &[(&str, &str)]) -> Result<Team, Box<dyn Error>> {
    let mut specs = ArrayVec::<MemberSpec, 6>::new();
    for (species, known) in members {
        if specs
            .try_push(member(species, 100, &[(known, 0)])?)
            .is_err()
        {
            return Err("more than six members".into());
        }
    }
    Ok(Team::new(specs.as_slice())?)
}

fn member(species: &str, level: u8, moves: &[(&str, u8)]) -> Result<MemberSpec, Box<dyn Error>> {
    member_of(species, level, [15; 4], [65535; 5], moves)
}

/// The specification of a member, with the PP ups of each move.
pub(crate) fn member_of(
    species: &str,
    level: u8,
    dvs: [u8; 4],
    exp: [u16; 5],
    moves: &[(&str, u8)],
) -> Result<MemberSpec, Box<dyn Error>> {
    let mut known = ArrayVec::new();
    for (name, ups) in moves {
        let id = MoveId::from_name(name).ok_or("no such move")?;
        if known.try_push((id, *ups)).is_err() {
            return Err("more than four moves".into());
        }
    }
    Ok(MemberSpec {
        species: Species::from_name(species).ok_or("no such species")?,
        level,
        dvs,
        exp,
        moves: known,
    })
}

/// Makes a fact true. Some facts are only expected.
fn put(battle: &mut Packed, fact: Fact) -> Result<(), Box<dyn Error>> {
    match fact {
        Fact::LastDamage(damage) => battle.put_last_damage(damage),
        Fact::Outcome(outcome) => battle.put_outcome(outcome),
        Fact::Requests(one, two) => battle.put_requests(one, two),
        Fact::Turn(turn) => put_turn(battle, turn),
        Fact::Hp(side, hp) => battle.put_hp(side, hp),
        Fact::Fallen(side) => battle.put_fallen(side),
        Fact::Pp(side, slot, pp) => put_pp(battle, side, slot, pp),
        Fact::Status(side, status) => battle.put_status(side, status),
        _ => return put_active(battle, fact),
    }
    Ok(())
}

fn put_turn(battle: &mut Packed, turn: u16) {
    for _ in battle.turn()..turn {
        battle.put_next_turn();
    }
}

fn put_pp(battle: &mut Packed, side: Side, slot: u8, pp: u8) {
    if (1..=4).contains(&slot) {
        battle.put_pp(side, slot, pp);
    }
}

fn put_active(battle: &mut Packed, fact: Fact) -> Result<(), Box<dyn Error>> {
    match fact {
        Fact::Types(side, first, second) => battle.put_types(side, first, second),
        Fact::Attack(side, stage, value) => battle.put_attack(side, stage, value),
        Fact::Defense(side, stage, value) => battle.put_defense(side, stage, value),
        Fact::Special(side, stage, value) => battle.put_special(side, stage, value),
        Fact::Evasion(side, stage) => battle.put_evasion(side, stage),
        Fact::CurrentMove(side, used) => battle.put_current_move(side, used),
        Fact::PickedMove(side, used) => battle.put_picked_move(side, used),
        Fact::KeptAccuracy(side, byte) => battle.put_kept_accuracy(side, byte),
        _ => return put_condition(battle, fact),
    }
    Ok(())
}

fn put_condition(battle: &mut Packed, fact: Fact) -> Result<(), Box<dyn Error>> {
    match fact {
        Fact::Condition(side, which, on) => battle.put_flag(side, which, on),
        Fact::Substitute(side, hp) => battle.put_substitute(side, hp),
        Fact::Confused(side, turns) => battle.put_confused(side, turns),
        Fact::BadPoison(side, count) => battle.put_bad_poison(side, count),
        Fact::Disabled(side, disabled) => battle.put_disabled(side, disabled),
        Fact::Thrash(side, Some(turns)) => battle.put_thrash(side, turns),
        Fact::Trapping(side, Some(turns)) => battle.put_trapping(side, turns),
        _ => return Err("a fact that is only expected".into()),
    }
    Ok(())
}

/// The fact with the battle's own values, or `None` if it is only set.
fn found(battle: &Packed, fact: Fact) -> Option<Fact> {
    Some(match fact {
        Fact::LastDamage(_) => Fact::LastDamage(battle.last_damage()),
        Fact::Outcome(_) => Fact::Outcome(battle.outcome()),
        Fact::Requests(..) => Fact::Requests(battle.request(Side::One), battle.request(Side::Two)),
        Fact::Turn(_) => Fact::Turn(battle.turn()),
        Fact::Place(side, _) => Fact::Place(side, battle.place(side)),
        Fact::Hp(side, _) => Fact::Hp(side, battle.hp(side)),
        Fact::Pp(side, slot, _) => Fact::Pp(side, slot, pp(battle, side, slot)),
        Fact::Status(side, _) => Fact::Status(side, battle.status(side)),
        _ => return found_active(battle, fact),
    })
}

fn pp(battle: &Packed, side: Side, slot: u8) -> u8 {
    if (1..=4).contains(&slot) {
        battle.pp(side, slot)
    } else {
        255
    }
}

fn found_active(battle: &Packed, fact: Fact) -> Option<Fact> {
    Some(match fact {
        Fact::Types(side, ..) => {
            Fact::Types(side, battle.first_type(side), battle.second_type(side))
        }
        Fact::Evasion(side, _) => Fact::Evasion(side, battle.stage(side, Stat::Evasion)),
        Fact::Stage(side, stat, _) => Fact::Stage(side, stat, battle.stage(side, stat)),
        Fact::Stats(side, _) => Fact::Stats(
            side,
            [
                battle.current_stat(side, Stat::Attack),
                battle.current_stat(side, Stat::Defense),
                battle.current_stat(side, Stat::Speed),
                battle.current_stat(side, Stat::Special),
            ],
        ),
        Fact::CurrentMove(side, _) => Fact::CurrentMove(side, battle.current_move(side)),
        Fact::PickedMove(side, _) => Fact::PickedMove(side, battle.picked_move(side)),
        Fact::KeptAccuracy(side, _) => Fact::KeptAccuracy(side, battle.kept_accuracy(side)),
        _ => return found_condition(battle, fact),
    })
}

fn found_condition(battle: &Packed, fact: Fact) -> Option<Fact> {
    Some(match fact {
        Fact::Condition(side, which, _) => Fact::Condition(side, which, battle.is_on(side, which)),
        Fact::Substitute(side, _) => Fact::Substitute(side, battle.substitute(side)),
        Fact::Confused(side, _) => Fact::Confused(side, battle.confused(side)),
        Fact::BadPoison(side, _) => Fact::BadPoison(side, battle.bad_poison(side)),
        Fact::Disabled(side, _) => Fact::Disabled(side, battle.disabled(side)),
        Fact::Thrash(side, _) => Fact::Thrash(side, battle.thrash(side)),
        Fact::Trapping(side, _) => Fact::Trapping(side, battle.trapping(side)),
        _ => return None,
    })
}
