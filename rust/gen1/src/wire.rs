//! What crosses a network as bytes: the structs of include/gen1.h, with the lowest byte of each number first.
use crate::generated::events::LogReader;
use crate::generated::host::{self as plain, HostFault};
use crate::generated::layout::Packed;
use crate::generated::player::{
    Announced, HpForm, OwnMember, Player as PlainPlayer, Public, PublicSide, Seen, SeenMove,
    SeenStages, Teller as PlainTeller,
};
use crate::generated::room::plain::{PlainRoom, forfeit, result};
use crate::generated::spectator::plain::{PlainMember, PlainSide, PlainSpectator, PlainStages};
use crate::{
    Host, Message, Notice, OfferedMask, OwnSide, Player, Request, Room, Side, Spectator, Teller,
    events_of,
};
use core::error::Error;
use core::fmt;

/// Any number.
const ANY: u32 = u32::MAX;
/// All conditions (docs/LAYOUT.md, "Condition bits"), and that of Flinch, which nobody is shown.
const CONDITIONS: u32 = 0x1_ffff;
const FLINCH: u32 = 8;
/// The byte of a choice that is missing.
const DUE: u8 = 255;

/// Why bytes are not those of a value, such as a [`Player`] or a [`Message`]: the first field that is out of its range, or else one that
/// does not fit the others.
#[derive(Clone, Copy, Debug, PartialEq, Eq)]
pub struct WireFault {
    kind: &'static str,
    field: &'static str,
}

impl WireFault {
    /// The name of the field in include/gen1.h, such as "log_length".
    #[must_use]
    pub fn field(&self) -> &'static str {
        self.field
    }
}

impl fmt::Display for WireFault {
    fn fmt(&self, f: &mut fmt::Formatter<'_>) -> fmt::Result {
        let WireFault { kind, field } = self;
        write!(f, "not {kind}: {field} is out of its range")
    }
}

impl Error for WireFault {}

/// A number, an array or a struct among the bytes of a struct.
trait Field: Sized {
    fn put(&self, to: &mut Writer);

    /// The next field. A number above `most` is out of its range.
    fn take(from: &mut Reader, name: &'static str, most: u32) -> Self;

    fn is_zero(&self) -> bool;

    fn put_all(all: &[Self], to: &mut Writer) {
        all.iter().for_each(|it| it.put(to));
    }

    fn take_all<const N: usize>(from: &mut Reader, name: &'static str, most: u32) -> [Self; N] {
        [(); N].map(|()| Self::take(from, name, most))
    }
}

macro_rules! numbers {
    ($($number:ty $({ $($more:item)* })?),*) => {$(
        impl Field for $number {
            fn put(&self, to: &mut Writer) {
                to.put(&self.to_le_bytes());
            }

            fn take(from: &mut Reader, name: &'static str, most: u32) -> Self {
                let number = <$number>::from_le_bytes(from.bytes());
                from.within(name, u32::from(number) <= most);
                number
            }

            fn is_zero(&self) -> bool {
                *self == 0
            }

            $($($more)*)?
        }
    )*};
}

numbers! {
    u8 {
        fn put_all(all: &[u8], to: &mut Writer) {
            to.put(all);
        }

        fn take_all<const N: usize>(from: &mut Reader, name: &'static str, most: u32) -> [u8; N] {
            let all: [u8; N] = from.bytes();
            from.within(name, all.iter().all(|it| u32::from(*it) <= most));
            all
        }
    },
    u16,
    u32
}

impl<T: Field, const N: usize> Field for [T; N] {
    fn put(&self, to: &mut Writer) {
        T::put_all(self, to);
    }

    fn take(from: &mut Reader, name: &'static str, most: u32) -> Self {
        T::take_all(from, name, most)
    }

    fn is_zero(&self) -> bool {
        self.iter().all(T::is_zero)
    }
}

macro_rules! structs {
    ($($name:ty { $($field:ident $most:expr),* $(,)? })*) => {$(
        impl Field for $name {
            fn put(&self, to: &mut Writer) {
                $(self.$field.put(to);)*
            }

            fn take(from: &mut Reader, _: &'static str, _: u32) -> Self {
                Self { $($field: Field::take(from, stringify!($field), $most)),* }
            }

            fn is_zero(&self) -> bool {
                true $(&& self.$field.is_zero())*
            }
        }
    )*};
}

// The fields in the order of include/gen1.h, each with the highest number that it may have.
structs! {
    OwnMember { species 151, level 100, status 5, unused 0, moves 165, pp 63, hp 999, max_hp 999, stats 999 }
    OwnSide {
        members ANY, conditions CONDITIONS, stats 999, turn 9999, place 6, types 14, stages 12, disabled_slot 4, held 1,
        request 2, outcome 5, count 6,
    }
    SeenMove { id 165, uses 255 }
    Seen { hp 999, max 999, species 151, level 100, status 5, moves ANY, asleep_by 3, slept 6, unused 0 }
    Announced {
        substitute 1, confused 1, mist 1, focus_energy 1, light_screen 1, reflect 1, seeded 1, toxic 1, toxic_count 64,
        disabled 1, rage 1, bide 1, charging 1, recharging 1,
    }
    PublicSide {
        members ANY, announced ANY, stages 12, place 6, first_type 14, second_type 14, last_move 165, invulnerable 1, unused 0,
    }
    Public { one ANY, two ANY, turn 9999, outcome 5, may_hit_itself 2 }
    PlainPlayer {
        public ANY, own ANY, offered 0xfff, limit 9999, side 2, foes 6, rules 3, hp_form 2, held_count 9, held 255, unused 0,
    }
    PlainTeller { side 2, pixels 2, places 6 }
    PlainMember { hp 999, status 5, reserved 0 }
    PlainSide {
        members ANY, count 6, place 6, stages 12, substitute 1, confused 1, light_screen 1, reflect 1,
    }
    PlainSpectator { one ANY, two ANY, turn 9999, outcome 5, held_count 9, held 255 }
    plain::Message { own ANY, number ANY, offered 0xfff, log_length 512, draw 2, unused 0, log 255 }
    plain::Notice { number ANY, log_length 512, outcome 5, draw 2, log 255 }
}

/// Stages are six bytes in include/gen1.h.
macro_rules! stages {
    ($($name:ident),*) => {$(
        impl Field for $name {
            fn put(&self, to: &mut Writer) {
                let $name { attack, defense, speed, special, accuracy, evasion } = *self;
                [attack, defense, speed, special, accuracy, evasion].put(to);
            }

            fn take(from: &mut Reader, name: &'static str, most: u32) -> Self {
                let [attack, defense, speed, special, accuracy, evasion] = Field::take(from, name, most);
                $name { attack, defense, speed, special, accuracy, evasion }
            }

            fn is_zero(&self) -> bool {
                let $name { attack, defense, speed, special, accuracy, evasion } = *self;
                [attack, defense, speed, special, accuracy, evasion].is_zero()
            }
        }
    )*};
}

stages!(SeenStages, PlainStages);

impl OwnSide {
    /// How many bytes an own side has.
    pub const LENGTH: usize = 172;

    /// The bytes of the `gen1_own_side`.
    #[must_use]
    pub fn to_bytes(&self) -> [u8; Self::LENGTH] {
        written(|to| self.put(to))
    }

    /// The player's side with these bytes.
    ///
    /// # Errors
    ///
    /// A field is out of its range. Bytes that no battle shows may pass: an own side is looked at without its battle.
    pub fn from_bytes(bytes: &[u8; Self::LENGTH]) -> Result<Self, WireFault> {
        read("an own side", bytes, test_own)
    }
}

impl Message {
    /// How many bytes a message has.
    pub const LENGTH: usize = 696;

    /// The bytes of the `gen1_message`, for a player on another machine.
    #[must_use]
    pub fn to_bytes(&self) -> [u8; Self::LENGTH] {
        written(|to| self.inner.put(to))
    }

    /// The message with these bytes.
    ///
    /// # Errors
    ///
    /// A field is out of its range, or the log is not a log. Bytes that no host sends may pass: a message is looked at without its host.
    pub fn from_bytes(bytes: &[u8; Self::LENGTH]) -> Result<Self, WireFault> {
        let inner = read("a message", bytes, |from, it: &plain::Message| {
            test_own(from, &it.own);
            from.within("offered", OfferedMask::from_bits(it.offered).is_some());
            from.within("log", is_log(&it.log, it.log_length));
        })?;
        Ok(Message { inner })
    }
}

impl Notice {
    /// How many bytes a notice has.
    pub const LENGTH: usize = 520;

    /// The bytes of the `gen1_notice`, for a spectator on another machine.
    #[must_use]
    pub fn to_bytes(&self) -> [u8; Self::LENGTH] {
        written(|to| self.inner.put(to))
    }

    /// The notice with these bytes.
    ///
    /// # Errors
    ///
    /// A field is out of its range, or the log is not a log.
    pub fn from_bytes(bytes: &[u8; Self::LENGTH]) -> Result<Self, WireFault> {
        let inner = read("a notice", bytes, |from, it: &plain::Notice| {
            from.within("log", is_log(&it.log, it.log_length));
        })?;
        Ok(Notice { inner })
    }
}

impl Player {
    /// How many bytes a player has.
    pub const LENGTH: usize = 488;

    /// The bytes of the `gen1_player`: everything that the side may know.
    #[must_use]
    pub fn to_bytes(&self) -> [u8; Self::LENGTH] {
        written(|to| self.plain().put(to))
    }

    /// The player with these bytes.
    ///
    /// # Errors
    ///
    /// A field is out of its range. Bytes that no battle leads to may pass.
    pub fn from_bytes(bytes: &[u8; Self::LENGTH]) -> Result<Self, WireFault> {
        let inner = read("a player", bytes, |from, it: &PlainPlayer| {
            test_public(from, &it.public.one);
            test_public(from, &it.public.two);
            // Before the first time nothing is shown.
            if !it.own.is_zero() {
                test_own(from, &it.own);
            }
            from.within("offered", OfferedMask::from_bits(it.offered).is_some());
            from.within("limit", it.limit > 0);
            from.within("side", it.side > 0);
            test_held(from, &it.held, it.held_count);
        })?;
        Player::from_plain(inner).ok_or(WireFault {
            kind: "a player",
            field: "side",
        })
    }
}

impl Teller {
    /// How many bytes a teller has.
    pub const LENGTH: usize = 8;

    /// The bytes of the `gen1_teller`, which are the host's.
    #[must_use]
    pub fn to_bytes(&self) -> [u8; Self::LENGTH] {
        written(|to| self.plain().put(to))
    }

    /// The teller with these bytes. Exactly those of tellers are accepted.
    ///
    /// # Errors
    ///
    /// A field is out of its range: the side, the form of HP, or the places, which are those of different members with zeros after the
    /// last.
    pub fn from_bytes(bytes: &[u8; Self::LENGTH]) -> Result<Self, WireFault> {
        let kind = "a teller";
        let inner: PlainTeller = read(kind, bytes, |_, _| {})?;
        let fault = |field| WireFault { kind, field };
        let side = Side::from_number(inner.side).ok_or(fault("side"))?;
        let is_teller = inner.is_of(side);
        let teller = is_teller.then(|| Teller::from_plain(inner, side));
        teller.ok_or(fault("places"))
    }
}

impl Spectator {
    /// How many bytes a spectator has.
    pub const LENGTH: usize = 86;

    /// The bytes of the `gen1_spectator`. It holds no bytes of an event: those are held by the [`LogReader`](crate::LogReader).
    #[must_use]
    pub fn to_bytes(&self) -> [u8; Self::LENGTH] {
        let (one, two) = self.view().plain_sides();
        let plain = PlainSpectator {
            one,
            two,
            turn: self.view().turn(),
            outcome: self.view().plain_outcome(),
            held_count: 0,
            held: [0; 10],
        };
        written(|to| plain.put(to))
    }

    /// The spectator with these bytes.
    ///
    /// # Errors
    ///
    /// A field is out of its range, or the spectator holds bytes of an event, as those of other languages do within one. Bytes that no
    /// battle leads to may pass.
    pub fn from_bytes(bytes: &[u8; Self::LENGTH]) -> Result<Self, WireFault> {
        let plain = read("a spectator", bytes, |from, it: &PlainSpectator| {
            test_shown(from, &it.one);
            test_shown(from, &it.two);
            from.within("held_count", it.held_count == 0);
            from.within("held", it.held.is_zero());
        })?;
        Ok(Spectator::from_plain(&plain))
    }
}

impl Room {
    /// How many bytes a room has.
    pub const LENGTH: usize = 908;

    /// The bytes of the `gen1_room`, to be stored. They have everything, also choices that are secret.
    #[must_use]
    pub fn to_bytes(&self) -> [u8; Self::LENGTH] {
        written(|to| put_room(self.plain(), to))
    }

    /// The room with these bytes. Exactly those of rooms are accepted, as [`Host::from_bytes`] accepts those of hosts. A battle of an older
    /// layout version becomes one of version 3.
    ///
    /// # Errors
    ///
    /// The bytes are not those of a room: no battle, a number that leaves no place for the pairs that may still come, no log, a choice
    /// that isn't offered, or a field that is out of its range.
    pub fn from_bytes(bytes: &[u8; Self::LENGTH]) -> Result<Self, WireFault> {
        let kind = "a room";
        let room = room_in(&mut Reader::new(bytes)).and_then(tested_room);
        room.map(Room::from_plain)
            .map_err(|field| WireFault { kind, field })
    }
}

impl Host {
    /// How many bytes a host has.
    pub const LENGTH: usize = 928;

    /// The bytes of the `gen1_host`, to be stored. They have everything, also choices that are secret.
    #[must_use]
    pub fn to_bytes(&self) -> [u8; Self::LENGTH] {
        let it = self.plain();
        written(|to| {
            put_room(&it.room, to);
            [it.one, it.two].put(to);
            [it.ending, it.draw, it.may_cancel, it.late_forfeits].put(to);
        })
    }

    /// The host with these bytes. Exactly those of hosts are accepted; this is proved of the library. A battle of an older layout version
    /// becomes one of version 3.
    ///
    /// # Errors
    ///
    /// The bytes are not those of a host: no battle, a number that leaves no place for the pairs that may still come, no log, a choice
    /// that isn't offered, or a field that is out of its range.
    pub fn from_bytes(bytes: &[u8; Self::LENGTH]) -> Result<Self, WireFault> {
        let kind = "a host";
        let from = &mut Reader::new(bytes);
        let fault = |field| WireFault { kind, field };
        let room = room_in(from).map_err(fault)?;
        let [one, two] = from.field();
        let [ending, draw, may_cancel, late_forfeits] = from.field();
        let host = plain::Host {
            room,
            one,
            two,
            ending,
            draw,
            may_cancel,
            late_forfeits,
        };
        loaded(host).map(Host::from_plain).map_err(fault)
    }
}

fn put_room(room: &PlainRoom, to: &mut Writer) {
    to.put(room.battle.as_bytes());
    room.number.put(to);
    room.log_length.put(to);
    [room.one, room.two, room.forfeit].put(to);
    room.unused.put(to);
    to.put(&room.log);
}

/// The room of the next bytes, of which only the battle is tested.
fn room_in(from: &mut Reader) -> Result<PlainRoom, &'static str> {
    let battle = Packed::read(&from.bytes::<384>()).map_err(|_| "battle")?;
    let (number, log_length) = (from.field(), from.field());
    let [one, two, forfeit] = from.field();
    Ok(PlainRoom {
        battle,
        number,
        log_length,
        one,
        two,
        forfeit,
        unused: from.field(),
        log: from.bytes(),
    })
}

/// The host, if the library accepts it.
fn loaded(mut host: plain::Host) -> Result<plain::Host, &'static str> {
    match plain::load(&mut host) {
        Ok(()) => Ok(host),
        Err(why) => Err(field_of(why)),
    }
}

fn field_of(why: HostFault) -> &'static str {
    match why {
        HostFault::Battle(_) => "battle",
        HostFault::Number => "number",
        HostFault::Log => "log",
        HostFault::Choice(_) | HostFault::Choices => "chosen",
        HostFault::Teller(Side::One) => "one",
        HostFault::Teller(Side::Two) => "two",
        HostFault::Ending => "ending",
        HostFault::Draw => "draw",
        HostFault::Rules => "may_cancel or late_forfeits",
        HostFault::Unused => "forfeit or unused",
    }
}

/// The room, if it is one: that of a host whose tellers have reported nothing, or such a room after a forfeit.
fn tested_room(room: PlainRoom) -> Result<PlainRoom, &'static str> {
    if room.forfeit > 2 {
        return Err("forfeit");
    }
    if !room.unused.is_zero() {
        return Err("unused");
    }
    let Some(side) = Side::from_number(room.forfeit) else {
        return of_a_host(room);
    };
    // A forfeit discards choices, so any room before it will do.
    let now = result(&PlainRoom {
        forfeit: 0,
        ..room.clone()
    });
    let due = |side| match now.request(side) {
        Request::Pass => 0,
        _ => DUE,
    };
    let mut lost = of_a_host(PlainRoom {
        number: room.number.checked_sub(1).ok_or("number")?,
        one: due(Side::One),
        two: due(Side::Two),
        forfeit: 0,
        ..room.clone()
    })?;
    forfeit(&mut lost, side).map_err(|_| "forfeit")?;
    if [lost.one, lost.two] != [room.one, room.two] {
        return Err("chosen");
    }
    if lost == room { Ok(room) } else { Err("log") }
}

fn of_a_host(room: PlainRoom) -> Result<PlainRoom, &'static str> {
    let host = loaded(plain::Host {
        room,
        one: PlainTeller::new(Side::One, HpForm::Exact),
        two: PlainTeller::new(Side::Two, HpForm::Exact),
        ending: 0,
        draw: 0,
        may_cancel: 0,
        late_forfeits: 0,
    })?;
    Ok(host.room)
}

/// Tests the fields of an own side next to each other.
fn test_own(from: &mut Reader, own: &OwnSide) {
    let (there, empty) = own.members.split_at(usize::from(own.count).min(6));
    for it in there {
        from.within("species", it.species > 0);
        from.within("level", it.level > 0);
        from.within("hp", it.hp <= it.max_hp);
        from.within("max_hp", it.max_hp >= 11);
        from.within("stats", it.stats.iter().all(|stat| *stat >= 5));
    }
    let is_out = own.place > 0;
    from.within("conditions", own.conditions & FLINCH == 0);
    from.within("stats", !is_out || own.stats.iter().all(|stat| *stat > 0));
    from.within("count", own.count > 0);
    from.within("place", own.place <= own.count);
    from.within("members", empty.iter().all(Field::is_zero));
}

/// Tests the fields of the public information about a side next to each other.
fn test_public(from: &mut Reader, side: &PublicSide) {
    for it in &side.members {
        if it.is_zero() {
            continue;
        }
        from.within("species", it.species > 0);
        from.within("level", it.level > 0);
        from.within("hp", it.hp <= it.max);
        from.within("max", it.max >= 11);
        from.within("uses", it.moves.iter().all(|it| it.id > 0 || it.uses == 0));
    }
    let is_there = side.member_out().is_some_and(|it| it.species > 0);
    from.within("place", side.place == 0 || is_there);
}

/// Tests the fields of what a spectator sees of a side next to each other.
fn test_shown(from: &mut Reader, side: &PlainSide) {
    let mut empty = side.members.iter().skip(side.count.into());
    from.within("members", empty.all(Field::is_zero));
    from.within("count", side.count > 0);
    from.within("place", side.place <= side.count);
}

/// Tests the bytes of an event that has come in part.
fn test_held(from: &mut Reader, held: &[u8; 10], count: u8) {
    let (part, rest) = held.split_at(usize::from(count).min(10));
    let mut reader = LogReader::new();
    let is_part = reader.feed(part).is_ok() && reader.next().is_none();
    from.within("held", is_part && rest.iter().all(Field::is_zero));
}

/// Whether the first bytes are a log.
fn is_log(bytes: &[u8; 512], length: u16) -> bool {
    let log = bytes.get(..usize::from(length));
    log.is_some_and(|log| events_of(log).all(|event| event.is_ok()))
}

/// Bytes that are written from the first on.
struct Writer<'a> {
    rest: &'a mut [u8],
}

impl Writer<'_> {
    fn put(&mut self, bytes: &[u8]) {
        let (first, rest) = core::mem::take(&mut self.rest).split_at_mut(bytes.len());
        first.copy_from_slice(bytes);
        self.rest = rest;
    }
}

fn written<const N: usize>(put: impl FnOnce(&mut Writer)) -> [u8; N] {
    let mut bytes = [0; N];
    let mut to = Writer { rest: &mut bytes };
    put(&mut to);
    debug_assert!(to.rest.is_empty());
    bytes
}

/// Bytes that are read from the first on, and the first field that was out of its range. There are always enough: the arrays of
/// `from_bytes` have the lengths of what is read.
struct Reader<'a> {
    rest: &'a [u8],
    fault: Option<&'static str>,
}

impl<'a> Reader<'a> {
    fn new(rest: &'a [u8]) -> Self {
        Reader { rest, fault: None }
    }

    fn bytes<const N: usize>(&mut self) -> [u8; N] {
        let (first, rest) = self.rest.split_at(N);
        self.rest = rest;
        let mut bytes = [0; N];
        bytes.copy_from_slice(first);
        bytes
    }

    /// The next field, with any numbers.
    fn field<T: Field>(&mut self) -> T {
        T::take(self, "", ANY)
    }

    fn within(&mut self, field: &'static str, is_lawful: bool) {
        if !is_lawful {
            self.fault = self.fault.or(Some(field));
        }
    }
}

/// The value with these bytes, whose fields are in their ranges and pass a test.
fn read<T: Field>(
    kind: &'static str,
    bytes: &[u8],
    test: impl FnOnce(&mut Reader, &T),
) -> Result<T, WireFault> {
    let mut from = Reader::new(bytes);
    let it = from.field();
    test(&mut from, &it);
    let fault = from.fault.map(|field| WireFault { kind, field });
    fault.map_or(Ok(it), Err)
}
