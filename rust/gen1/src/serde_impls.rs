//! Serde for battles, and for what a host stores and sends. Both are checked when they are deserialized.
//!
//! A battle is its bytes, and so are hosts, rooms, players, tellers and spectators. So are rows, messages, notices and own sides in binary
//! formats; in formats for people, such as JSON, they are the objects of docs/HOST.schema.json, and a mask is the list of its choices.
use crate::generated::host as plain;
use crate::generated::player::OwnMember;
use crate::{
    Battle, Host, Line, Message, Notice, OfferedMask, OwnSide, Player, Room, Row, Spectator,
    Teller, WireFault,
};
use arrayvec::ArrayVec;
use core::fmt;
use core::marker::PhantomData;
use serde::de::{Error, SeqAccess, Visitor};
use serde::{Deserialize, Deserializer, Serialize, Serializer};

/// A value that is serialized as its bytes, which are checked when they are deserialized.
trait AsBytes: Sized {
    /// What the bytes are, for an error.
    const WHAT: &'static str;
    fn restored(bytes: &[u8]) -> Result<Self, impl fmt::Display>;
}

struct Bytes<T, const N: usize>(PhantomData<T>);

impl<'de, T: AsBytes, const N: usize> Visitor<'de> for Bytes<T, N> {
    type Value = T;

    fn expecting(&self, f: &mut fmt::Formatter<'_>) -> fmt::Result {
        write!(f, "the {N} bytes of {}", T::WHAT)
    }

    fn visit_bytes<E: Error>(self, bytes: &[u8]) -> Result<T, E> {
        if bytes.len() != N {
            return Err(E::invalid_length(bytes.len(), &self));
        }
        T::restored(bytes).map_err(E::custom)
    }

    fn visit_seq<A: SeqAccess<'de>>(self, mut items: A) -> Result<T, A::Error> {
        let mut bytes = [0; N];
        for (place, byte) in bytes.iter_mut().enumerate() {
            *byte = items
                .next_element()?
                .ok_or_else(|| A::Error::invalid_length(place, &self))?;
        }
        match items.next_element::<u8>()? {
            None => self.visit_bytes(&bytes),
            Some(_) => Err(A::Error::invalid_length(N + 1, &self)),
        }
    }
}

macro_rules! as_bytes {
    ($($name:ident $(as $fields:ty)?, $length:expr, $what:expr, $bytes:ident, $restored:expr;)*) => {$(
        impl AsBytes for $name {
            const WHAT: &'static str = $what;

            fn restored(bytes: &[u8]) -> Result<Self, impl fmt::Display> {
                $restored(bytes)
            }
        }

        impl Serialize for $name {
            fn serialize<S: Serializer>(&self, serializer: S) -> Result<S::Ok, S::Error> {
                $(if serializer.is_human_readable() {
                    return <$fields>::from(self).serialize(serializer);
                })?
                serializer.serialize_bytes(self.$bytes().as_ref())
            }
        }

        impl<'de> Deserialize<'de> for $name {
            fn deserialize<D: Deserializer<'de>>(deserializer: D) -> Result<Self, D::Error> {
                $(if deserializer.is_human_readable() {
                    let fields = <$fields>::deserialize(deserializer)?;
                    return fields.restored().map_err(D::Error::custom);
                })?
                deserializer.deserialize_bytes(Bytes::<$name, { $length }>(PhantomData))
            }
        }
    )*};
}

/// The bytes as an array. They have its length: the visitor has tested it.
fn array<const N: usize>(bytes: &[u8]) -> [u8; N] {
    bytes.try_into().unwrap_or([0; N])
}

as_bytes! {
    Battle, 384, "a battle", as_bytes, Battle::load;
    Host, Host::LENGTH, "a host", to_bytes, |bytes: &[u8]| Host::from_bytes(&array(bytes));
    Room, Room::LENGTH, "a room", to_bytes, |bytes: &[u8]| Room::from_bytes(&array(bytes));
    Player, Player::LENGTH, "a player", to_bytes, |bytes: &[u8]| Player::from_bytes(&array(bytes));
    Teller, Teller::LENGTH, "a teller", to_bytes, |bytes: &[u8]| Teller::from_bytes(&array(bytes));
    Spectator, Spectator::LENGTH, "a spectator", to_bytes, |bytes: &[u8]| Spectator::from_bytes(&array(bytes));
    Row as RowFields, Row::LENGTH, "a row", to_bytes, |bytes: &[u8]| Row::from_bytes(&array(bytes)).ok_or(NO_ROW);
    OwnSide as OwnFields, OwnSide::LENGTH, "an own side", to_bytes, |bytes: &[u8]| OwnSide::from_bytes(&array(bytes));
    Message as MessageFields, Message::LENGTH, "a message", to_bytes, |bytes: &[u8]| Message::from_bytes(&array(bytes));
    Notice as NoticeFields, Notice::LENGTH, "a notice", to_bytes, |bytes: &[u8]| Notice::from_bytes(&array(bytes));
}

const NO_ROW: &str = "not a row";
/// The mask of all choices.
const ALL: OfferedMask = OfferedMask(0xfff);

/// The bits for formats that are binary; else the choices, as bytes in rising order.
impl Serialize for OfferedMask {
    fn serialize<S: Serializer>(&self, serializer: S) -> Result<S::Ok, S::Error> {
        if serializer.is_human_readable() {
            serializer.collect_seq(self.iter().map(|it| it.choice().byte()))
        } else {
            self.bits().serialize(serializer)
        }
    }
}

impl<'de> Deserialize<'de> for OfferedMask {
    fn deserialize<D: Deserializer<'de>>(deserializer: D) -> Result<Self, D::Error> {
        let bits = if deserializer.is_human_readable() {
            let choices = ArrayVec::<u8, 9>::deserialize(deserializer)?;
            choices.iter().try_fold(0, |bits, byte| {
                let bit = ALL.iter().position(|it| it.choice().byte() == *byte)?;
                Some(bits | 1 << bit)
            })
        } else {
            Some(u16::deserialize(deserializer)?)
        };
        let mask = bits.and_then(OfferedMask::from_bits);
        mask.ok_or_else(|| D::Error::custom("not a mask of choices"))
    }
}

#[derive(Clone, Copy, Serialize, Deserialize)]
#[serde(rename_all = "lowercase")]
enum RowKind {
    Submit = 1,
    Cancel,
    Expire,
    Draw,
    Forfeit,
}

/// A row as an object.
#[derive(Serialize, Deserialize)]
#[serde(deny_unknown_fields)]
struct RowFields {
    kind: RowKind,
    side: u8,
    number: u32,
    choice: u8,
    numbers: Option<[u8; 10]>,
}

impl From<&Row> for RowFields {
    fn from(row: &Row) -> Self {
        let bytes = row.to_bytes();
        RowFields {
            kind: match row {
                Row::Submit { .. } => RowKind::Submit,
                Row::Cancel { .. } => RowKind::Cancel,
                Row::Expire { .. } => RowKind::Expire,
                Row::OfferDraw { .. } => RowKind::Draw,
                Row::Forfeit { .. } => RowKind::Forfeit,
            },
            side: bytes[1],
            number: u32::from_le_bytes(array(&bytes[4..8])),
            choice: bytes[2],
            numbers: (bytes[3] == 1).then(|| array(&bytes[8..])),
        }
    }
}

impl RowFields {
    fn restored(self) -> Result<Row, &'static str> {
        let mut bytes = [0; Row::LENGTH];
        let has_numbers = self.numbers.is_some().into();
        bytes[..4].copy_from_slice(&[self.kind as u8, self.side, self.choice, has_numbers]);
        bytes[4..8].copy_from_slice(&self.number.to_le_bytes());
        bytes[8..].copy_from_slice(&self.numbers.unwrap_or_default());
        Row::from_bytes(&bytes).ok_or(NO_ROW)
    }
}

/// A member of an own side as an object.
#[derive(Serialize, Deserialize)]
#[serde(deny_unknown_fields)]
struct MemberFields {
    species: u8,
    level: u8,
    status: u8,
    moves: [u8; 4],
    pp: [u8; 4],
    hp: u16,
    max_hp: u16,
    stats: [u16; 4],
}

/// An own side as an object.
#[derive(Serialize, Deserialize)]
#[serde(deny_unknown_fields)]
struct OwnFields {
    members: ArrayVec<MemberFields, 6>,
    conditions: u32,
    stats: [u16; 4],
    turn: u16,
    place: u8,
    types: [u8; 2],
    stages: [u8; 6],
    disabled_slot: u8,
    held: u8,
    request: u8,
    outcome: u8,
}

impl From<&OwnSide> for OwnFields {
    fn from(own: &OwnSide) -> Self {
        let there = own.members.iter().take(usize::from(own.count));
        let fields = |it: &OwnMember| MemberFields {
            species: it.species,
            level: it.level,
            status: it.status,
            moves: it.moves,
            pp: it.pp,
            hp: it.hp,
            max_hp: it.max_hp,
            stats: it.stats,
        };
        OwnFields {
            members: there.map(fields).collect(),
            conditions: own.conditions,
            stats: own.stats,
            turn: own.turn,
            place: own.place,
            types: own.types,
            stages: own.stages,
            disabled_slot: own.disabled_slot,
            held: own.held,
            request: own.request,
            outcome: own.outcome,
        }
    }
}

impl OwnFields {
    /// The player's side, which is not tested yet.
    fn untested(self) -> OwnSide {
        let member = |it: Option<&MemberFields>| OwnMember {
            species: it.map_or(0, |it| it.species),
            level: it.map_or(0, |it| it.level),
            status: it.map_or(0, |it| it.status),
            unused: 0,
            moves: it.map_or([0; 4], |it| it.moves),
            pp: it.map_or([0; 4], |it| it.pp),
            hp: it.map_or(0, |it| it.hp),
            max_hp: it.map_or(0, |it| it.max_hp),
            stats: it.map_or([0; 4], |it| it.stats),
        };
        OwnSide {
            members: [0, 1, 2, 3, 4, 5].map(|at| member(self.members.get(at))),
            conditions: self.conditions,
            stats: self.stats,
            turn: self.turn,
            place: self.place,
            types: self.types,
            stages: self.stages,
            disabled_slot: self.disabled_slot,
            held: self.held,
            request: self.request,
            outcome: self.outcome,
            count: self.members.len() as u8,
        }
    }

    fn restored(self) -> Result<OwnSide, WireFault> {
        OwnSide::from_bytes(&self.untested().to_bytes())
    }
}

/// The bytes of a log, of which there are at most 512.
type Log = ArrayVec<u8, 512>;

/// The log of a struct, and its length.
fn log_of(log: &Log) -> ([u8; 512], u16) {
    let mut bytes = [0; 512];
    bytes[..log.len()].copy_from_slice(log);
    (bytes, log.len() as u16)
}

/// The byte of the side that offers a draw. No offer is `None`, so 0 becomes a byte that is refused.
fn draw_of(side: Option<u8>) -> u8 {
    side.map_or(0, |side| if side == 0 { u8::MAX } else { side })
}

/// A message as an object.
#[derive(Serialize, Deserialize)]
#[serde(deny_unknown_fields)]
struct MessageFields {
    number: u32,
    log: Log,
    own: OwnFields,
    choices: OfferedMask,
    draw: Option<u8>,
}

impl From<&Message> for MessageFields {
    fn from(message: &Message) -> Self {
        MessageFields {
            number: message.number(),
            log: message.log().iter().copied().collect(),
            own: message.own().into(),
            choices: message.offered(),
            draw: message.draw().map(|side| side.number()),
        }
    }
}

impl MessageFields {
    fn restored(self) -> Result<Message, WireFault> {
        let (log, log_length) = log_of(&self.log);
        let inner = plain::Message {
            own: self.own.untested(),
            number: self.number,
            offered: self.choices.bits(),
            log_length,
            draw: draw_of(self.draw),
            unused: [0; 3],
            log,
        };
        Message::from_bytes(&Message { inner }.to_bytes())
    }
}

/// A notice as an object.
#[derive(Serialize, Deserialize)]
#[serde(deny_unknown_fields)]
struct NoticeFields {
    number: u32,
    log: Log,
    outcome: u8,
    draw: Option<u8>,
}

impl From<&Notice> for NoticeFields {
    fn from(notice: &Notice) -> Self {
        NoticeFields {
            number: notice.number(),
            log: notice.log().iter().copied().collect(),
            outcome: notice.inner.outcome,
            draw: notice.draw().map(|side| side.number()),
        }
    }
}

impl NoticeFields {
    fn restored(self) -> Result<Notice, WireFault> {
        let (log, log_length) = log_of(&self.log);
        let inner = plain::Notice {
            number: self.number,
            log_length,
            outcome: self.outcome,
            draw: draw_of(self.draw),
            log,
        };
        Notice::from_bytes(&Notice { inner }.to_bytes())
    }
}

/// A line is its text.
impl Serialize for Line {
    fn serialize<S: Serializer>(&self, serializer: S) -> Result<S::Ok, S::Error> {
        serializer.serialize_str(self)
    }
}

/// The damages of [`Odds`](crate::Odds): serde has no arrays of 39 items.
pub(crate) mod damages {
    use crate::DamageRefusal;
    use arrayvec::ArrayVec;
    use serde::de::Error;
    use serde::{Deserialize, Deserializer, Serialize, Serializer};

    type Damages = Result<[u16; 39], DamageRefusal>;

    pub(crate) fn serialize<S: Serializer>(
        damages: &Damages,
        serializer: S,
    ) -> Result<S::Ok, S::Error> {
        let listed = damages.as_ref().map(|list| list.as_slice());
        listed.serialize(serializer)
    }

    pub(crate) fn deserialize<'de, D: Deserializer<'de>>(
        deserializer: D,
    ) -> Result<Damages, D::Error> {
        let listed = Result::<ArrayVec<u16, 39>, DamageRefusal>::deserialize(deserializer)?;
        listed.map_or_else(
            |refusal| Ok(Err(refusal)),
            |list| {
                let length = list.len();
                let whole = list.into_inner().map(Ok);
                whole.map_err(|_| D::Error::invalid_length(length, &"39 damages"))
            },
        )
    }
}
