//! Positions of a solver: the bytes of a battle without what the rest of it does not depend on, and a table of them.
use crate::leaf;
use alloc::vec::Vec;
use core::fmt;
use gen1::layout::{ACTIVE, HEADER, MEMBER, SIDE, active, header, member};
use gen1::{Battle, Conditions, Effect, MoveId, Side, layout};

/// Whether a position holds the PP of the moves.
#[derive(Clone, Copy, Debug, Default, PartialEq, Eq)]
pub enum Pp {
    /// Two positions that differ in PP are different.
    #[default]
    Counted,
    /// Each move keeps the PP that it has at the start.
    Endless,
}

/// The conditions that belong to the current move.
const TIED: [Conditions; 6] = [
    Conditions::BIDE,
    Conditions::THRASH,
    Conditions::TRAPPING,
    Conditions::CHARGING,
    Conditions::RECHARGE,
    Conditions::RAGE,
];

/// How battles that continue one start become positions.
#[derive(Clone, Debug, PartialEq, Eq)]
pub struct Keys {
    pub start: [u8; 384],
    pub pp: Pp,
    /// The offsets of the bytes that may differ from those of the start.
    places: Vec<u16>,
    /// Whether a member has a move that reads the last damage of an earlier action: Counter, Bide or a trapping move.
    reads_damage: bool,
    /// Whether a member has a move whose earlier pick counts: Counter or Quick Attack.
    reads_picks: bool,
}

impl Keys {
    pub fn new(battle: &Battle, pp: Pp) -> Self {
        let start = *battle.as_bytes();
        let mut known = members(&start).flat_map(|at| start[at + member::MOVES..][..4].iter());
        let moves = known.clone().filter_map(|number| MoveId::new(*number));
        let mut effects = moves.map(MoveId::effect);
        let reads_damage = effects.any(|it| it == Effect::Counter || it.bides() || it.traps());
        let reads_picks = known.any(|number| {
            [MoveId::COUNTER.number(), MoveId::QUICK_ATTACK.number()].contains(number)
        });
        let places = (0..384)
            .filter(|at| may_differ(&start, *at))
            .map(|at| at as u16);
        let mut keys = Keys {
            start,
            pp,
            places: places.collect(),
            reads_damage,
            reads_picks,
        };
        keys.start = keys.canonical(battle);
        keys
    }

    /// The number of bytes of a key.
    pub fn width(&self) -> usize {
        self.places.len()
    }

    /// The bytes of a battle that continues in the same way, the same for all such battles that can be told to be so.
    ///
    /// The numbers to draw are 0, the turn is 1 and its limit 9,999.
    pub fn canonical(&self, battle: &Battle) -> [u8; 384] {
        let mut bytes = battle.key();
        if bytes[header::TURN..][..2] != [0, 0] {
            bytes[header::TURN..][..2].copy_from_slice(&1u16.to_le_bytes());
        }
        bytes[header::LIMIT..][..2].copy_from_slice(&9999u16.to_le_bytes());
        if !self.reads_damage {
            bytes[header::LAST_DAMAGE..][..2].fill(0);
        }
        for at in members(&self.start) {
            if bytes[at + member::HP..][..2] == [0, 0] {
                bytes[at + member::PP..][..4].fill(0);
            } else if self.pp == Pp::Endless {
                bytes[at + member::PP..][..4].copy_from_slice(&self.start[at + member::PP..][..4]);
            }
        }
        let tied = TIED.iter().fold(0, |bits, which| bits | which.bits());
        for side in Side::BOTH.map(layout::side) {
            let block = &mut bytes[side + ACTIVE..side + SIDE];
            if leaf::conditions(block) & tied == 0 {
                block[active::CURRENT_MOVE] = 0;
            }
            if !self.reads_picks {
                block[active::PICKED_MOVE] = 0;
            }
        }
        bytes
    }

    /// Appends the key of a battle.
    pub fn write(&self, battle: &Battle, key: &mut Vec<u8>) {
        let bytes = self.canonical(battle);
        key.extend(self.places.iter().map(|at| bytes[usize::from(*at)]));
    }

    /// The battle of a key; `None` for bytes that aren't a key.
    pub fn battle(&self, key: &[u8]) -> Option<Battle> {
        let mut bytes = self.start;
        for (at, byte) in self.places.iter().zip(key) {
            bytes[usize::from(*at)] = *byte;
        }
        Battle::from_bytes(&bytes).ok()
    }
}

/// Where the members of a battle begin.
fn members(bytes: &[u8; 384]) -> impl Iterator<Item = usize> + Clone + use<> {
    let bytes = *bytes;
    let sides = Side::BOTH.map(layout::side).into_iter();
    let all = sides.flat_map(|side| (0..6).map(move |at| side + MEMBER * at));
    all.filter(move |at| bytes[at + member::SPECIES] != 0)
}

/// Whether a byte may change in a battle.
fn may_differ(start: &[u8; 384], at: usize) -> bool {
    if at < HEADER {
        let parts = [
            (header::TURN, 2),
            (header::LAST_DAMAGE, 2),
            (header::OUTCOME, 1),
            (header::REQUESTS, 2),
        ];
        return parts
            .iter()
            .any(|(from, count)| (*from..from + count).contains(&at));
    }
    let within = (at - HEADER) % SIDE;
    if within >= ACTIVE {
        return within - ACTIVE < active::ZEROS;
    }
    let part = within % MEMBER;
    let changes = [
        (member::HP, 2),
        (member::STATUS, 1),
        (member::PP, 4),
        (member::MARK, 1),
    ];
    start[at - part + member::SPECIES] != 0
        && changes
            .iter()
            .any(|(from, count)| (*from..from + count).contains(&part))
}

/// A set of keys, each with a number from 0 in the order of their insertion.
#[derive(Clone, Debug)]
pub struct Index {
    width: usize,
    keys: Vec<u8>,
    /// Open addressing: the number of a key plus 1, or 0.
    slots: Vec<u32>,
    count: usize,
}

impl Index {
    pub fn new(width: usize) -> Self {
        Index {
            width,
            keys: Vec::new(),
            slots: alloc::vec![0; 1024],
            count: 0,
        }
    }

    pub fn len(&self) -> usize {
        self.count
    }

    pub fn bytes(&self) -> usize {
        self.keys.capacity() + 4 * self.slots.capacity()
    }

    pub fn key(&self, number: usize) -> &[u8] {
        &self.keys[number * self.width..][..self.width]
    }

    /// All keys, one after the other.
    pub fn keys(&self) -> &[u8] {
        &self.keys
    }

    pub fn find(&self, key: &[u8]) -> Option<usize> {
        self.slot(key).1
    }

    /// The number of a key, which is inserted if it is new.
    pub fn insert(&mut self, key: &[u8]) -> usize {
        let (slot, found) = self.slot(key);
        if let Some(number) = found {
            return number;
        }
        let number = self.count;
        self.keys.extend_from_slice(key);
        self.count += 1;
        self.slots[slot] = self.count as u32;
        if 2 * self.count > self.slots.len() {
            self.grow();
        }
        number
    }

    fn grow(&mut self) {
        self.slots = alloc::vec![0; 2 * self.slots.len()];
        for number in 0..self.count {
            let slot = self.slot(self.key(number)).0;
            self.slots[slot] = number as u32 + 1;
        }
    }

    /// The slot of a key, and its number if it is there.
    fn slot(&self, key: &[u8]) -> (usize, Option<usize>) {
        let mask = self.slots.len() - 1;
        let mut slot = hash(key) as usize & mask;
        loop {
            match self.slots[slot] {
                0 => return (slot, None),
                number if self.key(number as usize - 1) == key => {
                    return (slot, Some(number as usize - 1));
                }
                _ => slot = (slot + 1) & mask,
            }
        }
    }
}

/// A mixture of bytes.
pub fn hash(bytes: &[u8]) -> u64 {
    let mut mixed = 0x9e37_79b9_7f4a_7c15u64;
    for chunk in bytes.chunks(8) {
        let mut word = [0; 8];
        word[..chunk.len()].copy_from_slice(chunk);
        mixed = (mixed ^ u64::from_le_bytes(word)).wrapping_mul(0xff51_afd7_ed55_8ccd);
        mixed ^= mixed >> 32;
    }
    mixed
}

/// Why bytes are not the table of a solver.
#[derive(Clone, Copy, Debug, PartialEq, Eq)]
#[non_exhaustive]
pub enum TableFault {
    /// They do not begin as a table of this version does.
    NoTable,
    /// They end too early, or too late.
    Length,
    /// The start is not a battle.
    Start,
    /// The position with this number is none, or is there twice, or its bounds are not in order between 0 and 1.
    Position(usize),
}

impl fmt::Display for TableFault {
    fn fmt(&self, f: &mut fmt::Formatter<'_>) -> fmt::Result {
        match self {
            TableFault::NoTable => {
                f.write_str("this is not a table of a solver, or it is of another version")
            }
            TableFault::Length => f.write_str("the table is cut off, or something follows it"),
            TableFault::Start => f.write_str("the start of the table is not a battle"),
            TableFault::Position(number) => write!(f, "position {number} of the table is wrong"),
        }
    }
}

impl core::error::Error for TableFault {}

#[cfg(test)]
mod tests {
    use super::*;
    use crate::Dice;
    use alloc::collections::BTreeMap;
    use gen1::{Choice, MemberSpec, OutcomeOptions, Side, Species, Team};

    /// A member at level 30 with random moves.
    fn member(dice: &mut Dice) -> MemberSpec {
        loop {
            let mut spec = MemberSpec {
                species: Species::new(dice.below(151) as u8 + 1).unwrap(),
                level: 30,
                dvs: [15; 4],
                exp: [65535; 5],
                moves: Default::default(),
            };
            spec.moves = (0..4)
                .filter_map(|_| Some((MoveId::new(dice.below(164) as u8 + 1)?, 3)))
                .collect();
            // One of four has moves for which an earlier pick or damage counts.
            if dice.below(4) == 0 {
                let special = ["Counter", "Quick Attack", "Bide", "Wrap"][dice.below(4)];
                spec.moves[0].0 = MoveId::from_name(special).unwrap();
            }
            if Team::new(core::slice::from_ref(&spec)).is_ok() {
                return spec;
            }
        }
    }

    /// The positions after an update, with their probabilities.
    fn positions(keys: &Keys, battle: &Battle, pair: (Choice, Choice)) -> BTreeMap<Vec<u8>, f64> {
        let options = OutcomeOptions::new().with_damage_classes(3);
        let mut found = BTreeMap::new();
        let list = battle.outcomes_with(pair.0, pair.1, &options).unwrap();
        for (after, probability) in list.iter() {
            *found.entry(keys.canonical(&after).to_vec()).or_insert(0.0) += probability;
        }
        found
    }

    /// The rest of a battle is that of its position: the choices are the same, and so are all positions after each pair of them.
    #[test]
    fn battles_with_one_key_continue_in_the_same_way() {
        let mut dice = Dice::new(3);
        let mut compared = 0;
        for round in 0..60 {
            let count = 1 + round % 2;
            let mut team = || {
                let specs: Vec<_> = (0..count).map(|_| member(&mut dice)).collect();
                Team::new(&specs).unwrap()
            };
            let (one, two) = (team(), team());
            let mut battle = Battle::new(&one, &two, dice.numbers());
            let keys = Keys::new(&battle, Pp::Counted);
            for _ in 0..25 {
                if battle.is_over() {
                    break;
                }
                let [one, two] = Side::BOTH.map(|side| battle.choices(side));
                let pair = (one[dice.below(one.len())], two[dice.below(two.len())]);
                let mut key = Vec::new();
                keys.write(&battle, &mut key);
                let position = keys.battle(&key).unwrap();
                for (side, choices) in Side::BOTH.into_iter().zip([&one, &two]) {
                    assert_eq!(&position.choices(side), choices);
                }
                let (found, expected) = (
                    positions(&keys, &position, pair),
                    positions(&keys, &battle, pair),
                );
                assert!(found.keys().eq(expected.keys()));
                for (one, two) in found.values().zip(expected.values()) {
                    assert!((one - two).abs() < 1e-12);
                }
                compared += 1;
                battle.update_silent(pair.0, pair.1).unwrap();
            }
        }
        assert!(compared > 400);
    }

    #[test]
    fn a_key_has_a_number() {
        let mut index = Index::new(2);
        let keys: Vec<[u8; 2]> = (0..5000u16).map(u16::to_le_bytes).collect();
        assert!(
            keys.iter()
                .enumerate()
                .all(|(at, key)| index.insert(key) == at)
        );
        assert!(
            keys.iter()
                .enumerate()
                .all(|(at, key)| index.find(key) == Some(at))
        );
        assert!(
            keys.iter()
                .enumerate()
                .all(|(at, key)| index.key(at) == key)
        );
        assert_eq!(index.find(&[0xff, 0xff]), None);
        assert_eq!(index.len(), 5000);
    }
}
