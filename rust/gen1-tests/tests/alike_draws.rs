//! The look of each draw: bytes that look the same lead to the same battle, the same events and the same further draws.
//!
//! Random turns are played, part by part. Then each draw of a turn is given every byte in turn, while the other draws keep theirs. Each
//! place of the engine that draws has to come up, and has to be given bytes that differ, but for the factor of a one-hit move, which is
//! not used.
use gen1::generated::engine::packed::update_events;
use gen1::generated::hits::Known;
use gen1::generated::layout::Packed;
use gen1::generated::machine::{Choice, EventList, Rules, Side};
use gen1::generated::offers::offered;
use gen1::generated::rolls::{ByteTest, Look, Rolls};
use gen1::generated::stats::{MemberSpec, Team};
use gen1::generated::status::pick;
use gen1::generated::switching::close;
use gen1::generated::tables::{MoveId, Species};
use gen1::generated::turn::{
    act_and_suffer_as, end_flinch, end_turn, first_side, set_picked, turn,
};
use std::collections::{HashMap, HashSet};
use std::panic::Location;

const TURNS: usize = 400;

/// The places of the engine that draw.
const SITES: usize = 17;

/// Independent bytes: splitmix64.
struct Bytes(u64);

impl Bytes {
    fn next(&mut self) -> u64 {
        self.0 = self.0.wrapping_add(0x9E37_79B9_7F4A_7C15);
        let mut z = self.0;
        z = (z ^ (z >> 30)).wrapping_mul(0xBF58_476D_1CE4_E5B9);
        z = (z ^ (z >> 27)).wrapping_mul(0x94D0_49BB_1331_11EB);
        z ^ (z >> 31)
    }

    fn below(&mut self, bound: u64) -> u64 {
        (self.next() >> 11) % bound
    }

    fn one_in(&mut self, n: u64) -> bool {
        self.below(n) == 0
    }
}

/// A draw that was taken: where, what its byte was looked at for, and which bytes it accepts, which are all but in a search.
struct Draw {
    site: &'static Location<'static>,
    look: Look,
    accepted: [bool; 256],
}

/// A generator that gives each draw, and each search as a whole, the next byte of a list, or the next one that a search accepts.
struct Script<'a> {
    bytes: &'a [u8],
    draws: Vec<Draw>,
}

impl<'a> Script<'a> {
    fn new(bytes: &'a [u8]) -> Self {
        Script {
            bytes,
            draws: Vec::new(),
        }
    }

    fn next(&mut self, draw: Draw) -> u8 {
        let mut byte = self.bytes[self.draws.len()];
        while !draw.accepted[usize::from(byte)] {
            byte = byte.wrapping_add(1);
        }
        self.draws.push(draw);
        byte
    }
}

impl Rolls for Script<'_> {
    fn draw(&mut self) -> u8 {
        unreachable!("a draw without a look")
    }

    #[track_caller]
    fn draw_as(&mut self, look: Look) -> u8 {
        self.next(Draw {
            site: Location::caller(),
            look,
            accepted: [true; 256],
        })
    }

    #[track_caller]
    fn until_as(&mut self, test: ByteTest, look: Look) -> Option<u8> {
        let accepted = std::array::from_fn(|byte| test.passes(byte as u8));
        Some(self.next(Draw {
            site: Location::caller(),
            look,
            accepted,
        }))
    }
}

/// What a turn leads to: the battle, the events, and what its draws are looked at for.
type Played = (Vec<u8>, EventList, Vec<Look>);

/// A position in which both sides choose a move.
struct Position {
    battle: Packed,
    one: Choice,
    two: Choice,
}

impl Position {
    /// Plays the turn by its parts.
    fn play(&self, script: &mut Script<'_>) -> Played {
        let (mut battle, mut known, mut events) =
            (self.battle.clone(), Known::new(), EventList::new());
        end_flinch(&mut battle, Side::One);
        end_flinch(&mut battle, Side::Two);
        let [one, two] = [(Side::One, self.one), (Side::Two, self.two)]
            .map(|(side, choice)| pick(&battle, side, choice));
        set_picked(&mut battle, Side::One, one);
        set_picked(&mut battle, Side::Two, two);
        let first = first_side(&battle, script);
        let order = match first {
            Side::One => [(Side::One, one), (Side::Two, two)],
            Side::Two => [(Side::Two, two), (Side::One, one)],
        };
        let mut act = |(side, pick)| {
            act_and_suffer_as(&mut battle, side, pick, &mut known, script, &mut events)
        };
        if !order.into_iter().any(&mut act) {
            end_turn(&mut battle);
        }
        close(&mut battle, known.side, &mut events);
        let looks = script.draws.iter().map(|draw| draw.look).collect();
        (battle.as_bytes().to_vec(), events, looks)
    }

    /// Plays the turn as a whole.
    fn play_whole(&self, script: Script<'_>) -> Played {
        let (mut battle, mut events) = (self.battle.clone(), EventList::new());
        let script = turn(&mut battle, self.one, self.two, script, &mut events);
        let looks = script.draws.iter().map(|draw| draw.look).collect();
        (battle.as_bytes().to_vec(), events, looks)
    }
}

/// Four moves at random, of those that a team may have.
fn moves(random: &mut Bytes) -> arrayvec::ArrayVec<(MoveId, u8), 4> {
    // Bide, Thrash, Disable, Horn Drill, Psywave, Confuse Ray and Hypnosis are rare among all, and draw in special ways.
    const RARE: [u8; 7] = [117, 37, 50, 32, 149, 109, 95];
    let mut moves = arrayvec::ArrayVec::new();
    while !moves.is_full() {
        let number = if random.one_in(4) {
            RARE[random.below(7) as usize]
        } else {
            1 + random.below(164) as u8
        };
        let id = MoveId::new(number).unwrap();
        if moves.iter().all(|(other, _)| *other != id) {
            moves.push((id, 0));
        }
    }
    moves
}

/// Two members of one kind, of a level at which moves hit for a part of the HP or for all.
fn team(random: &mut Bytes) -> Team {
    loop {
        let spec = MemberSpec {
            species: Species::new(1 + random.below(151) as u8).unwrap(),
            level: 30 + random.below(71) as u8,
            dvs: [15; 4],
            exp: [65535; 5],
            moves: moves(random),
        };
        // Some moves are left out of teams.
        if let Ok(team) = Team::new(&[spec.clone(), spec]) {
            return team;
        }
    }
}

/// A battle after its first update. In one of three both sides have the same team, so the same Speed.
fn begun(random: &mut Bytes) -> Packed {
    let one = team(random);
    let two = if random.one_in(3) {
        one.clone()
    } else {
        team(random)
    };
    let seed = std::array::from_fn(|_| random.below(256) as u8);
    let rules = Rules::new(random.below(4) as u8).unwrap();
    let mut battle = Packed::with_rules(&one, &two, seed, rules);
    update_events(
        &mut battle,
        Choice::Pass,
        Choice::Pass,
        &mut EventList::new(),
    )
    .unwrap();
    if random.one_in(12) {
        for slot in 1..=4 {
            battle.put_pp(Side::Two, slot, 0);
        }
    }
    if random.one_in(4) {
        // A hit may take more than the foe's HP, and yet not all of its Substitute.
        battle.put_hp(Side::Two, 1 + random.below(20) as u16);
        battle.put_substitute(Side::Two, Some(100));
    }
    battle
}

fn chosen(random: &mut Bytes, battle: &Packed, side: Side) -> Choice {
    let choices = offered(battle, side);
    choices[random.below(choices.len() as u64) as usize]
}

/// Calls `with` for turns of random battles in which both sides choose a move.
fn for_turns(random: &mut Bytes, mut with: impl FnMut(&mut Bytes, &Position)) {
    let mut left = TURNS;
    while left > 0 {
        let mut battle = begun(random);
        for _ in 0..8 {
            if battle.outcome().is_over() {
                break;
            }
            let [one, two] = [Side::One, Side::Two].map(|side| chosen(random, &battle, side));
            if let (Choice::Move(_), Choice::Move(_)) = (one, two) {
                with(
                    random,
                    &Position {
                        battle: battle.clone(),
                        one,
                        two,
                    },
                );
                left = left.saturating_sub(1);
            }
            update_events(&mut battle, one, two, &mut EventList::new()).unwrap();
        }
    }
}

/// Gives a draw of the turn each byte that it accepts, and compares what follows for bytes that look the same. Returns whether it differs
/// for two bytes that don't.
fn bytes_differ(it: &Position, bytes: &[u8], place: usize, draw: &Draw) -> bool {
    let mut firsts: HashMap<u16, (u8, Played)> = HashMap::new();
    for byte in (0..=255).filter(|&byte| draw.accepted[usize::from(byte)]) {
        let mut bytes = bytes.to_vec();
        bytes[place] = byte;
        let played = it.play(&mut Script::new(&bytes));
        let (first, wanted) = firsts
            .entry(draw.look.sees(byte))
            .or_insert_with(|| (byte, played.clone()));
        assert!(draw.look.alike(*first, byte));
        assert!(
            *wanted == played,
            "{}: {first} and {byte} differ, but {:?} sees the same",
            draw.site,
            draw.look
        );
    }
    let mut played = firsts.into_values().map(|(_, played)| played);
    let first = played.next();
    played.any(|other| Some(other) != first)
}

#[test]
fn bytes_that_are_alike_do_the_same() {
    let (mut sites, mut telling) = (HashSet::new(), HashSet::new());
    for_turns(&mut Bytes(49), |random, it| {
        let bytes: Vec<u8> = (0..64).map(|_| random.below(256) as u8).collect();
        let mut script = Script::new(&bytes);
        let played = it.play(&mut script);
        assert!(
            played == it.play_whole(Script::new(&bytes)),
            "the parts of a turn do what the turn does"
        );
        for (place, draw) in script.draws.iter().enumerate() {
            sites.insert(draw.site);
            if bytes_differ(it, &bytes, place, draw) {
                telling.insert(draw.site);
            }
        }
    });
    assert_eq!(sites.len(), SITES, "{sites:#?}");
    assert_eq!(telling.len(), SITES - 1, "{telling:#?}");
}
