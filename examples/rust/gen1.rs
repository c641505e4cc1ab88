//! The C library from Rust: the part of include/gen1.h that the programs in this folder call. Its functions accept any values, so the
//! calls are safe. Slices are passed as pointer and length, which Rust's types keep together.
#![allow(dead_code)]

/// A battle, which consists of these bytes.
#[repr(C)]
#[derive(Clone, Copy)]
pub struct Battle {
    pub bytes: [u8; 384],
}

/// A member as the caller describes it.
#[repr(C)]
#[derive(Clone, Copy, Default)]
pub struct Member {
    pub species: u8,
    pub level: u8,
    pub dvs: [u8; 4],
    pub moves: [u8; 4],
    pub pp_ups: [u8; 4],
    pub exp: [u16; 5],
}

/// A team: the first `count` of the members.
#[repr(C)]
#[derive(Clone, Copy, Default)]
pub struct Team {
    pub members: [Member; 6],
    pub count: u8,
    pub reserved: u8,
}

/// The damage of a hit at each factor, or a code that says why there is none.
#[repr(C)]
#[derive(Clone, Copy, Debug, PartialEq, Eq)]
pub struct Damages {
    pub numbers: [u16; 39],
    pub count: u8,
    pub code: u8,
}

/// The odds of a move. Chances are given as how many of 256 draws have the result.
#[repr(C)]
#[derive(Clone, Copy, Debug, PartialEq, Eq)]
pub struct Odds {
    pub usual: Damages,
    pub critical: Damages,
    pub critical_draws: u16,
    pub hit_draws: u16,
    pub least: u16,
    pub most: u16,
    pub hits: [u8; 6],
    pub reason: u8,
    pub charges_first: u8,
}

/// A battle of two players who choose independently.
#[repr(C)]
#[derive(Clone, Copy)]
pub struct Room {
    pub battle: Battle,
    pub number: u32,
    log_length: u16,
    chosen: [u8; 2],
    forfeit: u8,
    unused: [u8; 3],
    log: [u8; 512],
}

/// A spectator's knowledge of a member.
#[repr(C)]
#[derive(Clone, Copy, Debug, Default, PartialEq, Eq)]
pub struct ShownMember {
    pub hp: u16,
    pub status: u8,
    pub reserved: u8,
}

/// A spectator's knowledge of a side.
#[repr(C)]
#[derive(Clone, Copy, Debug, Default, PartialEq, Eq)]
pub struct ShownSide {
    pub members: [ShownMember; 6],
    pub count: u8,
    pub place: u8,
    pub stages: [u8; 6],
    pub substitute: u8,
    pub confused: u8,
    pub light_screen: u8,
    pub reflect: u8,
}

/// A spectator's knowledge, from both teams and the logs.
#[repr(C)]
#[derive(Clone, Copy, Debug, Default, PartialEq, Eq)]
pub struct Spectator {
    pub sides: [ShownSide; 2],
    pub turn: u16,
    pub outcome: u8,
    held_count: u8,
    held: [u8; 10],
}

#[link(name = "gen1_c", kind = "static")]
unsafe extern "C" {
    safe fn gen1_new(
        battle: &mut Battle,
        one: &Team,
        two: &Team,
        seed: &[u8; 10],
        rules: u8,
        limit: u16,
    ) -> u32;
    fn gen1_load(battle: &mut Battle, bytes: *const u8, count: usize) -> u8;
    safe fn gen1_choices(battle: &Battle, side: u8, choices: &mut [u8; 9]) -> u8;
    fn gen1_update(
        battle: &mut Battle,
        one: u8,
        two: u8,
        log: *mut u8,
        room: usize,
        length: &mut usize,
    ) -> u8;
    safe fn gen1_result(battle: &Battle) -> u8;
    fn gen1_next_line(
        log: *const u8,
        count: usize,
        at: &mut usize,
        text: *mut u8,
        room: usize,
        length: &mut usize,
    ) -> u8;
    safe fn gen1_odds_now(battle: &Battle, side: u8, id: u8, odds: &mut Odds) -> u8;
    safe fn gen1_odds_between(user: &Member, foe: &Member, id: u8, odds: &mut Odds) -> u32;
    safe fn gen1_takes_hit_test(id: u8) -> u8;
    safe fn gen1_room_begin(room: &mut Room);
    safe fn gen1_room_choices(room: &Room, side: u8, choices: &mut [u8; 9]) -> u8;
    safe fn gen1_room_submit(room: &mut Room, side: u8, number: u32, choice: u8) -> u8;
    safe fn gen1_spectator_begin(spectator: &mut Spectator, one: &Team, two: &Team) -> u32;
    fn gen1_spectator_feed(spectator: &mut Spectator, log: *const u8, count: usize) -> u8;
}

/// Why teams were refused.
pub struct TeamFault {
    pub side: u32,
    pub place: u32,
    pub code: u32,
}

impl TeamFault {
    /// The parts of a return value that is not 0.
    fn of(answer: u32) -> TeamFault {
        TeamFault {
            side: answer >> 16,
            place: answer >> 8 & 0xff,
            code: answer & 0xff,
        }
    }
}

/// A value for the library to overwrite.
const NO_ODDS: Odds = {
    let none = Damages {
        numbers: [0; 39],
        count: 0,
        code: 0,
    };
    Odds {
        usual: none,
        critical: none,
        critical_draws: 0,
        hit_draws: 0,
        least: 0,
        most: 0,
        hits: [0; 6],
        reason: 0,
        charges_first: 0,
    }
};

/// The odds of a move between two members that have just been sent out.
pub fn odds_between(user: &Member, foe: &Member, id: u8) -> Result<Odds, TeamFault> {
    let mut odds = NO_ODDS;
    match gen1_odds_between(user, foe, id, &mut odds) {
        0 => Ok(odds),
        answer => Err(TeamFault::of(answer)),
    }
}

/// An update or a submission to a room was refused, with this code.
pub struct Refused(pub u8);

/// The log of one update.
pub struct Log {
    bytes: [u8; 512],
    length: usize,
}

impl Battle {
    pub fn new(
        one: &Team,
        two: &Team,
        seed: &[u8; 10],
        rules: u8,
        limit: u16,
    ) -> Result<Battle, TeamFault> {
        let mut battle = Battle { bytes: [0; 384] };
        match gen1_new(&mut battle, one, two, seed, rules, limit) {
            0 => Ok(battle),
            answer => Err(TeamFault::of(answer)),
        }
    }

    /// Loads a battle from bytes, or returns the code of the first test that they fail.
    pub fn load(bytes: &[u8]) -> Result<Battle, u8> {
        let mut battle = Battle { bytes: [0; 384] };
        // The pointer and the length are those of one slice, which does not overlap the new battle.
        match unsafe { gen1_load(&mut battle, bytes.as_ptr(), bytes.len()) } {
            0 => Ok(battle),
            test => Err(test),
        }
    }

    /// The choices that a side, 1 or 2, is offered.
    pub fn choices(&self, side: u8) -> Vec<u8> {
        let mut choices = [0; 9];
        let count = gen1_choices(self, side, &mut choices);
        choices[..usize::from(count)].to_vec()
    }

    /// Updates the battle with a choice of each side, and returns the log.
    pub fn update(&mut self, one: u8, two: u8) -> Result<Log, Refused> {
        let mut log = Log {
            bytes: [0; 512],
            length: 0,
        };
        // The pointer and the length are those of one array, which does not overlap the battle or the length.
        let refused = unsafe {
            gen1_update(
                self,
                one,
                two,
                log.bytes.as_mut_ptr(),
                log.bytes.len(),
                &mut log.length,
            )
        };
        match refused {
            0 => Ok(log),
            number => Err(Refused(number)),
        }
    }

    /// The outcome, and the request to each side.
    pub fn result(&self) -> (u8, u8, u8) {
        let result = gen1_result(self);
        (result & 7, result >> 3 & 3, result >> 5 & 3)
    }

    /// The odds of a side's move in the current state, or a code that says why there are none.
    pub fn odds(&self, side: u8, id: u8) -> Result<Odds, u8> {
        let mut odds = NO_ODDS;
        match gen1_odds_now(self, side, id, &mut odds) {
            0 => Ok(odds),
            code => Err(code),
        }
    }
}

impl Room {
    /// Creates a room for a battle, which is started if it has not begun.
    pub fn new(battle: Battle) -> Room {
        let mut room = Room {
            battle,
            number: 0,
            log_length: 0,
            chosen: [0; 2],
            forfeit: 0,
            unused: [0; 3],
            log: [0; 512],
        };
        gen1_room_begin(&mut room);
        room
    }

    /// The choices that a side, 1 or 2, may submit for the current pair.
    pub fn choices(&self, side: u8) -> Vec<u8> {
        let mut choices = [0; 9];
        let count = gen1_room_choices(self, side, &mut choices);
        choices[..usize::from(count)].to_vec()
    }

    /// Submits a side's choice for the pair with this number.
    pub fn submit(&mut self, side: u8, number: u32, choice: u8) -> Result<(), Refused> {
        match gen1_room_submit(self, side, number, choice) {
            0 => Ok(()),
            code => Err(Refused(code)),
        }
    }

    /// The log of the last pair that ended; before the first, of the battle's start.
    pub fn log(&self) -> Log {
        Log {
            bytes: self.log,
            length: usize::from(self.log_length),
        }
    }
}

impl Spectator {
    /// Creates a spectator before a battle of two teams.
    pub fn new(one: &Team, two: &Team) -> Result<Spectator, TeamFault> {
        let mut spectator = Spectator::default();
        match gen1_spectator_begin(&mut spectator, one, two) {
            0 => Ok(spectator),
            answer => Err(TeamFault::of(answer)),
        }
    }

    /// Reads the next bytes of the battle's log, in pieces of any size, or returns the code of the error.
    pub fn feed(&mut self, log: &[u8]) -> Result<(), u8> {
        // The pointer and the length are those of one slice, which does not overlap the spectator.
        match unsafe { gen1_spectator_feed(self, log.as_ptr(), log.len()) } {
            0 => Ok(()),
            code => Err(code),
        }
    }
}

impl Log {
    pub fn bytes(&self) -> &[u8] {
        &self.bytes[..self.length]
    }

    /// Calls a function with each line, including its line feed.
    pub fn each_line(&self, mut take: impl FnMut(&[u8])) {
        let log = self.bytes();
        let (mut at, mut line, mut length) = (0, [0; 96], 0);
        loop {
            // Each pointer and the length after it are those of one slice, and no two of them overlap.
            let code = unsafe {
                gen1_next_line(
                    log.as_ptr(),
                    log.len(),
                    &mut at,
                    line.as_mut_ptr(),
                    line.len(),
                    &mut length,
                )
            };
            if code != 0 {
                return;
            }
            take(&line[..length]);
        }
    }
}
