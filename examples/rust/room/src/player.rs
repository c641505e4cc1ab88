//! A player, as a starting point for yours. It reads the lines of the room and writes its choices (protocol.rs).
use crate::protocol::asked;
use std::io::{self, BufRead, Write};

/// How a player chooses.
pub struct Player {
    /// Its first choices, as bytes.
    pub choices: Vec<u8>,
    /// The seed for the choices after these; without one it makes the first offered choice.
    pub seed: Option<u64>,
    /// Whether it sends invalid lines and floods before each choice.
    pub is_rude: bool,
}

/// How many invalid lines a rude player sends before its first choice.
const FLOOD: usize = 500;

impl Player {
    /// Plays until the end of the input.
    pub fn run(self, from: impl BufRead, mut to: impl Write) -> io::Result<()> {
        let (mut given, mut state, mut flood) = (self.choices.iter().copied(), self.seed, FLOOD);
        for line in from.lines() {
            // A stronger player would use the lines `team` and `log`.
            let Some((number, offered)) = asked(&line?) else {
                continue;
            };
            if self.is_rude {
                to.write_all(&rubbish(number, flood))?;
                flood = 0;
            }
            let byte = given.next().unwrap_or_else(|| chosen(&offered, &mut state));
            writeln!(to, "{number} {byte}")?;
            to.flush()?;
        }
        Ok(())
    }
}

/// A random choice of those that are offered.
fn chosen(offered: &[u8], state: &mut Option<u64>) -> u8 {
    let at = state.as_mut().map_or(0, |state| {
        *state = state
            .wrapping_mul(6_364_136_223_846_793_005)
            .wrapping_add(1_442_695_040_888_963_407);
        (*state >> 33) as usize % offered.len()
    });
    offered[at]
}

/// Lines that are all refused: some that aren't a choice, a choice for the next pair, and one that is never offered.
fn rubbish(number: u32, flood: usize) -> Vec<u8> {
    let mut lines = [
        &b"hello\n\n\0\xff\n-1 17\n0 17 17\n"[..],
        &[b'9'; 70_000],
        b"\n",
    ]
    .concat();
    lines.extend(b"y\n".repeat(flood));
    lines.extend(format!("{} 17\n{number} 99\n", number + 1).bytes());
    lines
}
