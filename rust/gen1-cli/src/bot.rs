//! A side that the program plays, by a search from what its player knows (rust/gen1-search/README.md).
use crate::fault;
use clap::builder::StyledStr;
use gen1::{Choice, Player};
use gen1_search::{Dice, LEVELS, Prior, ThinkOptions, think};

/// The levels, for the help of an option: `what` and their nodes.
pub fn levels(what: &str) -> StyledStr {
    let each = (1..).zip(LEVELS).map(|(level, nodes)| {
        let nodes = crate::words::thousands(nodes);
        format!("{level} ({nodes})")
    });
    format!("{what}: {}", each.collect::<Vec<_>>().join(", ")).into()
}

/// A bot of some level. Its choices depend only on its level, its seed, and the messages to its player.
pub struct Bot {
    level: u8,
    prior: Prior,
    dice: Dice,
}

impl Bot {
    /// A bot that takes the foe's team to be like the sample teams.
    pub fn new(level: u8, seed: u64) -> Bot {
        Bot {
            level,
            prior: Prior::samples(),
            dice: Dice::new(seed),
        }
    }

    /// A choice that the player is offered; `None` if it is offered none. Without a search it is the first, with a note.
    pub fn choice(&mut self, player: &Player) -> Option<Choice> {
        let first = player.choices().first().copied()?;
        let mut options = ThinkOptions::level(self.level);
        options.seed = self.dice.bits();
        Some(match think(player, &self.prior, &options) {
            Ok(thought) => thought.draw(&mut self.dice),
            Err(why) => {
                let side = player.side();
                fault::note(&format!("side {side} makes its first choice: {why}"));
                first
            }
        })
    }
}
