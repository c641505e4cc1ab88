//! The input of the programs in this folder: decimal numbers separated by white space, as described in examples/c/play.c.
use crate::gen1::{Battle, Member, Team};
use std::str::SplitWhitespace;

pub struct Numbers<'a> {
    words: SplitWhitespace<'a>,
}

impl<'a> Numbers<'a> {
    pub fn of(input: &'a str) -> Numbers<'a> {
        Numbers {
            words: input.split_whitespace(),
        }
    }

    pub fn next<T: std::str::FromStr>(&mut self) -> Option<T> {
        self.words.next()?.parse().ok()
    }

    fn array<T: std::str::FromStr + Default + Copy, const N: usize>(&mut self) -> Option<[T; N]> {
        let mut numbers = [T::default(); N];
        for number in &mut numbers {
            *number = self.next()?;
        }
        Some(numbers)
    }

    fn member(&mut self) -> Option<Member> {
        let (species, level) = (self.next()?, self.next()?);
        let (dvs, exp) = (self.array()?, self.array()?);
        let [(a, b), (c, d), (e, f), (g, h)] = [
            self.chosen()?,
            self.chosen()?,
            self.chosen()?,
            self.chosen()?,
        ];
        Some(Member {
            species,
            level,
            dvs,
            exp,
            moves: [a, c, e, g],
            pp_ups: [b, d, f, h],
        })
    }

    fn chosen(&mut self) -> Option<(u8, u8)> {
        Some((self.next()?, self.next()?))
    }

    fn team(&mut self) -> Option<Team> {
        let mut team = Team {
            count: self.next()?,
            ..Team::default()
        };
        for member in team.members.get_mut(..usize::from(team.count))? {
            *member = self.member()?;
        }
        Some(team)
    }

    /// The battle with its teams, or an error.
    pub fn battle(&mut self) -> Result<(Battle, [Team; 2]), String> {
        let asked = || "input".to_string();
        let rules = self.next().ok_or_else(asked)?;
        let limit = self.next().ok_or_else(asked)?;
        let seed = self.array().ok_or_else(asked)?;
        let one = self.team().ok_or_else(asked)?;
        let two = self.team().ok_or_else(asked)?;
        match Battle::new(&one, &two, &seed, rules, limit) {
            Ok(battle) => Ok((battle, [one, two])),
            Err(fault) => Err(format!(
                "team {} place {} refusal {}",
                fault.side, fault.place, fault.code
            )),
        }
    }
}
