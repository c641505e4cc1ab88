//! Battles played by random choices.
use crate::generated::playouts;
use crate::{Battle, PlayoutOptions, Playouts};

impl Battle {
    /// Plays copies of the battle by random choices, to their end or to a depth, and counts how they end.
    ///
    /// Each round draws ten numbers for its copy from a generator that only this call uses, so rounds are independent, and none of them uses
    /// the numbers that the battle itself will draw. Then in each update each side takes one of the choices that it is offered. Without
    /// [`PlayoutOptions::with_weights`] all of them are equally likely. A battle that is over counts as it ended. The same options give
    /// the same counts, which are also those of `gen1_playout` in C.
    ///
    /// ```
    /// use gen1::{Battle, MoveId, PlayoutOptions, Side, Team, Weights, member};
    ///
    /// # fn main() -> Result<(), Box<dyn std::error::Error>> {
    /// let one = Team::new(&[member("Gengar", &["Explosion", "Psychic"])?, member("Mew", &["Recover"])?])?;
    /// let two = Team::new(&[member("Magikarp", &["Splash"])?])?;
    /// let battle = Battle::new(&one, &two, [0; 10]);
    /// let weights = Weights::default().with_moves(4).with_move(MoveId::EXPLOSION, 0);
    /// let playouts = battle.playout(&PlayoutOptions::new(7, 100).with_depth(20).with_weights(weights));
    /// assert_eq!(playouts.rounds(), 100);
    /// // Splash does no damage, and twenty updates do not use up its PP.
    /// assert_eq!(playouts.wins(Side::Two), 0);
    /// # Ok(())
    /// # }
    /// ```
    #[must_use]
    pub fn playout(&self, options: &PlayoutOptions) -> Playouts {
        playouts::playout(&self.packed, options)
    }
}

/// The ten numbers of a seed that a number determines, the same in all languages.
///
/// They are what the generator of playouts draws from it. Two numbers may give the same ten. A server takes bytes of the operating system's
/// source instead.
///
/// ```
/// # fn main() -> Result<(), Box<dyn std::error::Error>> {
/// let team = gen1::Team::new(&[gen1::member("Tauros", &["Body Slam"])?])?;
/// let battle = gen1::Battle::new(&team, &team, gen1::seed_from_number(7));
/// assert_eq!(gen1::seed_from_number(0)[..3], [126, 17, 34]);
/// # Ok(())
/// # }
/// ```
#[must_use]
pub fn seed_from_number(number: u64) -> [u8; 10] {
    playouts::ChoiceGenerator::new(number).ten_numbers()
}
