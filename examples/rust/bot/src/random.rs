//! Random numbers of the players, which are independent of those that a battle draws.

/// A random number generator (SplitMix64), whose output depends only on its seed.
#[derive(Clone)]
pub struct Random(u64);

impl Random {
    /// The generator with a number of a seed; different numbers give different generators.
    pub fn new(seed: u64, number: u64) -> Self {
        let mut first = Random(seed);
        let start = first.next() ^ number.wrapping_mul(0xd134_2543_de82_ef95);
        let mut random = Random(start);
        random.next();
        random
    }

    fn next(&mut self) -> u64 {
        self.0 = self.0.wrapping_add(0x9e37_79b9_7f4a_7c15);
        let mut mixed = self.0;
        mixed = (mixed ^ (mixed >> 30)).wrapping_mul(0xbf58_476d_1ce4_e5b9);
        mixed = (mixed ^ (mixed >> 27)).wrapping_mul(0x94d0_49bb_1331_11eb);
        mixed ^ (mixed >> 31)
    }

    /// A number below another, which is not 0.
    pub fn below(&mut self, bound: usize) -> usize {
        // The high bits of a product: the chances of two numbers differ by at most 1 in 2^57 here.
        ((u128::from(self.next()) * bound as u128) >> 64) as usize
    }

    /// The ten numbers of a battle's seed.
    pub fn seed(&mut self) -> [u8; 10] {
        std::array::from_fn(|_| (self.next() >> 56) as u8)
    }
}

#[cfg(test)]
mod tests {
    use super::Random;

    #[test]
    fn the_same_seed_and_number_give_the_same() {
        let draws = |seed, number| {
            let mut random = Random::new(seed, number);
            (0..50).map(|_| random.below(1000)).collect::<Vec<_>>()
        };
        assert_eq!(draws(1, 2), draws(1, 2));
        assert_ne!(draws(1, 2), draws(1, 3));
        assert_ne!(draws(1, 2), draws(2, 2));
    }

    /// The first numbers of SplitMix64 from 0, as in its authors' program.
    #[test]
    fn numbers_are_those_of_splitmix64() {
        let mut random = Random(0);
        assert_eq!(
            [random.next(), random.next()],
            [0xe220_a839_7b1d_cdaf, 0x6e78_9e6a_a1b9_65f4]
        );
    }

    #[test]
    fn every_number_comes_about_as_often() {
        let mut random = Random::new(7, 0);
        let mut count = [0_u32; 9];
        (0..90_000).for_each(|_| count[random.below(9)] += 1);
        // Six standard deviations of a count with mean 10,000.
        assert!(
            count.iter().all(|&count| count.abs_diff(10_000) < 570),
            "{count:?}"
        );
    }
}
