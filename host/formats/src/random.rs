//! Seeded random numbers (splitmix64), and the choices that are made with them. What is made has a stream of its own, so that it can be made
//! again without the others.

pub struct Random {
    state: u64,
}

const STRIDE: u64 = 0x9E37_79B9_7F4A_7C15;

fn mixed(mut word: u64) -> u64 {
    word = (word ^ (word >> 30)).wrapping_mul(0xBF58_476D_1CE4_E5B9);
    word = (word ^ (word >> 27)).wrapping_mul(0x94D0_49BB_1331_11EB);
    word ^ (word >> 31)
}

impl Random {
    pub fn new(state: u64) -> Random {
        Random { state }
    }

    /// The stream of case `number` of `seed`; `kind` keeps steps and runs apart.
    pub fn of(seed: u64, kind: u64, number: u64) -> Random {
        let start = mixed(seed.wrapping_mul(STRIDE) ^ mixed(kind.wrapping_add(STRIDE)));
        Random {
            state: mixed(start ^ number.wrapping_mul(STRIDE)),
        }
    }

    pub fn word(&mut self) -> u64 {
        self.state = self.state.wrapping_add(STRIDE);
        mixed(self.state)
    }

    /// A number under `limit`; `limit` must not be 0.
    pub fn below(&mut self, limit: u64) -> u64 {
        ((u128::from(self.word()) * u128::from(limit)) >> 64) as u64
    }

    pub fn chance(&mut self, percent: u64) -> bool {
        self.below(100) < percent
    }

    /// True once in `times`.
    pub fn once_in(&mut self, times: u64) -> bool {
        self.below(times) == 0
    }

    pub fn pick<T: Copy>(&mut self, from: &[T]) -> T {
        from[self.below(from.len() as u64) as usize]
    }

    /// A word with exactly one bit set, one of those that `among` has; `among` must not be 0.
    pub fn one_bit(&mut self, among: u64) -> u64 {
        let mut rest = among;
        for _ in 0..self.below(u64::from(among.count_ones())) {
            rest &= rest - 1;
        }
        rest & rest.wrapping_neg()
    }
}

#[cfg(test)]
mod tests {
    use super::Random;

    /// The first numbers of splitmix64 from 0, as its authors' program gives them.
    #[test]
    fn it_is_splitmix64() {
        let mut random = Random::new(0);
        let drawn = [(); 3].map(|()| random.word());
        let theirs = [
            0xE220_A839_7B1D_CDAF,
            0x6E78_9E6A_A1B9_65F4,
            0x06C4_5D18_8009_454F,
        ];
        assert_eq!(drawn, theirs);
    }

    #[test]
    fn a_stream_depends_on_seed_kind_and_number() {
        let first = |seed, kind, number| Random::of(seed, kind, number).word();
        assert_eq!(first(1, 2, 3), first(1, 2, 3));
        assert_ne!(first(1, 2, 3), first(2, 2, 3));
        assert_ne!(first(1, 2, 3), first(1, 3, 3));
        assert_ne!(first(1, 2, 3), first(1, 2, 4));
    }

    #[test]
    fn one_bit_gives_every_bit_and_no_other() {
        let mut random = Random::of(7, 0, 0);
        let seen = (0..200).fold(0, |seen, _| seen | random.one_bit(0x8001_0000_0000_0011));
        assert_eq!(seen, 0x8001_0000_0000_0011);
    }

    #[test]
    fn below_stays_below_and_reaches_both_ends() {
        let mut random = Random::of(7, 0, 1);
        let drawn: Vec<u64> = (0..200).map(|_| random.below(5)).collect();
        assert_eq!(drawn.iter().min(), Some(&0));
        assert_eq!(drawn.iter().max(), Some(&4));
    }
}
