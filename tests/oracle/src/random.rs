//! Numbers that look random and are the same for the same seed (splitmix64).

pub struct Random(u64);

impl Random {
    /// A stream for each name, so that a new kind of request leaves the others' numbers as they were.
    pub fn new(seed: u64, name: &str) -> Self {
        let mut random = Random(seed);
        for byte in name.bytes() {
            random.0 = random.bits() ^ u64::from(byte);
        }
        random
    }

    pub fn bits(&mut self) -> u64 {
        self.0 = self.0.wrapping_add(0x9e37_79b9_7f4a_7c15);
        let mut z = self.0;
        z = (z ^ (z >> 30)).wrapping_mul(0xbf58_476d_1ce4_e5b9);
        z = (z ^ (z >> 27)).wrapping_mul(0x94d0_49bb_1331_11eb);
        z ^ (z >> 31)
    }

    /// A number below `end`.
    pub fn below(&mut self, end: u64) -> u64 {
        self.bits() % end
    }
}

#[cfg(test)]
mod tests {
    use super::*;

    /// The numbers that are published for splitmix64 at this seed: a recorded sample is made of them on any machine.
    #[test]
    fn the_stream_is_splitmix64() {
        let mut random = Random::new(1234567, "");
        let known = [6457827717110365317, 3203168211198807973, 9817491932198370423, 4593380528125082431, 16408922859458223821];
        assert_eq!(known.map(|_| random.bits()), known);
        let mut random = Random::new(0, "");
        assert_eq!([random.bits(), random.bits()], [0xe220_a839_7b1d_cdaf, 0x6e78_9e6a_a1b9_65f4]);
    }

    #[test]
    fn a_stream_is_its_seed_and_its_name() {
        let first = |seed: u64, name: &str| Random::new(seed, name).bits();
        assert_eq!(first(1, "sine"), first(1, "sine"));
        assert!(first(1, "sine") != first(2, "sine") && first(1, "sine") != first(1, "cosine") && first(1, "ab") != first(1, "ba"));
    }

    #[test]
    fn what_is_below_an_end_takes_every_value_below_it() {
        let mut random = Random::new(3, "below");
        let mut seen = [0; 5];
        (0..200).for_each(|_| seen[random.below(5) as usize] += 1);
        assert!(seen.iter().all(|n| *n > 0));
    }
}
