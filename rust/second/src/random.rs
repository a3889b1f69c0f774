//! A repeatable source of numbers for the test programs (splitmix64).

/// The state of the source; one seed always gives one sequence.
#[derive(Clone, Debug)]
pub struct Random(u64);

impl Random {
    pub fn new(seed: u64) -> Random {
        Random(seed)
    }

    /// The next number of 64 bits.
    pub fn number(&mut self) -> u64 {
        self.0 = self.0.wrapping_add(0x9e37_79b9_7f4a_7c15);
        let mut z = self.0;
        z = (z ^ z >> 30).wrapping_mul(0xbf58_476d_1ce4_e5b9);
        z = (z ^ z >> 27).wrapping_mul(0x94d0_49bb_1331_11eb);
        z ^ z >> 31
    }

    /// A number below a bound, the bound at least 1. The slight lean to low
    /// numbers does not matter here.
    pub fn below(&mut self, bound: usize) -> usize {
        (self.number() % bound as u64) as usize
    }

    /// A list of bits.
    pub fn bits(&mut self, count: usize) -> Vec<u8> {
        (0..count).map(|_| (self.number() >> 63) as u8).collect()
    }

    /// `count` different places below a bound, in the order drawn.
    pub fn places(&mut self, count: usize, bound: usize) -> Vec<usize> {
        let mut places: Vec<usize> = Vec::with_capacity(count);
        while places.len() < count.min(bound) {
            let place = self.below(bound);
            if !places.contains(&place) {
                places.push(place);
            }
        }
        places
    }
}
