//! A small seeded source of random numbers (splitmix64), so that every run can be repeated.

pub struct Random(u64);

impl Random {
    pub fn new(seed: u64) -> Random {
        Random(seed)
    }

    pub fn next(&mut self) -> u64 {
        self.0 = self.0.wrapping_add(0x9E37_79B9_7F4A_7C15);
        let mut mixed = self.0;
        mixed = (mixed ^ mixed >> 30).wrapping_mul(0xBF58_476D_1CE4_E5B9);
        mixed = (mixed ^ mixed >> 27).wrapping_mul(0x94D0_49BB_1331_11EB);
        mixed ^ mixed >> 31
    }

    /// A number below the bound, which is not zero.
    pub fn below(&mut self, bound: usize) -> usize {
        (self.next() % bound as u64) as usize
    }

    /// A number from `low` to `high`, both included.
    pub fn between(&mut self, low: usize, high: usize) -> usize {
        low + self.below(high - low + 1)
    }

    /// True so many times in a hundred.
    pub fn percent(&mut self, chance: u8) -> bool {
        self.below(100) < chance as usize
    }

    /// A member of a set that is not empty.
    pub fn member(&mut self, set: u64) -> u8 {
        let mut left = set;
        for _ in 0..self.below(set.count_ones() as usize) {
            left &= left - 1;
        }
        left.trailing_zeros() as u8
    }

    /// A place in the weights, each as likely as its weight; none if all are zero.
    pub fn weighted(&mut self, weights: &[u32]) -> Option<usize> {
        let total: u32 = weights.iter().sum();
        if total == 0 {
            return None;
        }
        let mut left = self.below(total as usize) as u32;
        for (place, &weight) in weights.iter().enumerate() {
            if left < weight {
                return Some(place);
            }
            left -= weight;
        }
        None
    }
}
