//! A small seeded random generator (splitmix64), so that every case can be made again.
//! A case's generator depends on the seed and the case's number alone.

/// The generator.
pub struct Random {
    state: u64,
}

impl Random {
    /// The generator of case `number` under `seed`.
    pub fn new(seed: u64, number: u64) -> Self {
        let mut random = Random { state: seed.wrapping_mul(0xD134_2543_DE82_EF95) ^ 0x5851_F42D_4C95_7F2D };
        random.state = random.next().wrapping_add(number.wrapping_mul(0x9E37_79B9_7F4A_7C15).rotate_left(17));
        random.next();
        random
    }

    /// Any 64 bits.
    pub fn next(&mut self) -> u64 {
        self.state = self.state.wrapping_add(0x9E37_79B9_7F4A_7C15);
        let mut z = self.state;
        z = (z ^ (z >> 30)).wrapping_mul(0xBF58_476D_1CE4_E5B9);
        z = (z ^ (z >> 27)).wrapping_mul(0x94D0_49BB_1331_11EB);
        z ^ (z >> 31)
    }

    /// A number below `bound`, or 0.
    pub fn below(&mut self, bound: usize) -> usize {
        ((u128::from(self.next()) * bound as u128) >> 64) as usize
    }

    /// A number from `low` to `high`, both possible.
    pub fn between(&mut self, low: i64, high: i64) -> i64 {
        let width = (i128::from(high) - i128::from(low) + 1).max(1) as u128;
        (i128::from(low) + ((u128::from(self.next()) * width) >> 64) as i128) as i64
    }

    /// True so many times in a thousand.
    pub fn often(&mut self, per_mille: usize) -> bool {
        self.below(1_000) < per_mille
    }

    /// One of them.
    pub fn pick<'a, T: ?Sized>(&mut self, from: &[&'a T]) -> &'a T {
        from[self.below(from.len())]
    }

    /// One of the numbers.
    pub fn number(&mut self, from: &[i64]) -> i64 {
        from[self.below(from.len())]
    }

    /// Puts the items in any order.
    pub fn shuffle<T>(&mut self, items: &mut [T]) {
        for last in (1..items.len()).rev() {
            items.swap(last, self.below(last + 1));
        }
    }
}
