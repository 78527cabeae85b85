//! A small generator of pseudo-random numbers (splitmix64): the same seed
//! gives the same cases on every machine.

pub struct Random(u64);

impl Random {
    pub fn new(seed: u64) -> Self {
        Random(seed)
    }

    pub fn word(&mut self) -> u64 {
        self.0 = self.0.wrapping_add(0x9e37_79b9_7f4a_7c15);
        let mut word = self.0;
        word = (word ^ (word >> 30)).wrapping_mul(0xbf58_476d_1ce4_e5b9);
        word = (word ^ (word >> 27)).wrapping_mul(0x94d0_49bb_1331_11eb);
        word ^ (word >> 31)
    }

    /// Any 32-bit number, used as noise in lent buffers.
    pub fn noise(&mut self) -> i32 {
        (self.word() >> 32) as i32
    }

    /// A number below `bound`; the bias of the remainder is far below what
    /// a test could notice.
    pub fn below(&mut self, bound: usize) -> usize {
        assert!(bound > 0, "no number is below 0");
        (self.word() % bound as u64) as usize
    }

    /// A number from `low` to `high`, both included.
    pub fn between(&mut self, low: i32, high: i32) -> i32 {
        assert!(low <= high, "{low} is above {high}");
        let count = (i64::from(high) - i64::from(low) + 1) as u64;
        (i64::from(low) + (self.word() % count) as i64) as i32
    }

    /// True once in `of` times.
    pub fn once_in(&mut self, of: usize) -> bool {
        self.below(of) == 0
    }

    pub fn pick<T: Copy>(&mut self, from: &[T]) -> T {
        from[self.below(from.len())]
    }

    /// Different numbers, so many, as `draw` gives them; in rising order.
    pub fn rising(
        &mut self,
        count: usize,
        mut draw: impl FnMut(&mut Random) -> usize,
    ) -> Vec<usize> {
        let mut numbers = Vec::new();
        while numbers.len() < count {
            let number = draw(self);
            if !numbers.contains(&number) {
                numbers.push(number);
            }
        }
        numbers.sort_unstable();
        numbers
    }

    /// `length` numbers from `-limit` to `limit`.
    pub fn list(&mut self, length: usize, limit: i32) -> Vec<i32> {
        (0..length).map(|_| self.between(-limit, limit)).collect()
    }

    /// A buffer's length: exact, longer or too short for `due` numbers.
    pub fn room(&mut self, due: usize) -> usize {
        match self.below(8) {
            0 => self.below(due),
            1 => due - 1,
            2 => due + 1,
            3 => due + self.below(50),
            4 => 2 * due,
            _ => due,
        }
    }
}

#[cfg(test)]
mod tests {
    use super::*;

    #[test]
    fn first_words_of_splitmix64() {
        let mut random = Random::new(0);
        assert_eq!(random.word(), 0xe220_a839_7b1d_cdaf);
        assert_eq!(random.word(), 0x6e78_9e6a_a1b9_65f4);
    }

    #[test]
    fn both_ends_are_drawn() {
        let mut random = Random::new(1);
        let drawn = random.list(200, 2);
        for wanted in -2..=2 {
            assert!(drawn.contains(&wanted), "{wanted} was never drawn");
        }
        assert!(drawn.iter().all(|number| (-2..=2).contains(number)));
        let whole = random.between(i32::MIN, i32::MAX);
        assert_ne!(whole, random.between(i32::MIN, i32::MAX));
    }
}
