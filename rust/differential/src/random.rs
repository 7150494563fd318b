//! A small seeded generator of numbers (splitmix64).

pub struct Random(u64);

impl Random {
    pub fn new(seed: u64) -> Self {
        Self(seed)
    }

    pub fn bits(&mut self) -> u64 {
        self.0 = self.0.wrapping_add(0x9e37_79b9_7f4a_7c15);
        let mut bits = self.0;
        bits = (bits ^ (bits >> 30)).wrapping_mul(0xbf58_476d_1ce4_e5b9);
        bits = (bits ^ (bits >> 27)).wrapping_mul(0x94d0_49bb_1331_11eb);
        bits ^ (bits >> 31)
    }

    pub fn below(&mut self, bound: usize) -> usize {
        (self.bits() % bound as u64) as usize
    }

    pub fn byte_below(&mut self, bound: u8) -> u8 {
        (self.bits() % u64::from(bound)) as u8
    }

    pub fn byte(&mut self) -> u8 {
        self.bits() as u8
    }

    /// A number from `low` to `high`, both among them.
    pub fn within(&mut self, low: i32, high: i32) -> i32 {
        low + self.below((high - low + 1) as usize) as i32
    }

    pub fn percent(&mut self, share: usize) -> bool {
        self.below(100) < share
    }

    pub fn pick<T: Copy>(&mut self, list: &[T]) -> T {
        list[self.below(list.len())]
    }

    /// An entry of a list in which each has a share before it.
    pub fn weighted<T: Copy>(&mut self, list: &[(usize, T)]) -> T {
        let mut left = self.below(list.iter().map(|(share, _)| share).sum());
        for (share, entry) in list {
            if left < *share {
                return *entry;
            }
            left -= share;
        }
        unreachable!("the number is below the sum of the shares")
    }

    pub fn sometimes<T>(&mut self, share: usize, make: impl FnOnce(&mut Self) -> T) -> Option<T> {
        self.percent(share).then(|| make(self))
    }

    /// Keeps at most `most` entries of a list, chosen at random.
    pub fn keep<T>(&mut self, list: &mut Vec<T>, most: usize) {
        self.draw(list, most);
        list.truncate(most);
    }

    pub fn shuffle<T>(&mut self, list: &mut [T]) {
        self.draw(list, list.len());
    }

    /// Fills the first `most` places of a list with entries of it, chosen at random.
    fn draw<T>(&mut self, list: &mut [T], most: usize) {
        for kept in 0..most.min(list.len()) {
            let other = kept + self.below(list.len() - kept);
            list.swap(kept, other);
        }
    }
}
