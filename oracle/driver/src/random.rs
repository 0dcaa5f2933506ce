//! Random numbers that are the same everywhere, so that whatever is made from
//! them can be made again.

/// The well-known generator of this name.
pub struct SplitMix64(pub u64);

impl SplitMix64 {
    /// The numbers of one case. They hang on nothing but seed and number, so
    /// that a case can be made without those before it; the second step keeps
    /// neighbours from starting in nearly the same state.
    pub fn for_case(seed: u64, number: u64) -> Self {
        let base = Self(seed).next();
        Self(Self(base ^ number).next())
    }

    // An iterator would have no end and promise one.
    #[allow(clippy::should_implement_trait)]
    pub fn next(&mut self) -> u64 {
        self.0 = self.0.wrapping_add(0x9e37_79b9_7f4a_7c15);
        let mut z = self.0;
        z = (z ^ (z >> 30)).wrapping_mul(0xbf58_476d_1ce4_e5b9);
        z = (z ^ (z >> 27)).wrapping_mul(0x94d0_49bb_1331_11eb);
        z ^ (z >> 31)
    }

    /// A number below the bound, which must not be 0.
    pub fn below(&mut self, bound: u64) -> u64 {
        self.next() % bound
    }

    /// A place in something of this length, which must not be 0.
    pub fn index(&mut self, length: usize) -> usize {
        self.below(length as u64) as usize
    }

    /// A number from the first to the last, both included.
    pub fn between(&mut self, first: u64, last: u64) -> u64 {
        first + self.below(last - first + 1)
    }

    /// True once in so many times.
    pub fn once_in(&mut self, times: u64) -> bool {
        self.below(times) == 0
    }

    /// One of the items, or nothing if there are none.
    pub fn pick<T: Copy>(&mut self, items: &[T]) -> Option<T> {
        if items.is_empty() {
            return None;
        }
        items.get(self.index(items.len())).copied()
    }

    /// One item of a list that is never empty.
    pub fn one_of<T: Copy, const N: usize>(&mut self, items: [T; N]) -> T {
        items[self.index(N)]
    }

    /// Puts the items into another order.
    pub fn shuffle<T>(&mut self, items: &mut [T]) {
        for last in (1..items.len()).rev() {
            items.swap(last, self.index(last + 1));
        }
    }
}

#[cfg(test)]
mod tests {
    use super::*;

    #[test]
    fn a_case_has_numbers_of_its_own() {
        let first = |seed, number| SplitMix64::for_case(seed, number).next();
        assert_eq!(first(1, 2), first(1, 2));
        let starts = [first(1, 2), first(1, 3), first(2, 2), first(2, 1)];
        for (at, start) in starts.iter().enumerate() {
            assert!(!starts[..at].contains(start));
        }
    }

    #[test]
    fn between_has_both_ends_and_no_more() {
        let mut random = SplitMix64(1);
        let mut seen = [false; 6];
        for _ in 0..200 {
            seen[random.between(2, 4) as usize] = true;
        }
        assert_eq!(seen, [false, false, true, true, true, false]);
    }

    #[test]
    fn a_shuffle_keeps_every_item() {
        let mut random = SplitMix64(1);
        let mut items: Vec<u8> = (0..20).collect();
        random.shuffle(&mut items);
        assert_ne!(items, (0..20).collect::<Vec<u8>>());
        items.sort_unstable();
        assert_eq!(items, (0..20).collect::<Vec<u8>>());
    }
}
