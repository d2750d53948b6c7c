//! A small random generator (splitmix64).

pub struct Rng(u64);

impl Rng {
    pub fn new(seed: u64) -> Self {
        Self(seed)
    }

    pub fn next(&mut self) -> u64 {
        self.0 = self.0.wrapping_add(0x9e37_79b9_7f4a_7c15);
        let mut mixed = self.0;
        mixed = (mixed ^ (mixed >> 30)).wrapping_mul(0xbf58_476d_1ce4_e5b9);
        mixed = (mixed ^ (mixed >> 27)).wrapping_mul(0x94d0_49bb_1331_11eb);
        mixed ^ (mixed >> 31)
    }

    /// A number below `bound`, which is at least 1.
    pub fn below(&mut self, bound: usize) -> usize {
        (self.next() % bound as u64) as usize
    }

    /// True once in `times` on average.
    pub fn once_in(&mut self, times: usize) -> bool {
        self.below(times) == 0
    }

    pub fn pick<T: Copy>(&mut self, list: &[T]) -> T {
        list[self.below(list.len())]
    }

    pub fn shuffle<T>(&mut self, list: &mut [T]) {
        for place in (1..list.len()).rev() {
            list.swap(place, self.below(place + 1));
        }
    }

    /// A word with few, half or most of its bits set, or an edge.
    pub fn word(&mut self) -> u64 {
        match self.below(8) {
            0 => self.pick(&[0, 1, 22, 1 << 63, u64::MAX]),
            1 => 1 << self.below(64),
            2 => !(1 << self.below(64)),
            3 => self.next() & self.next() & self.next(),
            4 => self.next() | self.next() | self.next(),
            _ => self.next(),
        }
    }

    pub fn words(&mut self, count: usize) -> Vec<u64> {
        (0..count).map(|_| self.word()).collect()
    }

    /// An output list with some content, mostly long enough.
    pub fn room(&mut self, needed: usize) -> Vec<u64> {
        let room = match self.below(6) {
            0 => needed.saturating_sub(1),
            1 => self.below(needed + 1),
            2 => needed + 1 + self.below(4),
            _ => needed,
        };
        self.words(room)
    }
}
