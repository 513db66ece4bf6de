//! The generator of random numbers (splitmix64). It is made anew for each case, from the seed, the kind and the case's number, so that a
//! case does not depend on those before it.

pub struct Random(u64);

impl Random {
    pub fn new(seed: u64, kind: u64, case: u64) -> Random {
        let mut random = Random(seed);
        for part in [kind, case] {
            random.0 = random.number() ^ part;
        }
        random
    }

    pub fn number(&mut self) -> u64 {
        self.0 = self.0.wrapping_add(0x9e37_79b9_7f4a_7c15);
        let mut z = self.0;
        z = (z ^ (z >> 30)).wrapping_mul(0xbf58_476d_1ce4_e5b9);
        z = (z ^ (z >> 27)).wrapping_mul(0x94d0_49bb_1331_11eb);
        z ^ (z >> 31)
    }

    /// 0 to `end` - 1.
    pub fn below(&mut self, end: usize) -> usize {
        (self.number() % end as u64) as usize
    }

    pub fn within(&mut self, low: usize, high: usize) -> usize {
        low + self.below(high - low + 1)
    }

    pub fn one_in(&mut self, n: usize) -> bool {
        self.below(n) == 0
    }

    pub fn byte(&mut self) -> u8 {
        self.number() as u8
    }

    pub fn word(&mut self) -> u16 {
        self.number() as u16
    }

    pub fn bytes(&mut self, length: usize) -> Vec<u8> {
        (0..length).map(|_| self.byte()).collect()
    }

    pub fn pick<T: Copy>(&mut self, list: &[T]) -> T {
        list[self.below(list.len())]
    }

    /// An index, with the given chances.
    pub fn weighted(&mut self, weights: &[usize]) -> usize {
        let mut left = self.below(weights.iter().sum());
        for (i, &weight) in weights.iter().enumerate() {
            if left < weight {
                return i;
            }
            left -= weight;
        }
        unreachable!()
    }

    /// The numbers 0 to n - 1 in a random order.
    pub fn order(&mut self, n: usize) -> Vec<usize> {
        let mut order: Vec<usize> = (0..n).collect();
        for i in (1..n).rev() {
            order.swap(i, self.below(i + 1));
        }
        order
    }

    /// A run number: any, or one at an edge of its bytes.
    pub fn run(&mut self) -> u16 {
        let any = self.word();
        self.pick(&[0, 1, 255, 256, 257, 0xff00, 0xffff, any, any, any])
    }

    /// The number of another run, mostly one that differs in one byte only: the run before, the one after, a bit, the bytes swapped, any.
    pub fn other_run(&mut self, run: u16) -> u16 {
        let other = match self.below(6) {
            0 => run.wrapping_sub(1),
            1 => run.wrapping_add(1),
            2 => run ^ 1 << self.below(8),
            3 => run ^ 0x100 << self.below(8),
            4 => run.swap_bytes(),
            _ => self.word(),
        };
        if other == run {
            run ^ 1
        } else {
            other
        }
    }

    /// `size` of the lowest n bits.
    pub fn subset(&mut self, n: usize, size: usize) -> u16 {
        self.order(n)[..size].iter().map(|i| 1u16 << i).sum()
    }

    /// Each bit with the chance of `sixteenths` in 16.
    pub fn sparse(&mut self, sixteenths: usize) -> u16 {
        (0..16).fold(0, |word, i| {
            word | u16::from(self.below(16) < sixteenths) << i
        })
    }

    /// Right settings n, t and k. Large n and k are rarer than small ones, as the reference needs more time for them.
    pub fn settings(&mut self) -> (usize, usize, usize) {
        let n = if self.one_in(4) {
            self.within(4, 16)
        } else {
            self.within(4, 10)
        };
        let most = (n - 1) / 3;
        let t = if self.one_in(2) {
            most
        } else {
            self.within(1, most)
        };
        let k = match self.below(40) {
            0 => self.within(1, 128),
            1..=8 => self.within(1, 8),
            _ => self.within(1, 3),
        };
        (n, t, k)
    }
}
