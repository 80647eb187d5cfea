//! Numbers as the module `random` of Python 3 draws them from a seed (MT19937), so
//! that families of cases that were first drawn there stay the same cases.

const SIZE: usize = 624;
const MIDDLE: usize = 397;

pub struct Mersenne {
    state: [u32; SIZE],
    next: usize,
}

/// A word of the state from the one before it.
fn mixed(before: u32, factor: u32) -> u32 {
    (before ^ before >> 30).wrapping_mul(factor)
}

impl Mersenne {
    /// The state after a small seed.
    pub fn new(seed: u32) -> Mersenne {
        let mut state = [0; SIZE];
        state[0] = 19_650_218;
        for i in 1..SIZE {
            state[i] = mixed(state[i - 1], 1_812_433_253).wrapping_add(i as u32);
        }
        // Twice round, from word 1 on; word 0 takes over the last one on the way.
        for round in 0..SIZE {
            let i = round % (SIZE - 1) + 1;
            state[i] = (state[i] ^ mixed(state[i - 1], 1_664_525)).wrapping_add(seed);
            state[0] = state[SIZE - 1];
        }
        for round in 1..SIZE {
            let i = round % (SIZE - 1) + 1;
            state[i] = (state[i] ^ mixed(state[i - 1], 1_566_083_941)).wrapping_sub(i as u32);
            state[0] = state[SIZE - 1];
        }
        state[0] = 1 << 31;
        Mersenne { state, next: SIZE }
    }

    /// The next 624 words.
    fn twist(&mut self) {
        for i in 0..SIZE {
            let after = self.state[(i + 1) % SIZE];
            let joined = self.state[i] & 1 << 31 | after & !(1 << 31);
            let odd = if joined & 1 == 1 { 0x9908_B0DF } else { 0 };
            self.state[i] = self.state[(i + MIDDLE) % SIZE] ^ joined >> 1 ^ odd;
        }
        self.next = 0;
    }

    fn word(&mut self) -> u32 {
        if self.next == SIZE {
            self.twist();
        }
        let mut word = self.state[self.next];
        self.next += 1;
        word ^= word >> 11;
        word ^= word << 7 & 0x9D2C_5680;
        word ^= word << 15 & 0xEFC6_0000;
        word ^ word >> 18
    }

    /// A number from 0 to `count` - 1, of as many bits as `count` has.
    pub fn below(&mut self, count: usize) -> usize {
        let unused = (count as u32).leading_zeros();
        loop {
            let number = (self.word() >> unused) as usize;
            if number < count {
                return number;
            }
        }
    }

    /// `randint`: a number from `low` to `high`.
    pub fn between(&mut self, low: i64, high: i64) -> i64 {
        low + self.below((high - low + 1) as usize) as i64
    }

    /// `choice`: one of the items.
    pub fn one_of<T: Copy>(&mut self, items: &[T]) -> T {
        items[self.below(items.len())]
    }

    /// `sample`: some of the numbers from 0 to `count` - 1, where there are few.
    pub fn some_of(&mut self, count: usize, some: usize) -> Vec<usize> {
        assert!(count <= 21, "drawn in another way");
        let mut pool: Vec<usize> = (0..count).collect();
        (0..some)
            .map(|_| {
                let place = self.below(pool.len());
                pool.swap_remove(place)
            })
            .collect()
    }
}

#[cfg(test)]
mod tests {
    use super::Mersenne;

    /// What Python 3 draws after `random.seed(11)`.
    #[test]
    fn as_python_draws() {
        let mut random = Mersenne::new(11);
        let drawn: Vec<i64> = (0..8).map(|_| random.between(-30, 60)).collect();
        assert_eq!(drawn, [27, 41, 29, 27, 35, 45, -6, -7]);
        let many: i64 = (0..2000).map(|_| random.between(0, 999_999)).sum();
        assert_eq!(many, 997_776_236);
        assert_eq!(random.some_of(7, 3), [0, 2, 1]);
        assert_eq!(random.one_of(&[0, 10, 60]), 0);
    }
}
