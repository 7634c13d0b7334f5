//! A small random generator whose numbers depend on the seed alone.

pub struct Random {
    state: u64,
}

impl Random {
    pub fn new(seed: u64, stream: u64) -> Self {
        let mut random = Random {
            state: seed ^ stream.wrapping_mul(0xD6E8_FEB8_6659_FD93),
        };
        random.next();
        random
    }

    /// Splitmix: a counter, well stirred.
    pub fn next(&mut self) -> u64 {
        self.state = self.state.wrapping_add(0x9E37_79B9_7F4A_7C15);
        let mut word = self.state;
        word = (word ^ (word >> 30)).wrapping_mul(0xBF58_476D_1CE4_E5B9);
        word = (word ^ (word >> 27)).wrapping_mul(0x94D0_49BB_1331_11EB);
        word ^ (word >> 31)
    }

    pub fn below(&mut self, bound: usize) -> usize {
        (self.next() % bound as u64) as usize
    }

    /// Both ends included; the low end when the ends are crossed.
    pub fn between(&mut self, low: u32, high: u32) -> u32 {
        if high <= low {
            return low;
        }
        low + self.below((high - low) as usize + 1) as u32
    }

    pub fn one_in(&mut self, times: usize) -> bool {
        self.below(times) == 0
    }

    pub fn pick<T: Copy>(&mut self, choices: &[T]) -> T {
        choices[self.below(choices.len())]
    }

    pub fn shuffle<T>(&mut self, list: &mut [T]) {
        for last in (1..list.len()).rev() {
            let other = self.below(last + 1);
            list.swap(last, other);
        }
    }

    /// Distinct numbers from 1 to `top`, which is raised when it leaves no room.
    pub fn distinct(&mut self, count: usize, top: u32) -> Vec<u32> {
        let top = top.max(count as u32 + 1);
        let mut list = Vec::with_capacity(count);
        while list.len() < count {
            let number = self.between(1, top);
            if !list.contains(&number) {
                list.push(number);
            }
        }
        list
    }
}
