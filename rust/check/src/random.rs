//! Numbers by chance from a fixed seed (xorshift).

pub struct Random(u64);

impl Random {
    pub fn new(seed: u64) -> Random {
        let mut random = Random(seed.wrapping_mul(0x9E37_79B9_7F4A_7C15) | 1);
        for _ in 0..8 {
            random.step();
        }
        random
    }

    fn step(&mut self) -> u64 {
        self.0 ^= self.0 << 13;
        self.0 ^= self.0 >> 7;
        self.0 ^= self.0 << 17;
        self.0
    }

    /// A number below `end`.
    pub fn below(&mut self, end: usize) -> usize {
        ((self.step() >> 32) as usize) % end
    }

    /// True one time in `times`.
    pub fn once_in(&mut self, times: usize) -> bool {
        self.below(times) == 0
    }

    pub fn one_of<T: Copy>(&mut self, choices: &[T]) -> T {
        choices[self.below(choices.len())]
    }

    pub fn bits(&mut self, length: usize) -> Vec<u8> {
        (0..length).map(|_| self.below(2) as u8).collect()
    }

    /// Zeros with `wrong` ones.
    pub fn noise(&mut self, length: usize, wrong: usize) -> Vec<u8> {
        let mut noise = vec![0; length];
        let mut made = 0;
        while made < wrong {
            let p = self.below(length);
            made += 1 - noise[p] as usize;
            noise[p] = 1;
        }
        noise
    }
}
