// Numbers by chance, the same for the same seed.
pub struct Chance(u64);

impl Chance {
    pub fn new(seed: u64) -> Chance {
        Chance(seed.wrapping_mul(0x9E37_79B9_7F4A_7C15) | 1)
    }

    fn next(&mut self) -> u64 {
        self.0 ^= self.0 >> 12;
        self.0 ^= self.0 << 25;
        self.0 ^= self.0 >> 27;
        self.0.wrapping_mul(0x2545_F491_4F6C_DD1D)
    }

    pub fn below(&mut self, bound: usize) -> usize {
        ((self.next() >> 16) as usize) % bound
    }

    // True once in so many times.
    pub fn once_in(&mut self, times: usize) -> bool {
        self.below(times) == 0
    }

    // A tone as drawings have it, or near an end of the range, or any.
    pub fn tone(&mut self, wild: bool) -> i32 {
        match if wild { self.below(4) } else { 0 } {
            0 => self.below(256) as i32,
            1 => i32::MAX - self.below(300) as i32,
            2 => i32::MIN + self.below(300) as i32,
            _ => self.next() as i32,
        }
    }

    pub fn byte(&mut self) -> u8 {
        self.next() as u8
    }
}
