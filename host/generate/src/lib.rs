//! Class texts and call lists made at random from a seed.

pub mod calls;
pub mod circle;
pub mod damage;
pub mod limits;
pub mod line;
pub mod lines;
pub mod tally;
pub mod text;

/// A small generator of numbers (xorshift), so that a seed gives the same run everywhere.
pub struct Random(u64);

impl Random {
    pub fn new(seed: u64) -> Random {
        Random(seed.wrapping_mul(0x9e37_79b9_7f4a_7c15) | 1)
    }

    pub fn next(&mut self) -> u64 {
        self.0 ^= self.0 << 13;
        self.0 ^= self.0 >> 7;
        self.0 ^= self.0 << 17;
        self.0
    }

    /// A number below n, 0 where n is 0.
    pub fn below(&mut self, n: usize) -> usize {
        if n == 0 {
            0
        } else {
            (self.next() >> 11) as usize % n
        }
    }

    /// True once in n times.
    pub fn one_in(&mut self, n: usize) -> bool {
        self.below(n) == 0
    }

    pub fn pick<'a, T>(&mut self, from: &'a [T]) -> &'a T {
        &from[self.below(from.len())]
    }

    /// A number that likes the edges.
    pub fn edge(&mut self) -> u32 {
        const EDGES: [u32; 9] = [0, 1, 2, 31, 65_535, 65_536, 2_147_483_648, 4_294_967_294, 4_294_967_295];
        match self.below(4) {
            0 => *self.pick(&EDGES),
            1 => self.below(10) as u32,
            2 => 2_147_483_646 + self.below(5) as u32,
            _ => self.next() as u32,
        }
    }
}
