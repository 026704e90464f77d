//! Numbers drawn by lot, the same in every run.

/// A stream of numbers: the xorshift generator of 64 bits.
#[derive(Clone, Debug)]
pub struct Numbers(u64);

impl Numbers {
    /// The stream of a seed.
    pub fn new(seed: u64) -> Self {
        Numbers(mixed(seed) | 1)
    }

    /// The next number, of 48 bits.
    pub fn draw(&mut self) -> u64 {
        self.0 ^= self.0 << 13;
        self.0 ^= self.0 >> 7;
        self.0 ^= self.0 << 17;
        self.0.wrapping_mul(0x2545_F491_4F6C_DD1D) >> 16
    }

    /// A number below `end`, which isn't 0.
    pub fn below(&mut self, end: usize) -> usize {
        (self.draw() % end as u64) as usize
    }

    /// One of these elements.
    pub fn one_of<T: Copy>(&mut self, elements: &[T]) -> T {
        elements[self.below(elements.len())]
    }

    /// True once in `times`.
    pub fn once_in(&mut self, times: usize) -> bool {
        self.below(times) == 0
    }

    /// A number of 32 bits, often one at an end of what 32 bits hold.
    pub fn number(&mut self) -> u32 {
        match self.below(4) {
            0 => self.one_of(&[0, 1, 0x7FFF_FFFF, 0x8000_0000, u32::MAX - 1, u32::MAX]),
            _ => self.draw() as u32,
        }
    }

    /// A byte.
    pub fn byte(&mut self) -> u8 {
        self.draw() as u8
    }
}

/// A number that shows nothing of the one that it is made from.
pub fn mixed(number: u64) -> u64 {
    let number = number.wrapping_add(1).wrapping_mul(0x9E37_79B9_7F4A_7C15);
    let number = (number ^ (number >> 29)).wrapping_mul(0xBF58_476D_1CE4_E5B9);
    number ^ (number >> 32)
}
