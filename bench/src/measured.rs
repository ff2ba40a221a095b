/// What a workload came to: how long its named part took, and what shows that the work was done.
#[repr(C)]
#[derive(Clone, Copy, Default, Debug, PartialEq)]
pub struct Measured {
    pub nanos: u64,
    pub count: u64,
    pub sum: u64,
}

impl Measured {
    /// Says that the work was refused.
    pub const REFUSED: Measured = Measured { nanos: 0, count: u64::MAX, sum: 0 };

    /// Adds to what came of it.
    pub fn mix(&mut self, number: u64) {
        self.sum = self.sum.rotate_left(5).wrapping_mul(0x9E37_79B9_7F4A_7C15) ^ number;
    }

    pub fn mix_all(&mut self, numbers: &[i64]) {
        self.mix(numbers.len() as u64);
        for &number in numbers {
            self.mix(number as u64);
        }
    }

    pub fn mix_bytes(&mut self, bytes: &[u8]) {
        for &byte in bytes {
            self.mix(byte.into());
        }
    }

    /// Whether the same came of both.
    pub fn is_like(&self, other: &Measured) -> bool {
        (self.count, self.sum) == (other.count, other.sum)
    }
}
