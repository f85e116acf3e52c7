//! Sets of CPUs.

use std::ops::{BitAnd, BitAndAssign, BitOr, BitOrAssign, Not};

/// A set of CPUs: CPU k is bit k of both words, the lower one first. As two words it stands at any multiple of eight bytes.
#[derive(Clone, Copy, Default, PartialEq, Eq)]
pub struct Mask([u64; 2]);

impl Mask {
    pub const NONE: Mask = Mask([0; 2]);

    #[inline(always)]
    pub fn of(words: [u64; 2]) -> Mask {
        Mask(words)
    }

    #[inline(always)]
    pub fn words(self) -> [u64; 2] {
        self.0
    }

    /// The mask of this number, and the number of a mask.
    #[inline(always)]
    pub fn numbered(number: u128) -> Mask {
        Mask([number as u64, (number >> 64) as u64])
    }

    #[inline(always)]
    pub fn number(self) -> u128 {
        self.0[0] as u128 | (self.0[1] as u128) << 64
    }

    /// The first so many CPUs, of which there is one at least.
    pub fn first(cpus: u16) -> Mask {
        Mask::numbered(u128::MAX >> (128 - cpus))
    }

    #[inline(always)]
    pub fn is_empty(self) -> bool {
        self.0[0] | self.0[1] == 0
    }

    #[inline(always)]
    pub fn has(self, cpu: u8) -> bool {
        self.0[cpu as usize / 64 & 1] >> (cpu % 64) & 1 == 1
    }

    #[inline(always)]
    pub fn insert(&mut self, cpu: u8) {
        self.0[cpu as usize / 64 & 1] |= 1 << (cpu % 64);
    }

    #[inline(always)]
    pub fn remove(&mut self, cpu: u8) {
        self.0[cpu as usize / 64 & 1] &= !(1 << (cpu % 64));
    }

    #[inline(always)]
    pub fn without(mut self, cpu: u8) -> Mask {
        self.remove(cpu);
        self
    }

    /// How many CPUs it has.
    #[inline(always)]
    pub fn count(self) -> u32 {
        self.0[0].count_ones() + self.0[1].count_ones()
    }

    /// The least CPU; 128 if there is none.
    #[inline(always)]
    pub fn least(self) -> u8 {
        let [low, high] = self.0;
        let cpu = if low != 0 { low.trailing_zeros() } else { 64 + high.trailing_zeros() };
        cpu as u8
    }

    /// The CPUs, in increasing order.
    #[inline(always)]
    pub fn cpus(self) -> impl Iterator<Item = u8> {
        let mut left = self;
        std::iter::from_fn(move || {
            if left.is_empty() {
                return None;
            }
            let cpu = left.least();
            left.remove(cpu);
            Some(cpu)
        })
    }
}

impl BitAnd for Mask {
    type Output = Mask;

    #[inline(always)]
    fn bitand(self, other: Mask) -> Mask {
        Mask([self.0[0] & other.0[0], self.0[1] & other.0[1]])
    }
}

impl BitOr for Mask {
    type Output = Mask;

    #[inline(always)]
    fn bitor(self, other: Mask) -> Mask {
        Mask([self.0[0] | other.0[0], self.0[1] | other.0[1]])
    }
}

impl Not for Mask {
    type Output = Mask;

    #[inline(always)]
    fn not(self) -> Mask {
        Mask([!self.0[0], !self.0[1]])
    }
}

impl BitAndAssign for Mask {
    #[inline(always)]
    fn bitand_assign(&mut self, other: Mask) {
        *self = *self & other;
    }
}

impl BitOrAssign for Mask {
    #[inline(always)]
    fn bitor_assign(&mut self, other: Mask) {
        *self = *self | other;
    }
}
