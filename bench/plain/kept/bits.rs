//! A set of thread numbers, walked in increasing order.

#[derive(Default)]
pub struct Bits {
    words: Vec<u64>,
}

impl Bits {
    #[inline(always)]
    pub fn insert(&mut self, tid: u32) {
        let word = tid as usize / 64;
        if word >= self.words.len() {
            self.words.resize(word + 1, 0);
        }
        self.words[word] |= 1 << (tid % 64);
    }

    #[inline(always)]
    pub fn remove(&mut self, tid: u32) {
        if let Some(word) = self.words.get_mut(tid as usize / 64) {
            *word &= !(1 << (tid % 64));
        }
    }

    /// The numbers from this one on.
    #[inline(always)]
    pub fn from(&self, tid: u32) -> impl Iterator<Item = u32> + '_ {
        let mut at = tid as usize / 64;
        let mut left = self.words.get(at).map_or(0, |word| word & u64::MAX << (tid % 64));
        std::iter::from_fn(move || {
            while left == 0 {
                at += 1;
                left = *self.words.get(at)?;
            }
            let low = left.trailing_zeros();
            left &= left - 1;
            Some(64 * at as u32 + low)
        })
    }
}
