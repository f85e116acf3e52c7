//! The ring between two threads: an end that a kernel posts to, and one that an agent takes from. Each message has a parcel
//! of its own.

use crate::ring::{Full, Message, Post, Take};
use std::cell::UnsafeCell;
use std::mem::MaybeUninit;
use std::sync::atomic::{AtomicUsize, Ordering};
use std::sync::Arc;

/// A message, and zeros behind it: the longest one has seven words.
type Parcel = [u64; 7];

struct Shared {
    parcels: Box<[UnsafeCell<MaybeUninit<Parcel>>]>,
    posted: AtomicUsize,
    taken: AtomicUsize,
}

// SAFETY: only the one poster writes, in places that are free, and it tells of each by `posted` afterwards. Only the one taker
// reads, in places that it was told of, and it tells of each by `taken` afterwards.
unsafe impl Sync for Shared {}

impl Shared {
    /// Where the message of this number has its place.
    #[inline(always)]
    fn place(&self, number: usize) -> *mut MaybeUninit<Parcel> {
        self.parcels[number & (self.parcels.len() - 1)].get()
    }
}

/// The kernel's end. It knows how many it posted, and of how many it found that they were taken.
pub struct Poster {
    shared: Arc<Shared>,
    posted: usize,
    taken: usize,
}

/// The agent's end. It knows how many it took, and of how many it found that they were posted.
pub struct Taker {
    shared: Arc<Shared>,
    taken: usize,
    posted: usize,
}

/// A ring of so many parcels, a power of two.
pub fn ring(parcels: usize) -> (Poster, Taker) {
    assert!(parcels.is_power_of_two());
    let parcels = (0..parcels).map(|_| UnsafeCell::new(MaybeUninit::uninit())).collect();
    let shared = Arc::new(Shared { parcels, posted: AtomicUsize::new(0), taken: AtomicUsize::new(0) });
    (Poster { shared: shared.clone(), posted: 0, taken: 0 }, Taker { shared, taken: 0, posted: 0 })
}

impl Poster {
    #[inline(always)]
    fn is_full(&self) -> bool {
        self.posted - self.taken == self.shared.parcels.len()
    }
}

impl Post for Poster {
    #[inline(always)]
    fn post<const WORDS: usize>(&mut self, message: [u64; WORDS]) -> Result<(), Full> {
        if self.is_full() {
            self.taken = self.shared.taken.load(Ordering::Acquire);
            if self.is_full() {
                return Err(Full);
            }
        }
        let mut parcel = [0; 7];
        parcel[..WORDS].copy_from_slice(&message);
        // SAFETY: the place is free, since all that were posted there before were taken.
        unsafe { (*self.shared.place(self.posted)).write(parcel) };
        self.posted += 1;
        self.shared.posted.store(self.posted, Ordering::Release);
        Ok(())
    }
}

impl Taker {
    #[inline(always)]
    fn is_empty(&self) -> bool {
        self.taken == self.posted
    }
}

impl Take for Taker {
    #[inline(always)]
    fn front(&mut self) -> Option<(Message<'_>, usize)> {
        if self.is_empty() {
            self.posted = self.shared.posted.load(Ordering::Acquire);
            if self.is_empty() {
                return None;
            }
        }
        // SAFETY: the place was written, and is not written again before it is told that this one was taken.
        let parcel = unsafe { (*self.shared.place(self.taken)).assume_init_ref() };
        Some((Message::over(parcel), 0))
    }

    #[inline(always)]
    fn advance(&mut self, _pad: usize, _words: usize) {
        self.taken += 1;
        self.shared.taken.store(self.taken, Ordering::Release);
    }
}
