//! The ring: a block of bytes in which messages wait, none of them split over its end.
//!
//! Each message is a multiple of eight bytes long, so the block is kept as words, lowest byte first: byte for byte it
//! is the layout's. A pad fills the rest of the block if the next message does not fit there, and is passed over
//! together with that message.

use crate::event::{Facts, Name, NO_CPU};
use crate::mask::Mask;

pub const CREATED: u16 = 1;
pub const BLOCKED: u16 = 2;
pub const WAKEUP: u16 = 3;
pub const PREEMPTED: u16 = 4;
pub const YIELD: u16 = 5;
pub const DEAD: u16 = 6;
pub const AFFINITY: u16 = 7;
pub const TICK: u16 = 8;
const PAD: u16 = 9;

/// Where the CPU of a message would stand: there is none.
const NONE: u16 = u16::MAX;

/// The message does not fit.
pub struct Full;

pub struct Ring {
    block: Box<[u64]>,
    write: usize,
    read: usize,
    used: usize,
}

/// The first two words of a message.
#[inline(always)]
pub fn head(words: usize, kind: u16, tid: u32, tseq: u32, cpu: u8, flag: bool) -> [u64; 2] {
    let cpu = if cpu == NO_CPU { NONE } else { cpu.into() };
    [
        (8 * words as u64 | (kind as u64) << 16 | (tid as u64) << 32).to_le(),
        (tseq as u64 | (cpu as u64) << 32 | (flag as u64) << 48).to_le(),
    ]
}

/// The end of a ring that a kernel posts to.
pub trait Post {
    /// Writes a message.
    fn post<const WORDS: usize>(&mut self, message: [u64; WORDS]) -> Result<(), Full>;

    /// Writes the message of a thread that was created.
    #[inline(always)]
    fn post_creation(&mut self, tid: u32, tseq: u32, facts: &Facts) -> Result<(), Full> {
        let name = u128::from_le_bytes(facts.name.bytes);
        let words = (41 + facts.name.length as usize) / 8;
        let [first, second] = head(words, CREATED, tid, tseq, NO_CPU, facts.runnable);
        let [low, high] = facts.mask.words().map(u64::to_le);
        let fifth = (facts.class as u64 | (facts.name.length as u64) << 8 | (name << 16) as u64).to_le();
        let sixth = ((name >> 48) as u64).to_le();
        match words {
            5 => self.post([first, second, low, high, fifth]),
            6 => self.post([first, second, low, high, fifth, sixth]),
            _ => self.post([first, second, low, high, fifth, sixth, ((name >> 112) as u64).to_le()]),
        }
    }
}

/// The end of a ring that an agent takes from.
pub trait Take {
    /// The message that is taken next, and the words of the pad before it.
    fn front(&mut self) -> Option<(Message<'_>, usize)>;

    /// Passes over the message that is taken next, of so many words, and over so many of a pad before it.
    fn advance(&mut self, pad: usize, words: usize);
}

impl Post for Ring {
    /// Writes a message, and a pad before it if that is wanted.
    #[inline(always)]
    fn post<const WORDS: usize>(&mut self, message: [u64; WORDS]) -> Result<(), Full> {
        let capacity = self.block.len();
        let rest = capacity - self.write;
        let pad = if WORDS <= rest { 0 } else { rest };
        if pad + WORDS > capacity - self.used {
            return Err(Full);
        }
        if pad > 0 {
            self.pad();
        }
        self.block[self.write..self.write + WORDS].copy_from_slice(&message);
        self.write += WORDS;
        if self.write == capacity {
            self.write = 0;
        }
        self.used += pad + WORDS;
        Ok(())
    }
}

impl Ring {
    /// An empty ring of so many bytes.
    pub fn new(capacity: usize) -> Ring {
        Ring { block: vec![0; capacity / 8].into(), write: 0, read: 0, used: 0 }
    }

    /// Fills the block up to its end.
    #[cold]
    fn pad(&mut self) {
        let rest = &mut self.block[self.write..];
        rest.fill(0);
        rest[0] = (8 * rest.len() as u64 | (PAD as u64) << 16).to_le();
        self.write = 0;
    }

    /// The message at a place of the block, before which there may be a pad, and the words of that.
    #[inline(always)]
    fn at(&self, place: usize, left: usize) -> Option<(Message<'_>, usize)> {
        if left == 0 {
            return None;
        }
        let message = Message::over(&self.block[place..]);
        if message.kind() != PAD {
            return Some((message, 0));
        }
        Some((Message::over(&self.block), self.block.len() - place))
    }

    /// The messages that wait, in order.
    pub fn waiting(&self) -> impl Iterator<Item = Message<'_>> {
        let (mut place, mut left) = (self.read, self.used);
        std::iter::from_fn(move || {
            let (message, pad) = self.at(place, left)?;
            let words = message.words();
            left -= pad + words;
            place = if pad > 0 { words } else { place + words } % self.block.len();
            Some(message)
        })
    }
}

impl Take for Ring {
    #[inline(always)]
    fn front(&mut self) -> Option<(Message<'_>, usize)> {
        self.at(self.read, self.used)
    }

    #[inline(always)]
    fn advance(&mut self, pad: usize, words: usize) {
        self.used -= pad + words;
        self.read = if pad > 0 { words } else { self.read + words };
        if self.read == self.block.len() {
            self.read = 0;
        }
    }
}

/// A message where it lies in the ring.
#[derive(Clone, Copy)]
pub struct Message<'a> {
    bytes: &'a [u64],
}

impl<'a> Message<'a> {
    /// The message of these words, and of others behind it.
    #[inline(always)]
    pub fn over(bytes: &'a [u64]) -> Message<'a> {
        Message { bytes }
    }
}

impl Message<'_> {
    #[inline(always)]
    fn word(&self, at: usize) -> u64 {
        u64::from_le(self.bytes[at])
    }

    /// How many words it has.
    #[inline(always)]
    pub fn words(&self) -> usize {
        (self.word(0) as u16 / 8).into()
    }

    #[inline(always)]
    pub fn kind(&self) -> u16 {
        (self.word(0) >> 16) as u16
    }

    #[inline(always)]
    pub fn tid(&self) -> u32 {
        (self.word(0) >> 32) as u32
    }

    #[inline(always)]
    pub fn tseq(&self) -> u32 {
        self.word(1) as u32
    }

    /// The CPU, or `NO_CPU`.
    #[inline(always)]
    pub fn cpu(&self) -> u8 {
        (self.word(1) >> 32) as u8
    }

    /// A creation's thread may run; the thread of a new mask was taken off its CPU.
    #[inline(always)]
    pub fn flag(&self) -> bool {
        self.word(1) >> 48 & 1 == 1
    }

    #[inline(always)]
    pub fn mask(&self) -> Mask {
        Mask::of([self.word(2), self.word(3)])
    }

    /// What a creation tells.
    #[inline(always)]
    pub fn facts(&self) -> Facts {
        let fifth = self.word(4);
        let length = (fifth >> 8) as u8;
        let mut name = (fifth >> 16) as u128;
        if length > 6 {
            name |= (self.word(5) as u128) << 48;
        }
        if length > 14 {
            name |= (self.word(6) as u128) << 112;
        }
        Facts {
            mask: self.mask(),
            name: Name { bytes: name.to_le_bytes(), length },
            class: fifth as u8,
            runnable: self.flag(),
        }
    }
}
