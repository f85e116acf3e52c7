//! Pages: a header of eight bytes and a record for each thread, kept as words, lowest byte first. A record of version 2, which
//! is written, has 48 bytes. One of version 1 has 40, since its mask has no CPU above 63.

use crate::event::{Facts, Name, NO_CPU};
use crate::mask::Mask;
use crate::threads::Threads;

/// The words of a record of each version.
pub const ONE: usize = 5;
pub const TWO: usize = 6;

/// What a page tells of a thread.
pub struct Told {
    pub tid: u32,
    pub tseq: u32,
    /// The CPU that it is on, or `NO_CPU`.
    pub cpu: u8,
    pub facts: Facts,
}

/// Writes the page of at most so many living threads from this number on: how many they are, and where the next begins.
pub fn write(threads: &Threads, from: u32, max: u16, page: &mut Vec<u64>) -> (u16, Option<u32>) {
    let mut living = threads.living.from(from);
    page.clear();
    page.push(0);
    for tid in living.by_ref().take(max.into()) {
        page.extend_from_slice(&record(threads, tid));
    }
    let count = (page.len() / TWO) as u16;
    let next = living.next();
    page[0] = (count as u64 | (next.is_none() as u64) << 16 | (next.unwrap_or(0) as u64) << 32).to_le();
    (count, next)
}

#[inline(always)]
fn record(threads: &Threads, tid: u32) -> [u64; TWO] {
    let row = threads.row(tid);
    let status = row.status();
    let cpu = if status.is_on() { status.cpu() as u64 } else { 0xffff };
    let name = u128::from_le_bytes(row.name.bytes);
    let [mask_low, mask_high] = row.mask.words();
    [
        2 | (row.class as u64) << 16 | (row.name.length as u64) << 24 | (tid as u64) << 32,
        status.tseq() as u64 | cpu << 32 | (status.is_runnable() as u64) << 48,
        mask_low,
        mask_high,
        name as u64,
        (name >> 64) as u64,
    ]
    .map(u64::to_le)
}

/// Where the page after this one begins.
pub fn next(page: &[u64]) -> Option<u32> {
    let next = (u64::from_le(page[0]) >> 32) as u32;
    (next != 0).then_some(next)
}

/// Whether the records of a page are of version 1.
pub fn is_of_one(page: &[u64]) -> bool {
    page.get(1).is_some_and(|head| u64::from_le(*head) as u16 == 1)
}

/// The threads of a page whose records have so many words.
#[inline(always)]
pub fn read<const WORDS: usize>(page: &[u64]) -> impl DoubleEndedIterator<Item = Told> + '_ {
    page[1..].as_chunks::<WORDS>().0.iter().map(|record| {
        let record = record.map(u64::from_le);
        let (head, second) = (record[0], record[1]);
        let mask = Mask::of([record[2], if WORDS == TWO { record[3] } else { 0 }]);
        let (low, high) = (record[WORDS - 2], record[WORDS - 1]);
        let name = (low as u128 | (high as u128) << 64).to_le_bytes();
        let cpu = (second >> 32) as u16;
        Told {
            tid: (head >> 32) as u32,
            tseq: second as u32,
            cpu: if cpu == u16::MAX { NO_CPU } else { cpu as u8 },
            facts: Facts {
                mask,
                name: Name { bytes: name, length: (head >> 24) as u8 },
                class: (head >> 16) as u8,
                runnable: second >> 48 & 1 == 1,
            },
        }
    })
}
