//! All that happened, an entry each. The name and the class of a thread never change, so they stand in its row alone.

use crate::mask::Mask;

#[derive(Clone, Copy, PartialEq, Eq)]
pub enum Entry {
    Created {
        tid: u32,
        tseq: u32,
        mask: Mask,
        runnable: bool,
    },
    /// A message of this kind, none of the others here.
    Posted {
        kind: u8,
        cpu: u8,
        tid: u32,
        tseq: u32,
    },
    Affinity {
        tid: u32,
        tseq: u32,
        mask: Mask,
        cpu: u8,
        off: bool,
    },
    Placed {
        tid: u32,
        tseq: u32,
        generation: u32,
        cpu: u8,
    },
    Role {
        generation: u32,
        cpu: u8,
    },
    Begin {
        generation: u32,
    },
    Left,
    Taken {
        cpu: u8,
    },
    Given {
        cpu: u8,
    },
    Torn,
}

pub struct Journal {
    entries: Vec<Entry>,
    limit: usize,
}

impl Journal {
    pub fn new(limit: u32, generation: u32) -> Journal {
        Journal { entries: vec![Entry::Role { generation, cpu: 0 }], limit: limit as usize }
    }

    pub fn entries(&self) -> &[Entry] {
        &self.entries
    }

    /// Whether so many more entries do not fit.
    #[inline(always)]
    pub fn is_full(&self, more: usize) -> bool {
        self.entries.len() + more > self.limit
    }

    #[inline(always)]
    pub fn append(&mut self, entry: Entry) {
        self.entries.push(entry);
    }
}
