//! The commit region: 32 bytes for each CPU, kept as four words, byte for byte the layout's.

use crate::event::{Outcome, MOST_CPUS, NO_CPU};
use crate::mask::Mask;

/// How a transaction lands: whether whoever is on the CPU makes way for it, and whether it lands together with others, all of
/// them or none.
#[derive(Clone, Copy)]
pub struct Flags {
    pub preempt: bool,
    pub group: bool,
}

pub const NO_FLAGS: Flags = Flags { preempt: false, group: false };

/// A transaction as it was stamped.
#[derive(Clone, Copy)]
pub struct Stamp {
    pub generation: u32,
    pub tid: u32,
    pub tseq: u32,
    pub flags: Flags,
}

/// What became of a transaction: the thread's number before it, and the CPU that the thread is on after it.
#[derive(Clone, Copy)]
pub struct Landing {
    pub outcome: Outcome,
    pub seen: u32,
    pub at: u8,
}

const STAMPED: u64 = 1;
const DONE: u64 = 2;

pub struct Region {
    slots: [[u64; 4]; MOST_CPUS],
    /// The CPUs whose slot is stamped, and those whose slot is done.
    stamped: Mask,
    done: Mask,
    /// Those of both whose transaction is of a group.
    grouped: Mask,
}

impl Region {
    pub fn new() -> Region {
        Region { slots: [[0; 4]; MOST_CPUS], stamped: Mask::NONE, done: Mask::NONE, grouped: Mask::NONE }
    }

    /// Makes each slot idle.
    pub fn clear(&mut self) {
        *self = Region::new();
    }

    pub fn stamped(&self) -> Mask {
        self.stamped
    }

    /// The CPUs whose slot lands together with others.
    pub fn grouped(&self) -> Mask {
        self.grouped
    }

    pub fn is_idle(&self, cpu: u8) -> bool {
        !(self.stamped | self.done).has(cpu)
    }

    /// Stamps an idle slot.
    #[inline(always)]
    pub fn stamp(&mut self, cpu: u8, stamp: Stamp) {
        let flags = stamp.flags.preempt as u64 | (stamp.flags.group as u64) << 1;
        let head = STAMPED | flags << 8 | (cpu as u64) << 16 | (stamp.generation as u64) << 32;
        self.slots[cpu as usize] = [head.to_le(), (stamp.tid as u64 | (stamp.tseq as u64) << 32).to_le(), 0, 0];
        self.stamped.insert(cpu);
        if stamp.flags.group {
            self.grouped.insert(cpu);
        }
    }

    /// What is stamped into a slot.
    #[inline(always)]
    pub fn stamp_of(&self, cpu: u8) -> Stamp {
        let [head, thread, ..] = self.slots[cpu as usize].map(u64::from_le);
        Stamp {
            generation: (head >> 32) as u32,
            tid: thread as u32,
            tseq: (thread >> 32) as u32,
            flags: Flags { preempt: head >> 8 & 1 == 1, group: head >> 9 & 1 == 1 },
        }
    }

    /// The slot is done: this became of its transaction.
    #[inline(always)]
    pub fn finish(&mut self, cpu: u8, landing: Landing) {
        let slot = &mut self.slots[cpu as usize];
        let at = if landing.at == NO_CPU { u16::MAX } else { landing.at.into() };
        slot[0] = (u64::from_le(slot[0]) & !0xff | DONE).to_le();
        slot[2] = (landing.outcome as u64 | (at as u64) << 16 | (landing.seen as u64) << 32).to_le();
        self.stamped.remove(cpu);
        self.done.insert(cpu);
    }

    /// Makes the done slots idle, first those of groups: of each its thread, what became of it, and the CPU that the thread was
    /// then on.
    #[inline(always)]
    pub fn collect(&mut self, mut each: impl FnMut(u8, u32, Outcome, u8)) {
        if !self.grouped.is_empty() {
            self.collect_group(&mut each);
        }
        for cpu in self.done.cpus() {
            self.collect_one(cpu, &mut each);
        }
        self.done = Mask::NONE;
    }

    #[cold]
    #[inline(never)]
    fn collect_group(&mut self, each: &mut impl FnMut(u8, u32, Outcome, u8)) {
        let group = self.done & self.grouped;
        for cpu in group.cpus() {
            self.collect_one(cpu, each);
        }
        self.done &= !group;
        self.grouped &= !group;
    }

    #[inline(always)]
    fn collect_one(&mut self, cpu: u8, each: &mut impl FnMut(u8, u32, Outcome, u8)) {
        let slot = &mut self.slots[cpu as usize];
        let [_, thread, end, _] = slot.map(u64::from_le);
        *slot = [0; 4];
        each(cpu, thread as u32, Outcome::numbered(end as u16), (end >> 16) as u8);
    }
}
