//! What the kernel shows to all agents at once. It is read without the lock.

use crate::event::NO_CPU;
use crate::kernel::Kernel;
use crate::mask::Mask;
use crate::parcels::Poster;
use std::sync::atomic::{AtomicU64, Ordering};

/// Generation and CPU of the active agent, and the CPUs that the other class holds, as words.
#[derive(Clone, Copy, PartialEq, Eq)]
pub struct Words {
    role: u64,
    taken: [u64; 2],
}

impl Words {
    #[inline(always)]
    pub fn of(kernel: &Kernel<Poster>) -> Words {
        let cpu = if kernel.agent_cpu() == NO_CPU { u16::MAX } else { kernel.agent_cpu().into() };
        Words { role: u64::from(kernel.generation()) << 16 | u64::from(cpu), taken: kernel.taken().words() }
    }
}

/// What was read.
#[allow(dead_code)]
pub struct Shown {
    pub generation: u32,
    pub cpu: u16,
    pub taken: Mask,
}

pub struct Board {
    role: AtomicU64,
    taken: [AtomicU64; 2],
}

impl Board {
    pub fn new(words: Words) -> Board {
        Board { role: AtomicU64::new(words.role), taken: words.taken.map(AtomicU64::new) }
    }

    /// Publishes each word that is another than before.
    #[inline(always)]
    pub fn publish(&self, before: Words, now: Words) {
        if before != now {
            self.publish_changed(before, now);
        }
    }

    #[cold]
    fn publish_changed(&self, before: Words, now: Words) {
        if before.role != now.role {
            self.role.store(now.role, Ordering::SeqCst);
        }
        for at in 0..2 {
            if before.taken[at] != now.taken[at] {
                self.taken[at].store(now.taken[at], Ordering::SeqCst);
            }
        }
    }

    #[inline(always)]
    pub fn read(&self) -> Shown {
        let role = self.role.load(Ordering::SeqCst);
        let taken = [&self.taken[0], &self.taken[1]].map(|word| word.load(Ordering::SeqCst));
        Shown { generation: (role >> 16) as u32, cpu: role as u16, taken: Mask::of(taken) }
    }
}
