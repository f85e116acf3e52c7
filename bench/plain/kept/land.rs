//! Transactions land.

use crate::event::{refuse_if, Outcome, Refusal, MOST_CPUS, NO_CPU};
use crate::journal::Entry;
use crate::kernel::{Agent, Kernel};
use crate::mask::Mask;
use crate::slots::{Landing, Region, Stamp};
use crate::threads::Row;

impl Kernel {
    /// What would become of a transaction, by the first test that holds.
    #[inline(always)]
    fn verdict(&self, cpu: u8, stamp: &Stamp, row: Option<&Row>) -> Outcome {
        if self.torn {
            return Outcome::Gone;
        }
        if self.agent != Agent::Active || stamp.generation != self.generation {
            return Outcome::Displaced;
        }
        let Some(row) = row.filter(|row| row.status().is_alive()) else {
            return Outcome::NoThread;
        };
        let status = row.status();
        if stamp.tseq != status.tseq() {
            return Outcome::Stale;
        }
        if !status.is_runnable() {
            return Outcome::NotRunnable;
        }
        if status.is_on() {
            return Outcome::AlreadyPlaced;
        }
        if !row.mask.has(cpu) {
            return Outcome::NotAllowed;
        }
        self.room_for(cpu, stamp.flags.preempt)
    }

    /// What would become of a transaction whose thread may run on the CPU.
    #[inline(always)]
    fn room_for(&self, cpu: u8, preempt: bool) -> Outcome {
        if cpu == self.agent_cpu {
            return Outcome::CpuIsAgent;
        }
        if self.taken.has(cpu) {
            return Outcome::CpuTaken;
        }
        let there = self.running[cpu as usize % MOST_CPUS];
        if there != 0 && !preempt {
            return Outcome::CpuBusy;
        }
        if there != 0 && self.threads.row(there).status().tseq() == u32::MAX {
            return Outcome::SeqSpent;
        }
        if self.journal.is_full(1 + (there != 0) as usize) {
            return Outcome::HistoryFull;
        }
        Outcome::Placed
    }

    /// The stamped slots of a mask land, first the group of those that land together, then the others, each in increasing order of
    /// CPU, and each is told of. Returns how many they were.
    #[inline(always)]
    pub fn commit(
        &mut self,
        region: &mut Region,
        mask: Mask,
        mut each: impl FnMut(u8, &Stamp, Landing),
    ) -> Result<u64, Refusal> {
        refuse_if(self.agent != Agent::Active, Refusal::NotActive)?;
        refuse_if(self.is_past(mask), Refusal::EmptyMask)?;
        let mask = mask & region.stamped();
        let group = mask & region.grouped();
        if !group.is_empty() {
            self.commit_group(region, group, &mut each);
        }
        for cpu in (mask & !group).cpus() {
            let stamp = region.stamp_of(cpu);
            let landing = self.land(cpu, &stamp);
            region.finish(cpu, landing);
            each(cpu, &stamp, landing);
        }
        Ok(mask.count().into())
    }

    /// A transaction lands on a CPU.
    #[inline(always)]
    pub fn land(&mut self, cpu: u8, stamp: &Stamp) -> Landing {
        let foreseen = self.foreseen(cpu, stamp);
        if foreseen.outcome != Outcome::Placed {
            return foreseen;
        }
        if self.preempt(cpu).is_err() {
            return Landing { outcome: Outcome::Gone, ..foreseen };
        }
        self.place(cpu, stamp)
    }

    /// What a transaction would be told if it landed on a CPU. That it is placed is not yet told by where its thread is.
    #[inline(always)]
    pub(crate) fn foreseen(&self, cpu: u8, stamp: &Stamp) -> Landing {
        let row = self.threads.get(stamp.tid);
        let seen = row.map_or(0, |row| row.status().tseq());
        let outcome = self.verdict(cpu, stamp, row);
        let at = if self.torn { NO_CPU } else { row.map_or(NO_CPU, |row| row.status().cpu()) };
        Landing { outcome, seen, at }
    }

    /// The thread of a transaction is on the CPU now, which is free.
    #[inline(always)]
    pub(crate) fn place(&mut self, cpu: u8, stamp: &Stamp) -> Landing {
        let &Stamp { tid, tseq, generation, .. } = stamp;
        self.running[cpu as usize % MOST_CPUS] = tid;
        self.threads.row_mut(tid).enter_cpu(cpu);
        self.journal.append(Entry::Placed { tid, tseq, generation, cpu });
        Landing { outcome: Outcome::Placed, seen: tseq, at: cpu }
    }
}
