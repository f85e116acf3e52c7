//! The kernel: threads, CPUs, the ring to the agent, and the journal. Each call tests its refusals in order.

use crate::dump;
use crate::event::{refuse_if, Facts, Refusal, MOST_CPUS, MOST_THREADS, NO_CPU};
use crate::journal::{Entry, Journal};
use crate::mask::Mask;
use crate::ring::{self, Post, Ring};
use crate::threads::{Row, Status, Threads};
use Refusal::*;

/// What an enclave is opened with.
pub struct Settings {
    pub cpus: u16,
    pub ring: usize,
    pub first_tseq: u32,
    pub first_generation: u32,
    pub history: u32,
}

/// What agent there is.
#[derive(Clone, Copy, PartialEq, Eq)]
pub enum Agent {
    None,
    Attaching,
    Active,
}

/// It posts to a ring of bytes, or to another one.
pub struct Kernel<R = Ring> {
    pub threads: Threads,
    pub ring: R,
    pub journal: Journal,
    cpus: u16,
    /// The CPUs that are not there.
    absent: Mask,
    first_tseq: u32,
    /// The thread on each CPU, 0 for none.
    pub(crate) running: [u32; MOST_CPUS],
    pub(crate) taken: Mask,
    pub(crate) agent: Agent,
    /// The active agent's CPU, else `NO_CPU`.
    pub(crate) agent_cpu: u8,
    /// The last generation that was given.
    pub(crate) generation: u32,
    /// Whether the last page was given since the last begin.
    paged: bool,
    pub(crate) torn: bool,
}

impl Kernel {
    pub fn new(settings: &Settings) -> Kernel {
        Kernel::over(settings, Ring::new(settings.ring))
    }
}

impl<R: Post> Kernel<R> {
    /// A kernel that posts to this ring.
    pub fn over(settings: &Settings, ring: R) -> Kernel<R> {
        Kernel {
            threads: Threads::default(),
            ring,
            journal: Journal::new(settings.history, settings.first_generation),
            cpus: settings.cpus,
            absent: !Mask::first(settings.cpus),
            first_tseq: settings.first_tseq,
            running: [0; MOST_CPUS],
            taken: Mask::NONE,
            agent: Agent::Active,
            agent_cpu: 0,
            generation: settings.first_generation,
            paged: false,
            torn: false,
        }
    }

    pub fn taken(&self) -> Mask {
        self.taken
    }

    pub fn agent(&self) -> Agent {
        self.agent
    }

    pub fn agent_cpu(&self) -> u8 {
        self.agent_cpu
    }

    pub fn generation(&self) -> u32 {
        self.generation
    }

    pub fn is_torn(&self) -> bool {
        self.torn
    }

    /// Whether a mask has a CPU past the last.
    pub fn is_past(&self, mask: Mask) -> bool {
        !(mask & self.absent).is_empty()
    }

    /// The number of a CPU that is there.
    pub fn cpu(&self, cpu: u16) -> Result<u8, Refusal> {
        refuse_if(cpu >= self.cpus, BadCpu)?;
        Ok(cpu as u8)
    }

    #[inline(always)]
    fn has_room(&self, entries: usize) -> Result<(), Refusal> {
        refuse_if(self.journal.is_full(entries), HistoryFull)
    }

    #[cold]
    fn tear(&mut self) -> Refusal {
        self.torn = true;
        self.running = [0; MOST_CPUS];
        self.agent = Agent::None;
        self.agent_cpu = NO_CPU;
        self.journal.append(Entry::Torn);
        Torn
    }

    /// Posts a message of two words.
    #[inline(always)]
    fn post(&mut self, kind: u16, tid: u32, tseq: u32, cpu: u8) -> Result<(), Refusal> {
        if self.ring.post(ring::head(2, kind, tid, tseq, cpu, false)).is_err() {
            return Err(self.tear());
        }
        self.journal.append(Entry::Posted { kind: kind as u8, cpu, tid, tseq });
        Ok(())
    }

    #[inline(always)]
    fn living(&self, tid: u32) -> Result<Status, Refusal> {
        Ok(self.threads.find(tid).ok_or(NoThread)?.status())
    }

    /// Posts the next message of a thread, if it has a number left and there is room.
    #[inline(always)]
    fn tell(&mut self, kind: u16, tid: u32, status: Status) -> Result<u32, Refusal> {
        refuse_if(status.tseq() == u32::MAX, SeqSpent)?;
        self.has_room(1)?;
        self.post(kind, tid, status.tseq() + 1, status.cpu())?;
        self.threads.row_mut(tid).told();
        Ok(status.tseq() + 1)
    }

    #[inline(always)]
    fn leave_cpu(&mut self, tid: u32, cpu: u8) {
        self.running[cpu as usize % MOST_CPUS] = 0;
        self.threads.row_mut(tid).leave_cpu();
    }

    /// A new thread: its number and the one of its first message.
    pub fn create(&mut self, facts: Facts) -> Result<(u32, u32), Refusal> {
        refuse_if(facts.mask.is_empty() || self.is_past(facts.mask), EmptyMask)?;
        let (tid, tseq) = (self.threads.created() + 1, self.first_tseq + 1);
        refuse_if(tid > MOST_THREADS, TidsSpent)?;
        self.has_room(1)?;
        if self.ring.post_creation(tid, tseq, &facts).is_err() {
            return Err(self.tear());
        }
        self.journal.append(Entry::Created { tid, tseq, mask: facts.mask, runnable: facts.runnable });
        self.threads.create(Row::new(tseq, &facts));
        Ok((tid, tseq))
    }

    pub fn block(&mut self, tid: u32) -> Result<u32, Refusal> {
        let status = self.living(tid)?;
        refuse_if(!status.is_on(), NotRunning)?;
        let tseq = self.tell(ring::BLOCKED, tid, status)?;
        self.leave_cpu(tid, status.cpu());
        self.threads.row_mut(tid).block();
        Ok(tseq)
    }

    pub fn yield_cpu(&mut self, tid: u32) -> Result<u32, Refusal> {
        let status = self.living(tid)?;
        refuse_if(!status.is_on(), NotRunning)?;
        let tseq = self.tell(ring::YIELD, tid, status)?;
        self.leave_cpu(tid, status.cpu());
        Ok(tseq)
    }

    pub fn wake(&mut self, tid: u32) -> Result<u32, Refusal> {
        let status = self.living(tid)?;
        refuse_if(status.is_runnable(), NotBlocked)?;
        let tseq = self.tell(ring::WAKEUP, tid, status)?;
        self.threads.row_mut(tid).wake();
        Ok(tseq)
    }

    pub fn die(&mut self, tid: u32) -> Result<u32, Refusal> {
        let status = self.living(tid)?;
        let tseq = self.tell(ring::DEAD, tid, status)?;
        if status.is_on() {
            self.leave_cpu(tid, status.cpu());
        }
        self.threads.row_mut(tid).die();
        self.threads.living.remove(tid);
        Ok(tseq)
    }

    /// A new mask: the number of its message, and the CPU that the thread was taken off, or `NO_CPU`.
    pub fn affinity(&mut self, tid: u32, mask: Mask) -> Result<(u32, u8), Refusal> {
        let status = self.living(tid)?;
        refuse_if(mask.is_empty() || self.is_past(mask), EmptyMask)?;
        refuse_if(status.tseq() == u32::MAX, SeqSpent)?;
        self.has_room(1)?;
        let (tseq, cpu) = (status.tseq() + 1, status.cpu());
        let off = status.is_on() && !mask.has(cpu);
        let [first, second] = ring::head(4, ring::AFFINITY, tid, tseq, cpu, off);
        let [low, high] = mask.words();
        if self.ring.post([first, second, low.to_le(), high.to_le()]).is_err() {
            return Err(self.tear());
        }
        self.journal.append(Entry::Affinity { tid, tseq, mask, cpu, off });
        let row = self.threads.row_mut(tid);
        row.told();
        row.mask = mask;
        if !off {
            return Ok((tseq, NO_CPU));
        }
        self.leave_cpu(tid, cpu);
        Ok((tseq, cpu))
    }

    /// A CPU that the other class, or an agent, may have, if no generation that is wanted is spent.
    #[inline(always)]
    fn seat(&self, cpu: u16, is_spent: bool) -> Result<u8, Refusal> {
        let cpu = self.cpu(cpu)?;
        refuse_if(cpu == self.agent_cpu, AgentThere)?;
        refuse_if(self.taken.has(cpu), CpuTaken)?;
        let there = self.running[cpu as usize % MOST_CPUS];
        refuse_if(there != 0 && self.threads.row(there).status().tseq() == u32::MAX, SeqSpent)?;
        refuse_if(is_spent, GenSpent)?;
        self.has_room(2)?;
        Ok(cpu)
    }

    pub(crate) fn is_busy(&self, cpu: u8) -> bool {
        self.running[cpu as usize % MOST_CPUS] != 0
    }

    /// The thread on a CPU is told that it makes way, and does.
    #[inline(always)]
    pub(crate) fn preempt(&mut self, cpu: u8) -> Result<(), Refusal> {
        let there = self.running[cpu as usize % MOST_CPUS];
        if there != 0 {
            let tseq = self.threads.row(there).status().tseq() + 1;
            self.post(ring::PREEMPTED, there, tseq, cpu)?;
            self.threads.row_mut(there).told();
            self.leave_cpu(there, cpu);
        }
        Ok(())
    }

    pub fn take(&mut self, cpu: u16) -> Result<u8, Refusal> {
        let cpu = self.seat(cpu, false)?;
        self.preempt(cpu)?;
        self.taken.insert(cpu);
        self.journal.append(Entry::Taken { cpu });
        Ok(cpu)
    }

    pub fn give(&mut self, cpu: u16) -> Result<u8, Refusal> {
        let cpu = self.cpu(cpu)?;
        refuse_if(!self.taken.has(cpu), NotTaken)?;
        self.has_room(1)?;
        self.taken.remove(cpu);
        self.journal.append(Entry::Given { cpu });
        Ok(cpu)
    }

    pub fn tick(&mut self, cpu: u16) -> Result<u8, Refusal> {
        let cpu = self.cpu(cpu)?;
        self.has_room(1)?;
        self.post(ring::TICK, 0, 0, cpu)?;
        Ok(cpu)
    }

    /// An agent of the last generation is active on a CPU from now on.
    #[inline(always)]
    fn seated(&mut self, cpu: u8) -> Result<u8, Refusal> {
        self.preempt(cpu)?;
        (self.agent, self.agent_cpu) = (Agent::Active, cpu);
        Ok(cpu)
    }

    pub fn hand_off(&mut self, cpu: u16) -> Result<u8, Refusal> {
        refuse_if(self.agent != Agent::Active, NotActive)?;
        let cpu = self.seat(cpu, self.generation == u32::MAX)?;
        self.seated(cpu)?;
        self.generation += 1;
        self.journal.append(Entry::Role { generation: self.generation, cpu });
        Ok(cpu)
    }

    pub fn activate(&mut self, cpu: u16) -> Result<u8, Refusal> {
        refuse_if(self.agent != Agent::Attaching || !self.paged, NotAttaching)?;
        let cpu = self.seat(cpu, false)?;
        self.seated(cpu)?;
        self.journal.append(Entry::Role { generation: self.generation, cpu });
        Ok(cpu)
    }

    /// The agent is gone. It leaves only while no slot is stamped.
    pub fn leave(&mut self, is_open: bool) -> Result<(), Refusal> {
        refuse_if(self.agent == Agent::None, NotActive)?;
        refuse_if(is_open, SlotOpen)?;
        self.has_room(1)?;
        (self.agent, self.agent_cpu) = (Agent::None, NO_CPU);
        self.journal.append(Entry::Left);
        Ok(())
    }

    /// A new agent begins to attach: its generation.
    pub fn begin(&mut self) -> Result<u32, Refusal> {
        refuse_if(self.agent != Agent::None, StillAttached)?;
        refuse_if(self.generation == u32::MAX, GenSpent)?;
        self.has_room(1)?;
        self.generation += 1;
        (self.agent, self.paged) = (Agent::Attaching, false);
        self.journal.append(Entry::Begin { generation: self.generation });
        Ok(self.generation)
    }

    /// Writes the page of at most so many threads from this number on: how many they are, and where the next one begins.
    pub fn page(&mut self, from: u32, max: u16, page: &mut Vec<u64>) -> Result<(u16, Option<u32>), Refusal> {
        refuse_if(self.agent != Agent::Attaching || self.paged, NotAttaching)?;
        let (count, next) = dump::write(&self.threads, from, max, page);
        self.paged = next.is_none();
        Ok((count, next))
    }
}
