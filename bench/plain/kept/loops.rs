//! Rounds of events without a script, so that each can be measured by itself: the same as those of the proved crate bench_driver.

use crate::event::{Choice, Facts, Name, Policy};
use crate::kernel::{Kernel, Settings};
use crate::mask::Mask;
use crate::role::Role;
use crate::slots::{Flags, Region};

const RING: usize = 1_048_576;
const HISTORY: u32 = 16_777_216;
/// So many creations wait at most until they are drained: their messages of 40 bytes fit into the ring.
const CREATIONS: u32 = 16_384;
/// The most messages that are drained if only those of a round wait.
const MANY: u32 = 65_536;
/// The threads of a page.
const PAGE: u16 = 1_000;
/// A prime above the most threads, so that its multiples pass through all of them.
const STRIDE: u32 = 2_654_435_761;

/// An enclave in which all threads may run on all CPUs but the first, which is the agent's.
struct Enclave {
    kernel: Kernel,
    role: Role,
    region: Region,
    mask: Mask,
    choices: Vec<Choice>,
    page: Vec<u64>,
}

impl Enclave {
    fn open(threads: u32, cpus: u16) -> Enclave {
        let settings = Settings { cpus, ring: RING, first_tseq: 0, first_generation: 1, history: HISTORY };
        let mut enclave = Enclave {
            kernel: Kernel::new(&settings),
            role: Role::new(Policy::First, cpus, 1, None),
            region: Region::new(),
            mask: Mask::first(cpus).without(0),
            choices: Vec::new(),
            page: Vec::new(),
        };
        let facts = Facts { mask: enclave.mask, name: Name::front(b"a               ", 1), class: 0, runnable: true };
        for number in 0..threads {
            let _ = enclave.kernel.create(facts);
            if number % CREATIONS == 0 {
                enclave.drain();
            }
        }
        enclave.drain();
        enclave
    }

    fn drain(&mut self) -> u64 {
        self.role.drain(&mut self.kernel.ring, MANY).count.into()
    }

    fn stamp(&mut self, choice: Choice) {
        let _ =
            self.role.stamp(&mut self.region, choice.cpu, choice.tid, Flags { preempt: choice.preempt, group: false });
    }

    /// The stamped slots land, and are collected: how many they were.
    fn commit(&mut self) -> u64 {
        let landed = self.kernel.commit(&mut self.region, self.mask, |_, _, _| {});
        self.role.collect(&mut self.region);
        landed.unwrap_or(0)
    }

    fn affinities(&mut self, tid: u32) -> u64 {
        let _ = self.kernel.affinity(tid, self.mask);
        self.drain()
    }

    fn blocks(&mut self, tid: u32, cpu: u8) -> u64 {
        self.stamp(Choice { tid, cpu, preempt: false });
        self.commit();
        let _ = self.kernel.block(tid);
        let _ = self.kernel.wake(tid);
        self.drain()
    }

    fn decides(&mut self) -> u64 {
        let (agent, taken) = (self.kernel.agent_cpu(), self.kernel.taken());
        self.role.plan(agent, taken, &mut self.choices);
        for at in 0..self.choices.len() {
            self.stamp(self.choices[at]);
        }
        let landed = self.commit();
        for choice in &self.choices {
            let _ = self.kernel.yield_cpu(choice.tid);
        }
        self.drain();
        landed
    }

    fn attaches(&mut self, cpus: u16) -> u64 {
        let _ = self.kernel.leave(false);
        let Ok(generation) = self.kernel.begin() else {
            return 0;
        };
        self.role = Role::new(Policy::First, cpus, generation, Some(1));
        let mut told = 0;
        while let Some(from) = self.role.next_page() {
            told += self.kernel.page(from, PAGE, &mut self.page).map_or(0, |(count, _)| u64::from(count));
            self.role.rebuild(&self.page);
        }
        let _ = self.kernel.activate(0);
        told
    }
}

/// How much came of so many rounds of a kind: messages drained, slots landed or threads told of.
fn rounds(kind: &str, count: u32, threads: u32, cpus: u16) -> Option<u64> {
    let mut enclave = Enclave::open(threads, cpus);
    let mut sum = 0;
    for turn in 0..count {
        let tid = turn.wrapping_mul(STRIDE) % threads + 1;
        let cpu = (turn % (cpus as u32 - 1)) as u8 + 1;
        sum += match kind {
            "affinities" => enclave.affinities(tid),
            "blocks" => enclave.blocks(tid, cpu),
            "decides" => enclave.decides(),
            "attaches" => enclave.attaches(cpus),
            _ => return None,
        };
    }
    Some(sum)
}

/// What comes of the rounds that four words ask for.
pub fn run(words: &[&str]) -> Option<u64> {
    let &[kind, count, threads, cpus] = words else {
        return None;
    };
    let (count, threads, cpus) = (count.parse().ok()?, threads.parse().ok()?, cpus.parse().ok()?);
    if threads == 0 || !(2..=128).contains(&cpus) {
        return None;
    }
    rounds(kind, count, threads, cpus)
}
