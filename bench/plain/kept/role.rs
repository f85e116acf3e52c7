//! The agent: what it knows of each thread, what it believes of each CPU, and who waits.

use crate::bits::Bits;
use crate::dump::{self, Told};
use crate::event::{Choice, Facts, Outcome, Policy, Refusal, MOST_CPUS, NO_CPU};
use crate::mask::Mask;
use crate::ring::{self, Message, Take};
use crate::slots::{Flags, Region, Stamp};

const MOST_TICKS: u16 = u16::MAX;

/// A thread that waits stands between two others of its class. Places 1 and 2 are the ends of the two classes' rows,
/// place 0 is none, and thread T has place T + 2.
type Place = u32;
const NOWHERE: Place = 0;
const OTHERS: u32 = 2;

/// What is known of a thread. Of one that is not known nothing counts.
#[derive(Clone, Copy, Default)]
struct Record {
    facts: Facts,
    tseq: u32,
    next: Place,
    previous: Place,
    /// The CPU that it is believed on, or `NO_CPU`.
    cpu: u8,
    /// How many stamped slots name it.
    stamps: u8,
    known: bool,
}

/// What a drain took in.
#[derive(Default)]
pub struct Drained {
    pub count: u32,
    pub skipped: u32,
    pub orphans: u32,
    /// Whether a message is missing before the next one.
    pub gap: bool,
}

enum Taken {
    Applied,
    Skipped,
    Orphan,
    Gap,
}

pub struct Role {
    records: Vec<Record>,
    known: Bits,
    /// The thread that each CPU is believed to run, 0 for none, and the ticks since.
    believed: [u32; MOST_CPUS],
    ticks: [u16; MOST_CPUS],
    busy: Mask,
    /// The CPUs with a stamp that was not collected.
    stamped: Mask,
    /// Of each class the CPUs that some thread that waits may run on, and perhaps more.
    wanted: [Mask; 2],
    usable: Mask,
    generation: u32,
    next_page: Option<u32>,
    policy: Policy,
}

impl Role {
    /// An agent that knows nothing, on a machine of so many CPUs.
    pub fn new(policy: Policy, cpus: u16, generation: u32, next_page: Option<u32>) -> Role {
        let mut records = vec![Record::default(); 1 + OTHERS as usize];
        for end in 1..=OTHERS {
            (records[end as usize].next, records[end as usize].previous) = (end, end);
        }
        Role {
            records,
            known: Bits::default(),
            believed: [0; MOST_CPUS],
            ticks: [0; MOST_CPUS],
            busy: Mask::NONE,
            stamped: Mask::NONE,
            wanted: [Mask::NONE; 2],
            usable: Mask::first(cpus),
            generation,
            next_page,
            policy,
        }
    }

    /// It goes on as the agent of this generation.
    pub fn promote(&mut self, generation: u32) {
        self.generation = generation;
    }

    pub fn next_page(&self) -> Option<u32> {
        self.next_page
    }

    #[inline(always)]
    fn record(&mut self, tid: u32) -> &mut Record {
        &mut self.records[(tid + OTHERS) as usize]
    }

    /// The record of a thread, also of one of which nothing is known.
    #[inline(always)]
    fn touch(&mut self, tid: u32) -> &mut Record {
        let place = (tid + OTHERS) as usize;
        if place >= self.records.len() {
            self.records.resize(place + 1, Record::default());
        }
        &mut self.records[place]
    }

    /// What is known of a thread, and its number.
    #[inline(always)]
    pub fn get(&self, tid: u32) -> Option<(&Facts, u32)> {
        let record = self.records.get(tid as usize + OTHERS as usize)?;
        (tid != 0 && record.known).then_some((&record.facts, record.tseq))
    }

    /// The threads of which something is known, in increasing order of number.
    pub fn walk(&self) -> impl Iterator<Item = (u32, &Facts, u32)> {
        self.known.from(0).filter_map(|tid| self.get(tid).map(|(facts, tseq)| (tid, facts, tseq)))
    }

    #[inline(always)]
    fn append(&mut self, place: Place) {
        let record = &mut self.records[place as usize];
        let (class, mask) = (record.facts.class, record.facts.mask);
        let end = 1 + class as Place;
        record.next = end;
        let last = std::mem::replace(&mut self.records[end as usize].previous, place);
        self.records[place as usize].previous = last;
        self.records[last as usize].next = place;
        self.wanted[class as usize & 1] |= mask;
    }

    #[inline(always)]
    fn take_out(&mut self, place: Place) {
        let record = &mut self.records[place as usize];
        let (next, previous) = (record.next, record.previous);
        if next != NOWHERE {
            record.next = NOWHERE;
            self.records[previous as usize].next = next;
            self.records[next as usize].previous = previous;
        }
    }

    /// A thread that has begun to wait goes last of its class, one that no longer waits is taken out.
    #[inline(always)]
    fn settle(&mut self, tid: u32) {
        let record = self.record(tid);
        let waits = record.known & record.facts.runnable & (record.cpu == NO_CPU) & (record.stamps == 0);
        match (waits, record.next == NOWHERE) {
            (true, true) => self.append(tid + OTHERS),
            (false, false) => self.take_out(tid + OTHERS),
            _ => {}
        }
    }

    #[inline(always)]
    fn disbelieve(&mut self, tid: u32) {
        let cpu = std::mem::replace(&mut self.record(tid).cpu, NO_CPU);
        if cpu != NO_CPU {
            self.believed[cpu as usize % MOST_CPUS] = 0;
            self.busy.remove(cpu);
        }
    }

    /// The thread is believed on the CPU, and whoever was believed there is believed nowhere.
    #[inline(always)]
    fn believe(&mut self, cpu: u8, tid: u32) {
        let at = cpu as usize % MOST_CPUS;
        self.ticks[at] = 0;
        let before = self.believed[at];
        if before == tid {
            return;
        }
        self.disbelieve(tid);
        self.believed[at] = tid;
        self.busy.insert(cpu);
        self.record(tid).cpu = cpu;
        if before != 0 {
            self.record(before).cpu = NO_CPU;
            self.settle(before);
        }
    }

    /// Takes in at most so many messages.
    pub fn drain<R: Take>(&mut self, ring: &mut R, max: u32) -> Drained {
        let mut drained = Drained::default();
        while drained.count < max {
            let Some((message, pad)) = ring.front() else {
                break;
            };
            let words = message.words();
            match self.apply(message) {
                Taken::Applied => {}
                Taken::Skipped => drained.skipped += 1,
                Taken::Orphan => drained.orphans += 1,
                Taken::Gap => {
                    drained.gap = true;
                    break;
                }
            }
            ring.advance(pad, words);
            drained.count += 1;
        }
        drained
    }

    #[inline(always)]
    fn apply(&mut self, message: Message<'_>) -> Taken {
        let (kind, tid) = (message.kind(), message.tid());
        if kind == ring::TICK {
            let at = message.cpu() as usize % MOST_CPUS;
            if self.believed[at] != 0 && self.ticks[at] < MOST_TICKS {
                self.ticks[at] += 1;
            }
            return Taken::Applied;
        }
        let record = self.touch(tid);
        if record.known {
            if message.tseq() <= record.tseq {
                return Taken::Skipped;
            }
            if message.tseq() - record.tseq > 1 {
                return Taken::Gap;
            }
        } else if kind != ring::CREATED {
            return Taken::Orphan;
        }
        record.tseq = message.tseq();
        self.change(kind, tid, message);
        Taken::Applied
    }

    /// The change that a message tells of.
    #[inline(always)]
    fn change(&mut self, kind: u16, tid: u32, message: Message<'_>) {
        let record = self.record(tid);
        match kind {
            ring::CREATED => {
                *record =
                    Record { facts: message.facts(), tseq: record.tseq, known: true, cpu: NO_CPU, ..Record::default() };
                self.known.insert(tid);
            }
            ring::BLOCKED => {
                record.facts.runnable = false;
                self.disbelieve(tid);
            }
            ring::WAKEUP => record.facts.runnable = true,
            ring::AFFINITY => {
                record.facts.mask = message.mask();
                let (class, waits) = (record.facts.class, record.next != NOWHERE);
                if waits {
                    self.wanted[class as usize & 1] |= message.mask();
                }
                if !message.flag() {
                    return;
                }
                self.disbelieve(tid);
            }
            ring::DEAD => {
                record.known = false;
                self.known.remove(tid);
                self.disbelieve(tid);
            }
            // It waits behind all others now, as one that was taken off or yielded.
            _ => {
                self.disbelieve(tid);
                self.take_out(tid + OTHERS);
            }
        }
        self.settle(tid);
    }

    /// Stamps what is known of a thread into the idle slot of a CPU.
    #[inline(always)]
    pub fn stamp(&mut self, region: &mut Region, cpu: u8, tid: u32, flags: Flags) -> Result<Stamp, Refusal> {
        let (_, tseq) = self.get(tid).ok_or(Refusal::NoThread)?;
        if !region.is_idle(cpu) {
            return Err(Refusal::SlotOpen);
        }
        let stamp = Stamp { generation: self.generation, tid, tseq, flags };
        region.stamp(cpu, stamp);
        self.record(tid).stamps += 1;
        self.stamped.insert(cpu);
        self.take_out(tid + OTHERS);
        Ok(stamp)
    }

    /// Takes in what became of the slots that are done, which are idle then.
    pub fn collect(&mut self, region: &mut Region) {
        region.collect(|cpu, tid, outcome, at| {
            self.stamped.remove(cpu);
            self.record(tid).stamps -= 1;
            if matches!(outcome, Outcome::Placed | Outcome::AlreadyPlaced) {
                self.believe(at, tid);
            }
            self.settle(tid);
        });
    }

    /// Takes a page in: what it tells of its threads is known.
    pub fn rebuild(&mut self, page: &[u64]) {
        if dump::is_of_one(page) {
            self.load::<{ dump::ONE }>(page);
        } else {
            self.load::<{ dump::TWO }>(page);
        }
        self.next_page = dump::next(page);
    }

    /// Takes in the records of a page, of so many words each.
    #[inline(always)]
    fn load<const WORDS: usize>(&mut self, page: &[u64]) {
        // Room for all of them at once.
        if let Some(last) = dump::read::<WORDS>(page).next_back() {
            self.touch(last.tid);
        }
        for Told { tid, tseq, cpu, facts } in dump::read::<WORDS>(page) {
            let record = self.record(tid);
            if !record.known {
                *record = Record { known: true, cpu: NO_CPU, ..Record::default() };
            }
            (record.facts, record.tseq) = (facts, tseq);
            self.known.insert(tid);
            self.wanted[facts.class as usize & 1] |= facts.mask;
            if cpu != NO_CPU {
                self.believe(cpu, tid);
            }
            self.settle(tid);
        }
    }

    /// The CPUs that a thread of class 0, and one of class 1, may take from a thread of class 1, of these.
    fn gains(&self, usable: Mask) -> [Mask; 2] {
        let Policy::Two { slice } = self.policy else {
            return [Mask::NONE; 2];
        };
        let mut gains = [Mask::NONE; 2];
        for cpu in (usable & self.busy).cpus() {
            let place = self.believed[cpu as usize % MOST_CPUS] + OTHERS;
            if self.records[place as usize].facts.class == 1 {
                gains[0].insert(cpu);
                if self.ticks[cpu as usize % MOST_CPUS] >= slice {
                    gains[1].insert(cpu);
                }
            }
        }
        gains
    }

    /// What the policy plans: those who wait get the least CPU of their mask that is free, else one that they may take.
    /// A row is walked up to where no CPU is left that anyone in it may have.
    pub fn plan(&mut self, agent: u8, taken: Mask, choices: &mut Vec<Choice>) {
        choices.clear();
        let usable = self.usable.without(agent) & !taken & !self.stamped;
        let mut free = usable & !self.busy;
        let mut gains = self.gains(usable);
        for class in 0..2 {
            let (end, mut met, mut gain) = (1 + class as Place, Mask::NONE, gains[class]);
            let mut place = self.records[end as usize].next;
            while place != end && !((free | gain) & self.wanted[class]).is_empty() {
                let Record { facts: Facts { mask, .. }, next, .. } = &self.records[place as usize];
                let (mask, next) = (*mask, *next);
                met |= mask;
                let preempt = (mask & free).is_empty();
                let open = mask & if preempt { gain } else { free };
                if !open.is_empty() {
                    let cpu = open.least();
                    free.remove(cpu);
                    gain.remove(cpu);
                    gains[1].remove(cpu);
                    choices.push(Choice { tid: place - OTHERS, cpu, preempt });
                }
                place = next;
            }
            if place == end {
                self.wanted[class] = met;
            }
        }
    }
}
