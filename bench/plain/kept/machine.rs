//! The machine: each event is a step of kernel and agent, and a line or more.

use crate::event::{refuse_if, Choice, Event, Facts, Name, Outcome, Policy, Refusal};
use crate::kernel::{Agent, Kernel, Settings};
use crate::lines::Lines;
use crate::mask::Mask;
use crate::ring::Message;
use crate::role::Role;
use crate::slots::{Flags, Region, Stamp};

/// The slot of a CPU, as it was stamped. The facts that it was stamped from are those of that number, in the journal.
struct Transaction {
    stamp: Stamp,
    cpu: u8,
}

/// What the report counts.
#[derive(Default)]
pub struct Counts {
    pub refused: u64,
    pub placed: u64,
    pub unplaced: u64,
}

impl Counts {
    /// A landing is counted and its line is ended.
    #[inline(always)]
    fn landed(&mut self, lines: &mut Lines, tid: u32, outcome: Outcome, seen: u32) {
        let placed = (outcome == Outcome::Placed) as u64;
        self.placed += placed;
        self.unplaced += 1 - placed;
        lines.text(outcome.word()).thread(tid, seen).end();
    }
}

pub struct Machine<'a> {
    /// The script, with room behind it: names stand there.
    text: &'a [u8],
    /// Its masks.
    masks: &'a [Mask],
    kernel: Kernel,
    role: Option<Role>,
    region: Region,
    transactions: Vec<Transaction>,
    policy: Policy,
    cpus: u16,
    history: usize,
    choices: Vec<Choice>,
    page: Vec<u64>,
    pub lines: Lines,
    pub counts: Counts,
}

impl<'a> Machine<'a> {
    pub fn new(settings: &Settings, policy: Policy, text: &'a [u8], masks: &'a [Mask]) -> Machine<'a> {
        Machine {
            text,
            masks,
            kernel: Kernel::new(settings),
            role: Some(Role::new(policy, settings.cpus, settings.first_generation, None)),
            region: Region::new(),
            transactions: Vec::new(),
            policy,
            cpus: settings.cpus,
            history: settings.history as usize,
            choices: Vec::new(),
            page: Vec::new(),
            lines: Lines::with_room(text.len()),
            counts: Counts::default(),
        }
    }

    pub fn kernel(&self) -> &Kernel {
        &self.kernel
    }

    /// Runs an event and writes its lines.
    #[inline(always)]
    pub fn step(&mut self, event: &Event) {
        let done = if self.kernel.is_torn() { Err(Refusal::Gone) } else { self.answer(event) };
        if let Err(refusal) = done {
            self.counts.refused += (refusal != Refusal::Torn) as u64;
            self.lines.text(refusal.line());
        }
    }

    #[inline(always)]
    fn answer(&mut self, event: &Event) -> Result<(), Refusal> {
        match *event {
            Event::Create { mask, name, length, class, runnable } => self.create(mask, name, length, class, runnable),
            Event::Block { tid } => self.kernel.block(tid).map(|tseq| self.told("blocked ", tid, tseq)),
            Event::Wake { tid } => self.kernel.wake(tid).map(|tseq| self.told("woken ", tid, tseq)),
            Event::Yield { tid } => self.kernel.yield_cpu(tid).map(|tseq| self.told("yielded ", tid, tseq)),
            Event::Die { tid } => self.kernel.die(tid).map(|tseq| self.told("dead ", tid, tseq)),
            Event::Affinity { tid, mask } => self.affinity(tid, mask),
            Event::Take { cpu } => self.kernel.take(cpu).map(|cpu| self.count("taken ", cpu.into())),
            Event::Give { cpu } => self.kernel.give(cpu).map(|cpu| self.count("given ", cpu.into())),
            Event::Tick { cpu } => self.kernel.tick(cpu).map(|cpu| self.count("tick ", cpu.into())),
            Event::HandOff { cpu } => self.kernel.hand_off(cpu).map(|cpu| self.seated(cpu)),
            Event::Activate { cpu } => self.kernel.activate(cpu).map(|cpu| self.seated(cpu)),
            Event::Drain { max } => self.drain(max),
            Event::Stamp { cpu, tid, flags } => self.stamp(cpu, tid, flags),
            Event::Decide => self.decide(),
            Event::Commit { mask } => self.commit(mask),
            Event::Late { number } => self.late(number),
            Event::Crash => self.leave(false, "crashed\n"),
            Event::Leave => self.leave(!self.region.stamped().is_empty(), "left\n"),
            Event::Begin { policy } => self.begin(policy),
            Event::Page { max } => self.page(max),
            Event::View => self.view(),
            Event::State => self.state(),
            Event::Unread => self.unread(),
        }
    }

    /// A line that ends in a thread and its number, and one that ends in a number.
    #[inline(always)]
    fn told(&mut self, word: &str, tid: u32, tseq: u32) {
        self.lines.text(word).thread(tid, tseq).end();
    }

    #[inline(always)]
    fn count(&mut self, word: &str, number: u32) {
        self.lines.text(word).number(number).end();
    }

    #[inline(always)]
    fn create(&mut self, mask: u32, name: u32, length: u8, class: u8, runnable: bool) -> Result<(), Refusal> {
        let bytes = self.text[name as usize..].first_chunk().unwrap_or(&[0; 16]);
        let mask = self.masks[mask as usize];
        let (tid, tseq) = self.kernel.create(Facts { mask, name: Name::front(bytes, length), class, runnable })?;
        self.told("created ", tid, tseq);
        Ok(())
    }

    #[inline(always)]
    fn affinity(&mut self, tid: u32, mask: u32) -> Result<(), Refusal> {
        let (tseq, off) = self.kernel.affinity(tid, self.masks[mask as usize])?;
        self.lines.text("affinity ").thread(tid, tseq);
        if off != crate::event::NO_CPU {
            self.lines.text(" off ").cpu(off);
        }
        self.lines.end();
        Ok(())
    }

    fn seated(&mut self, cpu: u8) {
        let generation = self.kernel.generation();
        if let Some(role) = &mut self.role {
            role.promote(generation);
        }
        self.lines.text("agent ").cpu(cpu).text(" generation ").number(generation).end();
    }

    /// The role of the agent that is active.
    #[inline(always)]
    fn active(&mut self) -> Result<&mut Role, Refusal> {
        refuse_if(self.kernel.agent() != Agent::Active, Refusal::NotActive)?;
        self.role.as_mut().ok_or(Refusal::NotActive)
    }

    #[inline(always)]
    fn drain(&mut self, max: u32) -> Result<(), Refusal> {
        let role = self.role.as_mut().ok_or(Refusal::NotActive)?;
        let drained = role.drain(&mut self.kernel.ring, max);
        self.lines.text("drained ").number(drained.count);
        if drained.skipped != 0 {
            self.lines.text(" skipped ").number(drained.skipped);
        }
        if drained.orphans != 0 {
            self.lines.text(" orphans ").number(drained.orphans);
        }
        if drained.gap {
            self.lines.text(" stopped gap");
        }
        self.lines.end();
        Ok(())
    }

    #[inline(always)]
    fn stamp(&mut self, cpu: u16, tid: u32, flags: Flags) -> Result<(), Refusal> {
        self.active()?;
        let cpu = self.kernel.cpu(cpu)?;
        let (kept, is_idle) = (self.transactions.len(), self.region.is_idle(cpu));
        let Some(role) = &mut self.role else {
            return Err(Refusal::NotActive);
        };
        if kept >= self.history {
            role.get(tid).ok_or(Refusal::NoThread)?;
            refuse_if(is_idle, Refusal::HistoryFull)?;
        }
        let stamp = role.stamp(&mut self.region, cpu, tid, flags)?;
        self.transactions.push(Transaction { stamp, cpu });
        self.count("stamped ", kept as u32 + 1);
        Ok(())
    }

    #[inline(always)]
    fn decide(&mut self) -> Result<(), Refusal> {
        let (agent, taken) = (self.kernel.agent_cpu(), self.kernel.taken());
        self.active()?;
        let Some(role) = &mut self.role else {
            return Err(Refusal::NotActive);
        };
        role.plan(agent, taken, &mut self.choices);
        let count = self.choices.len();
        refuse_if(count > 0 && self.transactions.len() + count > self.history, Refusal::HistoryFull)?;
        self.lines.text("decided ").number(count as u32).end();
        for &Choice { tid, cpu, preempt } in &self.choices {
            let stamp = role.stamp(&mut self.region, cpu, tid, Flags { preempt, group: false })?;
            self.transactions.push(Transaction { stamp, cpu });
            let lines = self.lines.text("stamped ").number(self.transactions.len() as u32);
            lines.text(" cpu ").cpu(cpu).text(" thread ").number(tid);
            if preempt {
                lines.text(" preempt");
            }
            lines.end();
        }
        Ok(())
    }

    #[inline(always)]
    fn commit(&mut self, mask: u32) -> Result<(), Refusal> {
        let mask = self.masks[mask as usize];
        let (lines, counts) = (&mut self.lines, &mut self.counts);
        self.kernel.commit(&mut self.region, mask, |cpu, stamp, landing| {
            lines.text("cpu ").cpu(cpu);
            counts.landed(lines, stamp.tid, landing.outcome, landing.seen);
        })?;
        if let Some(role) = &mut self.role {
            role.collect(&mut self.region);
        }
        refuse_if(self.kernel.is_torn(), Refusal::Torn)
    }

    fn late(&mut self, number: u32) -> Result<(), Refusal> {
        let at = (number as usize).wrapping_sub(1);
        let transaction = self.transactions.get(at).ok_or(Refusal::NoSuchTransaction)?;
        let (tid, landing) = (transaction.stamp.tid, self.kernel.land(transaction.cpu, &transaction.stamp));
        self.lines.text("late ").number(number);
        self.counts.landed(&mut self.lines, tid, landing.outcome, landing.seen);
        refuse_if(self.kernel.is_torn(), Refusal::Torn)
    }

    fn leave(&mut self, is_open: bool, line: &str) -> Result<(), Refusal> {
        self.kernel.leave(is_open)?;
        self.role = None;
        self.lines.text(line);
        Ok(())
    }

    fn begin(&mut self, policy: Option<Policy>) -> Result<(), Refusal> {
        let generation = self.kernel.begin()?;
        self.policy = policy.unwrap_or(self.policy);
        self.region.clear();
        self.role = Some(Role::new(self.policy, self.cpus, generation, Some(1)));
        self.count("begun generation ", generation);
        Ok(())
    }

    fn page(&mut self, max: u16) -> Result<(), Refusal> {
        let from = self.role.as_ref().and_then(Role::next_page).unwrap_or(0);
        let (count, next) = self.kernel.page(from, max, &mut self.page)?;
        if let Some(role) = &mut self.role {
            role.rebuild(&self.page);
        }
        self.lines.text("page ").number(count.into());
        match next {
            Some(next) => self.count(" next ", next),
            None => self.lines.text(" end").end(),
        }
        Ok(())
    }

    fn view(&mut self) -> Result<(), Refusal> {
        let role = self.role.as_ref().ok_or(Refusal::NotActive)?;
        for (tid, facts, tseq) in role.walk() {
            self.lines.text("view ").thread(tid, tseq).facts(facts).end();
        }
        Ok(())
    }

    fn state(&mut self) -> Result<(), Refusal> {
        let threads = &self.kernel.threads;
        for tid in threads.living.from(0) {
            let row = threads.row(tid);
            let lines = self.lines.text("state ").thread(tid, row.status().tseq());
            lines.facts(&row.facts()).text(" cpu ").cpu(row.status().cpu()).end();
        }
        Ok(())
    }

    fn unread(&mut self) -> Result<(), Refusal> {
        for message in self.kernel.ring.waiting() {
            shown(&mut self.lines, message);
        }
        Ok(())
    }
}

/// The line of a message that waits.
fn shown(lines: &mut Lines, message: Message<'_>) {
    const KINDS: [&str; 9] = [
        "",
        "unread created ",
        "unread blocked ",
        "unread wakeup ",
        "unread preempted ",
        "unread yield ",
        "unread dead ",
        "unread affinity ",
        "unread tick ",
    ];
    lines
        .text(KINDS[message.kind() as usize])
        .thread(message.tid(), message.tseq())
        .text(" cpu ")
        .cpu(message.cpu())
        .end();
}
