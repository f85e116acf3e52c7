//! The kernel's rows: a status word of each thread, and its facts. A dead thread keeps its last number.

use crate::bits::Bits;
use crate::event::{Facts, Name, NO_CPU};
use crate::mask::Mask;

/// The number in bits 0 to 31, the CPU (255 for none) from 32 on, then runnable, alive, on a CPU.
#[derive(Clone, Copy)]
pub struct Status(u64);

const CPU: u64 = 0xff << 32;
const RUNNABLE: u64 = 1 << 40;
const ALIVE: u64 = 1 << 41;
const ON: u64 = 1 << 42;

impl Status {
    #[inline(always)]
    pub fn tseq(self) -> u32 {
        self.0 as u32
    }

    #[inline(always)]
    pub fn cpu(self) -> u8 {
        (self.0 >> 32) as u8
    }

    #[inline(always)]
    pub fn is_runnable(self) -> bool {
        self.0 & RUNNABLE != 0
    }

    #[inline(always)]
    pub fn is_alive(self) -> bool {
        self.0 & ALIVE != 0
    }

    #[inline(always)]
    pub fn is_on(self) -> bool {
        self.0 & ON != 0
    }

    #[inline(always)]
    fn off(self) -> Status {
        Status(self.0 & !ON | CPU)
    }
}

#[derive(Clone, Copy)]
pub struct Row {
    status: Status,
    pub mask: Mask,
    pub name: Name,
    pub class: u8,
}

impl Row {
    pub fn new(tseq: u32, facts: &Facts) -> Row {
        let runnable = if facts.runnable { RUNNABLE } else { 0 };
        let status = Status(tseq as u64 | (NO_CPU as u64) << 32 | ALIVE | runnable);
        Row { status, mask: facts.mask, name: facts.name, class: facts.class }
    }

    #[inline(always)]
    pub fn status(&self) -> Status {
        self.status
    }

    pub fn facts(&self) -> Facts {
        Facts { mask: self.mask, name: self.name, class: self.class, runnable: self.status.is_runnable() }
    }

    /// One message more was posted about the thread.
    #[inline(always)]
    pub fn told(&mut self) {
        self.status.0 += 1;
    }

    #[inline(always)]
    pub fn leave_cpu(&mut self) {
        self.status = self.status.off();
    }

    #[inline(always)]
    pub fn enter_cpu(&mut self, cpu: u8) {
        self.status.0 = self.status.0 & !CPU | (cpu as u64) << 32 | ON;
    }

    #[inline(always)]
    pub fn block(&mut self) {
        self.status.0 &= !RUNNABLE;
    }

    #[inline(always)]
    pub fn wake(&mut self) {
        self.status.0 |= RUNNABLE;
    }

    #[inline(always)]
    pub fn die(&mut self) {
        self.status.0 &= !(RUNNABLE | ALIVE);
    }
}

/// The rows by number, from 1 on, and who lives.
#[derive(Default)]
pub struct Threads {
    rows: Vec<Row>,
    pub living: Bits,
}

impl Threads {
    pub fn created(&self) -> u32 {
        self.rows.len() as u32
    }

    #[inline(always)]
    pub fn create(&mut self, row: Row) {
        self.rows.push(row);
        self.living.insert(self.created());
    }

    /// The row of a thread that was created.
    #[inline(always)]
    pub fn row(&self, tid: u32) -> &Row {
        &self.rows[tid as usize - 1]
    }

    #[inline(always)]
    pub fn row_mut(&mut self, tid: u32) -> &mut Row {
        &mut self.rows[tid as usize - 1]
    }

    /// The row of a thread, if it was created.
    #[inline(always)]
    pub fn get(&self, tid: u32) -> Option<&Row> {
        self.rows.get((tid as usize).wrapping_sub(1))
    }

    /// The row of a thread that lives.
    #[inline(always)]
    pub fn find(&self, tid: u32) -> Option<&Row> {
        self.get(tid).filter(|row| row.status.is_alive())
    }
}
