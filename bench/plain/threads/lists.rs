//! Lists of commands, and the events in them: a thread is told its mask anew.

use crate::enclave::Command;
use crate::event::{Facts, Name};
use crate::kernel::Settings;
use crate::mask::Mask;

/// As crates/threads_driver has them.
pub const CPUS: u16 = 4;
pub const THREADS: u32 = 64;
const STRIDE: u32 = 2_654_435_761;
const HISTORY: u32 = 16_777_216;
pub const GENERATION: u32 = 1;

/// What an enclave is opened with, and how many bytes the ring has if it is one of bytes.
pub fn settings(ring: usize) -> Settings {
    Settings { cpus: CPUS, ring, first_tseq: 0, first_generation: GENERATION, history: HISTORY }
}

fn others() -> Mask {
    Mask::first(CPUS).without(0)
}

pub fn creation() -> Command {
    let name = Name::front(b"a               ", 1);
    Command::Create { facts: Facts { mask: others(), name, class: 0, runnable: true } }
}

pub fn event(turn: u32) -> Command {
    Command::Affinity { tid: turn.wrapping_mul(STRIDE) % THREADS + 1, mask: others() }
}

/// So many lists of so many events each. The first one creates the threads before.
pub fn make(lists: u32, calls: u32) -> Vec<Vec<Command>> {
    let creations = |number| if number == 0 { THREADS } else { 0 };
    let list = |number| (0..creations(number)).map(|_| creation()).chain((0..calls).map(event)).collect();
    (0..lists).map(list).collect()
}
