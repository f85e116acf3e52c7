//! The journal as lines, one for each entry.

use crate::event::{Facts, NO_CPU};
use crate::journal::Entry;
use crate::kernel::Kernel;
use crate::lines::Lines;

const KINDS: [&str; 9] = ["", "", "blocked ", "woken ", "preempted ", "yielded ", "dead ", "", "tick cpu "];
const WOKEN: u8 = 3;
const TICK: u8 = 8;

fn posted<'a>(lines: &'a mut Lines, kind: u8, tid: u32, tseq: u32, cpu: u8) -> &'a mut Lines {
    lines.text("posted ").text(KINDS[kind as usize]);
    match kind {
        TICK => lines.cpu(cpu),
        WOKEN => lines.thread(tid, tseq),
        _ => lines.thread(tid, tseq).text(" cpu ").cpu(cpu),
    }
}

fn entry<'a>(lines: &'a mut Lines, kernel: &Kernel, entry: Entry) -> &'a mut Lines {
    match entry {
        Entry::Created { tid, tseq, mask, runnable } => {
            let row = kernel.threads.row(tid);
            let facts = Facts { mask, name: row.name, class: row.class, runnable };
            lines.text("posted created ").thread(tid, tseq).facts(&facts)
        }
        Entry::Posted { kind, cpu, tid, tseq } => posted(lines, kind, tid, tseq, cpu),
        Entry::Affinity { tid, tseq, mask, cpu, off } => {
            lines.text("posted affinity ").thread(tid, tseq).text(" mask ").mask(mask).text(" cpu ").cpu(cpu);
            lines.text(if off { " off" } else { "" })
        }
        Entry::Placed { tid, tseq, generation, cpu } => {
            lines.text("placed ").thread(tid, tseq).text(" cpu ").cpu(cpu).text(" generation ").number(generation)
        }
        Entry::Role { generation, cpu } => {
            debug_assert!(cpu != NO_CPU);
            lines.text("role cpu ").cpu(cpu).text(" generation ").number(generation)
        }
        Entry::Begin { generation } => lines.text("begin generation ").number(generation),
        Entry::Left => lines.text("left"),
        Entry::Taken { cpu } => lines.text("taken ").cpu(cpu),
        Entry::Given { cpu } => lines.text("given ").cpu(cpu),
        Entry::Torn => lines.text("torn"),
    }
}

/// The lines of all that happened.
pub fn journal(kernel: &Kernel) -> Lines {
    let mut lines = Lines::default();
    for (at, &one) in kernel.journal.entries().iter().enumerate() {
        lines.number(at as u32).text(" ");
        entry(&mut lines, kernel, one).end();
    }
    lines
}
