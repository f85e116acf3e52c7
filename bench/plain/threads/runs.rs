//! Runs of lists of commands in threads of their own, beside a shift that drains in batches; and the same commands in one thread.

use crate::board::Board;
use crate::enclave::{are_answered, obey, Command, Enclave, Receipt, Reply};
use crate::event::Policy;
use crate::kernel::Kernel;
use crate::lists::{self, CPUS, GENERATION, THREADS};
use crate::parcels::{ring, Poster, Taker};
use crate::ring::Ring;
use crate::role::Role;
use std::sync::{Condvar, Mutex};
use std::thread;
use std::time::{Duration, Instant};

/// How many calls of a list are answered before the shift takes in as many messages.
const BATCH: usize = 1_024;
/// The most batches of calls that are begun before one of them is taken in. The ring between threads has room for them.
const AHEAD: usize = 16;
/// How many bytes the ring of bytes has.
const RING: usize = 1_048_576;

/// A count that threads wait for.
#[derive(Default)]
struct Count {
    count: Mutex<usize>,
    more: Condvar,
}

impl Count {
    /// One more. How many there are then.
    fn add(&self) -> usize {
        let mut count = self.count.lock().expect("nobody panics under the lock");
        *count += 1;
        self.more.notify_all();
        *count
    }

    fn wait(&self, wanted: usize) {
        let count = self.count.lock().expect("nobody panics under the lock");
        drop(self.more.wait_while(count, |count| *count < wanted));
    }
}

/// Who waits for whom: all lists but the first for the threads, each drain for a further batch of calls, and each batch for the
/// drains if they are too far behind.
#[derive(Default)]
struct Gate {
    created: Count,
    begun: Count,
    answered: Count,
    taken: Count,
}

/// What a run needs beside what the agent holds.
struct Run {
    lock: Mutex<Enclave>,
    board: Board,
    gate: Gate,
}

impl Run {
    /// Serves a list, with a receipt for each of its commands.
    fn serve(&self, number: usize, commands: &[Command]) -> Vec<Receipt> {
        if number > 0 {
            self.gate.created.wait(1);
        }
        let mut receipts = Vec::with_capacity(commands.len());
        for (command, answered) in commands.iter().zip(1..) {
            if answered % BATCH == 1 {
                self.gate.taken.wait(self.gate.begun.add().saturating_sub(AHEAD));
            }
            receipts.push(self.lock.lock().expect("nobody panics under the lock").serve(&self.board, command));
            if number == 0 && answered == THREADS as usize {
                self.gate.created.add();
            }
            if answered % BATCH == 0 {
                self.gate.answered.add();
            }
        }
        receipts
    }

    /// Serves each list in a thread of its own, and drains in one more: the receipts of the lists.
    fn run_all(&self, lists: &[Vec<Command>], role: &mut Role, taker: &mut Taker) -> Vec<Vec<Receipt>> {
        let drains = lists.iter().map(|list| list.len() / BATCH).sum();
        thread::scope(|scope| {
            let begun = lists.iter().enumerate().map(|(number, list)| scope.spawn(move || self.serve(number, list)));
            let begun: Vec<_> = begun.collect();
            scope.spawn(|| self.drain(drains, role, taker));
            begun.into_iter().map(|list| list.join().expect("no list panics")).collect()
        })
    }

    /// Drains so often.
    fn drain(&self, drains: usize, role: &mut Role, taker: &mut Taker) {
        for drain in 1..=drains {
            self.gate.answered.wait(drain);
            role.drain(taker, BATCH as u32);
            self.gate.taken.add();
        }
    }
}

fn role() -> Role {
    Role::new(Policy::First, CPUS, GENERATION, None)
}

/// Whether the role knows of each thread what the kernel does, and of no other.
fn knows_all(role: &Role, kernel: &Kernel<Poster>) -> bool {
    let known = |tid| {
        let row = kernel.threads.row(tid);
        (tid, row.facts(), row.status().tseq())
    };
    role.walk().map(|(tid, facts, tseq)| (tid, *facts, tseq)).eq(kernel.threads.living.from(0).map(known))
}

/// How many of these were done.
fn done(receipts: &[Receipt]) -> u64 {
    receipts.iter().filter(|receipt| matches!(receipt.reply, Reply::Done(_))).count() as u64
}

/// Runs lists of so many events in threads of their own beside a shift: how many events were done, and how long the run took. None
/// if the agent does not know in the end what the kernel knows, or if a receipt stands in no call.
pub fn run(count: u32, calls: u32) -> Option<(u64, Duration)> {
    let lists = lists::make(count, calls);
    let start = Instant::now();
    let (poster, mut taker) = ring(AHEAD * BATCH);
    let (enclave, board) = Enclave::new(Kernel::over(&lists::settings(0), poster));
    let run = Run { lock: Mutex::new(enclave), board, gate: Gate::default() };
    let mut role = role();
    let receipts = run.run_all(&lists, &mut role, &mut taker);
    role.drain(&mut taker, u32::MAX);
    let enclave = run.lock.into_inner().expect("nobody panics under the lock");
    let (kernel, accepted) = enclave.parts();
    let answered = lists.iter().zip(&receipts).all(|(list, receipts)| are_answered(accepted, list, receipts));
    let settled = answered && knows_all(&role, kernel);
    let done = receipts.iter().map(|its| done(its)).sum::<u64>() - u64::from(THREADS);
    settled.then_some((done, start.elapsed()))
}

/// A list of so many events in one thread, over a ring of bytes, drained in the same batches: how many were done, and how long that
/// took.
pub fn machine(calls: u32) -> (u64, Duration) {
    let lists = lists::make(1, calls);
    let start = Instant::now();
    let mut kernel = Kernel::<Ring>::new(&lists::settings(RING));
    let (mut role, mut done) = (role(), 0);
    for commands in lists.iter().flat_map(|list| list.chunks(BATCH)) {
        done += commands.iter().filter(|command| obey(&mut kernel, command).is_ok()).count() as u64;
        role.drain(&mut kernel.ring, BATCH as u32);
    }
    (done - u64::from(THREADS), start.elapsed())
}
