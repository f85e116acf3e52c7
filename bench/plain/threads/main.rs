//! A yardstick for the locked enclave: the kernel of `kept` under a `std::sync::Mutex`, with a list of the calls that it
//! accepted, a ring between two threads and a board. It does what crates/threads_driver does, and proves nothing.
//!
//! usage: threads COMMAND ..
//!
//!     kernel N     tells a kernel by itself N events
//!     serve N      has a locked enclave serve N events, with nobody else at the lock
//!     read N       reads the board N times
//!     threads T N  has a locked enclave serve N events of each of T callers, in threads of their own
//!     machine N    lets N events happen in one thread, and drains them in batches
//!     run L N      runs L lists of N events each in threads of their own, beside a shift that drains in batches
//!     clock-machine N, clock-run L N   do the same, and tell how many nanoseconds that took, without making the lists
//!     lists L N    makes the lists alone
//!
//! For each command it writes how many events were done or made, how many reads showed the first agent, or how many nanoseconds it
//! took.

mod board;
mod enclave;
mod lists;
mod parcels;
mod runs;

#[allow(dead_code)]
#[path = "../kept/bits.rs"]
mod bits;
#[allow(dead_code)]
#[path = "../kept/dump.rs"]
mod dump;
#[allow(dead_code)]
#[path = "../kept/event.rs"]
mod event;
#[allow(dead_code)]
#[path = "../kept/journal.rs"]
mod journal;
#[allow(dead_code)]
#[path = "../kept/kernel.rs"]
mod kernel;
#[allow(dead_code)]
#[path = "../kept/mask.rs"]
mod mask;
#[allow(dead_code)]
#[path = "../kept/ring.rs"]
mod ring;
#[allow(dead_code)]
#[path = "../kept/role.rs"]
mod role;
#[allow(dead_code)]
#[path = "../kept/slots.rs"]
mod slots;
#[allow(dead_code)]
#[path = "../kept/threads.rs"]
mod threads;

use board::Board;
use enclave::{obey, Command, Enclave, Reply};
use kernel::Kernel;
use lists::{creation, event, GENERATION, THREADS};
use parcels::{ring, Poster, Taker};
use std::process::ExitCode;
use std::sync::Mutex;
use std::thread;
use std::time::Duration;

/// The most parcels of a ring, as crates/threads_driver has it.
const MOST_PARCELS: usize = 1_048_576;

/// How many parcels a ring has that has room for the messages of all creations and of so many events of so many callers.
fn parcels(callers: u32, calls: u32) -> Option<usize> {
    let parcels = (callers as usize * calls as usize + THREADS as usize).next_power_of_two();
    (parcels <= MOST_PARCELS).then_some(parcels)
}

/// A kernel with its threads, and the other end of its ring, which has room for the messages of so many events of so many
/// callers.
fn open(callers: u32, calls: u32) -> Option<(Kernel<Poster>, Taker)> {
    let (poster, taker) = ring(parcels(callers, calls)?);
    let mut kernel = Kernel::over(&lists::settings(0), poster);
    for _ in 0..THREADS {
        let _ = obey(&mut kernel, &creation());
    }
    Some((kernel, taker))
}

/// A kernel by itself: how many events it did.
fn alone(calls: u32) -> Option<u64> {
    let (mut kernel, _taker) = open(1, calls)?;
    Some((0..calls).filter(|&turn| obey(&mut kernel, &event(turn)).is_ok()).count() as u64)
}

/// The lock round the enclave, the board beside it, and the other end of the ring.
struct Station {
    lock: Mutex<Enclave>,
    board: Board,
    _taker: Taker,
}

impl Station {
    fn open(callers: u32, calls: u32) -> Option<Station> {
        let (kernel, taker) = open(callers, calls)?;
        let (enclave, board) = Enclave::new(kernel);
        Some(Station { lock: Mutex::new(enclave), board, _taker: taker })
    }

    fn serve(&self, command: &Command) -> bool {
        let receipt = self.lock.lock().expect("nobody panics under the lock").serve(&self.board, command);
        matches!(receipt.reply, Reply::Done(_))
    }

    /// How many of so many events were done.
    fn serve_all(&self, calls: u32) -> u64 {
        (0..calls).filter(|&turn| self.serve(&event(turn))).count() as u64
    }

    /// How many of so many reads showed the first agent.
    fn read_all(&self, reads: u32) -> u64 {
        (0..reads).filter(|_| self.board.read().generation == GENERATION).count() as u64
    }

    /// How many of the events of so many callers were done.
    fn call_all(&self, callers: u32, calls: u32) -> Option<u64> {
        thread::scope(|scope| {
            let begun: Vec<_> = (0..callers).map(|_| scope.spawn(|| self.serve_all(calls))).collect();
            begun.into_iter().map(|caller| caller.join().ok()).sum()
        })
    }
}

/// Runs the first command of these words: how much came of it, and the words behind it.
fn run<'a>(words: &'a [&'a str]) -> Option<(u64, &'a [&'a str])> {
    match words {
        ["kernel", calls, rest @ ..] => Some((alone(calls.parse().ok()?)?, rest)),
        ["serve", calls, rest @ ..] => {
            let calls = calls.parse().ok()?;
            Some((Station::open(1, calls)?.serve_all(calls), rest))
        }
        ["read", reads, rest @ ..] => Some((Station::open(1, 0)?.read_all(reads.parse().ok()?), rest)),
        ["threads", callers, calls, rest @ ..] => {
            let (callers, calls) = (callers.parse().ok()?, calls.parse().ok()?);
            Some((Station::open(callers, calls)?.call_all(callers, calls)?, rest))
        }
        [kind @ ("machine" | "clock-machine"), calls, rest @ ..] => {
            Some((told(kind, runs::machine(calls.parse().ok()?)), rest))
        }
        ["lists", count, calls, rest @ ..] => {
            let lists = lists::make(count.parse().ok()?, calls.parse().ok()?);
            Some((lists.iter().map(Vec::len).sum::<usize>() as u64 - u64::from(THREADS), rest))
        }
        [kind @ ("run" | "clock-run"), count, calls, rest @ ..] => {
            Some((told(kind, runs::run(count.parse().ok()?, calls.parse().ok()?)?), rest))
        }
        _ => None,
    }
}

/// What is told of so many events that took so long.
fn told(kind: &str, (done, took): (u64, Duration)) -> u64 {
    if kind.starts_with("clock") {
        took.as_nanos() as u64
    } else {
        done
    }
}

fn main() -> ExitCode {
    let words: Vec<String> = std::env::args().skip(1).collect();
    let words: Vec<_> = words.iter().map(String::as_str).collect();
    let mut rest = words.as_slice();
    while !rest.is_empty() {
        let Some((came, behind)) = run(rest) else {
            return ExitCode::from(3);
        };
        println!("{came}");
        rest = behind;
    }
    ExitCode::SUCCESS
}
