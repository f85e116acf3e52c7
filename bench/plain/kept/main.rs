//! A second yardstick for the proved program: it writes the same output for the same scripts, byte for byte, keeps what
//! the proved one keeps, and proves nothing. `bench/compare` builds it and measures all, `bench/agree` tries whether they
//! agree.
//!
//!     kept run                 writes the replies to the script that it reads from standard input
//!     kept report --last N     writes the report on it
//!     kept journal             writes all that happened
//!     kept KIND N THREADS CPUS runs N rounds of events without a script, and tells how much came of them
//!
//! The whole script is read into events before the first one runs, and nothing is written before the last has ended. It
//! keeps the journal with each entry, the ring's bytes and the slots' as the layout has them, pages as bytes, a status word
//! for each thread, the agent's records, beliefs and queue, and the transactions. It is plain Rust without `unsafe`.

mod bits;
mod dump;
mod event;
mod faults;
mod group;
mod history;
mod journal;
mod kernel;
mod land;
mod lines;
mod loops;
mod machine;
mod mask;
mod report;
mod ring;
mod role;
mod script;
mod slots;
mod threads;

use machine::Machine;
use std::io::{self, Read, Write};
use std::process::ExitCode;

const SCRIPT_FAULT: u8 = 2;
const WRONG_ARGUMENTS: u8 = 3;
const IO_FAULT: u8 = 4;

/// What is asked for.
enum Asked {
    Lines,
    Report {
        last: usize,
    },
    Journal,
    /// How much came of rounds without a script.
    Rounds(u64),
}

fn asked(words: &[String]) -> Option<Asked> {
    let words: Vec<_> = words.iter().map(String::as_str).collect();
    match words.as_slice() {
        ["run"] => Some(Asked::Lines),
        ["report"] => Some(Asked::Report { last: 10 }),
        ["report", "--last", last] => {
            last.parse().ok().filter(|last| (1..=1000).contains(last)).map(|last| Asked::Report { last })
        }
        ["journal"] => Some(Asked::Journal),
        rounds => loops::run(rounds).map(Asked::Rounds),
    }
}

/// The text that is read, a line end and room behind it, and how many bytes it has: at most one too many.
fn read() -> io::Result<(Vec<u8>, usize)> {
    let mut text = vec![0; script::MOST_BYTES + 1 + script::ROOM];
    let mut length = 0;
    while length <= script::MOST_BYTES {
        match io::stdin().lock().read(&mut text[length..=script::MOST_BYTES]) {
            Ok(0) => break,
            Ok(more) => length += more,
            Err(error) if error.kind() == io::ErrorKind::Interrupted => {}
            Err(error) => return Err(error),
        }
    }
    text[length] = b'\n';
    text.truncate(length + script::ROOM);
    Ok((text, length))
}

fn put(bytes: &[u8]) -> io::Result<()> {
    let mut output = io::stdout().lock();
    output.write_all(bytes)?;
    output.flush()
}

fn answer(asked: &Asked) -> io::Result<u8> {
    if let Asked::Rounds(sum) = asked {
        return put(format!("{sum}\n").as_bytes()).map(|()| 0);
    }
    let (text, length) = read()?;
    let script = match script::read(&text, length) {
        Ok(script) => script,
        Err((line, fault)) => return put(format!("fault line {line} {fault:?}\n").as_bytes()).map(|()| SCRIPT_FAULT),
    };
    let mut machine = Machine::new(&script.settings, script.policy, &text, &script.masks);
    for event in &script.events {
        machine.step(event);
    }
    match asked {
        Asked::Lines => put(machine.lines.bytes())?,
        Asked::Report { last } => put(report::report(&machine, script.events.len(), *last).as_bytes())?,
        Asked::Journal => put(history::journal(machine.kernel()).bytes())?,
        Asked::Rounds(_) => {}
    }
    Ok(0)
}

fn main() -> ExitCode {
    let words: Vec<String> = std::env::args().skip(1).collect();
    let Some(asked) = asked(&words) else {
        eprintln!("kept: usage: kept run, kept report [--last N] with N from 1 to 1000, kept journal, or kept KIND N THREADS CPUS");
        return WRONG_ARGUMENTS.into();
    };
    match answer(&asked) {
        Ok(status) => status.into(),
        Err(error) => {
            eprintln!("kept: {error}");
            IO_FAULT.into()
        }
    }
}
