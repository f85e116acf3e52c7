//! What lies under the lock: the kernel, and the calls that it accepted.

use crate::board::{Board, Words};
use crate::event::{Facts, Refusal};
use crate::journal::Entry;
use crate::kernel::Kernel;
use crate::mask::Mask;
use crate::parcels::Poster;
use crate::ring::Post;

/// What the kernel is told. Only some are called here.
#[allow(dead_code)]
#[derive(Clone, Copy, PartialEq, Eq)]
pub enum Command {
    Create { facts: Facts },
    Block { tid: u32 },
    Wake { tid: u32 },
    Yield { tid: u32 },
    Die { tid: u32 },
    Affinity { tid: u32, mask: Mask },
    Take { cpu: u16 },
    Give { cpu: u16 },
    Tick { cpu: u16 },
    HandOff { cpu: u16 },
    Leave,
    Begin,
    Activate { cpu: u16 },
}

/// Tells the kernel a command.
#[inline(always)]
pub fn obey<R: Post>(kernel: &mut Kernel<R>, command: &Command) -> Result<(), Refusal> {
    match *command {
        Command::Create { facts } => kernel.create(facts).map(|_| ()),
        Command::Block { tid } => kernel.block(tid).map(|_| ()),
        Command::Wake { tid } => kernel.wake(tid).map(|_| ()),
        Command::Yield { tid } => kernel.yield_cpu(tid).map(|_| ()),
        Command::Die { tid } => kernel.die(tid).map(|_| ()),
        Command::Affinity { tid, mask } => kernel.affinity(tid, mask).map(|_| ()),
        Command::Take { cpu } => kernel.take(cpu).map(|_| ()),
        Command::Give { cpu } => kernel.give(cpu).map(|_| ()),
        Command::Tick { cpu } => kernel.tick(cpu).map(|_| ()),
        Command::HandOff { cpu } => kernel.hand_off(cpu).map(|_| ()),
        Command::Leave => kernel.leave(false),
        Command::Begin => kernel.begin().map(|_| ()),
        Command::Activate { cpu } => kernel.activate(cpu).map(|_| ()),
    }
}

#[derive(Clone, Copy, PartialEq, Eq)]
pub enum Reply {
    Refused(Refusal),
    Torn,
    Done(Entry),
}

/// A call that was accepted: at which length of the journal, and how many entries it added.
pub struct Call {
    command: Command,
    at: u32,
    entries: u32,
    reply: Reply,
}

impl Call {
    /// Whether a command got this receipt by this call.
    fn has(&self, command: &Command, receipt: &Receipt) -> bool {
        self.command == *command && self.entries == receipt.entries && self.reply == receipt.reply
    }
}

pub struct Receipt {
    pub at: u32,
    pub entries: u32,
    pub reply: Reply,
}

pub struct Enclave {
    kernel: Kernel<Poster>,
    calls: Vec<Call>,
    /// What the board shows.
    shown: Words,
}

impl Enclave {
    pub fn new(kernel: Kernel<Poster>) -> (Enclave, Board) {
        let shown = Words::of(&kernel);
        (Enclave { kernel, calls: Vec::new(), shown }, Board::new(shown))
    }

    /// The kernel, and the calls.
    pub fn parts(&self) -> (&Kernel<Poster>, &[Call]) {
        (&self.kernel, &self.calls)
    }

    fn entries(&self) -> u32 {
        self.kernel.journal.entries().len() as u32
    }

    /// Serves a command. Unless it is refused, the call is kept, and the board shows what came of it.
    pub fn serve(&mut self, board: &Board, command: &Command) -> Receipt {
        let at = self.entries();
        let reply = match obey(&mut self.kernel, command) {
            Ok(()) => Reply::Done(self.kernel.journal.entries()[self.kernel.journal.entries().len() - 1]),
            Err(Refusal::Torn) => Reply::Torn,
            Err(refusal) => return Receipt { at, entries: 0, reply: Reply::Refused(refusal) },
        };
        let entries = self.entries() - at;
        self.calls.push(Call { command: *command, at, entries, reply });
        let now = Words::of(&self.kernel);
        board.publish(self.shown, now);
        self.shown = now;
        Receipt { at, entries, reply }
    }
}

/// Whether there is a receipt for each command, in order, whose places in the journal never fall, and each that was not refused
/// stands in the calls.
pub fn are_answered(calls: &[Call], commands: &[Command], receipts: &[Receipt]) -> bool {
    let (mut calls, mut from) = (calls, 0);
    commands.len() == receipts.len()
        && commands.iter().zip(receipts).all(|(command, receipt)| {
            let in_order = from <= receipt.at;
            from = receipt.at;
            calls = &calls[calls.iter().take_while(|call| call.at < receipt.at).count()..];
            let mut here = calls.iter().take_while(|call| call.at == receipt.at);
            in_order && (matches!(receipt.reply, Reply::Refused(_)) || here.any(|call| call.has(command, receipt)))
        })
}
