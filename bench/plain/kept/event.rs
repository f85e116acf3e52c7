//! The words that all parts speak: events, refusals, outcomes, names.

use crate::mask::Mask;
use crate::slots::Flags;

/// The most CPUs, and the most threads.
pub const MOST_CPUS: usize = 128;
pub const MOST_THREADS: u32 = 65_536;
/// Where a CPU would stand: there is none.
pub const NO_CPU: u8 = 255;

/// The name of a thread: at most 16 bytes, zeros behind them.
#[derive(Clone, Copy, Default, PartialEq, Eq)]
pub struct Name {
    pub bytes: [u8; 16],
    pub length: u8,
}

impl Name {
    /// The first so many bytes of these.
    pub fn front(bytes: &[u8; 16], length: u8) -> Name {
        let all = u128::from_le_bytes(*bytes);
        let kept = if length < 16 { all & ((1 << (8 * length)) - 1) } else { all };
        Name { bytes: kept.to_le_bytes(), length }
    }
}

/// What is known of a thread beside its number.
#[derive(Clone, Copy, Default, PartialEq, Eq)]
pub struct Facts {
    pub mask: Mask,
    pub name: Name,
    pub class: u8,
    pub runnable: bool,
}

/// A CPU, and whether a thread on it is to make way for this one.
#[derive(Clone, Copy)]
pub struct Choice {
    pub tid: u32,
    pub cpu: u8,
    pub preempt: bool,
}

/// How the agent plans: in order, or with ticks after which one of class 1 makes way for another.
#[derive(Clone, Copy)]
pub enum Policy {
    First,
    Two { slice: u16 },
}

/// A line of a script. A name is told by its place in the script and its length, 0 for the empty one, and a mask by its
/// place among the script's masks.
#[derive(Clone, Copy)]
pub enum Event {
    Create { mask: u32, name: u32, length: u8, class: u8, runnable: bool },
    Block { tid: u32 },
    Wake { tid: u32 },
    Yield { tid: u32 },
    Die { tid: u32 },
    Affinity { tid: u32, mask: u32 },
    Take { cpu: u16 },
    Give { cpu: u16 },
    Tick { cpu: u16 },
    HandOff { cpu: u16 },
    Drain { max: u32 },
    Decide,
    Commit { mask: u32 },
    Late { number: u32 },
    Stamp { cpu: u16, tid: u32, flags: Flags },
    Crash,
    Leave,
    Begin { policy: Option<Policy> },
    Page { max: u16 },
    Activate { cpu: u16 },
    View,
    State,
    Unread,
}

/// Why an event did nothing. `Torn` is none: the event's message did not fit, and the enclave is gone.
#[derive(Clone, Copy, PartialEq, Eq)]
pub enum Refusal {
    NoThread = 1,
    NotRunning,
    NotBlocked,
    EmptyMask,
    BadCpu,
    AgentThere,
    CpuTaken,
    NotTaken,
    NotActive,
    StillAttached,
    NotAttaching,
    SeqSpent,
    GenSpent,
    TidsSpent,
    HistoryFull,
    SlotOpen,
    NoSuchTransaction,
    Gone,
    Torn,
}

impl Refusal {
    /// The reply line.
    pub fn line(self) -> &'static str {
        const LINES: [&str; 20] = [
            "",
            "refused 1 NoThread\n",
            "refused 2 NotRunning\n",
            "refused 3 NotBlocked\n",
            "refused 4 EmptyMask\n",
            "refused 5 BadCpu\n",
            "refused 6 AgentThere\n",
            "refused 7 CpuTaken\n",
            "refused 8 NotTaken\n",
            "refused 9 NotActive\n",
            "refused 10 StillAttached\n",
            "refused 11 NotAttaching\n",
            "refused 12 SeqSpent\n",
            "refused 13 GenSpent\n",
            "refused 14 TidsSpent\n",
            "refused 15 HistoryFull\n",
            "refused 16 SlotOpen\n",
            "refused 17 NoSuchTransaction\n",
            "refused 18 Gone\n",
            "torn\n",
        ];
        LINES[self as usize]
    }
}

/// Returns a refusal if it holds.
#[inline(always)]
pub fn refuse_if(holds: bool, refusal: Refusal) -> Result<(), Refusal> {
    if holds {
        Err(refusal)
    } else {
        Ok(())
    }
}

/// What became of a transaction.
#[derive(Clone, Copy, PartialEq, Eq)]
pub enum Outcome {
    Placed,
    Gone,
    Displaced,
    NoThread,
    Stale,
    NotRunnable,
    AlreadyPlaced,
    NotAllowed,
    CpuIsAgent,
    CpuTaken,
    CpuBusy,
    SeqSpent,
    HistoryFull,
    GroupFailed = 14,
}

impl Outcome {
    /// The word of the reply line.
    pub fn word(self) -> &'static str {
        const WORDS: [&str; 15] = [
            " placed ",
            " gone ",
            " displaced ",
            " nothread ",
            " stale ",
            " notrunnable ",
            " alreadyplaced ",
            " notallowed ",
            " cpuisagent ",
            " cputaken ",
            " cpubusy ",
            " seqspent ",
            " historyfull ",
            "",
            " groupfailed ",
        ];
        WORDS[self as usize]
    }

    /// The outcome of this number.
    pub fn numbered(number: u16) -> Outcome {
        use Outcome::*;
        const ALL: [Outcome; 13] = [
            Placed,
            Gone,
            Displaced,
            NoThread,
            Stale,
            NotRunnable,
            AlreadyPlaced,
            NotAllowed,
            CpuIsAgent,
            CpuTaken,
            CpuBusy,
            SeqSpent,
            HistoryFull,
        ];
        ALL.get(number as usize).copied().unwrap_or(GroupFailed)
    }
}
