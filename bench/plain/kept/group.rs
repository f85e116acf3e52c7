//! A group of transactions lands as a whole: all of them are placed, or nobody is.

use crate::event::Outcome;
use crate::kernel::Kernel;
use crate::mask::Mask;
use crate::slots::{Landing, Region, Stamp};

/// A transaction of a group, as it was found before any of the group landed.
struct Member {
    cpu: u8,
    stamp: Stamp,
    /// What becomes of it by itself, and what is told of it then.
    own: Landing,
    /// Whether a thread is on its CPU.
    preempts: bool,
}

/// What becomes of those that would be placed by themselves.
enum Fate {
    Placed,
    Lost(Outcome),
}

impl Kernel {
    /// The slots of a group land, and each is told of, in increasing order of CPU.
    #[cold]
    #[inline(never)]
    pub(crate) fn commit_group(&mut self, region: &mut Region, cpus: Mask, each: &mut impl FnMut(u8, &Stamp, Landing)) {
        let members = self.members(region, cpus);
        let fate = self.settle_group(&members);
        for Member { cpu, stamp, own, .. } in &members {
            let landing = match fate {
                Fate::Placed => self.place(*cpu, stamp),
                Fate::Lost(outcome) if own.outcome == Outcome::Placed => Landing { outcome, ..*own },
                Fate::Lost(_) => *own,
            };
            region.finish(*cpu, landing);
            each(*cpu, stamp, landing);
        }
    }

    fn members(&self, region: &Region, cpus: Mask) -> Vec<Member> {
        let mut members: Vec<Member> = Vec::with_capacity(cpus.count() as usize);
        for cpu in cpus.cpus() {
            let stamp = region.stamp_of(cpu);
            let mut own = self.foreseen(cpu, &stamp);
            // A thread is in one place alone: the lowest CPU of the group that names it.
            if own.outcome == Outcome::Placed && members.iter().any(|lower| lower.stamp.tid == stamp.tid) {
                own.outcome = Outcome::GroupFailed;
            }
            members.push(Member { cpu, stamp, own, preempts: self.is_busy(cpu) });
        }
        members
    }

    /// Decides on a group. If it is to be placed, those that are on its CPUs have made way.
    fn settle_group(&mut self, members: &[Member]) -> Fate {
        if members.iter().any(|member| member.own.outcome != Outcome::Placed) {
            return Fate::Lost(Outcome::GroupFailed);
        }
        let victims = members.iter().filter(|member| member.preempts).count();
        if self.journal.is_full(members.len() + victims) {
            return Fate::Lost(Outcome::HistoryFull);
        }
        for member in members {
            if self.preempt(member.cpu).is_err() {
                return Fate::Lost(Outcome::Gone);
            }
        }
        Fate::Placed
    }
}
