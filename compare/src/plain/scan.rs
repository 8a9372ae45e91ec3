//! Action 11: the scan that submits the queued transactions of a site.

use super::state::{bit, members, Message, Refusal, State, Status};

impl State {
    /// Takes the queue by priority. Each one sees what was done for those
    /// before it; those that must wait are the queue afterwards.
    pub fn execute_remote(&mut self, site: usize) -> Result<u32, Refusal> {
        if self.sites[site].queue == 0 || !self.sites[site].remove {
            return Err(Refusal::NothingToScan);
        }
        let mut rest = self.sites[site].queue;
        let mut waiting = 0;
        let mut sent = 0;
        while let Some(t) = self.highest_priority(rest) {
            rest &= !bit(t);
            let conflicts = self.conflicts(site, t);
            if members(conflicts).any(|other| self.must_wait(site, t, other)) {
                waiting |= bit(t);
            } else {
                sent += self.submit(site, t, conflicts);
            }
        }
        self.sites[site].queue = waiting;
        self.sites[site].remove = false;
        Ok(sent)
    }

    fn highest_priority(&self, queue: u32) -> Option<usize> {
        members(queue).max_by_key(|&t| self.transactions[t].priority)
    }

    /// The other transactions that hold an object of t's write set here.
    fn conflicts(&self, site: usize, t: usize) -> u32 {
        let needed = self.transactions[t].writes;
        let mut conflicts = 0;
        for other in 0..self.transactions.len() {
            let (reads, writes) = self.held(site, other);
            if other != t && (reads | writes) & needed != 0 {
                conflicts |= bit(other);
            }
        }
        conflicts
    }

    /// A remote one that runs already is never aborted, and a local one that
    /// asked to commit only by a higher priority.
    fn must_wait(&self, site: usize, t: usize, other: usize) -> bool {
        let (arriving, running) = (&self.transactions[t], &self.transactions[other]);
        running.home != site
            || (self.sites[site].status[other] == Status::PreCommit
                && running.priority >= arriving.priority)
    }

    /// Aborts the conflicts, all of them local, and starts t here. Only those
    /// that asked to commit are known elsewhere, so only they send abort.
    fn submit(&mut self, site: usize, t: usize, conflicts: u32) -> u32 {
        let mut sent = 0;
        for other in members(conflicts) {
            if self.sites[site].status[other] == Status::PreCommit {
                sent += self.send_to_others(site, other, Message::Abort);
            }
            self.sites[site].status[other] = Status::Aborted;
        }
        let home = self.transactions[t].home;
        let ready = Message::Ready { from: site };
        self.sites[home].channel.put(ready, t);
        self.sites[site].status[t] = Status::Blocked;
        sent + 1
    }
}
