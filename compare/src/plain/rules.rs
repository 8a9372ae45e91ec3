//! The twelve actions, one event at a time, and a run of events.

use super::state::{bit, members, Message, Refusal, State, Status, MAX_EVENTS};

/// One event as the scenario gives it, before any check.
#[derive(Clone, Copy, Default, PartialEq, Eq, Debug)]
pub struct Event {
    pub action: u32,
    pub site: u32,
    pub transaction: u32,
    pub kind: u32,
    pub from: u32,
    pub reads: u32,
    pub writes: u32,
}

/// Runs the events, writes one answer an event and gives the messages sent.
/// Places beyond the events keep what they hold.
pub fn run(state: &mut State, events: &[Event], answers: &mut [u8]) -> Result<u32, Refusal> {
    if events.len() > MAX_EVENTS {
        return Err(Refusal::TooManyEvents);
    }
    if answers.len() < events.len() {
        return Err(Refusal::AnswersTooShort);
    }
    let mut messages = 0;
    for (event, answer) in events.iter().zip(answers) {
        match state.step(event) {
            Ok(sent) => {
                messages += sent;
                *answer = 0;
            }
            Err(refusal) => *answer = refusal.number(),
        }
    }
    Ok(messages)
}

impl State {
    /// Does one event and gives the messages sent. All checks stand before
    /// the first change, so a refused event leaves the state as it was.
    pub fn step(&mut self, event: &Event) -> Result<u32, Refusal> {
        self.check_fields(event)?;
        let site = event.site as usize;
        let t = event.transaction as usize;
        self.check_home(event.action, site, t)?;
        match event.action {
            1 => self.create(site, t),
            2 => self.begin_operation(site, t, event.reads, event.writes),
            3 => self.end_operation(site, t),
            4 => self.begin_commit(site, t),
            5 => self.end_commit(site, t),
            6 => self.local_abort(site, t),
            7 => self.receive_remote(site, t),
            8 => self.receive_ready(site, t, event.from as usize),
            9 => self.receive_commit(site, t),
            10 => self.receive_abort(site, t),
            11 => self.execute_remote(site),
            _ => self.discard(site, t, event.kind, event.from as usize),
        }
    }

    fn check_fields(&self, event: &Event) -> Result<(), Refusal> {
        if !(1..=12).contains(&event.action) {
            return Err(Refusal::UnknownAction);
        }
        if event.site as usize >= self.sites.len() {
            return Err(Refusal::NoSuchSite);
        }
        if event.transaction as usize >= self.transactions.len() {
            return Err(Refusal::NoSuchTransaction);
        }
        if !self.well_filled(event) {
            return Err(Refusal::IllFilled);
        }
        Ok(())
    }

    /// Whether the fields that the action uses fit and all others are 0.
    fn well_filled(&self, event: &Event) -> bool {
        let from_is_site = (event.from as usize) < self.sites.len();
        let no_masks = event.reads == 0 && event.writes == 0;
        let no_message = event.kind == 0 && event.from == 0;
        match event.action {
            2 => no_message,
            8 => event.kind == 0 && from_is_site && no_masks,
            11 => event.transaction == 0 && no_message && no_masks,
            12 => match event.kind {
                2 => from_is_site && no_masks,
                1 | 3 | 4 => event.from == 0 && no_masks,
                _ => false,
            },
            _ => no_message && no_masks,
        }
    }

    fn check_home(&self, action: u32, site: usize, t: usize) -> Result<(), Refusal> {
        let at_home = self.transactions[t].home == site;
        let fits = match action {
            1 | 2 | 4 | 5 | 6 | 8 => at_home,
            7 | 9 | 10 => !at_home,
            _ => true,
        };
        if fits {
            Ok(())
        } else {
            Err(Refusal::WrongHome)
        }
    }

    fn expect(&self, site: usize, t: usize, status: Status) -> Result<(), Refusal> {
        if self.sites[site].status[t] == status {
            Ok(())
        } else {
            Err(Refusal::WrongStatus)
        }
    }

    fn create(&mut self, site: usize, t: usize) -> Result<u32, Refusal> {
        self.expect(site, t, Status::Start)?;
        self.sites[site].status[t] = Status::Active;
        Ok(0)
    }

    fn begin_operation(
        &mut self,
        site: usize,
        t: usize,
        reads: u32,
        writes: u32,
    ) -> Result<u32, Refusal> {
        self.expect(site, t, Status::Active)?;
        self.transactions[t].pending_reads = reads;
        self.transactions[t].pending_writes = writes;
        self.sites[site].status[t] = Status::Blocked;
        Ok(0)
    }

    /// At home the operation ends once it clashes with nobody. Away from home
    /// the writes are held since the scan, so nothing is left to check.
    fn end_operation(&mut self, site: usize, t: usize) -> Result<u32, Refusal> {
        self.expect(site, t, Status::Blocked)?;
        if self.transactions[t].home != site {
            self.sites[site].status[t] = Status::PreCommit;
            return Ok(0);
        }
        if self.clashes(site, t) {
            return Err(Refusal::LockClash);
        }
        self.join_pending(site, t);
        self.sites[site].status[t] = Status::Active;
        Ok(0)
    }

    /// What a transaction holds at a site, as reads and writes.
    pub fn held(&self, site: usize, t: usize) -> (u32, u32) {
        let transaction = &self.transactions[t];
        if !self.sites[site].status[t].executes() {
            (0, 0)
        } else if transaction.home == site {
            (transaction.reads, transaction.writes)
        } else {
            (0, transaction.writes)
        }
    }

    /// Whether another transaction holds what the pending sets need.
    pub fn clashes(&self, site: usize, t: usize) -> bool {
        let pending_reads = self.transactions[t].pending_reads;
        let pending_writes = self.transactions[t].pending_writes;
        (0..self.transactions.len()).any(|other| {
            let (reads, writes) = self.held(site, other);
            other != t && (writes & pending_reads != 0 || (reads | writes) & pending_writes != 0)
        })
    }

    /// The first read of an object notes the version it saw, unless the
    /// transaction has written the object before; then the sets grow.
    fn join_pending(&mut self, site: usize, t: usize) {
        let versions = &self.sites[site].versions;
        let transaction = &mut self.transactions[t];
        let known = transaction.reads | transaction.writes;
        for object in members(transaction.pending_reads & !known) {
            transaction.noted[object] = Some(versions[object]);
        }
        transaction.reads |= transaction.pending_reads;
        transaction.writes |= transaction.pending_writes;
        transaction.pending_reads = 0;
        transaction.pending_writes = 0;
    }

    fn begin_commit(&mut self, site: usize, t: usize) -> Result<u32, Refusal> {
        self.expect(site, t, Status::Active)?;
        self.sites[site].status[t] = Status::PreCommit;
        self.transactions[t].missing = (bit(self.sites.len()) - 1) & !bit(site);
        Ok(self.send_to_others(site, t, Message::Remote))
    }

    fn end_commit(&mut self, site: usize, t: usize) -> Result<u32, Refusal> {
        self.expect(site, t, Status::PreCommit)?;
        if self.transactions[t].missing != 0 {
            return Err(Refusal::MissingSet);
        }
        self.commit_here(site, t);
        Ok(self.send_to_others(site, t, Message::Commit))
    }

    /// Puts the message into every channel but the sender's own and gives the
    /// number of messages that makes.
    pub fn send_to_others(&mut self, site: usize, t: usize, message: Message) -> u32 {
        for (other, receiver) in self.sites.iter_mut().enumerate() {
            if other != site {
                receiver.channel.put(message, t);
            }
        }
        self.sites.len() as u32 - 1
    }

    fn commit_here(&mut self, site: usize, t: usize) {
        let site = &mut self.sites[site];
        site.status[t] = Status::Committed;
        site.log.push(t as u8);
        for object in members(self.transactions[t].writes) {
            site.versions[object] = t as u8 + 1;
        }
        site.remove |= site.queue != 0;
    }

    fn local_abort(&mut self, site: usize, t: usize) -> Result<u32, Refusal> {
        self.expect(site, t, Status::Blocked)?;
        self.sites[site].status[t] = Status::Aborted;
        self.sites[site].remove = true;
        Ok(0)
    }

    fn receive_remote(&mut self, site: usize, t: usize) -> Result<u32, Refusal> {
        self.expect(site, t, Status::Idle)?;
        let site = &mut self.sites[site];
        site.channel.take(Message::Remote, t)?;
        site.queue |= bit(t);
        site.remove = true;
        Ok(0)
    }

    fn receive_ready(&mut self, site: usize, t: usize, from: usize) -> Result<u32, Refusal> {
        self.expect(site, t, Status::PreCommit)?;
        if self.transactions[t].missing == 0 {
            return Err(Refusal::MissingSet);
        }
        let message = Message::Ready { from };
        self.sites[site].channel.take(message, t)?;
        self.transactions[t].missing &= !bit(from);
        Ok(0)
    }

    fn receive_commit(&mut self, site: usize, t: usize) -> Result<u32, Refusal> {
        self.expect(site, t, Status::PreCommit)?;
        self.sites[site].channel.take(Message::Commit, t)?;
        self.commit_here(site, t);
        Ok(0)
    }

    fn receive_abort(&mut self, site: usize, t: usize) -> Result<u32, Refusal> {
        let site = &mut self.sites[site];
        if matches!(site.status[t], Status::Committed | Status::Aborted) {
            return Err(Refusal::WrongStatus);
        }
        site.channel.take(Message::Abort, t)?;
        site.status[t] = Status::Aborted;
        site.queue &= !bit(t);
        site.remove |= site.queue != 0;
        Ok(0)
    }

    fn discard(&mut self, site: usize, t: usize, kind: u32, from: usize) -> Result<u32, Refusal> {
        self.expect(site, t, Status::Aborted)?;
        let message = match kind {
            1 => Message::Remote,
            2 => Message::Ready { from },
            3 => Message::Commit,
            _ => Message::Abort,
        };
        self.sites[site].channel.take(message, t)?;
        Ok(0)
    }
}
