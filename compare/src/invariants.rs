//! What must hold after every event of a run from a fresh state: the state is
//! in range, all sites together look like one copy, and no transaction costs
//! more messages than it may. Every check runs in full after every accepted
//! event; a refused one must leave the state that was checked last.

use crate::plain::state::{
    bit, members, Channel, Refusal, State, Status, MAX_SITES, MAX_TRANSACTIONS, OBJECTS,
};

/// What a run has shown so far.
pub struct History {
    /// The state before the event that comes next.
    last: State,
    /// The transactions committed at their own home, in that order.
    list: Vec<usize>,
    /// The messages that each transaction has cost.
    cost: [u32; MAX_TRANSACTIONS],
}

impl History {
    pub fn new(fresh: &State) -> History {
        History {
            last: fresh.clone(),
            list: Vec::new(),
            cost: [0; MAX_TRANSACTIONS],
        }
    }

    pub fn last(&self) -> &State {
        &self.last
    }

    pub fn list(&self) -> &[usize] {
        &self.list
    }

    /// Checks the state after an event with this answer, and remembers it. On
    /// failure gives a sentence that names what does not hold.
    pub fn check(&mut self, state: &State, answer: Result<u32, Refusal>) -> Result<(), String> {
        match answer {
            Err(_) => ensure(*state == self.last, || {
                "a refused event changed the state".into()
            }),
            Ok(sent) => {
                self.remember(state, sent)?;
                in_range(state)?;
                one_outcome(state)?;
                logs_in_order(state, &self.list)?;
                one_copy(state, &self.list)?;
                self.message_bound(state)
            }
        }
    }

    /// Counts the messages that are new in the channels. No event both takes
    /// and sends, so a message that was sent while it lay there already would
    /// make the event's own count too high.
    fn remember(&mut self, state: &State, sent: u32) -> Result<(), String> {
        let mut new_messages = 0;
        for (old, new) in self.last.sites.iter().zip(&state.sites) {
            let old = messages(&old.channel);
            for (old, new) in old.iter().zip(messages(&new.channel)) {
                for t in members(new & !old) {
                    self.cost[t] += 1;
                    new_messages += 1;
                }
            }
        }
        for (t, transaction) in state.transactions.iter().enumerate() {
            let committed = state.sites[transaction.home].status[t] == Status::Committed;
            if committed && !self.list.contains(&t) {
                self.list.push(t);
            }
        }
        self.last.clone_from(state);
        ensure(new_messages == sent, || {
            format!("{sent} messages counted, but {new_messages} more lie in the channels")
        })
    }

    /// A transaction committed at home has cost its remotes, readies and
    /// commits, one of each to or from every other site; others cost no more.
    fn message_bound(&self, state: &State) -> Result<(), String> {
        let full = 3 * (state.sites.len() as u32 - 1);
        for t in 0..state.transactions.len() {
            let cost = self.cost[t];
            let fits = if self.list.contains(&t) {
                cost == full
            } else {
                cost <= full
            };
            ensure(fits, || format!("transaction {t} cost {cost} messages"))?;
        }
        Ok(())
    }
}

fn ensure(holds: bool, sentence: impl Fn() -> String) -> Result<(), String> {
    if holds {
        Ok(())
    } else {
        Err(sentence())
    }
}

/// The transactions that messages of a channel are about: remotes, commits,
/// aborts, then the readies of each sender.
fn messages(channel: &Channel) -> [u32; 3 + MAX_SITES] {
    let mut sets = [0; 3 + MAX_SITES];
    sets[..3].copy_from_slice(&[channel.remote, channel.commit, channel.abort]);
    sets[3..].copy_from_slice(&channel.ready);
    sets
}

/// The numbers below a count of at most 32, as a set.
fn below(count: usize) -> u32 {
    (0..count).fold(0, |set, number| set | bit(number))
}

/// Document 01's range. Statuses are an enum, so they are 0 to 6 by type.
fn in_range(state: &State) -> Result<(), String> {
    let table = &state.transactions;
    let counts = (1..=MAX_SITES).contains(&state.sites.len())
        && (1..=MAX_TRANSACTIONS).contains(&table.len());
    ensure(counts, || "a count is out of range".into())?;
    for (t, transaction) in table.iter().enumerate() {
        let known_sites = transaction.home < state.sites.len()
            && transaction.missing & !below(state.sites.len()) == 0;
        ensure(known_sites, || format!("transaction {t} names no site"))?;
        let distinct = table[..t]
            .iter()
            .all(|e| e.priority != transaction.priority);
        ensure(distinct, || "two priorities are equal".into())?;
        let noted = transaction.noted.iter().flatten();
        let versions = noted.copied().all(|v| v as usize <= table.len());
        ensure(versions, || format!("transaction {t} noted no version"))?;
    }
    (0..state.sites.len()).try_for_each(|site| site_in_range(state, site))
}

fn site_in_range(state: &State, number: usize) -> Result<(), String> {
    let site = &state.sites[number];
    let table = &state.transactions;
    let known = below(table.len());
    let sets = messages(&site.channel);
    let senders = site.channel.ready[state.sites.len()..].iter();
    let named = site.queue & !known == 0
        && sets.iter().all(|set| set & !known == 0)
        && senders.copied().all(|set| set == 0);
    ensure(named, || format!("site {number} names what is not there"))?;
    let versions = site.versions.iter().all(|&v| v as usize <= table.len());
    ensure(versions, || format!("site {number} stores no version"))?;
    let queued =
        members(site.queue).all(|t| table[t].home != number && site.status[t] == Status::Idle);
    ensure(queued, || format!("site {number} queues one that runs"))?;
    let logged = site.log.iter().fold(0, |set, &t| set | bit(t as usize));
    let committed = with_status(state, number, Status::Committed);
    let log = logged == committed && site.log.len() == logged.count_ones() as usize;
    ensure(log, || {
        format!("the log of site {number} is not what committed")
    })
}

/// The transactions of the table that have this status at the site.
fn with_status(state: &State, site: usize, status: Status) -> u32 {
    let statuses = &state.sites[site].status[..state.transactions.len()];
    (0..statuses.len())
        .filter(|&t| statuses[t] == status)
        .fold(0, |set, t| set | bit(t))
}

/// None is committed at one site and aborted at another.
fn one_outcome(state: &State) -> Result<(), String> {
    let (mut committed, mut aborted) = (0, 0);
    for site in 0..state.sites.len() {
        committed |= with_status(state, site, Status::Committed);
        aborted |= with_status(state, site, Status::Aborted);
    }
    ensure(committed & aborted == 0, || {
        let both = committed & aborted;
        format!("committed here and aborted there: set {both:#x}")
    })
}

/// In each log two that write a common object stand in the list's order, and
/// whatever is in a log is in the list.
fn logs_in_order(state: &State, list: &[usize]) -> Result<(), String> {
    let mut place = [None; MAX_TRANSACTIONS];
    for (i, &t) in list.iter().enumerate() {
        place[t] = Some(i);
    }
    for (number, site) in state.sites.iter().enumerate() {
        for (i, &later) in site.log.iter().enumerate() {
            let (later, writes) = (later as usize, state.transactions[later as usize].writes);
            let in_order = site.log[..i].iter().all(|&earlier| {
                let common = state.transactions[earlier as usize].writes & writes != 0;
                !common || place[earlier as usize] < place[later]
            });
            ensure(in_order && place[later].is_some(), || {
                format!("site {number} logged transaction {later} out of order")
            })?;
        }
    }
    Ok(())
}

/// Run one after another on a single copy, the listed transactions read what
/// they noted, and leave what each site stores that has committed them all.
fn one_copy(state: &State, list: &[usize]) -> Result<(), String> {
    let mut copy = [0; OBJECTS];
    for &t in list {
        let transaction = &state.transactions[t];
        let reads_fit = (0..OBJECTS).all(|object| {
            let noted = transaction.noted[object];
            noted.is_none_or(|version| version == copy[object])
        });
        ensure(reads_fit, || {
            format!("transaction {t} read another version")
        })?;
        for object in members(transaction.writes) {
            copy[object] = t as u8 + 1;
        }
    }
    for (number, site) in state.sites.iter().enumerate() {
        let whole_list = list.iter().all(|&t| site.status[t] == Status::Committed);
        ensure(!whole_list || site.versions == copy, || {
            format!("site {number} committed all but stores other versions")
        })?;
    }
    Ok(())
}
