//! Scenarios drawn by a walk of the plain implementation: at each step one of
//! the enabled events is chosen, so that runs come far and conflicts happen.

use crate::plain::reader::Scenario;
use crate::plain::rules::Event;
use crate::plain::state::{bit, Entry, State, Status, MAX_EVENTS};
use crate::rng::Rng;
use crate::text;

/// What a walk looks like.
pub struct Profile {
    pub sites: usize,
    pub transactions: usize,
    pub events: usize,
    /// Operations touch objects below this number only.
    pub objects: usize,
    /// How many in a hundred of those are the transaction's own number, which
    /// no other transaction touches as often.
    pub own: usize,
    /// The fewest and the most operations of one transaction.
    pub operations: (usize, usize),
    /// The most transactions that run at home at one time.
    pub live: usize,
    /// How likely each action is chosen among the enabled ones.
    pub weights: [usize; 13],
    /// How many events in a hundred may well be refused.
    pub wild: usize,
    /// Whether a run in which nothing is enabled any more goes on, with such
    /// events, to the number of events that was asked for.
    pub fill: bool,
}

impl Profile {
    /// Any size and any habit, with so many events at most.
    pub fn random(rng: &mut Rng, events: usize) -> Profile {
        let transactions = if rng.percent(50) {
            rng.between(2, 6)
        } else {
            rng.between(1, 32)
        };
        let mut weights = [0; 13];
        for weight in &mut weights[1..] {
            *weight = rng.pick(&[4, 8, 16, 32]);
        }
        weights[6] = rng.pick(&[0, 1, 4]);
        let share = events / transactions;
        Profile {
            sites: rng.pick(&[1, 2, 2, 3, 3, 3, 4, 5, 6, 7, 8]),
            transactions,
            events,
            objects: rng.pick(&[1, 1, 2, 3, 4, 8, 32]),
            own: rng.pick(&[0, 0, 0, 80]),
            operations: (rng.below(2), rng.pick(&[1, 2, 3, share / 2 + 1, share + 1])),
            live: rng.pick(&[2, 4, 8, 32]),
            weights,
            wild: rng.pick(&[0, 5, 15, 30]),
            fill: rng.percent(20),
        }
    }

    /// As above, with many transactions at few sites that all want the same
    /// one or two objects, so that most scans meet a conflict.
    pub fn crowded(rng: &mut Rng, events: usize) -> Profile {
        Profile {
            sites: rng.between(2, 4),
            transactions: rng.between(5, 20),
            objects: rng.between(1, 2),
            own: 0,
            operations: (1, rng.between(1, 2)),
            live: 32,
            ..Profile::random(rng, events)
        }
    }

    /// A run in which transactions commit at all sites, with some conflicts;
    /// most events are accepted. Each transaction gets as many operations as
    /// fit into its share of the events, and some more, as others abort.
    pub fn steady(sites: usize, transactions: usize, events: usize) -> Profile {
        let share = events / transactions;
        let others = 4 + 5 * (sites - 1);
        let operations = (share.saturating_sub(others) * 5 / 8).max(1);
        let mut weights = [64; 13];
        weights[6] = 1;
        Profile {
            sites,
            transactions,
            events,
            objects: 32,
            own: 95,
            operations: (operations, operations),
            live: (events / 64).clamp(1, 4),
            weights,
            wild: 0,
            fill: true,
        }
    }
}

/// Draws a scenario.
pub fn walk(rng: &mut Rng, profile: &Profile) -> Scenario {
    let table = draw_table(rng, profile.sites, profile.transactions);
    let sites = profile.sites as u32;
    let state = State::setup(sites, &table).expect("a drawn table is in order");
    let operations_left = (0..profile.transactions)
        .map(|_| rng.between(profile.operations.0, profile.operations.1))
        .collect();
    let mut walk = Walk {
        profile,
        state,
        operations_left,
        enabled: Vec::new(),
    };
    let count = profile.events.min(MAX_EVENTS);
    let events = (0..count).map_while(|_| walk.next(rng)).collect();
    Scenario {
        sites,
        table,
        events,
    }
}

/// Homes and differing priorities, some of them at the ends of their range.
pub fn draw_table(rng: &mut Rng, sites: usize, transactions: usize) -> Vec<Entry> {
    let mut table: Vec<Entry> = Vec::new();
    while table.len() < transactions {
        let priority = match rng.below(4) {
            0 => rng.pick(&[0, 1, u32::MAX, u32::MAX - 1, 1 << 31]),
            1 => rng.next() as u32,
            _ => rng.below(100) as u32,
        };
        if table.iter().all(|entry| entry.priority != priority) {
            let home = rng.below(sites) as u32;
            table.push(Entry { home, priority });
        }
    }
    table
}

struct Walk<'a> {
    profile: &'a Profile,
    state: State,
    operations_left: Vec<usize>,
    /// The enabled events with the weights of their actions.
    enabled: Vec<(Event, usize)>,
}

impl Walk<'_> {
    /// The event that comes next, or nothing when the run is at its end.
    fn next(&mut self, rng: &mut Rng) -> Option<Event> {
        self.find_enabled();
        let event = match self.choose(rng) {
            Some(event) if rng.percent(self.profile.wild) => self.wild(rng, event),
            Some(event) => self.fill(rng, event),
            None if self.profile.fill => {
                let likely = self.impatient(rng);
                self.wild(rng, likely)
            }
            None => return None,
        };
        if self.state.step(&event).is_ok() && event.action == 2 {
            let left = &mut self.operations_left[event.transaction as usize];
            *left = left.saturating_sub(1);
        }
        Some(event)
    }

    fn choose(&self, rng: &mut Rng) -> Option<Event> {
        let total: usize = self.enabled.iter().map(|(_, weight)| weight).sum();
        if total == 0 {
            return None;
        }
        let mut point = rng.below(total);
        for (event, weight) in &self.enabled {
            if point < *weight {
                return Some(*event);
            }
            point -= weight;
        }
        None
    }

    fn find_enabled(&mut self) {
        self.enabled.clear();
        for site in 0..self.state.sites.len() {
            for t in 0..self.state.transactions.len() {
                if self.state.transactions[t].home == site {
                    self.find_at_home(site, t);
                } else {
                    self.find_away(site, t);
                }
            }
            if self.state.sites[site].queue != 0 && self.state.sites[site].remove {
                self.add(11, site, 0);
            }
        }
    }

    fn add(&mut self, action: u32, site: usize, t: usize) {
        self.add_message(action, site, t, 0, 0);
    }

    fn add_message(&mut self, action: u32, site: usize, t: usize, kind: u32, from: usize) {
        let event = text::event([action, site as u32, t as u32, kind, from as u32, 0, 0]);
        let weight = self.profile.weights[action as usize];
        self.enabled.push((event, weight));
    }

    /// Operations come first, then the wish to commit. An end of operation
    /// that clashes is left to the wild events.
    fn find_at_home(&mut self, site: usize, t: usize) {
        match self.state.sites[site].status[t] {
            Status::Start if self.live() < self.profile.live => self.add(1, site, t),
            Status::Active if self.operations_left[t] > 0 => self.add(2, site, t),
            Status::Active => self.add(4, site, t),
            Status::Blocked => {
                if !self.state.clashes(site, t) {
                    self.add(3, site, t);
                }
                self.add(6, site, t);
            }
            Status::PreCommit if self.state.transactions[t].missing == 0 => self.add(5, site, t),
            Status::PreCommit => self.add_readies(8, 0, site, t),
            Status::Aborted => self.add_readies(12, 2, site, t),
            _ => {}
        }
    }

    fn add_readies(&mut self, action: u32, kind: u32, site: usize, t: usize) {
        for from in 0..self.state.sites.len() {
            if self.state.sites[site].channel.ready[from] & bit(t) != 0 {
                self.add_message(action, site, t, kind, from);
            }
        }
    }

    fn find_away(&mut self, site: usize, t: usize) {
        let channel = self.state.sites[site].channel;
        let status = self.state.sites[site].status[t];
        let lies = |messages: u32| messages & bit(t) != 0;
        match status {
            Status::Idle if lies(channel.remote) => self.add(7, site, t),
            Status::Blocked => self.add(3, site, t),
            Status::PreCommit if lies(channel.commit) => self.add(9, site, t),
            Status::Aborted if lies(channel.remote) => self.add_message(12, site, t, 1, 0),
            _ => {}
        }
        if status != Status::Aborted && lies(channel.abort) {
            self.add(10, site, t);
        }
    }

    fn live(&self) -> usize {
        let homes = self.state.transactions.iter().enumerate();
        homes
            .filter(|(t, transaction)| self.state.sites[transaction.home].status[*t].executes())
            .count()
    }

    /// Gives a begin of operation its sets; other events have all they need.
    fn fill(&self, rng: &mut Rng, mut event: Event) -> Event {
        if event.action == 2 {
            let (reads, writes) = rng.pick(&[(1, 0), (0, 1), (1, 1), (2, 1), (1, 2), (0, 0)]);
            let t = event.transaction as usize;
            event.reads = self.draw_objects(rng, t, reads);
            event.writes = self.draw_objects(rng, t, writes);
        }
        event
    }

    fn draw_objects(&self, rng: &mut Rng, t: usize, count: usize) -> u32 {
        (0..count).fold(0, |set, _| {
            let own = rng.percent(self.profile.own);
            set | bit(if own {
                t
            } else {
                rng.below(self.profile.objects)
            })
        })
    }

    /// An event that may well be refused: one that comes too early, a scan,
    /// any action that the table knows, or the likely event with fields
    /// changed.
    fn wild(&self, rng: &mut Rng, likely: Event) -> Event {
        match rng.below(4) {
            0 => self.impatient(rng),
            1 => self.scan_again(rng),
            2 => self.plausible(rng),
            _ => self.changed(rng, likely),
        }
    }

    /// A scan, if possible where a transaction waits for the next one.
    fn scan_again(&self, rng: &mut Rng) -> Event {
        let waits = |&site: &usize| self.state.sites[site].queue != 0;
        let waiting: Vec<usize> = (0..self.profile.sites).filter(waits).collect();
        let site = if waiting.is_empty() {
            rng.below(self.profile.sites)
        } else {
            rng.pick(&waiting)
        };
        text::event([11, site as u32, 0, 0, 0, 0, 0])
    }

    /// At home, the action that fits the status, whether its time has come or
    /// not: this meets the locks and the missing sets.
    fn impatient(&self, rng: &mut Rng) -> Event {
        let t = rng.below(self.profile.transactions);
        let home = self.state.transactions[t].home;
        let action = match self.state.sites[home].status[t] {
            Status::Start => 1,
            Status::Active => 2,
            Status::Blocked => 3,
            Status::PreCommit => rng.pick(&[5, 8]),
            _ => 12,
        };
        self.in_order(rng, action, home, t)
    }

    /// An action, a site and a transaction that exist: what refuses it is the
    /// home, the status, a message, a lock or a queue.
    fn plausible(&self, rng: &mut Rng) -> Event {
        let action = rng.between(1, 12) as u32;
        let site = rng.below(self.profile.sites);
        let t = rng.below(self.profile.transactions);
        self.in_order(rng, action, site, t)
    }

    /// An event whose fields are filled as its action asks.
    fn in_order(&self, rng: &mut Rng, action: u32, site: usize, t: usize) -> Event {
        let from = rng.below(self.profile.sites) as u32;
        let kind = rng.between(1, 4) as u32;
        let (t, site) = (t as u32, site as u32);
        let event = match action {
            8 => text::event([8, site, t, 0, from, 0, 0]),
            11 => text::event([11, site, 0, 0, 0, 0, 0]),
            12 if kind == 2 => text::event([12, site, t, kind, from, 0, 0]),
            12 => text::event([12, site, t, kind, 0, 0, 0]),
            _ => text::event([action, site, t, 0, 0, 0, 0]),
        };
        self.fill(rng, event)
    }

    fn changed(&self, rng: &mut Rng, likely: Event) -> Event {
        let mut fields = text::fields(&likely);
        for _ in 0..rng.pick(&[1, 1, 1, 2]) {
            let field = rng.below(7);
            fields[field] = match rng.below(3) {
                0 => rng.below(14) as u32,
                1 => rng.below(self.profile.transactions) as u32,
                _ => rng.pick(&[0, 1, 8, 9, 12, 13, 32, 40, 1 << 31, u32::MAX]),
            };
        }
        text::event(fields)
    }
}
