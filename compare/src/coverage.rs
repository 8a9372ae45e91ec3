//! What a random comparison has met. A kind that was never met makes it fail,
//! as a comparison that misses a kind says nothing about it.

use crate::plain::reader::Scenario;
use crate::plain::rules::Event;
use crate::plain::state::{members, Refusal, State, Status};
use std::collections::BTreeMap;

/// Answers 1 and 32 have no kind: a text cannot hand over a state, nor room
/// for answers. Discards of commits and aborts are only met refused: from a
/// fresh state no commit lies where its transaction is aborted, and an abort
/// is taken by the very event that aborts.
#[derive(Clone, Copy, PartialEq, Eq, PartialOrd, Ord, Debug)]
pub enum Kind {
    Accepted(u32),
    Refused(u8),
    Setup(u8),
    SeveralRefusals,
    FaultZero,
    FaultFirstLine,
    FaultLaterLine,
    FaultAfterEnd,
    LengthAtLimit,
    LengthPastLimit,
    OneSite,
    EightSites,
    FullTable,
    FullRun,
    NoEvents,
    ScanAbortsRunning,
    ScanAbortsAsking,
    ScanAbortsSeveral,
    ScanSubmitsSeveral,
    ScanSubmitsAndWaits,
    ScanAbortsAndWaits,
    WaitsForRemote,
    WaitsForLowerRemote,
    WaitsForAsking,
    ClashWithBlockedRemote,
    RemoteReadsNotHeld,
    AbortBeforeRemote,
    AbortOutOfQueue,
    AbortOfRunning,
    DiscardedRemote,
    DiscardedReady,
    CommitWakesQueue,
    LocalAbortWakesQueue,
    AbortWakesQueue,
    QueuedAbortWakesQueue,
    ScanRefusedWhileWaiting,
    NotedLaterVersion,
    WriteBeforeRead,
    ListCommittedEverywhere,
    LogsInOtherOrder,
    RunChecked,
    ReadChecked,
}

/// All kinds with their names, in the order of the table.
fn names() -> Vec<(Kind, String)> {
    let mut names = Vec::new();
    for action in 1..=12 {
        names.push((Kind::Accepted(action), format!("action {action} accepted")));
    }
    for answer in 2..=11 {
        names.push((Kind::Refused(answer), format!("answer {answer}")));
    }
    for number in [21, 22, 23, 25, 31] {
        names.push((Kind::Setup(number), format!("setup={number}")));
    }
    for (kind, name) in OTHERS {
        names.push((kind, name.to_string()));
    }
    names
}

const OTHERS: [(Kind, &str); 39] = [
    (Kind::SeveralRefusals, "setup refused for several reasons"),
    (Kind::FaultZero, "fault=0"),
    (Kind::FaultFirstLine, "fault=1"),
    (Kind::FaultLaterLine, "fault at a later line"),
    (Kind::FaultAfterEnd, "fault after the last event"),
    (Kind::LengthAtLimit, "good form in 65,536 bytes"),
    (Kind::LengthPastLimit, "good form in 65,537 bytes"),
    (Kind::OneSite, "run of one site"),
    (Kind::EightSites, "run of eight sites"),
    (Kind::FullTable, "run of 32 transactions"),
    (Kind::FullRun, "run of 1,024 events"),
    (Kind::NoEvents, "run of no events"),
    (
        Kind::ScanAbortsRunning,
        "scan aborts an active or blocked one",
    ),
    (Kind::ScanAbortsAsking, "scan aborts one in pre_commit"),
    (Kind::ScanAbortsSeveral, "scan aborts several"),
    (Kind::ScanSubmitsSeveral, "scan submits several"),
    (Kind::ScanSubmitsAndWaits, "scan submits one, another waits"),
    (Kind::ScanAbortsAndWaits, "scan aborts one, another waits"),
    (Kind::WaitsForRemote, "wait for a remote one"),
    (
        Kind::WaitsForLowerRemote,
        "wait for a remote one of lower priority",
    ),
    (Kind::WaitsForAsking, "wait for a local one in pre_commit"),
    (
        Kind::ClashWithBlockedRemote,
        "clash with a remote one still blocked",
    ),
    (
        Kind::RemoteReadsNotHeld,
        "passing what a remote one only reads",
    ),
    (Kind::AbortBeforeRemote, "abort received before its remote"),
    (Kind::AbortOutOfQueue, "abort received while queued"),
    (Kind::AbortOfRunning, "abort received while running"),
    (Kind::DiscardedRemote, "remote discarded"),
    (Kind::DiscardedReady, "ready discarded"),
    (Kind::CommitWakesQueue, "commit sets remove"),
    (
        Kind::LocalAbortWakesQueue,
        "local abort sets remove, one waits",
    ),
    (Kind::AbortWakesQueue, "abort of a running one sets remove"),
    (
        Kind::QueuedAbortWakesQueue,
        "abort of a queued one sets remove",
    ),
    (
        Kind::ScanRefusedWhileWaiting,
        "scan refused while one waits",
    ),
    (
        Kind::NotedLaterVersion,
        "read of a version past 0 committed",
    ),
    (Kind::WriteBeforeRead, "read after an own write"),
    (
        Kind::ListCommittedEverywhere,
        "two or more committed at all sites",
    ),
    (Kind::LogsInOtherOrder, "logs in different orders"),
    (Kind::RunChecked, "bench_run compared"),
    (Kind::ReadChecked, "bench_read compared"),
];

pub struct Coverage {
    counts: BTreeMap<Kind, u64>,
}

impl Coverage {
    pub fn new() -> Coverage {
        Coverage {
            counts: names().into_iter().map(|(kind, _)| (kind, 0)).collect(),
        }
    }

    pub fn count(&mut self, kind: Kind) {
        *self.counts.entry(kind).or_insert(0) += 1;
    }

    pub fn count_if(&mut self, met: bool, kind: Kind) {
        if met {
            self.count(kind);
        }
    }

    /// The table of counts.
    pub fn print(&self) {
        println!("| met | times |\n|---|---|");
        for (kind, name) in names() {
            println!("| {name} | {} |", self.counts[&kind]);
        }
    }

    /// The names of the kinds that were never met.
    pub fn never_met(&self) -> Vec<String> {
        let unmet = |(kind, name)| (self.counts[&kind] == 0).then_some(name);
        names().into_iter().filter_map(unmet).collect()
    }

    pub fn setup_refused(&mut self, scenario: &Scenario, refusal: Refusal) {
        self.count(Kind::Setup(refusal.number()));
        let sites = scenario.sites;
        let mut priorities: Vec<u32> = scenario.table.iter().map(|e| e.priority).collect();
        priorities.sort_unstable();
        let reasons = [
            !(1..=8).contains(&sites),
            !(1..=32).contains(&scenario.table.len()),
            scenario.table.iter().any(|entry| entry.home >= sites),
            priorities.windows(2).any(|pair| pair[0] == pair[1]),
            scenario.events.len() > 1024,
        ];
        let several = reasons.into_iter().filter(|&reason| reason).count() > 1;
        self.count_if(several, Kind::SeveralRefusals);
    }

    pub fn run_started(&mut self, scenario: &Scenario) {
        self.count_if(scenario.sites == 1, Kind::OneSite);
        self.count_if(scenario.sites == 8, Kind::EightSites);
        self.count_if(scenario.table.len() == 32, Kind::FullTable);
        self.count_if(scenario.events.len() == 1024, Kind::FullRun);
        self.count_if(scenario.events.is_empty(), Kind::NoEvents);
    }

    /// Counts what an event did, seen from the states before and after it.
    pub fn event(&mut self, event: &Event, answer: Result<u32, Refusal>, old: &State, new: &State) {
        let (site, t) = (event.site as usize, event.transaction as usize);
        match answer {
            Ok(_) => {
                self.count(Kind::Accepted(event.action));
                self.accepted(event, old, new);
            }
            Err(refusal) => {
                self.count(Kind::Refused(refusal.number()));
                match refusal {
                    Refusal::LockClash => self.clash(old, site, t),
                    Refusal::NothingToScan => {
                        let waits = old.sites[site].queue != 0;
                        self.count_if(waits, Kind::ScanRefusedWhileWaiting);
                    }
                    _ => {}
                }
            }
        }
    }

    fn accepted(&mut self, event: &Event, old: &State, new: &State) {
        let (site, t) = (event.site as usize, event.transaction as usize);
        let (before, after) = (&old.sites[site], &new.sites[site]);
        let woken = after.queue != 0 && after.remove && !before.remove;
        match event.action {
            3 => self.operation(old, site, t),
            5 | 9 => self.count_if(woken, Kind::CommitWakesQueue),
            6 => self.count_if(woken, Kind::LocalAbortWakesQueue),
            10 => self.abort(old, site, t, woken),
            11 => self.scan(old, new, site),
            12 if event.kind == 1 => self.count(Kind::DiscardedRemote),
            12 => self.count(Kind::DiscardedReady),
            _ => {}
        }
    }

    fn clash(&mut self, state: &State, site: usize, t: usize) {
        let pending = &state.transactions[t];
        let needed = pending.pending_reads | pending.pending_writes;
        let blocked_remote = (0..state.transactions.len()).any(|other| {
            let remote = state.transactions[other].home != site;
            let blocked = state.sites[site].status[other] == Status::Blocked;
            remote && blocked && state.held(site, other).1 & needed != 0
        });
        self.count_if(blocked_remote, Kind::ClashWithBlockedRemote);
    }

    fn operation(&mut self, old: &State, site: usize, t: usize) {
        let own = &old.transactions[t];
        if own.home == site {
            let read_late = own.pending_reads & own.writes & !own.reads;
            self.count_if(read_late != 0, Kind::WriteBeforeRead);
            self.passed_reads(old, site, own.pending_writes);
        }
    }

    /// Counts when a remote one that runs here has read, but not written, an
    /// object that is now being written past it.
    fn passed_reads(&mut self, state: &State, site: usize, writes: u32) {
        let passed = state.transactions.iter().enumerate().any(|(t, other)| {
            let runs = other.home != site && state.sites[site].status[t].executes();
            runs && other.reads & !other.writes & writes != 0
        });
        self.count_if(passed, Kind::RemoteReadsNotHeld);
    }

    fn abort(&mut self, old: &State, site: usize, t: usize, woken: bool) {
        let queued = members(old.sites[site].queue).any(|other| other == t);
        if queued {
            self.count(Kind::AbortOutOfQueue);
            self.count_if(woken, Kind::QueuedAbortWakesQueue);
        } else if old.sites[site].status[t].executes() {
            self.count(Kind::AbortOfRunning);
            self.count_if(woken, Kind::AbortWakesQueue);
        } else {
            self.count(Kind::AbortBeforeRemote);
        }
    }

    fn scan(&mut self, old: &State, new: &State, site: usize) {
        let (before, after) = (&old.sites[site], &new.sites[site]);
        let submitted = before.queue & !after.queue;
        let aborted: Vec<Status> = (0..old.transactions.len())
            .filter(|&t| before.status[t] != after.status[t] && after.status[t] == Status::Aborted)
            .map(|t| before.status[t])
            .collect();
        let asked = aborted.iter().filter(|&&s| s == Status::PreCommit).count();
        let waits = after.queue != 0;
        self.count_if(aborted.len() > asked, Kind::ScanAbortsRunning);
        self.count_if(asked > 0, Kind::ScanAbortsAsking);
        self.count_if(aborted.len() > 1, Kind::ScanAbortsSeveral);
        self.count_if(submitted.count_ones() > 1, Kind::ScanSubmitsSeveral);
        self.count_if(submitted != 0 && waits, Kind::ScanSubmitsAndWaits);
        self.count_if(!aborted.is_empty() && waits, Kind::ScanAbortsAndWaits);
        for t in members(submitted) {
            self.passed_reads(old, site, old.transactions[t].writes);
        }
        for t in members(after.queue) {
            self.wait(new, site, t);
        }
    }

    /// Counts for whom a queued transaction waits.
    fn wait(&mut self, state: &State, site: usize, t: usize) {
        let waiting = &state.transactions[t];
        for (number, other) in state.transactions.iter().enumerate() {
            let (reads, writes) = state.held(site, number);
            if (reads | writes) & waiting.writes == 0 {
                continue;
            }
            let remote = other.home != site;
            let asking = !remote && state.sites[site].status[number] == Status::PreCommit;
            let lower = other.priority < waiting.priority;
            self.count_if(remote, Kind::WaitsForRemote);
            self.count_if(remote && lower, Kind::WaitsForLowerRemote);
            self.count_if(asking && !lower, Kind::WaitsForAsking);
        }
    }

    /// Counts what a whole run has come to.
    pub fn run_ended(&mut self, state: &State, list: &[usize]) {
        let later = |&t: &usize| {
            let noted = state.transactions[t].noted.iter().flatten();
            noted.copied().any(|version| version > 0)
        };
        self.count_if(list.iter().any(later), Kind::NotedLaterVersion);
        let logs = || state.sites.iter().map(|site| &site.log);
        let everywhere = list.len() > 1 && logs().all(|log| log.len() == list.len());
        self.count_if(
            everywhere && state.sites.len() > 1,
            Kind::ListCommittedEverywhere,
        );
        let other_order = logs().any(|log| {
            let places = log
                .iter()
                .map(|&t| list.iter().position(|&l| l == t as usize));
            !places.is_sorted()
        });
        self.count_if(other_order, Kind::LogsInOtherOrder);
    }
}
