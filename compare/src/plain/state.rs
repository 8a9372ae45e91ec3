//! The state of the replicated database and its setup.

pub const MAX_SITES: usize = 8;
pub const MAX_TRANSACTIONS: usize = 32;
pub const MAX_EVENTS: usize = 1024;
pub const OBJECTS: usize = 32;

/// Why something was refused. The number of a case is document 01's answer
/// number. Number 1 (a state not in range) has no case: a state here is made
/// by setup and changed by the rules alone, so it is always in range.
#[derive(Clone, Copy, PartialEq, Eq, Debug)]
#[repr(u8)]
pub enum Refusal {
    UnknownAction = 2,
    NoSuchSite = 3,
    NoSuchTransaction = 4,
    IllFilled = 5,
    WrongHome = 6,
    WrongStatus = 7,
    MissingSet = 8,
    NoMessage = 9,
    LockClash = 10,
    NothingToScan = 11,
    Sites = 21,
    Transactions = 22,
    Home = 23,
    EqualPriorities = 25,
    TooManyEvents = 31,
    AnswersTooShort = 32,
}

impl Refusal {
    pub fn number(self) -> u8 {
        self as u8
    }
}

#[derive(Clone, Copy, PartialEq, Eq, Debug)]
#[repr(u8)]
pub enum Status {
    Idle = 0,
    Start = 1,
    Active = 2,
    Blocked = 3,
    PreCommit = 4,
    Committed = 5,
    Aborted = 6,
}

impl Status {
    pub fn number(self) -> u8 {
        self as u8
    }

    /// Whether the database under the site runs the transaction, so that it
    /// holds something there.
    pub fn executes(self) -> bool {
        matches!(self, Status::Active | Status::Blocked | Status::PreCommit)
    }
}

/// One entry of the table of transactions that setup reads.
#[derive(Clone, Copy, PartialEq, Eq, Debug)]
pub struct Entry {
    pub home: u32,
    pub priority: u32,
}

/// What is known of a transaction at its home. Sets of objects and of sites
/// are bit masks.
#[derive(Clone, PartialEq, Eq, Debug)]
pub struct Transaction {
    pub home: usize,
    pub priority: u32,
    pub reads: u32,
    pub writes: u32,
    pub pending_reads: u32,
    pub pending_writes: u32,
    /// The sites whose ready is missing.
    pub missing: u32,
    /// For each object the version that the first read of it saw.
    pub noted: [Option<u8>; OBJECTS],
}

#[derive(Clone, Copy, PartialEq, Eq, Debug)]
pub enum Message {
    Remote,
    Ready { from: usize },
    Commit,
    Abort,
}

/// The messages that lie at a site: for each kind, and for a ready also for
/// each sender, the set of transactions they are about.
#[derive(Clone, Copy, Default, PartialEq, Eq, Debug)]
pub struct Channel {
    pub remote: u32,
    pub ready: [u32; MAX_SITES],
    pub commit: u32,
    pub abort: u32,
}

impl Channel {
    fn place(&mut self, message: Message) -> &mut u32 {
        match message {
            Message::Remote => &mut self.remote,
            Message::Ready { from } => &mut self.ready[from],
            Message::Commit => &mut self.commit,
            Message::Abort => &mut self.abort,
        }
    }

    pub fn put(&mut self, message: Message, t: usize) {
        *self.place(message) |= bit(t);
    }

    /// Takes the message out, or refuses when it does not lie here.
    pub fn take(&mut self, message: Message, t: usize) -> Result<(), Refusal> {
        let place = self.place(message);
        if *place & bit(t) == 0 {
            return Err(Refusal::NoMessage);
        }
        *place &= !bit(t);
        Ok(())
    }
}

#[derive(Clone, PartialEq, Eq, Debug)]
pub struct Site {
    pub status: [Status; MAX_TRANSACTIONS],
    pub queue: u32,
    pub remove: bool,
    pub log: Vec<u8>,
    pub versions: [u8; OBJECTS],
    pub channel: Channel,
}

#[derive(Clone, PartialEq, Eq, Debug)]
pub struct State {
    pub sites: Vec<Site>,
    pub transactions: Vec<Transaction>,
}

pub fn bit(number: usize) -> u32 {
    1 << number
}

/// The numbers in a set, smallest first.
pub fn members(mut set: u32) -> impl Iterator<Item = usize> {
    std::iter::from_fn(move || {
        if set == 0 {
            return None;
        }
        let number = set.trailing_zeros() as usize;
        set &= set - 1;
        Some(number)
    })
}

impl State {
    /// A fresh state. The checks run in the order of their numbers.
    pub fn setup(sites: u32, table: &[Entry]) -> Result<State, Refusal> {
        check_setup(sites, table)?;
        let transactions: Vec<_> = table.iter().map(fresh_transaction).collect();
        let mut state = State {
            sites: vec![fresh_site(); sites as usize],
            transactions,
        };
        for (t, transaction) in state.transactions.iter().enumerate() {
            state.sites[transaction.home].status[t] = Status::Start;
        }
        Ok(state)
    }
}

fn check_setup(sites: u32, table: &[Entry]) -> Result<(), Refusal> {
    if !(1..=MAX_SITES as u32).contains(&sites) {
        return Err(Refusal::Sites);
    }
    if !(1..=MAX_TRANSACTIONS).contains(&table.len()) {
        return Err(Refusal::Transactions);
    }
    if table.iter().any(|entry| entry.home >= sites) {
        return Err(Refusal::Home);
    }
    for (i, entry) in table.iter().enumerate() {
        if table[..i].iter().any(|e| e.priority == entry.priority) {
            return Err(Refusal::EqualPriorities);
        }
    }
    Ok(())
}

fn fresh_transaction(entry: &Entry) -> Transaction {
    Transaction {
        home: entry.home as usize,
        priority: entry.priority,
        reads: 0,
        writes: 0,
        pending_reads: 0,
        pending_writes: 0,
        missing: 0,
        noted: [None; OBJECTS],
    }
}

fn fresh_site() -> Site {
    Site {
        status: [Status::Idle; MAX_TRANSACTIONS],
        queue: 0,
        remove: false,
        log: Vec::new(),
        versions: [0; OBJECTS],
        channel: Channel::default(),
    }
}
