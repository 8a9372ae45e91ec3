//! The sample and the ten marked cases of document 01, with what it says of
//! them. Both implementations run each one and must report the same.

use crate::plain::reader::Scenario;
use crate::plain::report;
use crate::plain::rules::{self, Event};
use crate::plain::state::{bit, Entry, State, Status};
use crate::proved;
use crate::text;

/// What a run has come to.
struct Outcome {
    state: State,
    answers: Vec<u8>,
    messages: u32,
}

/// Three sites: t0 at 0 of priority 5, t1 at 1 of 9, t2 at 2 of 1.
const THREE: [(u32, u32); 3] = [(0, 5), (1, 9), (2, 1)];

fn run(sites: u32, table: &[(u32, u32)], events: &[Event]) -> Outcome {
    let table = table
        .iter()
        .map(|&(home, priority)| Entry { home, priority });
    let scenario = Scenario {
        sites,
        table: table.collect(),
        events: events.to_vec(),
    };
    same_report(&text::write(&scenario));
    let mut state = State::setup(sites, &scenario.table).expect("a setup in order");
    let mut answers = vec![0; events.len()];
    let messages = rules::run(&mut state, events, &mut answers).expect("a run in order");
    Outcome {
        state,
        answers,
        messages,
    }
}

/// The report of the text, which is the same from both implementations.
fn same_report(text: &[u8]) -> String {
    let mut plain = Vec::new();
    report::report(text, &mut plain);
    let mut out = vec![0; proved::ROOM];
    let length = proved::report(text, &mut out).expect("room enough");
    assert_eq!(plain, out[..length]);
    String::from_utf8(plain).expect("a report is plain text")
}

fn event(action: u32, site: u32, t: u32) -> Event {
    text::event([action, site, t, 0, 0, 0, 0])
}

fn operation(site: u32, t: u32, reads: u32, writes: u32) -> [Event; 2] {
    [
        text::event([2, site, t, 0, 0, reads, writes]),
        event(3, site, t),
    ]
}

/// Transaction t, at the home of its own number, writes object 0.
fn writes(t: u32) -> Vec<Event> {
    let [begin, end] = operation(t, t, 0, 1);
    vec![event(1, t, t), begin, end]
}

/// As above, and then asks to commit.
fn asks(t: u32) -> Vec<Event> {
    let mut events = writes(t);
    events.push(event(4, t, t));
    events
}

/// The remote of t is received at the site and a scan follows.
fn scanned(site: u32, t: u32) -> Vec<Event> {
    vec![event(7, site, t), event(11, site, 0)]
}

fn statuses(state: &State, site: usize) -> Vec<u8> {
    let statuses = &state.sites[site].status[..state.transactions.len()];
    statuses.iter().map(|status| status.number()).collect()
}

#[test]
fn sample() {
    let text = b"sites=2\ntransactions=1\nmaster=0\npriority=5\nevents=11\n\
        event=1,0,0,0,0,0,0\nevent=2,0,0,0,0,0,1\nevent=3,0,0,0,0,0,0\n\
        event=4,0,0,0,0,0,0\nevent=7,1,0,0,0,0,0\nevent=11,1,0,0,0,0,0\n\
        event=8,0,0,0,1,0,0\nevent=5,0,0,0,0,0,0\nevent=9,1,0,0,0,0,0\n\
        event=3,1,0,0,0,0,0\nevent=9,1,0,0,0,0,0\n";
    let report = "answer=0\n".repeat(8)
        + "answer=7\nanswer=0\nanswer=0\n\
           status=5\nlog=0\nstatus=5\nlog=0\nmessages=3\n";
    assert_eq!(same_report(text), report);
}

#[test]
fn faults_and_refused_setups() {
    let many = "event=0,0,0,0,0,0,0\n".repeat(1025);
    let table = "transactions=1\nmaster=0\npriority=5\n";
    let cases = [
        (String::new(), "fault=1\n"),
        ("sites=2\n".into(), "fault=2\n"),
        ("sites=02\n".into(), "fault=1\n"),
        (format!("sites=1\n{table}events=0"), "fault=5\n"),
        (format!("sites=1\n{table}events=0\n\n"), "fault=6\n"),
        (format!("sites=4294967296\n{table}events=0\n"), "fault=1\n"),
        (format!("sites=9\n{table}events=1025\n{many}"), "setup=21\n"),
        ("sites=1\ntransactions=0\nevents=0\n".into(), "setup=22\n"),
        (format!("sites=1\n{table}events=1025\n{many}"), "setup=31\n"),
        (
            format!("sites=1\n{table}events=0\n"),
            "status=1\nlog=\nmessages=0\n",
        ),
        ("s".repeat(65_537), "fault=0\n"),
    ];
    for (text, report) in cases {
        assert_eq!(same_report(text.as_bytes()), report);
    }
}

#[test]
fn case_1_fresh_rows() {
    let state = run(3, &THREE, &[]).state;
    assert_eq!(statuses(&state, 0), [1, 0, 0]);
    assert_eq!(statuses(&state, 1), [0, 1, 0]);
    assert_eq!(statuses(&state, 2), [0, 0, 1]);
}

#[test]
fn case_2_create() {
    let events = [
        event(1, 0, 0),
        event(1, 0, 0),
        event(1, 1, 0),
        event(1, 9, 40),
    ];
    assert_eq!(run(3, &THREE, &events).answers, [0, 7, 6, 3]);
}

#[test]
fn case_3_one_site() {
    let mut events = asks(0);
    events.push(event(5, 0, 0));
    let outcome = run(1, &[(0, 5)], &events);
    assert_eq!(outcome.answers, [0; 5]);
    assert_eq!(outcome.messages, 0);
}

#[test]
fn case_4_lock_clash() {
    let one_home = [(0, 5), (0, 9)];
    for (first_reads, first_writes, answer) in [(0, 1, 10), (1, 0, 0)] {
        let mut events = vec![event(1, 0, 0), event(1, 0, 1)];
        events.extend(operation(0, 0, first_reads, first_writes));
        events.extend(operation(0, 1, 1, 0));
        assert_eq!(run(3, &one_home, &events).answers, [0, 0, 0, 0, 0, answer]);
    }
}

#[test]
fn case_5_higher_priority_aborts() {
    let outcome = run(3, &THREE, &[asks(0), asks(1), scanned(0, 1)].concat());
    let sites = &outcome.state.sites;
    assert_eq!(outcome.answers, [0; 10]);
    assert_eq!(sites[0].status[0], Status::Aborted);
    let aborts: Vec<u32> = sites.iter().map(|site| site.channel.abort).collect();
    assert_eq!(aborts, [0, bit(0), bit(0)]);
    assert_eq!(sites[1].channel.ready[0], bit(1));
    assert_eq!(outcome.messages, 2 + 2 + 2 + 1);
}

#[test]
fn case_6_lower_priority_waits() {
    let second_scan = vec![event(11, 1, 0)];
    let outcome = run(
        3,
        &THREE,
        &[asks(0), asks(1), scanned(1, 0), second_scan].concat(),
    );
    assert_eq!(outcome.answers, [0, 0, 0, 0, 0, 0, 0, 0, 0, 0, 11]);
    assert_eq!(outcome.state.sites[1].queue, bit(0));
    assert_eq!(outcome.state.sites[1].status[1], Status::PreCommit);
}

#[test]
fn case_7_active_one_is_aborted_silently() {
    let outcome = run(3, &THREE, &[asks(0), writes(1), scanned(1, 0)].concat());
    let sites = &outcome.state.sites;
    assert_eq!(outcome.answers, [0; 9]);
    assert_eq!(sites[1].status[1], Status::Aborted);
    assert!(sites.iter().all(|site| site.channel.abort == 0));
    assert_eq!(outcome.messages, 2 + 1);
}

#[test]
fn case_8_remote_one_is_never_aborted() {
    let events = [asks(0), asks(1), scanned(2, 0), scanned(2, 1)].concat();
    let outcome = run(3, &THREE, &events);
    assert_eq!(outcome.answers, [0; 12]);
    assert_eq!(outcome.state.sites[2].queue, bit(1));
    assert_eq!(outcome.state.sites[2].status[0], Status::Blocked);
}

#[test]
fn case_9_abort_before_remote() {
    let discard = text::event([12, 1, 0, 1, 0, 0, 0]);
    let late = vec![event(10, 1, 0), event(7, 1, 0), discard];
    let outcome = run(3, &THREE, &[asks(0), asks(1), scanned(0, 1), late].concat());
    assert_eq!(outcome.answers[10..], [0, 7, 0]);
    assert_eq!(outcome.state.sites[1].status[0], Status::Aborted);
}

#[test]
fn case_10_ready_missing() {
    let ready = text::event([8, 0, 0, 0, 1, 0, 0]);
    let end = vec![ready, event(5, 0, 0)];
    let outcome = run(3, &THREE, &[asks(0), scanned(1, 0), end].concat());
    assert_eq!(outcome.answers, [0, 0, 0, 0, 0, 0, 0, 8]);
}
