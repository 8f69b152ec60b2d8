//! What is timed: each case a call with its inputs at hand.

use super::scenes::*;
use crate::agent_row::{AgentRow, SNAPSHOT};
use crate::limits::*;
use crate::model::bytes_of_row;
use crate::subject::{PlannerRows, PlayedLog, Sharers, Start, StatusRows, Subject};
use std::hint::black_box;

/// A call and its answer.
type Asked<S> = Box<dyn FnMut(&mut S) -> u8>;

/// The cases over logs, by how long those are: waits, air and salvage.
const FULL_LOGS: [&str; 3] = [
    "waits, 1 MiB of changes and 4,096 arrivals",
    "air, 1 MiB of changes and 4,096 ticks",
    "salvage of 1 MiB",
];
const SHORT_LOGS: [&str; 3] = [
    "waits, 4 KiB of changes and 4,096 arrivals",
    "air, 4 KiB of changes and 4,096 ticks",
    "salvage of 4 KiB",
];

pub struct Case<S> {
    /// What is asked, and the number that it grows with, if any.
    pub name: &'static str,
    pub size: Option<u64>,
    pub lent: Option<Box<AgentRow>>,
    /// Whether the call changes the agent, which is then lent anew each time.
    pub changes: bool,
    pub call: Asked<S>,
}

/// A question to an agent.
fn asks<S>(name: &'static str, size: Option<u64>, row: AgentRow, call: impl FnMut(&mut S) -> u8 + 'static) -> Case<S> {
    Case {
        name,
        size,
        lent: Some(Box::new(row)),
        changes: false,
        call: Box::new(call),
    }
}

/// An event that the agent takes.
fn turns<S: Subject>(
    name: &'static str,
    size: Option<u64>,
    row: AgentRow,
    event: impl FnMut(&mut S) -> u8 + 'static,
) -> Case<S> {
    Case {
        name,
        size,
        lent: Some(Box::new(row)),
        changes: true,
        call: Box::new(event),
    }
}

/// A call that hangs on no agent.
fn calls<S>(name: &'static str, size: Option<u64>, call: impl FnMut(&mut S) -> u8 + 'static) -> Case<S> {
    Case {
        name,
        size,
        lent: None,
        changes: false,
        call: Box::new(call),
    }
}

pub fn all<S: Subject>(length: Logs) -> Vec<Case<S>> {
    let mut cases = lanes();
    cases.extend(events());
    cases.extend(drops());
    cases.extend(pools());
    cases.extend(plans());
    cases.extend(notices());
    cases.extend(snapshots());
    cases.extend(logs(length));
    cases
}

fn lanes<S: Subject>() -> Vec<Case<S>> {
    let mut cases = Vec::new();
    for titles in [1, 4, 16] {
        let ask = |subject: &mut S| black_box(subject.lane(0, black_box(3), black_box(123_456))).0;
        cases.push(asks("lane, active, by titles", Some(titles), opened(titles, 8, 4), ask));
    }
    for cap in [4, 8, 10, 12] {
        let (row, time) = dropped(cap, 2);
        let time = last_sent(&row, cap - 1, time);
        let ask = move |subject: &mut S| black_box(subject.lane(0, black_box(cap - 1), black_box(time))).0;
        cases.push(asks("lane, sending its last cell, by cap", Some(cap), row, ask));
    }
    let (row, time) = dropped(12, 2);
    let time = last_sent(&row, 2, time);
    let ask = move |subject: &mut S| black_box(subject.lane(0, black_box(2), black_box(time))).0;
    cases.push(asks("lane 2 of cap 12, sending its last cell", None, row, ask));
    cases.extend(small_box());
    cases
}

/// The small box's two calls, and the filling of its table.
fn small_box<S: Subject>() -> Vec<Case<S>> {
    let mut agent = crate::tuned::Tuned::new();
    let small = |count| crate::subject::Film {
        length: 896 * SECOND,
        floor: ROM_FLOOR,
        cap: ROM_CAP,
        count,
    };
    agent.fresh(POOL_MAX);
    agent.open(0, 0, small(ROM_CAP));
    let row = agent.agent();
    let active = |subject: &mut S| black_box(subject.rom_lane(0, black_box(9), black_box(123_456))).0;
    let time = 512 * SECOND;
    agent.change(0, time, 3);
    let dropped = agent.agent();
    let last = last_sent(&dropped, 9, time);
    let sending = move |subject: &mut S| black_box(subject.rom_lane(0, black_box(9), black_box(last))).0;
    let mut places = vec![0; 1 << ROM_CAP];
    let plan = move |subject: &mut S| {
        let start = Start {
            floor: ROM_FLOOR,
            cap: ROM_CAP,
            count: ROM_CAP,
            arrival: black_box(77),
        };
        black_box(subject.rom_plan(start, &mut places))
    };
    let mut table = vec![0; ROM_NUMBERS];
    let fill = move |subject: &mut S| black_box(subject.rom_fill(black_box(&mut table)));
    vec![
        asks("small box, lane, active", None, row, active),
        asks("small box, lane, sending its last cell", None, dropped, sending),
        calls("small box, plan", None, plan),
        calls("small box, its table filled", None, fill),
    ]
}

fn events<S: Subject>() -> Vec<Case<S>> {
    let fifteen = || opened(15, 8, 3);
    let time = floor_slot(8);
    vec![
        calls("fresh", None, |subject: &mut S| black_box(subject.fresh(black_box(8)))),
        turns("open beside 15", None, fifteen(), move |s: &mut S| {
            s.open(15, time, film(8, 4))
        }),
        turns("skip beside 15", None, fifteen(), move |s: &mut S| {
            s.skip(15, time, 3_600_000, 4)
        }),
        turns("change to a lane more", None, fifteen(), move |s: &mut S| {
            s.change(0, time, 4)
        }),
        turns("close", None, fifteen(), move |s: &mut S| s.close(0, 4 * time)),
        turns("hold", None, fifteen(), move |s: &mut S| s.hold(0, time)),
        turns("lift", None, held_doors(15, 8, 3), move |s: &mut S| s.lift(0, 2 * time)),
    ]
}

fn drops<S: Subject>() -> Vec<Case<S>> {
    let mut cases = Vec::new();
    for cap in [4, 8, 10, 12] {
        let (row, time) = full(cap);
        let change = move |s: &mut S| s.change(0, time, cap - 1);
        cases.push(turns("drop of one lane, by cap", Some(cap), row, change));
    }
    for cap in [4, 8, 10, 12] {
        let (row, time) = full(cap);
        let change = move |s: &mut S| s.change(0, time, 2);
        cases.push(turns("drop of all but two, by cap", Some(cap), row, change));
    }
    for cap in [4, 8, 10, 12] {
        let (row, time) = full(cap);
        let close = move |s: &mut S| s.close(0, time);
        cases.push(turns("close of a full title, by cap", Some(cap), row, close));
    }
    cases
}

fn pools<S: Subject>() -> Vec<Case<S>> {
    let mut cases = Vec::new();
    for titles in [1, 4, 16] {
        cases.push(status_of("status, by titles", titles, opened(titles, 8, 4), SECOND));
    }
    let time = 4 * floor_slot(8);
    cases.push(status_of("status of 16 that send", 16, sending(16, 8), time));
    cases.push(asks(
        "lanes held of 16 that send",
        None,
        sending(16, 8),
        move |subject: &mut S| black_box(subject.held(black_box(time))).0,
    ));
    for titles in [2, 8, 16] {
        cases.push(planner_of(titles));
    }
    for titles in [2, 8, 16] {
        cases.push(sharing_of(titles));
    }
    cases
}

fn status_of<S: Subject>(name: &'static str, titles: u64, row: AgentRow, time: u64) -> Case<S> {
    let ids: Vec<u64> = (0..titles).collect();
    let mut rows = [ids.clone(), ids.clone(), ids.clone()];
    asks(name, Some(titles), row, move |subject: &mut S| {
        let [counts, held, marks] = &mut rows;
        let rows = StatusRows { counts, held, marks };
        black_box(subject.status(black_box(time), &ids, rows))
    })
}

/// Titles of two or six lanes in turn, whose rates ask for the opposite.
fn planner_of<S: Subject>(titles: u64) -> Case<S> {
    let mut agent = crate::tuned::Tuned::new();
    agent.fresh(4 * titles);
    for id in 0..titles {
        let count = if id.is_multiple_of(2) { 2 } else { 6 };
        agent.open(id, 0, film(8, count));
    }
    let rates: Vec<u32> = (0..16).map(|id| if id % 2 == 0 { 1_000 } else { 1 }).collect();
    let mut rows = [vec![0; 16], vec![0; 16], vec![0; 16]];
    let time = 3 * floor_slot(8) + 1;
    asks(
        "planner, by titles",
        Some(titles),
        agent.agent(),
        move |subject: &mut S| {
            let [ids, times, counts] = &mut rows;
            let rows = PlannerRows { ids, times, counts };
            black_box(subject.planner(black_box(time), &rates, rows)).0
        },
    )
}

fn sharing_of<S: Subject>(titles: usize) -> Case<S> {
    let row = |low: u32, step: u32| -> Vec<u32> { (0..titles as u32).map(|i| low + step * (i * 7 % 16)).collect() };
    let (rates, lengths) = (row(1, 61), row(1_000_000, 500_000));
    let (floors, caps) = (vec![2; titles], vec![12; titles]);
    let mut counts = vec![0; titles];
    calls(
        "sharing of 64 lanes, by titles",
        Some(titles as u64),
        move |subject: &mut S| {
            let titles = Sharers {
                rates: &rates,
                lengths: &lengths,
                floors: &floors,
                caps: &caps,
            };
            black_box(subject.share(black_box(POOL_MAX), titles, &mut counts))
        },
    )
}

fn plans<S: Subject>() -> Vec<Case<S>> {
    let mut cases = Vec::new();
    for cap in 4..=COUNT_MAX {
        let mut places = vec![0; 1 << cap];
        let start = Start {
            floor: 2,
            cap,
            count: cap,
            arrival: 77,
        };
        cases.push(calls("plan, by cap", Some(cap), move |subject: &mut S| {
            black_box(subject.plan(black_box(start), &mut places))
        }));
    }
    let mut places = vec![0; 512];
    cases.push(calls(
        "skip-forward plan of 512 blocks",
        None,
        move |subject: &mut S| black_box(subject.skip_plan(black_box(10), black_box(77), &mut places)),
    ));
    cases
}

fn notices<S: Subject>() -> Vec<Case<S>> {
    let row = opened(15, 8, 3);
    let bytes = next_notice(&row, floor_slot(8), 4);
    let (read, taken, log) = (bytes.clone(), bytes.clone(), bytes);
    let mut fields = [0; 8];
    let mut room = [0; 45];
    let open = [1, 7, 3, 1_000, 12_000, 2, 4, 3];
    vec![
        calls("write of an opening", None, move |subject: &mut S| {
            black_box(subject.write(black_box(&open), &mut room)).0
        }),
        calls("read of a change", None, move |subject: &mut S| {
            black_box(subject.read(black_box(&read), &mut fields))
        }),
        calls("next of a log", None, move |subject: &mut S| {
            black_box(subject.next(black_box(&log), 0, &mut fields)).0
        }),
        turns("take of a change to a lane more", None, row, move |s: &mut S| {
            s.take(&taken)
        }),
    ]
}

fn snapshots<S: Subject>() -> Vec<Case<S>> {
    let row = sending(16, 8);
    let (mut room, bytes) = (vec![0; SNAPSHOT], bytes_of_row(&row));
    vec![
        asks("save", None, row, move |subject: &mut S| {
            black_box(subject.save(black_box(&mut room)))
        }),
        calls("load", None, move |subject: &mut S| {
            black_box(subject.load(black_box(&bytes)))
        }),
    ]
}

fn logs<S: Subject>(length: Logs) -> Vec<Case<S>> {
    let damaged = damaged_log(length);
    let (mut area, mut stretches) = (vec![0; damaged.len()], vec![0; damaged.len()]);
    let salvage = move |subject: &mut S| black_box(subject.salvage(black_box(&damaged), &mut area, &mut stretches)).0;
    let names = match length {
        Logs::Full => FULL_LOGS,
        Logs::Short => SHORT_LOGS,
    };
    vec![
        waits_case(names[0], length),
        air_case(names[1], length),
        admissions_case(),
        calls(names[2], None, salvage),
    ]
}

/// A log in the largest pool.
fn played(bytes: &[u8], title: u64) -> PlayedLog<'_> {
    PlayedLog {
        pool: POOL_MAX,
        bytes,
        title,
    }
}

fn waits_case<S: Subject>(name: &'static str, length: Logs) -> Case<S> {
    let (log, last) = full_log(length);
    let arrivals: Vec<u64> = (0..ARRIVALS_MAX as u64)
        .map(|i| i * 7_919 % 4_096 * (last / 4_096))
        .collect();
    calls(name, None, move |subject: &mut S| {
        black_box(subject.waits(played(&log, 0), black_box(&arrivals))).0
    })
}

fn air_case<S: Subject>(name: &'static str, length: Logs) -> Case<S> {
    let (log, record) = full_air(length);
    let mut row = vec![0; TICKS_MAX];
    calls(name, None, move |subject: &mut S| {
        black_box(subject.air(played(&log, 1), black_box(&record), &mut row)).0
    })
}

/// Over a log of two openings: what it plays besides is the waits' and the air's.
fn admissions_case<S: Subject>() -> Case<S> {
    let (log, mut marks) = (full_air(Logs::Short).0[..90].to_vec(), vec![0; TICKS_MAX]);
    calls("admissions of 4,096 ticks", None, move |subject: &mut S| {
        black_box(subject.admissions(played(&log, 1), black_box(&mut marks)))
    })
}
