//! The agents and inputs that are timed. Every film has ticks of one second.

use crate::agent_row::{AgentRow, SEQUENCE_AT};
use crate::limits::{LANES, NOTHING, POOL_MAX, TICKS_MAX};
use crate::refusals::DONE;
use crate::subject::{Film, Subject};
use crate::tuned::Tuned;

pub const SECOND: u64 = 1_000;

/// How long the logs are: as long as the programs take them, for times; or short, for stacks, which are as deep then, since a
/// log is read notice by notice.
#[derive(Clone, Copy, PartialEq)]
pub enum Logs {
    Full,
    Short,
}

impl Logs {
    fn bytes(self) -> usize {
        match self {
            Logs::Full => 1 << 20,
            Logs::Short => 1 << 12,
        }
    }
}

pub fn film(cap: u64, count: u64) -> Film {
    Film {
        length: ((1 << cap) - (1 << (cap - 2))) * SECOND,
        floor: 2,
        cap,
        count,
    }
}

/// A slot of the floor, in ms.
pub fn floor_slot(cap: u64) -> u64 {
    SECOND << (cap - 2)
}

fn done(answer: u8) {
    assert_eq!(answer, DONE, "a scene's event is refused");
}

/// So many titles of a cap, each with a count, in the largest pool.
fn titles(many: u64, cap: u64, count: u64) -> Tuned {
    let mut agent = Tuned::new();
    agent.fresh(POOL_MAX);
    for id in 0..many {
        done(agent.open(id, 0, film(cap, count)));
    }
    agent
}

/// The same as a row.
pub fn opened(many: u64, cap: u64, count: u64) -> AgentRow {
    titles(many, cap, count).agent()
}

/// Titles of which each has dropped a lane and still sends.
pub fn sending(many: u64, cap: u64) -> AgentRow {
    let mut agent = titles(many, cap, 4);
    for id in 0..many {
        done(agent.change(id, 4 * floor_slot(cap), 3));
    }
    agent.agent()
}

/// A title of a cap with all its lanes, after boxes of its floor and of its cap; the time of its next floor slot.
pub fn full(cap: u64) -> (AgentRow, u64) {
    let mut agent = titles(1, cap, 2);
    done(agent.change(0, floor_slot(cap), cap));
    (agent.agent(), 5 * floor_slot(cap))
}

/// The same title at a later time, once it dropped to a count.
pub fn dropped(cap: u64, count: u64) -> (AgentRow, u64) {
    let mut agent = Tuned::new();
    let (row, time) = full(cap);
    agent.lend(&row);
    done(agent.change(0, time, count));
    (agent.agent(), time)
}

/// When a sending lane shows its last cell.
pub fn last_sent(row: &AgentRow, lane: u64, time: u64) -> u64 {
    let mut agent = Tuned::new();
    agent.lend(row);
    let times = (0..).map(|tick| time + tick * SECOND);
    let gone = times.take_while(|time| agent.lane(0, lane, *time).0 == DONE).last();
    gone.expect("the lane sends")
}

/// One title whose doors are held, beside others.
pub fn held_doors(many: u64, cap: u64, count: u64) -> AgentRow {
    let mut agent = titles(many, cap, count);
    done(agent.hold(0, floor_slot(cap)));
    agent.agent()
}

/// Notices from the first on, written until a log is full.
pub struct LogWriter {
    pub bytes: Vec<u8>,
    sequence: u64,
}

impl LogWriter {
    pub fn new() -> LogWriter {
        LogWriter {
            bytes: Vec::new(),
            sequence: 0,
        }
    }

    pub fn put(&mut self, [kind, id, time, length, floor, cap, count]: [u64; 7]) {
        self.sequence += 1;
        let mut room = [0; 45];
        let fields = [kind, self.sequence, id, time, length, floor, cap, count];
        let (answer, size) = Tuned::new().write(&fields, &mut room);
        done(answer);
        self.bytes.extend(&room[..size as usize]);
    }

    pub fn open(&mut self, id: u64, film: Film) {
        self.put([1, id, 0, film.length, film.floor, film.cap, film.count]);
    }

    /// Changes of a title between its floor and its cap, a floor slot apart, until the log is full.
    fn fill(&mut self, id: u64, cap: u64, logs: Logs) -> u64 {
        let mut time = 0;
        let mut count = cap;
        while self.bytes.len() + 45 < logs.bytes() {
            time += floor_slot(cap);
            count = if count == cap { 2 } else { cap };
            self.put([2, id, time, 0, 0, 0, count]);
        }
        time
    }
}

/// A full log of changes between 2 and 12 lanes, and the time of its last.
pub fn full_log(logs: Logs) -> (Vec<u8>, u64) {
    let mut log = LogWriter::new();
    log.open(0, film(12, 12));
    let last = log.fill(0, 12, logs);
    (log.bytes, last)
}

/// A full log whose first title admits at each tick, and a full record of that title's lanes.
pub fn full_air(logs: Logs) -> (Vec<u8>, Vec<u16>) {
    let cap = 11;
    let mut log = LogWriter::new();
    log.open(1, film(cap, cap));
    log.open(0, film(12, 12));
    log.fill(0, 12, logs);
    let mut agent = titles(2, cap, cap);
    let record = (0..TICKS_MAX as u64).flat_map(|tick| (0..LANES as u64).map(move |lane| (tick, lane)));
    let shown = record.map(|(tick, lane)| match agent.lane(1, lane, tick * SECOND) {
        (DONE, cell) => cell as u16,
        _ => NOTHING,
    });
    (log.bytes, shown.collect())
}

/// A full log with a byte turned in every thousand.
pub fn damaged_log(logs: Logs) -> Vec<u8> {
    let (mut bytes, _) = full_log(logs);
    for byte in bytes.iter_mut().step_by(1_000) {
        *byte ^= 0x55;
    }
    bytes
}

/// The next notice of an agent, a change of title 0.
pub fn next_notice(row: &AgentRow, time: u64, count: u64) -> Vec<u8> {
    let mut log = LogWriter::new();
    log.sequence = row[SEQUENCE_AT];
    log.put([2, 0, time, 0, 0, 0, count]);
    log.bytes
}
