//! Logs of notices with the record of a title's lanes, and the calls over them.

use super::call::{Call, Log};
use super::maker::Maker;
use super::titles::title;
use crate::agent_row;
use crate::limits::*;
use crate::refusals::DONE;
use crate::subject::Subject;
use crate::tuned::Tuned;
use std::rc::Rc;

/// A log, and what the lanes of one of its titles showed from its latest opening on.
pub struct Logged {
    log: Log,
    record: Vec<u16>,
    opened: u64,
    last: u64,
    tick: u64,
    cap: u64,
}

/// Asks the lanes of a title tick by tick.
struct Recorder {
    agent: Tuned,
    title: u64,
    record: Vec<u16>,
    most: usize,
}

impl Recorder {
    /// The ticks that begin before a time, of the title as it stands.
    fn record_until(&mut self, time: u64) {
        let row = self.agent.agent();
        let view = title(&row, self.title as usize);
        if !view.is_there() {
            return;
        }
        let (opened, tick) = (view.number(agent_row::OPENED), view.tick_length());
        while self.record.len() < self.most * LANES {
            let begins = opened + (self.record.len() / LANES) as u64 * tick;
            if begins >= time {
                return;
            }
            for lane in 0..LANES as u64 {
                let shown = self.agent.lane(self.title, lane, begins);
                self.record.push(if shown.0 == DONE { shown.1 as u16 } else { NOTHING });
            }
        }
    }

    /// A notice, and whether it opened the title anew.
    fn hear(&mut self, bytes: &[u8], fields: [u64; 8]) {
        let own = fields[2] == self.title;
        if own {
            self.record_until(fields[3]);
        }
        let opens = matches!(fields[0], 1 | 6);
        if self.agent.take(bytes) == DONE && own && opens {
            self.record.clear();
        }
    }
}

impl Maker {
    pub fn logged(&mut self) -> Logged {
        let pool = self.pool().clamp(POOL_MIN, POOL_MAX);
        let mut recorder = Recorder {
            agent: Tuned::new(),
            title: self.random.below(4),
            record: Vec::new(),
            most: if self.random.percent(2) {
                TICKS_MAX
            } else {
                40 + self.random.place(200)
            },
        };
        recorder.agent.fresh(pool);
        let bytes = self.played_log(&mut recorder);
        recorder.record_until(ASKED_MAX);
        let row = recorder.agent.agent();
        let view = title(&row, recorder.title as usize);
        Logged {
            log: Log {
                pool,
                bytes: Rc::new(bytes),
                title: recorder.title,
            },
            record: recorder.record,
            opened: view.number(agent_row::OPENED),
            last: row[agent_row::LAST_AT],
            tick: view.tick_length(),
            cap: view.number(agent_row::CAP),
        }
    }

    /// Notices one after the other, each heard by the recorder; the title that is asked about opens first.
    fn played_log(&mut self, recorder: &mut Recorder) -> Vec<u8> {
        let mut bytes = Vec::new();
        for n in 0..self.random.within(0..=50) {
            let row = recorder.agent.agent();
            let opening = Call::Open {
                id: recorder.title,
                time: self.base,
                film: self.film(),
            };
            let event = if n == 0 { opening } else { self.event(&row) };
            let notice = self.notice_of(&row, &event);
            let mut fields = [0; 8];
            recorder.agent.read(&notice, &mut fields);
            recorder.hear(&notice, fields);
            bytes.extend(notice);
        }
        bytes
    }

    /// The log with its title and pool, seldom with others, or damaged.
    fn log_of(&mut self, logged: &Logged) -> Log {
        let mut log = logged.log.clone();
        match self.random.below(24) {
            0 => log.pool = self.number(POOL_MIN, POOL_MAX),
            1..=3 => log.title = self.id(),
            4 => log.bytes = self.damaged(&logged.log.bytes),
            5 => log.bytes = Rc::new(Vec::new()),
            6 => log.title = ID_MAX + 1,
            7 => log.pool = self.random.pick(&[0, POOL_MAX + 1]),
            _ => (),
        }
        log
    }

    fn damaged(&mut self, bytes: &[u8]) -> Rc<Vec<u8>> {
        let mut bytes = bytes.to_vec();
        self.damage(&mut bytes);
        Rc::new(bytes)
    }

    pub fn waits(&mut self, logged: &Logged) -> Call {
        let log = self.log_of(logged);
        let n = match self.random.below(60) {
            0 => ARRIVALS_MAX + self.random.place(2),
            _ => self.random.place(40),
        };
        let span = (logged.last - logged.opened.min(logged.last)) + logged.tick * 40;
        let before = self.random.below(50);
        let arrivals = (0..n).map(|_| match self.random.below(40) {
            0 => self.random.below(ASKED_MAX + 1),
            1 => ASKED_MAX,
            _ => (logged.opened.saturating_sub(before) + self.random.below(span)).min(ASKED_MAX),
        });
        let mut arrivals: Vec<u64> = arrivals.collect();
        if self.random.percent(4) {
            arrivals.push(ASKED_MAX + 1 + self.random.any() / 2);
        }
        Call::Waits { log, arrivals }
    }

    pub fn air(&mut self, logged: &Logged) -> Call {
        let log = self.log_of(logged);
        let mut record = logged.record.clone();
        for _ in 0..self.random.pick(&[0, 0, 1, 4, 30]) {
            if !record.is_empty() {
                let place = self.random.place(record.len());
                record[place] = if self.random.percent(70) {
                    NOTHING
                } else {
                    self.random.below(1 << logged.cap.min(12)) as u16
                };
            }
        }
        match self.random.below(40) {
            0..=1 => record.push(NOTHING),
            2..=3 if !record.is_empty() => {
                let place = self.random.place(record.len());
                record[place] = (1 << logged.cap.min(12)) + self.random.below(9) as u16;
            }
            4 => record = vec![NOTHING; (TICKS_MAX + 1) * LANES],
            _ => (),
        }
        let ticks = record.len() / LANES;
        let places = match self.random.below(20) {
            0 => ticks.saturating_sub(1),
            1..=4 => ticks + 3,
            _ => ticks,
        };
        Call::Air { log, record, places }
    }

    pub fn admissions(&mut self, logged: &Logged) -> Call {
        let log = self.log_of(logged);
        let places = self.random.place(120);
        Call::Admissions { log, places }
    }

    pub fn salvage(&mut self, logged: &Logged) -> Call {
        let log = if self.random.percent(85) {
            self.damaged(&logged.log.bytes)
        } else {
            Rc::clone(&logged.log.bytes)
        };
        let size = log.len();
        let area = if self.random.percent(15) {
            self.random.place(size + 1)
        } else {
            size
        };
        let row = if self.random.percent(15) {
            self.random.place(12)
        } else {
            2 * size
        };
        Call::Salvage { log, area, row }
    }

    pub fn next(&mut self, logged: &Logged) -> Call {
        let log = if self.random.percent(20) {
            self.damaged(&logged.log.bytes)
        } else {
            Rc::clone(&logged.log.bytes)
        };
        let size = log.len() as u64;
        let place = match self.random.below(12) {
            0 => self.random.below(size + 3),
            1 => size + self.random.any() / 2,
            _ => self.notice_place(&log),
        };
        Call::Next { log, place }
    }

    /// Where some notice of a log begins, or its end.
    fn notice_place(&mut self, log: &[u8]) -> u64 {
        let mut places = vec![0];
        let mut subject = Tuned::new();
        let mut fields = [0; 8];
        while let (DONE, after) = subject.next(log, *places.last().expect("begun"), &mut fields) {
            places.push(after);
        }
        self.random.pick(&places)
    }

    pub fn write(&mut self) -> Call {
        let mut fields = [0; 8];
        for (i, width) in [3, 32, 8, 64, 32, 8, 8, 8].into_iter().enumerate() {
            let high = if width == 64 { u64::MAX } else { (1 << width) - 1 };
            let number = self.random.any() & high;
            fields[i] = if self.random.percent(2) {
                self.random.any()
            } else {
                number
            };
        }
        let places = self.random.pick(&[45, 45, 64, 26, 30, 37, 44, 36, 29, 25, 0]);
        Call::Write { fields, places }
    }

    pub fn read(&mut self, row: &agent_row::AgentRow) -> Call {
        let mut bytes = self.notice(row);
        if self.random.percent(40) {
            self.damage(&mut bytes);
        }
        Call::Read { bytes }
    }
}
