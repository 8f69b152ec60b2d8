//! A call as data, so that it can be put to any subject and shown.

use crate::agent_row::AgentRow;
use crate::refusals::DONE;
use crate::subject::{Fields, Film, PlannerRows, PlayedLog, Sharers, Start, StatusRows, Subject};
use std::fmt;
use std::rc::Rc;

/// An agent that is lent; too long to be shown.
#[derive(Clone)]
pub struct Lent(pub Box<AgentRow>);

impl fmt::Debug for Lent {
    fn fmt(&self, f: &mut fmt::Formatter) -> fmt::Result {
        f.debug_list().entries(self.0.iter()).finish()
    }
}

/// A log, the pool that it is played into and the title asked about.
#[derive(Clone, Debug)]
pub struct Log {
    pub pool: u64,
    pub bytes: Rc<Vec<u8>>,
    pub title: u64,
}

impl Log {
    fn played(&self) -> PlayedLog<'_> {
        PlayedLog {
            pool: self.pool,
            bytes: &self.bytes,
            title: self.title,
        }
    }
}

#[derive(Clone, Debug)]
pub enum Call {
    Lend(Lent),
    Fresh {
        pool: u64,
    },
    Open {
        id: u64,
        time: u64,
        film: Film,
    },
    Skip {
        id: u64,
        time: u64,
        length: u64,
        count: u64,
    },
    Change {
        id: u64,
        time: u64,
        count: u64,
    },
    Close {
        id: u64,
        time: u64,
    },
    Hold {
        id: u64,
        time: u64,
    },
    Lift {
        id: u64,
        time: u64,
    },
    Take {
        bytes: Vec<u8>,
    },
    Lane {
        id: u64,
        lane: u64,
        time: u64,
    },
    RomLane {
        id: u64,
        lane: u64,
        time: u64,
    },
    Held {
        time: u64,
    },
    Status {
        time: u64,
        ids: Vec<u64>,
        places: [usize; 3],
    },
    Planner {
        time: u64,
        rates: Vec<u32>,
        places: [usize; 3],
    },
    Plan {
        start: Start,
        places: usize,
    },
    RomPlan {
        start: Start,
        places: usize,
    },
    RomFill {
        places: usize,
    },
    SkipPlan {
        count: u64,
        arrival: u64,
        places: usize,
    },
    Share {
        pool: u64,
        rows: [Vec<u32>; 4],
        places: usize,
    },
    Write {
        fields: Fields,
        places: usize,
    },
    Read {
        bytes: Vec<u8>,
    },
    Next {
        log: Rc<Vec<u8>>,
        place: u64,
    },
    Waits {
        log: Log,
        arrivals: Vec<u64>,
    },
    Air {
        log: Log,
        record: Vec<u16>,
        places: usize,
    },
    Admissions {
        log: Log,
        places: usize,
    },
    Salvage {
        log: Rc<Vec<u8>>,
        area: usize,
        row: usize,
    },
    Save {
        places: usize,
    },
    Load {
        bytes: Vec<u8>,
    },
}

/// What a call leaves: its answer, and every number of what was given back and lent.
#[derive(Debug, Default, PartialEq, Eq)]
pub struct Outcome {
    pub answer: u8,
    pub numbers: Vec<u64>,
    pub places: Vec<u16>,
    pub bytes: Vec<u8>,
}

/// What lent rows hold before a call.
fn numbers(n: usize) -> Vec<u64> {
    (0..n as u64).map(|i| 0xfeed_0000 + i).collect()
}

impl Outcome {
    fn of(answer: u8, numbers: &[u64]) -> Outcome {
        Outcome {
            answer,
            numbers: numbers.to_vec(),
            ..Outcome::default()
        }
    }
}

impl Call {
    pub fn name(&self) -> &'static str {
        match self {
            Call::Lend(_) => "lend",
            Call::Fresh { .. } => "fresh",
            Call::Open { .. } => "open",
            Call::Skip { .. } => "skip",
            Call::Change { .. } => "change",
            Call::Close { .. } => "close",
            Call::Hold { .. } => "hold",
            Call::Lift { .. } => "lift",
            Call::Take { .. } => "take",
            Call::Lane { .. } => "lane",
            Call::RomLane { .. } => "rom_lane",
            Call::Held { .. } => "held",
            Call::Status { .. } => "status",
            Call::Planner { .. } => "planner",
            Call::Plan { .. } => "plan",
            Call::RomPlan { .. } => "rom_plan",
            Call::RomFill { .. } => "rom_fill",
            Call::SkipPlan { .. } => "skip_plan",
            Call::Share { .. } => "share",
            Call::Write { .. } => "write",
            Call::Read { .. } => "read",
            Call::Next { .. } => "next",
            Call::Waits { .. } => "waits",
            Call::Air { .. } => "air",
            Call::Admissions { .. } => "admissions",
            Call::Salvage { .. } => "salvage",
            Call::Save { .. } => "save",
            Call::Load { .. } => "load",
        }
    }

    pub fn put_to<S: Subject>(&self, subject: &mut S) -> Outcome {
        self.event(subject)
            .or_else(|| self.question(subject))
            .or_else(|| self.row_call(subject))
            .or_else(|| self.log_call(subject))
            .expect("every call is one of these")
    }

    fn event<S: Subject>(&self, subject: &mut S) -> Option<Outcome> {
        let answer = match self {
            Call::Lend(row) => {
                subject.lend(&row.0);
                DONE
            }
            Call::Fresh { pool } => subject.fresh(*pool),
            Call::Open { id, time, film } => subject.open(*id, *time, *film),
            Call::Skip {
                id,
                time,
                length,
                count,
            } => subject.skip(*id, *time, *length, *count),
            Call::Change { id, time, count } => subject.change(*id, *time, *count),
            Call::Close { id, time } => subject.close(*id, *time),
            Call::Hold { id, time } => subject.hold(*id, *time),
            Call::Lift { id, time } => subject.lift(*id, *time),
            Call::Take { bytes } => subject.take(bytes),
            Call::Load { bytes } => subject.load(bytes),
            _ => return None,
        };
        Some(Outcome::of(answer, &[]))
    }

    fn question<S: Subject>(&self, subject: &mut S) -> Option<Outcome> {
        let (answer, number) = match self {
            Call::Lane { id, lane, time } => subject.lane(*id, *lane, *time),
            Call::RomLane { id, lane, time } => subject.rom_lane(*id, *lane, *time),
            Call::Held { time } => subject.held(*time),
            Call::Status { time, ids, places } => {
                let [mut counts, mut held, mut marks] = places.map(numbers);
                let rows = StatusRows {
                    counts: &mut counts,
                    held: &mut held,
                    marks: &mut marks,
                };
                let answer = subject.status(*time, ids, rows);
                return Some(Outcome::of(answer, &[counts, held, marks].concat()));
            }
            Call::Planner { time, rates, places } => {
                let [mut ids, mut times, mut counts] = places.map(numbers);
                let rows = PlannerRows {
                    ids: &mut ids,
                    times: &mut times,
                    counts: &mut counts,
                };
                let (answer, many) = subject.planner(*time, rates, rows);
                return Some(Outcome::of(answer, &[vec![many], ids, times, counts].concat()));
            }
            _ => return None,
        };
        Some(Outcome::of(answer, &[number]))
    }

    fn row_call<S: Subject>(&self, subject: &mut S) -> Option<Outcome> {
        let mut outcome = Outcome::default();
        let row = |places: &usize| vec![0xfeed; *places];
        match self {
            Call::Plan { start, places } => {
                outcome.places = row(places);
                outcome.answer = subject.plan(*start, &mut outcome.places);
            }
            Call::RomPlan { start, places } => {
                outcome.places = row(places);
                outcome.answer = subject.rom_plan(*start, &mut outcome.places);
            }
            Call::RomFill { places } => {
                outcome.places = row(places);
                outcome.answer = subject.rom_fill(&mut outcome.places);
            }
            Call::SkipPlan { count, arrival, places } => {
                outcome.places = row(places);
                outcome.answer = subject.skip_plan(*count, *arrival, &mut outcome.places);
            }
            Call::Share { pool, rows, places } => {
                let [rates, lengths, floors, caps] = rows;
                let titles = Sharers {
                    rates,
                    lengths,
                    floors,
                    caps,
                };
                let mut counts = vec![0xfeed; *places];
                outcome.answer = subject.share(*pool, titles, &mut counts);
                outcome.numbers = counts.into_iter().map(u64::from).collect();
            }
            _ => return None,
        }
        Some(outcome)
    }

    fn log_call<S: Subject>(&self, subject: &mut S) -> Option<Outcome> {
        let mut outcome = Outcome::default();
        match self {
            Call::Write { fields, places } => {
                outcome.bytes = vec![0xa5; *places];
                let (answer, size) = subject.write(fields, &mut outcome.bytes);
                outcome.answer = answer;
                outcome.numbers = vec![size];
            }
            Call::Read { bytes } => {
                outcome.numbers = numbers(8);
                let mut fields: Fields = outcome.numbers[..].try_into().expect("eight fields");
                outcome.answer = subject.read(bytes, &mut fields);
                outcome.numbers = fields.to_vec();
            }
            Call::Next { log, place } => {
                let mut fields: Fields = numbers(8)[..].try_into().expect("eight fields");
                let (answer, after) = subject.next(log, *place, &mut fields);
                outcome = Outcome::of(answer, &fields);
                outcome.numbers.push(after);
            }
            Call::Waits { log, arrivals } => {
                let (answer, counts) = subject.waits(log.played(), arrivals);
                outcome = Outcome::of(answer, &counts);
            }
            Call::Save { places } => {
                outcome.bytes = vec![0xa5; *places];
                outcome.answer = subject.save(&mut outcome.bytes);
            }
            _ => return self.air_call(subject),
        }
        Some(outcome)
    }

    fn air_call<S: Subject>(&self, subject: &mut S) -> Option<Outcome> {
        let mut outcome = Outcome::default();
        match self {
            Call::Air { log, record, places } => {
                outcome.places = vec![0xfeed; *places];
                let (answer, counts) = subject.air(log.played(), record, &mut outcome.places);
                outcome.answer = answer;
                outcome.numbers = counts.to_vec();
            }
            Call::Admissions { log, places } => {
                outcome.bytes = vec![0xa5; *places];
                outcome.answer = subject.admissions(log.played(), &mut outcome.bytes);
            }
            Call::Salvage { log, area, row } => {
                outcome.bytes = vec![0xa5; *area];
                let mut stretches = numbers(*row);
                let (answer, counts) = subject.salvage(log, &mut outcome.bytes, &mut stretches);
                outcome.answer = answer;
                outcome.numbers = [counts.to_vec(), stretches].concat();
            }
            _ => return None,
        }
        Some(outcome)
    }
}
