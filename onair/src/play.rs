//! One play of a title: its plan, the cells that are wanted of the lanes, those that are kept, and what was shown of the film.

use crate::follower::Follower;
use crate::grid::Grid;
use crate::library::{self, Notice, LANES, NOTHING};
use crate::wire::LaneHead;
use std::collections::BTreeMap;

/// How long behind the end of its tick, in ms, a cell is shown: what a datagram may be late on its way.
pub const SLACK: u64 = 300;

/// What a lane of the pool is to bring at a tick, by the agent and the plan.
#[derive(Clone, Copy, Debug, PartialEq, Eq)]
struct Want {
    lane: usize,
    cell: u64,
}

/// A cell of which bytes have come.
struct Kept {
    bytes: Vec<u8>,
    /// When its last byte came, in ms.
    whole: Option<u64>,
}

/// What became of a datagram.
#[derive(Clone, Copy, Debug, PartialEq, Eq)]
pub enum Seen {
    Taken,
    /// Nothing is wanted of this lane at this tick.
    Unwanted,
    /// It is of another title or lane than the agent says: the lane carries something else.
    Foreign,
}

pub struct Play {
    pub title: u64,
    pub grid: Grid,
    /// The tick at which it began, and the count that ruled there.
    pub start: u64,
    pub count: u64,
    plan: Vec<u16>,
    reserved: Vec<bool>,
    /// The next tick whose wants are to be settled.
    next: u64,
    wants: BTreeMap<(u64, usize), Want>,
    kept: BTreeMap<u64, Kept>,
    /// Cells that were shown or whose turn has passed.
    pub turn: u64,
    pub late: Vec<u64>,
    pub missing: Vec<u64>,
    /// Cells that were whole in time, and shown more than SLACK behind it.
    pub stalled: Vec<u64>,
    pub most: usize,
    pub foreign: u64,
    /// Of each tick from the opening on what was received whole, as `air` reads it.
    pub record: Vec<[u16; LANES]>,
}

impl Play {
    /// Begins at an admission.
    pub fn new(opening: &Notice, grid: Grid, start: u64, count: u64) -> Result<Play, u8> {
        Ok(Play {
            title: opening.title,
            grid,
            start,
            count,
            plan: library::plan(opening, count, start)?,
            reserved: vec![false; grid.cells as usize],
            next: start,
            wants: BTreeMap::new(),
            kept: BTreeMap::new(),
            turn: 0,
            late: Vec::new(),
            missing: Vec::new(),
            stalled: Vec::new(),
            most: 0,
            foreign: 0,
            record: vec![[NOTHING; LANES]; (start + grid.cells) as usize],
        })
    }

    pub fn is_over(&self) -> bool {
        self.turn == self.grid.film
    }

    /// By when a cell has to be whole.
    pub fn due(&self, cell: u64) -> u64 {
        self.grid.time(self.start + cell + 1) + SLACK
    }

    /// A cell is taken at its tick by the plan, or from a dropped lane, which sends what boxes still await before its tick.
    fn is_wanted(&self, cell: u64, now: u64, dropped: bool) -> bool {
        if cell >= self.grid.film || self.reserved[cell as usize] {
            return false;
        }
        match self.plan[cell as usize] {
            NOTHING => false,
            at => u64::from(at) == now || (dropped && u64::from(at) > now),
        }
    }

    /// The ticks that begin up to a time, one by one, each with every event up to its beginning.
    pub fn look_ahead(&mut self, follower: &mut Follower, until: u64) {
        while self.next < self.start + self.grid.film && self.grid.time(self.next) <= until {
            follower.advance(self.grid.time(self.next));
            self.look_at(follower, self.next);
            self.next += 1;
        }
    }

    /// Asks the agent what the lanes show at a tick, and notes what of it is wanted.
    fn look_at(&mut self, follower: &Follower, tick: u64) {
        let time = self.grid.time(tick);
        let Ok(standing) = follower.asked.status(self.title, time) else {
            return;
        };
        for lane in 0..LANES {
            if let Ok(cell) = follower.asked.lane(self.title, lane, time) {
                let dropped = lane as u64 >= standing.count;
                let port = follower.lanes.find(self.title, lane);
                if let (true, Some(port)) = (self.is_wanted(cell, tick - self.start, dropped), port) {
                    self.reserved[cell as usize] = true;
                    self.wants.insert((tick, port), Want { lane, cell });
                }
            }
        }
    }

    /// The lanes of the pool of which something is wanted.
    pub fn ports(&self) -> Vec<usize> {
        let mut ports: Vec<usize> = self.wants.keys().map(|(_, port)| *port).collect();
        ports.sort_unstable();
        ports.dedup();
        ports
    }

    /// Whether a datagram brings what is wanted of the lane that it came on. Its claim only has to agree with the agent.
    pub fn judge(&self, port: usize, head: &LaneHead, clock: u64) -> Seen {
        let Some(want) = self.wants.get(&(head.tick, port)) else {
            // a tick of another title is counted from another opening
            let now = clock.saturating_sub(self.grid.opened) / self.grid.tick;
            let elsewhere = u64::from(head.title) != self.title && self.wants.contains_key(&(now, port));
            return if elsewhere { Seen::Foreign } else { Seen::Unwanted };
        };
        let bytes = self.grid.bytes(want.cell);
        let had = self.kept.get(&want.cell).map_or(0, |kept| kept.bytes.len() as u64);
        if u64::from(head.title) != self.title || usize::from(head.lane) != want.lane {
            Seen::Foreign
        } else if head.place == bytes.start + had && head.place < bytes.end {
            Seen::Taken
        } else {
            Seen::Unwanted // a part before it was lost
        }
    }

    /// Takes the bytes of a datagram that brings what is wanted.
    pub fn keep(&mut self, port: usize, head: &LaneHead, bytes: &[u8], clock: u64) {
        let Some(want) = self.wants.get(&(head.tick, port)).copied() else {
            return;
        };
        let all = self.grid.bytes(want.cell);
        let size = (all.end - all.start) as usize;
        let kept = self.kept.entry(want.cell).or_insert_with(|| Kept { bytes: Vec::with_capacity(size), whole: None });
        kept.bytes.extend(&bytes[..bytes.len().min(size - kept.bytes.len())]);
        if kept.bytes.len() == size {
            kept.whole = Some(clock);
            self.wants.remove(&(head.tick, port));
            if clock <= self.due(want.cell) {
                if let Some(row) = self.record.get_mut(head.tick as usize) {
                    row[want.lane] = want.cell as u16;
                }
            }
        }
        self.most = self.most.max(self.kept.len());
    }

    /// The next cell whose turn is over: its bytes where it has come, and zeros where it has not.
    pub fn show(&mut self, clock: u64) -> Option<Vec<u8>> {
        let cell = self.turn;
        if self.is_over() || self.due(cell) > clock {
            return None;
        }
        self.turn += 1;
        let due = self.due(cell);
        let all = self.grid.bytes(cell);
        let shown = match self.kept.remove(&cell) {
            Some(Kept { bytes, whole: Some(whole) }) => {
                if whole > due {
                    self.late.push(cell);
                } else if clock > due + SLACK {
                    self.stalled.push(cell);
                }
                bytes
            }
            _ => {
                self.missing.push(cell);
                vec![0; (all.end - all.start) as usize]
            }
        };
        self.forget(clock);
        Some(shown)
    }

    /// Wants of ticks that are long over: nothing more comes for them.
    fn forget(&mut self, clock: u64) {
        let (opened, tick) = (self.grid.opened, self.grid.tick);
        self.wants.retain(|(at, _), _| opened + (at + 1) * tick + SLACK > clock);
    }
}
