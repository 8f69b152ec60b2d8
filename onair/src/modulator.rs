//! The modulator: follows the head-end's journal with an agent of its own, and says what goes out on each lane of the pool, and when.
//! Like the box it sees neither clock nor socket; `modulating` hands it both.

use crate::follower::{Follower, Heard};
use crate::grid::Grid;
use crate::library::{Notice, LANES, TITLES};
use crate::wire::{self, Beat, LaneHead};
use std::collections::{BTreeSet, VecDeque};
use std::ops::Range;

/// The most bytes of a cell that one datagram carries.
pub const PART: u64 = 56_000;
/// How often, in ms, the latest notices go out again, and the snapshot.
pub const CAROUSEL: u64 = 100;
pub const SNAPSHOT: u64 = 2_000;
/// How many notices the carousel has, at least.
const LATEST: usize = 8;
/// Parts of a cell go out within so many tenths of its tick.
const TENTHS: u64 = 7;

/// A part of a cell, and when it is to go out, in microseconds.
#[derive(Clone, Debug, PartialEq, Eq)]
pub struct Part {
    pub due: u64,
    pub port: usize,
    pub head: LaneHead,
    pub bytes: Range<u64>,
}

pub struct Modulator {
    follower: Follower,
    size: u64,
    /// Of each title its grid and its next tick.
    titles: [Option<(Grid, u64)>; TITLES],
    latest: VecDeque<Notice>,
    /// Notices that are not sent when they come: the carousel alone brings them.
    withheld: BTreeSet<u64>,
    /// The least time, in ms, that was left before a notice's own when it was sent.
    pub least_lead: u64,
}

impl Modulator {
    pub fn new(pool: u64, size: u64) -> Result<Modulator, u8> {
        Ok(Modulator {
            follower: Follower::fresh(pool, false)?,
            size,
            titles: [const { None }; TITLES],
            latest: VecDeque::new(),
            withheld: BTreeSet::new(),
            least_lead: u64::MAX,
        })
    }

    pub fn withhold(&mut self, sequence: u64) {
        self.withheld.insert(sequence);
    }

    fn beat(&self, clock: u64) -> Beat {
        Beat { last: self.follower.sequence(), clock }
    }

    /// Takes the notices that the head-end has answered, and gives the datagrams that tell of them at once, each in one of its own.
    pub fn tell(&mut self, notices: &[Notice], clock: u64) -> Result<Vec<Vec<u8>>, String> {
        for notice in notices {
            if self.follower.hear(notice) != Heard::Taken {
                return Err(format!("the journal's notice {} was refused", notice.sequence));
            }
            self.least_lead = self.least_lead.min(notice.time.saturating_sub(clock));
            self.latest.push_back(notice.clone());
        }
        let asked = self.follower.asked.sequence();
        while self.latest.len() > LATEST && self.latest[0].sequence <= asked {
            self.latest.pop_front();
        }
        let beat = self.beat(clock);
        let sent = notices.iter().filter(|notice| !self.withheld.contains(&notice.sequence));
        Ok(sent.map(|notice| wire::notices(beat, std::iter::once(notice))).collect())
    }

    /// The latest notices once more.
    pub fn carousel(&self, clock: u64) -> Vec<u8> {
        wire::notices(self.beat(clock), self.latest.iter())
    }

    /// The agent as it stands, with the lanes of the pool and the openings.
    pub fn snapshot(&self, clock: u64) -> Result<Vec<u8>, u8> {
        let agent = self.follower.asked.save()?;
        Ok(wire::snapshot(self.beat(clock), &agent, &self.follower.lanes, self.follower.openings()))
    }

    /// The next time at which something is to be done: a tick begins, or an event comes.
    pub fn next_moment(&self) -> Option<u64> {
        let ticks = self.titles.iter().flatten().map(|(grid, tick)| grid.time(*tick));
        ticks.chain(self.follower.next_event()).min()
    }

    /// What begins to go out at a moment.
    pub fn at(&mut self, moment: u64) -> Vec<Part> {
        self.follower.advance(moment);
        for opening in self.follower.openings() {
            let title = &mut self.titles[opening.title as usize];
            if title.is_none_or(|(grid, _)| grid.opened != opening.time) && opening.time == moment {
                *title = Some((Grid::of(opening, self.size), 0));
            }
        }
        let mut parts = Vec::new();
        for title in 0..TITLES {
            if let Some((grid, tick)) = self.titles[title].filter(|(grid, tick)| grid.time(*tick) == moment) {
                self.send_tick(title as u64, &grid, tick, &mut parts);
                let held = self.follower.asked.status(title as u64, moment).map_or(0, |standing| standing.held);
                self.titles[title] = (held > 0).then_some((grid, tick + 1));
            }
        }
        parts.sort_by_key(|part| part.due);
        parts
    }

    /// The cells of a title's lanes in a tick, padding left out.
    fn send_tick(&self, title: u64, grid: &Grid, tick: u64, parts: &mut Vec<Part>) {
        for lane in 0..LANES {
            let cell = self.follower.asked.lane(title, lane, grid.time(tick));
            let port = self.follower.lanes.find(title, lane);
            if let (Ok(cell), Some(port)) = (cell, port) {
                if cell < grid.film {
                    let head = LaneHead { title: title as u8, lane: lane as u8, tick, place: 0 };
                    parts.extend(cut(grid, head, port, cell));
                }
            }
        }
    }
}

/// A cell's parts, of nearly the same size, spread over its tick, each lane a little behind the one before.
fn cut(grid: &Grid, head: LaneHead, port: usize, cell: u64) -> impl Iterator<Item = Part> {
    let all = grid.bytes(cell);
    let count = (all.end - all.start).div_ceil(PART);
    let size = (all.end - all.start).div_ceil(count.max(1));
    let (begins, spread) = (grid.time(head.tick) * 1_000, grid.tick * 100 * TENTHS);
    (0..count).map(move |part| {
        let from = all.start + part * size;
        let steps = part * LANES as u64 + u64::from(head.lane);
        let due = begins + spread * steps / (count * LANES as u64);
        Part { due, port, head: LaneHead { place: from, ..head }, bytes: from..(from + size).min(all.end) }
    })
}
