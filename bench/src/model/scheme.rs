//! By which rule a title is sent: the padded grid, or the steady lanes of a skip-forward title (02, request 12).

use super::grid;
use super::grid::Lanes;
use crate::agent_row::STEADY;

#[derive(Clone)]
pub struct Scheme {
    pub steady: bool,
    pub floor: u64,
    pub cap: u64,
    lanes: Option<Lanes>,
}

impl Scheme {
    pub fn of(kind: u64, floor: u64, cap: u64) -> Scheme {
        let steady = kind == STEADY;
        Scheme {
            steady,
            floor,
            cap,
            lanes: (!steady).then(|| Lanes::of(floor, cap)),
        }
    }

    /// A title's tick in ms; of a skip-forward title each of its 2^(k-1) blocks plays for one.
    pub fn tick(&self, length: u64) -> u64 {
        if self.steady {
            return length.div_ceil(1 << (self.cap - 1));
        }
        grid::tick(length, self.floor, self.cap)
    }

    /// The ticks of a slot of a count; each tick of a skip-forward title is a slot start.
    pub fn slot(&self, count: u64) -> u64 {
        if self.steady {
            return 1;
        }
        grid::slot(self.cap, count)
    }

    /// The cell that an active lane carries at a tick.
    pub fn lane_cell(&self, lane: u64, tick: u64) -> u64 {
        match &self.lanes {
            Some(lanes) => lanes.cell(lane, tick),
            None => steady_cell(lane, tick),
        }
    }

    /// For how many ticks from its start a box of a count takes the channel that has a cell; none where it never takes it.
    pub fn taken_for(&self, count: u64, cell: u64) -> Option<u64> {
        if self.steady {
            return Some(steady_period(steady_lane(cell)));
        }
        grid::channel_of(self.cap, count, cell).map(|d| grid::slot(self.cap, count) << d)
    }

    /// Whether a box of a count that starts at tick `start` has a cell in its plan at exactly `tick`.
    pub fn plans(&self, count: u64, start: u64, cell: u64, tick: u64) -> bool {
        if self.steady {
            return steady_first(start, cell) == tick;
        }
        let Some(channel) = grid::channel_of(self.cap, count, cell) else {
            return false;
        };
        let taken = grid::slot(self.cap, count) << channel;
        start <= tick && tick < start + taken && grid::channel_cell(self.floor, self.cap, count, channel, tick) == cell
    }

    /// No box awaits anything for longer than this after its start, nor a lane after its drop.
    pub fn reach(&self) -> u64 {
        grid::period(self.cap)
    }
}

/// How many blocks a steady lane repeats.
pub fn steady_period(lane: u64) -> u64 {
    match lane {
        0 => 1,
        _ => 1 << (lane - 1),
    }
}

/// Lane 0 repeats block 1, lane i the blocks 2^(i-1)+1 to 2^i from tick 0 on; block n is cell n - 1.
pub fn steady_cell(lane: u64, tick: u64) -> u64 {
    match lane {
        0 => 0,
        _ => steady_period(lane) + tick % steady_period(lane),
    }
}

/// The lane that repeats a cell.
fn steady_lane(cell: u64) -> u64 {
    (0..).find(|lane| cell < 1 << lane).expect("some lane has every block")
}

/// The first tick from a start on at which a cell is on air.
pub fn steady_first(start: u64, cell: u64) -> u64 {
    let lane = steady_lane(cell);
    (start..start + steady_period(lane))
        .find(|t| steady_cell(lane, *t) == cell)
        .expect("a lane shows its blocks once in a period")
}
