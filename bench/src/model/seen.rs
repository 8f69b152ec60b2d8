//! A title as the refusals and the questions see it, whether it was read off the events or off a row that was lent.

use super::scheme::Scheme;
use crate::agent_row::{ABSENT, CLOSING, OPEN};
use crate::limits::LANES;

/// When a lane was last dropped, and how many cells it owed then.
#[derive(Clone, Copy, Debug, Default, PartialEq, Eq)]
pub struct Dropped {
    pub tick: u64,
    pub owed: u64,
}

#[derive(Clone)]
pub struct Seen {
    pub mode: u64,
    pub kind: u64,
    /// None for a slot without a title.
    pub scheme: Option<Scheme>,
    pub opened: u64,
    pub length: u64,
    pub floor: u64,
    pub cap: u64,
    pub count: u64,
    pub held: bool,
    pub last: u64,
    pub tuned: u64,
    pub lanes: [Dropped; LANES],
}

impl Seen {
    /// An id that was never opened.
    pub fn absent(last: u64) -> Seen {
        Seen {
            mode: ABSENT,
            kind: 0,
            scheme: None,
            opened: 0,
            length: 0,
            floor: 0,
            cap: 0,
            count: 0,
            held: false,
            last,
            tuned: 0,
            lanes: [Dropped::default(); LANES],
        }
    }

    pub fn is_open(&self) -> bool {
        self.mode == OPEN
    }

    pub fn is_closing(&self) -> bool {
        self.mode == CLOSING
    }

    fn scheme(&self) -> &Scheme {
        self.scheme.as_ref().expect("a title that is there has a scheme")
    }

    pub fn is_steady(&self) -> bool {
        self.scheme.as_ref().is_some_and(|scheme| scheme.steady)
    }

    /// The ruling count, 0 where the title isn't open.
    pub fn ruling(&self) -> u64 {
        if self.is_open() {
            self.count
        } else {
            0
        }
    }

    pub fn tick_length(&self) -> u64 {
        self.scheme().tick(self.length)
    }

    pub fn tick_at(&self, time: u64) -> u64 {
        time.saturating_sub(self.opened) / self.tick_length()
    }

    /// A slot of a count in ms.
    pub fn slot_length(&self, count: u64) -> u64 {
        self.scheme().slot(count) * self.tick_length()
    }

    /// Whether a time is a slot start of a count. Times up to the opening lie in tick 0.
    pub fn at_slot_start(&self, count: u64, time: u64) -> bool {
        time.saturating_sub(self.opened).is_multiple_of(self.slot_length(count))
    }

    /// From when on the title may change again (02, request 9).
    pub fn settled_at(&self) -> u64 {
        self.tuned + self.slot_length(self.floor)
    }

    /// A lane is active, or its owed cells have not all gone.
    pub fn lane_held(&self, lane: u64, time: u64) -> bool {
        if self.mode == ABSENT || lane >= self.cap {
            return false;
        }
        let Dropped { tick, owed } = self.lanes[lane as usize];
        lane < self.ruling() || self.tick_at(time) < tick + owed
    }

    /// How many lanes the title holds at a time.
    pub fn lanes_held(&self, time: u64) -> u64 {
        (0..self.cap).filter(|lane| self.lane_held(*lane, time)).count() as u64
    }

    /// The title is open, or closing with a lane still held.
    pub fn is_there(&self, time: u64) -> bool {
        self.is_open() || self.lanes_held(time) > 0
    }

    /// The cell that an active lane shows at a time.
    pub fn usual_cell(&self, lane: u64, time: u64) -> u64 {
        self.scheme().lane_cell(lane, self.tick_at(time))
    }
}
