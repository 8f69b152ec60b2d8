//! Which lanes are held, and what a lane shows.

use super::agent::{Agent, Title};
use crate::agent_row::{ABSENT, OPEN};

impl Title {
    /// How many lanes the title holds at a time: the active ones, and of those above them the ones that still send.
    #[inline]
    pub fn lanes_held(&self, time: u64) -> u64 {
        if self.mode == ABSENT {
            return 0;
        }
        let active = self.ruling() as usize;
        let above = active..self.cap as usize;
        let dropped = self.dropped[above.clone()].iter().zip(&self.owed[above]);
        let gone = dropped.map(|(from, owed)| from + owed);
        // no lane was ever dropped: the tick is not asked for
        if gone.clone().fold(0, |all, gone| all | gone) == 0 {
            return active as u64;
        }
        let tick = self.moment(self.tick_length(), time).tick;
        active as u64 + gone.map(|gone| u64::from(tick < gone)).sum::<u64>()
    }

    /// The title is open, or closing with a lane still held.
    #[inline]
    pub fn is_there(&self, time: u64) -> bool {
        self.mode == OPEN || self.lanes_held(time) > 0
    }

    /// The tick whose cell a lane shows at a time; none where it is not held.
    #[inline]
    pub fn shown_tick(&self, lane: u64, time: u64) -> Option<u64> {
        if self.mode == ABSENT || lane >= self.cap {
            return None;
        }
        let tick_length = self.tick_length();
        let tick = self.moment(tick_length, time).tick;
        if lane < self.ruling() {
            return Some(tick);
        }
        let from = self.dropped[lane as usize];
        if tick >= from + self.owed[lane as usize] {
            return None;
        }
        Some(self.nth_owed(tick_length, lane, tick.saturating_sub(from)))
    }
}

impl Agent {
    /// How many lanes are held over all titles at a time.
    #[inline]
    pub fn lanes_held(&self, time: u64) -> u64 {
        self.titles.iter().map(|title| title.lanes_held(time)).sum()
    }
}
