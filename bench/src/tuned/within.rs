//! Whether every stored number of an agent is within its limits, in one pass without a branch for each number.

use super::agent::{Agent, Title};
use crate::agent_row::{ABSENT, CLOSING, STEADY, VERSION};
use crate::limits::*;

/// Below zero, where both numbers are below 2^63, if a number is above a limit: many of these are or-ed and looked at once.
#[inline]
fn over(number: u64, most: u64) -> u64 {
    most.wrapping_sub(number)
}

#[inline]
fn all_of(row: &[u64]) -> u64 {
    row.iter().fold(0, |all, number| all | number)
}

impl Title {
    /// All numbers or-ed: below 2^41 where each is.
    #[inline]
    fn all(&self) -> u64 {
        let own = self.mode | self.kind | self.length | self.floor | self.cap | self.count | self.mark;
        let times = self.opened | self.last | self.tuned;
        own | times | all_of(&self.ends) | all_of(&self.dropped) | all_of(&self.owed)
    }

    /// The top bit is set where a number that is below 2^63 is above its own limit.
    #[inline]
    fn own_over(&self) -> u64 {
        let floor_most = if self.is_steady() { STEADY_MAX } else { FLOOR_MAX };
        over(self.mode, CLOSING)
            | over(self.kind, STEADY)
            | over(self.length, LENGTH_MAX)
            | over(self.floor, floor_most)
            | over(self.cap, COUNT_MAX)
            | over(self.count, COUNT_MAX)
            | over(self.mark, 1)
    }

    /// The same for the order that the numbers of a title have which is there.
    #[inline]
    fn order_over(&self, pool: u64) -> u64 {
        let disorder = over(LENGTH_MIN, self.length)
            | over(FLOOR_MIN, self.floor)
            | over(self.floor, self.count)
            | over(self.count, self.cap)
            | over(POOL_MIN, pool)
            // floor and cap are one where the kind is 1
            | (over(self.cap, self.floor) & self.kind.wrapping_neg());
        if self.mode == ABSENT {
            0
        } else {
            disorder
        }
    }

    /// The limit of times, ticks and owed cells, number by number.
    fn times_within(&self) -> bool {
        let rows = self.ends.iter().chain(&self.dropped).chain(&self.owed);
        let mut times = rows.chain([&self.opened, &self.last, &self.tuned]);
        times.all(|number| *number <= ASKED_MAX)
    }
}

impl Agent {
    #[inline]
    pub fn in_limits(&self) -> bool {
        let mut all = self.last | self.sequence | self.pool;
        let mut wrong = over(self.sequence, SEQUENCE_MAX) | over(self.pool, POOL_MAX);
        for title in &self.titles {
            all |= title.all();
            wrong |= title.own_over() | title.order_over(self.pool);
        }
        if self.version != VERSION {
            return false;
        }
        if all < ASKED_MAX {
            return wrong >> 63 == 0;
        }
        self.in_limits_at_the_edge()
    }

    /// Some number is 2^41 or above it.
    #[cold]
    fn in_limits_at_the_edge(&self) -> bool {
        let small = self.last <= ASKED_MAX && self.sequence <= SEQUENCE_MAX && self.pool <= POOL_MAX;
        small
            && self.titles.iter().all(|title| {
                let below =
                    (title.mode | title.kind | title.length | title.floor | title.cap | title.count | title.mark)
                        < ASKED_MAX;
                below && title.times_within() && (title.own_over() | title.order_over(self.pool)) >> 63 == 0
            })
    }
}
