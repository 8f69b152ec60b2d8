//! Events: a time, a title and what is done.

use crate::agent_row::{PADDED, STEADY};
use crate::limits::{
    COUNT_MAX, COUNT_MIN, EVENT_TIME_MAX, FLOOR_MAX, FLOOR_MIN, ID_MAX, LENGTH_MAX, LENGTH_MIN, STEADY_MAX,
};
use crate::subject::Film;

#[derive(Clone, Copy, Debug, PartialEq, Eq)]
pub enum Act {
    Open(Film),
    Skip { length: u64, count: u64 },
    Change { count: u64 },
    Close,
    Hold,
    Lift,
}

#[derive(Clone, Copy, Debug, PartialEq, Eq)]
pub struct Event {
    pub id: u64,
    pub time: u64,
    pub act: Act,
}

impl Act {
    /// The kind and the numbers that a title opens with; the floor and the cap of a skip-forward title are its count.
    pub fn opening(&self) -> Option<(u64, Film)> {
        match *self {
            Act::Open(film) => Some((PADDED, film)),
            Act::Skip { length, count } => {
                let film = Film {
                    length,
                    floor: count,
                    cap: count,
                    count,
                };
                Some((STEADY, film))
            }
            _ => None,
        }
    }

    /// Whether its own numbers are within their limits.
    fn in_limits(&self) -> bool {
        let sized = |length| (LENGTH_MIN..=LENGTH_MAX).contains(&length);
        let counted = |count| (COUNT_MIN..=COUNT_MAX).contains(&count);
        match *self {
            Act::Open(film) => {
                sized(film.length)
                    && (FLOOR_MIN..=FLOOR_MAX).contains(&film.floor)
                    && counted(film.cap)
                    && counted(film.count)
            }
            Act::Skip { length, count } => sized(length) && (COUNT_MIN..=STEADY_MAX).contains(&count),
            Act::Change { count } => counted(count),
            Act::Close | Act::Hold | Act::Lift => true,
        }
    }
}

impl Event {
    pub fn in_limits(&self) -> bool {
        self.id <= ID_MAX && self.time <= EVENT_TIME_MAX && self.act.in_limits()
    }
}
