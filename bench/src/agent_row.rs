//! An agent as a row of numbers: plain data, which every subject takes and gives back.
//!
//! Places: the layout's version, the sequence of the last accepted notice, the pool, the time of the last accepted
//! event, and then for each id the numbers of its title in the order below.

use crate::limits::{COUNTS, LANES, TITLES};

pub const VERSION: u64 = 1;

pub const VERSION_AT: usize = 0;
pub const SEQUENCE_AT: usize = 1;
pub const POOL_AT: usize = 2;
pub const LAST_AT: usize = 3;
/// Where the titles begin.
pub const TITLES_AT: usize = 4;

/// The places of a title's numbers, counted from its first.
pub const MODE: usize = 0;
pub const KIND: usize = 1;
pub const OPENED: usize = 2;
pub const LENGTH: usize = 3;
pub const FLOOR: usize = 4;
pub const CAP: usize = 5;
pub const COUNT: usize = 6;
pub const MARK: usize = 7;
pub const TITLE_LAST: usize = 8;
pub const TUNED: usize = 9;
pub const ENDS: usize = 10;
pub const DROPPED: usize = ENDS + COUNTS;
pub const OWED: usize = DROPPED + LANES;
/// How many numbers a title has.
pub const TITLE_SIZE: usize = OWED + LANES;

/// How many numbers an agent has.
pub const ROW: usize = TITLES_AT + TITLES * TITLE_SIZE;

pub type AgentRow = [u64; ROW];

/// The bytes of an agent's numbers, and of a snapshot, which has a sum of four bytes behind them.
pub const NUMBERS: usize = 8 * ROW;
pub const SNAPSHOT: usize = NUMBERS + 4;

/// What a slot has: no title, one that is open, one that is closing.
pub const ABSENT: u64 = 0;
pub const OPEN: u64 = 1;
pub const CLOSING: u64 = 2;

/// By which scheme a title is sent: the padded grid, or steady lanes.
pub const PADDED: u64 = 0;
pub const STEADY: u64 = 1;

/// The place of a number of an id's title.
pub const fn place(id: usize, number: usize) -> usize {
    TITLES_AT + id * TITLE_SIZE + number
}

/// A fresh agent of a pool: no titles, no notice accepted.
pub fn fresh(pool: u64) -> AgentRow {
    let mut row = [0; ROW];
    row[VERSION_AT] = VERSION;
    row[POOL_AT] = pool;
    row
}
