//! The limits of every number (01, "What the product holds"; caps by 02's request 10, skip-forward counts by 12).

pub const POOL_MIN: u64 = 1;
pub const POOL_MAX: u64 = 64;
pub const ID_MAX: u64 = 15;
pub const TITLES: usize = 16;
pub const FLOOR_MIN: u64 = 2;
pub const FLOOR_MAX: u64 = 5;
pub const COUNT_MIN: u64 = 2;
pub const COUNT_MAX: u64 = 12;
/// The largest count of a skip-forward title.
pub const STEADY_MAX: u64 = 10;
pub const LENGTH_MIN: u64 = 1;
pub const LENGTH_MAX: u64 = 14_400_000;
pub const RATE_MIN: u64 = 1;
pub const RATE_MAX: u64 = 1_000;
pub const EVENT_TIME_MAX: u64 = 1 << 40;
pub const ASKED_MAX: u64 = 1 << 41;
pub const LANE_MAX: u64 = COUNT_MAX - 1;
/// A lane for each of the largest count, and a place for each count from 0 on.
pub const LANES: usize = COUNT_MAX as usize;
pub const COUNTS: usize = COUNT_MAX as usize + 1;
/// The most places of a plan, arrivals of a row and ticks of a record.
pub const PLAN_PLACES: usize = 1 << COUNT_MAX;
pub const ARRIVALS_MAX: usize = 4_096;
pub const TICKS_MAX: usize = 4_096;
/// In a plan a cell that is never taken, in a record a lane that shows nothing, in its results no cell missed.
pub const NOTHING: u16 = 65_535;
/// The small box's floor and cap (02, request 6).
pub const ROM_FLOOR: u64 = 3;
pub const ROM_CAP: u64 = 10;
/// The numbers of its table: ten lanes by 512 ticks.
pub const ROM_NUMBERS: usize = 5_120;
/// The largest sequence of a notice.
pub const SEQUENCE_MAX: u64 = u32::MAX as u64;
