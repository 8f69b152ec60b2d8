//! What a dropped lane owes, counted stretch by stretch: each stretch lies within one slot of the lane.
//!
//! A lane from the floor up shows in a slot with d low zeros the last segment of channel d, which every count above has
//! on a channel of the same span, the lane's slot times 2^d; slots with no zeros are owed to nobody who began before the
//! drop. So only the latest start of all counts above the lane decides, and a walk looks at slots with enough zeros.

use super::agent::Title;
use super::grid::{lane_cell, steady_period};
use crate::limits::COUNTS;

/// The latest start of a box under some counts, and the latest end of such a start's slot.
#[derive(Clone, Copy)]
struct Latest {
    start: i64,
    end: u64,
}

/// A start that never was lies far below zero.
const NEVER: i64 = i64::MIN / 2;

/// Stretches are handed on as their first tick and how many ticks; a visitor says whether to go on.
trait Visit: FnMut(u64, u64) -> bool {}
impl<F: FnMut(u64, u64) -> bool> Visit for F {}

impl Latest {
    const NONE: Latest = Latest { start: NEVER, end: 0 };

    /// The boxes of a count more.
    #[inline]
    fn join(&mut self, title: &Title, count: u64) {
        let end = title.ends[count as usize];
        if end > 0 {
            self.start = self.start.max(end as i64 - (1 << (title.cap - count)));
            self.end = self.end.max(end);
        }
    }

    /// The boxes of all counts that have a lane.
    fn above(title: &Title, lane: u64) -> Latest {
        let mut latest = Latest::NONE;
        for count in title.floor.max(lane + 1)..=title.cap {
            latest.join(title, count);
        }
        latest
    }
}

impl Title {
    /// The lanes from a new count up to the old are dropped at a tick, and what each owes is counted.
    pub fn drop_lanes(&mut self, tick: u64, tick_length: u64, count: u64) {
        let film = self.film_cells(tick_length);
        let mut latest = Latest::NONE;
        let mut joined = self.cap + 1;
        for lane in (count..self.count).rev() {
            while joined > self.floor.max(lane + 1) {
                joined -= 1;
                latest.join(self, joined);
            }
            let mut owed = 0;
            stretches(self, latest, film, lane, tick, |_, ticks| {
                owed += ticks;
                true
            });
            self.dropped[lane as usize] = tick;
            self.owed[lane as usize] = owed;
        }
    }

    /// The owed tick of a lane that has `nth` owed ticks before it, from its drop on; the tick just out of reach where there
    /// is none.
    pub fn nth_owed(&self, tick_length: u64, lane: u64, nth: u64) -> u64 {
        let at = self.dropped[lane as usize];
        let film = self.film_cells(tick_length);
        let mut left = nth;
        let mut found = at + self.reach();
        stretches(self, Latest::above(self, lane), film, lane, at, |from, ticks| {
            if left < ticks {
                found = from + left;
                return false;
            }
            left -= ticks;
            true
        });
        found
    }
}

/// The stretches that a lane owes from a drop on, in order; `latest` is of all counts that have the lane.
#[inline]
fn stretches(title: &Title, latest: Latest, film: u64, lane: u64, at: u64, visit: impl Visit) {
    if title.is_steady() {
        return steady_stretches(title, film, lane, at, visit);
    }
    if latest.end == 0 {
        return;
    }
    let bits = title.cap - title.floor.max(lane + 1);
    let aligned = at & ((1 << bits) - 1) == 0;
    if !aligned || latest.end > at {
        // no events lead here
        return tick_by_tick(title, film, lane, at, visit);
    }
    if lane < title.floor {
        return floor_stretches(title, latest, film, lane, at, visit);
    }
    upper_stretches(title, latest.start, film, lane, at, visit)
}

/// Of a lane from the floor up.
fn upper_stretches(title: &Title, start: i64, film: u64, lane: u64, at: u64, mut visit: impl Visit) {
    let bits = title.cap - lane - 1;
    let since = (at as i64 - start) as u64;
    // the slot's shifted number plus one, and the slots since the latest start
    let mut shifted = (at >> bits).wrapping_add(2).wrapping_sub(1 << (lane + 1 - title.floor));
    let first = shifted;
    let mut slots = since >> bits;
    loop {
        // a channel with so many zeros is still taken
        let zeros = u64::from((64 - slots.leading_zeros()).max(1));
        if zeros > lane {
            return;
        }
        let ahead = shifted.wrapping_neg() & ((1 << zeros) - 1);
        if ahead > 0 {
            shifted = shifted.wrapping_add(ahead);
            slots += ahead;
            continue;
        }
        let channel = u64::from((shifted | 1 << lane).trailing_zeros());
        let offset = shifted.wrapping_sub(first) << bits;
        let cell = ((2 << channel) - 2) << bits;
        let awaited = (1 << (bits + channel)) - (since + offset);
        let ticks = awaited.min(1 << bits).min(film.saturating_sub(cell));
        if ticks > 0 && !visit(at + offset, ticks) {
            return;
        }
        shifted = shifted.wrapping_add(1);
        slots += 1;
    }
}

/// Of a lane below the floor, which only a close drops: slot by slot of count A. Lane 0 owes nothing, since a box has all
/// of it within its first slot.
fn floor_stretches(title: &Title, latest: Latest, film: u64, lane: u64, at: u64, mut visit: impl Visit) {
    if lane == 0 {
        return;
    }
    let bits = title.cap - title.floor;
    let own = 1u64 << lane;
    let until = latest.start + (own << bits) as i64;
    let mut slot = at;
    while (slot as i64) < until {
        let place = (slot >> bits) & (own - 1);
        let film_left = film.saturating_sub((own - 1 + place) << bits);
        let go_on = if place == 0 {
            first_segment(title, lane, slot, film_left, &mut visit)
        } else {
            let ticks = ((until - slot as i64) as u64).min(1 << bits).min(film_left);
            ticks == 0 || visit(slot, ticks)
        };
        if !go_on {
            return;
        }
        slot += 1 << bits;
    }
}

/// The lane's first segment lies on two channels of a larger count, its last small slot on the longer one. So it comes in
/// bands, each of which the counts up to one take long and those above half as long.
fn first_segment(title: &Title, lane: u64, slot: u64, film: u64, visit: &mut impl Visit) -> bool {
    let width = 1u64 << (title.cap - title.floor);
    let long = (width << lane) as i64;
    let mut above = [Latest::NONE; COUNTS + 1];
    for count in (title.floor..=title.cap).rev() {
        above[count as usize] = above[count as usize + 1];
        above[count as usize].join(title, count);
    }
    let mut up_to = Latest::NONE;
    for count in title.floor..=title.cap {
        up_to.join(title, count);
        let small = 1u64 << (title.cap - count);
        let from = width - small;
        let band = if count == title.cap { width } else { width - small / 2 };
        let latest = (up_to.start + long).max(above[count as usize + 1].start + long / 2);
        let awaited = (latest - slot as i64).clamp(0, band as i64) as u64;
        let to = awaited.min(film);
        if from < to && !visit(slot + from, to - from) {
            return false;
        }
    }
    true
}

/// Of a skip-forward title: its latest boxes take a lane for one period, film first.
fn steady_stretches(title: &Title, film: u64, lane: u64, at: u64, mut visit: impl Visit) {
    let end = title.ends[title.cap as usize];
    let period = steady_period(lane);
    if end == 0 {
        return;
    }
    let until = (end + period - 1).min(at + title.reach());
    let shown = if lane == 0 { film } else { film.saturating_sub(period) };
    let mut turn = at - at % period;
    while turn < until {
        let from = turn.max(at);
        let to = (turn + shown.min(period)).min(until);
        if from < to && !visit(from, to - from) {
            return;
        }
        turn += period;
    }
}

/// Any ends and any drop, as they stand.
fn tick_by_tick(title: &Title, film: u64, lane: u64, at: u64, mut visit: impl Visit) {
    for tick in at..at + title.reach() {
        let cell = lane_cell(title.floor, title.cap, lane, tick);
        if cell < film && is_awaited(title, lane, cell, tick) && !visit(tick, 1) {
            return;
        }
    }
}

fn is_awaited(title: &Title, lane: u64, cell: u64, tick: u64) -> bool {
    (title.floor.max(lane + 1)..=title.cap).any(|count| {
        let bits = title.cap - count;
        let end = title.ends[count as usize];
        let channel = ((cell >> bits) + 1).ilog2();
        end > 0 && tick + (1 << bits) < end + (1 << (bits + u64::from(channel)))
    })
}
