//! Plans: the cells of a channel, or of a steady lane, are taken in two runs of rising ticks.

use crate::limits::*;
use crate::refusals::*;
use crate::subject::Start;

/// 1 15 13 14 8 10.
pub fn answer(start: Start, places: usize) -> u8 {
    let Start {
        floor,
        cap,
        count,
        arrival,
    } = start;
    let within = (FLOOR_MIN..=FLOOR_MAX).contains(&floor)
        && (COUNT_MIN..=COUNT_MAX).contains(&cap)
        && (COUNT_MIN..=COUNT_MAX).contains(&count)
        && arrival <= ASKED_MAX;
    if !within {
        return OUTSIDE_LIMITS;
    }
    if cap < floor {
        return FLOOR_ABOVE_CAP;
    }
    if count < floor {
        return BELOW_FLOOR;
    }
    if cap < count {
        return ABOVE_CAP;
    }
    if arrival & ((1 << (cap - count)) - 1) != 0 {
        return NOT_AT_SLOT;
    }
    if places < 1 << cap {
        return WRONG_ROWS;
    }
    DONE
}

/// Numbers from one on, each one more.
#[inline]
fn rise(row: &mut [u16], from: usize) {
    for (i, place) in row.iter_mut().enumerate() {
        *place = (from + i) as u16;
    }
}

/// The cells of a channel that shows its `at`-th first: those before it come last.
#[inline]
fn turn(cells: &mut [u16], at: usize) {
    let later = cells.len() - at;
    let (before, from) = cells.split_at_mut(at);
    rise(before, later);
    rise(from, 0);
}

pub fn plan(start: Start, row: &mut [u16]) -> u8 {
    let number = answer(start, row.len());
    if number != DONE {
        return number;
    }
    let width = start.cap - start.count;
    let shift = (1u64 << (start.count - start.floor)) - 1;
    let slot = (start.arrival >> width).wrapping_sub(shift);
    for channel in 0..start.count {
        let segments = 1u64 << channel;
        let from = (segments as usize - 1) << width;
        let at = ((slot & (segments - 1)) as usize) << width;
        turn(&mut row[from..from + ((segments as usize) << width)], at);
    }
    row[(1 << start.cap) - (1 << width)..1 << start.cap].fill(NOTHING);
    DONE
}

pub fn skip_plan(count: u64, arrival: u64, row: &mut [u16]) -> u8 {
    if !(COUNT_MIN..=STEADY_MAX).contains(&count) || arrival > ASKED_MAX {
        return OUTSIDE_LIMITS;
    }
    if row.len() < 1 << (count - 1) {
        return WRONG_ROWS;
    }
    row[0] = 0;
    for lane in 1..count {
        let period = 1usize << (lane - 1);
        turn(&mut row[period..2 * period], arrival as usize & (period - 1));
    }
    DONE
}
