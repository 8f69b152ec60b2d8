//! What is asked of an agent: a lane's cell, status, and the lanes held.

use super::past::Past;
use super::seen::Seen;
use crate::agent_row::ABSENT;
use crate::limits::{ASKED_MAX, ID_MAX, ROM_CAP, ROM_FLOOR};
use crate::refusals::*;
use crate::subject::StatusRows;

/// The answer, and the cell that goes out on a lane in the tick that holds a time.
pub fn lane<P: Past>(past: &P, id: u64, lane: u64, time: u64) -> (u8, u64) {
    if !past.lane_in_limits(id, lane, time) {
        return (OUTSIDE_LIMITS, 0);
    }
    let title = past.title(id);
    if time < title.last {
        return (TOO_EARLY, 0);
    }
    if !title.lane_held(lane, time) {
        return (NOT_THERE, 0);
    }
    if lane < title.ruling() {
        return (DONE, title.usual_cell(lane, time));
    }
    (DONE, past.sent_cell(id, lane, time))
}

/// Whether a slot has a title, there or gone, that the small box does not know.
fn is_foreign(title: &Seen) -> bool {
    let own = !title.is_steady() && title.floor == ROM_FLOOR && title.cap == ROM_CAP;
    title.mode != ABSENT && !own
}

/// The small box answers as the computing one, from titles of its floor and cap alone.
pub fn rom_lane<P: Past>(past: &P, id: u64, lane_asked: u64, time: u64) -> (u8, u64) {
    if !past.in_limits() || (id <= ID_MAX && is_foreign(&past.title(id))) {
        return (OUTSIDE_LIMITS, 0);
    }
    lane(past, id, lane_asked, time)
}

/// The answer, and the lanes held over all titles.
pub fn held<P: Past>(past: &P, time: u64) -> (u8, u64) {
    if !past.in_limits() || time > ASKED_MAX {
        return (OUTSIDE_LIMITS, 0);
    }
    if time < past.last() {
        return (TOO_EARLY, 0);
    }
    (DONE, past.lanes_held(time))
}

/// Counts, lanes held and marks by id, zeros where the title isn't there or, for count and mark, is closing.
pub fn status<P: Past>(past: &P, time: u64, ids: &[u64], rows: StatusRows) -> u8 {
    let n = ids.len();
    if rows.counts.len() != n || rows.held.len() != n || rows.marks.len() != n {
        return WRONG_ROWS;
    }
    if !past.in_limits() || time > ASKED_MAX || ids.iter().any(|id| *id > ID_MAX) {
        return OUTSIDE_LIMITS;
    }
    if time < past.last() {
        return TOO_EARLY;
    }
    for (i, id) in ids.iter().enumerate() {
        let title = past.title(*id);
        rows.counts[i] = title.ruling();
        rows.held[i] = title.lanes_held(time);
        rows.marks[i] = u64::from(title.is_open() && title.held);
    }
    DONE
}
