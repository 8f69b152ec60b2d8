//! What events answer, each call's refusals in their listed order (01 and 02, "First match wins").

use super::events::{Act, Event};
use super::past::Past;
use super::seen::Seen;
use crate::refusals::*;
use crate::subject::Film;

/// The answer to an event, and what the event makes of the past where it is done.
pub fn answer<P: Past>(past: &P, event: &Event) -> (u8, Option<P>) {
    if !past.in_limits() || !event.in_limits() {
        return (OUTSIDE_LIMITS, None);
    }
    let title = past.title(event.id);
    let number = match event.act {
        Act::Open(film) => first_hit(&open_order(past, &title, event, film)),
        Act::Skip { .. } => first_hit(&skip_order(past, &title, event)),
        _ => turn_answer(past, &title, event),
    };
    if number != DONE {
        return (number, None);
    }
    let next = past.after(event);
    if wants_lanes(&event.act) && next.pool() < next.lanes_held(event.time) {
        return (NO_LANES, None);
    }
    (DONE, Some(next))
}

/// Openings and changes are refused for want of lanes; the others need none.
fn wants_lanes(act: &Act) -> bool {
    matches!(act, Act::Open(_) | Act::Skip { .. } | Act::Change { .. })
}

/// 1 2 4 15 13 14, then 9.
fn open_order<P: Past>(past: &P, title: &Seen, event: &Event, film: Film) -> [(u8, bool); 5] {
    [
        (TOO_EARLY, event.time < past.last()),
        (ID_TAKEN, title.is_there(event.time)),
        (FLOOR_ABOVE_CAP, film.cap < film.floor),
        (BELOW_FLOOR, film.count < film.floor),
        (ABOVE_CAP, film.cap < film.count),
    ]
}

/// 1 2 4, then 9.
fn skip_order<P: Past>(past: &P, title: &Seen, event: &Event) -> [(u8, bool); 2] {
    [
        (TOO_EARLY, event.time < past.last()),
        (ID_TAKEN, title.is_there(event.time)),
    ]
}

/// 1 2 3 5 stand before every event of a title that was opened; its own order follows.
fn turn_answer<P: Past>(past: &P, title: &Seen, event: &Event) -> u8 {
    let standing = first_hit(&[
        (TOO_EARLY, event.time < past.last()),
        (NOT_THERE, !title.is_there(event.time)),
        (IS_CLOSING, title.is_closing()),
    ]);
    if standing != DONE {
        return standing;
    }
    match event.act {
        Act::Change { count } => change_answer(title, event.time, count),
        Act::Close => close_answer(title, event.time),
        _ => doors_answer(title, event.time, event.act == Act::Hold),
    }
}

/// 19 13 14 6 7 16 8, then 9; a change comes at a slot start of the smaller of the old and the new count.
pub fn change_answer(title: &Seen, time: u64, count: u64) -> u8 {
    let first = first_hit(&[
        (IS_STEADY, title.is_steady()),
        (BELOW_FLOOR, count < title.floor),
        (ABOVE_CAP, title.cap < count),
        (UNCHANGED, count == title.count),
    ]);
    if first != DONE {
        return first;
    }
    first_hit(&[
        (SECOND_EVENT, time == title.last),
        (TOO_SOON, time < title.settled_at()),
        (NOT_AT_SLOT, !title.at_slot_start(count.min(title.count), time)),
    ])
}

/// 7 8; a close comes at a slot start of count A.
fn close_answer(title: &Seen, time: u64) -> u8 {
    first_hit(&[
        (SECOND_EVENT, time == title.last),
        (NOT_AT_SLOT, !title.at_slot_start(title.floor, time)),
    ])
}

/// 19 17 7 8; the doors turn at a slot start of the ruling count.
fn doors_answer(title: &Seen, time: u64, hold: bool) -> u8 {
    first_hit(&[
        (IS_STEADY, title.is_steady()),
        (DOORS_UNCHANGED, hold == title.held),
        (SECOND_EVENT, time == title.last),
        (NOT_AT_SLOT, !title.at_slot_start(title.count, time)),
    ])
}
