//! The planner (02, requests 11 and 12): the sharing of the pool among the titles open and not closing, and the changes
//! that lead there, each at the earliest time at which it would be accepted.

use super::events::{Act, Event};
use super::past::Past;
use super::seen::Seen;
use super::sharing::{best, Rated};
use crate::limits::*;
use crate::refusals::*;
use crate::subject::PlannerRows;

/// A title and the count that it is to have.
#[derive(Clone, Copy)]
struct Wish {
    id: u64,
    count: u64,
}

/// A title takes part while it is open and not closing; skip-forward titles never do.
fn takes_part(title: &Seen) -> bool {
    title.is_open() && !title.is_steady()
}

/// What is shared: the pool without the lanes of the skip-forward titles that are open.
fn shared_pool<P: Past>(past: &P) -> u64 {
    let titles = (0..TITLES as u64).map(|id| past.title(id));
    let apart: u64 = titles.filter(|t| t.is_steady()).map(|t| t.ruling()).sum();
    past.pool().saturating_sub(apart)
}

/// The ids that take part, lowest first.
fn sharers<P: Past>(past: &P) -> Vec<u64> {
    (0..TITLES as u64).filter(|id| takes_part(&past.title(*id))).collect()
}

/// First the drops, lowest id first, then the raises.
fn wishes<P: Past>(past: &P, rates: &[u32]) -> Vec<Wish> {
    let ids = sharers(past);
    let rated = ids.iter().map(|id| {
        let title = past.title(*id);
        Rated {
            rate: rates[*id as usize].into(),
            length: title.length,
            floor: title.floor,
            cap: title.cap,
        }
    });
    let rated: Vec<Rated> = rated.collect();
    let shares = best(&rated, shared_pool(past));
    let wished = || {
        ids.iter()
            .zip(&shares)
            .map(|(id, count)| Wish { id: *id, count: *count })
    };
    let drops = wished().filter(|w| w.count < past.title(w.id).count);
    let raises = wished().filter(|w| w.count > past.title(w.id).count);
    drops.chain(raises).collect()
}

fn change_to(wish: Wish, time: u64) -> Event {
    let act = Act::Change { count: wish.count };
    Event { id: wish.id, time, act }
}

/// The first time from another on at which a raise finds its lanes, past the clock where there is none. Between events
/// lanes are only released, so once it finds them it always does, and the time is found by halves.
fn free_from<P: Past>(past: &P, wish: Wish, from: u64) -> u64 {
    let full = |time| {
        let next = past.after(&change_to(wish, time));
        next.pool() < next.lanes_held(time)
    };
    let (mut low, mut high) = (from, EVENT_TIME_MAX + 1);
    while low < high {
        let middle = low + (high - low) / 2;
        if full(middle) {
            low = middle + 1;
        } else {
            high = middle;
        }
    }
    low
}

/// The first slot start of a count from a time on; times up to the opening are slot starts.
fn slot_start_from(title: &Seen, count: u64, from: u64) -> u64 {
    let slot = title.slot_length(count);
    match from.checked_sub(title.opened) {
        Some(since) => title.opened + since.div_ceil(slot) * slot,
        None => from,
    }
}

/// The earliest time from another on at which a wish comes true: 7, 16 and 8 move it on, and for a raise 9 does too.
fn due_at<P: Past>(past: &P, wish: Wish, from: u64) -> u64 {
    let title = past.title(wish.id);
    let free = if wish.count > title.count {
        free_from(past, wish, from)
    } else {
        from
    };
    let smaller = wish.count.min(title.count);
    let start = slot_start_from(&title, smaller, free.max(title.settled_at()));
    let due = if start == title.last {
        slot_start_from(&title, smaller, start + 1)
    } else {
        start
    };
    due.min(EVENT_TIME_MAX + 1)
}

/// 1 2 9 10 18.
pub fn planner<P: Past>(past: &P, time: u64, rates: &[u32], rows: PlannerRows) -> (u8, u64) {
    let rated = rates.iter().all(|r| (RATE_MIN..=RATE_MAX).contains(&u64::from(*r)));
    if !past.in_limits() || time > EVENT_TIME_MAX || !rated {
        return (OUTSIDE_LIMITS, 0);
    }
    let floors: u64 = sharers(past).iter().map(|id| past.title(*id).floor).sum();
    let standing = first_hit(&[
        (TOO_EARLY, time < past.last()),
        (NO_LANES, shared_pool(past) < floors),
        (WRONG_ROWS, rates.len() != TITLES),
    ]);
    if standing != DONE {
        return (standing, 0);
    }
    let wished = wishes(past, rates);
    let room = rows.ids.len().min(rows.times.len()).min(rows.counts.len());
    if room < wished.len() {
        return (WRONG_ROWS, 0);
    }
    list(past, time, &wished, rows)
}

/// Each wish at its time, in the state that those before it leave.
fn list<P: Past>(past: &P, time: u64, wished: &[Wish], rows: PlannerRows) -> (u8, u64) {
    let mut now = past.clone();
    let mut from = time;
    let mut times = Vec::new();
    for wish in wished {
        from = due_at(&now, *wish, from);
        if from > EVENT_TIME_MAX {
            return (PAST_CLOCK, 0);
        }
        times.push(from);
        now = now.after(&change_to(*wish, from));
    }
    for (i, wish) in wished.iter().enumerate() {
        rows.ids[i] = wish.id;
        rows.times[i] = times[i];
        rows.counts[i] = wish.count;
    }
    (DONE, wished.len() as u64)
}
