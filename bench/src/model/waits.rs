//! How long people waited (02, request 1), by the title's life alone.

use super::life::Life;
use super::logs::{in_limits, play};
use crate::limits::{ARRIVALS_MAX, ASKED_MAX};
use crate::refusals::*;
use crate::subject::PlayedLog;

/// The time of the next admission at or after an arrival, which is not before the opening.
fn next_admission(life: &Life, arrival: u64) -> Option<u64> {
    if arrival < life.opened {
        return None;
    }
    let tick_length = life.tick_length();
    let arrived = (arrival - life.opened).div_ceil(tick_length);
    for (i, turn) in life.turns.iter().enumerate() {
        if turn.count == 0 || turn.held {
            continue;
        }
        let slot = life.scheme.slot(turn.count);
        let start = arrived.max(turn.tick).div_ceil(slot) * slot;
        let ruled = life.turns.get(i + 1).is_none_or(|next| start < next.tick);
        if ruled {
            return Some(life.opened + start * tick_length);
        }
    }
    None
}

/// Arrivals, admitted, longest wait and sum of waits; 1 10 11.
pub fn waits(log: PlayedLog, arrivals: &[u64]) -> (u8, [u64; 4]) {
    if !in_limits(log) || arrivals.iter().any(|x| *x > ASKED_MAX) {
        return (OUTSIDE_LIMITS, [0; 4]);
    }
    if arrivals.len() > ARRIVALS_MAX {
        return (WRONG_ROWS, [0; 4]);
    }
    let Some(story) = play(log.pool, log.bytes) else {
        return (MALFORMED, [0; 4]);
    };
    let life = story.life(log.title);
    let waits = arrivals.iter().filter_map(|arrival| {
        let admission = next_admission(life?, *arrival)?;
        Some(admission - arrival)
    });
    let waits: Vec<u64> = waits.collect();
    let longest = waits.iter().copied().max().unwrap_or(0);
    let counts = [arrivals.len() as u64, waits.len() as u64, longest, waits.iter().sum()];
    (DONE, counts)
}
