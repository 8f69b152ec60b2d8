//! A log of notices played into a fresh agent: those that it refuses count for nothing, and the rest goes on.

use super::notices::{event_of, read_at};
use super::past::Past;
use super::story::Story;
use super::verdicts;
use crate::limits::{ID_MAX, POOL_MAX, POOL_MIN};
use crate::refusals::*;
use crate::subject::{Fields, PlayedLog};

/// Whether pool and title are within their limits.
pub fn in_limits(log: PlayedLog) -> bool {
    (POOL_MIN..=POOL_MAX).contains(&log.pool) && log.title <= ID_MAX
}

/// A notice is taken only in its turn: 12, and then what its event answers.
pub fn heed<P: Past>(past: &P, fields: &Fields) -> (u8, Option<P>) {
    if fields[1] != past.sequence() + 1 {
        return (OUT_OF_TURN, None);
    }
    verdicts::answer(past, &event_of(fields))
}

/// The story that a log tells; none where it has a malformed or cut notice.
pub fn play(pool: u64, log: &[u8]) -> Option<Story> {
    let mut story = Story::fresh(pool);
    let mut place = 0;
    while place < log.len() {
        let (fields, size) = read_at(log, place)?;
        if let (DONE, Some(mut next)) = heed(&story, &fields) {
            next.set_sequence(fields[1]);
            story = next;
        }
        place += size;
    }
    Some(story)
}
