//! What is left of a damaged log: measured first and written after, so that a refusal writes nothing.

use super::notices::read_first;
use crate::refusals::*;

/// What a scan meets: a taken notice, or a stretch of skipped bytes.
enum Met {
    Notice,
    Stretch,
}

/// Hands on each notice and stretch, with its start and length, in order.
fn scan(log: &[u8], mut met: impl FnMut(Met, usize, usize)) {
    let mut last = None;
    let mut skipped = 0;
    let mut place = 0;
    while place < log.len() {
        let later = |sequence| last.is_none_or(|last| last < sequence);
        match read_first(&log[place..]) {
            Some((notice, size)) if later(notice.sequence) => {
                if skipped < place {
                    met(Met::Stretch, skipped, place - skipped);
                }
                met(Met::Notice, place, size);
                last = Some(notice.sequence);
                place += size;
                skipped = place;
            }
            _ => place += 1,
        }
    }
    if skipped < place {
        met(Met::Stretch, skipped, place - skipped);
    }
}

pub fn salvage(log: &[u8], area: &mut [u8], row: &mut [u64]) -> (u8, [u64; 3]) {
    let (mut notices, mut bytes, mut stretches) = (0, 0, 0);
    scan(log, |met, _, size| match met {
        Met::Notice => {
            notices += 1;
            bytes += size;
        }
        Met::Stretch => stretches += 1,
    });
    if area.len() < bytes || row.len() / 2 < stretches {
        return (WRONG_ROWS, [0; 3]);
    }
    let (mut at, mut cells) = (0, 0);
    scan(log, |met, place, size| match met {
        Met::Notice => {
            area[at..at + size].copy_from_slice(&log[place..place + size]);
            at += size;
        }
        Met::Stretch => {
            row[cells] = place as u64;
            row[cells + 1] = size as u64;
            cells += 2;
        }
    });
    (DONE, [notices, bytes as u64, stretches as u64])
}
