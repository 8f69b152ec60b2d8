//! What is left of a damaged log (02, request 8).

use super::notices::read_at;
use crate::refusals::*;

/// The bytes of the notices that are taken, and each stretch that is skipped, start and length.
struct Left {
    notices: u64,
    taken: Vec<u8>,
    skipped: Vec<(u64, u64)>,
}

/// From the start on a whole notice of a larger sequence is taken where one begins, otherwise a byte is skipped.
fn scan(log: &[u8]) -> Left {
    let mut left = Left {
        notices: 0,
        taken: Vec::new(),
        skipped: Vec::new(),
    };
    let mut last = None;
    let mut place = 0;
    while place < log.len() {
        let found = read_at(log, place).filter(|(fields, _)| last.is_none_or(|last| last < fields[1]));
        if let Some((fields, size)) = found {
            left.taken.extend(&log[place..place + size]);
            left.notices += 1;
            last = Some(fields[1]);
            place += size;
            continue;
        }
        match left.skipped.last_mut() {
            Some((start, length)) if *start + *length == place as u64 => *length += 1,
            _ => left.skipped.push((place as u64, 1)),
        }
        place += 1;
    }
    left
}

/// How many notices, bytes and stretches; 10 if either room is too short.
pub fn salvage(log: &[u8], area: &mut [u8], row: &mut [u64]) -> (u8, [u64; 3]) {
    let left = scan(log);
    let (bytes, stretches) = (left.taken.len(), left.skipped.len());
    if area.len() < bytes || row.len() < 2 * stretches {
        return (WRONG_ROWS, [0; 3]);
    }
    area[..bytes].copy_from_slice(&left.taken);
    for (i, (start, length)) in left.skipped.iter().enumerate() {
        row[2 * i] = *start;
        row[2 * i + 1] = *length;
    }
    (DONE, [left.notices, bytes as u64, stretches as u64])
}
