//! What the air really carried (02, request 13): a record of the lanes against the admissions of a title's life.

use super::life::Life;
use super::logs::{in_limits, play};
use crate::agent_row::PADDED;
use crate::limits::{LANES, NOTHING, TICKS_MAX};
use crate::refusals::*;
use crate::subject::PlayedLog;
use std::rc::Rc;

/// The life of a title that was last opened on the padded grid; 11 3.
fn film_life(log: PlayedLog) -> Result<Rc<Life>, u8> {
    let story = play(log.pool, log.bytes).ok_or(MALFORMED)?;
    match story.life(log.title) {
        Some(life) if life.kind == PADDED => Ok(Rc::clone(life)),
        _ => Err(NOT_THERE),
    }
}

/// For each cell the ticks at which some lane of a record shows it.
fn showings(record: &[u16], cells: usize) -> Vec<Vec<usize>> {
    let mut shown = vec![Vec::new(); cells];
    for (place, cell) in record.iter().enumerate() {
        if *cell != NOTHING {
            shown[usize::from(*cell)].push(place / LANES);
        }
    }
    shown
}

/// The lowest cell of the film that no lane showed from a start through the cell's turn.
fn missed(life: &Life, shown: &[Vec<usize>], start: usize) -> u16 {
    let late = |cell: &usize| {
        let from = shown[*cell].partition_point(|tick| *tick < start);
        let next = shown[*cell].get(from);
        next.is_none_or(|tick| *tick > start + cell)
    };
    let film = (0..shown.len()).take_while(|cell| life.holds_film(*cell as u64));
    film.into_iter().find(late).map_or(NOTHING, |cell| cell as u16)
}

/// How many admissions were judged, played through, and outlast the record; 1 10 11 3 1.
pub fn air(log: PlayedLog, record: &[u16], row: &mut [u16]) -> (u8, [u64; 3]) {
    let refused = |number| (number, [0; 3]);
    if !in_limits(log) {
        return refused(OUTSIDE_LIMITS);
    }
    let ticks = record.len() / LANES;
    if !record.len().is_multiple_of(LANES) || ticks > TICKS_MAX || row.len() < ticks {
        return refused(WRONG_ROWS);
    }
    let life = match film_life(log) {
        Ok(life) => life,
        Err(number) => return refused(number),
    };
    let cells = 1 << life.scheme.cap;
    if record
        .iter()
        .any(|cell| *cell != NOTHING && usize::from(*cell) >= cells)
    {
        return refused(OUTSIDE_LIMITS);
    }
    let shown = showings(record, cells);
    let starts: Vec<usize> = (0..ticks).filter(|tick| life.admits(*tick as u64).is_some()).collect();
    let whole = starts.iter().filter(|start| *start + cells <= ticks);
    let results: Vec<u16> = whole.map(|start| missed(&life, &shown, *start)).collect();
    row[..results.len()].copy_from_slice(&results);
    let played = results.iter().filter(|result| **result == NOTHING).count();
    let outlast = starts.len() - results.len();
    (DONE, [results.len() as u64, played as u64, outlast as u64])
}

/// A mark for each tick of the row that is an admission; 1 11 3.
pub fn admissions(log: PlayedLog, marks: &mut [u8]) -> u8 {
    if !in_limits(log) {
        return OUTSIDE_LIMITS;
    }
    match film_life(log) {
        Ok(life) => {
            for (tick, mark) in marks.iter_mut().enumerate() {
                *mark = u8::from(life.admits(tick as u64).is_some());
            }
            DONE
        }
        Err(number) => number,
    }
}
