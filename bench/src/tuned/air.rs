//! What the air carried: the record is walked backwards, with each cell's next showing at hand.

use super::agent::{Agent, Title};
use super::waits::{is_admitting, play};
use crate::agent_row::PADDED;
use crate::limits::*;
use crate::refusals::*;
use crate::subject::PlayedLog;

fn in_limits(log: PlayedLog) -> bool {
    (POOL_MIN..=POOL_MAX).contains(&log.pool) && log.title <= ID_MAX
}

fn tick_at(title: &Title, time: u64) -> u64 {
    title.moment(title.tick_length(), time).tick
}

/// Marks the admissions from a title's latest event up to a tick, as far as the row goes.
fn mark_to(title: &Title, until: u64, marks: &mut [u8]) {
    let until = until.min(marks.len() as u64) as usize;
    let from = tick_at(title, title.last).min(until as u64) as usize;
    let ticks = &mut marks[from..until];
    ticks.fill(0);
    if is_admitting(title) {
        // the latest event of an admitting title stands at a slot start
        for mark in ticks.iter_mut().step_by(1 << title.slot_bits(title.count)) {
            *mark = 1;
        }
    }
}

/// Plays a log and marks the admissions of a title's latest opening; 11 3.
fn follow(log: PlayedLog, marks: &mut [u8]) -> Result<Title, u8> {
    let mut agent = Agent::fresh(log.pool);
    let id = log.title as usize;
    let whole = play(&mut agent, log.bytes, id, |title, time, opening| {
        if !opening {
            mark_to(title, tick_at(title, time), marks);
        }
    });
    let title = agent.titles[id];
    if !whole {
        return Err(MALFORMED);
    }
    if title.cap == 0 || title.kind != PADDED {
        return Err(NOT_THERE);
    }
    mark_to(&title, marks.len() as u64, marks);
    Ok(title)
}

/// A mark for each tick of the row; 1 11 3. The log is played for its answer first, since a refusal writes nothing.
pub fn admissions(log: PlayedLog, marks: &mut [u8]) -> u8 {
    if !in_limits(log) {
        return OUTSIDE_LIMITS;
    }
    if let Err(number) = follow(log, &mut []) {
        return number;
    }
    match follow(log, marks) {
        Ok(_) => DONE,
        Err(number) => number,
    }
}

/// How many cells are looked at in one go.
const BLOCK: usize = 64;

/// The lowest cell of the film that is next shown after its turn, for a box that begins at a tick.
fn lowest_late(next: &[u16], start: u16) -> u16 {
    for (i, block) in next.chunks(BLOCK).enumerate() {
        let turn = start + (i * BLOCK) as u16;
        let late = |cell: usize, tick: u16| tick.saturating_sub(turn + cell as u16);
        let any = block
            .iter()
            .enumerate()
            .fold(0, |any, (cell, tick)| any | late(cell, *tick));
        if any != 0 {
            let first = block.iter().enumerate().position(|(cell, tick)| late(cell, *tick) != 0);
            return (i * BLOCK + first.unwrap_or(0)) as u16;
        }
    }
    NOTHING
}

/// 1 10 11 3 1.
pub fn air(log: PlayedLog, record: &[u16], row: &mut [u16]) -> (u8, [u64; 3]) {
    let refused = |number| (number, [0; 3]);
    if !in_limits(log) {
        return refused(OUTSIDE_LIMITS);
    }
    let ticks = record.len() / LANES;
    if !record.len().is_multiple_of(LANES) || ticks > TICKS_MAX || row.len() < ticks {
        return refused(WRONG_ROWS);
    }
    let mut marks = [0; TICKS_MAX];
    let marks = &mut marks[..ticks];
    let title = match follow(log, marks) {
        Ok(title) => title,
        Err(number) => return refused(number),
    };
    let cells = 1u16 << title.cap;
    if record.iter().any(|cell| *cell >= cells && *cell != NOTHING) {
        return refused(OUTSIDE_LIMITS);
    }
    (DONE, judge(&title, record, marks, row))
}

/// Judges the admissions of a record from the last to the first: how many, how many played through and how many outlast it.
fn judge(title: &Title, record: &[u16], marks: &[u8], row: &mut [u16]) -> [u64; 3] {
    let cells = 1 << title.cap;
    let film = title.film_cells(title.tick_length()).min(cells as u64) as usize;
    let whole = (marks.len() + 1).saturating_sub(cells);
    let all = marks.iter().filter(|mark| **mark == 1).count();
    let judged = marks[..whole].iter().filter(|mark| **mark == 1).count();
    let mut next = [NOTHING; PLAN_PLACES];
    let mut left = judged;
    let mut played = 0;
    for (start, lanes) in record.chunks_exact(LANES).enumerate().rev() {
        for cell in lanes {
            if let Some(place) = next.get_mut(usize::from(*cell)) {
                *place = start as u16;
            }
        }
        if marks[start] == 1 && start < whole {
            let missed = lowest_late(&next[..film], start as u16);
            left -= 1;
            row[left] = missed;
            played += u64::from(missed == NOTHING);
        }
    }
    [judged as u64, played, (all - judged) as u64]
}
