//! Questions to an agent: a lane's cell, the lanes held, and status.

use super::agent::Agent;
use super::rom;
use crate::agent_row::{ABSENT, OPEN};
use crate::limits::*;
use crate::refusals::*;
use crate::subject::StatusRows;

/// The tick whose cell a lane shows, of a question that is asked of an agent within its limits or not.
#[inline]
fn shown(agent: &Agent, id: u64, lane: u64, time: u64) -> Result<u64, u8> {
    if !agent.in_limits() || id > ID_MAX || lane > LANE_MAX || time > ASKED_MAX {
        return Err(OUTSIDE_LIMITS);
    }
    let title = &agent.titles[id as usize];
    if time < title.last {
        return Err(TOO_EARLY);
    }
    title.shown_tick(lane, time).ok_or(NOT_THERE)
}

pub fn lane(agent: &Agent, id: u64, lane: u64, time: u64) -> (u8, u64) {
    match shown(agent, id, lane, time) {
        Ok(tick) => (DONE, agent.titles[id as usize].lane_cell(lane, tick)),
        Err(number) => (number, 0),
    }
}

/// The small box: 1 for another floor or cap, and cells by its table.
pub fn rom_lane(agent: &Agent, id: u64, lane: u64, time: u64) -> (u8, u64) {
    if let Some(title) = agent.titles.get(id as usize) {
        let own = !title.is_steady() && title.floor == ROM_FLOOR && title.cap == ROM_CAP;
        if title.mode != ABSENT && !own {
            return (OUTSIDE_LIMITS, 0);
        }
    }
    match shown(agent, id, lane, time) {
        Ok(tick) => (DONE, rom::cell(lane, tick)),
        Err(number) => (number, 0),
    }
}

pub fn held(agent: &Agent, time: u64) -> (u8, u64) {
    if !agent.in_limits() || time > ASKED_MAX {
        return (OUTSIDE_LIMITS, 0);
    }
    if time < agent.last {
        return (TOO_EARLY, 0);
    }
    (DONE, agent.lanes_held(time))
}

pub fn status(agent: &Agent, time: u64, ids: &[u64], rows: StatusRows) -> u8 {
    let StatusRows { counts, held, marks } = rows;
    let n = ids.len();
    if counts.len() != n || held.len() != n || marks.len() != n {
        return WRONG_ROWS;
    }
    if !agent.in_limits() || time > ASKED_MAX || ids.iter().any(|id| *id > ID_MAX) {
        return OUTSIDE_LIMITS;
    }
    if time < agent.last {
        return TOO_EARLY;
    }
    for (i, id) in ids.iter().enumerate() {
        let title = &agent.titles[*id as usize];
        counts[i] = title.ruling();
        held[i] = title.lanes_held(time);
        marks[i] = if title.mode == OPEN { title.mark } else { 0 };
    }
    DONE
}
