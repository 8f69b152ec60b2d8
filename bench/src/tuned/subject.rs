//! The tuned version as a subject.

use super::agent::Agent;
use super::{air, events, notices, planner, plans, questions, rom, salvage, sharing, snapshot, waits};
use crate::agent_row::AgentRow;
use crate::limits::{POOL_MAX, POOL_MIN};
use crate::refusals::*;
use crate::subject::{Fields, Film, PlannerRows, PlayedLog, Sharers, Start, StatusRows, Subject};

pub struct Tuned {
    pub agent: Agent,
}

impl Default for Tuned {
    fn default() -> Tuned {
        Tuned::new()
    }
}

impl Tuned {
    /// A pool of 0 lanes without titles.
    pub fn new() -> Tuned {
        Tuned { agent: Agent::fresh(0) }
    }

    /// An event, once the agent's numbers were tested.
    #[inline]
    fn tested(&mut self, event: impl FnOnce(&mut Agent) -> u8) -> u8 {
        if !self.agent.in_limits() {
            return OUTSIDE_LIMITS;
        }
        event(&mut self.agent)
    }
}

impl Subject for Tuned {
    fn name(&self) -> &'static str {
        "tuned"
    }

    fn lend(&mut self, row: &AgentRow) {
        self.agent = Agent::from_row(row);
    }

    fn agent(&mut self) -> AgentRow {
        self.agent.row()
    }

    fn fresh(&mut self, pool: u64) -> u8 {
        if !(POOL_MIN..=POOL_MAX).contains(&pool) {
            return OUTSIDE_LIMITS;
        }
        self.agent = Agent::fresh(pool);
        DONE
    }

    fn open(&mut self, id: u64, time: u64, film: Film) -> u8 {
        self.tested(|agent| events::open_checked(agent, id, time, film))
    }

    fn skip(&mut self, id: u64, time: u64, length: u64, count: u64) -> u8 {
        self.tested(|agent| events::skip_checked(agent, id, time, length, count))
    }

    fn change(&mut self, id: u64, time: u64, count: u64) -> u8 {
        self.tested(|agent| events::change_checked(agent, id, time, count))
    }

    fn close(&mut self, id: u64, time: u64) -> u8 {
        self.tested(|agent| events::close_checked(agent, id, time))
    }

    fn hold(&mut self, id: u64, time: u64) -> u8 {
        self.tested(|agent| events::doors_checked(agent, id, time, true))
    }

    fn lift(&mut self, id: u64, time: u64) -> u8 {
        self.tested(|agent| events::doors_checked(agent, id, time, false))
    }

    fn take(&mut self, bytes: &[u8]) -> u8 {
        notices::take(&mut self.agent, bytes)
    }

    fn lane(&mut self, id: u64, lane: u64, time: u64) -> (u8, u64) {
        questions::lane(&self.agent, id, lane, time)
    }

    fn rom_lane(&mut self, id: u64, lane: u64, time: u64) -> (u8, u64) {
        questions::rom_lane(&self.agent, id, lane, time)
    }

    fn held(&mut self, time: u64) -> (u8, u64) {
        questions::held(&self.agent, time)
    }

    fn status(&mut self, time: u64, ids: &[u64], rows: StatusRows) -> u8 {
        questions::status(&self.agent, time, ids, rows)
    }

    fn planner(&mut self, time: u64, rates: &[u32], rows: PlannerRows) -> (u8, u64) {
        planner::planner(&self.agent, time, rates, rows)
    }

    fn plan(&mut self, start: Start, row: &mut [u16]) -> u8 {
        plans::plan(start, row)
    }

    fn rom_plan(&mut self, start: Start, row: &mut [u16]) -> u8 {
        rom::plan(start, row)
    }

    fn rom_fill(&mut self, table: &mut [u16]) -> u8 {
        rom::fill(table)
    }

    fn skip_plan(&mut self, count: u64, arrival: u64, row: &mut [u16]) -> u8 {
        plans::skip_plan(count, arrival, row)
    }

    fn share(&mut self, pool: u64, titles: Sharers, counts: &mut [u32]) -> u8 {
        sharing::share(pool, titles, counts)
    }

    fn write(&mut self, fields: &Fields, room: &mut [u8]) -> (u8, u64) {
        notices::write(fields, room)
    }

    fn read(&mut self, bytes: &[u8], fields: &mut Fields) -> u8 {
        notices::read(bytes, fields)
    }

    fn next(&mut self, log: &[u8], place: u64, fields: &mut Fields) -> (u8, u64) {
        notices::next(log, place, fields)
    }

    fn waits(&mut self, log: PlayedLog, arrivals: &[u64]) -> (u8, [u64; 4]) {
        waits::waits(log, arrivals)
    }

    fn air(&mut self, log: PlayedLog, record: &[u16], row: &mut [u16]) -> (u8, [u64; 3]) {
        air::air(log, record, row)
    }

    fn admissions(&mut self, log: PlayedLog, marks: &mut [u8]) -> u8 {
        air::admissions(log, marks)
    }

    fn salvage(&mut self, log: &[u8], area: &mut [u8], row: &mut [u64]) -> (u8, [u64; 3]) {
        salvage::salvage(log, area, row)
    }

    fn save(&mut self, room: &mut [u8]) -> u8 {
        snapshot::save(&self.agent, room)
    }

    fn load(&mut self, bytes: &[u8]) -> u8 {
        snapshot::load(&mut self.agent, bytes)
    }
}
