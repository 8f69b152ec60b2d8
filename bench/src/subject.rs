//! What every implementation answers: each call of the product over plain rows of numbers. A subject holds one agent,
//! which can be lent to it and taken back as a row; the library's C functions fit behind the same calls.

use crate::agent_row::AgentRow;

/// A notice as a row: kind, sequence, title, time, length, floor, cap, count; 0 where its kind has no such field.
pub type Fields = [u64; 8];

pub trait Subject {
    fn name(&self) -> &'static str;

    /// Any numbers may be lent as an agent.
    fn lend(&mut self, row: &AgentRow);
    fn agent(&mut self) -> AgentRow;

    /// A refused fresh call leaves the agent as it is, as every refused call does.
    fn fresh(&mut self, pool: u64) -> u8;
    fn open(&mut self, id: u64, time: u64, film: Film) -> u8;
    fn skip(&mut self, id: u64, time: u64, length: u64, count: u64) -> u8;
    fn change(&mut self, id: u64, time: u64, count: u64) -> u8;
    fn close(&mut self, id: u64, time: u64) -> u8;
    fn hold(&mut self, id: u64, time: u64) -> u8;
    fn lift(&mut self, id: u64, time: u64) -> u8;
    /// One notice's bytes, handed to the agent.
    fn take(&mut self, bytes: &[u8]) -> u8;

    /// The answer and the cell.
    fn lane(&mut self, id: u64, lane: u64, time: u64) -> (u8, u64);
    fn rom_lane(&mut self, id: u64, lane: u64, time: u64) -> (u8, u64);
    /// The answer and the lanes held over all titles.
    fn held(&mut self, time: u64) -> (u8, u64);
    fn status(&mut self, time: u64, ids: &[u64], rows: StatusRows) -> u8;
    /// The answer and how many changes are listed.
    fn planner(&mut self, time: u64, rates: &[u32], rows: PlannerRows) -> (u8, u64);

    fn plan(&mut self, start: Start, row: &mut [u16]) -> u8;
    fn rom_plan(&mut self, start: Start, row: &mut [u16]) -> u8;
    /// The small box's table, into a row of its length.
    fn rom_fill(&mut self, table: &mut [u16]) -> u8;
    fn skip_plan(&mut self, count: u64, arrival: u64, row: &mut [u16]) -> u8;
    fn share(&mut self, pool: u64, titles: Sharers, counts: &mut [u32]) -> u8;

    /// The answer and how many bytes the notice has.
    fn write(&mut self, fields: &Fields, room: &mut [u8]) -> (u8, u64);
    fn read(&mut self, bytes: &[u8], fields: &mut Fields) -> u8;
    /// What a log has at a place: the answer, `END` where no byte is left, and the place after it.
    fn next(&mut self, log: &[u8], place: u64, fields: &mut Fields) -> (u8, u64);
    /// The answer, and arrivals, admitted, longest wait and sum of waits.
    fn waits(&mut self, log: PlayedLog, arrivals: &[u64]) -> (u8, [u64; 4]);
    /// The answer, and how many admissions were judged, played through and outlast the record.
    fn air(&mut self, log: PlayedLog, record: &[u16], row: &mut [u16]) -> (u8, [u64; 3]);
    fn admissions(&mut self, log: PlayedLog, marks: &mut [u8]) -> u8;
    /// The answer, and how many notices, bytes and stretches.
    fn salvage(&mut self, log: &[u8], area: &mut [u8], row: &mut [u64]) -> (u8, [u64; 3]);

    /// The agent as bytes, and the agent that bytes hold.
    fn save(&mut self, room: &mut [u8]) -> u8;
    fn load(&mut self, bytes: &[u8]) -> u8;
}

/// What an opening on the padded grid brings.
#[derive(Clone, Copy, Debug, PartialEq, Eq)]
pub struct Film {
    pub length: u64,
    pub floor: u64,
    pub cap: u64,
    pub count: u64,
}

/// A box's start under a count.
#[derive(Clone, Copy, Debug)]
pub struct Start {
    pub floor: u64,
    pub cap: u64,
    pub count: u64,
    pub arrival: u64,
}

/// The rows that status fills.
pub struct StatusRows<'a> {
    pub counts: &'a mut [u64],
    pub held: &'a mut [u64],
    pub marks: &'a mut [u64],
}

/// The rows that the planner's list goes into.
pub struct PlannerRows<'a> {
    pub ids: &'a mut [u64],
    pub times: &'a mut [u64],
    pub counts: &'a mut [u64],
}

/// The titles that share a pool, a row for each of their numbers.
#[derive(Clone, Copy)]
pub struct Sharers<'a> {
    pub rates: &'a [u32],
    pub lengths: &'a [u32],
    pub floors: &'a [u32],
    pub caps: &'a [u32],
}

/// A log that is played into a fresh agent of a pool, and the title that is asked about.
#[derive(Clone, Copy)]
pub struct PlayedLog<'a> {
    pub pool: u64,
    pub bytes: &'a [u8],
    pub title: u64,
}
