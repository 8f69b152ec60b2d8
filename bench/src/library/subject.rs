//! The library as a subject.

use super::raw::*;
use super::rows::{given, lent};
use crate::agent_row::{self, AgentRow, ROW};
use crate::limits::ROM_NUMBERS;
use crate::subject::{Fields, Film, PlannerRows, PlayedLog, Sharers, Start, StatusRows, Subject};

/// A call that is handed rows as pointers and lengths, each of which lives and is not shared while it runs.
macro_rules! call {
    ($name:ident, $($argument:expr),* $(,)?) => {
        // SAFETY: every pointer and length is one lent row's, a mutable one is lent to this call alone
        unsafe { $name($($argument),*) }
    };
}

pub struct Library {
    agent: Box<AgentRow>,
    /// The small box's table, filled once.
    table: Vec<u16>,
}

impl Default for Library {
    fn default() -> Library {
        Library::new()
    }
}

impl Library {
    /// A pool of 0 lanes without titles.
    pub fn new() -> Library {
        let mut library = Library {
            agent: Box::new(agent_row::fresh(0)),
            table: Vec::new(),
        };
        let mut table = vec![0; ROM_NUMBERS];
        library.rom_fill(&mut table);
        library.table = table;
        library
    }

    fn row_mut(&mut self) -> *mut u64 {
        self.agent.as_mut_ptr()
    }

    fn row(&self) -> *const u64 {
        self.agent.as_ptr()
    }
}

impl Subject for Library {
    fn name(&self) -> &'static str {
        "library"
    }

    fn lend(&mut self, row: &AgentRow) {
        *self.agent = *row;
    }

    fn agent(&mut self) -> AgentRow {
        *self.agent
    }

    fn fresh(&mut self, pool: u64) -> u8 {
        call!(rl_fresh_row, self.row_mut(), ROW, pool)
    }

    fn open(&mut self, id: u64, time: u64, film: Film) -> u8 {
        let Film {
            length,
            floor,
            cap,
            count,
        } = film;
        call!(rl_open_row, self.row_mut(), ROW, id, time, length, floor, cap, count)
    }

    fn skip(&mut self, id: u64, time: u64, length: u64, count: u64) -> u8 {
        call!(rl_skip_row, self.row_mut(), ROW, id, time, length, count)
    }

    fn change(&mut self, id: u64, time: u64, count: u64) -> u8 {
        call!(rl_change_row, self.row_mut(), ROW, id, time, count)
    }

    fn close(&mut self, id: u64, time: u64) -> u8 {
        call!(rl_close_row, self.row_mut(), ROW, id, time)
    }

    fn hold(&mut self, id: u64, time: u64) -> u8 {
        call!(rl_hold_row, self.row_mut(), ROW, id, time)
    }

    fn lift(&mut self, id: u64, time: u64) -> u8 {
        call!(rl_lift_row, self.row_mut(), ROW, id, time)
    }

    fn take(&mut self, bytes: &[u8]) -> u8 {
        call!(rl_take_row, self.row_mut(), ROW, bytes.as_ptr(), bytes.len())
    }

    fn lane(&mut self, id: u64, lane: u64, time: u64) -> (u8, u64) {
        let mut cell = lent::<1>();
        let answer = call!(rl_lane_row, self.row(), ROW, id, lane, time, cell.as_mut_ptr(), 1);
        (answer, given(answer, cell)[0])
    }

    fn rom_lane(&mut self, id: u64, lane: u64, time: u64) -> (u8, u64) {
        let mut cell = lent::<1>();
        let table = &self.table;
        let answer = call!(
            rl_rom_lane_row,
            self.row(),
            ROW,
            table.as_ptr(),
            table.len(),
            id,
            lane,
            time,
            cell.as_mut_ptr(),
            1
        );
        (answer, given(answer, cell)[0])
    }

    fn held(&mut self, time: u64) -> (u8, u64) {
        let mut lanes = lent::<1>();
        let answer = call!(rl_held_row, self.row(), ROW, time, lanes.as_mut_ptr(), 1);
        (answer, given(answer, lanes)[0])
    }

    fn status(&mut self, time: u64, ids: &[u64], rows: StatusRows) -> u8 {
        let StatusRows { counts, held, marks } = rows;
        call!(
            rl_status_row,
            self.row(),
            ROW,
            time,
            ids.as_ptr(),
            ids.len(),
            counts.as_mut_ptr(),
            counts.len(),
            held.as_mut_ptr(),
            held.len(),
            marks.as_mut_ptr(),
            marks.len(),
        )
    }

    fn planner(&mut self, time: u64, rates: &[u32], rows: PlannerRows) -> (u8, u64) {
        let PlannerRows { ids, times, counts } = rows;
        let mut moves = lent::<1>();
        let answer = call!(
            rl_planner_row,
            self.row(),
            ROW,
            time,
            rates.as_ptr(),
            rates.len(),
            ids.as_mut_ptr(),
            ids.len(),
            times.as_mut_ptr(),
            times.len(),
            counts.as_mut_ptr(),
            counts.len(),
            moves.as_mut_ptr(),
            1,
        );
        (answer, given(answer, moves)[0])
    }

    fn plan(&mut self, start: Start, row: &mut [u16]) -> u8 {
        let Start {
            floor,
            cap,
            count,
            arrival,
        } = start;
        call!(rl_plan_row, floor, cap, count, arrival, row.as_mut_ptr(), row.len())
    }

    fn rom_plan(&mut self, start: Start, row: &mut [u16]) -> u8 {
        let Start {
            floor,
            cap,
            count,
            arrival,
        } = start;
        let table = &self.table;
        call!(
            rl_rom_plan_row,
            table.as_ptr(),
            table.len(),
            floor,
            cap,
            count,
            arrival,
            row.as_mut_ptr(),
            row.len()
        )
    }

    fn rom_fill(&mut self, table: &mut [u16]) -> u8 {
        call!(rl_rom_fill_row, table.as_mut_ptr(), table.len())
    }

    fn skip_plan(&mut self, count: u64, arrival: u64, row: &mut [u16]) -> u8 {
        call!(rl_skip_plan_row, count, arrival, row.as_mut_ptr(), row.len())
    }

    fn share(&mut self, pool: u64, titles: Sharers, counts: &mut [u32]) -> u8 {
        let Sharers {
            rates,
            lengths,
            floors,
            caps,
        } = titles;
        call!(
            rl_share_row,
            pool,
            rates.as_ptr(),
            rates.len(),
            lengths.as_ptr(),
            lengths.len(),
            floors.as_ptr(),
            floors.len(),
            caps.as_ptr(),
            caps.len(),
            counts.as_mut_ptr(),
            counts.len(),
        )
    }

    fn write(&mut self, fields: &Fields, room: &mut [u8]) -> (u8, u64) {
        let mut written = lent::<1>();
        let answer = call!(
            rl_write_row,
            fields.as_ptr(),
            fields.len(),
            room.as_mut_ptr(),
            room.len(),
            written.as_mut_ptr(),
            1,
        );
        (answer, given(answer, written)[0])
    }

    fn read(&mut self, bytes: &[u8], fields: &mut Fields) -> u8 {
        call!(
            rl_read_row,
            bytes.as_ptr(),
            bytes.len(),
            fields.as_mut_ptr(),
            fields.len()
        )
    }

    fn next(&mut self, log: &[u8], place: u64, fields: &mut Fields) -> (u8, u64) {
        let mut place = [place];
        let answer = call!(
            rl_next_row,
            log.as_ptr(),
            log.len(),
            place.as_mut_ptr(),
            1,
            fields.as_mut_ptr(),
            fields.len(),
        );
        (answer, place[0])
    }

    fn waits(&mut self, log: PlayedLog, arrivals: &[u64]) -> (u8, [u64; 4]) {
        let mut report = lent::<4>();
        let answer = call!(
            rl_waits_row,
            log.pool,
            log.title,
            log.bytes.as_ptr(),
            log.bytes.len(),
            arrivals.as_ptr(),
            arrivals.len(),
            report.as_mut_ptr(),
            report.len(),
        );
        (answer, given(answer, report))
    }

    fn air(&mut self, log: PlayedLog, record: &[u16], row: &mut [u16]) -> (u8, [u64; 3]) {
        let mut report = lent::<3>();
        let answer = call!(
            rl_air_row,
            log.pool,
            log.title,
            log.bytes.as_ptr(),
            log.bytes.len(),
            record.as_ptr(),
            record.len(),
            row.as_mut_ptr(),
            row.len(),
            report.as_mut_ptr(),
            report.len(),
        );
        (answer, given(answer, report))
    }

    fn admissions(&mut self, log: PlayedLog, marks: &mut [u8]) -> u8 {
        call!(
            rl_admissions_row,
            log.pool,
            log.title,
            log.bytes.as_ptr(),
            log.bytes.len(),
            marks.as_mut_ptr(),
            marks.len(),
        )
    }

    fn salvage(&mut self, log: &[u8], area: &mut [u8], row: &mut [u64]) -> (u8, [u64; 3]) {
        let mut report = lent::<3>();
        let answer = call!(
            rl_salvage_row,
            log.as_ptr(),
            log.len(),
            area.as_mut_ptr(),
            area.len(),
            row.as_mut_ptr(),
            row.len(),
            report.as_mut_ptr(),
            report.len(),
        );
        (answer, given(answer, report))
    }

    fn save(&mut self, room: &mut [u8]) -> u8 {
        call!(rl_save_row, self.row(), ROW, room.as_mut_ptr(), room.len())
    }

    fn load(&mut self, bytes: &[u8]) -> u8 {
        call!(rl_load_row, self.row_mut(), ROW, bytes.as_ptr(), bytes.len())
    }
}
