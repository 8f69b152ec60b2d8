//! The small box's table: ten lanes by 512 ticks, in place.

use super::grid::lane_cell;
use super::plans;
use crate::limits::{NOTHING, ROM_CAP, ROM_FLOOR, ROM_NUMBERS};
use crate::refusals::*;
use crate::subject::Start;

const PERIOD: usize = 512;
const CELLS: usize = 1 << ROM_CAP;
const LANES: usize = ROM_CAP as usize;

static TABLE: [u16; LANES * PERIOD] = table();

const fn table() -> [u16; LANES * PERIOD] {
    let mut cells = [0; LANES * PERIOD];
    let mut at = 0;
    while at < LANES * PERIOD {
        cells[at] = lane_cell(ROM_FLOOR, ROM_CAP, (at / PERIOD) as u64, (at % PERIOD) as u64) as u16;
        at += 1;
    }
    cells
}

/// The cell that a lane carries at a tick.
#[inline]
pub fn cell(lane: u64, tick: u64) -> u64 {
    u64::from(TABLE[lane as usize * PERIOD + tick as usize % PERIOD])
}

/// Each cell's first showing in one period, lane by lane from the last tick back to the start, so that the first is written last.
pub fn plan(start: Start, row: &mut [u16]) -> u8 {
    if start.floor != ROM_FLOOR || start.cap != ROM_CAP {
        return OUTSIDE_LIMITS;
    }
    let number = plans::answer(start, row.len());
    if number != DONE {
        return number;
    }
    let row = &mut row[..CELLS];
    row.fill(NOTHING);
    let from = start.arrival as usize % PERIOD;
    for after in (0..PERIOD).rev() {
        let tick = (from + after) % PERIOD;
        for lane in 0..start.count as usize {
            // cells are below 1,024: the mask spares a test
            row[usize::from(TABLE[lane * PERIOD + tick]) % CELLS] = after as u16;
        }
    }
    DONE
}

/// The table, copied.
pub fn fill(table: &mut [u16]) -> u8 {
    if table.len() != ROM_NUMBERS {
        return WRONG_ROWS;
    }
    table.copy_from_slice(&TABLE);
    DONE
}
