//! The plan of a box (01, "The box plan"), of a skip-forward title's box (02, request 12) and of the small box (request 6).

use super::grid::{channel_cell, period, slot, Lanes};
use super::scheme::steady_first;
use crate::limits::*;
use crate::refusals::*;
use crate::subject::Start;

fn in_limits(start: Start) -> bool {
    (FLOOR_MIN..=FLOOR_MAX).contains(&start.floor)
        && (COUNT_MIN..=COUNT_MAX).contains(&start.cap)
        && (COUNT_MIN..=COUNT_MAX).contains(&start.count)
        && start.arrival <= ASKED_MAX
}

/// 1 15 13 14 8 10.
fn answer(start: Start, places: usize) -> u8 {
    let Start {
        floor,
        cap,
        count,
        arrival,
    } = start;
    let first = first_hit(&[
        (OUTSIDE_LIMITS, !in_limits(start)),
        (FLOOR_ABOVE_CAP, cap < floor),
        (BELOW_FLOOR, count < floor),
        (ABOVE_CAP, cap < count),
    ]);
    if first != DONE {
        return first;
    }
    first_hit(&[
        (NOT_AT_SLOT, !arrival.is_multiple_of(slot(cap, count))),
        (WRONG_ROWS, places < 1 << cap),
    ])
}

/// A box takes channel d during the ticks from its start up to w 2^d later; what it never takes gets 65535.
pub fn plan(start: Start, row: &mut [u16]) -> u8 {
    let number = answer(start, row.len());
    if number != DONE {
        return number;
    }
    let Start {
        floor,
        cap,
        count,
        arrival,
    } = start;
    row[..1 << cap].fill(NOTHING);
    for channel in 0..count {
        for after in 0..slot(cap, count) << channel {
            let cell = channel_cell(floor, cap, count, channel, arrival + after);
            row[cell as usize] = after as u16;
        }
    }
    DONE
}

/// The small box: a cell's tick is its first showing in the table, from the start on, on the lanes of the count.
pub fn rom_plan(start: Start, row: &mut [u16]) -> u8 {
    if start.floor != ROM_FLOOR || start.cap != ROM_CAP {
        return OUTSIDE_LIMITS;
    }
    let number = answer(start, row.len());
    if number != DONE {
        return number;
    }
    let lanes = Lanes::of(ROM_FLOOR, ROM_CAP);
    row[..1 << ROM_CAP].fill(NOTHING);
    for after in 0..period(ROM_CAP) {
        for lane in 0..start.count {
            let place = &mut row[lanes.cell(lane, start.arrival + after) as usize];
            if *place == NOTHING {
                *place = after as u16;
            }
        }
    }
    DONE
}

/// Each block at its first occurrence from the start; 1 10.
pub fn skip_plan(count: u64, arrival: u64, row: &mut [u16]) -> u8 {
    if !(COUNT_MIN..=STEADY_MAX).contains(&count) || arrival > ASKED_MAX {
        return OUTSIDE_LIMITS;
    }
    let blocks = 1 << (count - 1);
    if row.len() < blocks {
        return WRONG_ROWS;
    }
    for (cell, place) in row[..blocks].iter_mut().enumerate() {
        *place = (steady_first(arrival, cell as u64) - arrival) as u16;
    }
    DONE
}

/// The small box's table: the cells of each lane at the ticks of a period, lane by lane.
pub fn rom_fill(table: &mut [u16]) -> u8 {
    if table.len() != ROM_NUMBERS {
        return WRONG_ROWS;
    }
    let lanes = Lanes::of(ROM_FLOOR, ROM_CAP);
    let ticks = period(ROM_CAP);
    for (place, number) in table.iter_mut().enumerate() {
        *number = lanes.cell(place as u64 / ticks, place as u64 % ticks) as u16;
    }
    DONE
}
