//! Cells, ticks, slots, and the shifted grid (01, "Cells, ticks, slots" and "The shifted grid").

use std::cell::RefCell;
use std::collections::HashMap;
use std::rc::Rc;

/// The ticks of a slot of count `count`.
pub fn slot(cap: u64, count: u64) -> u64 {
    1 << (cap - count)
}

/// A tick in ms: the length over 2^K - 2^(K-A), rounded up.
pub fn tick(length: u64, floor: u64, cap: u64) -> u64 {
    length.div_ceil((1 << cap) - (1 << (cap - floor)))
}

/// The segment that channel `channel` of count `count` carries in slot `j`, counted from 1. The difference may be
/// negative; the remainder never is.
fn segment(floor: u64, count: u64, channel: u64, j: u64) -> u64 {
    let shift = (1i64 << (count - floor)) - 1;
    let place = (j as i64 - shift).rem_euclid(1 << channel);
    (1 << channel) + place as u64
}

/// The cell that a channel of a count carries at a tick.
pub fn channel_cell(floor: u64, cap: u64, count: u64, channel: u64, tick: u64) -> u64 {
    let width = slot(cap, count);
    (segment(floor, count, channel, tick / width) - 1) * width + tick % width
}

/// G(k, t): the cells on the channels of a count at a tick.
pub fn cells_at(floor: u64, cap: u64, count: u64, tick: u64) -> Vec<u64> {
    (0..count).map(|d| channel_cell(floor, cap, count, d, tick)).collect()
}

/// The cell of a lane at a tick by the sets: channels of count A first, then the one cell that a count more adds.
pub fn lane_cell_by_sets(floor: u64, cap: u64, lane: u64, tick: u64) -> u64 {
    if lane < floor {
        return channel_cell(floor, cap, floor, lane, tick);
    }
    let fewer = cells_at(floor, cap, lane, tick);
    let mut added = cells_at(floor, cap, lane + 1, tick)
        .into_iter()
        .filter(|cell| !fewer.contains(cell));
    let cell = added.next().expect("a count more adds a cell");
    assert!(added.next().is_none(), "a count more adds one cell only");
    cell
}

/// The channel of a count whose segments, 2^d to 2^(d+1) - 1, have a cell; none for the last slot's cells.
pub fn channel_of(cap: u64, count: u64, cell: u64) -> Option<u64> {
    let segment = cell / slot(cap, count) + 1;
    (0..count).find(|d| (1 << d) <= segment && segment < (2 << d))
}

/// Ticks after which every lane of a cap begins anew: the slowest channel of any count has 2^(k-1) segments.
pub fn period(cap: u64) -> u64 {
    1 << (cap - 1)
}

type Table = Rc<Vec<u16>>;

thread_local! {
    static TABLES: RefCell<HashMap<(u64, u64), Table>> = RefCell::new(HashMap::new());
}

/// Every lane's cells over one period, found by the sets once for each floor and cap.
fn table(floor: u64, cap: u64) -> Table {
    TABLES.with(|tables| {
        let mut tables = tables.borrow_mut();
        let made = tables.entry((floor, cap)).or_insert_with(|| {
            let cells =
                (0..cap).flat_map(|l| (0..period(cap)).map(move |t| lane_cell_by_sets(floor, cap, l, t) as u16));
            Rc::new(cells.collect())
        });
        Rc::clone(made)
    })
}

/// The lanes of a floor and a cap.
#[derive(Clone)]
pub struct Lanes {
    period: u64,
    cells: Table,
}

impl Lanes {
    pub fn of(floor: u64, cap: u64) -> Lanes {
        Lanes {
            period: period(cap),
            cells: table(floor, cap),
        }
    }

    /// The cell that a lane carries at a tick.
    pub fn cell(&self, lane: u64, tick: u64) -> u64 {
        u64::from(self.cells[(lane * self.period + tick % self.period) as usize])
    }
}

#[cfg(test)]
mod tests {
    use super::*;

    #[test]
    fn worked_cases_1_to_3() {
        assert_eq!(cells_at(2, 4, 2, 0), [0, 4]);
        let mut three = cells_at(2, 4, 3, 0);
        three.sort();
        assert_eq!(three, [0, 4, 12]);
        let mut four = cells_at(2, 4, 4, 0);
        four.sort();
        assert_eq!(four, [0, 2, 4, 12]);
        let lane = |l| -> Vec<u64> { (0..8).map(|t| lane_cell_by_sets(2, 4, l, t)).collect() };
        assert_eq!(lane(3), [2, 0, 14, 0, 2, 0, 6, 0]);
        assert_eq!(lane(2), [12, 13, 0, 1, 4, 5, 0, 1]);
        assert_eq!((tick(1, 2, 4), tick(12, 2, 4), tick(13, 2, 4)), (1, 1, 2));
    }

    #[test]
    fn lanes_repeat_after_a_period() {
        for floor in 2..=5 {
            for cap in floor..=7 {
                let lanes = Lanes::of(floor, cap);
                for lane in 0..cap {
                    for t in 0..3 * period(cap) {
                        assert_eq!(lanes.cell(lane, t), lane_cell_by_sets(floor, cap, lane, t));
                    }
                }
            }
        }
    }

    #[test]
    fn each_count_lies_within_the_next() {
        for floor in 2..=5 {
            for cap in floor..=8 {
                for count in floor..cap {
                    for t in 0..2 * period(cap) {
                        let more = cells_at(floor, cap, count + 1, t);
                        assert!(cells_at(floor, cap, count, t).iter().all(|c| more.contains(c)));
                    }
                }
            }
        }
    }
}
