//! A title's ticks and cells, from the notice that opened it, and which bytes of the film each cell is.

use crate::library::{Kind, Notice, Standing};
use std::ops::Range;

/// Of an opening: when it was, how long a tick lasts, how many cells hold film, and how many bytes each of them has.
#[derive(Clone, Copy, Debug, PartialEq, Eq)]
pub struct Grid {
    pub opened: u64,
    pub tick: u64,
    pub cells: u64,
    pub film: u64,
    pub size: u64,
    pub cell_bytes: u64,
}

impl Grid {
    /// Of a title that sends a film of so many bytes.
    pub fn of(opening: &Notice, size: u64) -> Grid {
        let (cells, parts) = match opening.kind {
            Kind::OpensSkip => (1 << (opening.count - 1), 1 << (opening.count - 1)),
            _ => (1 << opening.cap, (1 << opening.cap) - (1 << (opening.cap - opening.floor))),
        };
        let tick = opening.length.div_ceil(parts);
        let film = opening.length.div_ceil(tick).min(cells);
        Grid { opened: opening.time, tick, cells, film, size, cell_bytes: size.div_ceil(film) }
    }

    /// When a tick begins.
    pub fn time(&self, tick: u64) -> u64 {
        self.opened + tick * self.tick
    }

    /// The first tick that begins at a time or later.
    pub fn from(&self, time: u64) -> u64 {
        time.saturating_sub(self.opened).div_ceil(self.tick)
    }

    /// The film's bytes that a cell is.
    pub fn bytes(&self, cell: u64) -> Range<u64> {
        let from = (cell * self.cell_bytes).min(self.size);
        from..(from + self.cell_bytes).min(self.size)
    }

    /// How many ticks a slot has.
    pub fn slot(&self, opening: &Notice, count: u64) -> u64 {
        match opening.kind {
            Kind::OpensSkip => 1,
            _ => 1 << (opening.cap - count),
        }
    }

    /// Whether a box may begin at a tick, by what the title's status then is.
    pub fn admits(&self, opening: &Notice, standing: &Standing, tick: u64) -> bool {
        standing.count > 0 && !standing.doors_held && tick.is_multiple_of(self.slot(opening, standing.count))
    }
}

#[cfg(test)]
mod tests {
    use super::*;
    use crate::library::written;

    #[test]
    fn cells_are_the_film_once() {
        let grid = Grid::of(&written([1, 1, 0, 500, 12, 2, 4, 4]), 1_000);
        assert_eq!((grid.tick, grid.cells, grid.film, grid.cell_bytes), (1, 16, 12, 84));
        let bytes: Vec<u64> = (0..grid.film).flat_map(|cell| grid.bytes(cell)).collect();
        assert_eq!(bytes, (0..1_000).collect::<Vec<_>>());
        assert_eq!((grid.time(3), grid.from(503), grid.from(0)), (503, 3, 0));
    }

    #[test]
    fn a_skip_forward_title_begins_at_every_tick() {
        let opening = written([6, 1, 0, 0, 64, 0, 0, 4]);
        let grid = Grid::of(&opening, 800);
        assert_eq!((grid.tick, grid.cells, grid.film, grid.cell_bytes), (8, 8, 8, 100));
        assert!(grid.admits(&opening, &Standing { count: 4, held: 4, doors_held: false }, 5));
    }
}
