//! An agent's titles as the maker of calls reads them off a row, so that its calls can be in time.

use crate::agent_row::{self, AgentRow, CLOSING, OPEN, STEADY};
use crate::limits::TITLES;

#[derive(Clone, Copy)]
pub struct TitleView<'a> {
    numbers: &'a [u64],
}

pub fn title(row: &AgentRow, id: usize) -> TitleView<'_> {
    let from = agent_row::place(id, 0);
    TitleView {
        numbers: &row[from..from + agent_row::TITLE_SIZE],
    }
}

/// The ids whose titles pass a test.
pub fn ids_where(row: &AgentRow, test: impl Fn(TitleView) -> bool) -> Vec<u64> {
    let ids = 0..TITLES;
    ids.filter(|id| test(title(row, *id))).map(|id| id as u64).collect()
}

impl TitleView<'_> {
    pub fn number(&self, place: usize) -> u64 {
        self.numbers[place]
    }

    pub fn is_open(&self) -> bool {
        self.number(agent_row::MODE) == OPEN
    }

    pub fn is_closing(&self) -> bool {
        self.number(agent_row::MODE) == CLOSING
    }

    pub fn is_steady(&self) -> bool {
        self.number(agent_row::KIND) == STEADY
    }

    pub fn is_there(&self) -> bool {
        self.is_open() || self.is_closing()
    }

    /// A tick in ms; 1 for numbers that no title has.
    pub fn tick_length(&self) -> u64 {
        let (length, floor, cap) = (
            self.number(agent_row::LENGTH),
            self.number(agent_row::FLOOR),
            self.number(agent_row::CAP),
        );
        if cap == 0 || cap > 12 || floor > cap || floor == 0 {
            return 1;
        }
        let cells = if self.is_steady() {
            1 << (cap - 1)
        } else {
            (1u64 << cap) - (1 << (cap - floor))
        };
        length.div_ceil(cells).max(1)
    }

    /// A slot of a count in ms.
    pub fn slot_length(&self, count: u64) -> u64 {
        let cap = self.number(agent_row::CAP);
        let bits = if self.is_steady() { 0 } else { cap.saturating_sub(count) };
        self.tick_length().saturating_mul(1 << bits.min(12))
    }

    /// The first slot start of a count from a time on.
    pub fn slot_start(&self, count: u64, from: u64) -> u64 {
        let slot = self.slot_length(count);
        let opened = self.number(agent_row::OPENED);
        let slots = from.saturating_sub(opened).div_ceil(slot);
        opened.saturating_add(slots.saturating_mul(slot)).max(from)
    }

    /// From when on it may change again.
    pub fn settled_at(&self) -> u64 {
        let slot = self.slot_length(self.number(agent_row::FLOOR));
        self.number(agent_row::TUNED).saturating_add(slot)
    }

    /// The lanes that still send at a time.
    pub fn sending(&self, time: u64) -> Vec<u64> {
        let tick = time.saturating_sub(self.number(agent_row::OPENED)) / self.tick_length();
        let active = if self.is_open() {
            self.number(agent_row::COUNT)
        } else {
            0
        };
        let gone = |lane: u64| {
            self.number(agent_row::DROPPED + lane as usize)
                .saturating_add(self.number(agent_row::OWED + lane as usize))
        };
        let above = active..self.number(agent_row::CAP).min(12);
        above.filter(|lane| tick < gone(*lane)).collect()
    }
}
