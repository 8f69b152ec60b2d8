//! Events in time, and out of it.

use super::call::Call;
use super::maker::Maker;
use super::titles::{ids_where, title, TitleView};
use crate::agent_row::{self, AgentRow, LAST_AT, SEQUENCE_AT};
use crate::limits::*;
use crate::model::bytes_of;
use crate::subject::Fields;

impl Maker {
    /// An id whose title passes a test, or any.
    fn id_where(&mut self, row: &AgentRow, test: impl Fn(TitleView) -> bool) -> u64 {
        let ids = ids_where(row, test);
        if ids.is_empty() || self.random.percent(6) {
            return self.id();
        }
        self.random.pick(&ids)
    }

    /// The time of the last event, or the session's first.
    fn now(&self, row: &AgentRow) -> u64 {
        row[LAST_AT].max(self.base)
    }

    /// A time at which an event of a title may come that needs a slot start of a count.
    fn turn_time(&mut self, row: &AgentRow, id: u64, count: u64, settles: bool) -> u64 {
        let now = self.now(row);
        if id > ID_MAX {
            return now;
        }
        let view = title(row, id as usize);
        let last = view.number(agent_row::TITLE_LAST);
        let from = if settles {
            view.settled_at()
        } else {
            last.saturating_add(1)
        };
        let slot = view.slot_length(count);
        let due = view.slot_start(count, now.max(from));
        match self.random.below(40) {
            0 => now,
            1 => last,
            2 => due.saturating_add(1 + self.random.below(slot)),
            3 => due.saturating_sub(1 + self.random.below(slot)),
            4 => view.slot_start(count, now),
            5 => view.slot_start(count, now.max(last.saturating_add(1))),
            6 => now.saturating_sub(1 + self.random.below(100)),
            7 => self.number(now.min(EVENT_TIME_MAX), EVENT_TIME_MAX),
            _ => due.saturating_add(self.random.below(3).saturating_mul(slot)),
        }
    }

    /// When a title opens: soon.
    fn open_time(&mut self, row: &AgentRow) -> u64 {
        let now = self.now(row);
        match self.random.below(30) {
            0 => now.saturating_sub(1 + self.random.below(100)),
            1 => self.number(now.min(EVENT_TIME_MAX), EVENT_TIME_MAX),
            2..=20 => now,
            _ => now.saturating_add(self.random.below(40)),
        }
    }

    pub fn open(&mut self, row: &AgentRow) -> Call {
        let id = self.id_where(row, |t| !t.is_open());
        let time = self.open_time(row);
        if self.random.percent(25) {
            let count = self.number(COUNT_MIN, STEADY_MAX);
            let length = self.length(count.saturating_sub(1));
            return Call::Skip {
                id,
                time,
                length,
                count,
            };
        }
        let film = self.film();
        Call::Open { id, time, film }
    }

    pub fn change(&mut self, row: &AgentRow) -> Call {
        let id = self.changing_id(row);
        let view = title(row, (id as usize).min(TITLES - 1));
        let (floor, cap) = (view.number(agent_row::FLOOR), view.number(agent_row::CAP));
        let ruling = view.number(agent_row::COUNT);
        let count = match self.random.below(10) {
            0..=1 => floor,
            2..=3 => cap,
            4 => ruling,
            5..=6 => self.count(floor, ruling.saturating_sub(1).max(floor)),
            _ => self.count(ruling.saturating_add(1).min(cap), cap),
        };
        let smaller = count.min(ruling);
        let time = self.turn_time(row, id, smaller, true);
        Call::Change { id, time, count }
    }

    /// Mostly a film that is open.
    fn changing_id(&mut self, row: &AgentRow) -> u64 {
        match self.random.below(24) {
            0 => self.id_where(row, |t| t.is_steady()),
            1 => self.id_where(row, |t| t.is_closing()),
            2 => self.id_where(row, |t| t.is_open() && !t.is_steady()),
            _ => self.id_where(row, |t| {
                t.is_open() && t.number(agent_row::FLOOR) < t.number(agent_row::CAP)
            }),
        }
    }

    pub fn close(&mut self, row: &AgentRow) -> Call {
        let closing = self.random.percent(10);
        let id = self.id_where(row, |t| t.is_closing() == closing && t.is_there());
        let floor = title(row, (id as usize).min(TITLES - 1)).number(agent_row::FLOOR);
        let time = self.turn_time(row, id, floor, false);
        Call::Close { id, time }
    }

    pub fn doors(&mut self, row: &AgentRow) -> Call {
        let hold = self.random.percent(50);
        let mark = u64::from(!hold);
        let id = if self.random.percent(70) {
            self.id_where(row, |t| {
                t.is_open() && !t.is_steady() && t.number(agent_row::MARK) == mark
            })
        } else {
            self.changing_id(row)
        };
        let count = title(row, (id as usize).min(TITLES - 1)).number(agent_row::COUNT);
        let time = self.turn_time(row, id, count, false);
        if hold {
            Call::Hold { id, time }
        } else {
            Call::Lift { id, time }
        }
    }

    /// An event of any kind.
    pub fn event(&mut self, row: &AgentRow) -> Call {
        match self.random.below(10) {
            0..=2 => self.open(row),
            3..=5 => self.change(row),
            6 => self.close(row),
            _ => self.doors(row),
        }
    }

    /// The notice of an event, mostly in its turn.
    pub fn notice(&mut self, row: &AgentRow) -> Vec<u8> {
        let event = self.event(row);
        self.notice_of(row, &event)
    }

    /// The notice of one event.
    pub fn notice_of(&mut self, row: &AgentRow, event: &Call) -> Vec<u8> {
        let mut fields = fields_of(event);
        let turn = row[SEQUENCE_AT].wrapping_add(1);
        fields[1] = match self.random.below(30) {
            0 => 0,
            1 => turn.wrapping_add(1),
            2 => turn.wrapping_sub(1),
            _ => turn,
        } & SEQUENCE_MAX;
        bytes_of(&fields).expect("a notice's numbers fit its fields")
    }

    pub fn take(&mut self, row: &AgentRow) -> Call {
        let mut bytes = self.notice(row);
        if self.random.percent(8) {
            self.damage(&mut bytes);
        }
        Call::Take { bytes }
    }
}

/// An event as a notice's row; numbers that its fields do not hold are cut.
fn fields_of(call: &Call) -> Fields {
    let cut = |n: u64| n & 0xff;
    let long = |n: u64| n & SEQUENCE_MAX;
    match *call {
        Call::Open { id, time, film } => [
            1,
            0,
            cut(id),
            time,
            long(film.length),
            cut(film.floor),
            cut(film.cap),
            cut(film.count),
        ],
        Call::Skip {
            id,
            time,
            length,
            count,
        } => [6, 0, cut(id), time, long(length), 0, 0, cut(count)],
        Call::Change { id, time, count } => [2, 0, cut(id), time, 0, 0, 0, cut(count)],
        Call::Close { id, time } => [3, 0, cut(id), time, 0, 0, 0, 0],
        Call::Hold { id, time } => [4, 0, cut(id), time, 0, 0, 0, 0],
        Call::Lift { id, time } => [5, 0, cut(id), time, 0, 0, 0, 0],
        _ => unreachable!("an event"),
    }
}
