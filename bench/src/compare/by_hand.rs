//! Agents made by hand: one number out of its limits, or numbers that no events lead to.

use super::maker::Maker;
use super::titles::{ids_where, title};
use crate::agent_row::{self, AgentRow, CLOSING, LAST_AT, OPEN, PADDED, POOL_AT, ROW, SEQUENCE_AT, STEADY, VERSION_AT};
use crate::limits::*;

impl Maker {
    pub fn by_hand(&mut self, row: &AgentRow) -> AgentRow {
        let mut made = *row;
        if self.random.percent(20) {
            self.edge(&mut made);
            return made;
        }
        if self.random.percent(30) {
            let place = self.any_place(row);
            made[place] = match self.random.below(4) {
                0 => ASKED_MAX + 1,
                1 => self.random.within(0..=20),
                2 => LENGTH_MAX + self.random.below(2),
                _ => self.random.any(),
            };
            return made;
        }
        for _ in 0..self.random.pick(&[1, 1, 1, 2, 3, 8]) {
            self.turn_number(&mut made);
        }
        made
    }

    /// A number at its limit, or just over it: of a title that is there, or of a slot without one.
    fn edge(&mut self, row: &mut AgentRow) {
        let id = if self.random.percent(50) {
            self.hand_id(row)
        } else {
            self.random.place(TITLES)
        };
        let place = self.random.place(agent_row::TITLE_SIZE);
        let limit = match place {
            agent_row::MODE => CLOSING,
            agent_row::KIND | agent_row::MARK => 1,
            agent_row::LENGTH => LENGTH_MAX,
            agent_row::FLOOR => self.random.pick(&[FLOOR_MAX, STEADY_MAX]),
            agent_row::CAP | agent_row::COUNT => COUNT_MAX,
            _ => ASKED_MAX,
        };
        let kind = agent_row::place(id, agent_row::KIND);
        if place == agent_row::FLOOR && self.random.percent(50) {
            row[kind] = self.random.below(2);
        }
        row[agent_row::place(id, place)] = limit + self.random.below(2);
    }

    /// A place of the row, rather of a title that is there.
    fn any_place(&mut self, row: &AgentRow) -> usize {
        let there = ids_where(row, |t| t.is_there());
        match self.random.below(10) {
            0 => self.random.pick(&[VERSION_AT, SEQUENCE_AT, POOL_AT, LAST_AT]),
            1 => self.random.place(ROW),
            _ if there.is_empty() => self.random.place(ROW),
            _ => agent_row::place(
                self.random.pick(&there) as usize,
                self.random.place(agent_row::TITLE_SIZE),
            ),
        }
    }

    fn hand_id(&mut self, row: &AgentRow) -> usize {
        let there = ids_where(row, |t| t.is_there());
        if there.is_empty() || self.random.percent(15) {
            return self.random.place(TITLES);
        }
        self.random.pick(&there) as usize
    }

    /// Another number in a place, mostly within its limits.
    fn turn_number(&mut self, row: &mut AgentRow) {
        let id = self.hand_id(row);
        let now = row[LAST_AT];
        let near = self.near(now);
        match self.random.below(20) {
            0 => row[POOL_AT] = self.random.within(0..=12),
            1 => row[POOL_AT] = self.random.within(1..=POOL_MAX),
            2 => row[LAST_AT] = near,
            3 => row[SEQUENCE_AT] = self.random.pick(&[SEQUENCE_MAX, SEQUENCE_MAX - 1, 0, 7]),
            4 => self.retitle(row, id),
            5 => row[agent_row::place(id, agent_row::MODE)] = self.random.pick(&[0, OPEN, CLOSING]),
            6 => row[agent_row::place(id, agent_row::MARK)] = self.random.below(2),
            7 => row[agent_row::place(id, agent_row::OPENED)] = near,
            8 => row[agent_row::place(id, agent_row::TITLE_LAST)] = near,
            9 => row[agent_row::place(id, agent_row::TUNED)] = near,
            10..=14 => self.drop_by_hand(row, id),
            _ => self.turn_tick(row, id),
        }
    }

    /// A lane that was dropped not long ago, and counts that ended about then: slots begin where they may, or beside.
    fn drop_by_hand(&mut self, row: &mut AgentRow, id: usize) {
        let view = title(row, id);
        let cap = view.number(agent_row::CAP).clamp(2, COUNT_MAX);
        let (opened, length) = (view.number(agent_row::OPENED), view.tick_length());
        let tick = row[LAST_AT].saturating_sub(opened) / length;
        let mut active = if view.is_open() {
            view.number(agent_row::COUNT)
        } else {
            0
        };
        if active >= cap || self.random.percent(30) {
            row[agent_row::place(id, agent_row::MODE)] = CLOSING;
            active = 0;
        }
        let lane = self.random.within(active..=cap - 1);
        self.focus = Some((id as u64, lane));
        // mostly where a slot of the lane begins
        let bits = if self.random.percent(60) {
            cap - 1 - lane
        } else {
            self.random.below(cap)
        };
        let near = if self.random.percent(50) {
            self.random.below(1 << cap)
        } else {
            tick
        };
        let at = near.saturating_sub(self.random.below(4 << bits)) >> bits << bits;
        row[agent_row::place(id, agent_row::DROPPED + lane as usize)] = at.min(ASKED_MAX);
        row[agent_row::place(id, agent_row::OWED + lane as usize)] = self.random.within(1..=1 << (cap - 1));
        // its last event was the drop, so that the whole list can be asked about
        row[agent_row::place(id, agent_row::TITLE_LAST)] = (opened + at.saturating_mul(length)).min(ASKED_MAX);
        let ended = self.random.percent(50);
        for count in lane + 1..=cap {
            let end = self.end_by_hand(at, 1 << (cap - count), ended);
            row[agent_row::place(id, agent_row::ENDS + count as usize)] = end.min(ASKED_MAX);
        }
    }

    /// When a count ended, which may be after a drop.
    fn end_by_hand(&mut self, at: u64, slot: u64, ended: bool) -> u64 {
        match self.random.below(8) {
            0..=2 => 0,
            3 if !ended => at + slot,
            4 if !ended => at + self.random.below(3),
            5 => at.saturating_sub(self.random.below(4 * slot)),
            _ => (at / slot).saturating_sub(self.random.below(3)) * slot,
        }
    }

    /// A time not far from another, or any.
    fn near(&mut self, time: u64) -> u64 {
        let step = self.random.any() >> 40;
        match self.random.below(10) {
            0 => self.random.below(ASKED_MAX + 1),
            1 => ASKED_MAX,
            2..=5 => time.saturating_add(step).min(ASKED_MAX),
            _ => time.saturating_sub(step),
        }
    }

    /// An end, a drop or a number of owed cells, near the tick that it is.
    fn turn_tick(&mut self, row: &mut AgentRow, id: usize) {
        let view = title(row, id);
        let tick = row[LAST_AT].saturating_sub(view.number(agent_row::OPENED)) / view.tick_length();
        let reach = 1u64 << view.number(agent_row::CAP).clamp(1, 12);
        let shift = self.random.below(2 * reach);
        let near = match self.random.below(8) {
            0 => 0,
            1 => self.random.below(ASKED_MAX + 1),
            2 => ASKED_MAX,
            3..=4 => (tick + shift).min(ASKED_MAX),
            _ => tick.saturating_sub(shift),
        };
        let place = match self.random.below(4) {
            0..=1 => agent_row::ENDS + self.random.place(COUNTS),
            2 => agent_row::DROPPED + self.random.place(LANES),
            _ => agent_row::OWED + self.random.place(LANES),
        };
        let owed = place >= agent_row::OWED && self.random.percent(70);
        row[agent_row::place(id, place)] = if owed { self.random.below(reach) } else { near };
    }

    /// Another film, or a skip-forward title, in a slot.
    fn retitle(&mut self, row: &mut AgentRow, id: usize) {
        let mut film = self.film();
        let steady = self.random.percent(30);
        if steady {
            let high = if self.random.percent(10) {
                STEADY_MAX + 1
            } else {
                STEADY_MAX
            };
            let count = self.random.within(COUNT_MIN..=high);
            film.floor = count;
            film.cap = count;
            film.count = count;
        }
        let numbers = [
            (agent_row::MODE, OPEN + self.random.below(2)),
            (agent_row::KIND, if steady { STEADY } else { PADDED }),
            (agent_row::LENGTH, film.length),
            (agent_row::FLOOR, film.floor),
            (agent_row::CAP, film.cap),
            (agent_row::COUNT, film.count),
        ];
        for (place, number) in numbers {
            row[agent_row::place(id, place)] = number;
        }
    }
}
